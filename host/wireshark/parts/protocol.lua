-- ---- the protocol ch11

local ch11 = Proto("ch11", "Recording of bpfrec (IRIG 106-17 Chapter 11)")
ch11.prefs.facts = Pref.string("Facts", "", "The file of facts by which times are absolute, where it isn't the one "
  .. "beside the recording or can't be found there")

local DATA_TYPES = {
  [ETHERNET_DATA] = "Ethernet data, Format 0",
  [COMPUTER_GENERATED_DATA] = "computer-generated data, Format 0",
}
local field = {
  place = ProtoField.uint64("ch11.place", "Place in the recording"),
  time = ProtoField.string("ch11.time", "Time"),
  channel = ProtoField.uint16("ch11.channel", "Channel ID"),
  counter = ProtoField.uint64("ch11.counter", "Relative time counter, in ticks of 100 ns"),
  -- of a frame
  packet = ProtoField.uint64("ch11.packet", "Place of its packet"),
  version = ProtoField.uint32("ch11.version", "Version of the filter"),
  number = ProtoField.uint64("ch11.number", "Number of the frame on its channel, from 0 on"),
  length = ProtoField.uint16("ch11.length", "Length with the frame check sequence"),
  net = ProtoField.uint8("ch11.net", "Network identifier"),
  speed = ProtoField.uint8("ch11.speed", "Ethernet speed"),
  content = ProtoField.uint8("ch11.content", "Content"),
  wrong_fcs = ProtoField.bool("ch11.wrong_fcs", "Recorded with a wrong check sequence"),
  other_error = ProtoField.bool("ch11.other_error", "Recorded with a frame error"),
  computed_fcs = ProtoField.uint32("ch11.computed_fcs", "Check sequence by these bytes", base.HEX),
  bad_fcs = ProtoField.bool("ch11.bad_fcs", "Check sequence is not that of these bytes"),
  -- of a packet
  header_channel = ProtoField.uint16("ch11.header.channel", "Channel ID"),
  packet_len = ProtoField.uint32("ch11.header.packet_length", "Packet length"),
  data_len = ProtoField.uint32("ch11.header.data_length", "Data length"),
  data_version = ProtoField.uint8("ch11.header.version", "Data type version"),
  sequence = ProtoField.uint8("ch11.header.sequence", "Sequence number"),
  flags = ProtoField.uint8("ch11.header.flags", "Packet flags", base.HEX),
  kind = ProtoField.uint8("ch11.header.type", "Data type", base.HEX, DATA_TYPES),
  checksum = ProtoField.uint16("ch11.header.checksum", "Header checksum", base.HEX),
  -- of a record
  first = ProtoField.uint64("ch11.first", "First frame that met it"),
  count = ProtoField.uint16("ch11.instructions", "Instructions"),
  line = ProtoField.string("ch11.instruction", "Instruction"),
  offered = ProtoField.uint64("ch11.offered", "Frames offered"),
  kept = ProtoField.uint64("ch11.kept", "Frames kept"),
  -- of a damaged place
  damage = ProtoField.string("ch11.damage", "Damaged"),
  damaged_len = ProtoField.uint64("ch11.damaged_length", "Bytes that are no packet"),
}
ch11.fields = field
local groups, levels = expert.group, expert.severity
local told_damage = ProtoExpert.new("ch11.damage.expert", "Damaged place", groups.MALFORMED, levels.ERROR)
local told_wrong = ProtoExpert.new("ch11.wrong_fcs.expert", "Wrong check sequence", groups.CHECKSUM, levels.ERROR)
local told_error = ProtoExpert.new("ch11.other_error.expert", "Faulty frame", groups.MALFORMED, levels.WARN)
ch11.experts = { told_damage, told_wrong, told_error }

local ethernet, plain_data = Dissector.get("eth_withfcs"), Dissector.get("data")
-- Which says whether anything of ch11 is looked at: a listing does without.
local ch11_dissector

-- A number up to 2^53 as a field has it.
local function long(number)
  return UInt64(number % 4294967296, floor(number / 4294967296))
end

-- Exclusive or of two numbers of 32 bits, by what this Lua has for it.
local xor = bit32 and bit32.bxor or bit and bit.bxor or load("return function(a, b) return a ~ b end")()
local crc_table

local function make_crc_table()
  local made = {}
  for number = 0, 255 do
    local value = number
    for _ = 1, 8 do
      local half = floor(value / 2)
      value = value % 2 == 1 and xor(half, 0xEDB88320) % 4294967296 or half
    end
    made[number] = value
  end
  return made
end

-- The check sequence of a frame's bytes before its own.
local function check_sequence(data)
  crc_table = crc_table or make_crc_table()
  local value = 0xFFFFFFFF
  for at = 1, #data - CHECKSUM_LEN do
    value = xor(crc_table[xor(value % 256, byte(data, at)) % 256], floor(value / 256)) % 4294967296
  end
  return 0xFFFFFFFF - value
end

-- Adds the check sequence that a frame should have, where somebody looks: Lua takes 0.1 µs a byte for it.
local function add_check_sequence(item, data)
  local is_looked_at = item.visible or item:referenced(field.bad_fcs) or item:referenced(field.computed_fcs)
  if is_looked_at and #data >= MIN_FRAME_LEN then
    local computed = check_sequence(data)
    local is_bad = computed ~= number32(data, #data - CHECKSUM_LEN)
    item:add(field.computed_fcs, computed):set_generated()
    local bad = item:add(field.bad_fcs, is_bad):set_generated()
    if is_bad then
      bad:add_proto_expert_info(told_wrong, "The check sequence is not that of these bytes")
    end
  end
end

-- Adds a field to a frame's item, where somebody asks for it: what there is of the item then.
local function add_asked(item, which, value)
  if item:referenced(which) then
    return item:add(which, value)
  end
end

-- Adds whether a frame has a fault; one that it has is said as expert information, whoever asks.
local function add_fault(item, which, is_so, expert_info, text)
  if is_so then
    item:add(which, true):add_proto_expert_info(expert_info, text)
  else
    add_asked(item, which, false)
  end
end

-- Adds a place or another number of up to 2^53.
local function add_long(item, which, number)
  if item:referenced(which) then
    item:add(which, long(number))
  end
end

-- Adds what the recording says of a frame.
local function add_frame(tree, row, wrong, other, content)
  local item = tree:add(ch11)
  if item.visible then
    item:set_text(format("Channel %d, frame %.0f, counter %.0f%s%s", row.channel, row.number, row.counter,
      wrong and ", wrong check sequence" or "", other and ", frame error" or ""))
  end
  add_asked(item, field.channel, row.channel)
  if row.version then
    add_asked(item, field.version, row.version)
  end
  add_long(item, field.number, row.number)
  add_long(item, field.counter, row.counter)
  add_asked(item, field.time, row.times.note)
  add_asked(item, field.net, row.net)
  add_asked(item, field.speed, row.top % 16)
  add_asked(item, field.content, content)
  add_fault(item, field.wrong_fcs, wrong, told_wrong, "Recorded with a wrong check sequence")
  add_fault(item, field.other_error, other, told_error, "Recorded with a frame error")
  add_asked(item, field.length, row.length)
  add_long(item, field.place, row.place)
  add_long(item, field.packet, row.packet)
  if content == 0 then
    add_check_sequence(item, row.data)
  end
end

-- Dissects a frame: as Ethernet, where it is a frame with its check sequence.
local function dissect_frame(tvb, pinfo, tree, row)
  local top = row and row.top or 0
  local wrong, other, content = top >= 128, top % 128 >= 64, floor(top / 16) % 4
  if row and (wrong or other or tree:referenced(ch11_dissector)) then
    add_frame(tree, row, wrong, other, content)
  end
  if content == 0 and tvb:len() >= MIN_FRAME_LEN then
    ethernet:call(tvb, pinfo, tree)
  else
    pinfo.cols.protocol = "CH11"
    pinfo.cols.info = format("content %d, %d bytes", content, tvb:len())
    plain_data:call(tvb, pinfo, tree)
  end
  if wrong or other then
    pinfo.cols.info:append(wrong and " [wrong check sequence]" or " [faulty]")
  end
end

-- Adds the fields of a packet's header.
local function add_header(item, tvb)
  item:add_le(field.header_channel, tvb(2, 2))
  item:add_le(field.packet_len, tvb(4, 4))
  item:add_le(field.data_len, tvb(8, 4))
  item:add(field.data_version, tvb(12, 1))
  item:add(field.sequence, tvb(13, 1))
  item:add(field.flags, tvb(14, 1))
  item:add(field.kind, tvb(15, 1))
  item:add_le(field.counter, tvb(16, 6))
  item:add_le(field.checksum, tvb(22, 2))
end

-- Adds a program: its numbers, and a line for each instruction. Of a channel it is the filter from a frame on.
local function add_program(item, tvb, data)
  local channel, version, count = number16(data, 34), number32(data, 36), number16(data, 48)
  local begin, plural = HEADER_LEN + PROGRAM_HEAD_LEN, count == 1 and "" or "s"
  local insns = insns_in(data, begin, min(count, floor((#data - begin) / INSN_LEN)))
  local text = format("filter version %.0f of channel %d, %d instruction%s", version, channel, count, plural)
  item:add_le(field.channel, tvb(34, 2))
  item:add_le(field.version, tvb(36, 4))
  item:add_le(field.first, tvb(40, 8))
  local fault = #insns < count and "it is too long to be shown whole" or text_fault(insns)
  local list = item:add_le(field.count, tvb(48, 2))
  if fault then
    list:append_text(", which have no text: " .. fault)
  end
  for number, line in ipairs(lines_of(insns, fault)) do
    list:add(field.line, tvb(HEADER_LEN + PROGRAM_HEAD_LEN + INSN_LEN * (number - 1), INSN_LEN), line):set_text(line)
  end
  return text
end

-- Adds the end of a channel.
local function add_end(item, tvb, data)
  item:add_le(field.channel, tvb(34, 2))
  item:add_le(field.offered, tvb(36, 8))
  item:add_le(field.kept, tvb(44, 8))
  local offered, kept = tvb(36, 8):le_uint64(), tvb(44, 8):le_uint64()
  return format("end of channel %d, frames offered %s, kept %s", number16(data, 34), tostring(offered), tostring(kept))
end

-- Dissects a packet that has no frames.
local function dissect_packet(tvb, pinfo, tree, row)
  local data = tvb:raw()
  local packet = header_of(data)
  packet.data = data
  local what = row and row.of
  if not what and not take_record(packet) then
    what = packet.what
  end
  local item = tree:add(ch11, tvb())
  local header = item:add(ch11, tvb(0, HEADER_LEN), "Packet header")
  add_header(header, tvb)
  local text
  if what == "program" then
    text = add_program(item, tvb, data)
  elseif what == "end" then
    text = add_end(item, tvb, data)
  else
    item:add_le(field.channel, tvb(2, 2))
    text = format("packet of channel %d, data type 0x%02x, %.0f bytes%s", packet.channel, packet.kind, packet.packet_len,
      what == "frames" and ", without frames" or "")
  end
  if row then
    item:add(field.place, long(row.place))
    item:add(field.time, row.times.note)
  end
  item:set_text(text)
  pinfo.cols.protocol, pinfo.cols.info = "CH11", text
end

-- Dissects a damaged place.
local function dissect_damage(tvb, pinfo, tree, row)
  local text = format("%s, %.0f bytes are no packet", row.fault, row.length)
  local item = tree:add(ch11)
  item:set_text(text)
  item:add(field.damage, row.fault):add_proto_expert_info(told_damage, row.fault)
  item:add(field.place, long(row.place))
  item:add(field.damaged_len, long(row.length))
  pinfo.cols.protocol, pinfo.cols.info = "CH11", text
  plain_data:call(tvb, pinfo, tree)
end

-- Dissects a row by what was read of it last, or where these are other bytes, as of a capture that was saved from a
-- recording, by what they are.
function ch11.dissector(tvb, pinfo, tree)
  local data = tvb:len() > 0 and tvb:raw() or ""
  local row = last.data == data and last or nil
  if row and row.what == "damage" then
    dissect_damage(tvb, pinfo, tree, row)
  elseif row and row.what == "packet" or not row and #data >= HEADER_LEN and not header_fault(data) then
    dissect_packet(tvb, pinfo, tree, row)
  else
    dissect_frame(tvb, pinfo, tree, row)
  end
end

ch11_dissector = Dissector.get("ch11")
DissectorTable.get("wtap_encap"):add(ENCAPSULATION, ch11)
