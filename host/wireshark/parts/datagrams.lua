-- ---- datagrams, by which packets are published

do
  local ch10 = Proto("ch10udp", "Datagram of packets (IRIG 106 Chapter 10, transfer header of format 1)")
  ch10.prefs.port = Pref.uint("UDP port", 0, "The port to which packets are published; 0 for none")
  local FORMAT, WHOLE, PART, HEAD_LEN, PART_HEAD_LEN = 1, 0, 1, 4, 12
  local sent = {
    format = ProtoField.uint32("ch10udp.format", "Format", base.DEC, nil, 0xF),
    kind = ProtoField.uint32("ch10udp.kind", "Kind", base.DEC, { [WHOLE] = "whole packets", [PART] = "part of a packet" }, 0xF0),
    number = ProtoField.uint32("ch10udp.number", "Number of the datagram", base.DEC, nil, 0xFFFFFF00),
    channel = ProtoField.uint16("ch10udp.channel", "Channel ID of the packet"),
    sequence = ProtoField.uint8("ch10udp.sequence", "Sequence number of the packet"),
    at = ProtoField.uint32("ch10udp.at", "Place of the part in the packet"),
  }
  ch10.fields = sent
  local told_cut = ProtoExpert.new("ch10udp.damage", "Bytes that are no packet", groups.MALFORMED, levels.ERROR)
  ch10.experts = { told_cut }
  -- By sender and receiver the packet that is put together, and by the datagram with its last part each that is whole.
  local open, whole = {}, {}

  function ch10.init()
    open, whole = {}, {}
  end

  -- Adds a frame of a packet, and dissects it.
  local function dissect_sent_frame(tvb, pinfo, tree, at, number)
    local length, top = tvb(at + 8, 2):le_uint() % 16384, tvb(at + 11, 1):uint()
    local item = tree:add(ch11, tvb(at, FRAME_HEADER_LEN + length))
    item:set_text(format("Frame %d of the packet, %d bytes", number, length))
    item:add_le(field.counter, tvb(at, 6))
    item:add(field.net, tvb(at + 10, 1))
    item:add(field.wrong_fcs, top >= 128)
    item:add(field.other_error, top % 128 >= 64)
    local frame = length > 0 and tvb(at + FRAME_HEADER_LEN, length):tvb()
    if frame and floor(top / 16) % 4 == 0 and length >= MIN_FRAME_LEN then
      ethernet:call(frame, pinfo, item)
    end
  end

  -- Dissects a packet that is whole: how many frames it has.
  local function dissect_sent_packet(tvb, pinfo, tree)
    local packet = header_of(tvb:raw())
    packet.data = tvb:raw()
    if take_data(packet) or packet.what ~= "frames" then
      dissect_packet(tvb, pinfo, tree)
      return 0
    end
    local item = tree:add(ch11, tvb())
    item:set_text(format("packet of channel %d, %d frames", packet.channel, packet.count))
    add_header(item:add(ch11, tvb(0, HEADER_LEN), "Packet header"), tvb)
    for number, at in ipairs(packet.places) do
      dissect_sent_frame(tvb, pinfo, item, at, number)
    end
    return packet.count
  end

  -- Dissects packets that follow one another: how many, and how many frames they have.
  local function dissect_sent(tvb, pinfo, tree)
    local at, packets, frames, stop = 0, 0, 0, tvb:len()
    while at < stop do
      local head = tvb:raw(at, min(HEADER_LEN, stop - at))
      local length = #head == HEADER_LEN and not header_fault(head) and number32(head, 4) or math.huge
      if at + length > stop then
        tree:add_proto_expert_info(told_cut)
        break
      end
      frames = frames + dissect_sent_packet(tvb(at, length):tvb(), pinfo, tree)
      at, packets = at + length, packets + 1
    end
    return packets, frames
  end

  -- Takes a part as it comes: parts of a packet follow one another.
  local function take_part(pinfo, channel, sequence, at, data)
    local key = format("%s:%d %s:%d", tostring(pinfo.src), pinfo.src_port, tostring(pinfo.dst), pinfo.dst_port)
    local packet = open[key]
    if at == 0 then
      packet = { channel = channel, sequence = sequence, length = 0, parts = {} }
      packet.whole = #data >= HEADER_LEN and number32(data, 4) or math.huge
    elseif not packet or packet.channel ~= channel or packet.sequence ~= sequence or packet.length ~= at then
      packet = nil
    end
    open[key] = packet
    if packet then
      packet.parts[#packet.parts + 1], packet.length = data, packet.length + #data
      if packet.length >= packet.whole then
        whole[pinfo.number], open[key] = table.concat(packet.parts), nil
      end
    end
  end

  -- Dissects a part, and the packet that it ends, where all parts have come: the text for it.
  local function dissect_part(tvb, pinfo, tree, item)
    item:add_le(sent.channel, tvb(4, 2))
    item:add(sent.sequence, tvb(6, 1))
    item:add_le(sent.at, tvb(8, 4))
    local channel, at = tvb(4, 2):le_uint(), tvb(8, 4):le_uint()
    local data = tvb:raw(PART_HEAD_LEN)
    if not pinfo.visited then
      take_part(pinfo, channel, tvb(6, 1):uint(), at, data)
    end
    local text = format("part of a packet of channel %d, bytes %.0f to %.0f", channel, at, at + #data - 1)
    local packet = whole[pinfo.number]
    if not packet then
      plain_data:call(tvb(PART_HEAD_LEN):tvb(), pinfo, tree)
      return text
    end
    local _, frames = dissect_sent(ByteArray.new(packet, true):tvb("Packet"), pinfo, tree)
    return format("%s, its last: %d frames", text, frames)
  end

  function ch10.dissector(tvb, pinfo, tree)
    local length, low = tvb:len(), tvb:len() >= HEAD_LEN and tvb(0, 1):uint() or 0
    local kind = floor(low / 16)
    if low % 16 ~= FORMAT or kind > PART or kind == PART and length <= PART_HEAD_LEN then
      return 0
    end
    local item = tree:add(ch10, tvb(0, kind == PART and PART_HEAD_LEN or HEAD_LEN))
    for _, which in ipairs({ sent.format, sent.kind, sent.number }) do
      item:add_le(which, tvb(0, 4))
    end
    local text, source, destination = "no packet", pinfo.src, pinfo.dst
    if kind == PART then
      text = dissect_part(tvb, pinfo, tree, item)
    elseif length > HEAD_LEN then
      text = format("%d packets, %d frames", dissect_sent(tvb(HEAD_LEN):tvb(), pinfo, tree))
    end
    -- Those of frames stand below.
    pinfo.src, pinfo.dst = source, destination
    pinfo.cols.protocol = "CH10"
    pinfo.cols.info = format("datagram %d: %s", floor(tvb(0, 4):le_uint() / 256), text)
    return length
  end

  local port = 0

  function ch10.prefs_changed()
    local ports = DissectorTable.get("udp.port")
    if port > 0 then
      ports:remove(port, ch10)
    end
    port = ch10.prefs.port
    if port > 0 then
      ports:add(port, ch10)
    end
  end
end
