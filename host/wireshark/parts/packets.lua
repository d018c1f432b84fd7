-- ---- headers and checksums

local WORDS_A_TURN = 32
local TURN_LEN = 4 * WORDS_A_TURN
local TURN_FORMAT = "<" .. rep("I4", WORDS_A_TURN)

-- The sum of the 32-bit words of bytes, of which there are whole words, modulo 2^32.
local function word_sum(data)
  local total, whole, unpack = 0, #data - #data % TURN_LEN, Struct.unpack
  for at = 1, whole, TURN_LEN do
    local a, b, c, d, e, f, g, h, i, j, k, l, m, n, o, p, q, r, s, t, u, v, w, x, y, z, a2, b2, c2, d2, e2, f2 =
      unpack(TURN_FORMAT, data, at)
    total = total + a + b + c + d + e + f + g + h + i + j + k + l + m + n + o + p
      + q + r + s + t + u + v + w + x + y + z + a2 + b2 + c2 + d2 + e2 + f2
  end
  for at = whole, #data - 1, 4 do
    total = total + number32(data, at)
  end
  return total % 4294967296
end

-- Sums of many parts of the same bytes: by blocks, each of which is summed once, for words that begin at each of the four
-- places of a word.
local Sums = {}
Sums.__index = Sums

function Sums.new()
  -- The place up to which packets that may be wrong were summed, and how many bytes of long ones may still be.
  return setmetatable({ totals = {}, stop = 0, long = MOST_LONG }, Sums)
end

-- The sums of the blocks from a first one up to each, of which all up to the block `high` are known then.
function Sums:known(window, turn, low, high)
  local totals = self.totals[turn]
  if not totals or not totals[low] or low - totals.first > MOST_BLOCKS then
    totals = { first = low, last = low, [low] = 0 }
    self.totals[turn] = totals
  end
  for block = totals.last, high - 1 do
    totals[block + 1] = (totals[block] + word_sum(window:bytes(block * BLOCK + turn, BLOCK))) % 4294967296
  end
  totals.last = max(totals.last, high)
  return totals
end

-- The sum of the bytes from one place up to another, which are whole words.
function Sums:of_part(window, begin, stop)
  local turn = begin % 4
  local low, high = floor((begin - turn + BLOCK - 1) / BLOCK), floor((stop - turn) / BLOCK)
  if low >= high then
    return word_sum(window:bytes(begin, stop - begin))
  end
  local totals, ahead, behind = self:known(window, turn, low, high), low * BLOCK + turn, high * BLOCK + turn
  local ends = word_sum(window:bytes(begin, ahead - begin)) + word_sum(window:bytes(behind, stop - behind))
  return (ends + totals[high] - totals[low]) % 4294967296
end

-- The sum of the bytes from one place up to another, which aren't held at once; nothing where the file ends before.
local function long_sum(window, at, stop)
  local total = 0
  while at < stop do
    local piece = window:bytes(at, min(PIECE, stop - at))
    if #piece < min(PIECE, stop - at) then
      return
    end
    total, at = (total + word_sum(piece)) % 4294967296, at + #piece
    window:drop(at)
  end
  return total
end

-- Whether the data checksum of a packet is the sum of its data. Bytes that a wrong one before had are summed by blocks,
-- so that such packets may overlap.
local function has_right_sum(window, packet, sums)
  local at, length, sum = packet.at + HEADER_LEN, packet.packet_len, nil
  local stop = packet.at + length - CHECKSUM_LEN
  if length > MOST_HELD then
    sum = sums.long > 0 and long_sum(window, at, stop)
    sums.long = sums.long - length
  elseif at < sums.stop then
    sum = sums:of_part(window, at, stop)
  else
    sum = word_sum(window:bytes(at, stop - at))
  end
  sums.stop = max(sums.stop, min(stop, packet.at + MOST_HELD))
  local last = window:bytes(stop, CHECKSUM_LEN)
  local is_right = #last == CHECKSUM_LEN and number32(last, 0) == sum
  sums.long = sums.long + (is_right and length > MOST_HELD and length or 0)
  return is_right
end

local function header_of(head)
  return {
    channel = number16(head, 2),
    packet_len = number32(head, 4),
    data_len = number32(head, 8),
    sequence = byte(head, 14),
    flags = byte(head, 15),
    kind = byte(head, 16),
    counter = number48(head, 16),
  }
end

-- Whether flags report a data checksum of 32 bits.
local function is_summed_by(flags)
  return flags % 4 == 3
end

-- Whether flags report no secondary header, and no data checksum or one of 32 bits.
local function is_plain(flags)
  return flags < 64 and (flags % 4 == 0 or flags % 4 == 3)
end

-- The fault of 24 bytes that are no header; nil where they are one.
local function header_fault(head)
  if sub(head, 1, 2) ~= SYNC then
    return WRONG_SYNC
  end
  local total = 0
  for at = 0, HEADER_LEN - 4, 2 do
    total = total + number16(head, at)
  end
  if total % 65536 ~= number16(head, HEADER_LEN - 2) then
    return WRONG_CHECKSUM
  end
  local packet_len, data_len, kind = number32(head, 4), number32(head, 8), byte(head, 16)
  local room = packet_len - HEADER_LEN - (is_summed_by(byte(head, 15)) and CHECKSUM_LEN or 0)
  local is_long = kind == ETHERNET_DATA and packet_len > MAX_ETHERNET_PACKET_LEN
  if packet_len % 4 ~= 0 or room < 0 or data_len > room or is_long then
    return WRONG_LENGTH
  end
end

-- ---- what packets hold

-- Finds the frames of a packet: how many, and the place of each in it. A fault, where its data are no body of frames.
local function take_frames(packet)
  local data, stop = packet.data, HEADER_LEN + packet.data_len
  if packet.data_len < BODY_WORD_LEN then
    return WRONG_BODY
  end
  local word = number32(data, HEADER_LEN)
  if word >= 268435456 then
    return
  end
  local at, count, places, length = HEADER_LEN + BODY_WORD_LEN, word % 65536, {}, 0
  for number = 1, count do
    if at + FRAME_HEADER_LEN > stop then
      return WRONG_BODY
    end
    local low, high = byte(data, at + 9, at + 10)
    length = (low + high * 256) % 16384
    places[number] = at
    at = at + FRAME_HEADER_LEN + length + length % 2
  end
  -- The last frame's filler may be missing.
  if at ~= stop and (at ~= stop + 1 or length % 2 == 0) then
    return WRONG_BODY
  end
  packet.what, packet.count, packet.places = "frames", count, places
end

-- Finds the record of a packet. A fault, where it has the tag of one and is none.
local function take_record(packet)
  local data, data_len = packet.data, packet.data_len
  if data_len < 8 or sub(data, HEADER_LEN + 5, HEADER_LEN + 8) ~= TAG then
    return
  end
  if data_len < TAGGED_HEAD_LEN then
    return WRONG_BODY
  end
  local kind, channel = number16(data, HEADER_LEN + 8), number16(data, HEADER_LEN + 10)
  if channel == 0 then
    return WRONG_BODY
  elseif kind == END_RECORD and data_len == END_RECORD_LEN then
    packet.what = "end"
  elseif kind == PROGRAM_RECORD and data_len >= PROGRAM_HEAD_LEN
    and data_len == PROGRAM_HEAD_LEN + INSN_LEN * number16(data, HEADER_LEN + 24) then
    packet.what, packet.force = "program", number32(data, HEADER_LEN + 12)
  else
    return WRONG_BODY
  end
  packet.of = channel
end

-- Whether the data of a packet may be frames or a record.
local function has_judged_data(packet)
  local is_record = packet.kind == COMPUTER_GENERATED_DATA and packet.channel == 0
  return is_plain(packet.flags) and (packet.kind == ETHERNET_DATA or is_record)
end

-- Finds what a packet holds: its fault, where it has one.
local function take_data(packet)
  packet.what, packet.count = "other", 0
  if not has_judged_data(packet) then
    return
  elseif packet.kind == ETHERNET_DATA then
    return take_frames(packet)
  end
  return take_record(packet)
end

-- The same with its data checksum, where there are sums.
local function take_body(window, packet, sums)
  local fault = take_data(packet)
  if packet.what == "other" and not fault then
    return
  end
  if sums and is_summed_by(packet.flags) and not has_right_sum(window, packet, sums) then
    return WRONG_SUM
  end
  return fault
end

-- The packet that begins at a place, or its fault; nothing where the file ends there. Without sums its data checksum
-- isn't judged.
local function judged(window, at, sums)
  local head = window:bytes(at, HEADER_LEN)
  if #head < HEADER_LEN then
    return nil, #head > 0 and TRUNCATED or nil
  end
  local fault = header_fault(head)
  if fault then
    return nil, fault
  end
  local packet = header_of(head)
  local length = packet.packet_len
  local held = min(length, MOST_HELD)
  if not window:fill(at, held) or length > MOST_HELD and not window:has(at + length - 1) then
    return nil, TRUNCATED
  end
  packet.at, packet.data = at, window:bytes(at, min(HEADER_LEN + packet.data_len, MOST_HELD))
  fault = take_body(window, packet, sums)
  if fault then
    return nil, fault
  end
  packet.data = window:bytes(at, held)
  return packet
end
