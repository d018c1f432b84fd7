-- ---- the search for the next packet behind a damaged place

-- How long the damaged packet may be, by what its header says.
local function claims(head)
  local found = {}
  if #head == HEADER_LEN then
    local packet = header_of(head)
    local sum_len = is_summed_by(packet.flags) and CHECKSUM_LEN or 0
    local lengths = { packet.packet_len, HEADER_LEN + packet.data_len + -packet.data_len % 4 + sum_len }
    for _, length in ipairs(lengths) do
      if length >= HEADER_LEN and length <= MOST_HELD and length % 4 == 0 then
        found[#found + 1] = length
      end
    end
  end
  return found
end

-- The header at a place; nil where none stands there.
local function header_at(window, at)
  local head = window:bytes(at, HEADER_LEN)
  if #head == HEADER_LEN and not header_fault(head) then
    return header_of(head)
  end
end

-- Whether packets go on behind so many bytes at a place: a header stands there, or the file ends.
local function goes_on(window, begin, length)
  -- With what is between, which the window would lose.
  window:fill(begin, length + HEADER_LEN)
  local at, stop = begin + length, window.begin + #window.data
  return at == stop or at < stop and header_at(window, at) ~= nil
end

-- Whether the data checksum of a packet, where it has one, is the sum of its data.
local function has_no_wrong_sum(reader, packet)
  return not is_summed_by(packet.flags) or has_right_sum(reader.window, packet, reader.sums)
end

-- Whether the packet of a header at a place is whole and right, as far as it isn't another's. Its data are judged while
-- more than a reserve of bytes is left for that.
local function is_packet(reader, at, packet, reserve)
  if packet.packet_len > MOST_HELD or not reader.window:fill(at, packet.packet_len) then
    return false
  end
  packet.at = at
  if not has_judged_data(packet) then
    return true
  elseif packet.data_len > reader.spare - reserve then
    return false
  end
  reader.spare, reader.search.judged = reader.spare - packet.data_len, reader.search.judged + packet.data_len
  packet.data = reader.window:bytes(at, HEADER_LEN + packet.data_len)
  return not take_data(packet) and (packet.what == "other" or has_no_wrong_sum(reader, packet))
end

-- Whether packets that begin at a place follow one another beyond `stop`, or to the file's end. The places of those
-- that don't are put into `broken`.
local function leads_to(reader, at, stop)
  local window, broken, passed = reader.window, reader.search.broken, {}
  while at < stop do
    if at == window.begin + #window.data and not window:has(at) then
      return true
    end
    passed[#passed + 1] = at
    local packet = not broken[at] and header_at(window, at)
    if not packet or not is_packet(reader, at, packet, 0) then
      for _, place in ipairs(passed) do
        broken[place] = true
      end
      return false
    end
    at = at + packet.packet_len
  end
  return at > stop
end

-- Whether a packet stands where all do, and goes on in its channel's sequence numbers.
local function follows(reader, at, packet)
  local missing = (packet.sequence - (reader.sequences[packet.channel] or 0)) % 256
  return (at - reader.search.begin) % 4 == 0 and missing <= MOST_MISSING
end

-- Whether packets begin again at a place, with a right data checksum where there is one, also of another's packet.
-- Frames may hold packets of another recording: so those that stand within a packet whose header is right must lead
-- beyond its end; and elsewhere they lead further than a frame is long or to the file's end, or else the packet stands
-- where all do, a multiple of 4 bytes behind, and goes on in its channel's sequence numbers.
local function begins_again(reader, at)
  local search, window = reader.search, reader.window
  if search.broken[at] then
    search.broken[at] = nil
    return false
  end
  local packet = header_at(window, at)
  if not packet then
    return false
  end
  local stands_alone = at >= search.inside and follows(reader, at, packet)
  local stop = at < search.inside and min(search.inside, at + MOST_HELD) or at + MAX_FRAME_LEN
  local leads_on = packet.packet_len <= MOST_HELD and goes_on(window, at, packet.packet_len)
  -- Only headers are looked at so far.
  if not (leads_on or stands_alone or at + packet.packet_len > stop) then
    return false
  end
  if not is_packet(reader, at, packet, leads_on and 0 or MOST_SPARE / 2) or not has_no_wrong_sum(reader, packet) then
    return false
  end
  return stands_alone or leads_to(reader, at, stop)
end

-- A search from the place of a fault on.
local function search_from(window, begin)
  local packet = header_at(window, begin)
  local inside = begin + (packet and packet.packet_len or 0)
  return { begin = begin, inside = inside, at = begin + 1, broken = {}, judged = 0 }
end

-- Goes on with a search to another place.
local function pass_to(reader, at)
  reader.spare = min(reader.spare + SPARE_A_BYTE * (at - reader.search.at), MOST_SPARE)
  reader.search.at = at
end

-- Whether a header may begin at a place of bytes: its packet has whole words, and isn't too long.
local function may_begin(data, at)
  local low, high, top = byte(data, at + 4), byte(data, at + 6, at + 7)
  return top == 0 and high <= 16 and low % 4 == 0
end

-- Goes on with a search up to the next packet, to the file's end, to a place, or until many bytes were judged: whether
-- it is over.
local function go_on(reader)
  local search, window = reader.search, reader.window
  search.judged = 0
  while search.judged < MOST_JUDGED and search.at <= reader.stop do
    -- Frames hold packets, so what is before the search is needed no more.
    window:drop(search.at)
    if not window:fill(search.at, HEADER_LEN) then
      pass_to(reader, window.begin + #window.data)
      return true
    end
    local found = find(window.data, SYNC, search.at - window.begin + 1, true)
    if not found or #window.data - found < HEADER_LEN - 1 then
      pass_to(reader, found and window.begin + found - 1 or window.begin + #window.data - 1)
    else
      pass_to(reader, window.begin + found - 1)
      local spare = reader.spare
      if may_begin(window.data, found) and begins_again(reader, search.at) then
        -- What was judged is read now.
        reader.spare = spare
        return true
      end
      pass_to(reader, search.at + 1)
    end
  end
  return false
end

-- ---- a recording, piece after piece

local Reader = {}
Reader.__index = Reader

-- A reader of a file, which searches for packets up to a place.
function Reader.new(stop)
  local made = { window = Window.new(), at = 0, sequences = {}, stop = stop, sums = Sums.new(), spare = MOST_SPARE }
  return setmetatable(made, Reader)
end

-- The damaged place that ends where the reader goes on.
local function damage_to(reader, begin, fault, stop)
  reader.at = stop
  return { what = "damage", at = begin, number = fault[1], name = fault[2], length = stop - begin }
end

-- The damaged place that begins with a fault at the reader's place.
function Reader:damage(fault)
  local window, begin = self.window, self.at
  for _, length in ipairs(claims(window:bytes(begin, HEADER_LEN))) do
    if goes_on(window, begin, length) then
      self.first = window:bytes(begin, min(length, MOST_IN_ROW))
      return damage_to(self, begin, fault, begin + length)
    end
  end
  self.search, self.fault = search_from(window, begin), fault
  return self:searched()
end

-- What a search has found so far; it goes on at the next call where it isn't over.
function Reader:searched()
  local begin, search = self.at, self.search
  self.first = self.window:bytes(begin, MOST_IN_ROW)
  if go_on(self) then
    self.search = nil
  end
  return damage_to(self, begin, self.fault, search.at)
end

-- The next packet or damaged place; nil at the end.
function Reader:next()
  if self.search then
    return self:searched()
  end
  self.window:drop(self.at)
  local packet, fault = judged(self.window, self.at, self.sums)
  if fault then
    return self:damage(fault)
  elseif packet then
    self.sequences[packet.channel] = (packet.sequence + 1) % 256
    self.at = self.at + packet.packet_len
  end
  return packet
end
