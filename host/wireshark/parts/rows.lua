-- ---- rows

local ENCAPSULATION = wtap_encaps.USER11
-- Past all places of a file.
local FAILURE_PLACE = 2 ^ 52

-- What the recording says of the row that was read last. Wireshark dissects a row as soon as it has read it, also where
-- it goes back to one, so the dissector finds it here: in the bytes it would be counted in the lengths of all
-- statistics.
local last = {}

-- A recording that is open: the rows as they come, and what leads back to each.
local Recording = {}
Recording.__index = Recording

function Recording.new()
  return setmetatable({
    reader = Reader.new(math.huge),
    -- By channel ID: how many frames came, and the version of the filter that is in force.
    counts = {},
    forces = {},
    -- Of each packet in order its place; of its first frame the number and the version in force. By place, the damages.
    places = {},
    numbers = {},
    versions = {},
    damages = {},
    -- For random access: the bytes around a place, and the packet that was used last.
    window = Window.new(),
  }, Recording)
end

-- Gives Wireshark a row: its bytes, how many the recording has of them, and the counter of its time, or none.
local function give(frame, data, length, times, counter)
  frame.rec_type = wtap_rec_types.PACKET
  frame.encap = ENCAPSULATION
  local seconds, nanoseconds
  if counter then
    seconds, nanoseconds = time_of(times, counter)
  end
  if seconds then
    -- Before 1970 Wireshark has both parts negative.
    if seconds < 0 and nanoseconds > 0 then
      seconds, nanoseconds = seconds + 1, nanoseconds - NANOSECONDS_A_SECOND
    end
    frame.time = NSTime(seconds, nanoseconds)
    frame.flags = wtap_presence_flags.TS + wtap_presence_flags.CAP_LEN
  else
    frame.flags = wtap_presence_flags.CAP_LEN
  end
  -- This sets both lengths too.
  frame.data = data
  if length ~= #data then
    frame.original_length = length
  end
  last.data, last.times = data, times
end

-- Gives the row of a frame: that of a packet's frames that has this number in it, from 1 on.
function Recording:give_frame(frame, packet, index, first_number, version)
  local data, at = packet.data, packet.places[index]
  local a, b, c, d, e, f, _, _, low, high, net, top = byte(data, at + 1, at + FRAME_HEADER_LEN)
  local length = (low + high * 256) % 16384
  local counter = a + b * 256 + c * 65536 + d * 16777216 + (e + f * 256) * 4294967296
  last.what, last.channel, last.packet, last.place = "frame", packet.channel, packet.at, packet.at + at
  last.counter, last.length, last.net, last.top = counter, length, net, top
  last.number, last.version = first_number + index - 1, version
  give(frame, sub(data, at + FRAME_HEADER_LEN + 1, at + FRAME_HEADER_LEN + length), length, self.times, counter)
end

-- Gives the row of a packet that has no frames: its bytes.
function Recording:give_packet(frame, packet)
  last.what, last.place = "packet", packet.at
  last.of, last.channel, last.version = packet.what, packet.of, packet.force
  give(frame, sub(packet.data, 1, MOST_IN_ROW), min(packet.packet_len, MOST_LENGTH), self.times, packet.counter)
end

-- Gives the row of a damaged place, of which `data` are the first bytes.
function Recording:give_damage(frame, damage, data)
  last.what, last.place, last.length = "damage", damage.at, damage.length
  last.fault = damage.text or format("read %d %s %.0f", damage.number, damage.name, damage.at)
  data = sub(data, 1, damage.length)
  give(frame, data, #data, self.times, nil)
end

-- Gives a row that says that the reading failed, as where Lua is out of memory: its place, which no other row has;
-- nothing where it was given.
function Recording:give_failure(frame, text)
  if not self.damages[FAILURE_PLACE] then
    local failure = { what = "damage", at = FAILURE_PLACE, length = 0, text = "the plugin failed: " .. tostring(text) }
    self.damages[FAILURE_PLACE] = failure
    self:give_damage(frame, failure, "")
    return FAILURE_PLACE
  end
end

-- Notes where the packet or the damaged place is that comes next.
function Recording:note(piece)
  if piece.what == "damage" then
    self.damages[piece.at] = piece
    return
  end
  local at, channel = #self.places + 1, piece.channel
  self.places[at], self.numbers[at], self.versions[at] = piece.at, self.counts[channel] or 0, self.forces[channel] or false
  take_time(self.times, piece)
  if piece.what == "frames" then
    self.counts[channel] = self.numbers[at] + piece.count
  elseif piece.what == "program" then
    self.forces[piece.of] = piece.force
  end
  self.packet, self.index = piece, 0
end

-- Gives the next row: its place; nothing at the end.
function Recording:next_row(frame)
  if not self.packet or self.index >= self.packet.count then
    self.packet = nil
    local piece = self.reader:next()
    if not piece then
      return
    end
    self:note(piece)
    if piece.what == "damage" then
      self:give_damage(frame, piece, self.reader.first)
      return piece.at
    elseif piece.count == 0 then
      self:give_packet(frame, piece)
      return piece.at
    end
  end
  self.index = self.index + 1
  local at = #self.places
  self:give_frame(frame, self.packet, self.index, self.numbers[at], self.versions[at])
  return last.place
end

-- The index of the last of rising numbers that is at most this one; 0 where there is none.
local function index_up_to(numbers, most)
  local low, high = 0, #numbers
  while low < high do
    local middle = floor((low + high + 1) / 2)
    if numbers[middle] <= most then
      low = middle
    else
      high = middle - 1
    end
  end
  return low
end

-- Gives the row at a place again: whether it is there.
function Recording:row_at(frame, place)
  local damage = self.damages[place]
  if damage then
    self.window:drop(place)
    self:give_damage(frame, damage, self.window:bytes(place, min(damage.length, MOST_IN_ROW)))
    return true
  end
  local at = index_up_to(self.places, place)
  if not self.again or self.again.at ~= self.places[at] then
    self.window:drop(self.places[at])
    self.again = judged(self.window, self.places[at])
  end
  local packet = self.again
  if packet and packet.count == 0 then
    self:give_packet(frame, packet)
  elseif packet then
    local index = index_up_to(packet.places, place - packet.at)
    self:give_frame(frame, packet, index, self.numbers[at], self.versions[at])
  end
  return packet ~= nil
end
