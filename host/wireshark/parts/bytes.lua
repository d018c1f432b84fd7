-- Opens recordings of bpfrec in Wireshark and tshark, from version 4.0 on: docs/user/formats/recording.md, both profiles,
-- and other recorders' packets as rows with their headers.
--
-- Each frame is a row that is dissected as Ethernet with its frame check sequence, below the protocol ch11, which has
-- what the recording says of it. Each program, each end, each packet of another kind and each damaged place is a row.
-- One packet is in memory, and beside it the place of each packet that was read, for random access.
--
-- Places are counted in bytes from 0, as `bpfrec list` prints them; counters are ticks of 100 ns.

-- Where it stands in several folders of plugins, the first that is loaded serves.
if select(2, pcall(Dissector.get, "ch11")) then
  return
end

local byte, find, format, rep, sub = string.byte, string.find, string.format, string.rep, string.sub
local floor, max, min = math.floor, math.max, math.min

-- ---- numbers of the formats, which dev/checks/limits.py makes

local SYNC_PATTERN = 0xEB25
local HEADER_LEN = 24
local CHECKSUM_LEN = 4
local BODY_WORD_LEN = 4
local FRAME_HEADER_LEN = 12
local TAGGED_HEAD_LEN = 12
local PROGRAM_HEAD_LEN = 28
local END_RECORD_LEN = 28
local INSN_LEN = 8
local ETHERNET_DATA = 0x68
local COMPUTER_GENERATED_DATA = 0x00
local SETUP_PACKET, TIME_PACKET = 0x01, 0x11
local PROGRAM_RECORD = 1
local END_RECORD = 2
local MAX_ETHERNET_PACKET_LEN = 524288
local MIN_FRAME_LEN = 18
local MAX_FRAME_LEN = 16383
local MAX_COUNTER = 281474976710655
local TICKS_A_SECOND = 10000000
local NANOSECONDS_A_TICK = 100
local NANOSECONDS_A_SECOND = 1000000000
local MAX_FACTS_LEN = 67108864
local MAX_HOST_LEN = 255
local MAX_TAI_OFFSET = 100000
-- As digits, which no number here holds.
local MAX_COUNT = "9223372036854775807"

-- ---- what packets begin with, and what is wrong with them

local SYNC, TAG = Struct.pack("<I2", SYNC_PATTERN), "CBPR"
-- Faults, by the words of `bpfrec list`.
local TRUNCATED, WRONG_SYNC, WRONG_CHECKSUM = { 1, "Truncated" }, { 2, "Sync" }, { 3, "Checksum" }
local WRONG_LENGTH, WRONG_BODY, WRONG_SUM = { 4, "Length" }, { 5, "Body" }, { 8, "DataChecksum" }

-- ---- limits of this reader

-- How many bytes are read at once where fewer are needed; how long a packet may be in a search, and the part of a
-- longer one that is held; how many bytes of a packet a row has.
local PIECE, MOST_HELD, MOST_IN_ROW = 65536, 1048576, 65536
-- Wireshark has no greater length of a row.
local MOST_LENGTH = 2147483647
-- So many sequence numbers may be missing before a packet that is found by itself.
local MOST_MISSING = 16
-- So many bytes of data may be judged in vain in searches, and so many more for each byte that is passed over. The data
-- of headers that lead to no other may use half of them, so that what is whole behind such headers is still found.
local MOST_SPARE, SPARE_A_BYTE = 4194304, 4
-- So many bytes are judged in a search before its damaged place gets a row; what follows is another row.
local MOST_JUDGED = 4194304
-- So many bytes of packets that are longer than a search takes are summed in vain.
local MOST_LONG = 268435456
-- Sums are made of blocks so long; how many are kept before those behind are forgotten.
local BLOCK, MOST_BLOCKS = 64, 65536
-- A damaged beginning of a recording may be so long.
local MOST_BEGINNING = 1048576

-- The number of 16 or 32 bits, the lowest byte first, at a place of bytes.
local function number16(data, at)
  local a, b = byte(data, at + 1, at + 2)
  return a + b * 256
end

local function number32(data, at)
  local a, b, c, d = byte(data, at + 1, at + 4)
  return a + b * 256 + c * 65536 + d * 16777216
end

local function number48(data, at)
  return number32(data, at) + number16(data, at + 4) * 4294967296
end

-- ---- the bytes of a file

-- Those around a place; `file` is that of the call of Wireshark that lasts.
local Window = {}
Window.__index = Window

function Window.new()
  return setmetatable({ begin = 0, data = "" }, Window)
end

-- Reads on until `count` bytes at a place are held, or the file ends: whether they are. What is held before them stays.
function Window:fill(at, count)
  if at < self.begin or at > self.begin + #self.data then
    self.begin, self.data = at, ""
  end
  while self.begin + #self.data < at + count do
    local next_place = self.begin + #self.data
    if not self.file:seek("set", next_place) then
      break
    end
    local piece = self.file:read(max(at + count - next_place, PIECE))
    if not piece or #piece == 0 then
      break
    end
    self.data = self.data .. piece
  end
  return self.begin + #self.data >= at + count
end

-- Up to `count` bytes at a place, which are fewer where the file ends.
function Window:bytes(at, count)
  self:fill(at, count)
  return sub(self.data, at - self.begin + 1, at - self.begin + count)
end

-- Whether the file has a byte at a place.
function Window:has(at)
  return #self:bytes(at, 1) == 1
end

-- Lets go what stands before a place, where it is much.
function Window:drop(at)
  if at >= self.begin and at - self.begin < PIECE then
    return
  end
  local is_near = at >= self.begin and at <= self.begin + #self.data
  self.begin, self.data = at, is_near and sub(self.data, at - self.begin + 1) or ""
end
