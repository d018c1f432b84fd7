-- ---- the time packets of a whole Chapter 11 file

local TIME_DATA_LEN = 12

-- A number of decimal digits of four bits.
local function decimal(bits)
  local value, factor = 0, 1
  while bits > 0 do
    value, bits, factor = value + bits % 16 * factor, floor(bits / 16), factor * 10
  end
  return value
end

-- The days from 1970-01-01 to a date.
local function days_to(year, month, day)
  if month <= 2 then
    year, month = year - 1, month + 12
  end
  local leap_days = floor(year / 4) - floor(year / 100) + floor(year / 400)
  return 365 * year + leap_days + floor((153 * (month - 3) + 2) / 5) + day - 719469
end

-- The origin that a time packet says: the moment of counter 0, which holds from its own counter on. Nothing, where its
-- clock is no real-time clock with a date.
local function origin_of_time(packet)
  local data, at = packet.data, HEADER_LEN
  local word = #data >= at + TIME_DATA_LEN and number32(data, at) or 0
  if floor(word / 16) % 16 ~= 3 or floor(word / 512) % 2 ~= 1 then
    return
  end
  local of_second, of_day = number16(data, at + 4), number16(data, at + 6)
  local days = days_to(decimal(number16(data, at + 10)), decimal(floor(number16(data, at + 8) / 256)), decimal(byte(data, at + 9)))
  local minutes = decimal(floor(of_day / 256)) * 60 + decimal(of_day % 256)
  local whole = floor(packet.counter / TICKS_A_SECOND)
  local seconds = days * 86400 + minutes * 60 + decimal(floor(of_second / 256) % 128) - whole
  local nanoseconds = decimal(of_second % 256) * 10000000 - (packet.counter - whole * TICKS_A_SECOND) * NANOSECONDS_A_TICK
  if nanoseconds < 0 then
    seconds, nanoseconds = seconds - 1, nanoseconds + NANOSECONDS_A_SECOND
  end
  return { counter = packet.counter, seconds = seconds, nanoseconds = nanoseconds, is_known = true }
end

-- Takes a time packet, where no facts have the times: they are those of the last one. Most agree with the one before.
local function take_time(times, packet)
  local origin = not times.has_facts and packet.kind == TIME_PACKET and origin_of_time(packet)
  if not origin then
    return
  end
  local last = times.origins and times.origins[#times.origins]
  if not last then
    -- The first holds from counter 0 on.
    origin.counter, times.origins, times.note = 0, { origin }, "absolute, by its time packets"
  elseif last.seconds ~= origin.seconds or last.nanoseconds ~= origin.nanoseconds then
    times.origins[#times.origins + 1] = origin
  end
end

-- Takes the time packet behind a setup record that a file begins with, so that this has its time too.
local function take_first_time(times, window)
  local head = window:bytes(0, HEADER_LEN)
  if #head < HEADER_LEN or header_fault(head) or byte(head, 16) ~= SETUP_PACKET then
    return
  end
  local at = header_of(head).packet_len
  window:drop(at)
  local packet = judged(window, at)
  if packet then
    take_time(times, packet)
  end
end
