-- ---- the facts beside a recording

-- Of origins: the years 1 to 9998, in seconds since 1970.
local FIRST_SECOND, END_SECOND = -62135596800, 253370764800
local LOST = { "dropped", "missed", "skipped" }

-- Whether a value of JSON is a whole number from 0 to the one of these digits.
local function is_count(value, most)
  local digits = type(value) == "table" and value.digits
  digits = digits == "-0" and "0" or digits
  return digits and find(digits, "^%d") and (#digits < #most or #digits == #most and digits <= most)
end

local function members_of(value, is_list)
  return type(value) == "table" and value.members and value.is_list == is_list and value.members or nil
end

-- The moment that a text is, in seconds and nanoseconds since 1970.
local function moment_in(text)
  local sign, seconds, rest = string.match(type(text) == "string" and text or "", "^(%-?)(%d+)%.(%d%d%d%d%d%d%d%d%d)$")
  if not seconds or #seconds > 12 then
    return
  end
  seconds, rest = tonumber(seconds), tonumber(rest)
  if sign == "-" then
    seconds, rest = -seconds, -rest
  end
  if rest < 0 then
    seconds, rest = seconds - 1, rest + NANOSECONDS_A_SECOND
  end
  return seconds, rest
end

local function is_null(value)
  return type(value) == "table" and value.constant == "null"
end

-- By how many seconds the time scale of an origin is ahead of UTC, and whether it is known. Facts that were written
-- before scales were noted are in UTC.
local function ahead_of_utc(told, name)
  if told.scale == "TAI" then
    if not is_count(told.tai_offset, format("%.0f", MAX_TAI_OFFSET)) then
      error(format("%s: tai_offset is no number from 0 to %.0f", name, MAX_TAI_OFFSET), 0)
    end
    return tonumber(told.tai_offset.digits), true
  elseif told.scale ~= nil and told.scale ~= "UTC" and not is_null(told.scale) then
    error(name .. ": scale is neither UTC nor TAI nor null", 0)
  end
  return 0, not is_null(told.scale)
end

-- The origin that a value of JSON is.
local function origin_in(value, name)
  local told = members_of(value, false)
  if not told then
    error(name .. ": it is no object", 0)
  end
  local seconds, nanoseconds = moment_in(told.origin)
  if not seconds then
    error(name .. ": origin isn't seconds with nine digits behind the point", 0)
  end
  local ahead, is_known = ahead_of_utc(told, name)
  seconds = seconds - ahead
  if seconds < FIRST_SECOND or seconds >= END_SECOND then
    error(name .. ": origin is of no year from 1 to 9998", 0)
  elseif not is_count(told.counter, format("%.0f", MAX_COUNTER)) then
    error(name .. ": counter is no number from 0 to 2^48 - 1", 0)
  end
  if told.set_by ~= nil and not is_null(told.set_by) and not moment_in(told.set_by) then
    error(name .. ": set_by isn't seconds with nine digits behind the point", 0)
  end
  return { counter = tonumber(told.counter.digits), seconds = seconds, nanoseconds = nanoseconds, is_known = is_known }
end

-- The origins that hold for some counter, by rising counters: a later one takes the place of each that holds from the
-- same counter on, or from a higher one.
local function origins_in(value)
  local told, found = members_of(value, true), {}
  if not told or #told == 0 then
    error("origins is no list with an origin", 0)
  end
  for at, it in ipairs(told) do
    local origin = origin_in(it, format("origin %d of %d", at, #told))
    while #found > 0 and found[#found].counter >= origin.counter do
      found[#found] = nil
    end
    found[#found + 1] = origin
  end
  return found
end

-- Refuses losses of another form, as the other readers of facts do.
local function judge_losses(value)
  local told = members_of(value, true)
  if not told then
    error("losses is no list", 0)
  end
  for at, it in ipairs(told) do
    for _, name in ipairs(LOST) do
      if not is_count((members_of(it, false) or {})[name], MAX_COUNT) then
        error(format("loss %d of %d: %s is no number from 0 to %s", at, #told, name, MAX_COUNT), 0)
      end
    end
  end
end

-- The origins of the facts that a file has.
local function facts_in(path)
  local file = assert(io.open(path, "rb"))
  local text = file:read(MAX_FACTS_LEN + 1) or ""
  file:close()
  if #text > MAX_FACTS_LEN then
    error("it has more than 64 MiB", 0)
  end
  local told = members_of(Json.read(text), false) or {}
  local form = type(told.facts) == "table" and told.facts.digits
  if form ~= "1" then
    error("facts isn't 1", 0)
  elseif type(told.host) ~= "string" or #string.gsub(told.host, "[\128-\191]", "") > MAX_HOST_LEN then
    error(format("host is no text of at most %d characters", MAX_HOST_LEN), 0)
  end
  judge_losses(told.losses)
  return origins_in(told.origins)
end

-- The files that this process has open, as Linux tells: Wireshark doesn't tell a reader the name of its file.
local function open_paths()
  local paths, lists = {}, io.open("/proc/self/fdinfo/0")
  local pipe = lists and io.popen("readlink /proc/$PPID/fd/* 2> /dev/null")
  if lists then
    lists:close()
  end
  for path in pipe and pipe:lines() or function() end do
    paths[path] = sub(path, 1, 1) == "/" or nil
  end
  if pipe then
    pipe:close()
  end
  return paths
end

-- Whether a file is there that begins with these bytes.
local function begins_with(path, bytes)
  local file = io.open(path, "rb")
  local read = file and (#bytes == 0 and "" or file:read(#bytes))
  if file then
    file:close()
  end
  return read == bytes
end

-- The facts of the recording that begins with these bytes, and the file that has them: the one that the preference
-- names, or the one beside the recording.
local function path_of_facts(bytes, named)
  if named ~= "" then
    return named
  end
  local found
  for path in pairs(open_paths()) do
    local beside = path .. ".json"
    if begins_with(beside, "") and begins_with(path, bytes) then
      if found then
        return nil, "several files that are open begin like it"
      end
      found = beside
    end
  end
  return found, "there are no facts beside the recording"
end

-- What is known of the times of a recording: its origins, where there are facts of it, and a text on them.
local function times_of(bytes, named)
  local is_done, path, why = pcall(path_of_facts, bytes, named)
  if not is_done or not path then
    return { note = "since counter 0: " .. tostring(is_done and why or path) }
  end
  local is_read, origins = pcall(facts_in, path)
  if not is_read then
    return { note = "since counter 0: " .. path .. ": no facts of a recording: " .. tostring(origins) }
  end
  for _, origin in ipairs(origins) do
    if not origin.is_known then
      return { origins = origins, has_facts = true, note = "absolute, scale unknown, by " .. path }
    end
  end
  return { origins = origins, has_facts = true, note = "absolute, by " .. path }
end

-- The seconds and nanoseconds of a counter; nil where it is before the first origin.
local function time_of(times, counter)
  local whole = floor(counter / TICKS_A_SECOND)
  local seconds, nanoseconds = whole, (counter - whole * TICKS_A_SECOND) * NANOSECONDS_A_TICK
  if not times.origins then
    return seconds, nanoseconds
  end
  for at = #times.origins, 1, -1 do
    local origin = times.origins[at]
    if origin.counter <= counter then
      seconds, nanoseconds = seconds + origin.seconds, nanoseconds + origin.nanoseconds
      if nanoseconds >= NANOSECONDS_A_SECOND then
        seconds, nanoseconds = seconds + 1, nanoseconds - NANOSECONDS_A_SECOND
      end
      return seconds, nanoseconds
    end
  end
end
