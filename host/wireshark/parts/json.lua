-- ---- JSON

local Json = {}
local MOST_NESTED = 500

local function refuse_json()
  error("it is no JSON that can be read", 0)
end

-- The place of the next byte that isn't a blank.
local function beyond_blanks(text, at)
  return find(text, "[^ \t\r\n]", at) or #text + 1
end

local ESCAPED = { b = "\b", f = "\f", n = "\n", r = "\r", t = "\t", ['"'] = '"', ["\\"] = "\\", ["/"] = "/" }

-- A text whose opening quote stands at a place, and the place behind it. A letter beyond ASCII that is spelled by its
-- number is a question mark here.
function Json.text(text, at)
  local parts = {}
  at = at + 1
  while true do
    local stop = find(text, '["\\%z\1-\31]', at)
    local sign = stop and sub(text, stop, stop)
    if sign ~= '"' and sign ~= "\\" then
      refuse_json()
    end
    parts[#parts + 1] = sub(text, at, stop - 1)
    if sign == '"' then
      return table.concat(parts), stop + 1
    end
    local escape, digits = sub(text, stop + 1, stop + 1), string.match(text, "^u(%x%x%x%x)", stop + 1)
    if not digits and not ESCAPED[escape] then
      refuse_json()
    end
    local code = digits and tonumber(digits, 16)
    parts[#parts + 1] = code and (code < 128 and string.char(code) or "?") or ESCAPED[escape]
    at = stop + (digits and 6 or 2)
  end
end

-- A number: its digits where it is a whole one, else false, since no other is used.
function Json.number(text, at)
  local _, stop = find(text, "^%-?%d+", at)
  if not stop or find(text, "^%-?0%d", at) then
    refuse_json()
  end
  local whole = sub(text, at, stop)
  local _, fraction = find(text, "^%.%d+", stop + 1)
  local _, exponent = find(text, "^[eE][+-]?%d+", (fraction or stop) + 1)
  return not (fraction or exponent) and { digits = whole }, (exponent or fraction or stop) + 1
end

-- The members of an object or a list, whose opening bracket stands at a place.
function Json.members(text, at, depth, close)
  local found = {}
  at = beyond_blanks(text, at + 1)
  if sub(text, at, at) == close then
    return found, at + 1
  end
  while true do
    local name, value = #found + 1
    if close == "}" then
      if sub(text, at, at) ~= '"' then
        refuse_json()
      end
      name, at = Json.text(text, at)
      at = beyond_blanks(text, at)
      if sub(text, at, at) ~= ":" then
        refuse_json()
      end
      at = at + 1
    end
    value, at = Json.value(text, at, depth)
    found[name] = value
    at = beyond_blanks(text, at)
    local sign = sub(text, at, at)
    if sign == close then
      return found, at + 1
    elseif sign ~= "," then
      refuse_json()
    end
    at = beyond_blanks(text, at + 1)
  end
end

local CONSTANTS = { ["true"] = "true", ["false"] = "false", ["null"] = "null" }

-- The value at a place, and the place behind it: an object or a list as {members = .., is_list = ..}, a text, a number
-- as {digits = ..}, a number that isn't whole as false, and a constant as {constant = ..}.
function Json.value(text, at, depth)
  at = beyond_blanks(text, at)
  local sign = sub(text, at, at)
  if sign == '"' then
    return Json.text(text, at)
  elseif sign == "{" or sign == "[" then
    if depth >= MOST_NESTED then
      refuse_json()
    end
    local members, behind = Json.members(text, at, depth + 1, sign == "{" and "}" or "]")
    return { members = members, is_list = sign == "[" }, behind
  end
  local word = string.match(text, "^%l+", at)
  if word and CONSTANTS[word] then
    return { constant = word }, at + #word
  end
  return Json.number(text, at)
end

-- The value that a text is.
function Json.read(text)
  local value, behind = Json.value(text, 1, 0)
  if beyond_blanks(text, behind) <= #text then
    refuse_json()
  end
  return value
end
