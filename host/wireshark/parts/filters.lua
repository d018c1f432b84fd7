-- ---- the text of a filter, as `bpfrec dis` prints it

-- By code: how an instruction is written, where k is its constant, and T and F are the labels to which it jumps.
local FORMS = {
  [0x00] = "ld #k", [0x01] = "ldx #k", [0x20] = "ld [k]", [0x28] = "ldh [k]", [0x30] = "ldb [k]",
  [0x40] = "ld [x + k]", [0x48] = "ldh [x + k]", [0x50] = "ldb [x + k]", [0x60] = "ld M[k]", [0x61] = "ldx M[k]",
  [0x80] = "ld len", [0x81] = "ldx len", [0xb1] = "ldxb 4*([k]&0xf)", [0x02] = "st M[k]", [0x03] = "stx M[k]",
  [0x84] = "neg", [0x07] = "tax", [0x87] = "txa", [0x05] = "jmp T", [0x06] = "ret #k", [0x16] = "ret a",
}
local OPERATIONS = {
  [0x04] = "add", [0x14] = "sub", [0x24] = "mul", [0x34] = "div", [0x44] = "or", [0x54] = "and", [0x64] = "lsh",
  [0x74] = "rsh", [0x94] = "mod", [0xa4] = "xor",
}
local TESTS = { [0x15] = "jeq", [0x25] = "jgt", [0x35] = "jge", [0x45] = "jset" }
-- What differs between an operand that is the constant and one that is the register X.
local SOURCE_X = 8
for code, name in pairs(OPERATIONS) do
  FORMS[code], FORMS[code + SOURCE_X] = name .. " #k", name .. " x"
end
for code, name in pairs(TESTS) do
  FORMS[code], FORMS[code + SOURCE_X] = name .. " #k,T,F", name .. " x,T,F"
end

-- The instructions that begin at a place of bytes.
local function insns_in(data, at, count)
  local found = {}
  for number = 1, count do
    local place = at + INSN_LEN * (number - 1)
    local jt, jf = byte(data, place + 3, place + 4)
    found[number] = { code = number16(data, place), jt = jt, jf = jf, k = number32(data, place + 4) }
  end
  return found
end

-- Where an instruction jumps, as numbers of instructions from 0 on: where its test holds or it always goes, and where
-- the test fails; nothing where it doesn't jump.
local function targets_of(insn, at)
  if insn.code == 0x05 then
    return at + 1 + insn.k
  elseif TESTS[insn.code] or TESTS[insn.code - SOURCE_X] then
    return at + 1 + insn.jt, at + 1 + insn.jf
  end
end

-- What keeps instructions from having a text, in the words of `bpfrec dis`; nothing where they have one.
local function text_fault(insns)
  for number, insn in ipairs(insns) do
    local form, holds, fails = FORMS[insn.code], targets_of(insn, number - 1)
    local uses_k = form and (find(form, "k", 1, true) or insn.code == 0x05)
    if not form or not uses_k and insn.k ~= 0 or not fails and (insn.jt ~= 0 or insn.jf ~= 0) then
      return format("dis 1 NoForm %d", number - 1)
    elseif holds and max(holds, fails or 0) >= #insns then
      return format("dis 2 JumpOut %d", number - 1)
    end
  end
end

-- The lines of a program: those of its text, or, where it has none, the four numbers of each instruction as a listing
-- has them.
local function lines_of(insns, fault)
  local lines, labels = {}, {}
  for number, insn in ipairs(insns) do
    if fault then
      lines[number] = format("%d %d %d %.0f", insn.code, insn.jt, insn.jf, insn.k)
    else
      local holds, fails = targets_of(insn, number - 1)
      local values = { k = format("%.0f", insn.k), T = holds and "L" .. holds, F = fails and "L" .. fails }
      labels[holds or ""], labels[fails or ""] = true, true
      lines[number] = string.gsub(FORMS[insn.code], "[kTF]", values)
    end
  end
  for number, line in ipairs(lines) do
    lines[number] = labels[number - 1] and format("L%d: %s", number - 1, line) or line
  end
  return lines
end
