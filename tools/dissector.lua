-- Reads one value of the type `asked` at the front of a packet, puts its entries into the tree, and tells the first fault.
--
-- The tables above say what the sheet's types are. A number is two numbers of Lua, `{high, low}`, and stands for
-- high * 2^32 + low, where low is at least 0 and below 2^32: that holds what 64 bits hold, and is exact.

local floor, byte, two32 = math.floor, string.byte, 2 ^ 32
local bxor = (bit or bit32).bxor

local function is_less(one, other)
  return one[1] < other[1] or one[1] == other[1] and one[2] < other[2]
end

local function is_same(one, other)
  return one[1] == other[1] and one[2] == other[2]
end

local function is_within(number, set)
  return not is_less(number, set[1]) and not is_less(set[2], number)
end

-- The number that is so many times two32 and so much more.
local function number_of(high, low)
  local over = floor(low / two32)
  return {high + over, low - over * two32}
end

local function negative(number)
  return number_of(-number[1], -number[2])
end

-- The unsigned number of so many bits, at most 64, from a bit on.
local function unsigned(octets, at, size)
  local high, low = 0, 0
  while size > 0 do
    local from = at % 8
    local many = math.min(8 - from, size)
    local piece = floor(byte(octets, floor(at / 8) + 1) / 2 ^ (8 - from - many)) % 2 ^ many
    local grown = low * 2 ^ many
    high, low = high * 2 ^ many + floor(grown / two32), grown % two32 + piece
    at, size = at + many, size - many
  end
  return {high, low}
end

-- So many bits from a bit on as octets, the last one filled with zeros.
local function slice(octets, at, size)
  local whole, found = floor(size / 8), nil
  local rest = size - 8 * whole
  if at % 8 == 0 then
    found = octets:sub(at / 8 + 1, at / 8 + whole)
  else
    local parts = {}
    for i = 1, whole do
      parts[i] = string.char(unsigned(octets, at + 8 * (i - 1), 8)[2])
    end
    found = table.concat(parts)
  end
  if rest > 0 then
    found = found .. string.char(unsigned(octets, at + 8 * whole, rest)[2] * 2 ^ (8 - rest))
  end
  return found
end

-- The number of decimal digits of a width, or nil where one is above 9.
local function decimal(octets, at, size, width)
  local found = {0, 0}
  for digit = at, at + size - 1, width do
    local it = unsigned(octets, digit, width)[2]
    if it > 9 then
      return nil
    end
    found = number_of(found[1] * 10, found[2] * 10 + it)
  end
  return found
end

-- The number that a pattern of an integer form stands for, or nil for a decimal digit above 9.
local function decoded(form, octets, at)
  local size, encoding = form.bits, form.encoding
  if form.little then
    octets, at = slice(octets, at, size):reverse(), 0
  end
  if encoding == "packedBCD" then
    return decimal(octets, at, size, 4)
  elseif encoding == "BCD" then
    return decimal(octets, at, size, 8)
  end
  local found = unsigned(octets, at, size)
  if encoding == "unsigned" or unsigned(octets, at, 1)[2] == 0 then
    return found
  elseif encoding == "signMagnitude" then
    return negative(unsigned(octets, at + 1, size - 1))
  end
  local high, low = found[1], found[2]
  if size >= 32 then
    high = high - 2 ^ (size - 32)
  else
    low = low - 2 ^ size
  end
  return number_of(high, low + (encoding == "onesComplement" and 1 or 0))
end

-- Whether octets are UTF-8: no longer form than a character needs, no surrogate, nothing past 10FFFF, nothing cut.
local function is_utf8(text)
  local at = 1
  while at <= #text do
    local first, least, most = byte(text, at), 0x80, 0xBF
    local more = first < 0x80 and 0 or first < 0xC2 and -1 or first < 0xE0 and 1 or first < 0xF0 and 2 or first < 0xF5 and 3 or -1
    if more < 0 or at + more > #text then
      return false
    end
    least = first == 0xE0 and 0xA0 or first == 0xF0 and 0x90 or least
    most = first == 0xED and 0x9F or first == 0xF4 and 0x8F or most
    for i = 1, more do
      local it = byte(text, at + i)
      if it < least or it > most then
        return false
      end
      least, most = 0x80, 0xBF
    end
    at = at + more + 1
  end
  return true
end

-- The remainder of octets by a divisor of a width, from what it begins with.
local function remainder(octets, width, divisor, from)
  local found, top = from, 2 ^ (width - 1)
  for i = 1, #octets do
    found = bxor(found, byte(octets, i) * 2 ^ (width - 8))
    for _ = 1, 8 do
      local over = found >= top
      found = found * 2 % (2 * top)
      if over then
        found = bxor(found, divisor)
      end
    end
  end
  return found
end

local checks = {
  CHECKSUM = function(octets)
    local sum = 0
    for i = 1, #octets do
      sum = (sum + byte(octets, i)) % 256
    end
    return sum
  end,
  CHECKSUM_LONGITUDINAL = function(octets)
    local found = 0
    for i = 1, #octets do
      found = bxor(found, byte(octets, i))
    end
    return found
  end,
  CRC8 = function(octets)
    return remainder(octets, 8, 0x07, 0)
  end,
  CRC16_CCITT = function(octets)
    return remainder(octets, 16, 0x1021, 0xFFFF)
  end,
}

-- What a reading needs: the packet, its octets and bits, and where the next part begins.
local Reading = {}
Reading.__index = Reading

function Reading:fault(reason, path, at)
  error({reason = reason, path = path, at = at or self.at})
end

function Reading:take(size, path)
  if self.size - self.at < size then
    self:fault("Short", path)
  end
  local from = self.at
  self.at = from + size
  return from
end

-- The octets that hold the bits from one to another.
function Reading:range(from, to)
  local first = math.min(floor(from / 8), self.tvb:len())
  local last = floor((to + 7) / 8)
  return self.tvb:range(first, math.max(last - first, 0))
end

-- Puts a part into the tree, by its field for bits that begin there.
function Reading:show(tree, slot, from, value)
  local field = slot and fields[slot][from % 8]
  if not field then
    return
  end
  local range, how = self:range(from, self.at), field.how
  if how == "item" or how == "bytes" and #value == 0 then
    tree:add(field.field, range)
  elseif how == "uint64" then
    tree:add(field.field, range, UInt64.new(value[2], value[1]))
  elseif how == "int64" then
    tree:add(field.field, range, Int64.new(value[2], value[1] % two32))
  elseif how == "uint" then
    tree:add(field.field, range, value[2])
  elseif how == "bytes" then
    tree:add(field.field, self.tvb:range(floor(from / 8), #value), value)
  elseif how == "text" then
    tree:add(field.field, range, (value:gsub("%z", "\\0")))
  else
    tree:add(field.field, range, value)
  end
end

local readers = {}

function Reading:read(number, path, tree, slot)
  return readers[types[number].kind](self, types[number], path, tree, slot)
end

local function read_number(self, type, path, tree, slot)
  local from = self:take(type.bits, path)
  local found = decoded(type, self.octets, from)
  if not found then
    self:fault("BadDigit", path, from)
  elseif type.labels then
    local label = type.labels[string.format("%d:%d", found[1], found[2])]
    if not label then
      self:fault("NoLabel", path, from)
    end
    self:show(tree, slot, from, type.shows_label and label or found)
  elseif not is_within(found, type.numbers) then
    self:fault("OutOfRange", path, from)
  else
    self:show(tree, slot, from, found)
  end
  return found
end

readers.Integer, readers.SubRange, readers.Enumerated = read_number, read_number, read_number

function readers.Boolean(self, type, path, tree, slot)
  local from = self:take(type.bits, path)
  local found = unsigned(self.octets, from, type.bits)
  local is_true = (found[1] ~= 0 or found[2] ~= 0) == type.zero_is_false
  self:show(tree, slot, from, is_true)
  return is_true
end

function readers.String(self, type, path, tree, slot)
  local from, found = self.at, nil
  local stop = string.char(type.stop)
  if type.fixed then
    self:take(8 * type.length, path)
    found = slice(self.octets, from, 8 * type.length)
    found = found:sub(1, (found:find(stop, 1, true) or #found + 1) - 1)
  else
    local many = math.min(floor((self.size - from) / 8), type.length + 1)
    found = slice(self.octets, from, 8 * many)
    local ends = found:find(stop, 1, true)
    if not ends then
      self:fault(many < type.length + 1 and "Short" or "Unterminated", path)
    end
    found = found:sub(1, ends - 1)
    self.at = from + 8 * ends
  end
  local is_good = is_utf8(found)
  if type.ascii then
    is_good = not found:find("[\128-\255]")
  end
  if not is_good then
    self:fault("BadText", path, from)
  end
  self:show(tree, slot, from, found)
  return found
end

function readers.Binary(self, type, path, tree, slot, size)
  local from = self:take(size or type.bits, path)
  local found = slice(self.octets, from, size or type.bits)
  self:show(tree, slot, from, found)
  return found
end

-- So many items, one after the other, below an item of their own. A list whose field has a number past that ends short.
function Reading:items(number, many, path, tree, slot)
  local from = self.at
  local above = fields[slot][from % 8]
  local count = is_less({0, 0xFFFFFFFF}, many) and 0xFFFFFFFF or many[2]
  local shown = tree:add(above.field, self:range(from, self.size), count)
  for i = 0, count - 1 do
    self:read(number, string.format("%s[%d]", path, i), shown, above.item)
  end
  shown:set_len(self:range(from, self.at):len())
end

function readers.Array(self, type, path, tree, slot)
  self:items(type.item, type.many, path, tree, slot)
end

-- The number that an entry, or an entry of it, has for constraints: a truth value as 0 or 1, a container as its type.
local function number_at(value, path)
  for i = 2, #path do
    value = value.entries[path[i]]
  end
  if value == true or value == false then
    return {0, value and 1 or 0}
  end
  return value.container and {0, value.container.number} or value
end

local function holds(constraint, entries)
  local number = number_at(entries[constraint.path[1]], constraint.path)
  if constraint.types then
    return constraint.types[number[2]] == true
  end
  return is_within(number, constraint.set)
end

-- The container next under one on the way to one that isn't abstract and whose constraints on what was read hold; or nil.
local function next_under(at, entries)
  for _, it in ipairs(at.under) do
    local fits = true
    for _, constraint in ipairs(it.asked) do
      fits = fits and (entries[constraint.path[1]] == nil or holds(constraint, entries))
    end
    if fits then
      return it.next
    end
  end
  return nil
end

local parts = {}

function readers.Container(self, type, path, tree, slot)
  local box = {from = self.at, entries = {}, path = path, tree = tree}
  local field = slot and fields[slot][self.at % 8]
  if field then
    box.tree = tree:add(field.field, self:range(self.at, self.size))
  end
  for _, number in ipairs(type.chain) do
    for _, constraint in ipairs(types[number].constraints) do
      if not holds(constraint, box.entries) then
        self:fault("Constraint", path .. constraint.step, box.from)
      end
    end
    self:parts(types[number].entries, box)
  end
  local at, below = type, next_under(type, box.entries)
  while below do
    at = types[below]
    self:parts(at.entries, box)
    below = next_under(at, box.entries)
  end
  if at.abstract then
    self:fault("NoDerived", path .. "<" .. at.name .. ">", box.from)
  end
  for i = #at.chain, 1, -1 do
    self:parts(types[at.chain[i]].trailers, box)
  end
  local length = box.length
  if length and self:told(length) ~= floor((self.at - box.from + 7) / 8) then
    self:fault("LengthDiffers", length.path, length.at)
  end
  if field then
    box.tree:set_len(self:range(box.from, self.at):len())
    box.tree:set_text(field.label .. ": " .. at.name)
  end
  box.tree:add(kind, self:range(box.from, self.at), at.name):set_generated()
  return {container = at, entries = box.entries}
end

-- How many octets a length entry tells. What is past 2^53 is not exact, and past any packet.
function Reading:told(length)
  return length.add + length.times * (length.number[1] * two32 + length.number[2])
end

function Reading:parts(list, box)
  for _, part in ipairs(list) do
    parts[part.kind](self, part, box, box.path .. part.step)
  end
end

function parts.PaddingEntry(self, part, box, path)
  self:take(part.bits, path)
end

function parts.Entry(self, part, box, path)
  local found
  if part.rest then
    local length = box.length
    local octets = self:told(length) - floor((self.at - box.from + part.rest + 7) / 8)
    if octets < 0 or 8 * octets > types[part.type].bits then
      self:fault("LengthDiffers", length.path, length.at)
    end
    found = readers.Binary(self, types[part.type], path, box.tree, part.slot, 8 * octets)
  else
    found = self:read(part.type, path, box.tree, part.slot)
  end
  -- no constraint asks for an array
  box.entries[part.name] = found == nil and {} or found
end

function parts.ListEntry(self, part, box, path)
  self:items(part.type, box.entries[part.field], path, box.tree, part.slot)
end

function parts.FixedValueEntry(self, part, box, path)
  local from = self.at
  local found = self:read(part.type, path, box.tree, part.slot)
  local same = type(found) == "table" and is_same(found, part.value) or found == part.value
  if not same then
    self:fault("FixedDiffers", path, from)
  end
end

function parts.LengthEntry(self, part, box, path)
  local from = self.at
  local found = self:read(part.type, path, box.tree, part.slot)
  box.length = {number = found, add = part.add, times = part.times, path = path, at = from}
end

function parts.ErrorControlEntry(self, part, box, path)
  local from = self.at
  local found = self:read(part.type, path, box.tree, part.slot)
  if found[2] ~= checks[part.check](slice(self.octets, box.from, from - box.from)) then
    self:fault("CheckDiffers", path, from)
  end
end

-- Reads a packet. Gives the value and nil, or nil and the fault.
local function read_packet(tvb, tree)
  local octets = tvb:len() > 0 and tvb:range():raw() or ""
  local reading = setmetatable({tvb = tvb, octets = octets, size = 8 * #octets, at = 0}, Reading)
  local went, found = pcall(function()
    local value = reading:read(asked, "$", tree, top)
    if reading.size - reading.at > 7 then
      reading:fault("Trailing", "$")
    end
    return value
  end)
  if went then
    return found, nil
  elseif type(found) ~= "table" then
    error(found, 0)
  end
  local first = math.min(floor(found.at / 8), math.max(#octets - 1, 0))
  local text = string.format("%s at %s", found.reason, found.path)
  tree:add_tvb_expert_info(faults[found.reason], tvb:range(first, math.min(1, #octets - first)), text)
  return nil, text
end

function protocol.dissector(tvb, pinfo, tree)
  local shown = tree:add(protocol, tvb(), protocol.description)
  local value, fault = read_packet(tvb, shown)
  pinfo.cols.protocol = protocol.name
  if fault then
    pinfo.cols.info = fault
  elseif type(value) == "table" and value.container then
    pinfo.cols.info = value.container.name
  end
  return tvb:len()
end
