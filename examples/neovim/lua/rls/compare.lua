-- Where two texts differ, so that what others write in between keeps its place: examples/COMPARE.md. Places count bytes from 0.
local BACK = 1000 -- bytes back for which a better place is looked for
local align = require('rls.align')
local floor, min = math.floor, math.min

local function is_space(byte) return byte == 32 or (byte >= 9 and byte <= 13) end

-- The character whose first byte is at a place, and how many bytes it has. What is no UTF-8 is characters of one byte.
local function character(text, at)
  local a, b, c, d = text:byte(at + 1, at + 4)
  if a >= 0xf0 and d then return (a - 0xf0) * 262144 + (b - 0x80) * 4096 + (c - 0x80) * 64 + d - 0x80, 4 end
  if a >= 0xe0 and c then return (a - 0xe0) * 4096 + (b - 0x80) * 64 + c - 0x80, 3 end
  if a >= 0xc0 and b then return (a - 0xc0) * 64 + b - 0x80, 2 end
  return a, 1
end

local function is_letter(c)
  if c < 0x80 then return (c >= 97 and c <= 122) or (c >= 65 and c <= 90) or (c >= 48 and c <= 57) or c == 95 end
  if c < 0x300 then return c == 0xaa or c == 0xb5 or c == 0xba or (c >= 0xc0 and c ~= 0xd7 and c ~= 0xf7) end
  return c <= 0xdff or (c >= 0x10a0 and c <= 0x1fff)
end

-- Whether a character belongs to the one before it.
local function is_mark(c)
  if c < 0x300 then return false end
  return c <= 0x36f or (c >= 0x1ab0 and c <= 0x1aff) or (c >= 0x1dc0 and c <= 0x1dff) or c == 0x200c or c == 0x200d or (c >= 0x20d0 and c <= 0x20ff)
    or (c >= 0xfe00 and c <= 0xfe0f) or (c >= 0xfe20 and c <= 0xfe2f) or (c >= 0x1f3fb and c <= 0x1f3ff)
end

-- The words of a text, and its other characters but spaces, each with the marks after it; and where each begins.
local function tokens_of(text, at)
  local tokens, starts, size = {}, {}, #text
  while at < size do
    if is_space(text:byte(at + 1)) then
      at = at + 1
    else
      local c, n = character(text, at)
      local from, is_word = at, is_letter(c)
      at = at + n
      while at < size and not is_space(text:byte(at + 1)) do
        local joins = c == 0x200d and not is_word
        local next, count = character(text, at)
        if not (joins or is_mark(next) or (is_word and is_letter(next))) then break end
        c, at = next, at + count
      end
      tokens[#tokens + 1], starts[#starts + 1] = text:sub(from + 1, at), from
    end
  end
  return tokens, starts
end

local function front_of(old, new)
  local least, front = min(#old, #new), 0
  while front < least and old:byte(front + 1) == new:byte(front + 1) do front = front + 1 end
  return front
end

local function stripped(text)
  local from = text:find('[^\t-\r ]') or #text + 1
  return (text:sub(from):gsub('[\t-\r ]+$', '')), from - 1
end

local function lines_of(text)
  local found = {}
  for line in text:gmatch('[^\n]*\n?') do
    if line ~= '' then found[#found + 1] = line end
  end
  return found
end

-- Words and what is between them.
local function parts_of(text)
  local found = {}
  for space, word in text:gmatch('([\t-\r ]*)([^\t-\r ]*)') do
    if space ~= '' then found[#found + 1] = space end
    if word ~= '' then found[#found + 1] = word end
  end
  return found
end

local function size_of(parts, from, to)
  local size = 0
  for k = from, to do size = size + #parts[k] end
  return size
end

-- Whether three of four lines (of 32 that it looks at) begin and end as the other one does, for half of the shorter.
local function is_line_by_line(old, new)
  local looks, alike = min(#old, 32), 0
  for k = 0, looks - 1 do
    local at = floor(k * #old / looks) + 1
    local x, y = stripped(old[at]), stripped(new[at])
    local front = front_of(x, y)
    local tail = front_of(x:sub(front + 1):reverse(), y:sub(front + 1):reverse())
    if 2 * (front + tail) >= min(#x, #y) then alike = alike + 1 end
  end
  return 4 * alike >= 3 * looks
end

-- Whether a place is within a character, or between one and what belongs to it.
local function is_joined(text, at)
  if at <= 0 or at >= #text then return false end
  local byte = text:byte(at + 1)
  if byte >= 0x80 and byte < 0xc0 then return true end
  return text:sub(at - 2, at) == '\226\128\141' or (byte >= 0xc0 and is_mark((character(text, at))))
end

local Comparison = {}
Comparison.__index = Comparison

local function has_word(text, from, to)
  local at = text:find('[^\t-\r ]', from + 1)
  return at ~= nil and at <= to
end

-- Whether a line feed goes that stands after the last word that goes, and none comes.
local function loses_line(gone, come)
  local at = #gone
  while at > 0 and is_space(gone:byte(at)) do at = at - 1 end
  return gone:find('\n', at + 1, true) and not come:find('\n', 1, true)
end

-- What goes and what comes. White space that is left between two words keeps its last character, or gets a new one behind all of it.
function Comparison:put(a, m, b, n)
  local old, new = self.old, self.new
  if a == 0 or a == m or m == #old or b == n or has_word(new, b, n) then return self:replace(a, m, b, n) end
  local is_blank = not has_word(old, a, m)
  if loses_line(old:sub(a + 1, m), new:sub(b + 1, n)) or (is_blank and old:byte(m) ~= new:byte(n)) then
    while is_blank and a < m and b < n - 1 and old:byte(a + 1) == new:byte(b + 1) do a, b = a + 1, b + 1 end
    self.found[#self.found + 1] = { at = a, gone = old:sub(a + 1, m), come = new:sub(b + 1, n) }
  elseif is_blank then
    self:replace(a, m - 1, b, n - 1)
  else
    self:replace(a, m, b, n)
  end
end

-- What goes and what comes, less what is equal at the front and at the end.
function Comparison:replace(a, m, b, n)
  local old, new, p, q, s, t = self.old, self.new, a, b, m, n
  while p < m and q < n and old:byte(p + 1) == new:byte(q + 1) do p, q = p + 1, q + 1 end
  if p < m or q < n then
    while p > a and (is_joined(old, p) or is_joined(new, q)) do p, q = p - 1, q - 1 end
  end
  while s > p and t > q and old:byte(s) == new:byte(t) do s, t = s - 1, t - 1 end
  while s < m and (is_joined(old, s) or is_joined(new, t)) do s, t = s + 1, t + 1 end
  if s > p or t > q then self:place(p, s, q, t) end
end

-- What goes and what comes. Where one of them is nothing, it may have several places, and one that isn't within a word is taken.
function Comparison:place(p, s, q, t)
  local old, new, back = self.old, self.new, 0
  if p == s or q == t then
    local last = self.found[#self.found]
    local least = last and last.at + #last.gone or 0
    local side, tail = new, t
    if p < s then side, tail = old, s end
    local is_within, k = self:is_within_word(p, s, q, t), 0
    while is_within and k < BACK and p - k > least and old:byte(p - k) == side:byte(tail - k) do
      k = k + 1
      is_within = self:is_within_word(p - k, s - k, q - k, t - k)
    end
    if not is_within then back = k end
  end
  self.found[#self.found + 1] = { at = p - back, gone = old:sub(p - back + 1, s - back), come = new:sub(q - back + 1, t - back) }
end

-- Whether a place is within a word, or between a character and what belongs to it.
function Comparison:is_within_word(p, s, q, t)
  local old, new = self.old, self.new
  if is_joined(old, p) or is_joined(old, s) or is_joined(new, q) or is_joined(new, t) then return true end
  return p > 0 and s < #old and not is_space(old:byte(p)) and not is_space(old:byte(s + 1))
end

-- Parts of both lists, one with one.
function Comparison:in_proportion(a, old, b, new, parts, put)
  local i, j = 0, 0
  for k = 1, parts do
    local p, q = floor(k * #old / parts), floor(k * #new / parts)
    local m, n = a + size_of(old, i + 1, p), b + size_of(new, j + 1, q)
    put(self, a, m, b, n)
    i, j, a, b = p, q, m, n
  end
end

function Comparison:pair_words(a, m, b, n)
  local old, new = parts_of(self.old:sub(a + 1, m)), parts_of(self.new:sub(b + 1, n))
  self:in_proportion(a, old, b, new, #old == #new and #old or math.max(1, floor(min(#old, #new) / 16)), self.put)
end

-- What has nothing in common: line with line, and word with word where there are as many; otherwise in proportion.
function Comparison:pair(a, m, b, n)
  local gone, come = self.old:sub(a + 1, m), self.new:sub(b + 1, n)
  if not gone:find('[^\t-\r ]') or not come:find('[^\t-\r ]') then return self:put(self:with_spaces_beside(a, m, b, n)) end
  local old, new = lines_of(gone), lines_of(come)
  self:in_proportion(a, old, b, new, min(#old, #new), self.pair_words)
end

-- If only white space goes, or a line feed, and no word comes: the white space beside it that stays belongs to it.
function Comparison:with_spaces_beside(a, m, b, n)
  local old, new = self.old, self.new
  local is_blank = not has_word(old, a, m)
  if a == m or has_word(new, b, n) or not (is_blank or old:sub(a + 1, m):find('\n', 1, true)) then return a, m, b, n end
  local p, s = a, m
  while p > self.low and is_space(old:byte(p)) do p = p - 1 end
  while s < self.high and is_space(old:byte(s + 1)) do s = s + 1 end
  local q, t = b - a + p, n - m + s
  if is_blank or loses_line(old:sub(p + 1, s), new:sub(q + 1, t)) then return p, s, q, t end
  return a, m, b, n
end

-- So many bytes stay; what is before them is done now. White space between white space that differs is a part of that.
function Comparison:stays(a, b, count)
  if a - self.at ~= b - self.to or self.old:sub(self.at + 1, a) ~= self.new:sub(self.to + 1, b) then
    if count > 0 and not has_word(self.old, self.at, a + count) and not has_word(self.new, self.to, b) then return end
    self.high = a + count
    self:pair(self.at, a, self.to, b)
    self.low = a
  end
  self.at, self.to = a + count, b + count
end

function Comparison:same_but_spaces(a, old, b, new)
  if old == new then return self:stays(a, b, #old) end
  local x, from = stripped(old)
  local y, to = stripped(new)
  if x ~= '' and x == y then return self:stays(a + from, b + to, #x) end
  local p, q = 0, 0
  while true do
    while p < #old and is_space(old:byte(p + 1)) do p = p + 1 end
    while q < #new and is_space(new:byte(q + 1)) do q = q + 1 end
    local size = 0
    while p + size < #old and q + size < #new and not is_space(old:byte(p + size + 1)) and not is_space(new:byte(q + size + 1)) do size = size + 1 end
    if size == 0 then return end
    self:stays(a + p, b + q, size)
    p, q = p + size, q + size
  end
end

-- Lines that aren't the same: by words, whatever is between them.
function Comparison:words(a, gone, b, come)
  local front = front_of(gone, come)
  while front > 0 and not is_space(gone:byte(front)) do front = front - 1 end
  self:stays(a, b, front)
  local old, starts = tokens_of(gone, front)
  local new, begins = tokens_of(come, front)
  if #old == 0 or #new == 0 then return end
  local pairs, same = align(old, new, false, self.work), 0
  for _, pair in ipairs(pairs) do same = same + #old[pair[1]] end
  if not self.joins and 5 * same < min(size_of(old, 1, #old), size_of(new, 1, #new)) then return end
  for _, pair in ipairs(pairs) do self:stays(a + starts[pair[1]], b + begins[pair[2]], #old[pair[1]]) end
end

function Comparison:changed_lines(a, old, b, new)
  local gone, come = table.concat(old), table.concat(new)
  if gone:gsub('[\t-\r ]+', '') == come:gsub('[\t-\r ]+', '') then return self:same_but_spaces(a, gone, b, come) end
  if self.joins or #old ~= #new or not is_line_by_line(old, new) then old, new = { gone }, { come } end
  for k, line in ipairs(old) do
    if os.clock() > self.late then self.work.is_cut = true else self:words(a, line, b, new[k]) end
    a, b = a + #line, b + #new[k]
  end
end

local function sizes_before(parts)
  local found, size = {}, 0
  for k, part in ipairs(parts) do
    found[k], size = size, size + #part
  end
  return found
end

function Comparison:compare()
  local old, new = lines_of(self.old), lines_of(self.new)
  local function keys(lines)
    local found = {}
    for k, line in ipairs(lines) do found[k] = line:gsub('[\t-\r ]+', '') end
    return found
  end
  local olds, news = keys(old), keys(new)
  local pairs = {}
  local is_same = table.concat(olds) == table.concat(news)
  local x, y = sizes_before(olds), sizes_before(news)
  for _, pair in ipairs(align(olds, news, true, self.work)) do
    -- If white space alone differs, lines stay only where as much is before them.
    if not is_same or x[pair[1]] == y[pair[2]] then pairs[#pairs + 1] = pair end
  end
  pairs[#pairs + 1] = { #old + 1, #new + 1 }
  local a, b, i, j = 0, 0, 1, 1
  for _, pair in ipairs(pairs) do
    local x, y = pair[1], pair[2]
    if x > i and y > j then
      local gone, come = {}, {}
      for k = i, x - 1 do gone[#gone + 1] = old[k] end
      for k = j, y - 1 do come[#come + 1] = new[k] end
      self:changed_lines(a, gone, b, come)
    end
    if x <= #old then
      a, b = a + size_of(old, i, x - 1), b + size_of(new, j, y - 1)
      self:same_but_spaces(a, old[x], b, new[y])
      a, b, i, j = a + #old[x], b + #new[y], x + 1, y + 1
    end
  end
  self:stays(#self.old, #self.new, 0)
end

-- The replacements { at, gone, come } that make one text of another, from the first to the last, whose places are those of the old one; and
-- whether some parts were compared by cheaper means. After so many seconds of the processor (15, if not said otherwise) it goes on line by line.
-- Two that are put together are compared by words alone, since of words that went from one line to the next both would stay.
return function(old, new, seconds, joins)
  local comparison = setmetatable({ old = old, new = new, at = 0, to = 0, low = 0, high = 0, found = {}, work = { spent = 0, is_cut = false },
    late = os.clock() + (seconds or 15), joins = joins }, Comparison)
  comparison:compare()
  return comparison.found, comparison.work.is_cut
end
