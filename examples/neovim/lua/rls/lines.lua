-- The lines of a text, in blocks that know how many characters they have, so that a place of the session, which counts characters, and one of
-- Neovim, which counts lines and bytes, are found without going through the whole text. Rows count from 0.
local MOST = 256 -- lines of a block, before it is cut

local Lines = {}
Lines.__index = Lines

-- How many characters a line has.
local function count(text) return (vim.str_utfindex(text)) end
Lines.count = count

local function block_of(lines, from, to)
  local block = { characters = 0 }
  for k = from, to do
    block[#block + 1] = lines[k]
    block.characters = block.characters + count(lines[k]) + 1
  end
  return block
end

-- The blocks of lines.
local function blocks_of(lines)
  local blocks = {}
  for from = 1, #lines, MOST / 2 do blocks[#blocks + 1] = block_of(lines, from, math.min(from + MOST / 2 - 1, #lines)) end
  return blocks
end

function Lines.new(lines) return setmetatable({ blocks = blocks_of(lines), size = #lines }, Lines) end

-- The block with a row, the row within it, and how many characters come before the block.
function Lines:locate(row)
  local before = 0
  for k, block in ipairs(self.blocks) do
    if row < #block or k == #self.blocks then return k, row, before end
    row, before = row - #block, before + block.characters
  end
  return 1, 0, 0
end

function Lines:get(row)
  local k, within = self:locate(row)
  return self.blocks[k] and self.blocks[k][within + 1]
end

-- The lines from one row to before another.
function Lines:slice(from, to)
  local found = {}
  local k, within = self:locate(from)
  for _ = from + 1, to do
    while self.blocks[k] and not self.blocks[k][within + 1] do k, within = k + 1, 0 end
    found[#found + 1], within = self.blocks[k][within + 1], within + 1
  end
  return found
end

function Lines:all() return self:slice(0, self.size) end

-- How many characters come before a row and a byte in it.
function Lines:place(row, byte)
  local k, within, before = self:locate(row)
  local block = self.blocks[k]
  for n = 1, within do before = before + count(block[n]) + 1 end
  return before + (byte > 0 and count(block[within + 1]:sub(1, byte)) or 0)
end

-- The row and the byte in it of a place in characters.
function Lines:find(place)
  local row = 0
  for k, block in ipairs(self.blocks) do
    if place < block.characters or k == #self.blocks then
      for n, line in ipairs(block) do
        local size = count(line)
        if place <= size or n == #block then return row + n - 1, vim.str_byteindex(line, math.min(place, size)) end
        place = place - size - 1
      end
    end
    row, place = row + #block, place - block.characters
  end
  return 0, 0
end

-- Puts other lines in place of those from one row to before another.
function Lines:splice(from, to, lines)
  self.size = self.size - (to - from) + #lines
  if #self.blocks == 0 then
    self.blocks = blocks_of(lines)
    return
  end
  local first, within = self:locate(from)
  local last, rest = self:locate(to)
  local all, block, tail = {}, self.blocks[first], self.blocks[last]
  for n = 1, within do all[n] = block[n] end
  vim.list_extend(all, lines)
  for n = rest + 1, #tail do all[#all + 1] = tail[n] end
  local put = #all == 0 and {} or #all <= MOST and { block_of(all, 1, #all) } or blocks_of(all)
  if #put == 1 and first == last then
    self.blocks[first] = put[1]
    return
  end
  local blocks = vim.list_slice(self.blocks, 1, first - 1)
  vim.list_extend(blocks, put)
  vim.list_extend(blocks, self.blocks, last + 1, #self.blocks)
  self.blocks = blocks
end

-- How many lines are equal at the front and at the end of two lists.
function Lines.common(old, new)
  local least, front, last = math.min(#old, #new), 0, 0
  while front < least and old[front + 1] == new[front + 1] do front = front + 1 end
  while last < least - front and old[#old - last] == new[#new - last] do last = last + 1 end
  return front, last
end

return Lines
