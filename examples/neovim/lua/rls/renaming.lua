-- When a session renames (docs/USE.md, "When to rename"): what was spent since the last rename is the bytes of own operations that no plain text needs.
local RUN_BYTES = 64 -- so many bytes of a rename's operation count as a run
local PLAIN_BYTES = 200 -- an own operation may have so many beside its text, and 4 for each member; more than that was spent
local LATEST = 4 -- a rename is due in any case from one part in so many of the greatest operation on

local Renaming = {}
Renaming.__index = Renaming

function Renaming.new() return setmetatable({ put = 0, spent = 0 }, Renaming) end

-- What a reply to `o` tells (docs/SESSION.md).
local function costs_of(told)
  local costs = {}
  for word, number in told:gmatch('(%a+) (%d+)') do costs[word] = tonumber(number) end
  return costs
end

-- Notes a request: how many bytes of text were put in since the last look. What an undo puts in nobody knows.
function Renaming:note(kind, bytes)
  if kind == 'e' or kind == 'i' then self.put = self.put + bytes end
  if kind == 'u' or kind == 'z' or kind == 'y' then self.put = math.huge end
end

-- Adds the bytes of own operations since the last look that no plain text needs.
function Renaming:spend(costs, members)
  if self.own then
    local is_more = costs.own >= self.own -- (else others have taken some of them)
    local own, bytes = is_more and self.own or 0, is_more and self.bytes or 0
    self.spent = self.spent + math.max(0, costs.bytes - bytes - self.put - (costs.own - own) * (PLAIN_BYTES + 4 * members))
  end
  self.own, self.bytes, self.put = costs.own, costs.bytes, 0
end

-- Whether to rename now; it is done then. A look that is long ago sees what all members did, and any look what this one spent.
function Renaming:pays(told, members, limit, is_long_ago)
  local costs = costs_of(told)
  self:spend(costs, members)
  local is_large = costs.rename * LATEST > costs.limit or (costs.epochs == 1 and costs.rename > RUN_BYTES * limit)
  if self.spent <= costs.rename and not (is_long_ago and is_large) then return false end
  -- With the rename, which is one more operation, of that size.
  self.spent, self.own, self.bytes = 0, costs.own + 1, costs.bytes + costs.rename
  return true
end

-- Tells that the rename was refused for this reason, once.
function Renaming:refused(reason)
  if self.is_refusal_told then return end
  self.is_refusal_told = true
  local told = "rls: the text can't be renamed any more (%s), so files and messages stay large: `rls restart` begins anew with the text"
  vim.notify((told .. ' (docs/USE.md, "Where a limit is met")'):format(reason))
end

return Renaming
