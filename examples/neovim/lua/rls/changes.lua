-- From the buffer to the session: what was changed in the buffer is compared with what was there, and handed on place by place.
local Lines, compared = require('rls.lines'), require('rls.compare')
local uv, api = vim.loop, vim.api
local MOST_STEPS = 5000 -- edits that are undone at once: a session forgets a group that has more than 10,000
local count = Lines.count

local M = {}

local function escaped(text) return (text:gsub('[\\\n\r]', { ['\\'] = '\\\\', ['\n'] = '\\n', ['\r'] = '\\r' })) end

local function say(text) api.nvim_echo({ { text } }, true, {}) end

-- What the editor tells: these lines were changed. One command may tell several times, `gq` first that the lines have gone and then that others
-- have come, so what was told is put together, and compared once: when Neovim is back in its loop, or before the next request.
function M:changed(first, last, new_last)
  local told = self.told
  if self.is_silent then
    self.lines:splice(first, last, self:lines_now(first, last, new_last))
  elseif not told then
    self.told = { first, last, new_last }
    vim.schedule(function() self:try('flush') end)
  else
    if last > told[3] then told[2], told[3] = told[2] + last - told[3], last end
    told[1], told[3] = math.min(told[1], first), told[3] + new_last - last
  end
end

-- The lines of the buffer that are there instead of those.
function M:lines_now(first, last, new_last)
  if new_last - last + self.lines.size == 0 then return { '' } end
  return api.nvim_buf_get_lines(self.buf, first, new_last, false)
end

function M:flush()
  if not self.told or self.failed then return end
  local first, last, new_last = unpack(self.told)
  self.told = nil
  local new = self:lines_now(first, last, new_last)
  self:tell(first, last, new)
  self.lines:splice(first, last, new)
end

-- Hands a change of lines to the session: one change for each place where they differ. Neovim tells all lines from the first to the last that a
-- command changed, such as a substitution in the whole text.
function M:tell(first, last, new)
  local old = self.lines:slice(first, last)
  -- One line of each, so that what is compared next are whole lines of both.
  if #old == 0 or #new == 0 then
    if first > 0 then
      first = first - 1
      table.insert(old, 1, self.lines:get(first))
      new = vim.list_extend({ old[1] }, new)
    elseif last < self.lines.size then
      old[#old + 1] = self.lines:get(last)
      new = vim.list_extend(vim.list_extend({}, new), { old[#old] })
    end
  end
  local before = self:lines_before(first, old[1], new[1])
  first, old = first - #before, vim.list_extend(vim.list_extend({}, before), old)
  local gone, come = table.concat(old, '\n'), table.concat(vim.list_extend(before, new), '\n')
  if gone == come then return end
  local at = self.lines:place(first, 0)
  local places, is_coarse = compared(gone, come, self.options.compare)
  local passed = 0 -- bytes of what was there
  for _, place in ipairs(places) do
    if place.at > passed then at = at + count(gone:sub(passed + 1, place.at)) end
    self:end_group()
    self:replace(at, place.gone == '' and 0 or count(place.gone), place.come)
    at = at + (place.come == '' and 0 or count(place.come))
    passed = place.at + #place.gone
  end
  self.edition, self.is_cut = self.edition + 1, places[#places].come == ''
  if is_coarse then say('rls: a change this large was compared line by line, not word by word') end
  if #places > 2 * MOST_STEPS then say(('rls: of %d places that were changed, u takes back the last 10,000'):format(#places)) end
  self:is_edited()
end

-- If the white space changes with which a line begins, it is one piece with that before it: so the lines before it are compared, too, back to one
-- with a word.
function M:lines_before(first, old, new)
  local spaces, word = old:match('^([\t-\r ]*)(.?)')
  local others, other = new:match('^([\t-\r ]*)(.?)')
  if spaces == others and word ~= '' and other ~= '' then return {} end
  local from = first - 1
  while from > 0 and not self.lines:get(from):find('[^\t-\r ]') do from = from - 1 end
  return self.lines:slice(math.max(from, 0), first)
end

-- Ends the group of undo, if another command begins or the group has enough steps.
function M:end_group()
  if self.version >= 2 and (self.is_boundary or self.steps >= MOST_STEPS) then
    self.session:send('g', nil, function() end)
    self.steps = 0
  end
  self.is_boundary = false
end

-- From a place on so many characters become this text. With the third version of the session that is one request, and the session makes operations
-- of such changes when it has to. With an older one what comes is put behind what goes, and then that goes: so the run of identifiers that ends
-- there goes on.
function M:replace(at, gone, come)
  if self.version >= 3 then
    self:edit(('e %d %d %s'):format(at, gone, escaped(come)))
  else
    if come ~= '' then self:edit(('i %d %s'):format(at + gone, escaped(come))) end
    if gone > 0 then self:edit(('d %d %d'):format(at, gone)) end
  end
  self.steps = self.steps + (gone > 0 and 1 or 0) + (come ~= '' and 1 or 0)
end

function M:edit(request)
  self.session:send(request, nil, function(reply, _, changes)
    if reply ~= 'ok' and not reply:match('^ok ') then return self:fail('rls: ' .. reply) end
    -- The first change is the edit itself. More are rare, and come from operations that waited: the buffer may have gone on since.
    if changes and #changes > 1 then self.is_behind = true end
  end)
end

-- From now on something isn't stored. It is sent `idle` after the last edit, and at the latest `most` after the first. What was taken counts as
-- an edit only if nothing else waits to be stored.
--
-- After an edit that took something away it is sent `hold` later: what is typed in its place goes on with what was typed before, if the session has
-- made no operations by then.
function M:is_edited(is_taken)
  local now = uv.hrtime() / 1e6
  self.changes = self.changes + 1
  if is_taken and self.unsaved then return end
  if not self.unsaved then self.unsaved, self.since = true, now end
  local is_held = self.version >= 3 and self.is_cut and not is_taken
  self.waits_until = is_held and math.min(now, self.since + self.options.most) + self.options.hold or 0
  local left = math.max(math.min(self.options.idle, self.since + self.options.most - now), self.waits_until - now)
  self.due:start(math.max(math.floor(left), 0), 0, vim.schedule_wrap(function()
    if self.unsaved then self:try('send') end
  end))
end

return M
