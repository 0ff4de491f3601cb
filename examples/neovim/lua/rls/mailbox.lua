-- What a replica does in the shared folder. One file for each sender and receiver: a message has all that its receiver isn't known to have, so
-- the latest is enough. And one for each member's cursor.
local files, limits = require('rls.files'), require('rls.limits')
local api = vim.api
local MOST_MESSAGE, MOST_CURSOR = 67108864, 65536 -- bytes

local M = {}

function M:path(from, to) return ('%s/%s-%d-%d.rlsm'):format(self.shared, self.group, from, to) end

function M:cursor_path(from) return ('%s/%s-%d.cursor'):format(self.shared, self.group, from) end

-- Whether there is something else at a path than when this was asked last.
function M:is_new(path)
  local mark = files.mark_of(path)
  if mark == self.seen[path] then return false end
  self.seen[path] = mark
  return true
end

-- Why the head of a message isn't what the name of its file says; nil if it is, or if this is no head at all, which the session says then.
function M:fault_of(message, from)
  if #message < 21 + 4 * self.members or message:sub(1, 4) ~= 'RLSM' then return nil end
  if message:sub(6, 17) ~= self.head:sub(6, 17) then return 'it is of another text' end
  local sender = files.u32(message, 17)
  return sender ~= from and 'its head says member ' .. sender or nil
end

-- Whether a message counts more operations of this member than the replica has made. Then the files in the replica's folder are old, and whatever is
-- made there has numbers that are taken; or the message is forged. It isn't taken, and until its file is gone, or another one, nothing is sent:
-- sending would part the texts for ever if the files are old. The messages of others are taken. Whom the launcher was told to doubt, by RLS_FORCE=1
-- (docs/USE.md, "Rules"), keeps nobody from sending.
function M:counts_ahead(message, from)
  local at = 21 + 4 * self.me
  if #message < at + 4 or files.u32(message, at) <= files.u32(self:message(self.me), at) then return false end
  self.problems['of ' .. from] = ('it counts more edits of member %d than this replica has made'):format(self.me)
  local doubted = '\n' .. (files.read(self.folder .. '/replica.doubted', MOST_CURSOR) or '')
  if not doubted:find(('\n%s-%d-%d %d\n'):format(self.group, self.members, self.me, from), 1, true) then
    local line = ('%s-%d-%d.rlsm counts more edits of member %d than were made here'):format(self.group, from, self.me, self.me)
    self.ahead[from] = 'NOT sent: ' .. line
    files.warn(('rls: %s. Nothing is sent: the files in %s are old, or the number is used twice (docs/USE.md, "A replica is lost"); or somebody forged it: then delete it')
      :format(line, self.folder))
  end
  return true
end

-- What the last message that was taken of a member says that it has, a space before each count: with the fourth version of the session that is left
-- out of what is sent to it. '' if there is none.
function M:counts_of(to)
  local message = self.taken[to]
  if self.version < 4 or not message or #message < 21 + 4 * self.members or message:sub(1, 4) ~= 'RLSM' then return '' end
  local counts = {}
  for k = 0, self.members - 1 do counts[k + 1] = ' ' .. files.u32(message, 21 + 4 * k) end
  return table.concat(counts)
end

-- A member's message is no longer in the way of sending.
function M:pass(from)
  if self.ahead[from] then self.ahead[from], self.is_stopped = nil, true end
end

-- Takes what came from one member, and adds what it changed to `changes`. Answers whether there was anything. What can't be read as a message
-- is told, and stops no other member's.
function M:take_from(from, changes)
  local path = self:path(from, self.me)
  if from == self.me or not self:is_new(path) then return false end
  local message, why = files.read(path, MOST_MESSAGE)
  self.problems['of ' .. from] = why
  if not why and (not message or message == self.taken[from]) then self:pass(from) end
  if not message or message == self.taken[from] then return false end
  self.problems['of ' .. from] = self:fault_of(message, from)
  if self.problems['of ' .. from] or self:counts_ahead(message, from) then return false end
  self:pass(from)
  local request, reply, _, told = 'm ' .. #message, nil, nil, nil
  if self:make_room(#request + 1 + #message) then
    reply, _, told = self.session:ask(request, message)
  else
    reply = self:take_by_command(message)
  end
  vim.list_extend(changes, told or {})
  local refused = reply:match('^no ')
  self.problems['of ' .. from] = (refused or not reply:match('held 0 refused 0')) and reply or nil
  self.taken[from] = message -- what was refused once is refused again
  if refused then return false end
  self.changes = self.changes + (tonumber(reply:match('^applied (%d+)')) or error('rls: ' .. reply, 0))
  if not reply:match('^applied 0 released 0 ') then self.wrote = { from = from, at = os.date('%H:%M') } end
  return true
end

-- Takes what came, and adds what it changed to `changes`. Answers whether there was anything.
function M:take_all(changes)
  local taken = false
  if not self:may_write() then return taken end
  for from = 0, self.members - 1 do taken = self:take_from(from, changes) or taken end
  return taken
end

-- Whether nothing ever came from this number and the message that it has already has more than half the bytes of this one. Each of them has
-- the whole history. Whoever begins with the number takes the one that is there and answers, and gets the rest.
function M:is_enough(to, message)
  local there = files.size_of(self:path(self.me, to))
  return files.u32(message, 21 + 4 * to) == 0 and there ~= nil and 2 * there > #message and not files.size_of(self:path(to, self.me))
end

-- Whether the shared folder is there: it may be a drive or a mount, which goes and comes back.
function M:has_shared()
  self.is_away = vim.fn.isdirectory(self.shared) == 0
  return not self.is_away
end

-- Whether a message is there already. If what is there has this member's number and more of its operations than were made here, nothing is written.
function M:is_written(to, message)
  local path = self:path(self.me, to)
  local there, at = files.read(path, MOST_MESSAGE) or '', 21 + 4 * self.me
  if there == message then
    self.sent[to], self.marks[to], self.problems['to ' .. to] = message, files.mark_of(path), nil
    return true
  elseif #there >= at + 4 and there:sub(6, 21) == self.head:sub(6, 21) and files.u32(there, at) > files.u32(message, at) then
    self:stop(path, 'it has more operations of this number than this replica has made')
  end
  return false
end

function M:tell_limits(messages)
  self.limits = self.limits or {}
  limits.tell_once(self.limits, 'file', limits.of_file(self.folder))
  for to, message in pairs(messages) do
    limits.tell_once(self.limits, to, limits.of_member(to, #message, self:path(to, self.me)))
  end
end

-- Writes messages to members, as far as they are new, and says before that this replica writes.
function M:write(messages)
  local due = {}
  for to, message in pairs(messages) do
    if message ~= self.sent[to] and not self:is_enough(to, message) then due[to], self.last[to] = message, message end
  end
  self:tell_limits(due)
  if not next(due) or next(self.ahead) or not self:has_shared() or not self:may_write() then return end
  for to, message in pairs(due) do
    if self:is_written(to, message) then due[to] = nil end
  end
  if not next(due) or self.twice then return end
  local fault = self:show_token()
  for to, message in pairs(due) do
    local path = self:path(self.me, to)
    local why = fault or files.write(path, message)
    self.problems['to ' .. to] = why
    if not why then self.sent[to], self.marks[to] = message, files.mark_of(path) end
  end
end

-- Whether a message is still there as it was written. The file is read only if it is another one than when this was asked last.
function M:is_there(to, message)
  local path = self:path(self.me, to)
  local mark = files.mark_of(path)
  if self.sent[to] ~= message or (mark ~= self.marks[to] and files.read(path, MOST_MESSAGE) ~= message) then return false end
  self.marks[to] = mark
  return true
end

-- Writes again what could not be written, and what isn't there any more since the folder has an older state: when the folder is back, or this
-- replica may write again, and each tenth time that this is called.
function M:write_again()
  local was_stopped = self.is_away or self.is_stopped
  self.looked = self.looked + 1
  if not self:has_shared() or not (was_stopped or self.looked % 10 == 0) or not self:may_write() then return end
  self.is_stopped = false
  local lost = {}
  for to, message in pairs(self.last) do
    if not self:is_there(to, message) then lost[to], self.sent[to] = message, nil end
  end
  self:write(lost)
  if was_stopped then self.told_cursor, self.shown = nil, nil end
end

-- Tells others where the cursor is, if it has moved.
function M:show_cursor()
  if api.nvim_get_current_buf() ~= self.buf then return end
  self:flush()
  local at = api.nvim_win_get_cursor(0)
  local place = self.lines:place(at[1] - 1, at[2])
  if place == self.shown then return end
  self.shown = place
  self.session:send('a ' .. place, nil, function(reply)
    local word = reply:match('^anchor (%S+)$')
    local name = self.options.name ~= '' and self.options.name or (self.place or {}).own or ''
    local line = word and (word .. ' ' .. name:gsub('%c', '')):gsub(' $', '') .. '\n'
    if line and line ~= self.told_cursor and self:may_write() then
      self.told_cursor = line
      files.write(self:cursor_path(self.me), line)
    end
  end)
end

-- The place that a member tells of its cursor, and a name; nil if there is none. What can't be read as a cursor isn't shown.
local function told_cursor(path)
  local word, name = (files.read(path, MOST_CURSOR) or ''):match('^[^\n]*'):match('^([!-~]+) ?(.*)$')
  return word and { word = word, name = name }
end

-- Shows where the cursors of others are. They are looked up again when messages came: then the session may know of places that it didn't know
-- before.
function M:show_others()
  for from = 0, self.members - 1 do
    local path = self:cursor_path(from)
    local is_new = from ~= self.me and self:is_new(path)
    if is_new then self.places[from] = told_cursor(path) end
    local told = self.places[from]
    if is_new and not told then
      self:mark(from)
    elseif told and (is_new or self.is_lookup_due) then
      local edition = self.edition
      self.session:send('l ' .. told.word, nil, function(reply)
        if self.told or self.edition ~= edition then
          self.is_lookup_due = true -- the text is another one by now
        else
          self:mark(from, tonumber(reply:match('^cursor (%d+)$')), told.name ~= '' and told.name or self.names[from] or '')
        end
      end)
    end
  end
  self.is_lookup_due = false
end

-- Shows a member's cursor at a place, or no more if there is none.
function M:mark(from, place, name)
  if not api.nvim_buf_is_valid(self.buf) then return end
  if not place then
    api.nvim_buf_del_extmark(self.buf, self.namespace, from + 1)
    return
  end
  name = vim.fn.strcharpart(vim.fn.strtrans(name), 0, 40)
  local row, byte = self.lines:find(place)
  local line = self.lines:get(row)
  local after = byte < #line and byte + #vim.fn.strcharpart(line:sub(byte + 1), 0, 1) or byte
  api.nvim_buf_set_extmark(self.buf, self.namespace, row, byte, { id = from + 1, end_row = row, end_col = after, hl_group = 'Search',
    virt_text = { { name ~= '' and name or ('member ' .. from), 'Comment' } }, virt_text_pos = 'eol' })
end

return M
