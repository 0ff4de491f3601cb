-- A replica in a buffer: what is typed goes to the session as it is typed, and what others changed is put in place in the buffer.
local Session, Lines, Mailbox, Changes = require('rls.session'), require('rls.lines'), require('rls.mailbox'), require('rls.changes')
local Tokens, Renaming, files, compared = require('rls.tokens'), require('rls.renaming'), require('rls.files'), require('rls.compare')
local uv, api = vim.loop, vim.api
local MOST_INPUT = 67108864 -- bytes that a session reads before it stores

local Replica = {}
Replica.__index = Replica
for _, part in ipairs({ Mailbox, Tokens, Changes }) do
  for name, method in pairs(part) do Replica[name] = method end
end

local function unescaped(text) return (text:gsub('\\(.)', { n = '\n', r = '\r', ['\\'] = '\\' })) end

local function say(text) api.nvim_echo({ { text } }, true, {}) end

-- The number after this word in a reply; any other reply is an error.
local function number(reply, word) return tonumber(reply:match('^' .. word .. ' (%d+)')) or error('rls: ' .. reply, 0) end

-- The files of a replica are its member's own: with the messages, others would write over them, and a synchroniser would put older ones there.
local function keep_apart(folder, shared)
  folder, shared = vim.fn.resolve(folder), vim.fn.resolve(shared)
  if folder == shared or vim.startswith(folder, shared .. '/') then
    error('rls: the shared folder needs to be another one, in which the folder of the replica is not', 0)
  end
end

-- `place` is what `rls where` says of a text of a circle; nil for a replica that was begun by hand.
function Replica.open(options, namespace, folder, shared, place)
  local self = setmetatable({ options = options, namespace = namespace, folder = folder, shared = shared, place = place, names = {}, ahead = {}, taken = {}, sent = {}, last = {}, marks = {}, looked = 0,
    seen = {}, problems = {}, places = {}, steps = 0, changes = options.rename_at, renaming = Renaming.new(), unsaved = false, waits_until = 0, edition = 0 }, Replica)
  files.look_for(folder)
  keep_apart(folder, shared)
  if vim.fn.isdirectory(shared) == 0 then
    vim.fn.mkdir(shared, 'p', 511) -- what the umask leaves of all permissions
    local alone = vim.fn.getfperm(shared):sub(5, 5) ~= 'w' and '; nobody else on this machine may write into it' or ''
    say('rls: made the shared folder' .. alone)
  end
  local done, fault = pcall(function()
    self:start(true)
    self:learn()
  end)
  if not done then
    if self.session then self.session:kill('sigterm') end
    error(fault, 0)
  end
  files.hold(folder)
  self.due = uv.new_timer()
  return self
end

function Replica:start(is_opening)
  self.session = Session.start(self.options.program, self.folder, is_opening)
  self.session.note = function(...) self.renaming:note(...) end
  self.session.before = function() self:flush() end
  local newest = 2
  for version = 3, 4 do
    self.session:send('v ' .. version, nil, function(reply) if reply == 'version ' .. version then newest = version end end)
  end
  self.session.telling = self.session:ask('v') == 'version 2' and self.session:ask('c 1') == 'telling 1'
  self.version = not self.session.telling and 1 or newest
end

-- Which member this is: the head of a message tells it. A message to oneself has a head alone.
function Replica:learn()
  local to = 0
  if self.version >= 2 then
    local _, stat = self.session:ask('n')
    to = tonumber(stat:match('me (%d+)'))
  end
  self.head = self:message(to)
  self.group, self.members, self.me = files.decimal(self.head:sub(6, 13)), files.u32(self.head, 13), files.u32(self.head, 17)
end

function Replica:text()
  local reply, text = self.session:ask('t')
  number(reply, 'text')
  return text
end

function Replica:message(to)
  local reply, message = self.session:ask('s ' .. to)
  number(reply, 'message')
  return message
end

-- From the buffer to the session ----------------------------------------------

-- Shows the text in the buffer, which from now on tells what is changed in it.
function Replica:attach()
  local lines = vim.split(self:text(), '\n', { plain = true })
  local levels = vim.bo[self.buf].undolevels
  vim.bo[self.buf].undolevels = -1
  api.nvim_buf_set_lines(self.buf, 0, -1, true, lines)
  vim.bo[self.buf].undolevels = levels
  self.lines = Lines.new(lines)
  api.nvim_buf_attach(self.buf, false, { on_lines = function(_, _, _, first, last, new_last) self:try('changed', first, last, new_last) end })
end

-- From the session to the buffer ----------------------------------------------

-- Whether a cursor stays with the character after it: one at the beginning of a line, and one that stands on a character. One at the end of
-- the text has none.
function Replica:is_before(row, byte)
  if row == self.lines.size - 1 and byte >= #self.lines:get(row) then return false end
  return byte == 0 or not api.nvim_get_mode().mode:match('^[iR]')
end

-- Where a cursor goes when lines come in at a place, or when what is from there to another place goes.
local function after_insertion(cursor, row, byte, lines)
  local is_at = cursor.row == row and cursor.byte == byte
  if cursor.row < row or (cursor.row == row and cursor.byte < byte) or (is_at and not cursor.is_before) then return end
  if cursor.row == row then cursor.byte = #lines[#lines] + cursor.byte - (#lines == 1 and 0 or byte) end
  cursor.row = cursor.row + #lines - 1
end

local function after_deletion(cursor, row, byte, last_row, last_byte)
  if cursor.row < row or (cursor.row == row and cursor.byte <= byte) then return end
  if cursor.row > last_row or (cursor.row == last_row and cursor.byte >= last_byte) then
    if cursor.row == last_row then cursor.byte = byte + cursor.byte - last_byte end
    if cursor.row == last_row then cursor.row = row else cursor.row = cursor.row - (last_row - row) end
  else
    cursor.row, cursor.byte = row, byte
  end
end

-- What stays with its character: the cursors of the windows that show the buffer, the other end of a selection, and the marks a to z, of which Neovim
-- forgets those in lines that are cut or put together. Each has a function that puts it elsewhere.
function Replica:cursors()
  local found = {}
  local function add(row, byte, put) found[#found + 1] = { row = row, byte = byte, is_before = self:is_before(row, byte), put = put } end
  for _, window in ipairs(vim.fn.win_findbuf(self.buf)) do
    local at = api.nvim_win_get_cursor(window)
    add(at[1] - 1, at[2], function(place) api.nvim_win_set_cursor(window, place) end)
  end
  if api.nvim_get_current_buf() == self.buf and api.nvim_get_mode().mode:match('^[vV\22]') then
    local at = vim.fn.getpos('v')
    add(at[2] - 1, at[3] - 1, function(place)
      vim.cmd('normal! o')
      api.nvim_win_set_cursor(0, place)
      vim.cmd('normal! o')
    end)
  end
  for mark in ('abcdefghijklmnopqrstuvwxyz'):gmatch('.') do
    local at = api.nvim_buf_get_mark(self.buf, mark)
    if at[1] > 0 then add(at[1] - 1, at[2], function(place) api.nvim_buf_set_mark(self.buf, mark, place[1], place[2], {}) end) end
  end
  return found
end

-- Makes changes of the session in the buffer, at their places, so marks, folds and cursors elsewhere stay. Answers the first place
-- that they have touched.
function Replica:apply(changes)
  if #changes == 0 then return nil end
  local cursors, first = self:cursors(), nil
  self.edition = self.edition + 1
  self.is_silent = true
  local done, fault = pcall(function()
    for _, change in ipairs(changes) do
      local at, rest = change:match('^%a (%d+) (.*)$')
      local row, byte = self.lines:find(tonumber(at))
      first = math.min(first or tonumber(at), tonumber(at))
      if change:sub(1, 1) == 'd' then
        local last_row, last_byte = self.lines:find(tonumber(at) + tonumber(rest))
        -- Neovim 0.7 reads a line that was changed just before from memory that is free by then, if it reads another one in the same call.
        api.nvim_buf_get_lines(self.buf, last_row, last_row + 1, true)
        api.nvim_buf_set_text(self.buf, row, byte, last_row, last_byte, { '' })
        for _, cursor in ipairs(cursors) do after_deletion(cursor, row, byte, last_row, last_byte) end
      else
        local lines = vim.split(unescaped(rest), '\n', { plain = true })
        api.nvim_buf_set_text(self.buf, row, byte, row, byte, lines)
        for _, cursor in ipairs(cursors) do after_insertion(cursor, row, byte, lines) end
      end
    end
  end)
  self.is_silent = false
  if not done then error(fault, 0) end
  if first then self:put(cursors) end
  return first
end

function Replica:put(cursors)
  for _, cursor in ipairs(cursors) do cursor.put({ cursor.row + 1, cursor.byte }) end
end

-- Makes the buffer the session's text by what is between the equal fronts and ends, where the session doesn't tell what changed. With the
-- first version Neovim's own undo goes back to here and no further: it would take back what others wrote.
function Replica:compare()
  local old, new = self.lines:all(), vim.split(self:text(), '\n', { plain = true })
  local front, tail = Lines.common(old, new)
  if front == #old and front == #new then return end
  self.edition = self.edition + 1
  local levels = vim.bo[self.buf].undolevels
  vim.bo[self.buf].undolevels, self.is_silent = -1, true
  api.nvim_buf_set_lines(self.buf, front, #old - tail, true, vim.list_slice(new, front + 1, #new - tail))
  vim.bo[self.buf].undolevels, self.is_silent = levels, false
end

-- Undo ------------------------------------------------------------------------

function Replica:take_back(request, nothing)
  self:flush()
  self.session:drain()
  local reply, _, changes = self.session:ask(request)
  if reply == 'no nothing' then
    api.nvim_echo({ { nothing } }, false, {})
    return false
  end
  if not reply:match('^%a+ %d') then error('rls: ' .. reply, 0) end
  if changes then
    local first = self:apply(changes)
    if first then
      local row, byte = self.lines:find(first)
      api.nvim_win_set_cursor(0, { row + 1, byte })
    end
  else
    self:compare()
  end
  self.is_boundary, self.is_cut = true, false
  self:is_edited()
  return true
end

-- Undoes or does again as often as is said, as far as there is something.
function Replica:times(count, what)
  for _ = 1, count do
    if not self[what](self) then return end
  end
end

function Replica:undo() return self:take_back(self.version >= 2 and 'z' or 'u', 'Already at oldest change') end

function Replica:redo()
  return self.version >= 2 and self:take_back('y', 'Already at newest change')
end

-- Storing and sending -----------------------------------------------------------

function Replica:stored(reply)
  if reply ~= 'saved' then return self:fail('rls: not stored') end
  local is_there, fault = pcall(files.look_for, self.folder)
  if not is_there then return self:fail(fault) end
  self.session.given, self.fault = 0, nil
end

-- With the first version only the end of a session writes the file, so another one begins. The cursor goes over; what `u` could take back doesn't.
function Replica:begin_again()
  local at = number(self.session:ask('p'), 'cursor')
  self:stored((self.session:ask('q')))
  self.session:close()
  self:start()
  number(self.session:ask('k ' .. at), 'cursor')
end

-- What `rls stat` prints: of the stored file with the first version.
function Replica:stat()
  if self.version >= 2 then return select(2, self.session:ask('n')) end
  return vim.fn.system({ 'sh', '-c', 'cd "$1" && exec "$2" stat', 'sh', self.folder, self.options.program })
end

-- Whether a rename is due. Where the program has no line `o`, or somebody else may have changed what is long, it looks only if an eighth of the
-- limit has changed since it looked last.
function Replica:is_rename_due()
  local limit = self.options.rename_at
  if limit <= 0 then return false end
  local is_long_ago = self.changes * 8 >= limit
  if is_long_ago then self.changes = 0 end
  local told = self.version >= 4 and self.session:ask('o') or 'bad'
  if told ~= 'bad' then return self.renaming:pays(told, self.members, limit, is_long_ago) end
  if not is_long_ago then return false end
  local numbers = self:stat()
  local runs, epochs = tonumber(numbers:match('runs (%d+)') or 0), tonumber(numbers:match('epochs (%d+)') or 1)
  return runs > limit * math.min(epochs, 8)
end

function Replica:rename_if_due()
  if not self:is_rename_due() then return end
  local reply, _, changes = self.session:ask('r')
  if reply:match('^no ') then return self.renaming:refused(reply:sub(4)) end
  number(reply, 'ok')
  if changes then self:apply(changes) end
  if self.version == 1 then self:begin_again() end
end

-- Stores, and then writes the messages: what isn't stored may be sent to nobody, since a crash would give its numbers to other edits. With the
-- second version nothing waits: the messages are asked for, then it is stored, and what was answered is written after that.
function Replica:send()
  self.unsaved = false
  local messages = {}
  if self.version == 1 then
    self.session:drain()
    self:begin_again()
    self:rename_if_due()
  elseif self.session:is_idle() then
    self:rename_if_due()
  end
  for to = 0, self.members - 1 do
    if to ~= self.me then self.session:send('s ' .. to .. self:counts_of(to), nil, function(_, message) messages[to] = message end) end
  end
  local function write()
    self:write(messages)
    if not self.unsaved and api.nvim_buf_is_valid(self.buf) then vim.bo[self.buf].modified = false end
  end
  if self.version == 1 then
    self.session:drain()
    write()
  else
    self.session:send('w', nil, function(reply)
      self:stored(reply)
      if not self.failed then write() end
    end)
    self:show_cursors()
  end
end

-- Tells where the cursor is, and shows where those of others are. Each question but an edit has the session make operations of what was typed, so
-- with the third version this is done when it has to make them anyway, and when nothing was typed since.
function Replica:show_cursors()
  if self.version < 2 or not self.options.cursors then return end
  self:show_cursor()
  self:show_others()
end

-- Has the session read as many bytes more as this before it stores. It answers whether it can.
function Replica:make_room(size)
  if self.version >= 2 and self.session.given + size > MOST_INPUT then self:stored((self.session:ask('w'))) end
  return self.session.given + size <= MOST_INPUT
end

-- Takes a message that a session can't read before it stores, by the command for that. The line that it prints is the answer.
function Replica:take_by_command(message)
  local name = vim.fn.tempname()
  local file = assert(io.open(name, 'wb'))
  file:write(message)
  file:close()
  self:stored((self.session:ask('q')))
  self.session:finish()
  local said = vim.fn.system({ 'sh', '-c', 'cd "$1" && exec "$2" take <"$3" 2>&1', 'sh', self.folder, self.options.program, name })
  os.remove(name)
  self:start()
  self.is_behind = true
  return (said:match('^applied ') and '' or 'no ') .. said:match('^[^\n]*')
end

-- Takes what came. It waits until the session has answered what was asked before, since its changes are of the text as it is then. The timer
-- doesn't wait: it looks again.
function Replica:take(is_asked)
  self:flush()
  if not is_asked and not self.session:is_idle() then return end
  self.session:drain()
  if self.lines.size ~= api.nvim_buf_line_count(self.buf) then error('rls: the buffer has other lines than it told', 0) end
  local place = self.version == 1 and api.nvim_get_current_buf() == self.buf and api.nvim_win_get_cursor(0)
  local changes = {}
  if place then number(self.session:ask('k ' .. self.lines:place(place[1] - 1, place[2])), 'cursor') end
  local taken = self:take_all(changes)
  if self.version >= 2 and not self.is_behind then
    self:apply(changes)
  elseif taken or self.is_behind then
    self:compare()
    self.is_behind = false
    if place then
      local row, byte = self.lines:find(number(self.session:ask('p'), 'cursor'))
      api.nvim_win_set_cursor(0, { row + 1, byte })
    end
  end
  if taken then
    self.is_lookup_due = true
    self:is_edited(true)
  end
end

-- What `:w` does.
function Replica:sync()
  self:take(true)
  self:send()
  self.session:drain()
end

-- What the timer does.
function Replica:tick()
  self:flush()
  if self.session.ended ~= false then self.session:drain() end
  if not self.unsaved or self.waits_until <= uv.hrtime() / 1e6 then self:take() end
  self:write_again()
  if self.session:is_idle() and (self.version < 3 or not self.unsaved) then self:show_cursors() end
  if self.session.given > MOST_INPUT / 2 then self:send() end
end

-- Faults -----------------------------------------------------------------------

-- After a fault nothing more is done with the buffer, which keeps what it shows, until it is opened again.
function Replica:try(what, ...)
  if self.failed then return end
  local done, fault = pcall(self[what], self, ...)
  if not done then self:fail(tostring(fault)) end
end

function Replica:fail(fault)
  if self.failed then return end
  self.failed, self.fault = fault, 'NOT stored: ' .. fault:gsub('^rls: ', '')
  if api.nvim_buf_is_valid(self.buf) then vim.bo[self.buf].modified = true end
  self.due:stop()
  vim.schedule(function() vim.notify('rls: ' .. self.fault, vim.log.levels.ERROR) end)
end

-- Opens the replica of a buffer again after a fault. What was typed and isn't in the replica is put in again; nothing is deleted, since what
-- isn't in the buffer may be of others.
function Replica:open_again()
  self.session:finish()
  files.look_for(self.folder)
  self:start()
  self.told, self.is_refusal_told, self.is_behind, self.is_boundary, self.is_cut, self.unsaved = nil, nil, false, true, false, false
  self.taken, self.seen, self.ahead = {}, {}, {}
  self:take_all({})
  local stored = vim.split(self:text(), '\n', { plain = true })
  local shown = api.nvim_buf_get_lines(self.buf, 0, -1, true)
  local joined = Replica.joined(stored, shown)
  files.hold(self.folder)
  if not vim.deep_equal(joined, shown) then api.nvim_buf_set_lines(self.buf, 0, -1, true, joined) end
  self.failed, self.lines = nil, Lines.new(stored)
  if not vim.deep_equal(joined, stored) then self.told = { 0, #stored, #joined } end
  self:sync()
end

-- The lines of one text with what another one has beside: nothing of the first goes. It takes the time that it needs: of lines that aren't compared
-- by words all would be there twice.
function Replica.joined(lines, others)
  local old, parts, passed = table.concat(lines, '\n'), {}, 0
  for _, place in ipairs((compared(old, table.concat(others, '\n'), math.huge, true))) do
    local to, come = place.at + #place.gone, place.come
    if place.gone:find('[^\t-\r ]') and come:find('[^\t-\r ]') then
      -- A part of a word comes in place of another one: both words are there, with a space between.
      local front, tail = old:sub(1, place.at):match('[^\t-\r ]*$'), old:match('^[^\t-\r ]*', to + 1)
      to, come = to + #tail, ' ' .. front .. come .. tail
    end
    vim.list_extend(parts, { old:sub(passed + 1, to), come })
    passed = math.max(passed, to)
  end
  parts[#parts + 1] = old:sub(passed + 1)
  return vim.split(table.concat(parts), '\n', { plain = true })
end

-- Stores what isn't stored. It isn't sent before the replica is opened again.
function Replica:close()
  self.due:close()
  self.looks:close()
  -- At the end of its input a session stores too, and then the folder is free.
  if not self.failed then pcall(self.session.ask, self.session, 'q') end
  self.session:close()
  files.let_go(self.folder)
end

-- What is wrong with the replica: since a fault nothing is stored, and while its number may be used twice nothing is sent.
function Replica:trouble()
  local waits = self.session:waits()
  if self.fault or waits < 3 then return self.fault or (self.twice and self.twice.line) or select(2, next(self.ahead)) or '' end
  return ('NOT stored: the program has not answered for %d s'):format(waits)
end

-- What else the status line says of it.
function Replica:state()
  if self.failed then return '' end
  local problems = self.is_away and ', the shared folder is not there' or ''
  for message, problem in pairs(self.problems) do problems = problems .. (', message %s: %s'):format(message, problem) end
  local own = self.place and self.place.own .. ', ' or ''
  local name = self.wrote and self.names[self.wrote.from]
  local wrote = name and (', %s wrote at %s'):format(name, self.wrote.at) or ''
  return ('%s%smember %d of %d%s%s%s'):format(self:trouble() == '' and '' or '; ', own, self.me, self.members, self.unsaved and ', not stored' or '', wrote, problems)
end

return Replica
