-- Edits a replica of rls in a buffer, and exchanges messages with other members through a shared folder. README.md tells how to use it.
--
--   require('rls').open(file)              opens the shared text whose plain file this is (`rls share`, `rls join`); when it is closed, the file
--                                          is written
--   require('rls').open(shared [, name])   opens a text of a shared folder
--   require('rls').open(folder, shared)    opens the replica of a folder; messages go through the folder `shared`. After a fault it opens the
--                                          replica again in its buffer
--   :w                                     stores, takes what came and sends what is new; timers do so too
--   u, Ctrl-R                              undo and redo own edits, whatever others did since (with the second version of the session)
--   require('rls').undo()                  the same; with the first version it takes back the last own edit that isn't stored yet
--
-- It speaks `rls session`, which docs/SESSION.md describes. The session counts characters, and Neovim counts bytes and lines.
local M = {
  program = 'rls',
  every = 500, -- milliseconds between two looks into the shared folder
  idle = 1000, -- milliseconds without an edit, after which edits are stored and sent
  hold = 3000, -- milliseconds for which what went waits for what is typed in its place (third version)
  most = 3000, -- milliseconds after which edits are stored and sent also while somebody types on
  compare = 15, -- seconds of comparing what one command changed, after which it goes on line by line
  rename_at = 500, -- runs of identifiers from which it renames (docs/USE.md); 0 for never
  cursors = true, -- whether to tell where the cursor is, and to show where those of others are (second version)
  name = '', -- what others see beside the cursor
}
local Replica, Circle, files = require('rls.replica'), require('rls.circle'), require('rls.files')
local api = vim.api
local replicas = {} -- by buffer
local place_of_others = api.nvim_create_namespace('rls')

local function current() return replicas[api.nvim_get_current_buf()] end

-- What the keys `u` and Ctrl-R do.
local function map(self)
  if self.version < 2 then return end
  vim.bo[self.buf].undolevels = -1 -- Neovim's own undo would take back what others wrote
  local function key(lhs, what) vim.keymap.set('n', lhs, function() self:try('times', vim.v.count1, what) end, { buffer = self.buf }) end
  key('u', 'undo')
  key('<C-R>', 'redo')
end

local function close(self)
  replicas[self.buf] = nil
  self:close()
  Circle.finish(self)
end

-- The name of a replica's buffer: that of the plain file, if it has one.
local function title(self)
  local place = self.place or {}
  return 'rls:' .. (place.file or place.name and place.shared .. '/' .. place.name or self.folder)
end

-- What `:w` does: it stores and sends. After a fault it tries it anew.
local function write(self)
  if not self.failed then
    self:try('sync')
  else
    local done, fault = pcall(self.open_again, self)
    if not done then
      self.failed = nil
      self:fail(tostring(fault))
    end
  end
end

-- What `:w FILE` does beside storing: it writes the text there, as `rls text` prints it.
local function write_copy(self, event)
  local own = title(self)
  if event.file == '' or event.file:sub(-#own) == own then return end
  local lines = api.nvim_buf_get_lines(self.buf, 0, -1, true)
  if vim.fn.writefile(lines, event.file, 'b') == 0 then api.nvim_echo({ { ('"%s" a copy of the text, %d lines'):format(event.file, #lines) } }, false, {}) end
end

local read_again

local function watch(self)
  local group = api.nvim_create_augroup('rls' .. self.buf, { clear = true })
  local function on(events, callback) api.nvim_create_autocmd(events, { group = group, buffer = self.buf, callback = callback }) end
  on({ 'TextChanged', 'InsertLeave' }, function()
    self:try('flush')
    self.is_boundary = true
  end)
  on('BufWriteCmd', function(event)
    write(self)
    write_copy(self, event)
  end)
  on('BufUnload', function() close(self) end)
  on('BufReadCmd', function() read_again(self) end)
  self.looks = vim.loop.new_timer()
  self.looks:start(M.every, M.every, vim.schedule_wrap(function()
    if replicas[self.buf] ~= self then return end
    self:try('tick')
    vim.cmd('redrawstatus')
  end))
end

local function show(self)
  api.nvim_set_current_buf(self.buf)
  api.nvim_buf_set_name(self.buf, title(self))
  local options = vim.bo[self.buf]
  options.buftype, options.bufhidden, options.swapfile, options.endofline, options.fixendofline = 'acwrite', 'hide', false, false, false
  self:attach()
  options.modified = false
  vim.wo.statusline = "rls:%t%m %#ErrorMsg#%{luaeval('require(\"rls\").trouble()')}%*%{luaeval('require(\"rls\").state()')}%<%=%l,%c"
end

-- What `:e` does, which empties the buffer and ends the session: opens the replica in its buffer again.
read_again = function(old)
  Circle.wait()
  local done, self = pcall(Replica.open, M, place_of_others, old.folder, old.shared, old.place)
  if not done then return vim.notify(tostring(self), vim.log.levels.ERROR) end
  self.buf = old.buf
  replicas[self.buf] = self
  self:attach()
  vim.bo[self.buf].modified = false
  watch(self)
  map(self)
  Circle.begin(self)
  self:try('sync')
end

-- The replica of this folder that is open, if one is.
local function known(folder)
  for _, self in pairs(replicas) do
    if self.folder == folder then return self end
  end
end

local function full(path) return (vim.fn.fnamemodify(path, ':p'):gsub('(.)/$', '%1')) end

-- Where a text is: a replica and the folder for its messages, if these are named; otherwise what `rls where` finds, also its plain file and own name.
local function found(first, second)
  if not first then error('rls: say a file or a folder that is shared (open(FILE), open(SHARED, NAME)), or a replica: open(FOLDER, SHARED)', 0) end
  first = full(first)
  if not files.has_replica(first) and (not second or Circle.is_in(first)) then
    local place = Circle.find(M.program, first, second)
    return place.folder, place.shared, place
  end
  if not second then error('rls: say the shared folder, too: open(FOLDER, SHARED)', 0) end
  return first, full(second)
end

local function opened(folder, shared, place)
  local self = known(folder)
  if self then
    api.nvim_set_current_buf(self.buf)
    if self.failed then self:open_again() end
    return self
  end
  if place then Circle.bring_in(M.program, place) end
  self = Replica.open(M, place_of_others, folder, shared, place)
  self.buf = api.nvim_create_buf(true, false)
  replicas[self.buf] = self
  show(self)
  watch(self)
  map(self)
  Circle.begin(self)
  self:try('sync')
  return self
end

-- Shows the text of a replica that another one has open, to be read alone. `:e` reads it again.
local function show_text(folder)
  local buffer = api.nvim_create_buf(true, false)
  local options = vim.bo[buffer]
  options.buftype, options.bufhidden, options.swapfile = 'nofile', 'wipe', false
  local function read()
    local text = vim.fn.system({ 'sh', '-c', 'cd "$1" && exec "$2" text', 'sh', folder, M.program })
    options.modifiable, options.readonly = true, false
    api.nvim_buf_set_lines(buffer, 0, -1, true, vim.split(text, '\n', { plain = true }))
    options.modifiable, options.readonly, options.modified = false, true, false
  end
  api.nvim_set_current_buf(buffer)
  api.nvim_buf_set_name(buffer, 'rls (read only):' .. folder)
  api.nvim_create_autocmd('BufReadCmd', { buffer = buffer, callback = read })
  read()
end

-- Opens a replica. If it can't be opened, one line says why, and the answer is nil.
function M.open(first, second)
  local done, folder, shared, place = pcall(found, first, second)
  local answer = folder
  if done then done, answer = pcall(opened, folder, shared, place) end
  if done then return answer end
  if answer == 'rls: to be read' then return show_text(folder) end
  vim.notify(tostring(answer), vim.log.levels.ERROR)
end

function M.undo()
  if current() then current():try('undo') end
end

function M.redo()
  if current() then current():try('redo') end
end

-- What is wrong with the replica of this buffer, and what else there is to say of it.
function M.trouble() return current() and current():trouble() or '' end

function M.state() return current() and current():state() or '' end

function M.status() return M.trouble() .. M.state() end

return M
