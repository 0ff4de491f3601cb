-- Circles (docs/SHARING.md): `rls where` tells which replica belongs to a file or a text of a shared folder. `rls sync FILE` brings the plain file and
-- the replica together before an editor opens the text, and after it has closed it. While one is open, `rls sync --tend` does in the background what
-- others wait for, such as a number for somebody who joins, and `rls who` tells who they are.
local files = require('rls.files')
local uv, api = vim.loop, vim.api
local LOOK_EVERY = 5000 -- milliseconds between two looks at who asks for a number
local LOOKS = 12 -- looks after which it is done in any case
local PATIENCE = 3000 -- milliseconds that an end of Neovim, or `:e`, waits for plain files

local M = {}
local open = {} -- the replicas in buffers that show a text of a circle
local tended = {} -- by shared folder: what is known of its circle
local closing = {} -- jobs that write the plain files of texts that were closed
local looks

-- Begins a job; `done` gets its status, the lines that it printed, and what was wrong. Answers its number.
local function start(program, words, done, is_detached)
  if vim.fn.executable(program) == 0 then error(('rls: there is no program %s on the path (docs/INSTALL.md)'):format(program), 0) end
  local out, errors = {}, {}
  return vim.fn.jobstart({ program, unpack(words) }, { stdout_buffered = true, stderr_buffered = true, detach = is_detached,
    on_stdout = function(_, lines) out = lines end, on_stderr = function(_, lines) errors = lines end,
    on_exit = function(_, status) done(status, out, errors) end })
end

-- The last line by which the program says what is wrong.
local function said(lines)
  local last = ''
  for _, line in ipairs(lines) do
    if line:match('^rls: ') or (line ~= '' and not last:match('^rls: ')) then last = line end
  end
  return last
end

-- Runs the program, and waits for it.
local function run(program, words)
  local answer
  local job = start(program, words, function(...) answer = { ... } end)
  local _, why = vim.wait(600000, function() return answer ~= nil end, 10)
  if not answer then
    vim.fn.jobstop(job)
    error(why == -2 and 'rls: given up' or 'rls: the program does not answer', 0)
  end
  return unpack(answer)
end

-- Why `rls where` has found nothing, in words for whoever named the path.
local function why(program, path, status, errors)
  local line = said(errors)
  if status == 1 then
    return ('rls: %s has no command `where`: it is older than 0.11.0, or another program of that name. open(REPLICA, SHARED) does without'):format(program)
  elseif status ~= 2 or not line:find('is neither a shared folder', 1, true) then
    return 'rls: ' .. line:gsub('^rls: ', '')
  elseif not uv.fs_stat(path) then
    return 'rls: there is no ' .. path
  end
  local name, is_folder = vim.fn.fnamemodify(path, ':t'), vim.fn.isdirectory(path) == 1
  return ('rls: %s is not shared. This shares it: rls share %s %s'):format(name, is_folder and path or 'SHARED', is_folder and 'FILE' or name)
end

-- The text of a circle that a file, or a shared folder with or without the text's name, means. Where several are meant, somebody chooses.
function M.find(program, path, name)
  local status, lines, errors = run(program, { 'where', path, name })
  if status ~= 0 then error(why(program, path, status, errors), 0) end
  local rows, question = {}, { 'rls: which text?' }
  for _, line in ipairs(lines) do
    local row = vim.split(line, '\t', { plain = true })
    if #row == 5 then
      rows[#rows + 1] = row
      question[#question + 1] = ('%d %s'):format(#rows, row[3])
    end
  end
  if #rows == 0 then error(('rls: there is no text %s in %s, or it has not come yet: `rls sync %s` fetches it'):format(name or '', path, path), 0) end
  local row = rows[#rows == 1 and 1 or vim.fn.inputlist(question)]
  if not row then error('rls: no text was chosen', 0) end
  return { folder = row[1], shared = row[2], name = row[3], file = row[4] ~= '-' and row[4] or nil, own = row[5] }
end

-- Before a text is opened: what was changed in its plain file goes in. What is wrong with it is told, and the text is opened all the same.
function M.bring_in(program, place)
  if not place.file then return end
  local status, _, errors = run(program, { 'sync', place.file })
  if status ~= 0 and status ~= 73 then files.warn(said(errors)) end
end

-- After a text was closed: its plain file is written, which Neovim's end leaves to go on.
local function write_file(self)
  local done, job = pcall(start, self.options.program, { 'sync', '--wait', '10', self.place.file }, function(status, _, errors)
    if status ~= 0 then files.warn(said(errors)) end
  end, true)
  if done then closing[#closing + 1] = job else files.warn(job) end
end

-- Waits for a moment until the plain files of texts that were closed are written.
function M.wait()
  if #closing > 0 then vim.fn.jobwait(closing, PATIENCE) end
  closing = {}
end

-- The names of the members, as `rls who` prints them.
local function has_names(shared, lines)
  local names = tended[shared].names
  for _, line in ipairs(lines) do
    local member, rest = line:match('^ *(%d+) (.*)$')
    local name = rest and (rest:match('^(.-%S) +never ') or rest:match('^(.-%S) +%d%d %S+ %d%d:%d%d '))
    if name and names[tonumber(member)] ~= name then
      names[tonumber(member)] = name
      for self in pairs(open) do self.is_lookup_due = true end
    end
  end
  vim.cmd('redrawstatus!')
end

-- What stands in the way is told once: whoever isn't safe to go on has to know.
local function has_tended(program, shared, status, errors)
  local known, line = tended[shared], status == 71 and said(errors) or ''
  if line ~= '' and line ~= known.told then files.warn(line) end
  known.told = line
  local done = pcall(start, program, { 'who', shared }, function(_, lines)
    known.is_busy = false
    has_names(shared, lines)
  end)
  if not done then known.is_busy = false end
end

-- The names in a folder that end so, in one string; none if it can't be read.
local function names_in(folder, ending)
  local found, names = uv.fs_scandir(folder), {}
  while found do
    local name = uv.fs_scandir_next(found)
    if not name then break end
    if vim.endswith(name, ending) then names[#names + 1] = name end
  end
  table.sort(names)
  return table.concat(names, ' ')
end

-- Whether a circle was begun in a folder.
function M.is_in(folder) return names_in(folder, '.circle') ~= '' end

-- Does what others wait for in a circle of which a text is open: where somebody else asks than before, and each minute.
local function look(program, shared)
  local known, asks = tended[shared], names_in(shared, '.ask') -- who asks for a number
  local is_due = known.looks % LOOKS == 0 or asks ~= known.asks
  known.looks = known.looks + 1
  if not is_due or known.is_busy then return end
  known.asks = asks
  known.is_busy = pcall(start, program, { 'sync', '--tend', shared }, function(status, _, errors) has_tended(program, shared, status, errors) end)
end

local function look_all()
  local seen = {}
  for self in pairs(open) do
    if not seen[self.shared] then look(self.options.program, self.shared) end
    seen[self.shared] = true
  end
end

-- From now on a buffer shows a text of a circle.
function M.begin(self)
  if not self.place then return end
  open[self] = true
  tended[self.shared] = tended[self.shared] or { looks = 0, asks = '', names = {}, told = '', is_busy = false }
  self.names = tended[self.shared].names
  if not looks then
    looks = uv.new_timer()
    looks:start(LOOK_EVERY, LOOK_EVERY, vim.schedule_wrap(look_all))
    api.nvim_create_autocmd('VimLeave', { group = api.nvim_create_augroup('rls_circle', { clear = true }), callback = M.wait })
  end
  look(self.options.program, self.shared)
end

-- It shows none any more.
function M.finish(self)
  if not open[self] then return end
  open[self] = nil
  if not next(open) then
    looks:close()
    looks = nil
  end
  if self.place.file then write_file(self) end
end

return M
