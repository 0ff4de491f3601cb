-- Presses keys at random in two buffers of one Neovim, which are two members, and compares the texts: RLS and ROOM are in the environment.
local rls = require('rls')
rls.program, rls.every, rls.rename_at = os.getenv('RLS'), 1000000, 8
local room, api = os.getenv('ROOM'), vim.api

local function run()
  local all = {}
  for member = 0, 1 do all[member] = rls.open(room .. '/' .. member, room .. '/shared') end
  math.randomseed(6)
  local keys = { 'onew line\27', 'ggx', 'GAé😀\27', 'dd', 'u', 'p', 'J', 'yyP', '>>', 'ggVGd', 'ia\\nb\27', 'Go\27', 'ggO\27', '\18', 'xp', 'ggguG~',
    'i\22000\22013\27', 'Gome words that are long enough to be filled: é日本 e\27', ':%s/e/o/ge\13', ':%s/o/e/ge\13', ':%s/\\w\\+/&&/ge\13', 'gggqG', ':sort\13' }
  local function turn(self, what)
    api.nvim_set_current_buf(self.buf)
    self[what](self)
  end
  for step = 1, 300 do
    local self = all[math.random(0, 1)]
    api.nvim_set_current_buf(self.buf)
    api.nvim_feedkeys(keys[math.random(#keys)], 'xt', false)
    if math.random(6) == 1 then self[math.random(3) == 1 and 'redo' or 'undo'](self) end
    if math.random(4) == 1 then self:sync() end
    local text = self:text()
    assert(text == table.concat(api.nvim_buf_get_lines(self.buf, 0, -1, true), '\n'), 'the buffer is not the text at step ' .. step)
  end
  for _ = 1, 3 do for member = 0, 1 do turn(all[member], 'sync') end end
  assert(vim.deep_equal(all[0].lines:all(), all[1].lines:all()), 'the texts differ')
  local file = assert(io.open(room .. '/text', 'wb'))
  file:write(table.concat(all[0].lines:all(), '\n'))
  file:close()
  for member = 0, 1 do vim.cmd('bwipeout! ' .. all[member].buf) end
end

-- What others may have put into the shared folder: links at the names of own messages and at the name that these had before, and at members'
-- names a link, a pipe, a folder, a file that is too large and one that is no message.
local function hostile()
  rls.rename_at = 500
  local shared, victim = room .. '/hostile', room .. '/victim'
  local group = '18446744073709551615'
  local function at(name) return ('%s/%s-%s'):format(shared, group, name) end
  local function shell(command, ...) assert(os.execute(command:format(...)) == 0) end
  local all = {}
  for member = 0, 1 do all[member] = rls.open(('%s/h%d'):format(room, member), shared) end
  shell('rm %s/*.rlsm; printf mine >%s', shared, victim)
  for _, name in ipairs({ '0-1.rlsm.new', '0-1.rlsm', '0-3.rlsm.new' }) do shell('ln -s %s %s', victim, at(name)) end
  shell('mkdir %s %s; ln -s %s %s; mkfifo %s', at('0-2.rlsm'), at('4-0.rlsm'), at('1-0.rlsm'), at('2-0.rlsm'), at('3-0.rlsm'))
  shell('truncate -s 67108865 %s; echo junk >%s', at('5-0.rlsm'), at('6-0.rlsm'))
  local function put(self, text)
    self.sent = {}
    api.nvim_set_current_buf(self.buf)
    api.nvim_buf_set_lines(self.buf, 0, 0, true, { text })
    self:sync()
  end
  local function has(self, text) assert(table.concat(self.lines:all(), '\n'):find(text, 1, true), text) end
  put(all[1], 'from b')
  put(all[0], 'from a')
  has(all[0], 'from b')
  for _, message in ipairs({ 'of 2', 'of 3', 'of 4', 'of 5', 'of 6', 'to 2' }) do
    assert(rls.status():find('message ' .. message .. ': ', 1, true), message .. ': ' .. rls.status())
  end
  shell('rmdir %s', at('4-0.rlsm'))
  all[0]:sync()
  assert(not rls.status():find('message of 4', 1, true))
  local file = assert(io.open(victim))
  assert(file:read('*a') == 'mine', 'a link was written through')
  assert(vim.loop.fs_lstat(at('0-1.rlsm')).type == 'file')
  shell(': >%s/mode; [ "$(stat -c %%a %s)" = "$(stat -c %%a %s/mode)" ]', room, at('0-3.rlsm'), room)
  shell('[ -z "$(ls -A %s | grep "^[.]new-")" ]', shared)
  api.nvim_set_current_buf(all[1].buf)
  all[1]:sync()
  has(all[1], 'from a')
  -- A number from which nothing ever came doesn't get each message.
  local sizes, count = {}, 0
  for _ = 1, 30 do
    put(all[0], 'more')
    local size = vim.loop.fs_stat(at('0-7.rlsm')).size
    if not sizes[size] then sizes[size], count = true, count + 1 end
  end
  assert(count < 8, count)
  -- The program may take longer than ten seconds, for example since another command stores into the folder.
  rls.program = room .. '/slow'
  put(all[0], 'late')
  assert(not all[0].failed)
  for member = 0, 1 do vim.cmd('bwipeout! ' .. all[member].buf) end
end

-- What others change elsewhere moves no mark from its character, and no line from the top of the window (second version).
local function places()
  rls.rename_at = 500
  local all = {}
  for member = 0, 1 do all[member] = rls.open(('%s/p%d'):format(room, member), room .. '/places') end
  if all[0].version == 1 then return end
  local function turn(member)
    api.nvim_set_current_buf(all[member].buf)
    all[member]:sync()
  end
  api.nvim_set_current_buf(all[0].buf)
  api.nvim_buf_set_lines(all[0].buf, 0, -1, true, { 'one', 'two', 'three', 'four', 'five' })
  api.nvim_buf_set_mark(all[0].buf, 'a', 3, 2, {})
  api.nvim_win_set_cursor(0, { 4, 2 })
  turn(0)
  turn(1)
  api.nvim_buf_set_lines(all[1].buf, 0, 2, true, { 'zero', 'ONE', 'o\\n😀' })
  api.nvim_buf_set_text(all[1].buf, 3, 5, 3, 5, { '', 'and some more' })
  api.nvim_buf_set_text(all[1].buf, 5, 0, 5, 1, { 'F' })
  turn(1)
  turn(0)
  assert(table.concat(all[0].lines:all(), '|') == 'zero|ONE|o\\n😀|three|and some more|Four|five', table.concat(all[0].lines:all(), '|'))
  assert(vim.deep_equal(api.nvim_buf_get_mark(all[0].buf, 'a'), { 4, 2 }), vim.inspect(api.nvim_buf_get_mark(all[0].buf, 'a')))
  assert(vim.deep_equal(api.nvim_win_get_cursor(0), { 6, 2 }), vim.inspect(api.nvim_win_get_cursor(0)))
  for member = 0, 1 do vim.cmd('bwipeout! ' .. all[member].buf) end
end

-- Folders whose names have what names may have.
local function odd()
  rls.program = os.getenv('RLS')
  local top = room .. "/ a b\n'$HOME\"*\\"
  vim.fn.mkdir(top .. '/m 0', 'p')
  vim.fn.system({ 'sh', '-c', 'cd "$1" && "$RLS" new 7 0 2', 'sh', top .. '/m 0' })
  local self = assert(rls.open(top .. '/m 0', top .. '/shared'))
  api.nvim_buf_set_lines(self.buf, 0, 0, true, { 'odd' })
  self:sync()
  assert(not self.failed, self.failed)
  assert(vim.loop.fs_stat(top .. '/shared/7-0-1.rlsm'), 'a message in a folder with an odd name')
  vim.cmd('bwipeout! ' .. self.buf)
  assert(vim.fn.system({ 'sh', '-c', 'cd "$1" && "$RLS" text', 'sh', top .. '/m 0' }):find('odd'))
end

-- Where there is no time left, lines are compared with lines, and not as one piece.
local function no_time()
  local lines = {}
  for k = 1, 400 do lines[k] = ('one %d two three'):format(k) end
  local old = table.concat(lines, '\n')
  local new = old:gsub('(%d+) two', 'two %1')
  local found, is_coarse = require('rls.compare')(old, new, -1)
  assert(is_coarse and #found >= 400, #found)
  for k = #found, 1, -1 do old = old:sub(1, found[k].at) .. found[k].come .. old:sub(found[k].at + #found[k].gone + 1) end
  assert(old == new)
  -- A buffer that is opened again is compared by words all the same: otherwise its words would be there twice.
  local clock, calls = os.clock, 0
  os.clock = function()
    calls = calls + 1
    return 1000 * calls
  end
  local joined = require('rls.replica').joined({ 'one two', 'three' }, { 'one two', 'three four' })
  os.clock = clock
  assert(vim.deep_equal(joined, { 'one two', 'three four' }), vim.inspect(joined))
  joined = require('rls.replica').joined({ 'Then tea' }, { 'They tea' })
  assert(vim.deep_equal(joined, { 'Then They tea' }), vim.inspect(joined))
  -- One word more, and another one goes to the next line: each is there once.
  local here = { 'a1 aaaa bbbb', 'cccc dddd eeee ffff gggg', 'hhhh iiii jjjj kkkk', 'llll mmmm' }
  joined = require('rls.replica').joined(here, { 'aaaa bbbb', 'cccc dddd eeee ffff', 'gggg hhhh iiii jjjj kkkk', 'llll mmmm' })
  local function words(list) return vim.split(vim.trim(table.concat(list, ' ')), '%s+') end
  assert(vim.deep_equal(words(joined), words(here)), vim.inspect(joined))
end

local done, fault = pcall(function()
  no_time()
  run()
  hostile()
  rls.program = os.getenv('RLS')
  places()
  odd()
end)
if not done then
  io.stderr:write(tostring(fault) .. '\n')
  vim.cmd('cquit!')
end
vim.cmd('qall!')
