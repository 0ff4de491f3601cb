-- Files in a folder that others write into, and numbers in their bytes.
local uv = vim.loop
local M = {}

-- Says a line in red, which stays in `:messages`. Unlike `nvim_echo` it cuts short what it shows, so no key has to be pressed for it.
function M.warn(text)
  text = text:gsub('%c', '?'):gsub("'", "''")
  vim.schedule(function() vim.cmd(("echohl ErrorMsg | echomsg '%s' | echohl None"):format(text)) end)
end

-- The number in the four bytes after these many.
function M.u32(data, at)
  local a, b, c, d = data:byte(at + 1, at + 4)
  return ((a * 256 + b) * 256 + c) * 256 + d
end

-- The number in eight bytes as decimal digits: it may be greater than a number of Lua can be without rounding.
function M.decimal(data)
  local digits = { 0 } -- the lowest first
  for k = 1, #data do
    local over = data:byte(k)
    for n = 1, #digits do
      over = over + 256 * digits[n]
      digits[n], over = over % 10, math.floor(over / 10)
    end
    while over > 0 do
      digits[#digits + 1], over = over % 10, math.floor(over / 10)
    end
  end
  return table.concat(digits):reverse()
end

-- The bytes of a file; nil and why, if it can't be read; nil alone, if nothing is there. A folder that others write into may have a link, a
-- pipe or a folder at a name, or a file that fills the memory: none of these is read.
function M.read(path, most)
  local named = uv.fs_lstat(path)
  if not named then return nil end
  if named.type ~= 'file' then return nil, 'it is no file' end
  local file, why = uv.fs_open(path, bit.bor(uv.constants.O_RDONLY, uv.constants.O_NONBLOCK), 0)
  if not file then return nil, why end
  local told, data = uv.fs_fstat(file), nil
  if not told or told.ino ~= named.ino or told.dev ~= named.dev then
    why = 'it is another file now' -- perhaps a link's
  elseif told.size > most then
    why = 'it is too large'
  else
    data, why = uv.fs_read(file, told.size, 0)
  end
  uv.fs_close(file)
  return data, why
end

-- How many bytes a regular file has; nil if there is none.
function M.size_of(path)
  local told = uv.fs_lstat(path)
  return told and told.type == 'file' and told.size or nil
end

-- What the system says of a file in a folder, without the file's name, which nobody knows.
local function said(why, folder)
  if why and why:match('^EACCES') then return ('no permission to write there (%s)'):format(vim.fn.getfperm(folder)) end
  return why and why:match('^%u+: ([^:]+)') or why
end

function M.has_replica(folder) return (uv.fs_stat(folder .. '/replica.gate') or uv.fs_stat(folder .. '/replica.rls')) ~= nil end

-- Looks whether a replica is in a folder: the program may have its files open, and store into them, when nobody finds them there any more.
function M.look_for(folder)
  if vim.fn.isdirectory(folder) == 0 then error('rls: there is no folder ' .. folder, 0) end
  if not M.has_replica(folder) then
    error(('rls: there is no replica in %s; `rls new GROUP ME MEMBERS` begins one there'):format(folder), 0)
  end
end

-- Who has a replica open, as the file `.rls-editor` in its folder says, which the editors' plugins write there: such as `Vim (4711)`. Nil if it
-- doesn't say, or if that one has ended.
function M.holder(folder)
  local pid, program = (M.read(folder .. '/.rls-editor', 4096) or ''):match('^(%d+) ([%g ]+)\n')
  local _, _, why = uv.kill(tonumber(pid or 0), 0)
  return pid and why ~= 'ESRCH' and ('%s (%d)'):format(program:sub(1, 40), pid) or nil
end

-- Says, or says no more, that this Neovim has a replica open.
local function own_line() return vim.fn.getpid() .. ' Neovim\n' end

function M.hold(folder)
  local file = io.open(folder .. '/.rls-editor', 'w')
  if not file then return end
  file:write(own_line())
  file:close()
end

function M.let_go(folder)
  if M.read(folder .. '/.rls-editor', 4096) == own_line() then uv.fs_unlink(folder .. '/.rls-editor') end
end

-- Writes a file so that whoever reads it sees the old one or the new one; answers why it could not, if so. It is made under a name that
-- nobody can know before and that nobody has, and a link at its own name is replaced, and not written through.
function M.write(path, data)
  local folder = vim.fn.fnamemodify(path, ':h')
  local new = folder .. '/.new-' .. uv.random(16):gsub('.', function(c) return ('%02x'):format(c:byte()) end)
  local file, why = uv.fs_open(new, 'wx', 438) -- 438: what the umask leaves of reading and writing for all
  if not file then return said(why, folder) end
  local at, count, done = 0, nil, nil
  repeat
    count, why = uv.fs_write(file, data:sub(at + 1), at)
    at = at + (count or 0)
  until not count or at >= #data
  if count then done, why = uv.fs_fsync(file) end
  uv.fs_close(file)
  if done then done, why = uv.fs_rename(new, path) end
  if done then return nil end
  uv.fs_unlink(new)
  return said(why, folder)
end

-- What tells whether a file is another one than before; nil if nothing is there.
function M.mark_of(path)
  local told = uv.fs_lstat(path)
  return told and ('%s %d %d %d.%09d'):format(told.type, told.ino, told.size, told.mtime.sec, told.mtime.nsec)
end

return M
