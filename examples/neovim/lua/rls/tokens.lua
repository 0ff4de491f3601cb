-- How a replica sees that another one has its number (examples/README.md, "When a number is used twice"). In its own folder it keeps a token that
-- nobody else has, and what it wrote last into a shared folder; there it keeps a file whose name has its number and the token.
local files = require('rls.files')
local uv = vim.loop
local MOST = 4096 -- bytes of a file that shows a token
local WORD = ('[0-9a-f]'):rep(16)
local RECORD = ('^(%s) (%s) (%s)\n$'):format(WORD, ('%d'):rep(20), WORD)

local M = {}

local function new_word() return (uv.random(8):gsub('.', function(c) return ('%02x'):format(c:byte()) end)) end

-- What an open file says of this replica: its token, how many times it wrote in 20 digits, and what it called the last time; or, with `is_more`, what
-- it is about to write. The line is written in place, so that it is whole at each moment.
local function record_in(file, is_more)
  local data = uv.fs_read(file, MOST, 0)
  if not data then return nil end
  local token, count, last = data:match(RECORD)
  if token and not is_more then return { token = token, count = count, last = last } end
  local now = { token = token or new_word(), count = ('%020d'):format(token and tonumber(count) + 1 or 0), last = new_word() }
  local is_written = uv.fs_write(file, ('%s %s %s\n'):format(now.token, now.count, now.last), 0) == 55 and uv.fs_fsync(file)
  return is_written and now or nil
end

-- The same of a replica's folder; nil if that may not be written. A session holds the folder against others.
local function own_record(folder, is_more)
  local path = folder .. '/replica.token'
  local named = uv.fs_lstat(path)
  if named and named.type ~= 'file' then return nil end
  local file = uv.fs_open(path, bit.bor(uv.constants.O_RDWR, uv.constants.O_CREAT), 438) -- 438: what the umask leaves of reading and writing for all
  if not file then return nil end
  local record = record_in(file, is_more)
  uv.fs_close(file)
  return record
end

-- The names in a folder; none if it can't be read.
local function names_in(folder)
  local found, names = uv.fs_scandir(folder), {}
  local function next_name() return found and uv.fs_scandir_next(found) end
  for name in next_name do names[#names + 1] = name end
  table.sort(names)
  return names
end

-- Says in the shared folder that this replica writes, before it does. Answers why it could not, if so.
function M:show_token()
  local now = own_record(self.folder, true)
  if not now then return nil end
  return files.write(('%s/%s-%d-%s.member'):format(self.shared, self.group, self.me, now.token), ('%s %s\n'):format(now.count:gsub('^0*(%d)', '%1'), now.last))
end

-- From now on nothing is taken and nothing is written, since a file shows that this replica's number is used twice.
function M:stop(path, why)
  self.is_stopped = true
  self.twice = { path = path, line = ('NOT sent: number %d is used twice, as %s shows'):format(self.me, vim.fn.fnamemodify(path, ':t')) }
  local text = ('rls: number %d of text %s is used twice: %s, as %s shows. Nothing is taken or sent until that file is gone: docs/USE.md, "A number used twice"')
  files.warn(text:format(self.me, self.group, why, path))
end

-- Why a file in the shared folder with this token in its name shows that another one than this replica has its number; nil if it doesn't show that.
local function why_twice(own, token, path)
  if token ~= own.token then return 'another replica has this number' end
  local count, last = (files.read(path, MOST) or ''):match('^(%d+) (' .. WORD .. ')')
  if not count or #count > 20 then return nil end
  count = ('0'):rep(20 - #count) .. count
  if count > own.count or (count == own.count and last ~= own.last) then
    return 'a copy of this replica wrote there, or its files were put back from one'
  end
end

-- Whether this replica may take and write. If not, it stays so until the file that shows it is gone.
function M:may_write()
  if self.twice and uv.fs_lstat(self.twice.path) then return false end
  self.twice = nil
  local own
  for _, name in ipairs(names_in(self.shared)) do
    local token = name:match(('^%s%%-%d%%-(%s)%%.member$'):format(self.group, self.me, WORD))
    if token then
      own = own or own_record(self.folder)
      local path = self.shared .. '/' .. name
      local why = own and why_twice(own, token, path)
      if why then
        self:stop(path, why)
        return false
      end
    end
  end
  return true
end

return M
