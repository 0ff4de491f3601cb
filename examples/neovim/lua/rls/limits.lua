-- What a user is told before a limit is met: once, in plain words, with the command that helps (docs/USE.md, "Where a limit is met").
local files = require('rls.files')
local uv = vim.loop
local NEARLY_FULL = 241591911 -- nine tenths of what a stored file may have
local MOST_KEPT = 4194304 -- so many bytes for one member, of whom nothing came for so many seconds
local MOST_SILENT = 7 * 86400

local M = {}

-- If the stored file is nearly full. Its size is in the first eight bytes of a slot; of both, since the last store may have made it shorter.
function M.of_file(folder)
  local size = math.huge
  for _, slot in ipairs({ '/replica.0', '/replica.1' }) do
    if (files.size_of(folder .. slot) or 0) < NEARLY_FULL then return nil end
    local file = io.open(folder .. slot, 'rb')
    local head = file and file:read(8) or ''
    if file then file:close() end
    if #head < 8 then return nil end
    size = math.min(size, files.u32(head, 0) * 4294967296 + files.u32(head, 4))
  end
  if size < NEARLY_FULL then return nil end
  return ('the stored file has %d bytes of the 268435456 that it may have. When it is full, nothing can be stored any more. It gets shorter once messages show '
    .. "that the others have what is in it. If that doesn't help, `rls restart` begins anew with the text"):format(size)
end

-- If a message to a member has become long, and nothing has come from it for long: its last message is at the path.
function M.of_member(to, size, path)
  local there = uv.fs_stat(path)
  if size < MOST_KEPT or (there and os.time() - there.mtime.sec < MOST_SILENT) then return nil end
  local since = there and 'of whom nothing has come since ' .. os.date('%Y-%m-%d', there.mtime.sec) or 'of whom nothing ever came'
  local help = there and "if that member won't come back, `rls restart` goes on in a new group with the text"
    or ('`rls retire %d` ends that, if nobody will use the number'):format(to)
  return ('each file keeps %d bytes for member %d, %s; each message to it has them again: %s'):format(size, to, since, help)
end

-- Tells a line, if there is one, once for each thing it is of.
function M.tell_once(told, what, line)
  if not line or told[what] then return end
  told[what] = true
  vim.notify('rls: ' .. line)
end

return M
