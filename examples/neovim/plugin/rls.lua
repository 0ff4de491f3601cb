-- The command `:RlsOpen`: README.md tells how to use it.
if vim.g.loaded_rls then return end
vim.g.loaded_rls = true
local function open(o) require('rls').open(o.fargs[1], o.fargs[2]) end
vim.api.nvim_create_user_command('RlsOpen', open, { nargs = '+', complete = 'file' })
