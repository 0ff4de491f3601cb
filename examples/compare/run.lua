-- Prints for each case of cases.json, as one line of JSON, the replacements of the plugin for Neovim, in characters. It works in examples/compare.
package.path = '../neovim/lua/?.lua;' .. package.path
local compared = require('rls.compare')
local file = assert(io.open('cases.json'))
local function size(text) return select(2, text:gsub('[^\128-\191]', '')) end
for _, case in ipairs(vim.json.decode(file:read('*a'))) do
  local lines = {}
  for k, x in ipairs(compared(case.old, case.new)) do
    lines[k] = vim.json.encode({ size(case.old:sub(1, x.at)), size(x.gone), x.come })
  end
  io.stdout:write('[', table.concat(lines, ','), ']\n')
end
