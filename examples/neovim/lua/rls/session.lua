-- One running `rls session` (docs/SESSION.md). Requests are sent at once, and their replies come in order: each is handed to the function that
-- was given with its request.
local files = require('rls.files')
local uv, api = vim.loop, vim.api
local TELLS = { i = true, d = true, b = true, r = true, u = true, z = true, y = true, m = true } -- requests whose replies tell changes

local Session = {}
Session.__index = Session

-- `is_opening` says that whoever waits may want to read the text alone, if another one has the folder.
function Session.start(program, folder, is_opening)
  local input, output, errors = uv.new_pipe(), uv.new_pipe(), uv.new_pipe()
  local self = setmetatable({ have = '', at = 1, waiting = {}, first = 1, last = 0, errors = '', ended = false, telling = false, given = 0, input = input,
    folder = folder, is_opening = is_opening, heard = uv.hrtime() }, Session)
  local handle
  -- In a group of its own: if Neovim is killed, the terminal ends what is in Neovim's group, and the session is to store at the end of its input.
  handle, self.pid = uv.spawn(program, { args = { 'session' }, cwd = folder, stdio = { input, output, errors }, detached = true }, function(status)
    self.ended = status
    handle:close()
  end)
  if not handle then error('rls: there is no program ' .. program, 0) end
  output:read_start(function(_, data)
    if data then
      self.have, self.at = self.have:sub(self.at) .. data, 1
      vim.schedule(function() self:pump() end)
    else
      self.closed = true
      output:close()
    end
  end)
  errors:read_start(function(_, data)
    if data then self.errors = self.errors .. data else errors:close() end
  end)
  return self
end

function Session:is_idle() return self.waiting[self.first] == nil end

-- Sends a request with the bytes that belong to it. `handler(reply, data, changes)` gets the first line of its reply, the bytes after it, and
-- the lines of changes, where those are told. `before` is called first: it hands on what the buffer has and the session doesn't.
function Session:send(request, data, handler)
  if self.before then self.before() end
  if self:is_idle() then self.heard = uv.hrtime() end
  local sent = request .. '\n' .. (data or '')
  self.last = self.last + 1
  self.waiting[self.last] = { kind = request:sub(1, 1), handler = handler }
  if not self.input:is_closing() then self.input:write(sent) end
  self.given = self.given + #sent
  if self.note then self.note(request:sub(1, 1), #request) end
end

-- The end of the line that begins at this byte of what came; nil if it hasn't come whole.
function Session:line_at(from)
  local feed = self.have:find('\n', from, true)
  if feed then return self.have:sub(from, feed - 1), feed + 1 end
end

-- The whole reply to a request, and where it ends; nothing if it hasn't come whole.
function Session:parse(entry)
  local reply, at = self:line_at(self.at)
  if not reply then return nil end
  local data, changes
  local word, count = reply:match('^(%a+) (%d+)$')
  if word == 'text' or word == 'message' or word == 'stat' then
    count = tonumber(count)
    if #self.have < at + count then return nil end
    data, at = self.have:sub(at, at + count - 1), at + count + 1
  elseif self.telling and TELLS[entry.kind] and reply ~= 'bad' then
    local told
    told, at = self:line_at(at)
    if not told then return nil end
    changes = {}
    for k = 1, tonumber(told:match('^changes (%d+)$')) or error('rls: ' .. told, 0) do
      changes[k], at = self:line_at(at)
      if not at then return nil end
    end
  end
  return { reply, data, changes }, at
end

-- Hands on the replies that have come.
function Session:pump()
  local entry = self.waiting[self.first]
  while entry do
    local found, at = self:parse(entry)
    if not found then return end
    self.waiting[self.first], self.first, self.at, self.heard, self.is_begun = nil, self.first + 1, at, uv.hrtime(), true
    entry.handler(found[1], found[2], found[3])
    entry = self.waiting[self.first]
  end
end

-- How many seconds a reply is waited for.
function Session:waits() return self:is_idle() and 0 or math.floor((uv.hrtime() - self.heard) / 1e9) end

-- Whether the launcher has said that it waits for another one in the folder.
function Session:is_locked() return not self.is_begun and self.errors:find('waiting for it', 1, true) ~= nil end

function Session:waits_for()
  if not self:is_locked() then return 'rls: waiting for the program; Ctrl-C gives up' end
  local holder = files.holder(self.folder) or 'the program'
  return ('rls: waiting for %s in this folder. Ctrl-C gives up%s'):format(holder, self.is_opening and ', r shows the text' or '')
end

-- While a replica is opened whose folder another one has, `r` opens its text to be read alone.
function Session:look_at_keys()
  if not (self.is_opening and self:is_locked()) then return end
  local done, key = pcall(vim.fn.getchar, 0)
  if not done or key == 3 then error('rls: given up', 0) end
  if key == ('r'):byte() then error('rls: to be read', 0) end
end

-- Waits until a test is true, as long as the program works: it may wait for another command in the folder. Ctrl-C ends that. No other work of
-- Neovim's runs meanwhile.
function Session:wait(test)
  local begun, told = uv.hrtime(), 1
  while true do
    local done, why = vim.wait(200, function()
      self:pump()
      return test() or (self.ended ~= false and self.closed)
    end, 1, true)
    if done then break end
    if why == -2 then error('rls: given up', 0) end
    self:look_at_keys()
    if uv.hrtime() - begun > (told + 1) * 1e9 then
      told = told + 1
      vim.cmd('redraw')
      api.nvim_echo({ { self:waits_for() } }, false, {})
      vim.cmd('redrawstatus')
    end
  end
  if told > 1 then
    vim.cmd('redraw')
    api.nvim_echo({ { '' } }, false, {})
  end
  if not test() then error(('rls: the session ended: %s'):format(vim.trim(self.errors)), 0) end
end

-- Waits until every request has its reply.
function Session:drain()
  self:wait(function() return self:is_idle() and self.ended == false end)
end

-- Sends a request and waits for its reply.
function Session:ask(request, data)
  local answer
  self:send(request, data, function(...) answer = { ... } end)
  self:wait(function() return answer ~= nil end)
  return answer[1], answer[2], answer[3]
end

function Session:close()
  if not self.input:is_closing() then self.input:close() end
end

function Session:kill(signal)
  if self.ended == false then uv.kill(-self.pid, signal) end
end

-- Ends a session with which something is wrong. At the end of its input it stores, and then the folder is free; one that does nothing is killed.
function Session:finish()
  self:close()
  vim.wait(3000, function() return self.ended ~= false end, 10)
  self:kill('sigkill')
end

return Session
