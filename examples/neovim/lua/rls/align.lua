-- Which members of two lists stay, where one is to become the other: examples/COMPARE.md, "Aligning two lists".
local STEPS = 128 -- members that go or come, after which it looks back and goes on from where it is
local WORK = { 300000, 1500000 } -- steps of the search, after which STEPS is 16, and then 4
local DEPTH = 12 -- anchors within anchors
local floor = math.floor

-- The longest part of these pairs, which rise on the left, that rises on the right too.
local function rising(pairs)
  local tops, at, before = {}, {}, {}
  for k, pair in ipairs(pairs) do
    local low, high = 1, #tops + 1
    while low < high do
      local middle = floor((low + high) / 2)
      if tops[middle] < pair[2] then low = middle + 1 else high = middle end
    end
    before[k] = at[low - 1] or 0
    tops[low], at[low] = pair[2], k
  end
  local found, k = {}, at[#at] or 0
  while k > 0 do
    table.insert(found, pairs[k])
    k = before[k]
  end
  return found -- the last first
end

-- Where members (or so many in a row) are equal that are once in each, the last first.
local function anchors_of(a, b, i, m, j, n, size)
  local function once(list, from, to)
    local found, keys = {}, {}
    for k = from, to - size do
      local key = size == 1 and list[k] or table.concat(list, ',', k, k + size - 1)
      keys[k] = key
      found[key] = found[key] and -1 or k
    end
    return found, keys
  end
  local mine, keys = once(a, i, m)
  local other = once(b, j, n)
  local pairs = {}
  for k = i, m - size do
    if mine[keys[k]] == k and (other[keys[k]] or -1) >= 0 then pairs[#pairs + 1] = { k, other[keys[k]] } end
  end
  return rising(pairs)
end

local function comes_at(was, base, k, d) return k == -d or (k ~= d and was[base + k - 1] < was[base + k + 1]) end

-- The least members that go and come, by Myers' greedy search; if it takes more than so many steps, the way that got furthest. The last run first.
local function search(a, b, i, m, j, n, steps, work)
  local wide, high, off = m - i, n - j, steps + 1
  local far, trace, x, y, is_done, last = {}, {}, 0, 0, false, 0
  for k = 0, 2 * steps + 2 do far[k] = 0 end
  for d = 0, steps do
    local was = {}
    for k = 0, 2 * d + 2 do was[k] = far[off - d - 1 + k] end
    trace[d], last = was, d
    for k = -d, d, 2 do
      x = comes_at(far, off, k, d) and far[off + k + 1] or far[off + k - 1] + 1
      y = x - k
      while x < wide and y < high and a[i + x] == b[j + y] do x, y = x + 1, y + 1 end
      far[off + k] = x
      if x >= wide and y >= high then
        is_done = true
        break
      end
    end
    work.spent = work.spent + d + 1
    if is_done then break end
  end
  if not is_done then
    local best = -1
    for k = -steps, steps, 2 do
      local to = far[off + k]
      if to <= wide and to - k <= high and 2 * to - k > best then best, x, y = 2 * to - k, to, to - k end
    end
  end
  local runs = {}
  for d = last, 1, -1 do
    local was, k = trace[d], x - y -- was[d + 1 + k] is diagonal k
    local comes = comes_at(was, d + 1, k, d)
    local before = comes and k + 1 or k - 1
    local p = was[d + 1 + before]
    local start = comes and p or p + 1
    if x > start then runs[#runs + 1] = { i + start, j + start - k, x - start } end
    x, y = p, p - before
  end
  if x > 0 then runs[#runs + 1] = { i, j, x } end
  return is_done, runs
end

-- What stays of two lists, which count from 0, by searches that go on where the last one ended.
local function onward(a, b, m, n, work)
  local found, i, j = {}, 0, 0
  local function add(runs, from)
    for k = #runs, from, -1 do found[#found + 1] = runs[k] end
  end
  while i < m and j < n do
    local is_done, runs = search(a, b, i, m, j, n, work.spent < WORK[1] and STEPS or work.spent < WORK[2] and 16 or 4, work)
    if is_done then
      add(runs, 1)
      break
    end
    work.is_cut = true
    local from = 1
    while from <= #runs and runs[from][3] < 3 do from = from + 1 end -- what it ends with may be chance
    local function reach(run) return run[1] + run[2] + 2 * run[3] - i - j end
    if from > #runs or 2 * reach(runs[from]) <= reach(runs[1]) then from = 1 end
    add(runs, from)
    local end_of = runs[from]
    if end_of then i, j = end_of[1] + end_of[3], end_of[2] + end_of[3] else i, j = i + 1, j + 1 end
  end
  return found
end

-- What stays of two parts without anchors. What the other part doesn't have is left out first.
local function long_search(a, b, i, m, j, n, work)
  local function kept(side, from, to, other, first, last)
    local is_there, members, places, count = {}, {}, {}, 0
    for k = first, last - 1 do is_there[other[k]] = true end
    for k = from, to - 1 do
      if is_there[side[k]] then
        members[count], places[count] = side[k], k
        count = count + 1
      end
    end
    return members, places, count
  end
  local mine, x, size = kept(a, i, m, b, j, n)
  local others, y, other_size = kept(b, j, n, a, i, m)
  local found = {}
  for _, run in ipairs(onward(mine, others, size, other_size, work)) do
    for k = 0, run[3] - 1 do found[#found + 1] = { x[run[1] + k], y[run[2] + k], 1 } end
  end
  return found
end

-- Which members stay, as runs (place, place, count). Both lists count from 0.
local function runs_of(a, b, size_a, size_b, by_anchors, work)
  local found, todo = {}, { { 0, size_a, 0, size_b, 0 } }
  local function add(runs, from)
    for k = #runs, from, -1 do found[#found + 1] = runs[k] end
  end
  while #todo > 0 do
    local i, m, j, n, depth = unpack(table.remove(todo))
    if depth < 0 then
      found[#found + 1] = { i, j, m - i }
    else
      local k = i
      while i < m and j < n and a[i] == b[j] do i, j = i + 1, j + 1 end
      if i > k then found[#found + 1] = { k, j - i + k, i - k } end
      k = m
      while m > i and n > j and a[m - 1] == b[n - 1] do m, n = m - 1, n - 1 end
      if k > m then todo[#todo + 1] = { m, k, n, n + k - m, -1 } end
      local is_done, runs = i == m or j == n, {}
      if not is_done and not by_anchors then is_done, runs = search(a, b, i, m, j, n, 16, work) end
      if is_done then
        add(runs, 1)
      else
        local anchors = {}
        for _, size in ipairs(by_anchors and { 1 } or { 4, 1 }) do
          if depth < DEPTH and #anchors == 0 then anchors = anchors_of(a, b, i, m, j, n, size) end
        end
        if #anchors > 0 then
          local p, q = m, n
          for _, anchor in ipairs(anchors) do
            todo[#todo + 1] = { anchor[1], p, anchor[2], q, depth + 1 }
            p, q = anchor[1], anchor[2]
          end
          todo[#todo + 1] = { i, p, j, q, depth + 1 }
        else
          vim.list_extend(found, long_search(a, b, i, m, j, n, work))
        end
      end
    end
  end
  return found
end

-- Which members of two lists stay, as pairs of places that rise. What the other list doesn't have is left out first.
return function(old, new, by_anchors, work)
  local numbers, olds = {}, {}
  for k, x in ipairs(new) do numbers[x] = k end
  for _, x in ipairs(old) do olds[x] = true end
  local function kept(list, is_there)
    local found, places, count = {}, {}, 0
    for k, x in ipairs(list) do
      if is_there[x] then
        found[count], places[count] = numbers[x], k
        count = count + 1
      end
    end
    return found, places, count
  end
  local a, from, size_a = kept(old, numbers)
  local b, to, size_b = kept(new, olds)
  local pairs = {}
  for _, run in ipairs(runs_of(a, b, size_a, size_b, by_anchors, work)) do
    for k = 0, run[3] - 1 do pairs[#pairs + 1] = { from[run[1] + k], to[run[2] + k] } end
  end
  return pairs
end
