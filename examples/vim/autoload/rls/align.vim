vim9script
# Which members of two lists stay, where one is to become the other (examples/COMPARE.md). It counts what it spends from one beginning to the next.
const STEPS = 128                       # members that go or come, after which it looks back and goes on from where it is
const DEPTH = 12                        # anchors within anchors
const SPEED = 200000                    # characters that it compares by words in a second

var begun = reltime()
var most = 15.0                         # seconds after which it goes on line by line
var looked = 0                          # characters that were compared by words
var spent = 0                           # steps of the search
var cut = false                         # whether it went on by cheaper means

export def Begin(seconds: float)
  begun = reltime()
  most = seconds
  looked = 0
  spent = 0
  cut = false
enddef

export def WasCut(): bool
  return cut
enddef

# It goes on by cheaper means.
export def Cut()
  cut = true
enddef

# Whether there is no time left to compare so many characters by words: then it goes on line by line. What takes a second of a processor has time
# on the busiest machine.
export def IsLate(characters: number): bool
  looked += characters
  return most < 0 || (looked > SPEED && reltimefloat(reltime(begun)) + characters / SPEED > most)
enddef

def Key(list: list<number>, k: number, size: number): string
  return size == 1 ? string(list[k]) : join(list[k : k + size - 1], ',')
enddef

def Once(list: list<number>, from: number, end: number, size: number): dict<number>
  var once: dict<number> = {}
  for k in range(from, end - size)
    const key = Key(list, k, size)
    once[key] = has_key(once, key) ? -1 : k
  endfor
  return once
enddef

# Where members (or so many in a row) are equal that are once in each; of these the longest part that rises in both, the last first.
def Anchors(a: list<number>, b: list<number>, i: number, m: number, j: number, n: number, size: number): list<list<number>>
  var anchors: list<list<number>> = []
  if m - i < size || n - j < size
    return anchors
  endif
  const mine = Once(a, i, m, size)
  const other = Once(b, j, n, size)
  var pairs: list<list<number>> = []
  # Vim finds a member of a list by counting from a neighbour, so what is looked up in halves is in dictionaries.
  var tops: dict<number> = {}
  var ends: dict<number> = {0: -1}
  var before: list<number> = []
  var size_of_tops = 0
  for k in range(i, m - size)
    const key = Key(a, k, size)
    const y = get(other, key, -1)
    if y < 0 || mine[key] != k
      continue
    endif
    var low = size_of_tops + 1
    if size_of_tops > 0 && y < tops[size_of_tops]
      low = 1
      var high = size_of_tops
      while low < high
        const middle = (low + high) / 2
        if tops[middle] < y
          low = middle + 1
        else
          high = middle
        endif
      endwhile
    endif
    add(before, ends[low - 1])
    size_of_tops = max([size_of_tops, low])
    tops[low] = y
    ends[low] = len(pairs)
    add(pairs, [k, y])
  endfor
  var last = ends[size_of_tops]
  while last >= 0
    add(anchors, pairs[last])
    last = before[last]
  endwhile
  return anchors
enddef

# The least members that go and come, by Myers' greedy search; if it takes more than so many steps, the way that got furthest. The first run says
# whether it arrived, and then come the runs that stay, the last first.
def Search(a: list<number>, b: list<number>, i: number, m: number, j: number, n: number, steps: number): list<list<number>>
  const wide = m - i
  const high = n - j
  const off = steps + 1
  var far = repeat([0], 2 * steps + 3)
  var trace: list<list<number>> = []
  var x = 0
  var y = 0
  var d = 0
  var done = false
  while true
    add(trace, far[off - d - 1 : off + d + 1])
    for k in range(-d, d, 2)
      x = k == -d || (k != d && far[off + k - 1] < far[off + k + 1]) ? far[off + k + 1] : far[off + k - 1] + 1
      y = x - k
      while x < wide && y < high && a[i + x] == b[j + y]
        x += 1
        y += 1
      endwhile
      far[off + k] = x
      if x >= wide && y >= high
        done = true
        break
      endif
    endfor
    spent += d + 1
    if done || d == steps
      break
    endif
    d += 1
  endwhile
  if !done
    var best = -1
    for k in range(-steps, steps, 2)
      const reached = far[off + k]
      if reached <= wide && reached - k <= high && 2 * reached - k > best
        best = 2 * reached - k
        x = reached
        y = reached - k
      endif
    endfor
  endif
  var runs = [[done ? 1 : 0]]
  while d > 0
    const was = trace[d]
    const k = x - y
    const comes = k == -d || (k != d && was[d + k] < was[d + k + 2])
    const p = comes ? was[d + k + 2] : was[d + k]
    const start = comes ? p : p + 1
    if x > start
      add(runs, [i + start, j + start - k, x - start])
    endif
    x = p
    y = p - (comes ? k + 1 : k - 1)
    d -= 1
  endwhile
  if x > 0
    add(runs, [i, j, x])
  endif
  return runs
enddef

# Which members stay, as runs (place, place, count).
def Runs(a: list<number>, b: list<number>, by_anchors: bool): list<list<number>>
  var kept: list<list<number>> = []
  var todo = [[0, len(a), 0, len(b), 0]]
  while !empty(todo)
    var [i, m, j, n, depth] = remove(todo, -1)
    if depth < 0
      add(kept, [i, j, m - i])
      continue
    endif
    var k = i
    while i < m && j < n && a[i] == b[j]
      i += 1
      j += 1
    endwhile
    if i > k
      add(kept, [k, j - i + k, i - k])
    endif
    k = m
    while m > i && n > j && a[m - 1] == b[n - 1]
      m -= 1
      n -= 1
    endwhile
    if k > m
      add(todo, [m, k, n, n + k - m, -1])
    endif
    if i == m || j == n
      continue
    endif
    var runs: list<list<number>> = []
    if !by_anchors
      runs = Search(a, b, i, m, j, n, 16)
      if runs[0][0] == 1
        extend(kept, reverse(runs[1 :]))
        continue
      endif
    endif
    var anchors: list<list<number>> = []
    if depth < DEPTH && !by_anchors
      anchors = Anchors(a, b, i, m, j, n, 4)
    endif
    if depth < DEPTH && empty(anchors)
      anchors = Anchors(a, b, i, m, j, n, 1)
    endif
    if !empty(anchors)
      var end = [m, n]
      for anchor in anchors
        add(todo, [anchor[0], end[0], anchor[1], end[1], depth + 1])
        end = anchor
      endfor
      add(todo, [i, end[0], j, end[1], depth + 1])
      continue
    endif
    while i < m && j < n
      runs = Search(a, b, i, m, j, n, IsLate(0) ? 4 : spent < 300000 ? STEPS : spent < 1500000 ? 16 : 4)
      const done = remove(runs, 0)[0] == 1
      if !done
        Cut()
        var first = 0
        while first < len(runs) && runs[first][2] < 3       # what it ends with may be chance
          first += 1
        endwhile
        if first < len(runs) && 2 * (runs[first][0] + runs[first][1] + 2 * runs[first][2] - i - j) > runs[0][0] + runs[0][1] + 2 * runs[0][2] - i - j
          runs = runs[first :]
        endif
        if empty(runs)
          i += 1
          j += 1
        else
          i = runs[0][0] + runs[0][2]
          j = runs[0][1] + runs[0][2]
        endif
      endif
      extend(kept, reverse(runs))
      if done
        break
      endif
    endwhile
  endwhile
  return kept
enddef

# Which members of two lists stay, as pairs of places. What the other list doesn't have is left out first.
export def Align(olds: list<string>, news: list<string>, by_anchors: bool): list<list<number>>
  var numbers: dict<number> = {}
  var is_old: dict<bool> = {}
  for k in range(len(news))
    numbers['x' .. news[k]] = k
  endfor
  for x in olds
    is_old['x' .. x] = true
  endfor
  # With the type of its members each call sees at once what a list is, and doesn't look at all of them.
  const from: list<number> = filter(range(len(olds)), (_, k) => has_key(numbers, 'x' .. olds[k]))
  const end: list<number> = filter(range(len(news)), (_, k) => has_key(is_old, 'x' .. news[k]))
  const a: list<number> = mapnew(from, (_, k) => numbers['x' .. olds[k]])
  const b: list<number> = mapnew(end, (_, k) => numbers['x' .. news[k]])
  var pairs: list<list<number>> = []
  for run in Runs(a, b, by_anchors)
    for k in range(run[2])
      add(pairs, [from[run[0] + k], end[run[1] + k]])
    endfor
  endfor
  return pairs
enddef
