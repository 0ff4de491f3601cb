vim9script
# Where two texts differ, so that what others write in between keeps its place: examples/COMPARE.md. A text is a list of characters as numbers, and
# places count them from 0.
import './align.vim'

const BACK = 1000                       # characters back for which a better place is looked for

var old: list<number>
var new: list<number>
var at: number                          # what is before is done, in the old and in the new text
var to: number
var low: number                         # the old text stays from here to `at`, and after a piece to `high`
var high: number
var joins: bool                         # whether both are put together, so that what stays may be chance, but nothing may be there twice
var found: list<list<number>>           # where each replacement begins and ends in the old and in the new text

def IsSpace(c: number): bool
  return c == 32 || (c >= 9 && c <= 13)
enddef

def IsLetter(c: number): bool
  if c < 128
    return (c >= 97 && c <= 122) || (c >= 65 && c <= 90) || (c >= 48 && c <= 57) || c == 95
  elseif c < 768
    return c == 0xaa || c == 0xb5 || c == 0xba || (c >= 0xc0 && c != 0xd7 && c != 0xf7)
  endif
  return c <= 0xdff || (c >= 0x10a0 && c <= 0x1fff)
enddef

# Whether a character belongs to the one before it.
def IsMark(c: number): bool
  return c >= 0x300 && (c <= 0x36f || (c >= 0x1ab0 && c <= 0x1aff) || (c >= 0x1dc0 && c <= 0x1dff) || c == 0x200c || c == 0x200d
    || (c >= 0x20d0 && c <= 0x20ff) || (c >= 0xfe00 && c <= 0xfe0f) || (c >= 0xfe20 && c <= 0xfe2f) || (c >= 0x1f3fb && c <= 0x1f3ff))
enddef

def IsJoined(text: list<number>, place: number): bool
  return place > 0 && place < len(text) && (IsMark(text[place]) || text[place - 1] == 0x200d)
enddef

# Where the words of a part of a text begin and end, and its other characters but spaces, each with the marks after it.
def Tokens(text: list<number>, first: number, last: number): list<list<number>>
  var tokens: list<list<number>> = []
  var p = first
  while p < last
    var c = text[p]
    if IsSpace(c)
      p += 1
      continue
    endif
    const from = p
    const is_word = IsLetter(c)
    p += 1
    while p < last && !IsSpace(text[p]) && ((c == 0x200d && !is_word) || (is_word && IsLetter(text[p])) || IsMark(text[p]))
      c = text[p]
      p += 1
    endwhile
    add(tokens, [from, p])
  endwhile
  return tokens
enddef

def HasWord(text: list<number>, from: number, last: number): bool
  for k in range(from, last - 1)
    if !IsSpace(text[k])
      return true
    endif
  endfor
  return false
enddef

def HasLine(text: list<number>, from: number, last: number): bool
  return from < last && index(text[from : last - 1], 10) >= 0
enddef

# Whether a line feed goes that stands after the last word that goes, and none comes.
def LosesLine(a: number, m: number, b: number, n: number): bool
  var end = m
  while end > a && IsSpace(old[end - 1])
    end -= 1
  endwhile
  return HasLine(old, end, m) && !HasLine(new, b, n)
enddef

# What goes and what comes. White space that is left between two words keeps its last character, or gets a new one behind all of it.
def Put(a: number, m: number, b: number, n: number)
  if a == 0 || a == m || m == len(old) || b == n || HasWord(new, b, n)
    Replace(a, m, b, n)
    return
  endif
  const is_blank = !HasWord(old, a, m)
  if LosesLine(a, m, b, n) || (is_blank && old[m - 1] != new[n - 1])
    var front = 0
    while is_blank && a + front < m && b + front < n - 1 && old[a + front] == new[b + front]
      front += 1
    endwhile
    add(found, [a + front, m, b + front, n])
  elseif is_blank
    Replace(a, m - 1, b, n - 1)
  else
    Replace(a, m, b, n)
  endif
enddef

# What goes and what comes, less what is equal at the front and at the end.
def Replace(a: number, m: number, b: number, n: number)
  var p = a
  var q = b
  var s = m
  var t = n
  while p < m && q < n && old[p] == new[q]
    p += 1
    q += 1
  endwhile
  if p < m || q < n
    while p > a && (IsJoined(old, p) || IsJoined(new, q))
      p -= 1
      q -= 1
    endwhile
  endif
  while s > p && t > q && old[s - 1] == new[t - 1]
    s -= 1
    t -= 1
  endwhile
  while s < m && (IsJoined(old, s) || IsJoined(new, t))
    s += 1
    t += 1
  endwhile
  if s > p || t > q
    Place(p, s, q, t)
  endif
enddef

# What goes and what comes. Where one of them is nothing, it may have several places, and one that isn't within a word is taken.
def Place(p: number, s: number, q: number, t: number)
  var back = 0
  if p == s || q == t
    const least = empty(found) ? 0 : found[-1][1]
    var is_within = IsWithinWord(p, s, q, t)
    var k = 1
    while is_within && k <= BACK && p - k >= least && old[p - k] == (p == s ? new[t - k] : old[s - k])
      is_within = IsWithinWord(p - k, s - k, q - k, t - k)
      if !is_within
        back = k
      endif
      k += 1
    endwhile
  endif
  add(found, [p - back, s - back, q - back, t - back])
enddef

# Whether a place is within a word, or between a character and what belongs to it.
def IsWithinWord(p: number, s: number, q: number, t: number): bool
  if IsJoined(old, p) || IsJoined(old, s) || IsJoined(new, q) || IsJoined(new, t)
    return true
  endif
  return p > 0 && s < len(old) && !IsSpace(old[p - 1]) && !IsSpace(old[s])
enddef

# Where lines end in a part of a text, or words and what is between them.
def Ends(text: list<number>, from: number, last: number, by_lines: bool): list<number>
  var ends: list<number> = []
  if last <= from
    return ends
  endif
  for k in range(from + 1, max([from, last - 1]))
    if by_lines ? text[k - 1] == 10 : IsSpace(text[k]) != IsSpace(text[k - 1])
      add(ends, k)
    endif
  endfor
  return add(ends, last)
enddef

# What has nothing in common: line with line, and word with word where there are as many; otherwise in proportion.
def Pair(a: number, m: number, b: number, n: number, by_lines: bool)
  var p = a
  var q = b
  if by_lines && !(HasWord(old, a, m) && HasWord(new, b, n))
    const [p0, s0, q0, t0] = WithSpacesBeside(a, m, b, n)
    Put(p0, s0, q0, t0)
    return
  endif
  const olds = Ends(old, a, m, by_lines)
  const news = Ends(new, b, n, by_lines)
  var parts = min([len(olds), len(news)])
  if !by_lines && len(olds) != len(news)
    parts = max([1, parts / 16])
  endif
  for k in range(1, parts)
    const s = olds[k * len(olds) / parts - 1]
    const t = news[k * len(news) / parts - 1]
    if by_lines
      Pair(p, s, q, t, false)
    else
      Put(p, s, q, t)
    endif
    p = s
    q = t
  endfor
enddef

# If only white space goes, or a line feed, and no word comes: the white space beside it that stays belongs to it.
def WithSpacesBeside(a: number, m: number, b: number, n: number): list<number>
  const is_blank = !HasWord(old, a, m)
  if a == m || HasWord(new, b, n) || !(is_blank || HasLine(old, a, m))
    return [a, m, b, n]
  endif
  var p = a
  var s = m
  while p > low && IsSpace(old[p - 1])
    p -= 1
  endwhile
  while s < high && IsSpace(old[s])
    s += 1
  endwhile
  const q = b - a + p
  const t = n - m + s
  return is_blank || LosesLine(p, s, q, t) ? [p, s, q, t] : [a, m, b, n]
enddef

# Whether two parts are the same characters.
def IsSame(a: number, m: number, b: number, n: number): bool
  return m - a == n - b && (m == a || old[a : m - 1] == new[b : n - 1])
enddef

# So many characters stay; what is before them is done now. White space between white space that differs is a part of that.
def Stays(a: number, b: number, count: number)
  if !IsSame(at, a, to, b)
    if count > 0 && !HasWord(old, at, a + count) && !HasWord(new, to, b)
      return
    endif
    high = a + count
    Pair(at, a, to, b, true)
    low = a
  endif
  at = a + count
  to = b + count
enddef

def SameButSpaces(a: number, m: number, b: number, n: number)
  var p = a
  var q = b
  while true
    while p < m && IsSpace(old[p])
      p += 1
    endwhile
    while q < n && IsSpace(new[q])
      q += 1
    endwhile
    var size = 0
    while p + size < m && q + size < n && !IsSpace(old[p + size]) && !IsSpace(new[q + size])
      size += 1
    endwhile
    if size == 0
      return
    endif
    Stays(p, q, size)
    p += size
    q += size
  endwhile
enddef

def Words(text: list<number>, tokens: list<list<number>>): list<string>
  return mapnew(tokens, (_, x) => list2str(text[x[0] : x[1] - 1]))
enddef

def Size(tokens: list<list<number>>): number
  var size = 0
  for x in tokens
    size += x[1] - x[0]
  endfor
  return size
enddef

# Lines that aren't the same: by words, whatever is between them.
def ByWords(first: number, m: number, second: number, n: number)
  if align.IsLate(m - first + n - second)
    align.Cut()
    return
  endif
  var front = 0
  const least = min([m - first, n - second])
  while front < least && old[first + front] == new[second + front]
    front += 1
  endwhile
  while front > 0 && !IsSpace(old[first + front - 1])
    front -= 1
  endwhile
  Stays(first, second, front)
  const olds = Tokens(old, first + front, m)
  const news = Tokens(new, second + front, n)
  if empty(olds) || empty(news)
    return
  endif
  const pairs = align.Align(Words(old, olds), Words(new, news), false)
  if !joins && 5 * Size(mapnew(pairs, (_, x) => olds[x[0]])) < min([Size(olds), Size(news)])
    return
  endif
  for [i, j] in pairs
    Stays(olds[i][0], news[j][0], olds[i][1] - olds[i][0])
  endfor
enddef

# Whether three of four lines (of 32 that it looks at) begin and end as the other one does, for half of the shorter.
def IsLineByLine(olds: list<string>, news: list<string>): bool
  const looks = min([len(olds), 32])
  var alike = 0
  for k in range(looks)
    const x = str2list(trim(olds[k * len(olds) / looks], "\t\n\x0b\x0c\r "))
    const y = str2list(trim(news[k * len(olds) / looks], "\t\n\x0b\x0c\r "))
    const least = min([len(x), len(y)])
    var front = 0
    while front < least && x[front] == y[front]
      front += 1
    endwhile
    var end = 0
    while end < least - front && x[-1 - end] == y[-1 - end]
      end += 1
    endwhile
    alike += 2 * (front + end) >= least ? 1 : 0
  endfor
  return 4 * alike >= 3 * looks
enddef

# Lines without their spaces. (`substitute` takes time with the square of what it finds.)
def Keys(lines: list<string>): list<string>
  return mapnew(lines, (_, line) => join(split(line, '[\x09-\x0d ]\+'), ''))
enddef

# The lines of a text that end at these places.
def Lines(text: list<number>, ends: list<number>): list<string>
  return mapnew(ends, (k, end) => list2str(text[k > 0 ? ends[k - 1] : 0 : end - 1]))
enddef

def SizesBefore(parts: list<string>): list<number>
  var sizes: list<number> = []
  var size = 0
  for part in parts
    add(sizes, size)
    size += len(part)
  endfor
  return sizes
enddef

# Where two texts, which are lists of characters, differ, from the first place to the last: where each begins and ends in the old and in the new text.
# After so many seconds it goes on line by line. Two that are put together are compared by words alone, since of words that went from one line to the
# next both would stay.
export def Compared(gone: list<number>, come: list<number>, seconds: float, is_joined: bool = false): list<list<number>>
  joins = is_joined
  # No string of Vim has the character 0.
  old = index(gone, 0) < 0 ? gone : mapnew(gone, (_, c) => c == 0 ? 0x110000 : c)
  new = index(come, 0) < 0 ? come : mapnew(come, (_, c) => c == 0 ? 0x110000 : c)
  at = 0
  to = 0
  low = 0
  high = 0
  align.Begin(seconds)
  found = []
  const olds = Ends(old, 0, len(old), true)
  const news = Ends(new, 0, len(new), true)
  const lines = [Lines(old, olds), Lines(new, news)]
  const keys = [Keys(lines[0]), Keys(lines[1])]
  var [a, b, i, j] = [0, 0, 0, 0]
  var pairs = align.Align(keys[0], keys[1], true)
  if join(keys[0], '') ==# join(keys[1], '')
    # White space alone differs, so lines stay only where as much is before them.
    const before = mapnew(keys, (_, side) => SizesBefore(side))
    filter(pairs, (_, x) => before[0][x[0]] == before[1][x[1]])
  endif
  for [x, y] in add(pairs, [len(olds), len(news)])
    const p = x > 0 ? olds[x - 1] : 0
    const q = y > 0 ? news[y - 1] : 0
    if x > i && y > j
      if join(keys[0][i : x - 1], '') ==# join(keys[1][j : y - 1], '')
        SameButSpaces(a, p, b, q)
      elseif !joins && x - i == y - j && IsLineByLine(lines[0][i : x - 1], lines[1][j : y - 1])
        for k in range(x - i)
          ByWords(k > 0 ? olds[i + k - 1] : a, olds[i + k], k > 0 ? news[j + k - 1] : b, news[j + k])
        endfor
      else
        ByWords(a, p, b, q)
      endif
    endif
    if x < len(olds)
      if lines[0][x] ==# lines[1][y]
        Stays(p, q, olds[x] - p)
      else
        SameButSpaces(p, olds[x], q, news[y])
      endif
      [a, b, i, j] = [olds[x], news[y], x + 1, y + 1]
    endif
  endfor
  Stays(len(old), len(new), 0)
  return found
enddef

export def WasCut(): bool
  return align.WasCut()
enddef
