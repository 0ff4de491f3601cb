# Makes the lines of a script of rls that turn one text into another: examples/COMPARE.md. It reads two files, the old text and the new one, in
# which the byte FE stands for the line feed (bin/rls-more.bash). It works on bytes (LC_ALL=C) from 0 on, and counts characters.

function characters(s) { gsub(/[\200-\277]/, "", s); return length(s) }
function escaped(s) { gsub(/\\/, "&&", s); gsub(/\r/, "\\r", s); gsub(/\n/, "\\n", s); return s }
function least(a, b) { return a < b ? a : b }

# Whether this byte isn't the first one of its character.
function is_inside(s, k,  c) { c = substr(s, k, 1); return c >= "\200" && c < "\300" }

function erase(place, count,  most) {
  for (most = 4194304; count > 0; count -= most) print "d " place " " (count < most ? count : most)
}

function insert(place, s,  most) {
  while (s != "") {
    for (most = 1048576; is_inside(s, most + 1); most--);
    print "i " place " " escaped(substr(s, 1, most))
    place += characters(substr(s, 1, most))
    s = substr(s, most + 1)
  }
}

# Puts lines together, by halves: one after another takes time with the square of their number.
function joined(lines, from, to,  middle) {
  if (from >= to) return from == to ? lines[from] : ""
  middle = int((from + to) / 2)
  return joined(lines, from, middle) joined(lines, middle + 1, to)
}

# The character whose first byte is at a place; `size` is how many bytes it has.
function character(s, at,  a) {
  a = ord[substr(s, at + 1, 1)]
  size = a >= 240 ? 4 : a >= 224 ? 3 : a >= 192 ? 2 : 1
  if (size == 1) return a
  if (size == 2) return (a - 192) * 64 + ord[substr(s, at + 2, 1)] - 128
  if (size == 3) return (a - 224) * 4096 + (ord[substr(s, at + 2, 1)] - 128) * 64 + ord[substr(s, at + 3, 1)] - 128
  return (a - 240) * 262144 + (ord[substr(s, at + 2, 1)] - 128) * 4096 + (ord[substr(s, at + 3, 1)] - 128) * 64 + ord[substr(s, at + 4, 1)] - 128
}

function is_letter(c) {
  if (c < 128) return (c >= 97 && c <= 122) || (c >= 65 && c <= 90) || (c >= 48 && c <= 57) || c == 95
  if (c < 768) return c == 170 || c == 181 || c == 186 || (c >= 192 && c != 215 && c != 247)
  return c <= 3583 || (c >= 4256 && c <= 8191)
}

# Whether a character belongs to the one before it.
function is_mark(c) {
  return c >= 768 && (c <= 879 || (c >= 6832 && c <= 6911) || (c >= 7616 && c <= 7679) || c == 8204 || c == 8205 || (c >= 8400 && c <= 8447) ||
    (c >= 65024 && c <= 65039) || (c >= 65056 && c <= 65071) || (c >= 127995 && c <= 127999))
}

# Whether a place is within a character, or between one and what belongs to it.
function is_joined(s, at) {
  if (at <= 0 || at >= length(s)) return 0
  if (is_inside(s, at + 1)) return 1
  return (at > 2 && substr(s, at - 2, 3) == joiner) || (substr(s, at + 1, 1) >= "\300" && is_mark(character(s, at)))
}

# The words of a part of a text, and its other characters but spaces, each with the marks after it; and where each begins. A part that `split`
# finds between spaces is one word most often, so it isn't looked at by characters then.
function tokens_of(s, at, end, tokens, starts,  count, parts, part, k) {
  part = split(substr(s, at + 1, end - at), parts, /[\t-\r ]+/)
  for (k = 1; k <= part; k++) {
    if (parts[k] == "") continue
    while (space[substr(s, at + 1, 1)]) at++
    if (parts[k] ~ /[^0-9A-Z_a-z]/) count = tokens_in(parts[k], at, tokens, starts, count)
    else { tokens[++count] = parts[k]; starts[count] = at }
    at += length(parts[k])
  }
  return count + 0
}

# The same for a part without spaces, which begins at a place.
function tokens_in(s, begin, tokens, starts, count,  at, end, from, c, is_word, next_one) {
  if (match(s, /^[0-9A-Z_a-z]+[!-~]$/)) {
    tokens[++count] = substr(s, 1, RLENGTH - 1); starts[count] = begin
    tokens[++count] = substr(s, RLENGTH); starts[count] = begin + RLENGTH - 1
    return count
  }
  end = length(s)
  for (at = 0; at < end;) {
    from = at
    c = character(s, at)
    at += size
    is_word = is_letter(c)
    while (at < end) {
      next_one = character(s, at)
      if (!((c == 8205 && !is_word) || is_mark(next_one) || (is_word && is_letter(next_one)))) break
      c = next_one
      at += size
    }
    tokens[++count] = substr(s, from + 1, at - from)
    starts[count] = begin + from
  }
  return count
}

# Four members in a row as one number, from each place on where there are four.
function rows_of_four(u, size_, rows,  k, key) {
  for (k = 0; k + 4 <= size_; k++) {
    key = u[k] "," u[k + 1] "," u[k + 2] "," u[k + 3]
    if (!(key in row_of)) row_of[key] = ++row_count
    rows[k] = row_of[key]
  }
}

# Where members of two lists are equal that are once in each; of these the longest part that rises in both, the last first, in ax and ay.
function anchors(a, i, m, b, j, n,  k, key, once, other, tops, at, before, x, y, count, low, high, middle, length_of) {
  for (k = j; k < n; k++) if (b[k] in other) other[b[k]] = -1; else other[b[k]] = k
  for (k = i; k < m; k++) if (a[k] in once) once[a[k]] = -1; else once[a[k]] = k
  for (k = i; k < m; k++) {
    key = a[k]
    if (once[key] != k || !(key in other) || other[key] < 0) continue
    x[++count] = k
    y[count] = other[key]
    low = 1
    high = length_of + 1
    while (low < high) {
      middle = int((low + high) / 2)
      if (tops[middle] < y[count]) low = middle + 1; else high = middle
    }
    before[count] = low > 1 ? at[low - 1] : 0
    tops[low] = y[count]
    at[low] = count
    if (low > length_of) length_of = low
  }
  count = 0
  for (k = length_of ? at[length_of] : 0; k > 0; k = before[k]) { ax[++count] = x[k]; ay[count] = y[k] }
  return count + 0
}

function comes_at(was, base, k, d) { return (k == -d) || (k != d && (was[base + k - 1] < was[base + k + 1])) }

# The least members that go and come, by Myers' greedy search; if it takes more than so many steps, the way that got furthest. The runs that
# stay are in rx, ry and rc, the last first; `runs` is how many. The answer is whether it arrived.
function search(i, m, j, n, steps,  wide, high, off, far, trace, d, k, x, y, is_done, best, was, start, come) {
  wide = m - i; high = n - j; off = steps + 1
  for (k = 0; k <= 2 * steps + 2; k++) far[k] = 0
  for (d = 0; ; d++) {
    for (k = -d - 1; k <= d + 1; k++) trace[d * 1024 + 512 + k] = far[off + k]
    for (k = -d; k <= d; k += 2) {
      x = comes_at(far, off, k, d) ? far[off + k + 1] : far[off + k - 1] + 1
      y = x - k
      while (x < wide && y < high && a[i + x] == b[j + y]) { x++; y++ }
      far[off + k] = x
      if (x >= wide && y >= high) { is_done = 1; break }
    }
    spent += d + 1
    if (is_done || d == steps) break
  }
  best = -1
  if (!is_done) for (k = -steps; k <= steps; k += 2)
    if (far[off + k] <= wide && far[off + k] - k <= high && 2 * far[off + k] - k > best) { x = far[off + k]; y = x - k; best = x + y }
  for (runs = 0; d > 0; d--) {
    k = x - y
    come = comes_at(trace, d * 1024 + 512, k, d)
    was = trace[d * 1024 + 512 + (come ? k + 1 : k - 1)]
    start = come ? was : was + 1
    if (x > start) { rx[++runs] = i + start; ry[runs] = j + start - k; rc[runs] = x - start }
    x = was
    y = was - (come ? k + 1 : k - 1)
  }
  if (x > 0) { rx[++runs] = i; ry[runs] = j; rc[runs] = x }
  return is_done + 0
}

function keep(x, y, count,  k) { for (k = 0; k < count; k++) { px[++pairs] = from[x + k]; py[pairs] = to[y + k] } }
function keep_runs(first,  k) { for (k = runs; k >= first; k--) keep(rx[k], ry[k], rc[k]) }
function push(i, m, j, n, depth) { top++; ti[top] = i; tm[top] = m; tj[top] = j; tn[top] = n; td[top] = depth }

# Which members of two lists, which count from 1, stay: px and py, of which there are `pairs`. What the other list doesn't have is left out first.
function align(old, olds, new, news, by_anchors,  numbers, is_old, k, i, m, j, n, depth, count, first, p, q, steps, are_rows, olds_left, news_left, a4, b4) {
  delete a; delete b
  for (k = 1; k <= news; k++) numbers[new[k]] = k
  for (k = 1; k <= olds; k++) is_old[old[k]] = 1
  for (k = 1; k <= olds; k++) if (old[k] in numbers) { a[p + 0] = numbers[old[k]]; from[p++] = k }
  for (k = 1; k <= news; k++) if (new[k] in is_old) { b[q + 0] = numbers[new[k]]; to[q++] = k }
  pairs = top = 0
  push(0, olds_left = p + 0, 0, news_left = q + 0, 0)
  while (top > 0) {
    i = ti[top]; m = tm[top]; j = tj[top]; n = tn[top]; depth = td[top--]
    if (depth < 0) { keep(i, j, m - i); continue }
    for (k = i; i < m && j < n && a[i] == b[j]; j++) i++
    keep(k, j - i + k, i - k)
    for (k = m; m > i && n > j && a[m - 1] == b[n - 1]; n--) m--
    if (k > m) push(m, k, n, n + k - m, -1)
    if (i == m || j == n) continue
    if (!by_anchors && search(i, m, j, n, 16)) { keep_runs(1); continue }
    count = 0
    if (depth < 12) {
      if (!by_anchors && !are_rows) { are_rows = 1; rows_of_four(a, olds_left, a4); rows_of_four(b, news_left, b4) }
      if (!by_anchors) count = anchors(a4, i, m - 3, b4, j, n - 3)
      if (!count) count = anchors(a, i, m, b, j, n)
    }
    if (count) {
      p = m; q = n
      for (k = 1; k <= count; k++) { push(ax[k], p, ay[k], q, depth + 1); p = ax[k]; q = ay[k] }
      push(i, p, j, q, depth + 1)
      continue
    }
    while (i < m && j < n) {
      steps = spent < 300000 ? 128 : spent < 1500000 ? 16 : 4
      if (search(i, m, j, n, steps)) { keep_runs(1); break }
      is_cut = 1
      for (first = 1; first <= runs && rc[first] < 3; first++);           # what it ends with may be chance
      if (first > runs || 2 * (rx[first] + ry[first] + 2 * rc[first] - i - j) <= rx[1] + ry[1] + 2 * rc[1] - i - j) first = 1
      keep_runs(first)
      if (runs) { i = rx[first] + rc[first]; j = ry[first] + rc[first] } else { i++; j++ }
    }
  }
}

function has_word(s) { return s ~ /[^\t-\r ]/ }

# Whether a line feed goes that stands after the last word that goes, and none comes.
function loses_line(gone, come) { return gone ~ /\n[\t-\r ]*$/ && come !~ /\n/ }

# What goes and what comes. White space that is left between two words keeps its last character, or gets a new one behind all of it.
function put(p, s, q, t,  gone, come, is_blank) {
  come = substr(NEW, q + 1, t - q)
  if (p == 0 || p == s || s == length(OLD) || come == "" || has_word(come)) { replace(p, s, q, t); return }
  gone = substr(OLD, p + 1, s - p)
  is_blank = !has_word(gone)
  if (loses_line(gone, come) || (is_blank && substr(OLD, s, 1) != substr(NEW, t, 1))) {
    while (is_blank && p < s && q < t - 1 && substr(OLD, p + 1, 1) == substr(NEW, q + 1, 1)) { p++; q++ }
    hand_on(p, s, q, t)
  }
  else if (is_blank) replace(p, s - 1, q, t - 1)
  else replace(p, s, q, t)
}

# The same, less what is equal at the front and at the end.
function replace(p, s, q, t,  a0, s0) {
  a0 = p; s0 = s
  while (p < s && q < t && substr(OLD, p + 1, 1) == substr(NEW, q + 1, 1)) { p++; q++ }
  if (p < s || q < t) while (p > a0 && (is_joined(OLD, p) || is_joined(NEW, q))) { p--; q-- }
  while (s > p && t > q && substr(OLD, s, 1) == substr(NEW, t, 1)) { s--; t-- }
  while (s < s0 && (is_joined(OLD, s) || is_joined(NEW, t))) { s++; t++ }
  if (s > p || t > q) in_place(p, s, q, t)
}

# What goes and what comes. Where one of them is nothing, it may have several places, and one that isn't within a word is taken, of a
# thousand.
function in_place(p, s, q, t,  k, back, is_within, is_same) {
  if (p == s || q == t) {
    is_within = is_within_word(p, s, q, t)
    for (k = 1; is_within && k <= 1000 && p - k >= told; k++) {
      is_same = substr(OLD, p - k + 1, 1) == (p == s ? substr(NEW, t - k + 1, 1) : substr(OLD, s - k + 1, 1))
      if (!is_same) break
      is_within = is_within_word(p - k, s - k, q - k, t - k)
      if (!is_within) back = k
    }
  }
  hand_on(p - back, s - back, q - back, t - back)
}

# Whether a place is within a word, or between a character and what belongs to it.
function is_within_word(p, s, q, t) {
  if (is_joined(OLD, p) || is_joined(OLD, s) || is_joined(NEW, q) || is_joined(NEW, t)) return 1
  return p > 0 && s < length(OLD) && !space[substr(OLD, p, 1)] && !space[substr(OLD, s + 1, 1)]
}

function hand_on(p, s, q, t,  goes, come) {
  place += characters(substr(OLD, told + 1, p - told))
  told = s
  goes = characters(substr(OLD, p + 1, s - p))
  come = substr(NEW, q + 1, t - q)
  insert(place + goes, come)
  erase(place, goes)
  place += characters(come)
}

# Words and what is between them, or lines, from a place to another; where each ends.
function ends_of(s, at, end, by_lines, ends,  count, is_in) {
  if (by_lines) {
    for (; at < end; at++) if (substr(s, at + 1, 1) == "\n") ends[++count] = at + 1
    if (!count || ends[count] < end) ends[++count] = end
    return count
  }
  for (is_in = space[substr(s, at + 1, 1)]; at < end; at++) if (space[substr(s, at + 1, 1)] != is_in) { ends[++count] = at; is_in = !is_in }
  ends[++count] = end
  return count
}

# What has nothing in common: line with line, and word with word where there are as many; otherwise in proportion.
function pair(p, m, q, n, by_lines,  olds, news, x, y, parts, k, s, t) {
  if (by_lines && is_one_piece(substr(OLD, p + 1, m - p), substr(NEW, q + 1, n - q))) { with_spaces_beside(p, m, q, n); return }
  olds = ends_of(OLD, p, m, by_lines, x)
  news = ends_of(NEW, q, n, by_lines, y)
  parts = least(olds, news)
  if (!by_lines && olds != news) parts = parts < 32 ? 1 : int(parts / 16)
  for (k = 1; k <= parts; k++) {
    s = x[int(k * olds / parts)]; t = y[int(k * news / parts)]
    if (by_lines) pair(p, s, q, t, 0); else put(p, s, q, t)
    p = s; q = t
  }
}

# Whether there is nothing to pair: one side has nothing but spaces, or both have none.
function is_one_piece(gone, come) { return gone !~ /[^\t-\r ]/ || come !~ /[^\t-\r ]/ || (gone !~ /[\t-\r ]/ && come !~ /[\t-\r ]/) }

# If only white space goes, or a line feed, and no word comes: the white space beside it that stays belongs to it.
function with_spaces_beside(p, m, q, n,  gone, is_blank, a, s) {
  gone = substr(OLD, p + 1, m - p)
  is_blank = !has_word(gone)
  if (p == m || has_word(substr(NEW, q + 1, n - q)) || !(is_blank || gone ~ /\n/)) { put(p, m, q, n); return }
  for (a = p; a > low_old && space[substr(OLD, a, 1)]; a--);
  for (s = m; s < high_old && space[substr(OLD, s + 1, 1)]; s++);
  if (is_blank || loses_line(substr(OLD, a + 1, s - a), substr(NEW, q - p + a + 1, n - m + s - q + p - a))) put(a, s, q - p + a, n - m + s)
  else put(p, m, q, n)
}

# So many bytes stay; what is before them is done now. White space between white space that differs is a part of that.
function stays(p, q, count,  gone, come) {
  gone = substr(OLD, done_old + 1, p - done_old)
  come = substr(NEW, done_new + 1, q - done_new)
  if (gone != come) {
    if (count && !has_word(gone) && !has_word(come) && !has_word(substr(OLD, p + 1, count))) return
    high_old = p + count
    pair(done_old, p, done_new, q, 1)
    low_old = p
  }
  done_old = p + count
  done_new = q + count
}

function stripped(s) { sub(/^[\t-\r ]+/, "", s); sub(/[\t-\r ]+$/, "", s); return s }

function same_but_spaces(at_old, old, at_new, new,  x, p, q, n, m, size_) {
  if (old == new) { stays(at_old, at_new, length(old)); return }
  x = stripped(old)
  if (x != "" && x == stripped(new)) { match(old, /[^\t-\r ]/); p = RSTART; match(new, /[^\t-\r ]/); stays(at_old + p - 1, at_new + RSTART - 1, length(x)); return }
  n = length(old); m = length(new)
  for (p = q = 0; ;) {
    while (p < n && space[substr(old, p + 1, 1)]) p++
    while (q < m && space[substr(new, q + 1, 1)]) q++
    for (size_ = 0; p + size_ < n && q + size_ < m && !space[substr(old, p + size_ + 1, 1)] && !space[substr(new, q + size_ + 1, 1)]; size_++);
    if (size_ == 0) return
    stays(at_old + p, at_new + q, size_)
    p += size_; q += size_
  }
}

# A line without its spaces. Of a long one in parts, since `gsub` takes time with the square of what it finds.
function squeezed(s,  half) {
  if (length(s) > 4096) { half = int(length(s) / 2); return squeezed(substr(s, 1, half)) squeezed(substr(s, half + 1)) }
  gsub(/[\t-\r ]+/, "", s)
  return s
}

# How many bytes are equal at the front: by halving.
function front_of(s, t,  low, high, middle) {
  for (high = least(length(s), length(t)); low < high;) {
    middle = int((low + high + 1) / 2)
    if (substr(s, low + 1, middle - low) == substr(t, low + 1, middle - low)) low = middle; else high = middle - 1
  }
  return low + 0
}

# The same for the end, of at most so many bytes.
function tail_of(s, t, most,  low, middle, m, n) {
  m = length(s); n = length(t)
  for (low = 0; low < most;) {
    middle = int((low + most + 1) / 2)
    if (substr(s, m - middle + 1, middle - low) == substr(t, n - middle + 1, middle - low)) low = middle; else most = middle - 1
  }
  return low
}

# Lines that aren't the same: by words, whatever is between them. The equal front and the equal end stay, back or on to a space.
function words(p, gone, q, come,  front, tail, m, n) {
  m = length(gone); n = length(come)
  for (front = front_of(gone, come); front > 0 && !space[substr(gone, front, 1)]; front--);
  for (tail = tail_of(gone, come, least(m, n) - front); tail > 0 && !space[substr(gone, m - tail + 1, 1)]; tail--);
  stays(p, q, front)
  by_words(p + front, substr(gone, front + 1, m - front - tail), q + front, substr(come, front + 1, n - front - tail))
  stays(p + m - tail, q + n - tail, tail)
}

function by_words(p, gone, q, come,  x, y, u, v, olds, news, k, same, all_old, all_new) {
  olds = tokens_of(gone, 0, length(gone), x, u)
  news = tokens_of(come, 0, length(come), y, v)
  if (!olds || !news || (olds == 1 && news == 1)) return
  align(x, olds, y, news, 0)
  for (k = 1; k <= pairs; k++) same += length(x[px[k]])
  for (k = 1; k <= olds; k++) all_old += length(x[k])
  for (k = 1; k <= news; k++) all_new += length(y[k])
  if (5 * same < least(all_old, all_new)) return
  for (k = 1; k <= pairs; k++) stays(p + u[px[k]], q + v[py[k]], length(x[px[k]]))
}

# Whether three of four lines (of 32 that it looks at) begin and end as the other one does, for half of the shorter.
function is_line_by_line(i, j, count,  looks, k, at, x, y, front, alike, most) {
  looks = least(count, 32)
  for (k = 0; k < looks; k++) {
    at = int(k * count / looks)
    x = stripped(old[i + at]); y = stripped(new[j + at])
    front = front_of(x, y)
    most = least(length(x), length(y)) - front
    if (2 * (front + tail_of(x, y, most)) >= most + front) alike++
  }
  return 4 * alike >= 3 * looks
}

function changed_lines(p, i, x, q, j, y,  k) {
  if (joined(old_key, i, x - 1) == joined(new_key, j, y - 1)) same_but_spaces(p, joined(old, i, x - 1), q, joined(new, j, y - 1))
  else if (x - i == y - j && is_line_by_line(i, j, x - i))
    for (k = 0; k < x - i; k++) { words(p, old[i + k], q, new[j + k]); p += length(old[i + k]); q += length(new[j + k]) }
  else words(p, joined(old, i, x - 1), q, joined(new, j, y - 1))
}

BEGIN {
  for (k = 1; k < 256; k++) ord[sprintf("%c", k)] = k
  for (k = 9; k <= 13; k++) space[sprintf("%c", k)] = 1
  space[" "] = 1
  joiner = "\342\200\215"
}
FNR == 1 { file++ }
{ gsub(/\376/, "\n"); if (file == 1) old[++olds] = $0; else new[++news] = $0 }
END {
  OLD = joined(old, 1, olds); NEW = joined(new, 1, news)
  for (k = 1; k <= olds; k++) old_key[k] = squeezed(old[k])
  for (k = 1; k <= news; k++) new_key[k] = squeezed(new[k])
  align(old_key, olds + 0, new_key, news + 0, 1)
  # If white space alone differs, lines stay only where as much is before them.
  is_same = joined(old_key, 1, olds + 0) == joined(new_key, 1, news + 0)
  for (k = 1; k <= olds; k++) { x_before[k] = x + 0; x += length(old_key[k]) }
  for (k = 1; k <= news; k++) { y_before[k] = y + 0; y += length(new_key[k]) }
  for (k = 1; k <= pairs; k++) if (!is_same || x_before[px[k]] == y_before[py[k]]) { lx[++lines] = px[k]; ly[lines] = py[k] }
  lx[lines + 1] = olds + 1; ly[lines + 1] = news + 1
  i = j = 1
  for (k = 1; k <= lines + 1; k++) {
    x = lx[k]; y = ly[k]
    if (x > i && y > j) changed_lines(at_old, i, x, at_new, j, y)
    if (x > olds) break
    for (; i < x; i++) at_old += length(old[i])
    for (; j < y; j++) at_new += length(new[j])
    same_but_spaces(at_old, old[x], at_new, new[y])
    at_old += length(old[i++]); at_new += length(new[j++])
  }
  stays(length(OLD), length(NEW), 0)
  if (is_cut) print "rls: the two texts differ so much that parts were compared by cheaper means: what others wrote there meanwhile may stand beside its place." | "cat 1>&2"
}
