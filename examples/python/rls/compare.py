"""Where two texts differ, so that what others write in between keeps its place: examples/COMPARE.md."""
import re
from bisect import bisect_left
from collections import defaultdict
from itertools import accumulate
from typing import DefaultDict, List, NamedTuple, Sequence, Tuple

STEPS = 128                 # members that go or come, after which it looks back and goes on from where it is
WORK = (300_000, 1_500_000)   # steps of the search, after which STEPS is 16, and then 4
DEPTH = 12                  # anchors within anchors
BACK = 1000                 # characters back for which a better place is looked for
SPACES = "\t\n\v\f\r "
LINE = re.compile(r"[^\n]*\n|[^\n]+")
WORD = re.compile(r"[^\t-\r ]+")
SPACE = re.compile(r"[\t-\r ]")
PIECE = re.compile(r"[\t-\r ]+|[^\t-\r ]+")
LETTER = "0-9A-Za-z_\u00aa\u00b5\u00ba\u00c0-\u00d6\u00d8-\u00f6\u00f8-\u0dff\u10a0-\u1fff"
MARK = "\u0300-\u036f\u1ab0-\u1aff\u1dc0-\u1dff\u200c\u200d\u20d0-\u20ff\ufe00-\ufe0f\ufe20-\ufe2f\U0001f3fb-\U0001f3ff"
TOKEN = re.compile(f"[{LETTER}][{LETTER}{MARK}]*|[^\t-\r ](?:[{MARK}]|(?<=\u200d)[^\t-\r ])*")
JOINED = re.compile(f"[{MARK}]")
START = re.Match.start
Run = Tuple[int, int, int]


class Replacement(NamedTuple):
    """At `at` of the old text, `count` characters go and `text` comes."""
    at: int
    count: int
    text: str


class _Work:
    spent = 0               # steps of the search
    cut = False             # whether it went on by cheaper means

    def steps(self) -> int:
        return STEPS if self.spent < WORK[0] else 16 if self.spent < WORK[1] else 4


def _rising(pairs: List[Tuple[int, int]]) -> List[Tuple[int, int]]:
    """The longest part of these pairs, which rise on the left, that rises on the right too."""
    tops: List[int] = []
    at: List[int] = []
    before: List[int] = []
    for k, (_, j) in enumerate(pairs):
        p = bisect_left(tops, j)
        before.append(at[p - 1] if p else -1)
        if p == len(tops):
            tops.append(j)
            at.append(k)
        else:
            tops[p], at[p] = j, k
    found: List[Tuple[int, int]] = []
    k = at[-1] if at else -1
    while k >= 0:
        found.append(pairs[k])
        k = before[k]
    return found[::-1]


def _fours(a: Sequence[int], b: Sequence[int]) -> List[Sequence[int]]:
    """Four members in a row of each list as one number, from each place on where there are four."""
    numbers: DefaultDict[Tuple[int, ...], int] = defaultdict()
    numbers.default_factory = numbers.__len__
    return [list(map(numbers.__getitem__, zip(s, s[1:], s[2:], s[3:]))) for s in (a, b)]


def _anchors(a: Sequence[int], b: Sequence[int], i: int, m: int, j: int, n: int) -> List[Tuple[int, int]]:
    """Where members are equal that are once in each."""
    if i >= m or j >= n:
        return []
    mine, other = a[i:m], b[j:n]
    last_mine, last_other = dict(zip(mine, range(i, m))), dict(zip(other, range(j, n)))
    both = last_mine.keys() & last_other.keys()
    if not both:
        return []
    first_mine, first_other = dict(zip(reversed(mine), range(m - 1, i - 1, -1))), dict(zip(reversed(other), range(n - 1, j - 1, -1)))
    pairs = [(last_mine[key], last_other[key]) for key in both if first_mine[key] == last_mine[key] and first_other[key] == last_other[key]]
    return _rising(sorted(pairs))


def _search(a: Sequence[int], b: Sequence[int], i: int, m: int, j: int, n: int, steps: int, work: _Work) -> Tuple[bool, List[Run]]:
    """The least members that go and come, by Myers' greedy search; if it takes more than so many steps, the way that got furthest."""
    shift, off = i - j, steps + 1                       # on diagonal k, place x of the one is place x - k - shift of the other
    far = [i] * (2 * steps + 3)
    trace: List[List[int]] = []
    x = y = d = 0
    done = False
    for d in range(steps + 1):
        trace.append(far[off - d - 1:off + d + 2])
        for k in range(-d, d + 1, 2):
            x, come = far[off + k - 1] + 1, far[off + k + 1]
            if k == -d or (k != d and x <= come):
                x = come
            y = x - k - shift
            while x < m and y < n and a[x] == b[y]:
                x += 1
                y += 1
            far[off + k] = x
            if x >= m and y >= n:
                done = True
                break
        work.spent += d + 1
        if done:
            break
    if not done:
        best = -1
        for k in range(-steps, steps + 1, 2):
            p = far[off + k]
            if p <= m and p - k - shift <= n and 2 * (p - i) - k > best:
                best, x, y = 2 * (p - i) - k, p, p - k - shift
    runs: List[Run] = []
    while d > 0:
        was, k = trace[d], x - y - shift                # was[d + 1 + k] is diagonal k
        comes = k == -d or (k != d and was[d + k] < was[d + k + 2])
        p = was[d + k + 2] if comes else was[d + k]
        start = p if comes else p + 1
        if x > start:
            runs.append((start, start - k - shift, x - start))
        x, y = p, p - shift - (k + 1 if comes else k - 1)
        d -= 1
    if x > i:
        runs.append((i, j, x - i))
    return done, runs[::-1]


def _align(old: List[str], new: List[str], by_anchors: bool, work: _Work) -> List[Tuple[int, int]]:
    """Which members of two lists stay, as pairs of places that rise. What the other list doesn't have is left out first."""
    numbers = {x: k for k, x in enumerate(new)}
    both = set(old).intersection(numbers)
    if not both:
        return []
    places = [[k for k, x in enumerate(side) if x in both] for side in (old, new)]
    a, b = [[numbers[side[k]] for k in kept] for side, kept in zip((old, new), places)]
    return [(places[0][i + k], places[1][j + k]) for i, j, count in _runs(a, b, by_anchors, work) for k in range(count)]


def _runs(a: Sequence[int], b: Sequence[int], by_anchors: bool, work: _Work) -> List[Run]:
    """Which members stay, as runs (place, place, count)."""
    found: List[Run] = []
    fours: List[Sequence[int]] = []
    todo = [(0, len(a), 0, len(b), 0)]
    while todo:
        i, m, j, n, depth = todo.pop()
        if depth < 0:
            found.append((i, j, m - i))
            continue
        k = i
        while i < m and j < n and a[i] == b[j]:
            i += 1
            j += 1
        if i > k:
            found.append((k, j - i + k, i - k))
        k = m
        while m > i and n > j and a[m - 1] == b[n - 1]:
            m -= 1
            n -= 1
        if k > m:
            todo.append((m, k, n, n + k - m, -1))
        if i == m or j == n:
            continue
        if not by_anchors:
            done, runs = _search(a, b, i, m, j, n, 16, work)
            if done:
                found += runs
                continue
        if depth < DEPTH:
            fours = fours or ([a, b] if by_anchors else _fours(a, b))
            anchors = [] if by_anchors else _anchors(fours[0], fours[1], i, m - 3, j, n - 3)
            anchors = anchors or _anchors(a, b, i, m, j, n)
            if anchors:
                ends = anchors[1:] + [(m, n)]
                for (x, y), (p, q) in zip(reversed(anchors), reversed(ends)):
                    todo.append((x, p, y, q, depth + 1))
                todo.append((i, anchors[0][0], j, anchors[0][1], depth + 1))
                continue
        found += _long_search(a, b, i, m, j, n, work)
    return found


def _long_search(a: Sequence[int], b: Sequence[int], i: int, m: int, j: int, n: int, work: _Work) -> List[Run]:
    """What stays of two parts without anchors. What the other part doesn't have is left out first."""
    both = set(a[i:m]).intersection(b[j:n])
    if not both:
        return []
    x, y = [k for k in range(i, m) if a[k] in both], [k for k in range(j, n) if b[k] in both]
    runs = _onward([a[k] for k in x], [b[k] for k in y], work)
    if len(x) == m - i and len(y) == n - j:
        return [(i + p, j + q, count) for p, q, count in runs]
    return [(x[p + k], y[q + k], 1) for p, q, count in runs for k in range(count)]


def _onward(a: Sequence[int], b: Sequence[int], work: _Work) -> List[Run]:
    """What stays of two lists, by searches that go on where the last one ended."""
    i, m, j, n = 0, len(a), 0, len(b)
    found: List[Run] = []
    while i < m and j < n:
        done, runs = _search(a, b, i, m, j, n, work.steps(), work)
        if done:
            found += runs
            break
        work.cut = True
        end = runs[-1][0] + runs[-1][1] + 2 * runs[-1][2] if runs else 0
        keep = len(runs)
        while keep and runs[keep - 1][2] < 3:           # what it ends with may be chance
            keep -= 1
        if keep and 2 * (runs[keep - 1][0] + runs[keep - 1][1] - i - j) > end - i - j:
            runs = runs[:keep]
        if not runs:
            i, j = i + 1, j + 1
            continue
        found += runs
        i, j = runs[-1][0] + runs[-1][2], runs[-1][1] + runs[-1][2]
    return found


def _without_spaces(text: str) -> List[str]:
    """Its lines without their spaces."""
    for space in "\t\v\f\r ":
        text = text.replace(space, "")
    return text.split("\n")


def _front(old: str, new: str) -> int:
    """How many characters are equal at the front: by halving."""
    low, high = 0, min(len(old), len(new))
    while low < high:
        middle = (low + high + 1) // 2
        if old[low:middle] == new[low:middle]:
            low = middle
        else:
            high = middle - 1
    return low


def _end(old: str, new: str, most: int) -> int:
    """How many characters, of so many at most, are equal at the end: by halving."""
    low, high, m, n = 0, most, len(old), len(new)
    while low < high:
        middle = (low + high + 1) // 2
        if old[m - middle:m - low] == new[n - middle:n - low]:
            low = middle
        else:
            high = middle - 1
    return low


def is_line_by_line(old: List[str], new: List[str]) -> bool:
    """Whether three of four lines (of 32 that it looks at) begin and end as the other one does, for half of the shorter."""
    looks = min(len(old), 32)
    alike = 0
    for k in range(looks):
        x, y = old[k * len(old) // looks].strip(SPACES), new[k * len(old) // looks].strip(SPACES)
        least = min(len(x), len(y))
        front = _front(x, y)
        alike += 2 * (front + _end(x, y, least - front)) >= least
    return 4 * alike >= 3 * looks


def loses_line(gone: str, come: str) -> bool:
    """Whether a line feed goes that stands after the last word that goes, and none comes."""
    return "\n" in gone[len(gone.rstrip(SPACES)):] and "\n" not in come


class _Comparison:
    def __init__(self, old: str, new: str) -> None:
        self.old, self.new, self.work = old, new, _Work()
        self.has_marks = not (old.isascii() and new.isascii())
        self.at = self.to = 0                           # what is before is done, in the old and in the new text
        self.low = self.high = 0                        # the old text stays from here to `at`, and after a piece to there
        self.found: List[Replacement] = []

    def is_joined(self, text: str, at: int) -> bool:
        return 0 < at < len(text) and (bool(JOINED.match(text, at)) or text[at - 1] == "\u200d")

    def put(self, a: int, m: int, b: int, n: int) -> None:
        """What goes and what comes. White space that is left between two words keeps its last character, or gets a new one behind all of it."""
        old, new = self.old, self.new
        if 0 < a < m < len(old) and b < n and not WORD.search(new, b, n):
            is_lost = loses_line(old[a:m], new[b:n])
            is_blank = not WORD.search(old, a, m)
            if is_lost or (is_blank and old[m - 1] != new[n - 1]):
                while is_blank and a < m and b < n - 1 and old[a] == new[b]:
                    a, b = a + 1, b + 1
                self.found.append(Replacement(a, m - a, new[b:n]))
                return
            if is_blank:
                m, n = m - 1, n - 1
        self.replace(a, m, b, n)

    def replace(self, a: int, m: int, b: int, n: int) -> None:
        """What goes and what comes, less what is equal at the front and at the end."""
        if a == m or b == n:
            self.place(a, m, b, n)
            return
        old, new = self.old, self.new
        p, q = a, b
        while p < m and q < n and old[p] == new[q]:
            p, q = p + 1, q + 1
        while self.has_marks and p > a and (self.is_joined(old, p) or self.is_joined(new, q)):
            p, q = p - 1, q - 1
        m0 = m
        while m > p and n > q and old[m - 1] == new[n - 1]:
            m, n = m - 1, n - 1
        while self.has_marks and m < m0 and (self.is_joined(old, m) or self.is_joined(new, n)):
            m, n = m + 1, n + 1
        self.place(p, m, q, n)

    def place(self, p: int, m: int, q: int, n: int) -> None:
        """What goes and what comes. Where one of them is nothing, it may have several places, and one that isn't within a word is taken."""
        if p == m and q == n:
            return
        back = 0
        if p == m or q == n:
            least = self.found[-1].at + self.found[-1].count if self.found else 0
            side, end = (self.new, n) if p == m else (self.old, m)
            k, is_within = 0, self.is_within_word(p, m, q, n)
            while is_within and k < BACK and p - k > least and self.old[p - k - 1] == side[end - k - 1]:
                k += 1
                is_within = self.is_within_word(p - k, m - k, q - k, n - k)
            back = 0 if is_within else k
        self.found.append(Replacement(p - back, m - p, self.new[q - back:n - back]))

    def is_within_word(self, p: int, m: int, q: int, n: int) -> bool:
        """Whether a place is within a word, or between a character and what belongs to it."""
        old, new = self.old, self.new
        if self.has_marks and (self.is_joined(old, p) or self.is_joined(old, m) or self.is_joined(new, q) or self.is_joined(new, n)):
            return True
        return p > 0 and m < len(old) and old[p - 1] not in SPACES and old[m] not in SPACES

    def in_proportion(self, a: int, old: List[str], b: int, new: List[str], parts: int, put) -> None:
        """Parts of both lists, one with one."""
        if parts == len(old) == len(new):
            for x, y in zip(old, new):
                m, n = a + len(x), b + len(y)
                if x != y:
                    put(a, m, b, n)
                a, b = m, n
            return
        i = j = 0
        for k in range(1, parts + 1):
            p, q = k * len(old) // parts, k * len(new) // parts
            m, n = a + sum(map(len, old[i:p])), b + sum(map(len, new[j:q]))
            put(a, m, b, n)
            i, j, a, b = p, q, m, n

    def pair_words(self, a: int, m: int, b: int, n: int) -> None:
        old, new = PIECE.findall(self.old, a, m), PIECE.findall(self.new, b, n)
        if len(old) == len(new):
            parts = len(old)
        else:
            parts = max(1, min(len(old), len(new)) // 16)
        self.in_proportion(a, old, b, new, parts, self.put)

    def pair(self, a: int, m: int, b: int, n: int) -> None:
        """What has nothing in common: line with line, and word with word where there are as many; otherwise in proportion."""
        is_one = not SPACE.search(self.old, a, m) and not SPACE.search(self.new, b, n)
        if is_one or not WORD.search(self.old, a, m) or not WORD.search(self.new, b, n):
            self.put(*self.with_spaces_beside(a, m, b, n))
            return
        old, new = LINE.findall(self.old, a, m), LINE.findall(self.new, b, n)
        self.in_proportion(a, old, b, new, min(len(old), len(new)), self.pair_words)

    def with_spaces_beside(self, a: int, m: int, b: int, n: int) -> Tuple[int, int, int, int]:
        """If only white space goes, or a line feed, and no word comes: the white space beside it that stays belongs to it."""
        old, new = self.old, self.new
        is_blank = not WORD.search(old, a, m)
        if a == m or WORD.search(new, b, n) or not (is_blank or "\n" in old[a:m]):
            return a, m, b, n
        p, s = a, m
        while p > self.low and old[p - 1] in SPACES:
            p -= 1
        while s < self.high and old[s] in SPACES:
            s += 1
        q, t = b - a + p, n - m + s
        return (p, s, q, t) if is_blank or loses_line(old[p:s], new[q:t]) else (a, m, b, n)

    def stays(self, a: int, b: int, count: int) -> None:
        """So many characters stay; what is before them is done now. White space between white space that differs is a part of that."""
        if self.old[self.at:a] != self.new[self.to:b]:
            if count and not (WORD.search(self.old, self.at, a + count) or WORD.search(self.new, self.to, b)):
                return
            self.high = a + count
            self.pair(self.at, a, self.to, b)
            self.low = a
        self.at, self.to = a + count, b + count

    def same_but_spaces(self, a: int, old: str, b: int, new: str) -> None:
        if old == new:
            self.stays(a, b, len(old))
            return
        within = old.strip(SPACES)
        if within and within == new.strip(SPACES):
            self.stays(a + old.index(within), b + new.index(within), len(within))
            return
        p = q = 0
        while p < len(old) and q < len(new):
            while p < len(old) and old[p] in SPACES:
                p += 1
            while q < len(new) and new[q] in SPACES:
                q += 1
            x, y = WORD.match(old, p), WORD.match(new, q)
            if x and y:
                size = min(x.end() - p, y.end() - q)
                self.stays(a + p, b + q, size)
                p, q = p + size, q + size

    def words(self, a: int, m: int, b: int, n: int) -> None:
        """Lines that aren't the same: by words, whatever is between them. The equal front and the equal end stay, back or on to a space."""
        old, new = self.old[a:m], self.new[b:n]
        front = _front(old, new)
        while front and old[front - 1] not in SPACES:
            front -= 1
        end = _end(old, new, min(len(old), len(new)) - front)
        while end and old[-end] not in SPACES:
            end -= 1
        self.stays(a, b, front)
        self.by_words(a + front, m - end, b + front, n - end)
        self.stays(m - end, n - end, end)

    def by_words(self, a: int, m: int, b: int, n: int) -> None:
        if TOKEN.fullmatch(self.old, a, m) and TOKEN.fullmatch(self.new, b, n):
            return
        old, new = TOKEN.findall(self.old, a, m), TOKEN.findall(self.new, b, n)
        pairs = _align(old, new, False, self.work)
        same = sum(len(old[i]) for i, _ in pairs)
        if not pairs or 5 * same < min(sum(map(len, old)), sum(map(len, new))):
            return
        starts = [list(map(START, TOKEN.finditer(s, x, y))) for s, x, y in ((self.old, a, m), (self.new, b, n))]
        for i, j in pairs:
            self.stays(starts[0][i], starts[1][j], len(old[i]))

    def changed_lines(self, a: int, old: List[str], b: int, new: List[str]) -> None:
        if SPACE.sub("", "".join(old)) == SPACE.sub("", "".join(new)):
            self.same_but_spaces(a, "".join(old), b, "".join(new))
            return
        if len(old) != len(new) or not is_line_by_line(old, new):
            old, new = ["".join(old)], ["".join(new)]
        for x, y in zip(old, new):
            self.words(a, a + len(x), b, b + len(y))
            a, b = a + len(x), b + len(y)

    def compare(self) -> None:
        old, new = LINE.findall(self.old), LINE.findall(self.new)
        keys = [_without_spaces(self.old)[:len(old)], _without_spaces(self.new)[:len(new)]]
        pairs = _align(*keys, True, self.work)
        if "".join(keys[0]) == "".join(keys[1]):        # white space alone differs, so lines stay only where as much is before them
            before = [list(accumulate(map(len, side), initial=0)) for side in keys]
            pairs = [(x, y) for x, y in pairs if before[0][x] == before[1][y]]
        a = b = i = j = 0
        for x, y in pairs + [(len(old), len(new))]:
            p, q = a + sum(map(len, old[i:x])), b + sum(map(len, new[j:y]))
            if x > i and y > j:
                self.changed_lines(a, old[i:x], b, new[j:y])
            if x < len(old):
                self.same_but_spaces(p, old[x], q, new[y])
                a, b, i, j = p + len(old[x]), q + len(new[y]), x + 1, y + 1
        self.stays(len(self.old), len(self.new), 0)


def compared(old: str, new: str) -> Tuple[List[Replacement], bool]:
    """The replacements, from the first to the last, whose places are those of the old text; and whether some parts were compared by cheaper means."""
    found = _Comparison(old, new)
    found.compare()
    return found.found, found.work.cut


def replacements(old: str, new: str) -> List[Replacement]:
    return compared(old, new)[0]
