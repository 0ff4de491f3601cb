"""Identifiers of characters, and renames, of the second implementation: sections 2 to 6 of docs/PROTOCOL.md. Identifiers are tuples of tuples, which Python
compares as section 2 asks."""
import bisect

M32, M64 = 2**32 - 1, 2**64 - 1
TOP = 2**30                         # one past the greatest offset, and less the least last one
MOST_MESSAGE, MOST_FILE, MOST_OP = 67108864, 268435456, 16777216
MOST_CHARS, MOST_IDS = 1048576, 4194304

# ---------------------------------------------------------------- identifiers: tuples of tuples, which Python compares as section 2 asks

LOW, HIGH = (0,), (2,)


def at(pos, replica, seq, offset):
    return (1, pos, replica, seq, offset)


def with_offset(x, k):
    return x[:-1] + (x[-1][:4] + (k,),)


def last(x):
    """replica, seq and offset of the last tuple"""
    return x[-1][2], x[-1][3], x[-1][4]


def runs_of(ids):
    """The maximal runs of an increasing list."""
    out = []
    for x in ids:
        if out and with_offset(out[-1][0], out[-1][0][-1][4] + out[-1][1]) == x:
            out[-1][1] += 1
        else:
            out.append([x, 1])
    return [tuple(r) for r in out]


def ids_of(runs):
    return [with_offset(f, f[-1][4] + i) for f, n in runs for i in range(n)]


def total(runs):
    return sum(n for _, n in runs)


def between(lo, hi, n, s):
    out, i = [], 0
    while True:
        a = lo[i] if lo is not None and i < len(lo) else None
        b = hi[i] if hi is not None and i < len(hi) else None
        lower = a[1] if a and a[0] == 1 else M32 if a == HIGH else 0
        upper = b[1] if b and b[0] == 1 else 0 if b == LOW else M32
        if upper >= lower + 2:
            return tuple(out) + (at((lower + upper) // 2, n, s, 0),)
        if a is not None:
            out.append(a)
            if a != b:
                hi = None
        elif i + 1 < len(hi):
            out.append(b)
        else:
            out.append(b[:4] + (b[4] - 1,))
            hi = None
        i += 1


# ---------------------------------------------------------------- renames

def under(y, p):
    for i, t in enumerate(y):
        if t != p[i % len(p)]:
            return t < p[i % len(p)]
    return True


def low(p, y):
    return p + y if under(y, p) else y


def unlow(p, z):
    return z[len(p):] if z[:len(p)] == p and under(z[len(p):], p) else z


def high(p, y):
    return y if under(y, p) else p + y


def unhigh(p, z):
    rest = z[len(p):]
    return rest if z[:len(p)] == p and rest and not under(rest, p) else z


def pred(b):
    return with_offset(b, b[-1][4] - 1)


class Rename:
    def __init__(self, runs, r, s):
        self.runs, self.ids = runs, ids_of(runs)
        self.r, self.s = r, s
        self.pos = next(t[1] for t in self.ids[0] if t[0] == 1)

    def new(self, i):
        return (at(self.pos, self.r, self.s, i),)

    def maps(self, i):
        """p of the outer map, and the inner p or None, of the gap between a_i and the next one"""
        p = self.ids[i] + (LOW,)
        if i + 1 == len(self.ids):
            return p, None
        return p, pred(unlow(p, self.ids[i + 1])) + (HIGH,)

    def forth(self, x):
        a = self.ids
        i = bisect.bisect_right(a, x) - 1
        if i < 0:
            return high(self.new(-1), unhigh(pred(a[0]) + (HIGH,), x))
        if a[i] == x:
            return self.new(i)
        p, q = self.maps(i)
        y = unlow(p, x)
        return low(self.new(i), y) if q is None else self.new(i) + unhigh(q, y)

    def back(self, z):
        a, n = self.ids, len(self.ids)
        if z < self.new(0):
            return high(pred(a[0]) + (HIGH,), unhigh(self.new(-1), z))
        i = min(z[0][4], n - 1) if z[0][:4] == self.new(0)[0][:4] else n - 1
        if z == self.new(i):
            return a[i]
        p, q = self.maps(i)
        return low(p, unlow(self.new(i), z)) if q is None else low(p, high(q, z[1:]))
