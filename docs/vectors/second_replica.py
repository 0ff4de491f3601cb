"""Replicas of the second implementation, from docs/PROTOCOL.md."""
import bisect
import struct

from second_identifiers import HIGH, LOW, M32, MOST_CHARS, MOST_IDS, MOST_MESSAGE, MOST_OP, Rename, TOP, between, ids_of, last, runs_of, total, with_offset
from second_operations import DELETE, INSERT, LEAVE, ORIGIN, Op, RENAME, Refused, at_most, enc_op, enc_vector

class Replica:
    def __init__(self, group, me, members):
        self.group, self.me, self.members = group, me, members
        self.vector = [0] * members
        self.rows = {a: [0] * members for a in range(members) if a != me}
        self.left, self.stems = set(), {}
        self.parent, self.renames, self.paths = {ORIGIN: None}, {}, {ORIGIN: ()}
        self.ids, self.chars = [], []
        self.log, self.waits = [], {}

    # epochs

    def add_epoch(self, name, parent, rename):
        self.parent[name], self.renames[name] = parent, rename
        self.paths[name] = self.paths[parent] + (name,)

    def epochs(self):
        return sorted(self.paths, key=self.paths.get)

    def greatest(self, within=None):
        names = self.epochs()
        ok = [e for e in names if within is None or e == ORIGIN or e[1] <= within[e[0]]]
        return ok[-1] if ok else names[0]

    def translate(self, e, f, ids):
        if e == f:
            return ids
        up, down = [], []
        while self.paths[f][:len(self.paths[e])] != self.paths[e]:
            up.append(e)
            e = self.parent[e]
        while f != e:
            down.append(f)
            f = self.parent[f]
        for name in up:
            ids = [self.renames[name].back(x) for x in ids]
        for name in reversed(down):
            ids = [self.renames[name].forth(x) for x in ids]
        return ids

    # stability

    def stable(self):
        return [min(c) for c in zip(self.vector, *(r for a, r in self.rows.items() if a not in self.left))]

    def unstable(self):
        s = self.stable()
        return [o for o in self.log if o.seq > s[o.author]]

    def retained(self):
        """in increasing order"""
        m = self.paths[self.greatest(self.stable())]
        wanted = {self.greatest()} | {e for e in self.paths if self.paths[e] >= m} | {o.epoch for o in self.unstable()}
        paths = [self.paths[e] for e in wanted]
        depth = 0
        while all(len(p) > depth and p[depth] == paths[0][depth] for p in paths):
            depth += 1
        keep = set()
        for e in wanted:
            while e is not None and len(self.paths[e]) >= depth:
                keep.add(e)
                e = self.parent[e]
        return [e for e in self.epochs() if e in keep]

    def drop(self):
        """what isn't needed"""
        self.log, keep = self.unstable(), self.retained()
        cut = self.paths[keep[0]]
        self.paths = {e: self.paths[e][len(cut):] for e in keep}
        self.parent = {e: None if e == keep[0] else self.parent[e] for e in keep}
        self.renames = {e: self.renames[e] for e in keep[1:]}

    # edits

    def made(self, edit):
        kind, n = edit[0], len(self.ids)
        if self.me in self.left:
            raise Refused("left")
        c = len(edit[2]) if kind == INSERT else edit[2] if kind == DELETE else n
        if kind in (INSERT, DELETE):
            if c == 0:
                raise Refused("empty edit")
            if edit[1] + (c if kind == DELETE else 0) > n:
                raise Refused(f"range {edit[1]} {n}")
        if kind == RENAME and n == 0:
            raise Refused("empty document")
        if kind != LEAVE and c > (MOST_CHARS if kind == INSERT else MOST_IDS):
            raise Refused(f"too many characters {c}")
        if self.vector[self.me] == M32:
            raise Refused("numbers spent")
        o = Op(self.me, self.vector[self.me] + 1, self.vector, self.greatest(), kind)
        if kind == INSERT:
            o.text, o.first = edit[2], self.first_of(edit[1], c, o.seq)
        elif kind == DELETE:
            o.runs = runs_of(self.ids[edit[1]:edit[1] + c])
        elif kind == RENAME:
            o.runs = runs_of(self.ids)
        size = len(enc_op(o))
        if size > MOST_OP:
            raise Refused(f"operation too large {size}")
        return o

    def first_of(self, pos, c, seq):
        left = self.ids[pos - 1] if pos else None
        right = self.ids[pos] if pos < len(self.ids) else None
        if left is not None:
            r, s0, k = last(left)
            stem = self.stems.get((r, s0))
            if r == self.me and stem and k + 1 == stem[1] and k + c < TOP and (right is None or with_offset(left, k + c) < right):
                return with_offset(left, k + 1)
        if right is not None:
            r, s0, k = last(right)
            stem = self.stems.get((r, s0))
            if r == self.me and stem and k == stem[0] and k - c >= -TOP and (left is None or left < with_offset(right, k - c)):
                return with_offset(right, k - c)
        return between(left, right, self.me, seq)

    def edit(self, edit):
        o = self.made(edit)
        self.apply(o)
        return o

    # receiving

    def receive(self, o, replayed=False):
        """applied, repeated, held; or Refused"""
        shape = o.shape(self.members)
        if shape:
            raise Refused(shape)
        if o.seq <= self.vector[o.author]:
            return "repeated"
        if o.author == self.me and not replayed:
            raise Refused("own")
        other = self.waits.get((o.author, o.seq))
        if other and other.key() != o.key():
            raise Refused("forked")
        if not at_most(o.context, self.vector):
            self.waits[o.author, o.seq] = o
            return "held"
        self.fit(o)
        self.apply(o)
        return "applied"

    def fit(self, o):
        a = o.author
        if a in self.left:
            raise Refused(f"left {self.vector[a]}")
        row = self.vector if a == self.me else self.rows[a]
        if not at_most(row, o.context):
            raise Refused("backward " + " ".join(map(str, row)))
        due = self.greatest(o.context)
        if o.epoch != due:
            raise Refused("wrong epoch " + ("origin" if due == ORIGIN else f"{due[0]} {due[1]}"))
        if o.kind == INSERT:
            r, s0, k = last(o.first)
            stem = self.stems.get((r, s0)) if r == a else None
            new = r == a and s0 == o.seq
            if not (new and k == 0 or stem and k == stem[1] or stem and k + len(o.text) == stem[0]):
                raise Refused(f"wrong stem {0 if new else stem[1] if stem else 'none'}")
        if o.kind == DELETE:
            ids = ids_of(o.runs)
            known = None
            for x, y in zip(ids, self.translate(o.epoch, self.greatest(), ids)):
                if not self.has(y):
                    if known is None:
                        known = {z for d in self.unstable() if d.kind == DELETE
                                 for z in self.translate(d.epoch, self.greatest(), ids_of(d.runs))}
                    if y not in known:
                        raise Refused("unknown target " + show(x))

    def has(self, x):
        i = bisect.bisect_left(self.ids, x)
        return i < len(self.ids) and self.ids[i] == x

    def apply(self, o):
        self.waits.pop((o.author, o.seq), None)
        top = self.greatest()
        if o.kind == INSERT:
            r, s0, k = last(o.first)
            c = len(o.text)
            stem = self.stems.setdefault((r, s0), [0, 0])
            if k == stem[1]:
                stem[1] = k + c
            else:
                stem[0] = k
            for x, char in zip(self.translate(o.epoch, top, ids_of([(o.first, c)])), o.text):
                i = bisect.bisect_left(self.ids, x)
                self.ids.insert(i, x)
                self.chars.insert(i, char)
        elif o.kind == DELETE:
            for x in self.translate(o.epoch, top, ids_of(o.runs)):
                if self.has(x):
                    i = bisect.bisect_left(self.ids, x)
                    del self.ids[i], self.chars[i]
        elif o.kind == RENAME:
            self.stems[o.author, o.seq] = [0, total(o.runs)]
            self.add_epoch((o.author, o.seq), o.epoch, Rename(o.runs, o.author, o.seq))
            self.ids = self.translate(top, self.greatest(), self.ids)
        else:
            self.left.add(o.author)
        self.vector[o.author] += 1
        self.log.append(o)

    def release(self, refused):
        """how many were applied; refusals are added to the list"""
        released = 0
        while True:
            ready = [k for k in sorted(self.waits) if at_most(self.waits[k].context, self.vector)]
            if not ready:
                return released
            o = self.waits.pop(ready[0])
            try:
                self.fit(o)
                self.apply(o)
                released += 1
            except Refused as e:
                refused.append((o.author, o.seq, e.why))

    def acknowledge(self, a, v):
        if a == self.me or v[a] > self.vector[a] or at_most(v, self.rows[a]):
            return False
        self.rows[a] = [max(p) for p in zip(v, self.rows[a])]
        return True

    # messages

    def message(self, to, told=()):
        """For a member; with what it told, the counts of the head of its last message, as a session's `s TO COUNT ..` has it."""
        row = self.vector if to == self.me else self.rows[to]
        if told:
            row = [max(pair) for pair in zip(row, told)]
            row[to] = max(row[to], self.vector[to])
        out, size = [], 25 + 4 * self.members
        for o in self.unstable():
            if o.seq > row[o.author]:
                b = enc_op(o)
                size += len(b)
                if size > MOST_MESSAGE:
                    break
                out.append(b)
        return (b"RLSM\3" + struct.pack(">QII", self.group, self.members, self.me) + enc_vector(self.vector)
                + struct.pack(">I", len(out)) + b"".join(out))

    def take(self, message):
        group, members, sender, vector, ops = message
        if (group, members) != (self.group, self.members):
            raise Refused(f"other group {group} {members}")
        counts, released, refused = {"applied": 0, "repeated": 0, "held": 0}, 0, []
        for o in ops:
            try:
                counts[self.receive(o)] += 1
            except Refused as e:
                refused.append((o.author, o.seq, e.why))
            released += self.release(refused)
        self.acknowledge(sender, vector)
        return (f"applied {counts['applied']} released {released} repeated {counts['repeated']} held {counts['held']}"
                f" refused {len(refused)}\n", refused)


def show(x):
    return "/".join("low" if t == LOW else "high" if t == HIGH else ".".join(map(str, t[1:])) for t in x)
