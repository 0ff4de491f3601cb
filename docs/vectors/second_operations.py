"""Operations of the second implementation, and what is written byte by byte, from docs/FORMATS.md."""
import struct

from second_identifiers import MOST_CHARS, MOST_IDS, TOP, runs_of, total

# ---------------------------------------------------------------- operations

INSERT, DELETE, RENAME, LEAVE = range(4)
ORIGIN = ()


class Op:
    def __init__(self, author, seq, context, epoch, kind, first=None, text="", runs=()):
        self.author, self.seq, self.context, self.epoch, self.kind = author, seq, tuple(context), epoch, kind
        self.first, self.text, self.runs = first, text, list(runs)

    def key(self):
        return self.author, self.seq, self.context, self.epoch, self.kind, self.first, self.text, tuple(self.runs)

    def shape(self, members):
        if self.author >= members:
            return "author"
        if self.seq == 0 or self.context[self.author] != self.seq - 1:
            return "context"
        n = len(self.text) if self.kind == INSERT else total(self.runs)
        if self.kind != LEAVE and n == 0:
            return "empty"
        if n > (MOST_CHARS if self.kind == INSERT else MOST_IDS):
            return f"too long {n}"
        if self.kind == INSERT and self.first[-1][4] + n > TOP:
            return "offset end"
        return None


class Refused(Exception):
    def __init__(self, why):
        super().__init__(why)
        self.why = why


def at_most(v, w):
    return all(a <= b for a, b in zip(v, w))


# ---------------------------------------------------------------- bytes: writing

def u32(n):
    return struct.pack(">I", n)


def enc_vector(v):
    return b"".join(map(u32, v))


def enc_ident(x):
    return u32(len(x)) + b"".join(bytes([t[0]]) + (struct.pack(">IIIi", *t[1:]) if t[0] == 1 else b"") for t in x)


def enc_runs(runs):
    return u32(len(runs)) + b"".join(enc_ident(f) + u32(n) for f, n in runs)


def enc_epoch(e):
    return b"\0" if e == ORIGIN else b"\1" + struct.pack(">II", *e)


def enc_text(t):
    return u32(len(t.encode())) + t.encode()


def enc_op(o):
    body = enc_ident(o.first) + enc_text(o.text) if o.kind == INSERT else b"" if o.kind == LEAVE else enc_runs(o.runs)
    return u32(o.author) + u32(o.seq) + enc_vector(o.context) + enc_epoch(o.epoch) + bytes([o.kind]) + body


def enc_file(r):
    out = [b"RLSF\4" + struct.pack(">QII", r.group, r.members, r.me), enc_vector(r.vector)]
    out += [enc_vector(r.rows[a]) for a in sorted(r.rows)]
    out += [u32(len(r.left)), enc_vector(sorted(r.left))]
    for a in range(r.members):
        own = sorted(k for k in r.stems if k[0] == a)
        out.append(u32(len(own)))
        out += [struct.pack(">IiI", k[1], *r.stems[k]) for k in own]
    keep = r.retained()
    out += [u32(len(keep)), enc_epoch(keep[0])]
    for e in keep[1:]:
        out.append(enc_epoch(e) + u32(keep.index(r.parent[e])) + enc_runs(r.renames[e].runs))
    runs, i = runs_of(r.ids), 0
    out.append(u32(len(runs)))
    for f, n in runs:
        out.append(enc_ident(f) + u32(n) + enc_text("".join(r.chars[i:i + n])))
        i += n
    for ops in (r.unstable(), [r.waits[k] for k in sorted(r.waits)]):
        out.append(u32(len(ops)))
        out += map(enc_op, ops)
    return b"".join(out)
