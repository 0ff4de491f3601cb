"""Messages and files as the second implementation reads them, from docs/FORMATS.md."""
from second_identifiers import M64, MOST_IDS, MOST_OP, Rename, TOP, at, ids_of, last, total, with_offset
from second_operations import INSERT, LEAVE, ORIGIN, Op, Refused, at_most
from second_replica import Replica

# ---------------------------------------------------------------- bytes: reading

class Fault(Exception):
    def __init__(self, place):
        super().__init__(place)
        self.place = place


class Reader:
    def __init__(self, data):
        self.data, self.at = data, 0

    def field(self, n):
        """n bytes, and their place in self.was"""
        self.was = self.at
        if self.at + n > len(self.data):
            raise Fault(self.was)
        self.at += n
        return self.data[self.was:self.at]

    def rule(self, holds, place=None):
        if not holds:
            raise Fault(self.was if place is None else place)

    def number(self, least=0, most=M64, n=4, signed=False):
        v = int.from_bytes(self.field(n), "big", signed=signed)
        self.rule(least <= v <= most)
        return v

    def vector(self, members):
        return [self.number() for _ in range(members)]

    def ident(self):
        n, out = self.number(1), []
        for i in range(n):
            end = i + 1 == n
            kind = self.number(1, 1, 1) if end else self.number(0, 2, 1)
            if kind == 1:
                out.append(at(self.number(), self.number(), self.number(), self.number(-TOP - (not end), TOP - 1, signed=True)))
            else:
                out.append((kind,))
        return tuple(out)

    def run(self):
        x = self.ident()
        return x, self.number(1, TOP - x[-1][4])

    def runs(self):
        out = []
        for _ in range(self.number()):
            place = self.at
            out.append(self.run())
            self.above(out, place)
        return out

    def above(self, runs, place):
        if len(runs) > 1:
            f, n = runs[-2][:2]
            end = with_offset(f, f[-1][4] + n - 1)
            self.rule(runs[-1][0] > end and runs[-1][0] != with_offset(end, end[-1][4] + 1), place)

    def epoch(self):
        return (self.number(), self.number()) if self.number(0, 1, 1) else ORIGIN

    def text(self):
        b = self.field(self.number())
        try:
            return b.decode()
        except UnicodeDecodeError:
            raise Fault(self.was) from None

    def op(self, members):
        place = self.at
        o = Op(self.number(), self.number(), self.vector(members), self.epoch(), self.number(0, 3, 1))
        if o.kind == INSERT:
            o.first, o.text = self.ident(), self.text()
        elif o.kind != LEAVE:
            o.runs = self.runs()
        self.rule(self.at - place <= MOST_OP, place)
        return o

    def head(self, magic, most):
        self.rule(self.field(4) == magic)
        form, group, members = self.number(1, most, 1), self.number(n=8), self.number(1, 64)
        return form, group, members, self.number(0, members - 1)

    def end(self):
        if self.at < len(self.data):
            raise Fault(self.at)


def dec_message(data):
    r = Reader(data)
    _, group, members, sender = r.head(b"RLSM", 3)
    vector = r.vector(members)
    ops = [r.op(members) for _ in range(r.number())]
    r.end()
    return group, members, sender, vector, ops


def may_wait(rep, o, before):
    return (o.shape(rep.members) is None and o.author != rep.me and o.seq > rep.vector[o.author]
            and (before is None or (o.author, o.seq) > before) and not at_most(o.context, rep.vector))


def dec_file(data):
    r = Reader(data)
    form, group, members, me = r.head(b"RLSF", 4)
    rep = Replica(group, me, members)
    return dec_journal(r, rep) if form == 1 else dec_snapshot(r, rep, form)


def dec_journal(r, rep):
    for _ in range(r.number()):
        kind, place = r.number(0, 1, 1), r.was
        if kind == 1:
            a = r.number(0, rep.members - 1)
            r.rule(rep.acknowledge(a, r.vector(rep.members)), place)
            continue
        place = r.at
        o = r.op(rep.members)
        try:
            r.rule(rep.receive(o, True) == "applied", place)
        except Refused:
            raise Fault(place) from None
    before = None
    waits = {}
    for _ in range(r.number()):
        place = r.at
        o = r.op(rep.members)
        r.rule(may_wait(rep, o, before), place)
        before = o.author, o.seq
        waits[before] = o
    r.end()
    rep.waits = waits
    rep.drop()
    return rep


def dec_snapshot(r, rep, form):
    members, me = rep.members, rep.me
    rep.vector = r.vector(members)
    places = []                     # of the entries of the part in hand
    rows, row_places = {}, {}
    for a in range(members):
        if a != me:
            row_places[a] = r.at
            rows[a] = r.vector(members)
    left = []
    if form == 4:
        for _ in range(r.number()):
            left.append(r.number(left[-1] + 1 if left else 0, members - 1))
    stems = []
    for a in range(members):
        for _ in range(r.number()):
            place = r.at
            s0 = r.number()
            low_ = r.number(-2**31, 2**31, signed=True) if form > 2 else 0
            stems.append((place, a, s0, low_, r.number()))
    epochs = []
    count = r.number(1)
    epochs_place = r.was
    for i in range(count):
        place = r.at
        epochs.append((place, r.epoch(), r.number() if i else None, r.runs() if i else []))
    runs = []
    for _ in range(r.number()):
        place = r.at
        runs.append(r.run() + (place,))
        r.above(runs, place)
        text_place = r.at
        t = r.text()
        r.rule(len(t) == runs[-1][1], text_place)
        rep.ids += ids_of([runs[-1][:2]])
        rep.chars += t
    log, waits = [], []
    log_count = r.number()
    log_place = r.was
    for _ in range(log_count):
        log.append((r.at, r.op(members)))
    for _ in range(r.number()):
        waits.append((r.at, r.op(members)))
    r.end()
    # the eight rules
    for a in rows:
        r.rule(rows[a][a] <= rep.vector[a], row_places[a])
    rep.rows, rep.left = rows, set(left)
    before = None
    for place, a, s0, low_, next_ in stems:
        ok = 1 <= s0 <= rep.vector[a] and (before is None or (a, s0) > before) and -TOP <= low_ <= 0 and 1 <= next_ <= TOP
        r.rule(ok, place)
        before = a, s0
        rep.stems[before] = [low_, next_]
    names = []
    rep.parent, rep.paths = {}, {}
    for i, (place, e, parent, former) in enumerate(epochs):
        ok = e not in names and (i == 0 if e == ORIGIN else e[0] < members and 1 <= e[1] <= rep.vector[e[0]])
        if ok and i:
            stem = rep.stems.get(e)
            ok = parent < i and 1 <= total(former) <= MOST_IDS and stem is not None and stem[1] >= total(former)
            ok = ok and rep.paths[names[parent]] + (e,) > rep.paths[names[-1]]
        r.rule(ok, place)
        if i:
            rep.add_epoch(e, names[parent], Rename(former, *e))
        else:
            rep.parent[e], rep.paths[e] = None, ()
        names.append(e)
    top, i = names[-1], 0
    for f, n, place in runs:
        for e in names:
            for x in rep.translate(top, e, rep.ids[i:i + n]):
                a, s0, k = last(x)
                stem = rep.stems.get((a, s0))
                r.rule(stem and stem[0] <= k < stem[1], place)
        i += n
    running = rep.stable()
    for place, o in log:
        ok = o.shape(members) is None and o.seq == running[o.author] + 1 and at_most(o.context, running) and o.epoch in names
        if ok and o.kind == LEAVE:
            ok = o.author in rep.left and o.seq == rep.vector[o.author]
        r.rule(ok, place)
        running[o.author] += 1
    r.rule(running == rep.vector, log_place)
    rep.log = [o for _, o in log]
    stable = rep.stable()
    r.rule(any(e == ORIGIN or e[1] <= stable[e[0]] for e in names) and rep.retained() == names, epochs_place)
    before = None
    for place, o in waits:
        r.rule(may_wait(rep, o, before), place)
        before = o.author, o.seq
        rep.waits[before] = o
    return rep
