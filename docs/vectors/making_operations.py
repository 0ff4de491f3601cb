"""The inputs of vectors of the protocol: identifiers, renames, messages and refusals."""
import random

from making import ident, M32, message, MID, S, sole


def identifiers(v):
    v.note("member 0 goes on after and before its own text, and makes identifiers between two")
    v.group(2)
    v.edit(0, "i 0 hello")
    hello = v.folders.kept("0")
    v.show(0)
    for lines in (["i 5 !"], ["i 0 AB"], ["i 2 XY"], ["d 4 1", "i 4 X"], ["i 0 A", "d 0 1", "i 0 B"], ["i 2 XY", "i 4 Z", "i 2 W", "i 3 V"],
                  ["d 1 3", "i 1 abc", "d 0 5"]):
        v.step(0, "edit", "".join(x + "\n" for x in lines).encode(), put=hello)
        v.step(0, "ids")
    v.note("member 1 has the same text")
    v.step(0, "text", put=hello)
    v.give(0, 1)
    one = v.folders.kept("1")
    for line in ("i 5 !", "i 0 A", "i 2 x", "d 1 3"):
        v.step(1, "edit", line.encode(), put=one)
        v.step(1, "ids")
    v.note("forged files in which member 1 wrote all: each rule of between")
    b = ident((MID, 1, 1, 1))
    cases = [
        [b, b + ident((5, 1, 9, 0))], [b, b + ident((1, 1, 9, 0))], [b, b + ident((2, 1, 9, 0))], [b, b + ident((0, 1, 9, 0))],
        [b, b + ident("low", (MID, 1, 9, 0))], [b, b + ident("low", "low", (0, 1, 9, 0))], [b + ident("low", (3, 1, 9, 0)), b + ident((0, 1, 8, 0), (1, 1, 1, 0))],
        [b + ident("low", (3, 1, 9, 0)), b + ident("high", (3, 1, 9, 0))], [b + ident("high", (3, 1, 9, 0)), ident((MID, 1, 1, 2))],
        [ident((2**32 - 1, 1, 9, 0))], [ident((0, 1, 9, 0))], [ident("low", (7, 1, 9, 0))], [ident("high", (7, 1, 9, 0))],
        [ident((5, 1, 9, 0)), ident((6, 1, 1, 0))], [ident((5, 1, 9, 0)), ident((7, 1, 1, 0))], [ident((5, 1, 9, 0)), ident((5, 1, 9, 2))],
        [ident((5, 1, 9, 0), (5, 1, 9, 0)), ident((5, 1, 9, 1), (0, 1, 9, 0))], [ident("high", "high", (7, 1, 9, 0))],
    ]
    for ids in cases:
        file = sole([(x, "ab"[i]) for i, x in enumerate(ids)], [9, 9], {(1, 1): [0, 5], (1, 8): [0, 3], (1, 9): [0, 3]})
        for pos in range(len(ids) + 1):
            v.step(0, "edit", f"i {pos} xy".encode(), put=file)
            v.step(0, "ids")
    v.note("forged files in which member 0 goes on after and before own text, or can't")
    for ids, stems in (
        ([ident((5, 0, 9, 2**30 - 2))], {(0, 9): [0, 2**30 - 1]}), ([ident((5, 0, 9, 2**30 - 3))], {(0, 9): [0, 2**30 - 2]}),
        ([ident((5, 0, 9, -2**30 + 1))], {(0, 9): [-2**30 + 1, 1]}), ([ident((5, 0, 9, -2**30 + 2))], {(0, 9): [-2**30 + 2, 1]}),
        ([ident((5, 0, 9, 0)), ident((5, 0, 9, 1), (5, 0, 8, 0))], {(0, 8): [0, 1], (0, 9): [0, 1]}),
        ([ident((5, 0, 9, 0)), ident((5, 0, 9, 2), (5, 0, 8, 0))], {(0, 8): [0, 1], (0, 9): [0, 1]}),
        ([ident((5, 0, 9, -1), (5, 0, 8, 0)), ident((5, 0, 9, 0))], {(0, 8): [1 - 1, 2], (0, 9): [0, 1]}),
        ([ident((5, 0, 9, -3), (5, 0, 8, 0)), ident((5, 0, 9, 0))], {(0, 8): [0, 2], (0, 9): [0, 1]}),
        ([ident((5, 0, 9, 0)), ident((5, 0, 9, 2))], {(0, 9): [0, 3]}), ([ident((5, 0, 9, 0)), ident((6, 0, 9, 1))], {(0, 9): [0, 2]}),
    ):
        file = sole([(x, "ab"[i]) for i, x in enumerate(ids)], [9, 9], stems)
        for pos in range(len(ids) + 1):
            v.step(0, "edit", f"i {pos} xy".encode(), put=file)
            v.step(0, "ids")
    v.edit(0, "i 0 a", "i 2 b", "i 1 c", "r", "i 0 d")
    v.show(0)


def renames(v):
    v.note("a rename; then its author goes on after and before the text")
    v.group(2)
    v.edit(0, "i 0 hello", "i 2 XY", "r", "i 7 !", "i 0 AB")
    v.show(0)
    v.note("a rename and an insertion at once")
    v = v
    for m in (2, 3):
        v.step(m, f"new 8 {m - 2} 2")
    v.edit(2, "i 0 hello")
    v.step(3, "take", v.step(2, "send 1"))
    v.edit(2, "r")
    v.edit(3, "i 2 x")
    a, b = v.step(2, "send 1"), v.step(3, "send 0")
    v.step(3, "take", a)
    v.step(2, "take", b)
    v.show(2, 3)
    v.note("two renames at once, and an insertion in each epoch")
    for m in (4, 5):
        v.step(m, f"new 9 {m - 4} 2")
    v.edit(4, "i 0 hello")
    v.step(5, "take", v.step(4, "send 1"))
    v.edit(4, "r", "i 2 A", "i 0 P", "i 7 Q")
    v.edit(5, "r", "i 2 B", "d 0 1", "i 5 R")
    a, b = v.step(4, "send 1"), v.step(5, "send 0")
    v.step(5, "take", a)
    v.step(4, "take", b)
    v.show(4, 5)
    v.edit(4, "r", "i 3 C")
    v.edit(5, "i 3 D", "r", "d 1 2")
    a, b = v.step(4, "send 1"), v.step(5, "send 0")
    v.step(5, "take", a)
    v.step(4, "take", b)
    v.show(4, 5)
    for x in (4, 5, 4, 5):
        v.step(9 - x, "take", v.step(x, f"send {5 - x}"))
    v.show(4, 5)


def maps(v):
    """Forged renames of any identifiers, and insertions at any place, so that each way through the two maps is gone."""
    O, I = S.ORIGIN, S.INSERT
    fresh = S.enc_file(S.Replica(7, 0, 3))
    for seed in (4, 5, 6):
        rnd = random.Random(seed)
        tuples = ["low", "high", (MID, 0, 1, 1), (MID, 0, 1, 0), (MID, 0, 1, 2), (5, 0, 9, 0), (0, 2, 2, -1)]
        numbers = [t for t in tuples if t not in ("low", "high")]

        def some():
            base = [rnd.choice(tuples[:4])] if rnd.random() < 0.7 else []
            return tuple(base + [rnd.choice(tuples) for _ in range(rnd.randint(0, 3))])

        def former():
            ids = {ident(*some(), rnd.choice(numbers)) for _ in range(rnd.randint(1, 4))}
            one = min(ids)
            if rnd.random() < 0.6:
                ids |= {one + ident("low") + one, one + ident("low") + one + ident("low", numbers[0])}
            return sorted(ids)

        def inserted(author, first, context, epoch, olds, news):
            """Nine insertions, each before, behind or within a gap, and on the edge of what the maps put before it."""
            starts = [(), (S.LOW,), (S.HIGH,)]
            for x in olds:
                p, q = x + (S.LOW,), S.pred(x) + (S.HIGH,)
                starts += [x, p, p + p, q, q + q, p + q, q + p]
            if news:
                heads = [(S.at(next(t[1] for t in olds[0] if t[0] == 1), *news, i),) for i in range(-1, len(olds) + 1)]
                starts = [(), (S.HIGH,)] + [h + x for h in heads for x in rnd.sample(starts, 4) + [(), h]]
            ops = []
            for seq, start in enumerate(rnd.sample(starts, 9), first):
                mark = (rnd.choice((0, 5, MID, M32)), author, seq, 0)
                ops.append(S.Op(author, seq, tuple(seq - 1 if a == author else c for a, c in enumerate(context)), epoch, I, start + ident(mark), f"{seq % 10}"))
            return ops
        old = former()
        pre = [S.Op(1, 1, (0, 0, 0), O, S.RENAME, runs=S.runs_of(old))]
        v.note(f"a rename 1.1; insertions of member 2 that it didn't know; its own ones after it; and a greater rename 2.10 (seed {seed})")
        v.step(0, "take", message(1, [0, 1, 0], *pre), put=fresh)
        by2 = inserted(2, 1, (0, 0, 0), O, old, None)
        v.step(0, "take", message(2, [0, 0, 9], *by2))
        by1 = inserted(1, 2, (0, 1, 0), (1, 1), old, (1, 1))
        v.step(0, "take", message(1, [0, 10, 0], *by1))
        v.step(0, "ids")
        v.step(0, "take", message(2, [0, 0, 10], S.Op(2, 10, (0, 0, 9), O, S.RENAME, runs=S.runs_of(former()))))
        v.step(0, "ids")


def messages(v):
    v.note("messages that are lost, come twice, and come in another order")
    v.group(3)
    v.step(0, "send 1")
    v.edit(0, "i 0 hello")
    first = v.step(0, "send 1")
    v.give(0, 2)
    v.edit(0, "i 5 !")
    second = v.step(0, "send 1")
    v.give(2, 0)
    third = v.step(0, "send 2")
    v.step(1, "take", third)
    v.step(1, "stat")
    v.step(1, "take", third)
    v.step(1, "take", first)
    v.step(1, "take", second)
    v.step(1, "text")
    v.step(1, "send 1")
    v.step(1, "send 3")
    v.step(1, "take", first[:4] + b"\1" + first[5:])
    v.step(1, "take", first[:4] + b"\2" + first[5:])
    v.note("all delete the same character; then everybody acknowledges")
    v.give(1, 0, 2)
    for m in range(3):
        v.edit(m, "d 0 1")
    for a in range(3):
        v.give(a, *(b for b in range(3) if b != a))
    v.show(0, 1, 2)
    for a in range(3):
        v.give(a, *(b for b in range(3) if b != a))
    v.show(0)
    v.note("a rename stays until all have acknowledged it, or have left")
    v.edit(0, "i 2 XY", "r")
    v.step(0, "stat")
    v.give(0, 1)
    v.give(1, 0)
    v.step(0, "stat")
    v.step(2, "leave")
    v.step(2, "leave")
    v.edit(2, "i 0 x")
    v.give(2, 0, 1)
    v.step(0, "stat")
    v.give(1, 0)
    v.show(0)
    v.give(0, 2)
    v.show(2)
    v.step(0, "take", message(2, [0, 0, 1], S.Op(2, 2, (0, 0, 1), S.ORIGIN, S.INSERT, ident((9, 2, 2, 0)), "x")))
    one = lambda author, seq, *context: S.Op(author, seq, context, S.ORIGIN, S.INSERT, ident((9 + author, author, seq, 0)), "x")
    fresh = S.enc_file(S.Replica(7, 0, 4))
    v.note("two wait for the same; the lesser author comes first")
    v.step(0, "take", message(1, [0, 1, 0, 1], one(2, 1, 0, 0, 0, 1), one(1, 2, 0, 1, 0, 1), one(1, 1, 0, 0, 0, 1)), put=fresh)
    v.step(0, "take", message(3, [0, 0, 0, 1], one(3, 1, 0, 0, 0, 0)))
    v.step(0, "stat")
    v.note("one that waits is released before the next operation of the message is looked at, and before the acknowledgement is noted")
    v.step(0, "take", message(1, [0, 0, 0, 0], one(1, 2, 0, 1, 0, 0)), put=fresh)
    v.step(0, "take", message(1, [0, 2, 0, 0], one(1, 1, 0, 0, 0, 0), one(1, 2, 0, 1, 0, 0)))
    v.edit(0, "i 0 a")
    v.step(0, "take", message(1, [0, 2, 0, 0], one(1, 4, 0, 3, 0, 0)))
    v.step(0, "take", message(1, [1, 3, 0, 0], one(1, 3, 0, 2, 0, 0)))
    v.note("acknowledgements: neither of two is at most the other; one that says too much; the own one; an old one")
    for sender, *vector in ((1, 0, 4, 0, 0), (1, 1, 3, 0, 0), (1, 1, 5, 0, 0), (0, 1, 4, 0, 0), (1, 0, 4, 0, 0), (3, 1, 9, 9, 0)):
        v.step(0, "take", message(sender, vector))


def refused(v):
    op = S.Op
    one = ident((9, 1, 1, 0))
    v.note("member 0 of 2 has hello; what a forged message of member 1 is answered")
    v.group(2)
    v.edit(0, "i 0 hello")
    hello = v.folders.kept("0")

    def takes(*messages_):
        v.step(0, "take", messages_[0], put=hello)
        for m in messages_[1:]:
            v.step(0, "take", m)

    def one_op(*fields, vector=(0, 0), **more):
        return message(1, list(vector), op(*fields, **more))
    O, I, D, N, L = S.ORIGIN, S.INSERT, S.DELETE, S.RENAME, S.LEAVE
    takes(one_op(2, 1, (0, 0), O, I, one, "x"))
    takes(one_op(1, 0, (0, 0), O, I, one, "x"))
    takes(one_op(1, 1, (0, 1), O, I, one, "x"))
    takes(one_op(1, 3, (0, 1), O, I, one, "x"))
    takes(one_op(1, 1, (0, 0), O, I, one, ""))
    takes(one_op(1, 1, (0, 0), O, D))
    takes(one_op(1, 1, (0, 0), O, N))
    takes(one_op(1, 1, (0, 0), O, D, runs=[(one, 4194305)]))
    takes(one_op(1, 1, (0, 0), O, N, runs=[(one, 4194304), (ident((10, 1, 1, 0)), 1)]))
    takes(one_op(1, 1, (0, 0), O, I, ident((9, 1, 1, 2**30 - 1)), "xy"))
    takes(one_op(0, 1, (0, 0), O, I, ident((9, 0, 1, 0)), "other"))
    takes(one_op(0, 2, (1, 0), O, I, ident((9, 0, 2, 0)), "x"))
    v.note("it waits; a different one under its number; the same once more; then what it waits for")
    wait = one_op(1, 2, (1, 1), O, I, ident((9, 1, 2, 0)), "x")
    takes(wait, one_op(1, 2, (1, 1), O, I, ident((9, 1, 2, 0)), "y"), wait, one_op(1, 1, (1, 0), O, I, one, "ab"))
    v.show(0)
    v.note("one that waited is refused when its turn comes")
    takes(one_op(1, 2, (1, 1), O, I, ident((9, 1, 2, 1)), "x"), one_op(1, 1, (1, 0), O, I, one, "ab"))
    v.note("older than what its author has said it knows")
    takes(message(1, [1, 0]), one_op(1, 1, (0, 0), O, I, one, "x"))
    v.step(0, "edit", b"i 2 X", put=hello)
    v.step(0, "take", message(1, [1, 0]))
    v.step(0, "take", one_op(1, 1, (0, 0), O, I, one, "x"))
    v.note("the epoch")
    takes(one_op(1, 1, (0, 0), (0, 1), I, one, "x"))
    takes(one_op(1, 1, (0, 0), O, N, runs=[(one, 3)]), one_op(1, 2, (1, 1), O, I, ident((9, 1, 2, 0)), "x"),
          one_op(1, 2, (1, 1), (1, 1), I, ident((9, 1, 2, 0)), "x"))
    v.show(0)
    v.note("the stem")
    for first in (ident((9, 1, 1, 3)), ident((9, 0, 1, 5)), ident((9, 0, 1, 0)), ident((9, 1, 5, 0)), ident((MID, 0, 1, 4), (9, 1, 1, 0)),
                  ident("high", (9, 1, 1, 0))):
        takes(one_op(1, 1, (0, 0), O, I, first, "x"))
    ab = one_op(1, 1, (1, 0), O, I, one, "ab")
    for k, text in ((2, "c"), (-1, "c"), (-2, "cd"), (0, "c"), (1, "c"), (3, "c"), (-1, "cd"), (-3, "cd")):
        takes(ab, one_op(1, 2, (1, 1), O, I, ident((9, 1, 1, k)), text))
    takes(ab, one_op(1, 2, (1, 1), O, I, ident((5, 1, 1, 2)), "c"))
    takes(ab, one_op(1, 2, (1, 1), O, I, ident((5, 1, 3, 2)), "c"))
    v.show(0)
    v.note("targets")
    takes(one_op(1, 1, (0, 0), O, D, runs=[(ident((5, 1, 1, 0)), 1)]))
    takes(one_op(1, 1, (1, 0), O, D, runs=[(ident((MID, 0, 1, 3)), 3)]))
    takes(one_op(1, 1, (1, 0), O, D, runs=[(ident((MID, 0, 1, 3)), 1), (ident((MID, 0, 1, 3), "low", "high", (0, 7, 1, -5)), 1)]))
    takes(one_op(1, 1, (1, 0), O, D, runs=[(ident((MID, 0, 1, 3)), 2)]), one_op(1, 2, (1, 1), O, D, runs=[(ident((MID, 0, 1, 2)), 3)]))
    v.show(0)
    v.note("a target is told as the deletion names it, also after a rename")
    v.step(0, "edit", b"r", put=hello)
    v.step(0, "take", one_op(1, 1, (1, 0), O, D, runs=[(ident((MID, 0, 1, 3)), 3)]))
    v.step(0, "take", one_op(1, 1, (1, 0), O, D, runs=[(ident((MID, 0, 1, 1)), 1), (ident((MID, 0, 1, 1), "high", (5, 7, 1, 0)), 1)]))
    v.step(0, "take", one_op(1, 1, (1, 0), O, D, runs=[(ident((MID, 0, 1, 1)), 2)]))
    v.show(0)
    v.note("after a leave")
    takes(one_op(1, 1, (0, 0), O, L), one_op(1, 2, (0, 1), O, I, ident((9, 1, 2, 0)), "x"), one_op(1, 1, (0, 0), O, I, one, "x"))
    v.note("several in one message; another group")
    takes(message(1, [1, 3], op(1, 1, (0, 0), O, I, one, "x"), op(0, 9, (8, 0), O, I, one, "x"), op(1, 3, (0, 2), O, I, ident((9, 1, 1, 9)), "x"),
                  op(1, 2, (0, 1), O, I, ident((9, 1, 1, 1)), "y"), op(1, 1, (0, 0), O, I, one, "z")))
    takes(message(1, [1, 0], group=8))
    takes(message(1, [1, 0, 0]))
