"""The inputs of vectors of bytes: what is no message or file, files that break a rule, and files of older forms."""
import binascii

from making import ident, message, MID, S


def malformed(v):
    v.note("the message of 33 bytes and that of 81 bytes, cut and changed")
    v.group(2)
    empty = v.step(0, "send 1")
    v.edit(0, "i 0 hello")
    hello = v.step(0, "send 1")
    for data in (b"", empty[:3], empty[:4], empty[:12], empty[:16], empty[:20], empty[:27], empty[:32], empty + b"\0", b"RLSF" + empty[4:]):
        v.step(1, "take", data)
    for n in range(33, 81):
        v.step(1, "take", hello[:n])
    v.step(1, "take", hello + b"x")
    for place, byte in ((0, 0), (4, 0), (4, 4), (16, 0), (16, 65), (20, 2), (49, 2), (50, 4), (54, 0), (54, 2), (55, 0), (55, 2), (55, 3), (68, 0x40),
                        (68, 0x80), (68, 0xbf), (76, 0xff), (80, 0xc3), (75, 4), (75, 6), (32, 2), (32, 0)):
        v.step(1, "take", hello[:place] + bytes([byte]) + hello[place + 1:])
    v.note("runs: a length of 0, one past the last offset, runs that touch, that fall, that overlap, that are equal")
    M = lambda k: ident((MID, 0, 1, k))
    for runs in ([(M(0), 0)], [(M(5), 2**30 - 4)], [(M(0), 2), (M(2), 1)], [(M(3), 1), (M(0), 1)], [(M(0), 3), (M(2), 1)], [(M(0), 1), (M(0), 1)],
                 [(M(0), 1), (M(2), 1), (M(3), 1)]):
        v.step(1, "take", message(0, [1, 0], S.Op(0, 2, (1, 0), S.ORIGIN, S.DELETE, runs=runs)))
    v.note("the least offsets, of the last tuple and of one before it")
    for first in (ident((5, 0, 9, -2**30 - 1), (5, 0, 2, 0)), ident((5, 0, 9, -2**30 - 2), (5, 0, 2, 0)), ident((5, 0, 2, -2**30)), ident((5, 0, 2, -2**30 - 1)),
                  ident((5, 0, 2, 2**30)), ident((5, 0, 9, 2**30), (5, 0, 2, 0))):
        v.step(1, "take", message(0, [1, 0], S.Op(0, 2, (1, 0), S.ORIGIN, S.INSERT, first, "x")))
    v.step(1, "text")


def damaged(v):
    """Files of form 4 of a group of three with all that a file can have, and of older forms."""
    v.note("a file with rows, stems, two epochs, text runs, unstable and waiting operations")
    v.group(3)
    v.edit(0, "i 0 hello", "i 2 XY", "i 0 A")
    v.give(0, 1, 2)
    v.edit(1, "r", "i 3 b")
    v.edit(2, "d 0 1", "i 4 c", "i 5 d")
    v.give(1, 0)
    late = v.step(2, "send 0")
    _, _, _, vector, ops = S.dec_message(late)
    v.step(0, "take", message(2, vector, *ops[-1:]))
    v.edit(0, "r", "i 1 e")
    file = v.folders.kept("0")
    v.show(0)
    v.step(3, "stat", put=file)
    seen = {}
    for place in range(len(file)):
        for byte in sorted({file[place] ^ 1, file[place] + 1 & 255, 0, 255} - {file[place]}):
            forged = file[:place] + bytes([byte]) + file[place + 1:]
            answer = S.command(["stat"], forged, None)[2]
            seen[answer] = seen.get(answer, 0) + 1
            if seen[answer] <= (1 if answer else 6):
                v.step(3, "stat", put=forged)
    for n in range(0, len(file), 31):
        v.step(3, "stat", put=file[:n])
    v.step(3, "stat", put=file + b"\0")


def rules(v):
    """Each of the eight rules broken by itself. Files are spelled from parts that no replica has."""
    O, I, D, L = S.ORIGIN, S.INSERT, S.DELETE, S.LEAVE
    M = lambda k: ident((MID, 0, 1, k))
    made = [S.Op(0, 1, (0, 0), O, I, M(0), "hello"), S.Op(0, 2, (1, 0), O, S.RENAME, runs=[(M(0), 5)]), S.Op(1, 1, (1, 0), O, D, runs=[(M(1), 2)])]
    waits = S.Op(1, 3, (2, 2), (0, 2), I, ident((9, 1, 3, 0)), "w")

    def base():
        r = S.Replica(7, 0, 2)
        for o in made:
            r.apply(o)
        return r

    def put(change):
        r = base()
        change(r)
        v.step(0, "stat", put=S.enc_file(r))

    def fix(name, what):
        """The parts that are spelled, whatever they ought to be."""
        return lambda r: setattr(r, name, lambda: what)

    def wait(*ops):
        return lambda r: setattr(r, "waits", dict(enumerate(ops)))

    def stem(key, *numbers):
        return lambda r: r.stems.__setitem__(key, list(numbers))

    def row(*counts):
        return lambda r: r.rows.__setitem__(1, list(counts))

    v.note("nothing is wrong: hello, a rename and a deletion, none of it acknowledged; and all of it")
    put(lambda r: None)
    put(row(2, 1))
    v.note("rule 1: a row")
    put(row(0, 2))
    put(row(9, 1))
    v.note("rule 2: stems")
    for change in (stem((0, 0), 0, 1), stem((0, 3), 0, 1), stem((1, 2), 0, 1), stem((1, 1), 0, 1), stem((0, 1), 1, 5), stem((0, 1), -2**30, 5),
                   stem((0, 1), -2**30 - 1, 5), stem((0, 1), 0, 2**30), stem((0, 1), 0, 2**30 + 1), stem((0, 1), 0, 0)):
        put(change)
    v.note("rule 3: epochs")

    def epochs(*entries):
        """Each entry past the first is (name, parent, former runs)."""
        def change(r):
            names = [e[0] for e in entries]
            r.unstable = lambda: made
            r.retained = lambda: names
            r.parent = {e[0]: e[1] for e in entries}
            r.renames = {e[0]: S.Rename(e[2], *e[0]) for e in entries[1:] if e[2] and e[0]}
        return change
    five, o, r2 = [(M(0), 5)], (O, None, []), ((0, 2), O, [(M(0), 5)])
    for entries in ((o, ((0, 3), O, five)), (o, ((2, 1), O, five)), (o, ((0, 2), (0, 2), five)), (o, ((0, 2), O, [(M(0), 6)])), (((0, 2), None, []),),
                    (o, ((1, 1), O, five)), (o, ((0, 2), O, [(M(7), 5)])), (o, ((0, 1), O, five), r2), (o, r2, ((0, 1), O, five)), (o, r2, ((0, 1), (0, 2), five)),
                    (o, r2, ((0, 2), (0, 2), five)), (((0, 3), None, []),), (((0, 0), None, []),), (((2, 1), None, []),),
                    (((0, 1), None, []), r2[:1] + ((0, 1),) + r2[2:])):
        put(epochs(*entries))
    r = base()
    epochs(o, r2, ((0, 1), (0, 2), five))(r)
    third = S.enc_epoch((0, 1)) + S.u32(1)
    v.step(0, "stat", put=S.enc_file(r).replace(third, S.enc_epoch((0, 2)) + S.u32(1), 1))
    v.note("rule 4: text runs")
    put(stem((0, 2), 0, 5))
    put(stem((0, 1), 0, 4))
    put(lambda r: r.stems.pop((0, 1)))
    put(lambda r: (r.ids.append(ident((9, 1, 1, 0))), r.chars.append("x")))
    put(lambda r: (r.ids.append(ident((2**32 - 1, 5, 1, 0))), r.chars.append("x")))
    put(lambda r: (r.ids.insert(1, ident((MID, 0, 2, 0), (MID, 0, 1, 1))), r.chars.insert(1, "x")))
    put(lambda r: (r.ids.insert(0, ident((MID, 0, 2, -1))), r.chars.insert(0, "x")))
    v.note("a text run whose text is longer or shorter than the run")
    put(lambda r: r.chars.__setitem__(0, "xy"))
    put(lambda r: r.chars.__setitem__(0, ""))
    v.note("rules 5 and 6: unstable operations")
    ops = lambda *all_: lambda r: (fix("unstable", list(all_))(r), fix("retained", [O, (0, 2)])(r))
    a, b, c = made
    for all_ in ((a, b), (a, c), (b, c), (a, c, b), (c, a, b), (a, a, b, c), (a, b, c, c), (), (a, b, S.Op(1, 1, (3, 0), O, D, runs=[(M(1), 2)])),
                 (a, b, S.Op(1, 1, (1, 0), (1, 7), D, runs=[(M(1), 2)])), (a, b, S.Op(1, 1, (1, 0), O, D)), (a, b, S.Op(1, 1, (1, 0), O, L)),
                 (a, b, S.Op(2, 1, (1, 0), O, L)), (a, b, S.Op(1, 1, (1, 1), O, L))):
        put(ops(*all_))
    put(lambda r: (r.left.add(1), setattr(r, "unstable", lambda: [])))
    put(lambda r: (r.left.add(1), setattr(r, "unstable", lambda: []), setattr(r, "retained", lambda: [(0, 2)])))
    put(lambda r: (r.left.add(1), r.rows.__setitem__(1, [0, 0])))
    put(lambda r: (r.left.add(0), setattr(r, "unstable", lambda: [a, b, S.Op(1, 1, (1, 0), O, L)])))
    gone = [a, b, c, S.Op(0, 3, (2, 1), (0, 2), L), S.Op(0, 4, (3, 1), (0, 2), D, runs=[(ident((MID, 0, 2, 0)), 1)])]
    put(lambda r: (ops(*gone)(r), r.left.add(0), setattr(r, "vector", [4, 1])))
    put(lambda r: (ops(*gone[:4])(r), r.left.add(0), setattr(r, "vector", [3, 1])))
    v.note("rule 7: epochs that needn't stay, and one that has to")
    all_kept = fix("retained", [O, (0, 2)])
    put(lambda r: (row(2, 1)(r), all_kept(r)))
    put(lambda r: (row(1, 1)(r), all_kept(r)))
    put(lambda r: (row(2, 0)(r), fix("retained", [(0, 2)])(r)))
    put(lambda r: (row(2, 0)(r), all_kept(r)))
    put(lambda r: (row(1, 0)(r), fix("retained", [(0, 2)])(r), fix("unstable", [S.Op(0, 2, (1, 0), (0, 2), S.RENAME, runs=[(M(0), 5)]),
                                                                               S.Op(1, 1, (1, 0), (0, 2), D, runs=[(M(1), 2)])])(r)))
    v.note("rule 8: waiting operations")
    w = lambda author, seq, context, **more: S.Op(author, seq, context, O, I, ident((9, author, seq, 0)), more.get("text", "w"))
    for all_ in ((waits,), (waits, waits), (waits, w(1, 4, (9, 3))), (w(1, 4, (9, 3)), waits), (w(0, 9, (8, 9)),), (w(1, 1, (9, 0)),), (w(1, 2, (2, 1)),),
                 (w(1, 2, (3, 1)),), (w(1, 3, (2, 2), text=""),), (w(1, 3, (2, 1)),), (w(2, 3, (2, 2)),)):
        put(wait(*all_))


def forms(v):
    import binascii
    hexa = lambda s: binascii.unhexlify(s.replace(" ", "").replace("\n", ""))
    v.note("form 1: two journals, and two that are damaged; then each is stored in form 4")
    head = "524c5346 01 0000000000000007 00000001 00000000"
    first = "00 00000000 00000001 00000000 00 00 00000001 01 7fffffff 00000000 00000001 00000000 00000005 68656c6c6f"
    second = "00 00000000 00000002 00000001 00 00 00000001 01 7fffffff 00000000 00000001 {} 00000001 21"
    one = hexa(f"{head} 00000001 {first} 00000000")
    two = hexa(f"{head} 00000002 {first} {second.format('00000005')} 00000000")
    wrong = hexa(f"{head} 00000002 {first} {second.format('00000004')} 00000000")
    for file in (one, two, wrong, one[:60], one + b"\0", one[:25] + b"\2" + one[26:], b""):
        v.step(0, "text", put=file)
        v.step(0, "stat")
        v.step(0, "edit")
    v.note("form 1 with acknowledgements and waiting operations, of member 0 of 2")
    O, I = S.ORIGIN, S.INSERT
    made = [S.Op(0, 1, (0, 0), O, I, ident((MID, 0, 1, 0)), "hello"), S.Op(1, 1, (1, 0), O, S.DELETE, runs=[(ident((MID, 0, 1, 1)), 2)]),
            S.Op(0, 2, (1, 1), O, S.RENAME, runs=[(ident((MID, 0, 1, 0)), 1), (ident((MID, 0, 1, 3)), 2)])]
    waits = [S.Op(1, 3, (1, 2), O, I, ident((9, 1, 3, 0)), "w")]

    def journal(entries, waiting):
        spell = lambda e: b"\1" + S.u32(e[0]) + S.enc_vector(e[1]) if isinstance(e, tuple) else b"\0" + S.enc_op(e)
        return (b"RLSF\1" + S.struct.pack(">QII", 7, 2, 0) + S.u32(len(entries)) + b"".join(map(spell, entries)) + S.u32(len(waiting))
                + b"".join(map(S.enc_op, waiting)))
    for entries, waiting in (([*made[:2], (1, (1, 1)), made[2]], waits), ([*made[:2], (1, (1, 1)), (1, (1, 1))], []), ([made[0], (1, (1, 1))], []),
                             ([(0, (0, 0))], []), ([made[0], made[0]], []), ([made[1]], []), ([*made, (1, (2, 1))], waits),
                             (made, waits + waits), (made, made[1:2]), ([], [made[0]]), ([S.Op(0, 2, (1, 1), O, I, ident((9, 0, 2, 0)), "x")], [])):
        v.step(0, "stat", put=journal(entries, waiting))
        v.step(0, "edit")
    v.note("forms 2, 3 and 4 of one replica give one file of form 4")
    four = hexa("524c5346 04 0000000000000007 00000002 00000000 0000000100000000 0000000000000000 00000000 00000001 00000001 00000000 00000005 00000000"
                "00000001 00 00000001 00000001 01 7fffffff 00000000 00000001 00000000 00000005 00000005 68656c6c6f 00000001 00000000 00000001"
                "0000000000000000 00 00 00000001 01 7fffffff 00000000 00000001 00000000 00000005 68656c6c6f 00000000")
    three = four[:4] + b"\3" + four[5:37] + four[41:]
    two = three[:4] + b"\2" + three[5:45] + three[49:]
    for file in (four, three, two):
        v.step(0, "stat", put=file)
        v.step(0, "edit")
        v.step(0, "edit", b"i 0 A\n")
    v.note("numbers that are spent")
    for file in ("524c5346 04 0000000000000007 00000001 00000000 ffffffff 00000000 00000000 00000001 00 00000000 00000000 00000000",
                 "524c5346 02 0000000000000007 00000001 00000000 ffffffff 00000000 00000001 00 00000000 00000000 00000000"):
        v.step(0, "edit", b"i 0 a\n", put=hexa(file))
        v.step(0, "leave")
        v.step(0, "edit")
