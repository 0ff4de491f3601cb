"""Operations, messages and files, spelled byte by byte as docs/FORMATS.md says. Nothing here asks the program."""

MIDDLE = 0x7FFFFFFF
ORIGIN = b"\0"
LIMIT_INPUT = 67108864
LIMIT_FILE = 268435456
LIMIT_OPERATION = 16777216
LIMIT_INSERTION = 1048576
LIMIT_TARGETS = 4194304


def u32(n):
    return n.to_bytes(4, "big")


def u64(n):
    return n.to_bytes(8, "big")


def i32(n):
    return n.to_bytes(4, "big", signed=True)


def at(pos, replica, seq, offset):
    """A tuple."""
    return b"\1" + u32(pos) + u32(replica) + u32(seq) + i32(offset)


LOW = b"\0"


def ident(*tuples):
    return u32(len(tuples)) + b"".join(tuples)


def typed(author, seq, offset):
    """The identifier with this offset in the run that the author's operation `seq` began in an empty text."""
    return ident(at(MIDDLE, author, seq, offset))


def run(first, length):
    return first + u32(length)


def runs(*parts):
    return u32(len(parts)) + b"".join(parts)


def text(bytes_):
    return u32(len(bytes_)) + bytes_


def vector(counts):
    return b"".join(map(u32, counts))


def epoch(replica, seq):
    return b"\1" + u32(replica) + u32(seq)


def operation(author, seq, context, kind, body, name=ORIGIN):
    return u32(author) + u32(seq) + vector(context) + name + bytes([kind]) + body


def insertion(author, seq, context, first, bytes_, name=ORIGIN):
    return operation(author, seq, context, 0, first + text(bytes_), name)


def deletion(author, seq, context, targets, name=ORIGIN):
    """`targets` is runs, already spelled."""
    return operation(author, seq, context, 1, targets, name)


def message(group, members, sender, counts, operations=(), form=3):
    return b"RLSM" + bytes([form]) + u64(group) + u32(members) + u32(sender) + vector(counts) + u32(len(operations)) + b"".join(operations)


def head(form, group, members, me):
    return b"RLSF" + bytes([form]) + u64(group) + u32(members) + u32(me)


def file4(group, members, me, counts, rows, stems, text_runs, unstable=(), waiting=(), left=(), epochs=ORIGIN, epoch_count=1, count_of_runs=None):
    """A file of form 4. `stems` has a list of (s0, low, next) for each member; `text_runs` is a list of spelled run and text, or one byte
    string with `count_of_runs`."""
    parts = [head(4, group, members, me), vector(counts)]
    parts += [vector(row) for row in rows]
    parts += [u32(len(left))] + [u32(member) for member in left]
    for own in stems:
        parts.append(u32(len(own)))
        parts += [u32(s0) + i32(low) + u32(after) for s0, low, after in own]
    parts += [u32(epoch_count), epochs]
    parts.append(u32(len(text_runs) if count_of_runs is None else count_of_runs))
    parts += [text_runs] if isinstance(text_runs, bytes) else text_runs
    for operations in (unstable, waiting):
        parts.append(u32(len(operations)))
        parts += operations
    return b"".join(parts)


def hexed(words):
    return bytes.fromhex(words.replace(" ", "").replace("\n", ""))


# The worked bytes of docs/FORMATS.md: text number 7, two members.
EMPTY_MESSAGE = hexed("524c534d 03 0000000000000007 00000002 00000000 00000000 00000000 00000000")
HELLO_OPERATION = hexed("00000000 00000001 00000000 00000000 00 00 00000001 01 7fffffff 00000000 00000001 00000000 00000005 68656c6c6f")
HELLO_MESSAGE = hexed("524c534d 03 0000000000000007 00000002 00000000 00000001 00000000 00000001") + HELLO_OPERATION
FRESH = hexed("524c5346 04 0000000000000007 00000002 00000000 0000000000000000 0000000000000000 00000000 0000000000000000"
              "00000001 00 00000000 00000000 00000000")
FRESH_2 = hexed("524c5346 02 0000000000000007 00000002 00000000 0000000000000000 0000000000000000 0000000000000000"
                "00000001 00 00000000 00000000 00000000")
SPENT = hexed("524c5346 04 0000000000000007 00000001 00000000 ffffffff 00000000 00000000 00000001 00 00000000 00000000 00000000")
SPENT_2 = hexed("524c5346 02 0000000000000007 00000001 00000000 ffffffff 00000000 00000001 00 00000000 00000000 00000000")
HELLO = hexed("524c5346 04 0000000000000007 00000002 00000000 0000000100000000 0000000000000000 00000000"
              "00000001 00000001 00000000 00000005 00000000 00000001 00"
              "00000001 00000001 01 7fffffff 00000000 00000001 00000000 00000005 00000005 68656c6c6f"
              "00000001 00000000 00000001 0000000000000000 00 00 00000001 01 7fffffff 00000000 00000001 00000000 00000005 68656c6c6f"
              "00000000")
HELLO_3 = HELLO[:4] + b"\3" + HELLO[5:37] + HELLO[41:]
HELLO_2 = HELLO_3[:4] + b"\2" + HELLO_3[5:45] + HELLO_3[49:]
JOURNAL = hexed("524c5346 01 0000000000000007 00000001 00000000 00000001 00"
                "00000000 00000001 00000000 00 00 00000001 01 7fffffff 00000000 00000001 00000000 00000005 68656c6c6f"
                "00000000")
JOURNAL_2 = (JOURNAL[:21] + u32(2) + JOURNAL[25:70]
             + hexed("00 00000000 00000002 00000001 00 00 00000001 01 7fffffff 00000000 00000001 00000005 00000001 21") + JOURNAL[70:])

assert (len(EMPTY_MESSAGE), len(HELLO_MESSAGE), len(FRESH), len(FRESH_2), len(SPENT), len(SPENT_2)) == (33, 81, 66, 62, 50, 46)
assert (len(HELLO), len(HELLO_3), len(HELLO_2), len(JOURNAL), len(JOURNAL_2)) == (160, 156, 152, 74, 115)
assert file4(7, 2, 0, (1, 0), [(0, 0)], [[(1, 0, 5)], []], [run(typed(0, 1, 0), 5) + text(b"hello")], [HELLO_OPERATION]) == HELLO


def fresh(me, members=2, group=7):
    """The file after `new`."""
    none = [0] * members
    return file4(group, members, me, none, [none] * (members - 1), [[]] * members, [])


assert fresh(0) == FRESH
