"""A stored file without the operations that wait for others (docs/FORMATS.md, "Forms 2 to 4"). They are no part of the text, but a program that
reads the file holds each of them in memory. `rls restart` asks for it: python3 -m rls.waiting FILE BEFORE BYTES writes the file that begins after
BEFORE bytes of FILE and has BYTES, and ends with status 1 where that isn't one of these forms. What is skipped here isn't tested: that is for the
program, which reads what is written."""
import mmap
import struct
import sys
from typing import BinaryIO

NUMBER = struct.Struct(">I")
AT, LOW, HIGH = 1, 0, 2
AT_SIZE = 17                    # bytes of a tuple `At`; the others have one


class Fields:
    """The fields of a file, skipped one after another. What isn't there is a ValueError or a struct.error."""

    def __init__(self, data: mmap.mmap, begin: int, end: int) -> None:
        self.data, self.at, self.end = data, begin, end

    def skip(self, size: int) -> None:
        if size > self.end - self.at:
            raise ValueError("cut off")
        self.at += size

    def number(self) -> int:
        self.skip(4)
        return int(NUMBER.unpack_from(self.data, self.at - 4)[0])

    def kind(self, most: int) -> int:
        self.skip(1)
        kind = self.data[self.at - 1]
        if kind > most:
            raise ValueError("no kind")
        return kind

    def tuples(self) -> None:
        left = self.number()
        while left:
            # Most identifiers have nothing but `At`, and long ones many of one kind in a row.
            some = min(left, 4096)
            if self.data[self.at:self.at + AT_SIZE * some:AT_SIZE] == bytes([AT]) * some:
                self.skip(AT_SIZE * some)
            elif self.data[self.at:self.at + some].strip(bytes([LOW, HIGH])) == b"" and some > 1:
                self.skip(some)
            else:
                some = 1
                if self.kind(HIGH) == AT:
                    self.skip(AT_SIZE - 1)
            left -= some

    def runs(self) -> None:
        for _ in range(self.number()):
            self.tuples()
            self.number()

    def epoch_name(self) -> None:
        if self.kind(1):
            self.skip(8)

    def operations(self, members: int) -> None:
        for _ in range(self.number()):
            self.skip(8 + 4 * members)
            self.epoch_name()
            kind = self.kind(3)
            if kind == 0:
                self.tuples()
                self.skip(self.number())
            elif kind < 3:
                self.runs()


def begin_of_waiting(data: mmap.mmap, begin: int, end: int) -> int:
    """Where the number of the operations that wait stands."""
    fields = Fields(data, begin, end)
    fields.skip(21)
    form, members = data[begin + 4], NUMBER.unpack_from(data, begin + 13)[0]
    if data[begin:begin + 4] != b"RLSF" or not 2 <= form <= 4 or not 1 <= members <= 64:
        raise ValueError("another form")
    fields.skip(4 * members * members)
    if form == 4:
        fields.skip(4 * fields.number())
    for _ in range(members):
        fields.skip((8 if form == 2 else 12) * fields.number())
    epochs = fields.number()
    for k in range(epochs):
        fields.epoch_name()
        if k:
            fields.number()
            fields.runs()
    for _ in range(fields.number()):
        fields.tuples()
        fields.number()
        fields.skip(fields.number())
    fields.operations(members)
    return fields.at


def write_without(path: str, before: int, size: int, out: BinaryIO) -> None:
    with open(path, "rb") as file, mmap.mmap(file.fileno(), 0, access=mmap.ACCESS_READ) as data:
        if before + size > len(data):
            raise ValueError("cut off")
        end = begin_of_waiting(data, before, before + size)
        for at in range(before, end, 1 << 20):
            out.write(data[at:min(end, at + (1 << 20))])
        out.write(NUMBER.pack(0))


def main() -> int:
    try:
        write_without(sys.argv[1], int(sys.argv[2]), int(sys.argv[3]), sys.stdout.buffer)
        sys.stdout.flush()
    except (ValueError, struct.error, OSError):
        return 1
    return 0


if __name__ == "__main__":
    sys.exit(main())
