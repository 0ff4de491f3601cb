"""What the files of a replica show without a program (docs/DURABILITY.md, docs/FORMATS.md): whether they changed, and the head."""
import os
import struct
from typing import Optional, Tuple

from .reports import Head

SLOTS = "replica.0", "replica.1"
OLD = "replica.rls"
GATE = "replica.gate"
State = Tuple[object, ...]


def _gate(folder: str) -> bytes:
    try:
        with open(os.path.join(folder, GATE), "rb") as file:
            return file.read(1)
    except OSError:
        return b""


def state_of(folder: str) -> State:
    """Another value once something was stored. The gate's time says nothing: a command that only reads renews it."""
    found = []
    for name in (*SLOTS, OLD):
        try:
            told = os.stat(os.path.join(folder, name))
            found.append((told.st_ino, told.st_size, told.st_mtime_ns))
        except OSError:
            found.append((0, 0, 0))
    return (_gate(folder), *found)


def size_of_stored(folder: str) -> int:
    """The bytes of the replica as it was stored last; 0 if that can't be read."""
    gate = _gate(folder)
    try:
        if not gate or os.path.exists(os.path.join(folder, OLD)):
            return os.stat(os.path.join(folder, OLD)).st_size
        with open(os.path.join(folder, SLOTS[gate[0] & 1]), "rb") as file:
            return int.from_bytes(file.read(8), "big")
    except OSError:
        return 0


def head_of(folder: str) -> Optional[Head]:
    """Who has the replica, and how many operations of each member it knows. None if that can't be read so: the program tells it then."""
    for _ in range(3):
        gate = _gate(folder)
        if not gate or os.path.exists(os.path.join(folder, OLD)):
            return None
        try:
            with open(os.path.join(folder, SLOTS[gate[0] & 1]), "rb") as file:
                data = file.read(8 + 21 + 4 * 64)[8:]
        except OSError:
            return None
        if _gate(folder) != gate:
            continue                    # somebody stored meanwhile
        if len(data) < 21 or data[:4] != b"RLSF" or not 2 <= data[4] <= 4:
            return None
        group, members, me = struct.unpack(">QII", data[5:21])
        if members > 64 or len(data) < 21 + 4 * members:
            return None
        return Head(group, members, me, struct.unpack(f">{members}I", data[21:21 + 4 * members]))
    return None
