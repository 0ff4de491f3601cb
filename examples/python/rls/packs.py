"""The replicas of one number as one piece of bytes, to move from whoever held them to whoever has the number: for each text a line
`GROUP BYTES`, and the stored file."""
import os
import struct
from typing import Iterator, List, Tuple

from .circle import has_replica
from .notices import sync_folder

MOST_PACK = 1_000_000_000       # bytes


def packed(folder: str) -> bytes:
    """The replicas in the folders of a folder, each of which is named after its text."""
    names = sorted(os.listdir(folder)) if os.path.isdir(folder) else []
    kept = [x for x in names if x.isdecimal() and has_replica(os.path.join(folder, x))]
    stored = ((x, stored_file(os.path.join(folder, x))) for x in kept)
    return b"".join(f"{group} {len(data)}\n".encode() + data for group, data in stored)


def unpacked(data: bytes) -> Iterator[Tuple[int, bytes]]:
    """Each text, and its stored file."""
    at = 0
    while at < len(data):
        end = data.index(b"\n", at)
        group, size = map(int, data[at:end].split())
        yield group, data[end + 1:end + 1 + size]
        at = end + 1 + size


def put_pack(data: bytes, folder: str) -> List[int]:
    """Puts the replicas into folders of this folder, which are on the disk when this returns. Repeated, it does what is left to do. Answers
    the texts."""
    os.makedirs(folder, exist_ok=True)
    groups = []
    for group, stored in unpacked(data):
        put_replica(os.path.join(folder, str(group)), stored)
        groups.append(group)
    sync_folder(folder)
    return groups


def stored_file(folder: str) -> bytes:
    """The bytes of the stored file (docs/DURABILITY.md, "How it is kept") of a replica that nobody stores meanwhile."""
    with open(os.path.join(folder, "replica.gate"), "rb") as f:
        slot = f.read(1)[0] & 1
    with open(os.path.join(folder, f"replica.{slot}"), "rb") as f:
        size, = struct.unpack(">Q", f.read(8))
        return f.read(size)


def put_replica(folder: str, stored: bytes) -> None:
    """A replica with this stored file, whose gate comes last. If it is stopped before that, it is done again."""
    if has_replica(folder):
        return
    os.makedirs(folder, exist_ok=True)
    slot = struct.pack(">Q", len(stored)) + stored
    for name, data in ("replica.0", slot), ("replica.1", slot), ("replica.gate", b"\0\0"):
        with open(os.path.join(folder, name), "wb") as f:
            f.write(data)
            f.flush()
            os.fsync(f.fileno())
        sync_folder(folder)


def stored_size(folder: str) -> int:
    """How many bytes its files have, about."""
    found = 0
    for name in "replica.0", "replica.1":
        try:
            found = max(found, os.path.getsize(os.path.join(folder, name)))
        except OSError:
            continue
    return found
