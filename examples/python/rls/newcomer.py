"""How a machine gets its number."""
import hashlib
import os
import re
import secrets

from .circle import Circle, Seat
from .errors import Trouble
from .mailbox import shown
from .notices import regular_or_none, write_notice
from .packs import MOST_PACK, put_pack


def ask(circle: Circle, name: str) -> None:
    """Asks the giver for a number: a file with a token that this machine has made, once."""
    if circle.seat is None:
        circle.home.make()
        circle.home.tell_place()            # from here on a copy of the folder can't take the number, too
        circle.keep_seat(Seat(secrets.token_hex(8), shown(name) or "?", circle.shared, circle.members))
    circle.home.look_at_place(circle.shared)
    assert circle.seat
    if circle.seat.number is None:
        write_notice(circle.path(f"{circle.id}-{circle.seat.token}.ask"), name=circle.seat.name)


def take_seat(circle: Circle) -> bool:
    """Takes the number that the giver has given to this machine's token, with its replicas, once all of it has come whole. Whether this
    machine has a number now."""
    if circle.has_number:
        return True
    if circle.seat is None:
        return False
    circle.home.look_at_place(circle.shared)
    for k in range(1, circle.members):
        seat = circle.notice(f"{k}.seat")
        if seat and seat.get("token") == circle.seat.token:
            look_at_number(circle, k)
            data = regular_or_none(circle.path(f"{circle.id}-{k}.pack"), MOST_PACK)
            if data is None or hashlib.sha256(data).hexdigest() != seat.get("sum"):
                return False
            groups = put_pack(data, circle.home.path("texts"))
            circle.keep_seat(circle.seat._replace(number=k, packed=groups))
            circle.mark()
            remove(circle.path(f"{circle.id}-{circle.seat.token}.ask"))
            return True
    return False


def look_at_number(circle: Circle, k: int) -> None:
    """Trouble 71 if number K, which this machine is about to begin with, was begun with already: its files were put back from before that."""
    names = circle.own_names(rf"{k}\.here")
    told = circle.texts_told()                          # the folder may have texts of other circles, in which this number is somebody else's
    for match in map(re.compile(rf"([0-9]+)-{k}-([0-9]+)\.rlsm").fullmatch, circle.listing()):
        counts = circle.counts_of(int(match[1]), k, int(match[2])) if match and match[1] in told else None
        if match and counts and counts[k] > 0:
            names.append(match)
    if names:
        raise Trouble(f"number {k} was given to this machine, and it has begun with it before: the files in {circle.home.folder} were put back from a copy. `rls join --anew {circle.shared}` gets a new number.")


def remove(path: str) -> None:
    if os.path.lexists(path):
        os.unlink(path)
