"""The giver's part goes to another member, as a number goes to its owner: who had it writes down that it is gone before the spare numbers are
packed, and never gives, takes or sends for one again; who gets it begins when the pack is there whole. So one machine gives at each moment."""
import hashlib
import json
import os
import shutil
from typing import Any, Dict, Optional, Tuple

from .circle import Circle
from .errors import Trouble
from .folders import replace
from .giver import Giver
from .notices import name_of, number, regular_or_none, sync_folder, write_notice
from .packs import MOST_PACK, packed, put_pack


def turns(circle: Circle, end: str) -> Dict[int, Dict[str, str]]:
    """The notices `CIRCLE-TURN.end` that are whole."""
    found = {int(x[1]): circle.notice(f"{x[1]}.{end}") for x in circle.own_names(rf"([0-9]{{1,9}})\.{end}")}
    return {turn: notice for turn, notice in found.items() if notice}


def giver_number(circle: Circle) -> int:
    """Who gives the numbers, as far as the folder tells."""
    given = turns(circle, "part")
    return number(given[max(given)].get("to")) if given else 0


def give_part(circle: Circle, to: int) -> None:
    """Member `to` gives the numbers from now on."""
    giver = Giver(circle)
    if not giver.is_giver:
        raise Trouble(f"this machine is number {circle.me}, and doesn't give the numbers: number {giver_number(circle)} does.")
    giver.look_at_numbers()
    here = circle.notice(f"{to}.here")
    if to == circle.me or str(to) not in giver.given and to != 0 or not here:
        raise Trouble(f"number {to} isn't that of another member who was here.", 1)
    circle.mark()
    # From here on this machine never gives a number again, nor takes or sends for a spare one, whatever happens.
    circle.home.keep("part", {"turn": giver.turn + 1, "to": to, "token": here.get("token", "")})
    hand_part(circle)


def hand_part(circle: Circle) -> None:
    """Repeated until the other one gives; then the spare numbers go here."""
    part: Optional[Dict[str, Any]] = circle.home.kept("part")
    if not part or part["to"] is None:
        return
    turn, pack = part["turn"], circle.path(f"{circle.id}-{part['turn']}.spares")
    if turn in turns(circle, "gives"):
        if os.path.lexists(pack):
            os.unlink(pack)
        shutil.rmtree(circle.home.path("spare"), ignore_errors=True)
        return
    if not os.path.isdir(circle.home.path("spare")) and circle.home.kept("spares-begun"):
        return                                              # it went already
    data = part_pack(circle)
    if regular_or_none(pack, MOST_PACK) != data:
        replace(pack, data)
    write_notice(circle.path(f"{circle.id}-{turn}.part"), to=part["to"], token=part["token"], sum=hashlib.sha256(data).hexdigest())


def part_pack(circle: Circle) -> bytes:
    """A line of JSON with what the giver knows, and for each spare number a line `K BYTES` and the pack of its replicas."""
    giver = Giver(circle)
    known = {"given": giver.given, "lost": giver.lost, "begun": circle.home.kept("spares-begun") or {}}
    packs = [(k, packed(giver.spare(k))) for k in giver.free()]
    return json.dumps(known, sort_keys=True).encode() + b"\n" + b"".join(f"{k} {len(data)}\n".encode() + data for k, data in packs)


def take_part(circle: Circle) -> Optional[str]:
    """This member gives the numbers from now on, if another one has handed that on to it, and all of it has come whole. What is to be said."""
    assert circle.seat
    mine = Giver(circle).turn
    for turn, notice in sorted(turns(circle, "part").items()):
        if turn <= mine or number(notice.get("to")) != circle.me or notice.get("token") != circle.seat.token:
            continue
        if turn in turns(circle, "gives"):
            raise Trouble(f"this machine has given numbers, and doesn't know it: its files in {circle.home.folder} were put back from a copy. It gives none any more.")
        data = regular_or_none(circle.path(f"{circle.id}-{turn}.spares"), MOST_PACK)
        if data is None or hashlib.sha256(data).hexdigest() != notice.get("sum"):
            return None
        circle.mark()
        put_part(circle, data, turn)
        write_notice(circle.path(f"{circle.id}-{turn}.gives"), number=circle.me)
        return f"this machine gives the numbers of {circle.shared} now."
    return None


def put_part(circle: Circle, data: bytes, turn: int) -> None:
    """Keeps what has come. That this machine gives is kept last, and what comes before can be repeated until then."""
    head, _, rest = data.partition(b"\n")
    known, home = json.loads(head), circle.home
    shutil.rmtree(home.path("spare"), ignore_errors=True)
    os.makedirs(home.path("spare"))
    while rest:
        line, _, rest = rest.partition(b"\n")
        k, size = map(int, line.split())
        put_pack(rest[:size], home.path("spare", str(k)))
        rest = rest[size:]
    sync_folder(home.path("spare"))
    home.keep("given", known["given"])
    home.keep("handed", [int(k) for k in known["given"]])       # who gave them hands them over
    home.keep("lost", known["lost"])
    home.keep("spares-begun", known["begun"])
    home.keep("spares", {})
    home.keep("part", {"turn": turn, "to": None})


def giver_name(circle: Circle) -> Tuple[int, str]:
    """The number and the name of who gives."""
    k = giver_number(circle)
    return k, name_of(circle.names().get(k))
