"""`rls share`, `join`, `sync`, `who`, `where`, `drop` and `give`: bin/rls runs this for them (docs/SHARING.md)."""
import argparse
import json
import os
import shutil
import sys
import time
from typing import List, Optional, Tuple

from .circle import Circle, Seat, circles_in
from .desk import Desk, say
from .errors import RlsError, Stale, Trouble
from .files import Busy
from .giver import Giver
from .handing import give_part, giver_name
from .family import idents, is_active
from .home import Home, homes
from .kept_for import rows
from .newcomer import ask, take_seat
from .note import Note
from .parting import part
from .succession import begin_again, duties, go_on, not_come_over, successors

MOST_MEMBERS = 8
NOT_YET = 75                    # no number has come


def own_name() -> str:
    return os.environ.get("RLS_NAME") or os.environ.get("USER") or os.environ.get("LOGNAME") or "somebody"


def own_circles() -> List[Circle]:
    """The circles in which this machine has a part, and its files."""
    return [Circle(Home(ident).kept("seat")["shared"], ident) for ident in idents() if is_active(ident)]


def circle_of(path: Optional[str]) -> Tuple[Circle, Optional[str]]:
    """The circle that a shared folder, a bound file or a folder of bound files names; and the file, if it is one."""
    full = os.path.abspath(os.path.expanduser(path or "."))
    if path and os.path.isdir(full) and (circles_in(full) or any(os.path.realpath(x.shared) == os.path.realpath(full) for x in own_circles())):
        return Circle.of(full), None
    found = []
    for circle in own_circles():
        desk = Desk(circle)
        if full in desk.files.values():
            return circle, full
        if path is None or desk.folder == full:
            found.append(circle)
    if len(found) == 1:
        return found[0], None
    if found:
        raise Trouble("there are several circles on this machine: say which: rls sync SHARED", 2)
    raise Trouble(f"{path or 'this machine'} is neither a shared folder with a circle, nor a file or a folder that is shared: rls sync SHARED, or rls sync FILE", 2)


def refuse_within(path: str, shared: str) -> None:
    if (os.path.realpath(path) + "/").startswith(os.path.realpath(shared) + "/"):
        raise Trouble(f"{path} is in the shared folder, where each machine would write over the others' file. Keep it elsewhere: the texts, for example, in ~/notes.")


def share(words: argparse.Namespace) -> int:
    if words.again:
        return again(words)
    shared = os.path.abspath(os.path.expanduser(words.shared))
    refuse_within(homes(), shared)
    for path in words.files:
        refuse_within(path, shared)
        if not os.path.exists(path):
            raise Trouble(f"there is no {path}.", 1)
    begun = [x for x in own_circles() if os.path.realpath(x.shared) == os.path.realpath(shared)]
    if begun and os.path.isdir(shared):
        begun[0].repair()                               # perhaps this was stopped before
    if os.path.isdir(shared) and any(x.endswith(".circle") for x in os.listdir(shared)):
        circle = Circle.of(shared)
        print(f"member {circle.me} of {shared}")
    else:
        circle = Circle.begin(shared, words.name or own_name(), words.members or MOST_MEMBERS)
        print(f"begun in {shared}: you are number 0 of at most {circle.members}. The others: rls join {words.shared}")
    with circle.hold(words.wait):
        circle.look()
        desk = Desk(circle)
        for path in filter(os.path.isdir, words.files):
            desk.folder, desk.adds, desk.is_deep = os.path.abspath(path), True, True
            desk.keep()
        desk.add_all([x for x in words.files if not os.path.isdir(x) and os.path.abspath(x) not in desk.files.values()])
        return desk.once(wait=words.wait)


def again(words: argparse.Namespace) -> int:
    """A new circle in the same folder."""
    if words.files:
        raise Trouble("--again begins a new circle with the texts that there are; add others after that.", 1)
    circle = Circle.of(words.shared)
    with circle.hold(words.wait):
        circle.look()
        members = begin_again(circle, words.name or (circle.seat.name if circle.seat else own_name()), words.members)
    print(f"a new circle is begun in {circle.shared}, of at most {members} numbers. Each of the others goes over at its `rls sync`, once this machine has seen it.")
    return one_round(circle, None, words)[1]


def join(words: argparse.Namespace) -> int:
    circle = Circle.of(words.shared)
    refuse_within(homes(), circle.shared)
    if words.folder:
        refuse_within(words.folder, circle.shared)
    circle.home.make()
    if words.anew and circle.seat:
        circle = begin_anew(circle, circle.seat)
    end = time.monotonic() + words.wait
    while True:
        with circle.hold(words.wait):
            ask(circle, words.name or own_name())
            if take_seat(circle):
                return joined(circle, words)
            new = go_on(circle, words.wait, say)
        if new:
            circle = new                                # a new circle was begun meanwhile
            continue
        if time.monotonic() >= end:
            say(f"asked for a number in {circle.shared}. {giver_name(circle)[1]}'s machine gives it at its next `rls sync` (or while an editor has the text open there); then `rls join` again.")
            return NOT_YET
        time.sleep(0.2)


def joined(circle: Circle, words: argparse.Namespace) -> int:
    """The first round with the number."""
    desk = Desk(circle)
    if words.folder and not desk.folder:
        os.makedirs(words.folder, exist_ok=True)
        desk.folder, desk.adds, desk.is_deep = os.path.abspath(words.folder), words.adds, True
        desk.keep()
    status = desk.once(wait=words.wait)
    print(f"you are number {circle.me} of at most {circle.members} in {circle.shared}" + (f"; the texts are in {desk.folder}" if desk.folder else ""))
    return status


def begin_anew(circle: Circle, seat: Seat) -> Circle:
    """Asks for a new number for this machine. What its files have, and nobody is known to have got, is put in again once that is there."""
    if seat.number is not None and Giver(circle).is_giver:
        raise Trouble("this machine gives the numbers, and that part can't begin anew. Begin a new circle with the files: rls share NEWFOLDER FILE ..")
    following = successors(circle)
    with circle.hold(10):
        aside = circle.home.set_aside(seat.number)
    if following:
        return begin_in(following[0], aside, seat.name)
    circle.read_again()
    circle.home.make()
    for x in sorted(os.listdir(os.path.join(aside, "texts"))):
        if x.endswith(".json"):
            with open(os.path.join(aside, "texts", x), encoding="utf-8") as f:
                state = json.load(f)
            known = [state["known"]] if state["known"] is not None else [text for _, text in state["sent"][:1]]
            circle.home.keep(os.path.join("texts", x), {"versions": known})
    if os.path.exists(os.path.join(aside, "bound")):
        shutil.copy(os.path.join(aside, "bound"), circle.home.path("bound"))
    ask(circle, seat.name)
    say(f"what was here is in {aside} now.")
    return circle


def begin_in(circle: Circle, aside: str, name: str) -> Circle:
    """Begins in the circle that follows, without waiting until what this machine has has come over: its files stay as they are, and the texts
    of the new circle get files beside them."""
    circle.home.make()
    if os.path.exists(circle.home.path("waits")):
        os.unlink(circle.home.path("waits"))
    ask(circle, name)
    say(f"what was here is in {aside} now. The files stay as they are; the texts of the new circle are beside them.")
    return circle


def is_interrupted(error: Optional[BaseException]) -> bool:
    """Whether this comes of a Ctrl-C: that ends what a round has started too, which may then fail while the round is left."""
    while error is not None and not isinstance(error, KeyboardInterrupt):
        error = error.__context__
    return error is not None


def sync(words: argparse.Namespace) -> int:
    circle, only = circle_of(words.path)
    told = ""
    while True:
        try:
            if circle.home.kept("over"):
                circle, only = circle_of(words.path)
            circle, status = one_round(circle, only, words)
            told = ""
        except (Trouble, RlsError, Stale, OSError) as e:
            if is_interrupted(e):
                raise KeyboardInterrupt from e
            if not words.watch:
                raise
            if str(e) != told:
                say(str(e))
            told = str(e)
        if not words.watch:
            return status
        time.sleep(words.every)


def one_round(circle: Circle, only: Optional[str], words: argparse.Namespace) -> Tuple[Circle, int]:
    """A round; if this machine goes over to a new circle, that in which it is then, and one there. The circle, and the status."""
    while True:
        with circle.hold(words.wait):
            if words.moved:
                tell_places(circle)
                words.moved = False
            has_number = take_seat(circle)
            status = Desk(circle).once(only, words.wait, words.mine, words.tend) if has_number else NOT_YET
            new = go_on(circle, words.wait, say)
            if not new:
                duties(circle, words.wait, say)
        if new:
            circle = new
        elif has_number:
            return circle, status
        else:
            raise Trouble(f"no number has come yet: {circle.shared}. `rls join {circle.shared}` waits for it.", NOT_YET)


def tell_places(circle: Circle) -> None:
    """All that this machine keeps for the shared folder was moved."""
    for ident in {circle.id, *circle.family()}:
        if os.path.isdir(Home(ident).folder):
            Home(ident).tell_place()


def who(words: argparse.Namespace) -> int:
    circle, _ = circle_of(words.path)
    print("\n".join(rows(circle)))
    k, name = giver_name(circle)
    print(f"{len(circle.names())} of {circle.members} numbers are given; number {k}, {name}, gives them")
    missing = not_come_over(circle)
    if missing:
        print(f"not known to have come over from an older circle: {', '.join(missing)}")
    return 0


def give(words: argparse.Namespace) -> int:
    circle, _ = circle_of(words.path)
    with circle.hold(words.wait):
        circle.look()
        give_part(circle, words.number)
    print(f"number {words.number} gives the numbers of {circle.shared} once its machine has synced; this machine never does again")
    return 0


def leave(words: argparse.Namespace) -> int:
    circle, _ = circle_of(words.path)
    with circle.hold(words.wait, bare=True):
        part(circle, words.wait, say)
    print(f"this machine has no part in {circle.shared} any more")
    return 0


def where(words: argparse.Namespace) -> int:
    """What a plugin opens. Tabs part the replica, the shared folder, the text's name, its file or `-`, and the own name."""
    circle, only = circle_of(words.path)
    circle.look()
    assert circle.seat
    desk = Desk(circle)
    for text in circle.texts():
        path = desk.files.get(str(text.group), "-")
        if only in (None, path) and words.text in (None, text.name) and circle.has(text.group):
            settle(circle, Note(circle, text, None if path == "-" else path, say))
            print(f"{circle.replica(text.group)}\t{circle.shared}\t{text.name}\t{path}\t{circle.seat.name}")
    return 0


def settle(circle: Circle, note: Note) -> None:
    """After a round that was stopped, before an editor opens the replica."""
    try:
        if note.state["pending"]:
            with circle.hold():
                note.settle()
    except (RlsError, Busy, Trouble):
        pass                                            # another program has it open


def drop(words: argparse.Namespace) -> int:
    circle, only = circle_of(words.path)
    if only is None:
        raise Trouble("say which file: rls drop FILE", 1)
    with circle.hold(words.wait):
        circle.look()
        desk = Desk(circle)
        group = next(x for x, path in desk.files.items() if path == only)
        circle.say_text(int(group), desk.name(only), gone=True)
        desk.part_with(group)
    return 0


def parser() -> argparse.ArgumentParser:
    whole = argparse.ArgumentParser(prog="rls", add_help=True)
    commands = whole.add_subparsers(dest="command", required=True)
    for name, call in ("share", share), ("join", join), ("sync", sync), ("who", who), ("where", where), ("drop", drop), ("give", give), ("part", leave):
        one = commands.add_parser(name)
        one.set_defaults(call=call)
        one.add_argument("--wait", type=float, default=60 if name == "join" else 0)
        if name == "give":
            one.add_argument("number", type=int)
        if name in ("share", "join"):
            one.add_argument("shared")
            one.add_argument("--name")
        else:
            one.add_argument("path", nargs="?")
        if name == "share":
            one.set_defaults(moved=False, mine=False, tend=False)
            one.add_argument("--again", action="store_true")
            one.add_argument("files", nargs="*")
            one.add_argument("--members", type=int)
        if name == "join":
            one.add_argument("folder", nargs="?")
            one.add_argument("--adds", action="store_true")
            one.add_argument("--anew", action="store_true")
        if name == "sync":
            for flag in "--mine", "--tend", "--moved", "--watch":
                one.add_argument(flag, action="store_true")
            one.add_argument("--every", type=float, default=1.0)
        if name == "where":
            one.add_argument("text", nargs="?")
    return whole


def main(args: List[str]) -> int:
    try:
        words = parser().parse_args(args)
    except SystemExit as e:
        return 1 if e.code else 0                       # wrong words, as of every command
    try:
        return int(words.call(words))
    except (Trouble, RlsError) as e:
        say(str(e))
        return e.status
    except Stale as e:
        say(str(e))
        return 71
    except OSError as e:
        say(f"{e.filename or 'a file'}: {e.strerror}")
        return 9
    except KeyboardInterrupt:
        return 130


if __name__ == "__main__":
    for stream in sys.stdout, sys.stderr:
        stream.reconfigure(errors="backslashreplace")       # names of files may be no text
    sys.exit(main(sys.argv[1:]))
