"""A new circle in the same folder, when there are too few numbers or the giver is lost. One member begins it (`rls share SHARED --again`); each
other machine goes over at a `rls sync`, once all that it has is there (docs/SHARING.md, "A new circle in the same folder")."""
import os
import re
from typing import Callable, List, Optional

from .carrying import Over, is_begun_here, older, state_of, told_over
from .circle import Circle, circles_in
from .commands import Commands
from .desk import Desk
from .errors import RlsError, Trouble
from .family import counts_before, idents, line
from .folders import locked
from .giver import Giver
from .home import Home, holder
from .newcomer import ask, remove, take_seat
from .notices import name_of
from .stored import head_of
from .told import group_after

Say = Callable[[str], None]
LEAST_MEMBERS = 8               # of a new circle, if nothing else is said


def successors(circle: Circle) -> List[Circle]:
    """The circles to which this machine may go over from this one, those that count more first: those that were begun after it, and those into
    which somebody brings what was written in it."""
    family = circle.family()
    names = [x for x in circle.listing() if x.endswith(".over")]
    pairs = {x.groups() for x in map(re.compile(r"([0-9a-f]{16})-[0-9]+-([0-9a-f]{16})\.over").fullmatch, names) if x}
    found = {x for x, before in family.items() if before == circle.id} | {new for new, old in pairs if old == circle.id}
    for mine in filter(is_begun_here, idents()):        # what was written there has to come into another, if it doesn't count
        found |= {new for new, old in pairs if old == Home(mine).kept("after") and counts_before(family, new, mine)}
    found = {x for x in found if x != circle.id and not Home(x).kept("over")}
    return [Circle(circle.shared, x) for x in sorted(found, key=lambda x: line(family, x))]


def begin_again(circle: Circle, name: str, members: Optional[int]) -> int:
    """Begins a circle after this one, in which this machine has a number; unless it has begun this one, and nobody else is in it yet. How many
    numbers it has: as many as this one, or more, if that isn't said."""
    if is_begun_here(circle.id) and not Giver(circle).given:
        return circle.members
    found = successors(circle)
    if found:
        told = name_of(circles_in(circle.shared).get(found[0].id))
        raise Trouble(f"a new circle was begun here already, by {told}: `rls sync {circle.shared}` goes over to it.")
    if not circle.has_number:
        raise Trouble(f"this machine has no number in the circle of {circle.shared} yet: rls join {circle.shared}", 2)
    lost = circle.begin_texts()
    if lost:
        raise Trouble(f"the replica of {lost[0].name} is away from this machine, which can't bring over what is in it: another has to begin.")
    count = members or max(LEAST_MEMBERS, circle.members)
    if count < len(circle.names()):
        raise Trouble(f"{len(circle.names())} numbers are given here, and the new circle would have {count}.", 1)
    Circle.begin(circle.shared, name, count, circle.id)
    return count


def go_on(circle: Circle, wait: float, say: Say) -> Optional[Circle]:
    """Asks for a number in the circles that were begun after this one, exchanges there, and goes over once all that this machine has is there.
    Answers the circle to which it went. Until then its files stay in this one, and are exchanged here."""
    for new in successors(circle):
        try:
            if exchanges(circle, new, wait, say):
                go_over(circle, new, say)
                return new
        except Trouble as e:
            say(f"the new circle: {e}")
    return None


def exchanges(circle: Circle, new: Circle, wait: float, say: Say) -> bool:
    """Asks for a number in a circle that was begun after this one, and exchanges there. Whether this machine may go over."""
    if not new.seat and new.id not in circles_in(circle.shared):
        return False                                    # what says that there is one is away, or half
    new.home.make()
    if new.home.kept("waits") != circle.id:
        new.home.keep("waits", circle.id)
    if not new.seat:
        say(f"{name_of(circles_in(circle.shared).get(new.id))} has begun a new circle in {circle.shared}: this machine asks for a number there, and goes over once all that it has is there.")
    with new.hold(wait, bare=True):
        ask(new, circle.seat.name if circle.seat else "")
        if take_seat(new):
            Desk(new, bare=True).once(wait=wait)
            new.list_again()
            return not circle.has_number or may_go(circle, new, say)
        return not circle.has_number


def may_go(old: Circle, new: Circle, say: Say) -> bool:
    """Whether all that this machine's replicas have is in the newer circle, in its own replicas there; and no program has one open."""
    gone, told = new.gone(), told_over(new, old.id)
    texts = [x for x in old.texts() if str(group_after(new.id, x.root)) not in gone]
    if not all(x.group in told and told[x.group].has_come(new) and has_all(old, x.group, told[x.group]) for x in texts):
        return False
    held = [x for x in texts if old.has(x.group) and not is_free(old.replica(x.group))]
    if held and new.home.kept("told-held") != held[0].name:
        say(f"{held[0].name}: {holder(old.replica(held[0].group))} has its replica open; this machine goes over to the new circle when that ends.")
        new.home.keep("told-held", held[0].name)
    return not held


def has_all(old: Circle, group: int, over: Over) -> bool:
    """Whether all that this machine's replica of the older circle has is in the newer one, and nothing is going in just now."""
    return not old.has(group) or over.covers(counts(old.replica(group))) and not state_of(old, group).get("pending")


def counts(folder: str) -> "tuple[int, ...]":
    head = head_of(folder) or Commands(folder).head()
    return head.counts


def is_free(folder: str) -> bool:
    try:
        os.close(locked(folder, 0, ()))
    except RlsError:
        return False
    return True


def go_over(old: Circle, new: Circle, say: Say) -> None:
    """This machine's files are in the newer circle from the moment on when that is kept, at the end. What comes before can be repeated until then."""
    groups = {str(x.group): str(group_after(new.id, x.root)) for x in old.texts()}
    for group, to in groups.items():
        was = state_of(old, int(group))
        if old.has_number and was:
            state = {**state_of(new, int(to)), "versions": was["versions"], "asked": was.get("asked", [])}
            new.home.keep(os.path.join("texts", f"{to}.json"), state)
    bound = old.home.kept("bound")
    if bound:
        files = {groups[group]: path for group, path in bound["files"].items() if group in groups}
        new.home.keep("bound", {**bound, "files": files, "moving": [], "left": bound["left"] + [x for group, x in bound["files"].items() if group not in groups]})
    new.home.keep("family", {**old.family(), **new.family()})
    old.home.keep("over", new.id)
    if old.seat and old.seat.number is None:
        remove(old.path(f"{old.id}-{old.seat.token}.ask"))
    else:
        say(f"the texts of {old.shared} are in the new circle now: this machine is number {new.me} of at most {new.members}.")


def duties(circle: Circle, wait: float, say: Say) -> None:
    """What this machine does for others in circles in which its files aren't any more: it goes on bringing over what comes late."""
    for ident in sorted(circle.family()):
        other = Circle(circle.shared, ident)
        if not other.has_number or not other.home.kept("over"):
            continue
        with other.hold(wait, bare=True):
            brings = older(other)
            try:
                other.look()
                if brings:
                    Desk(other, bare=True).once(wait=wait)
                other.mark_gone()
            except Trouble as e:
                if brings:
                    say(f"an older circle: {e}")


def not_come_over(circle: Circle) -> List[str]:
    """The names of those whose files are in an older circle of the folder still, as far as this machine has a part in that and is told."""
    found = []
    for ident in line(circle.family(), circle.id)[:-1]:
        other = Circle(circle.shared, ident)
        if other.has_number:
            found += [name_of(notice) for k, notice in sorted(other.names().items()) if k != other.me and "over" not in notice]
    return found
