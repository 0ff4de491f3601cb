"""A member leaves a circle for ever: nobody keeps anything for its number any more, and its files stay."""
from typing import Callable

from .circle import Circle
from .commands import Commands
from .desk import Desk
from .errors import Refused, Trouble
from .giver import Giver


def part(circle: Circle, wait: float, say: Callable[[str], None]) -> None:
    """Exchanges once more, says in each text that this number makes no operation any more, and sends that. Repeated, it goes on. What was kept
    for this circle is set aside then."""
    if circle.has_number and Giver(circle).is_giver:
        raise Trouble("this machine gives the numbers: another has to do that first, by `rls give NUMBER`, and to have synced since.")
    if not circle.home.kept("parts"):
        circle.look()
        if Desk(circle).once(wait=wait):
            raise Trouble("not all could be exchanged, as the lines above say: nothing was left.")
        circle.home.keep("parts", True)             # from here on no file's change goes in any more
    for text in circle.texts():
        if circle.has(text.group):
            leave(circle.replica(text.group))
    circle.list_again()
    Desk(circle, bare=True).once(wait=wait)
    say(f"what was kept for it is in {circle.home.set_aside(circle.me)} now, and may be deleted. The files stay.")


def leave(folder: str) -> None:
    try:
        Commands(folder).leave()
    except Refused as e:
        if "left" not in e.line:                    # it has done so before
            raise
