"""What a call may raise."""
from typing import TYPE_CHECKING, Sequence, Tuple

if TYPE_CHECKING:
    from .reports import Head

MEANINGS = {
    1: "the words are no command", 2: "there is no replica in this folder, or for `new` there is one", 3: "the replica's file is damaged",
    4: "what was handed in is not right", 5: "done, but some operations were refused", 6: "an edit was refused", 7: "the replica's file can't be read or written",
    8: "the input can't be read", 9: "the output can't be written", 10: "out of memory", 11: "too large",
    70: "the program couldn't be built", 71: "the launcher refused the command",
}


class RlsError(Exception):
    """A command that ended with another status than 0."""

    def __init__(self, status: int, line: str, words: Sequence[str] = ()) -> None:
        super().__init__(f"{' '.join(('rls', *words))}: {MEANINGS.get(status, 'unknown status')} ({line or 'no line'}, status {status})")
        self.status, self.line = status, line


class Refused(RlsError):
    """A line of a script, or of a session, that was refused."""


class Stale(Exception):
    """Another member has more of this member's own operations than this member itself: its files were put back from a copy, made
    again with a number that was used, or two members have one number. Going on would part the texts for ever, with status 0. `found` has what
    became of the messages that came in the same round."""

    found: "Sequence[Tuple[int, object]]" = ()


class UsedTwice(Stale):
    """Two replicas write with one number, or two copies of one. Nothing more is written into the shared folder."""

    @classmethod
    def by(cls, path: str, head: "Head", why: str) -> "UsedTwice":
        return cls(f"number {head.sender} of text {head.group} is used twice: {why}, as {path} shows. Nothing more is sent from here. Keep what"
                   " `rls text` prints, and begin in a new folder with a number that nobody has used; the other one goes on. If there is no"
                   " other one, delete that file (docs/USE.md, \"A number used twice\")")


class Trouble(Exception):
    """What stands in the way of a command of a circle, in one line for people; `status` is what the command ends with."""

    def __init__(self, line: str, status: int = 71) -> None:
        super().__init__(line)
        self.status = status
