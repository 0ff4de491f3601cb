"""When a session renames (docs/USE.md, "When to rename")."""
from typing import NamedTuple, Optional, Sequence, Tuple

from . import limits


class Costs(NamedTuple):
    """What a line `o` tells (docs/SESSION.md)."""
    rename: int
    limit: int
    runs: int
    tuples: int
    epochs: int
    own: int
    bytes: int

    @classmethod
    def told(cls, words: Sequence[str]) -> "Costs":
        return cls(*map(int, words[1::2]))


class Renaming:
    """What was spent since the last rename: the bytes of own operations that no plain text needs."""

    def __init__(self) -> None:
        self.put: Optional[int] = 0                     # bytes of the text that was put in since the last look; None if nobody knows
        self.spent = 0
        self.seen: Optional[Tuple[int, int]] = None     # own operations and their bytes at the last look

    def note(self, put: Optional[int]) -> None:
        """So many bytes of text were put in."""
        self.put = None if put is None or self.put is None else self.put + put

    def is_due(self, costs: Costs, members: int, is_long_ago: bool) -> bool:
        """Whether to rename now. A look that is long ago sees what all members did, and any look what this one spent."""
        own, size = costs.own, costs.bytes
        if self.seen is not None and self.put is not None:
            if own >= self.seen[0]:                     # (else others have taken some of them)
                own, size = own - self.seen[0], size - self.seen[1]
            self.spent += max(0, size - self.put - own * (limits.PLAIN_BYTES + 4 * members))
        self.seen, self.put = (costs.own, costs.bytes), 0
        return self.spent > costs.rename or is_long_ago and (
            costs.rename * limits.LATEST > costs.limit or costs.epochs == 1 and costs.rename > limits.RUN_BYTES * limits.RENAME_AT)

    def renamed(self, costs: Costs) -> None:
        """A rename was made by these costs, or was refused: it is one more operation, of that size."""
        self.spent, self.seen = 0, (costs.own + 1, costs.bytes + costs.rename)
