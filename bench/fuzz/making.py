"""Makes the steps of a game from its seed.

A step is a dictionary, so that a game can be written down as JSON and steps can be left out: a message has a name, and a step that names a
message that was never made does nothing. Positions are drawn as large numbers, and the game takes the remainder by what is possible then,
so that steps stay useful if others before them go; a few are drawn to be refused."""
import random

MARK = "\u0301"
LETTERS = "abcdefghijklmnopqrstuvwxyz ABC.,;\n\\" + "\u00e4\u00df\u20ac\u4e2d\U0001f44d\U0001d11e"


class Maker:
    def __init__(self, seed):
        self.draw = random.Random(seed)
        self.members = self.draw.choice((1, 2, 2, 3, 3, 4))
        # In a game of single characters each character is inserted once, so that their order can be followed.
        self.is_single = self.draw.random() < 0.5
        self.next_character = 0x4E00
        self.messages = 0
        self.steps = [{"do": "group", "group": self.draw.choice((0, 7, 2**64 - 1, self.draw.randrange(2**64))), "members": self.members}]

    def text(self):
        most = self.draw.choice((1, 1, 2, 5, 20, 200))
        length = self.draw.randint(1, most)
        if self.is_single:
            first = self.next_character
            self.next_character += length
            return "".join(chr(first + i) for i in range(length))
        said = "".join(self.draw.choice(LETTERS) for _ in range(length))
        return said + MARK if self.draw.random() < 0.1 else said

    def edit(self):
        """One edit: its kind, two numbers of which the game makes a place and a count, and a text."""
        kind = self.draw.choices("idbrx", (8, 5, 1, 1, 0.4))[0]
        return {"kind": kind, "at": self.place(), "count": self.draw.choice((1, 1, 1, 2, 3, 7, 1000)), "text": self.text() if kind == "i" else ""}

    def change(self):
        """A change of the editor: mostly at the one before it, as somebody types and takes back; a few are refused."""
        kind = self.draw.choices(("on", "back", "near", "place", "wrong"), (8, 5, 3, 2, 0.3))[0]
        count = 0 if kind == "on" else self.draw.choice((0, 1, 1, 2, 3, 5000))
        text = "" if kind == "back" else self.text() if self.draw.random() < 0.8 or not count else ""
        return {"kind": kind, "at": self.place(), "count": count, "text": text}

    def place(self):
        # At an end, or anywhere.
        return self.draw.choice((0, -1, self.draw.randrange(10**6)))

    def edits(self, most=6):
        return [self.edit() for _ in range(self.draw.randint(1, most))]

    def message(self):
        self.messages += 1
        return f"m{self.messages}"

    def known(self):
        """The name of a message that was made before: mostly a late one."""
        return f"m{max(1, self.messages - int(self.draw.expovariate(0.3)))}"

    def requests(self):
        back = 0 if self.is_single else 3
        kinds = {"edit": 8, "typed": 8, "undo": back, "back": back, "again": back, "groups": 1, "cursor": 1.5, "where": 1.5, "text": 1, "take": 2, "send": 1,
                 "tell": 2.5, "store": 0.7, "stat": 0.3, "costs": 0.3, "version": 0.2, "bad": 0.3}
        return [self.request(self.draw.choices(list(kinds), list(kinds.values()))[0]) for _ in range(self.draw.choice((1, 3, 6, 12, 25)))]

    def request(self, kind):
        if kind == "edit":
            return {"ask": kind, "edit": self.edit()}
        if kind == "typed":
            return {"ask": kind, "changes": [self.change() for _ in range(self.draw.choice((1, 2, 4, 10)))]}
        if kind == "take":
            return {"ask": kind, "message": self.known()}
        if kind == "send":
            return {"ask": kind, "to": self.draw.randrange(self.members), "message": self.message()}
        asked = {"ask": kind, "at": self.place()}
        if kind in ("cursor", "where"):
            asked["cursor"] = self.draw.choice((0, 0, 0, 1, 63))
            asked["side"] = self.draw.choice("kkj")
        return asked

    def step(self):
        me = self.draw.randrange(self.members)
        kind = self.draw.choices(("edit", "session", "send", "take", "damage", "leave", "place", "undo"), (6, 4, 4, 6, 1, 0.1, 0.5, 0 if self.is_single else 1))[0]
        step = {"do": kind, "me": me}
        if kind == "edit":
            step["edits"] = self.edits()
            step["both"] = self.draw.random() < 0.3
        elif kind == "session":
            step["requests"] = self.requests()
            step["end"] = self.draw.choice(("quit", "quit", "quit", "close", "kill"))
            step["piece"] = self.draw.choice((0, 0, 1, 7))
        elif kind == "send":
            step["to"] = self.draw.randrange(self.members)
            step["message"] = self.message()
        elif kind == "take":
            step["message"] = self.known()
        elif kind == "damage":
            step["message"] = self.known()
            step["cut"] = self.draw.random() < 0.3
            step["at"] = self.draw.randrange(10**6)
            step["byte"] = self.draw.randrange(1, 256)
        elif kind == "place":
            step["at"] = self.place()
        elif kind == "undo":
            step["edit"] = self.edit()
        return step


def make_steps(seed):
    maker = Maker(seed)
    for _ in range(maker.draw.choice((5, 15, 40, 80))):
        maker.steps.append(maker.step())
    maker.steps.append({"do": "meet"})
    return maker.steps
