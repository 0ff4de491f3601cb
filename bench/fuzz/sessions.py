"""A session of a member: the requests of a game, what is known of each reply before it comes, and what is looked at when it is there.

Requests of the session's second version are asked of an older program too, which answers `bad` to them.

What an editor typed and is no operation yet is kept as the text that is shown: a list whose members are places of the replica's text, and
characters that are new. The program keeps a place, a count and a text, and merges these."""
from members import ESCAPES, performed, placed, spelled
from replies import Replies, Wrong

MEANT = {escape: character for character, escape in ESCAPES.items()}
MOST_DRAFT = 4096
COSTS = ["rename", "limit", "runs", "tuples", "epochs", "own", "bytes"]
STAT = ["group", "me", "members", "accepted", "total", "runs", "held", "unstable", "epochs", "former"]


def need(right, line, wanted):
    if not right:
        raise Wrong(f"{line!r} was answered where {wanted} was to come")


def unescaped(text):
    parts, at = [], 0
    while at < len(text):
        wide = 2 if text[at] == "\\" else 1
        parts.append(MEANT.get(text[at : at + wide], text[at : at + wide]))
        at += wide
    return "".join(parts)


def played(text, changes):
    """The text after these changes, one after another."""
    for change in changes:
        kind, at, more = change.split(" ", 2)
        at = int(at)
        if kind == "i":
            need(at <= len(text), change, f"a change within {len(text)} characters")
            text = text[:at] + unescaped(more) + text[at:]
        else:
            need(kind == "d" and at + int(more) <= len(text), change, f"a change within {len(text)} characters")
            text = text[:at] + text[at + int(more) :]
    return text


class Session:
    """Requests are added by `ask`, and then `hold` has the conversation."""

    def __init__(self, member, messages):
        self.member, self.messages, self.made = member, messages, {}
        # What is known while requests are written: the text (None once a message or an undo has changed it), the texts to which the groups
        # of steps go back and forth (None once they aren't known), whether a group is open, and where cursors are.
        self.text = self.before = member.text()
        self.back, self.again, self.is_open = [], [], False
        self.cursors = {0: 0}
        # With a draft: the text that is shown, by places of the replica's text and new characters; and where the last change ended.
        self.view, self.end = None, 0
        self.tells = self.stores = False
        self.given, self.looks = b"", []

    def ask(self, request):
        if request["ask"] != "typed":
            self.make()
        getattr(self, "ask_" + request["ask"])(request)

    def make(self):
        """The draft becomes edits: steps of the open group, unless it came to nothing."""
        if self.view is not None and self.view != list(range(len(self.text))):
            shown = self.shown_text()
            self.record()
            self.text, self.cursors = shown, {cursor: None for cursor in self.cursors}
        self.view = None

    def shown_text(self):
        return "".join(self.text[part] if isinstance(part, int) else part for part in self.view)

    def send(self, line, look, changes=False):
        """Adds a request and how its reply is looked at; `changes` says that it may change the text."""
        self.given += line.encode()
        self.looks.append((look, line.rstrip("\n") if changes else None, changes and self.tells))

    def newer(self, line, look, changes=False):
        """Adds a request of the second version. Whether it means anything there is known at once."""
        is_known = line.split()[0] in self.member.known
        self.send(line, look if is_known else lambda replies: self.exactly(replies, "bad"), changes and is_known)
        return is_known

    # ---- looking at one reply

    def exactly(self, replies, wanted):
        line = replies.line()
        need(line == wanted, line, repr(wanted))

    def begins(self, replies, *wanted):
        line = replies.line()
        need(line.startswith(wanted), line, " or ".join(map(repr, wanted)))

    # ---- requests

    def ask_edit(self, request):
        line = placed(self.text or "", request["edit"])
        after, why = performed(self.text or "", line)
        if self.member.has_left and not (why and line[0] == "b"):
            why = "left"
        if self.text is None:
            # (a message may have changed the text by then: what is known is that the reply is one of an edit)
            self.send(spelled(line) + "\n", lambda replies: self.begins(replies, "ok ", "no "), True)
            self.back = None
            return
        self.send(spelled(line) + "\n", lambda replies: self.exactly(replies, f"no {why}") if why else self.begins(replies, "ok "), True)
        if not why:
            if line[0] != "r":
                self.record()
            self.text, self.cursors = after, {cursor: None for cursor in self.cursors}

    def ask_typed(self, request):
        for change in request["changes"]:
            if "e" not in self.member.known:
                self.send("e 0 0 a\n", lambda replies: self.exactly(replies, "bad"))
            elif self.text is None:
                self.type_blindly(change)
            else:
                self.type(change)

    def type_blindly(self, change):
        """Where a message may have changed the text: what is known then is what comes back to the client."""
        at, count, text = change["at"] % 7, change["count"], change["text"]

        def look(replies):
            line = replies.line()
            need(line == "ok" or line.startswith("no "), line, "ok or no")
            if line == "ok" and self.shown is not None:
                need(at + count <= len(self.shown), line, f"a change within {len(self.shown)} characters")
                self.shown = self.shown[:at] + text + self.shown[at + count :]

        self.send(f"e {at} {count} {spelled(('i', 0, 0, text))[4:]}\n", look)
        self.back = None

    def placed_change(self, change, total):
        kind, at, count, text = change["kind"], change["at"], change["count"], change["text"]
        end = min(self.end, total)
        if kind == "on":
            at = end
        elif kind == "back":
            at, count = max(end - max(count, 1), 0), min(end, max(count, 1))
        elif kind == "near":
            at = min(max(end + at % 7 - 3, 0), total)
        elif kind == "wrong":
            return at % (total + 2), total + 1 + count, text
        else:
            at = total if at < 0 else at % (total + 1)
        return at, min(count, total - at), text

    def type(self, change):
        shown = self.view if self.view is not None else list(range(len(self.text)))
        at, count, text = self.placed_change(change, len(shown))
        why = "left" if self.member.has_left else "empty edit" if not count and not text else f"range {at} {len(shown)}" if at + count > len(shown) else None
        if why:
            # A change that doesn't fit makes the draft before it all the same.
            self.make()
        else:
            self.view = self.joined(shown, at, count, text)
            self.end = at + len(text)
        seen = None if why else self.shown_text()

        def look(replies):
            self.exactly(replies, f"no {why}" if why else "ok")
            self.shown = self.shown if why else seen

        self.send(f"e {at} {count} {spelled(('i', 0, 0, text))[4:]}\n", look)

    def joined(self, shown, at, count, text):
        """What is shown after a change; if it doesn't go on with the draft, that is made first."""
        new = [place for place, part in enumerate(shown) if isinstance(part, str)]
        gone = sorted(set(range(len(self.text))) - set(part for part in shown if isinstance(part, int)))
        if new or gone:
            begin, end = (new[0], new[-1] + 1) if new else (gone[0], gone[0])
            after = shown[:at] + list(text) + shown[at + count :]
            most = max(len(after) - sum(isinstance(part, int) for part in after), len(self.text) - sum(isinstance(part, int) for part in after))
            if at <= end and begin <= at + count and most <= MOST_DRAFT:
                return after
            self.make()
            shown = list(range(len(self.text)))
        return shown[:at] + list(text) + shown[at + count :]

    def record(self):
        if self.back is not None and not self.is_open:
            self.back.append(self.text)
            self.again, self.is_open = [], True

    def forget(self):
        """From here on the text and the groups aren't known, nor where cursors are."""
        self.text = self.back = None
        self.cursors = {cursor: None for cursor in self.cursors}

    def ask_take(self, request):
        message = self.messages.get(request["message"])
        if message is not None:
            self.given += b"m %d\n" % len(message) + message
            self.looks.append((self.look_at_taken, "m", self.tells))
            self.forget()

    def look_at_taken(self, replies):
        line = replies.line()
        told = line.split()
        need(told[0::2] == ["applied", "released", "repeated", "held", "refused"] and told[9] == "0", line, "a message without refusals")

    def ask_send(self, request):
        def look(replies):
            self.made[request["message"]] = replies.block("message")

        self.send(f"s {request['to']}{self.told_by(request['to'])}\n", look)

    def told_by(self, to):
        """What the last message of a member says that it has, a space before each count, if the program knows that form of `s`."""
        if "s" in self.member.known:
            for message in reversed(list(self.messages.values())):
                numbers = [int.from_bytes(message[at:at + 4], "big") for at in range(13, len(message) - 3, 4)][:2 + 64]
                if message[:4] == b"RLSM" and len(numbers) > 2 + numbers[0] and numbers[1] == to:
                    return "".join(f" {count}" for count in numbers[2:2 + numbers[0]])
        return ""

    def ask_undo(self, _):
        self.send("u\n", lambda replies: self.begins(replies, "undone ", "no nothing", "no left"), True)
        self.forget()

    def ask_back(self, _):
        self.step("z\n", "back ", "back", "again")

    def ask_again(self, _):
        self.step("y\n", "again ", "again", "back")

    def step(self, line, word, source, target):
        if line[0] not in self.member.known:
            self.newer(line, None)
        elif self.back is None or self.member.has_left:
            self.newer(line, lambda replies: self.begins(replies, word, "no "), True)
            self.forget()
        elif not getattr(self, source):
            # (nothing changes then: an open group stays open)
            self.newer(line, lambda replies: self.exactly(replies, "no nothing"), True)
        else:
            self.newer(line, lambda replies: self.begins(replies, word), True)
            getattr(self, target).append(self.text)
            self.text, self.cursors = getattr(self, source).pop(), {cursor: None for cursor in self.cursors}
            self.is_open = False

    def ask_groups(self, _):
        wanted = None if self.back is None else f"groups {len(self.back)} {len(self.again)}"
        self.newer("g\n", lambda replies: self.exactly(replies, wanted) if wanted else self.begins(replies, "groups "))
        self.is_open = False

    def ask_tell(self, request):
        on = request["at"] % 2
        if self.newer(f"c {on}\n", lambda replies: self.exactly(replies, f"telling {on}")):
            self.tells = bool(on)

    def ask_version(self, _):
        self.newer("v\n", lambda replies: self.exactly(replies, "version 2"))
        self.send("v 3\n", lambda replies: self.exactly(replies, "version 3" if "e" in self.member.known else "bad"))
        self.send("v 4\n", lambda replies: self.exactly(replies, "version 4" if "s" in self.member.known else "bad"))

    def ask_store(self, _):
        self.stores |= self.newer("w\n", lambda replies: self.exactly(replies, "saved"))

    def ask_stat(self, _):
        def look(replies):
            names = [line.split(" ")[0] for line in replies.block("stat").decode().splitlines()]
            need(names == STAT, names, STAT)

        self.newer("n\n", look)

    def ask_costs(self, _):
        """What a rename would bring: its runs and epochs are those of the numbers, right after it."""
        if "s" not in self.member.known:
            self.send("o\n", lambda replies: self.exactly(replies, "bad"))
            return
        costs = {}

        def look(replies):
            words = replies.line().split(" ")
            costs.update(zip(words[::2], words[1::2]))
            need(list(costs) == COSTS and costs["limit"] == "16777216", words, COSTS)

        def compare(replies):
            numbers = dict(line.split(" ", 1) for line in replies.block("stat").decode().splitlines())
            wanted = {word: numbers[word] for word in ("runs", "epochs")}
            need({word: costs[word] for word in wanted} == wanted and int(costs["tuples"]) >= int(costs["runs"]), costs, wanted)
            need(int(costs["own"]) <= int(numbers["unstable"]), costs, numbers)

        self.send("o\n", look)
        self.send("n\n", compare)

    def ask_cursor(self, request):
        cursor, kind = request.get("cursor", 0), request.get("side", "k")
        at = len(self.text or "") if request["at"] < 0 else request["at"] % (len(self.text or "") + 1)
        wanted = None if self.text is None else f"cursor {at}"
        look = lambda replies: self.exactly(replies, wanted) if wanted else self.begins(replies, "cursor ", "no range ")
        line = f"{kind} {at}" + (f" {cursor}" if cursor else "") + "\n"
        if kind == "k" and not cursor:
            self.send(line, look)
        elif not self.newer(line, look):
            return
        self.cursors[cursor] = at if wanted else None

    def ask_where(self, request):
        cursor = request.get("cursor", 0)
        if cursor not in self.cursors:
            self.newer(f"p {cursor}\n", lambda replies: self.exactly(replies, f"no cursor {cursor}") if self.is_surely_unset(cursor) else self.begins(replies, "cursor ", "no cursor "))
            return
        at = self.cursors[cursor]
        look = lambda replies: self.begins(replies, "cursor ") if at is None else self.exactly(replies, f"cursor {at}")
        if cursor:
            self.newer(f"p {cursor}\n", look)
        else:
            self.send("p\n", look)

    def is_surely_unset(self, cursor):
        return cursor not in self.cursors

    def ask_text(self, _):
        wanted = self.text

        def look(replies):
            shown = replies.block("text").decode()
            need(wanted is None or shown == wanted, shown, wanted)
            need(self.shown is None or shown == self.shown, shown, f"{self.shown!r}, as the changes tell it,")
            self.shown = shown

        self.send("t\n", look)

    def ask_bad(self, _):
        self.send("? \n", lambda replies: self.exactly(replies, "bad"))

    # ---- the conversation

    def hold(self, end, piece):
        """Has the conversation, and returns the messages that may be handed on: those of a session that stored."""
        self.make()
        self.ask_text({})
        files = self.member.files()
        output = self.member.talk(self.given, end, piece)
        if output is None:
            if not self.stores and self.member.files() != files:
                raise Wrong("a session that was killed before it stored changed the files")
            return {}
        try:
            self.look_at_all(Replies(output))
        except Wrong as wrong:
            raise Wrong(f"{wrong}: {output!r}") from None
        return self.made

    def look_at_all(self, replies):
        # The text as one knows it who plays the changes; None once something changed that wasn't told.
        self.shown = self.before
        for look, line, tells in self.looks:
            begin = replies.at
            look(replies)
            if tells:
                told = replies.changes()
                if line[0] in "id" and replies.output[begin:].startswith(b"ok "):
                    need(told[:1] == [line], told, f"the edit {line!r} as its first change")
                self.shown = None if self.shown is None else played(self.shown, told)
            elif line is not None:
                self.shown = None
        line = replies.line()
        need(line == "saved" and not replies.rest(), line, "`saved` and nothing more")
        stored = self.member.text()
        need(stored == self.shown, stored, f"{self.shown!r}, the session's last text,")
