"""Sessions of the second implementation, from docs/SESSION.md, docs/UNDO.md and section 13 of docs/PROTOCOL.md. It counts no bytes of input."""
import bisect

MOST_DRAFT = 4096                               # characters of a draft, and characters that it takes out


def escaped(text):
    return text.replace("\\", "\\\\").replace("\n", "\\n").replace("\r", "\\r")


class Session:
    def __init__(self, second, rep, save):
        self.S, self.rep, self.save = second, rep, save
        self.entries = []                       # of `u`: (epoch, identifiers, None) or (epoch, first, text)
        self.back, self.again, self.is_open = [], [], False     # of `z` and `y`: groups, each its number and then its steps
        self.groups = 0
        self.epoch, self.names, self.labels = rep.greatest(), [], {}
        self.cursors, self.telling, self.lines = {0: None}, False, []
        self.shown = None                       # with a draft: the text that is shown, a list of places of the replica's text and of new characters
        rep.apply = self.watched(rep.apply)

    # what changes

    def ranges(self, ids):
        """The maximal ranges of places of those that are in the text; ids are increasing, and of the greatest epoch."""
        out = []
        for x in ids:
            if self.rep.has(x):
                p = bisect.bisect_left(self.rep.ids, x)
                if out and sum(out[-1]) == p:
                    out[-1][1] += 1
                else:
                    out.append([p, 1])
        return out

    def watched(self, apply):
        S, rep = self.S, self.rep

        def applied(o):
            if o.kind == S.DELETE:
                gone = 0
                for p, n in self.ranges(rep.translate(o.epoch, rep.greatest(), S.ids_of(o.runs))):
                    self.lines.append(f"d {p - gone} {n}")
                    gone += n
            apply(o)
            if o.kind == S.INSERT:
                for p, n in self.ranges(rep.translate(o.epoch, rep.greatest(), S.ids_of([(o.first, len(o.text))]))):
                    self.lines.append(f"i {p} {escaped(''.join(rep.chars[p:p + n]))}")
        return applied

    # u

    def edit(self, line):
        S, rep = self.S, self.rep
        edit = S.edit_of(rep, line)
        if edit[0] == S.RENAME:
            return f"ok {rep.edit(edit).seq}"
        rep.made(edit)                          # or refused
        if edit[0] == S.INSERT:
            o = rep.edit(edit)
            self.entries.append((o.epoch, S.ids_of([(o.first, len(o.text))]), None))
            steps = [("put", [self.label(x) for x in rep.ids[edit[1]:edit[1] + len(o.text)]])]
        else:
            _, pos, count = edit
            self.entries.append((rep.greatest(), rep.ids[pos], "".join(rep.chars[pos:pos + count])))
            steps = self.cuts(pos, count)
            o = rep.edit(edit)
        if not self.is_open:
            self.groups += 1
            self.back.append([self.groups])
        self.back[-1] += steps
        self.is_open, self.again = True, []
        return f"ok {o.seq}"

    def undo(self):
        S, rep = self.S, self.rep
        if not self.entries:
            raise S.Refused("nothing")
        epoch, what, text = self.entries[-1]
        edits = chars = 0
        if text is None:
            todo = [(S.DELETE, p, n) for p, n in reversed(self.ranges(rep.translate(epoch, rep.greatest(), what)))]
        else:
            todo = [(S.INSERT, bisect.bisect_left(rep.ids, rep.translate(epoch, rep.greatest(), [what])[0]), text)]
        for edit in todo:
            rep.edit(edit)
            edits += 1
            chars += len(edit[2]) if edit[0] == S.INSERT else edit[2]
        self.entries.pop()
        return f"undone {edits} {chars}"

    # z and y

    def settle(self):
        top = self.rep.greatest()
        if top != self.epoch:
            self.names = self.rep.translate(self.epoch, top, self.names)
            self.labels, self.epoch = {x: k for k, x in enumerate(self.names)}, top

    def label(self, x):
        self.settle()
        if x not in self.labels:
            self.labels[x] = len(self.names)
            self.names.append(x)
        return self.labels[x]

    def cuts(self, pos, count):
        """The steps that a deletion leaves, before it is done."""
        rep, most = self.rep, self.S.MOST_CHARS
        steps = []
        for p in range(pos, pos + count, most):
            n = min(most, pos + count - p)
            left = self.label(rep.ids[p - 1]) if p else None
            right = self.label(rep.ids[p + n]) if p + n < len(rep.ids) else None
            steps.append(("cut", [self.label(x) for x in rep.ids[p:p + n]], "".join(rep.chars[p:p + n]), left, right))
        return steps

    def step_back(self, step, made):
        S, rep = self.S, self.rep
        self.settle()
        if step[0] == "put":
            ranges = self.ranges(sorted(self.names[k] for k in step[1]))
            if not ranges:
                made.append(("put", []))
            for p, n in reversed(ranges):
                rep.made((S.DELETE, p, n))
                cut = self.cuts(p, n)
                rep.edit((S.DELETE, p, n))
                made += cut
            return
        _, labels, text, left, right = step
        place = lambda k: bisect.bisect_left(rep.ids, self.names[k])
        if left is None:
            p = 0
        elif rep.has(self.names[left]):
            p = place(left) + 1
        elif right is not None and rep.has(self.names[right]):
            p = place(right)
        else:
            p = place(left)
        rep.edit((S.INSERT, p, text))
        for k, x in zip(labels, rep.ids[p:p + len(text)]):
            self.labels.pop(self.names[k], None)
            self.names[k], self.labels[x] = x, k
        made.append(("put", labels))

    def turn(self, word, source, target):
        if not source:
            raise self.S.Refused("nothing")
        self.is_open = False
        group, made = source[-1], []
        count = len(group) - 1
        try:
            while len(group) > 1:
                self.step_back(group[-1], made)
                group.pop()
            source.pop()
        finally:
            if made and target and target[-1][0] == group[0]:
                target[-1] += made
            elif made:
                target.append([group[0]] + made)
        return f"{word} {count}"

    # e

    def draft(self):
        """at, count and text of the draft that a list of what is shown says; None if it says nothing"""
        if self.shown is None:
            return None
        kept = {x for x in self.shown if isinstance(x, int)}
        gone = [k for k in range(len(self.rep.ids)) if k not in kept]
        new = [k for k, x in enumerate(self.shown) if isinstance(x, str)]
        if not gone and not new:
            return None
        return (gone or new)[0], len(gone), "".join(self.shown[k] for k in new)

    def plan(self, at, count, text):
        """The edits that a draft means, the insertion first"""
        S, rep = self.S, self.rep

        def tuples(pos):
            try:
                o = rep.made((S.INSERT, pos, text))
            except S.Refused:
                return None
            return len(o.first) if o.first[-1][3] != o.seq else None
        if not count:
            return [(S.INSERT, at, text)]
        if not text:
            return [(S.DELETE, at, count)]
        before, after = tuples(at), tuples(at + count)
        if before is not None and (after is None or before < after):
            return [(S.INSERT, at, text), (S.DELETE, at + len(text), count)]
        return [(S.INSERT, at + count, text), (S.DELETE, at, count)]

    def check(self, at, count, text):
        """Refused, if its edits can't be made"""
        if count:
            self.rep.made((self.S.DELETE, at, count))
        if text or not count:
            self.rep.made(self.plan(at, count, text)[0])
        if count and text and self.rep.vector[self.rep.me] + 1 >= self.S.M32:
            raise self.S.Refused("numbers spent")

    def make(self):
        draft, self.shown = self.draft(), None
        if draft:
            for edit in self.plan(*draft):
                self.edit(edit)
            self.rep.release([])

    def change(self, at, count, text):
        draft, old = self.draft(), self.shown
        if draft and (count or text) and at + count <= len(old) and at <= draft[0] + len(draft[2]) and draft[0] <= at + count:
            self.shown = old[:at] + list(text) + old[at + count:]
            now = self.draft()
            try:
                if now is None:
                    return "ok"
                if now[1] <= MOST_DRAFT and len(now[2]) <= MOST_DRAFT:
                    self.check(*now)
                    return "ok"
            except self.S.Refused:
                pass
            self.shown = old
        self.make()
        self.check(at, count, text)
        text_now = list(range(len(self.rep.ids)))
        self.shown = text_now[:at] + list(text) + text_now[at + count:]
        return "ok"

    def change_of(self, raw):
        """POS, COUNT and TEXT of a line `e`; None if it is none"""
        try:
            word, _, rest = raw.decode().partition(" ")
        except UnicodeDecodeError:
            return None
        place, _, rest = rest.partition(" ")
        line = self.S.parse_line(b"i " + rest.encode())
        if word != "e" or self.S.number(place) is None or line is None or line[0] != self.S.INSERT:
            return None
        return self.S.number(place), line[1], line[2]

    # cursors

    def place(self, cursor):
        if cursor is None:
            return 0
        side, epoch, x = cursor
        y = self.rep.translate(epoch, self.rep.greatest(), [x])[0]
        return (bisect.bisect_right if side == "after" else bisect.bisect_left)(self.rep.ids, y)

    def cursor(self, word, at):
        n = len(self.rep.ids)
        if at > n:
            raise self.S.Refused(f"range {at} {n}")
        if word == "j" and at < n:
            return "before", self.rep.greatest(), self.rep.ids[at]
        return ("after", self.rep.greatest(), self.rep.ids[at - 1]) if at else None

    def spelled(self, cursor):
        if cursor is None:
            return "beginning"
        side, epoch, x = cursor
        return f"{side}:{'origin' if epoch == self.S.ORIGIN else '%d.%d' % epoch}:{self.S.show(x)}"

    def read_place(self, word):
        """A cursor, None for the beginning; ValueError if it is no place"""
        S = self.S
        if word == "beginning":
            return None
        side, epoch, x = word.split(":")
        if side not in ("after", "before"):
            raise ValueError

        def number(w, least, most):
            n = S.number(w.removeprefix("-"), 2**32)
            if n is None or w == "-0" or not least <= (-n if w[0] == "-" else n) <= most:
                raise ValueError
            return -n if w[0] == "-" else n
        if epoch != "origin":
            r, s = epoch.split(".")
            epoch = number(r, 0, S.M32), number(s, 0, S.M32)
        else:
            epoch = S.ORIGIN
        out, tuples = [], x.split("/")
        for i, t in enumerate(tuples):
            last = i + 1 == len(tuples)
            if t in ("low", "high") and not last:
                out.append(S.LOW if t == "low" else S.HIGH)
                continue
            a, b, c, d = t.split(".")
            out.append(S.at(*(number(w, 0, S.M32) for w in (a, b, c)), number(d, -S.TOP - (not last), S.TOP - 1)))
        return side, epoch, tuple(out)

    # requests

    def told(self, do):
        """The reply, and what changed."""
        self.lines.clear()
        try:
            reply = do()
        except self.S.Refused as e:
            reply = "no " + e.why
        self.rep.release([])
        tail = [f"changes {len(self.lines)}", *self.lines] if self.telling else []
        return "".join(x + "\n" for x in [reply, *tail]).encode()

    def take(self, data):
        try:
            return self.rep.take(self.S.dec_message(data))[0][:-1]
        except self.S.Fault as e:
            raise self.S.Refused(f"malformed at {e.place}") from None

    def answer(self, raw, read):
        """The reply to a line; None if the input ended within a message"""
        S, rep = self.S, self.rep
        change = self.change_of(raw)
        if change is not None:
            try:
                return f"{self.change(*change)}\n".encode()
            except S.Refused as e:
                return f"no {e.why}\n".encode()
        self.make()
        line = S.parse_line(raw)
        if line is not None:
            return self.told(lambda: self.edit(line))
        if raw == b"u":
            return self.told(self.undo)
        if raw in (b"z", b"y"):
            return self.told(lambda: self.turn("back", self.back, self.again) if raw == b"z" else self.turn("again", self.again, self.back))
        try:
            word, _, rest = raw.decode().partition(" ")
            alone = raw.decode() == word
        except UnicodeDecodeError:
            return b"bad\n"
        numbers = [S.number(w) for w in rest.split(" ")]
        n = None if None in numbers else numbers[0]
        try:
            if word == "m" and n is not None and len(numbers) == 1:
                data = read(n)
                return self.told(lambda: self.take(data)) if len(data) == n else None
            if alone and word in ("t", "n"):
                data = ("".join(rep.chars) if word == "t" else S.stat_of(rep)).encode()
                return b"%s %d\n%s\n" % (b"text" if word == "t" else b"stat", len(data), data)
            if alone and word == "o":
                return (self.costs() + "\n").encode()
            if word == "s" and len(numbers) in (1, 1 + rep.members) and all(k is not None and k <= S.M32 for k in numbers):
                if n >= rep.members:
                    raise S.Refused(f"not a member {n}")
                data = rep.message(n, numbers[1:])
                return b"message %d\n%s\n" % (len(data), data)
            return (self.line(word, alone, rest, n, numbers) + "\n").encode()
        except S.Refused as e:
            return f"no {e.why}\n".encode()

    def costs(self):
        """What a rename would bring: its operation is made, whether or not it would be refused, and measured."""
        S, rep = self.S, self.rep
        runs = S.runs_of(rep.ids)
        rename = S.Op(rep.me, rep.vector[rep.me] + 1, rep.vector, rep.greatest(), S.RENAME, runs=runs)
        own = [len(S.enc_op(o)) for o in rep.unstable() if o.author == rep.me]
        return (f"rename {len(S.enc_op(rename))} limit {S.MOST_OP} runs {len(runs)} tuples {sum(len(first) for first, _ in runs)}"
                f" epochs {len(rep.retained())} own {len(own)} bytes {sum(own)}")

    def line(self, word, alone, rest, n, numbers):
        S, rep = self.S, self.rep
        if alone and word == "v":
            return "version 2"
        if word == "v" and rest in ("1", "2", "3", "4"):
            return f"version {rest}"
        if alone and word == "g":
            self.is_open = False
            return f"groups {len(self.back)} {len(self.again)}"
        if word == "c" and rest in ("0", "1"):
            self.telling = rest == "1"
            return f"telling {rest}"
        if word in ("k", "j") and n is not None and len(numbers) <= 2 and (numbers + [0])[1] < 64:
            self.cursors[(numbers + [0])[1]] = self.cursor(word, n)
            return f"cursor {n}"
        if word == "p" and (alone or n is not None and len(numbers) == 1 and n < 64):
            n = 0 if alone else n
            if n not in self.cursors:
                raise S.Refused(f"cursor {n}")
            return f"cursor {self.place(self.cursors[n])}"
        if word == "a" and n is not None and len(numbers) == 1:
            return "anchor " + self.spelled(self.cursor("k", n))
        if word == "l":
            try:
                cursor = self.read_place(rest)
            except (ValueError, IndexError):
                return "bad"
            if cursor is not None and cursor[1] not in rep.retained():
                raise S.Refused("epoch")
            return f"cursor {self.place(cursor)}"
        return "bad"


def serve(second, rep, source, write, save):
    session = Session(second, rep, save)
    while True:
        raw = source.readline()
        line = raw.removesuffix(b"\n")
        reply = None
        if raw == b"" or line == b"q":
            break
        if line == b"w":
            session.make()
            save()
            del session.entries[:-10000]
            reply = b"saved\n"
        else:
            reply = session.answer(line, source.read)
        write(b"bad\n" if reply is None else reply)
        if reply is None:
            break
    session.make()
    save()
    write(b"saved\n")
