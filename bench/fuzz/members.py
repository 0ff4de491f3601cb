"""A member of a game: a folder in which the program runs, and what is expected of each call."""
import os
import shutil
import subprocess

from replies import Replies, Wrong

# A line for each request of the session's second version; and which of them a program knows, and whether it knows `e` of the third, and `s` with counts of the fourth.
NEWER = ("v", "w", "n", "c 0", "z", "y", "g", "k 0 1", "j 0", "p 1", "a 0")
KNOWN = {}

MARK = "\u0301"
ESCAPES = {"\n": "\\n", "\r": "\\r", "\\": "\\\\"}


def same(one, other, who):
    if (one.text(), one.ids()) != (other.text(), other.ids()):
        raise Wrong(f"{who} differ: {one.text()!r} and {other.text()!r}, {one.ids()} and {other.ids()}")


def spelled(edit):
    """The line of an edit, as `rls edit` and a session read it."""
    kind, at, count, text = edit
    if kind == "i":
        return f"i {at} " + "".join(ESCAPES.get(c, c) for c in text)
    return {"d": f"d {at} {count}", "b": f"b {at}", "r": "r"}[kind]


def performed(text, edit):
    """The text after the edit, or why it is refused, as docs/USE.md says it."""
    kind, at, count, more = edit
    total = len(text)
    if kind == "i":
        if at > total:
            return None, f"range {at} {total}"
        return text[:at] + more + text[at:], None
    if kind == "d":
        if count == 0:
            return None, "empty edit"
        if at + count > total:
            return None, f"range {at} {total}"
        return text[:at] + text[at + count :], None
    if kind == "b":
        if at == 0 or at > total:
            return None, f"range {at} {total}"
        if at < total and text[at] == MARK and text[at - 1] != "\n":
            return None, f"not a boundary {at}"
        first = at - 1
        while first > 0 and text[first] == MARK and text[first - 1] != "\n":
            first -= 1
        return text[:first] + text[at:], None
    return (None, "empty document") if total == 0 else (text, None)


def placed(text, edit):
    """The edit with a place of this text; an edit of kind x is one that is refused."""
    kind, at, count = edit["kind"], edit["at"], edit["count"]
    total = len(text)
    if kind == "x":
        return ("d", at % (total + 1) if at >= 0 else total, total + 1 + count, "")
    if kind == "d" and total:
        at = total - 1 if at < 0 else at % total
        return ("d", at, min(count, total - at), "")
    if kind == "b" and total:
        return ("b", total if at < 0 else 1 + at % total, 0, "")
    return (kind, total if at < 0 else at % (total + 1), count, edit["text"])


class Member:
    def __init__(self, program, folder, me):
        self.program, self.folder, self.me = program, folder, me
        self.has_left = False
        # Which requests of the session's second version its sessions know.
        self.known = set()

    # ---- the program

    def run(self, *words, given=b""):
        ran = subprocess.run([self.program, *words], input=given, cwd=self.folder, capture_output=True, timeout=600)
        if ran.returncode < 0:
            raise Wrong(f"{words[0]} was ended by signal {-ran.returncode}")
        return ran.returncode, ran.stdout, ran.stderr.decode(errors="replace")

    def wanted(self, *words, given=b"", status=0, errors=""):
        found, output, said = self.run(*words, given=given)
        if (found, said) != (status, errors):
            raise Wrong(f"{words} of member {self.me} ended with status {found} and {said!r}, not {status} and {errors!r}")
        return output

    def files(self):
        found = {}
        for name in sorted(os.listdir(self.folder)):
            with open(f"{self.folder}/{name}", "rb") as it:
                found[name] = it.read()
        return found

    def copy(self, folder):
        shutil.rmtree(folder, ignore_errors=True)
        shutil.copytree(self.folder, folder)
        beside = Member(self.program, folder, self.me)
        beside.has_left, beside.known = self.has_left, self.known
        return beside

    def remove(self):
        shutil.rmtree(self.folder, ignore_errors=True)

    # ---- what it shows

    def text(self):
        return self.wanted("text").decode()

    def ids(self):
        return self.wanted("ids").decode()

    def stat(self):
        return dict(line.split(" ", 1) for line in self.wanted("stat").decode().splitlines())

    def accepted(self):
        return self.stat()["accepted"].split()

    # ---- commands

    def begin(self, group, members):
        told = self.wanted("new", str(group), str(self.me), str(members)).decode()
        if told != f"new {group} {self.me} {members}\n":
            raise Wrong(f"new answered {told!r}")
        if self.program not in KNOWN:
            KNOWN[self.program] = {line.split(" ")[0] for line in NEWER if self.answer(line) != "bad"}
            if "v" in KNOWN[self.program] and len(KNOWN[self.program]) < len(NEWER):
                raise Wrong(f"a session says that it knows the second version, and answers `bad` to all but {KNOWN[self.program]}")
            if self.answer("v 3") == "version 3":
                KNOWN[self.program].add("e")
            if self.answer("v 4") == "version 4":
                KNOWN[self.program].add("s")
        self.known = KNOWN[self.program]

    def lines(self, edits):
        """The edits with places of the text as it is, so that most are accepted; an edit of kind x is one that is refused."""
        text, made = self.text(), []
        for edit in edits:
            made.append(placed(text, edit))
            text = performed(text, made[-1])[0] or text
        return made

    def expected(self, lines):
        """What comes of these lines: the text, and where the first refused one is and why."""
        text = self.text()
        if self.has_left:
            # A line b is refused by the text first.
            first = performed(text, lines[0])[1] if lines[0][0] == "b" else None
            return text, (0, first or "left")
        for number, line in enumerate(lines):
            after, why = performed(text, line)
            if why:
                return self.text(), (number, why)
            text = after
        return text, None

    def edit(self, lines):
        text, refused = self.expected(lines)
        before = self.files()
        script = "\n".join(spelled(line) for line in lines).encode()
        if refused:
            self.wanted("edit", given=script, status=6, errors=f"line {refused[0] + 1}: {refused[1]}\n")
            if self.files() != before:
                raise Wrong("a refused script changed the files")
        else:
            told = self.wanted("edit", given=script).decode()
            if told != f"edits {len(lines)} released 0 refused 0\n":
                raise Wrong(f"edit answered {told!r}")
        if self.text() != text:
            raise Wrong(f"{script!r} made {self.text()!r}, not {text!r}")

    def send(self, to):
        return self.wanted("send", str(to))

    def take(self, message):
        told = self.wanted("take", given=message).decode().split()
        if told[0::2] != ["applied", "released", "repeated", "held", "refused"] or told[9] != "0":
            raise Wrong(f"take answered {told}")

    def take_damaged(self, message):
        before = self.files()
        status, output, said = self.run("take", given=message)
        if status == 4:
            if self.files() != before or not said.startswith(("malformed at ", "other group ")):
                raise Wrong(f"a damaged message was answered by {said!r}, and the files {'changed' if self.files() != before else 'stayed'}")
        elif status not in (0, 5) or (status == 5) != said.startswith("refused "):
            raise Wrong(f"a damaged message was answered by status {status} and {said!r}")
        self.text(), self.ids(), self.stat()

    def leave(self):
        if self.has_left:
            self.wanted("leave", status=6, errors="line 1: left\n")
        else:
            self.wanted("leave")
            self.has_left = True

    # ---- sessions

    def talk(self, given, end, piece=0):
        """Hands the requests to a session, in pieces of so many bytes if not 0, and returns its replies; None if it was killed."""
        session = subprocess.Popen([self.program, "session"], cwd=self.folder, stdin=subprocess.PIPE, stdout=subprocess.PIPE, stderr=subprocess.PIPE)
        if end == "kill":
            session.stdin.write(given)
            session.stdin.flush()
            session.kill()
            session.communicate()
            return None
        given += b"q\n" if end == "quit" else b""
        if piece and len(given) < 4000:
            for at in range(0, len(given), piece):
                session.stdin.write(given[at : at + piece])
                session.stdin.flush()
            given = b""
        output, said = session.communicate(given, timeout=600)
        if session.returncode or said:
            raise Wrong(f"a session of member {self.me} ended with status {session.returncode} and {said!r}")
        return output

    def session_of_lines(self, lines):
        """The same edits as a script's, in a session, which goes on after a refused one: so it is ended there, and nothing is stored by `edit`."""
        text, refused = self.expected(lines)
        if refused:
            return
        output = self.talk("".join(spelled(line) + "\n" for line in lines).encode(), "quit").decode().splitlines()
        if len(output) != len(lines) + 1 or not all(line.startswith("ok ") for line in output[:-1]) or output[-1] != "saved":
            raise Wrong(f"a session answered {output} to edits that `edit` accepts")

    def answer(self, line):
        """The reply to one request in a session of its own."""
        return Replies(self.talk(line.encode() + b"\n", "quit")).line()

    def undo_right_after(self, edit):
        text = self.text()
        line = placed(text, edit)
        after, why = performed(text, line)
        if why or self.has_left:
            return
        output = self.talk((spelled(line) + "\nu\nt\n").encode(), "quit")
        replies = Replies(output)
        # (a rename changes no text, and there is nothing of it to undo)
        undone = "no nothing" if line[0] == "r" else "undone "
        if not replies.line().startswith("ok ") or not replies.line().startswith(undone):
            raise Wrong(f"an edit and its undo were answered by {output!r}")
        if replies.block("text").decode() != text:
            raise Wrong(f"the text after {line} and its undo isn't {text!r}: {output!r}")
