"""How a vector file is written, and bytes that are forged."""
import hashlib
import importlib.machinery
import importlib.util
import json
import os
import sys
import tempfile

HERE = os.path.dirname(os.path.abspath(__file__))
sys.dont_write_bytecode = True


def module(name):
    loader = importlib.machinery.SourceFileLoader(name, os.path.join(HERE, name))
    made = importlib.util.module_from_spec(importlib.util.spec_from_loader(name, loader))
    loader.exec_module(made)
    return made


R, S = module("replay"), module("second")
MID, M32 = 2147483647, 4294967295


def spelled(data):
    try:
        text = data.decode()
    except UnicodeDecodeError:
        return data.hex()
    if all(c == "\n" or c == "\r" or c >= " " for c in text):
        return json.dumps(text)
    return data.hex()


class Vectors:
    """One vector file while it is written: each step is run by the program."""

    def __init__(self, name, title, folder):
        self.lines = [f"# {line}" for line in title.split("\n")]
        self.top = tempfile.TemporaryDirectory()
        self.folders, self.path = R.Folders(self.top.name), os.path.join(folder, name + ".txt")
        self.named = {}
        self.base, self.is_short = None, name != "forms"

    def note(self, text):
        self.lines += ["", f"# {text}"]

    def step(self, member, words, data=b"", put=None, requests=None):
        member = str(member)
        if put is not None:
            self.folders.put(member, put)
        before = self.folders.kept(member)
        if requests:
            data = b"".join(requests)
        status, out, err = self.folders.run(member, words.split(" "), data)
        after = self.folders.kept(member)
        self.lines.append(f"{member} $ {words}")
        if put is not None:
            self.lines.append("  " + self.putting(put))
        if requests:
            self.session(requests, out)
        else:
            if data:
                self.lines.append(f"  in {self.named.get(data) or spelled(data)}")
            if status:
                self.lines.append(f"  status {status}")
            if out:
                self.lines.append(f"  out {spelled(out)}")
                if words.startswith("send") and out not in self.named:
                    self.named[out] = f"m{len(self.named)}"
                    self.lines.append(f"  as {self.named[out]}")
        for line in err.decode().splitlines():
            self.lines.append(f"  err {json.dumps(line + chr(10))}")
        if after != before:
            self.lines.append(f"  sha256 {hashlib.sha256(after).hexdigest()}" if self.is_short and len(after) > 160 else f"  file {after.hex()}")
        return out

    def putting(self, put):
        """The line that puts this file: anew, or from the one that was put so before."""
        base = self.base
        if base is not None:
            if put == base:
                return "put again"
            begin, end = len(os.path.commonprefix([base, put])), 0
            while end < min(len(base), len(put)) - begin and base[-1 - end] == put[-1 - end]:
                end += 1
            if 2 * (len(put) - begin - end) <= len(put):
                return f"patch {begin} {len(base) - end} {put[begin:len(put) - end].hex()}".rstrip()
        self.base = put
        return f"put {put.hex()}" if put else 'put ""'

    def session(self, requests, out):
        """Each request with its reply; replies of several lines are cut by their first line."""
        at = 0
        def line():
            nonlocal at
            end = out.index(b"\n", at) + 1
            got, at = out[at:end], end
            return got
        for request in requests:
            self.lines.append(f"  in {spelled(request)}")
            got = line()
            head = got.split(b" ")
            if head[0] in (b"text", b"message", b"stat"):
                n = int(head[1]) + 1
                got, at = got + out[at:at + n], at + n
            self.lines.append(f"  out {spelled(got)}")
            while out[at:].startswith(b"changes "):
                got = line()
                for _ in range(int(got.split(b" ")[1])):
                    got += line()
                self.lines.append(f"  out {spelled(got)}")
        while at < len(out):
            self.lines.append(f"  out {spelled(line())}")

    def group(self, n, number=7):
        for m in range(n):
            self.step(m, f"new {number} {m} {n}")

    def edit(self, member, *lines):
        self.step(member, "edit", "".join(line + "\n" for line in lines).encode())

    def give(self, a, *others):
        for b in others:
            self.step(b, "take", self.step(a, f"send {b}"))

    def show(self, *members):
        for m in members:
            for word in ("text", "ids", "stat"):
                self.step(m, word)

    def done(self):
        with open(self.path, "w", encoding="utf-8") as file:
            file.write("\n".join(self.lines) + "\n")
        self.top.cleanup()


# ---------------------------------------------------------------- forged bytes

def ident(*tuples):
    return tuple(S.LOW if t == "low" else S.HIGH if t == "high" else S.at(*t) for t in tuples)


def message(sender, vector, *ops, group=7, form=3):
    return (b"RLSM" + bytes([form]) + S.struct.pack(">QII", group, len(vector), sender) + S.enc_vector(vector) + S.u32(len(ops))
            + b"".join(map(S.enc_op, ops)))


def sole(chars, vector, stems, me=0):
    """A file of a group in which all is stable: characters with their identifiers."""
    r = S.Replica(7, me, len(vector))
    r.vector = list(vector)
    r.rows = {a: list(vector) for a in r.rows}
    r.stems = {k: list(v) for k, v in stems.items()}
    pairs = sorted(chars)
    r.ids, r.chars = [x for x, _ in pairs], [c for _, c in pairs]
    return S.enc_file(r)
