"""What a session answers, read piece by piece."""


class Wrong(Exception):
    """Something that never happens if the program is right."""


class Replies:
    def __init__(self, output):
        self.output, self.at = output, 0

    def line(self):
        end = self.output.find(b"\n", self.at)
        if end < 0:
            raise Wrong(f"a reply is missing: {self.output!r}")
        line, self.at = self.output[self.at : end].decode(), end + 1
        return line

    def block(self, word):
        told = self.line().split(" ")
        if told[0] != word or len(told) != 2:
            raise Wrong(f"{told} came where `{word} N` was to come")
        length = int(told[1])
        block = self.output[self.at : self.at + length]
        if len(block) != length or self.output[self.at + length : self.at + length + 1] != b"\n":
            raise Wrong(f"the {length} bytes of `{word}` aren't whole")
        self.at += length + 1
        return block

    def rest(self):
        return self.output[self.at :]

    def changes(self):
        """The changes that follow a reply once a session tells them: each is a place and a text that was put in, or how many characters went."""
        told = self.line().split(" ")
        if told[0] != "changes" or len(told) != 2:
            raise Wrong(f"{told} came where `changes K` was to come")
        return [self.line() for _ in range(int(told[1]))]
