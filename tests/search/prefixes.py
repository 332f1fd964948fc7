"""The complete part of a transcript that is cut anywhere."""


class Cut(Exception):
    """The text ends before the end of the wanted line."""


class Lines:
    """The complete lines of a text, in turn."""

    def __init__(self, text):
        self.text, self.at = text, 0

    def skip(self, count):
        for _ in range(count):
            self.at = self.text.find(b"\n", self.at) + 1
            if self.at == 0:
                raise Cut

    def next(self):
        """Returns the fields of the next line."""
        begin = self.at
        self.skip(1)
        return self.text[begin:self.at - 1].split(b" ")


def rest_of(lines, fields):
    """Skips the other lines of a step or of the start, after its first line."""
    word = fields[0]
    if word == b"start":
        lines.skip(int(fields[2]) if fields[1] == b"fit" else 0)
    elif word in (b"fit", b"outside"):
        lines.skip(int(fields[3]))
    elif word == b"log":
        lines.skip(1 + int(fields[4]))
    elif word == b"undecided":
        for _ in range(int(fields[3])):
            lines.skip(int(lines.next()[2]))


class Kept:
    """The complete part of a transcript's beginning: its size, the bounds of each step, and whether the `end` line is complete."""

    def __init__(self, text):
        self.size, self.steps, self.ended = 0, [], False
        lines = Lines(text)
        try:
            lines.next()
            self.size = lines.at
            rest_of(lines, lines.next())
            self.size = lines.at
            while not self.ended:
                fields = lines.next()
                rest_of(lines, fields)
                self.ended = fields[0] == b"end"
                if not self.ended:
                    self.steps.append((self.size, lines.at))
                self.size = lines.at
        except Cut:
            pass
