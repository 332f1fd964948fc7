"""What passes through the launcher: the program's output on its way to standard output, what is said on standard error, and the line
that shows on a terminal that the program runs.
"""
import os
import select
import time

# A pipe that is ready for writing takes this much at once, so that no write waits and a signal is always answered.
AT_ONCE = select.PIPE_BUF
# What is kept of the program's output, in bytes: enough to know an error by, and the 256 lines of the longest batch, each with a name of
# at most 4,095 bytes, as the system opens them, and a status.
KEPT_FIRST = 64
KEPT_LAST = 256 * 4_098
SECONDS_BEFORE_LIFE = 2
ERASE = b"\r\x1b[K"


class Printed:
    """What the program printed: its first bytes and its last ones."""

    def __init__(self):
        self.first = b""
        self.last = bytearray()

    def add(self, chunk):
        """Keeps what is needed of the next bytes, at a cost that is linear in them."""
        self.first += chunk[: KEPT_FIRST - len(self.first)]
        self.last += chunk
        if len(self.last) > 2 * KEPT_LAST:
            del self.last[:-KEPT_LAST]


class Life:
    """The line that shows on a terminal that the program runs."""

    def __init__(self, process):
        self.process = process
        self.begin = time.monotonic()
        self.due = self.begin + SECONDS_BEFORE_LIFE if os.isatty(2) else None
        self.is_shown = False
        # Whether the output that was passed on ends within a line of the terminal, which is not to be erased.
        self.is_within_line = False

    def milliseconds(self):
        """How long it is until the line is due, or None where it never is."""
        return None if self.due is None else max(0, int((self.due - time.monotonic()) * 1000) + 1)

    def tick(self):
        """Writes the line where it is due."""
        now = time.monotonic()
        if self.due is None or now < self.due:
            return
        self.due += 1 + int(now - self.due)
        if not self.is_within_line and is_foreground():
            self.is_shown = True
            say(ERASE + life_line(self.process, now - self.begin).encode())

    def clear(self):
        """Removes the line."""
        if self.is_shown:
            self.is_shown = False
            say(ERASE)


class Flow:
    """The program's output on its way to standard output."""

    def __init__(self, read_end, life):
        self.read_end = read_end
        self.life = life
        self.printed = Printed()
        self.pending = b""
        # Why standard output failed.
        self.error = None
        os.set_blocking(read_end, False)

    def events(self):
        """What is to be waited for: a descriptor with its event, or nothing where no more is to come."""
        if self.pending:
            return [(1, select.POLLOUT)]
        return [] if self.read_end is None else [(self.read_end, select.POLLIN)]

    def read(self):
        """Takes the next bytes. Returns whether there were any."""
        try:
            self.pending = os.read(self.read_end, 1 << 16)
        except BlockingIOError:
            return False
        if not self.pending:
            self.close()
            return False
        tried(self.printed.add, self.pending)
        return True

    def write(self):
        """Passes bytes on. Where that fails the pipe is closed, so that a program that still prints sees it too."""
        tried(self.life.clear)
        try:
            count = os.write(1, self.pending[:AT_ONCE])
        except BlockingIOError:
            return
        except OSError as error:
            self.fail(error)
            return
        self.life.is_within_line = os.isatty(1) and self.pending[count - 1] != ord("\n")
        self.pending = self.pending[count:]

    def step(self):
        """Passes bytes on or takes the next ones, as `events` says."""
        if self.pending:
            self.write()
        elif self.read_end is not None:
            self.read()

    def drain(self, is_waiting):
        """Passes on what the program left in the pipe; where it may not wait, as much as standard output takes at once."""
        while self.pending or self.read_end is not None and self.read():
            if not ready([(1, select.POLLOUT)], None if is_waiting else 0):
                break
            self.write()
        self.close()

    def fail(self, error):
        """Ends the flow where bytes can't be passed on."""
        self.error = error
        self.pending = b""
        self.close()

    def close(self):
        """Closes the pipe."""
        if self.read_end is not None:
            os.close(self.read_end)
            self.read_end = None


def tried(helper, *arguments):
    """What a helper returns, or None where it fails: a fault of the help changes nothing of what the program does."""
    try:
        return helper(*arguments)
    except Exception:  # pylint: disable=broad-except
        return None


def say(text):
    """Writes bytes to standard error. Where that fails nothing is said."""
    try:
        while text:
            text = text[os.write(2, text) :]
    except OSError:
        pass


def shown(raw, most=None):
    """Bytes as they may be written to a terminal: what can't be printed is escaped. Of more characters than are wanted the first ones,
    and two points."""
    pieces, length = [], 0
    for piece in map(escaped, raw.decode("utf-8", "surrogateescape")):
        length += len(piece)
        if most is not None and length > most:
            return "".join(pieces) + " .."
        pieces.append(piece)
    return "".join(pieces)


def escaped(character):
    """A character, or its escape where it can't be printed."""
    if character.isprintable():
        return character
    number = ord(character)
    # A byte that is no UTF-8 was decoded to one of these.
    return f"\\x{number - 0xDC00:02x}" if 0xDC80 <= number <= 0xDCFF else character.encode("unicode_escape").decode()


def ready(events, milliseconds):
    """The descriptors among these, each with its event, that are ready within so many milliseconds (None: however long it takes)."""
    poller = select.poll()
    for descriptor, event in events:
        poller.register(descriptor, event)
    return {descriptor for descriptor, _ in poller.poll(milliseconds)}


def is_foreground():
    """Whether the launcher may write to the terminal: a job in the background leaves it to the others."""
    try:
        return os.tcgetpgrp(2) == os.getpgrp()
    except OSError:
        return True


def life_line(process, seconds):
    """The line of a program that has run for so many seconds, with its memory where the system tells it."""
    minutes, rest = divmod(int(seconds), 60)
    memory = tried(resident, process)
    return f"running {minutes}:{rest:02}" + ("" if memory is None else f", {memory // 1_000_000} MB")


def resident(process):
    """The bytes of a process that are in memory."""
    with open(f"/proc/{process}/statm", encoding="ascii") as file:
        return int(file.read().split()[1]) * os.sysconf("SC_PAGE_SIZE")
