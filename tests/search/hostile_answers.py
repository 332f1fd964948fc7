"""What a run of the program on hostile words and files may answer, print and store.

This module reads the words itself, as the command line is described. Status 2 must come exactly if they are no command, and an
output name given twice must be reported exactly if there is one.

The module also checks that the command may end with the status. The printed line must belong to the status and name the right
file. Nothing may be stored that should not be. At status 0 and 1 the printed and the stored outputs must agree.

The module checks neither that a file is rightly rejected nor that a result is the clock rule's. But it reads the list of a batch
itself, and the program must reject the list exactly if the module does. It also determines the complete part of a beginning. If the
program accepts a beginning, what is stored must begin with that part.
"""
import itertools
import json
import os
import re

from prefixes import Kept

# The statuses of each command, except 2, which depends on the words, and 8: memory is ample.
STATUSES = {
    "run": {0, 1, 3, 4, 5, 6, 7}, "live": {0, 1, 3, 4, 5, 6, 7}, "check": {0, 3, 5}, "verify": {0, 1, 3, 5, 9},
    "verify-live": {0, 1, 3, 5, 9}, "show": {0, 1, 3, 4, 5, 9}, "show-live": {0, 1, 3, 4, 5, 9}, "resume": {0, 1, 3, 4, 5, 6, 7, 9},
    "seek": {0, 1, 3, 4, 5, 6, 7}, "make": {0, 1, 4, 5}, "batch": {0, 1, 3, 4, 5, 11},
}
# The inputs of each command, in the order of their names, and the number of outputs after them. `make` has two numbers before its
# outputs. The outputs of a batch are in its list.
AUCTION = ("domains", "rows", "scenario")
INPUTS = {
    "run": AUCTION, "live": (*AUCTION, "owners"), "check": AUCTION, "verify": (*AUCTION, "transcript"),
    "verify-live": (*AUCTION, "owners", "transcript"), "show": (*AUCTION, "transcript"), "show-live": (*AUCTION, "owners", "transcript"),
    "resume": (*AUCTION, "prefix"), "seek": AUCTION, "make": (), "batch": ("domains", "rows", "list"),
}
OUTPUTS = {
    "run": 3, "live": 3, "check": 0, "verify": 0, "verify-live": 0, "show": 2, "show-live": 2, "resume": 3, "seek": 1, "make": 3,
    "batch": 0,
}
LONGEST = 255
SIZES = range(1, 4097)
ROW = rb"line (?P<line>[1-9]\d*): "
DOMAIN_ROW = ROW + rb"(short row|unknown key|bad number|channel out of range|second domain row|too many)"
NO_ROW = rb"no domain row for station \d+"
LINES = {
    "domains": DOMAIN_ROW + b"|" + NO_ROW,
    "rows": ROW + rb"(short row|unknown key|bad number|channel out of range|channels do not fit the key|too many)",
    "scenario": rb"not JSON|(missing|wrong kind|out of limit) [a-z]+( at [1-9]\d*)?|repeated station \d+|decrements exceed the opening|no cdcl worker",
    "owners": ROW + rb"(not three fields|bad number|round out of range|unknown station|bad word|repeated)",
    "transcript": rb"version|" + ROW + rb"bad line|truncated|step \d+: (order|not valid)",
    "prefix": rb"version|" + ROW + rb"bad line|step \d+: (order|not valid)",
}
SUMMARY = re.compile(rb"stations (\d+)\non-air (\d+)\nfrozen (\d+)\nundecided (\d+)\ntotal (\d+)\n")
TOPS = re.compile(rb"top (\d+)\n(undecided (\d+)\n)?")
COUNTS = re.compile(rb"stations \d+\npairs \d+\nself-pairs \d+\nstrangers \d+\n")
RESULT = re.compile(rb"facility,outcome,round,price\n(\d+,(start,0,0|exit,[1-9]\d*,0|(frozen|undecided),[1-9]\d*,\d+)\n)*")
CHANNELS = re.compile(rb"facility,channel\n(\d+,[1-5]\d\n)*")
# A field of a line of a list: a quoted part and the rest up to the field's end. The line's end also closes the quotes.
FIELD = re.compile(rb'(?:"((?:[^"]|"")*)(?:"|\Z))?([^,\r]*)(,|\r|\Z)')
# The end of a line that names a step.
UNSHOWN = re.compile(rb": step (\d+): (order|not valid)\n\Z")
MARK = b"\xef\xbb\xbf"
MOST_LISTED = 256


class Wrong(Exception):
    """A run with a forbidden end."""


def need(so, what):
    """Fails with `what` unless `so` holds."""
    if not so:
        raise Wrong(what)


def whole(word, most):
    """Returns the number that a word is, from 0 to `most`, or `None`."""
    return int(word) if re.fullmatch(r"\+?[0-9]{1,5000}", word) and int(word.lstrip("+0")[:30] or 0) <= most else None


class Order:
    """The command that words are: its name, its inputs and its outputs, and for `make` the number of stations."""

    def __init__(self, words):
        self.name = words[0]
        first = 2 if self.name == "make" else 0
        middle = first + len(INPUTS[self.name])
        self.size = int(words[2]) if first else None
        self.inputs, self.outputs = words[1 + first : 1 + middle], words[1 + middle :]

    def twice(self):
        """Returns the first output name that equals another name, or `None`."""
        names = self.inputs + self.outputs
        return next((name for name in self.outputs if names.count(name) > 1), None)


def order_of(words):
    """Returns the command that these words are, or `None`."""
    if not words or words[0] not in STATUSES or any("\udc80" <= c <= "\udcff" for word in words for c in word):
        return None
    name, *rest = words
    free = rest.index("--") if "--" in rest else len(rest)
    if any(word.startswith("-") and word != "-" for word in rest[:free]):
        return None
    rest = rest[:free] + rest[free + 1 :]
    if len(rest) != len(INPUTS[name]) + OUTPUTS[name] + (2 if name == "make" else 0):
        return None
    if name == "make" and (whole(rest[0], 2**64 - 1) is None or whole(rest[1], 2**64 - 1) not in SIZES):
        return None
    return Order([name, *rest])


def is_plain(name):
    """Checks whether a name is the name of a file in the folder, and can be stored."""
    return name not in ("", ".", "..") and not set("/\0") & set(name) and len(os.fsencode(name)) <= LONGEST


def told(order, status, before):
    """Returns the lines of a status from 3 to 9: pairs of a pattern and the file whose lines the number may count."""
    names = [os.fsencode(name) for name in order.inputs]
    if status == 3:
        return [(b"cannot read " + re.escape(os.fsencode(name)), None) for name in order.inputs if name not in before][:1]
    if status == 4:
        return [(b"cannot write " + re.escape(os.fsencode(name)), None) for name in order.outputs if not is_plain(name)][:1]
    if status == 6:
        return [(b"the start set does not fit", None)]
    if status == 7:
        return [(b"the start set is undecided", None)]
    kinds = INPUTS[order.name]
    some = [i for i, kind in enumerate(kinds) if (kind in ("transcript", "prefix")) == (status == 9)]
    return [(re.escape(names[i]) + b": (" + LINES[kinds[i]] + b")", order.inputs[i]) for i in some]


def is_complete(printed, lines, before):
    """Checks whether the output is one of these lines. A line number may be at most the file's number of lines, plus one."""
    for pattern, name in lines:
        found = re.fullmatch(pattern + b"\n", printed)
        if found:
            counted = found.groupdict().get("line")
            return counted is None or int(counted) <= before[name].count(b"\n") + 1
    return False


def look_at_line(order, status, printed, before):
    """Checks the output at a status from 3 to 9."""
    twice = order.twice()
    if twice is not None:
        need(status == 5 and printed == os.fsencode(twice) + b": given twice\n", f"{twice!r} is given twice")
    elif status > 1:
        need(is_complete(printed, told(order, status, before), before), "no line of this status")


def look_at_result(text):
    """Returns the numbers of stations, on air, frozen and undecided, and the total, of a text of RESULT."""
    need(RESULT.fullmatch(text), "no text of RESULT")
    rows = [line.split(b",") for line in text.splitlines()[1:]]
    stations = [int(row[0]) for row in rows]
    need(all(one < two for one, two in zip(stations, stations[1:])), "RESULT isn't ascending")
    frozen = [row for row in rows if row[1] in (b"frozen", b"undecided")]
    undecided = sum(row[1] == b"undecided" for row in rows)
    return len(rows), len(rows) - len(frozen), len(frozen), undecided, sum(int(row[3]) for row in rows)


def look_at_top(order, status, printed, after):
    """Checks what `seek` prints and stores: a top channel, the channel below if its test is undecided, and channels up to the top."""
    found = TOPS.fullmatch(printed)
    need(found, "no top channel")
    top, below = int(found[1]), found[3]
    need(14 <= top <= 51, "a top channel that none may be")
    need((status == 1) == (below is not None), "the status isn't that of the undecided test")
    need(below is None or int(below) == top - 1, "the undecided test is of another channel")
    channels = after[order.outputs[0]]
    need(CHANNELS.fullmatch(channels), "no text of CHANNELS")
    need(all(14 <= int(line.split(b",")[1]) <= top for line in channels.splitlines()[1:]), "a channel above the top")


def look_at_end(order, status, printed, after):
    """Checks what is printed and stored at status 0 and 1."""
    if order.name == "check":
        need(COUNTS.fullmatch(printed), "no counts")
        return
    if order.name == "seek":
        look_at_top(order, status, printed, after)
        return
    if order.name in ("verify", "verify-live"):
        numbers = look_at_result(printed)
    else:
        found = SUMMARY.fullmatch(printed)
        need(found, "no summary")
        numbers = tuple(map(int, found.groups()))
    need((status == 1) == (numbers[3] > 0), "the status isn't that of the undecided tests")
    if order.name == "make":
        need(numbers[0] == order.size, "another number of stations")
    if order.name in ("run", "live", "show", "show-live", "resume"):
        result, channels = (after[name] for name in order.outputs[:2])
        need(look_at_result(result) == numbers, "the summary isn't that of RESULT")
        need(CHANNELS.fullmatch(channels) and channels.count(b"\n") == numbers[1] + 1, "CHANNELS isn't of those on air")
    if order.name in ("run", "live", "resume"):
        transcript = after[order.outputs[2]]
        first = rb"transcript [12]\n" if order.name == "resume" else b"transcript 2\n"
        need(re.match(first, transcript) and transcript.endswith(b"\n"), "no transcript")


def look_at_beginning(order, status, printed, before, after):
    """Checks what `resume` stores and reports of the complete part of its beginning. Checks nothing if a line is rejected or the
    beginning was not read."""
    unshown = UNSHOWN.search(printed) if status == 9 else None
    if unshown is None and status not in (0, 1, 6, 7):
        return
    need(order.inputs[3] in before, "the beginning isn't there")
    text = before[order.inputs[3]]
    kept = Kept(text)
    whole = text[: kept.size]
    started = whole.count(b"\n") > 1
    if unshown:
        most = len(kept.steps) + (kept.ended and unshown[2] == b"order")
        need(started and int(unshown[1]) <= most, "a step that isn't kept")
    elif status in (6, 7):
        need(not started, "the start is kept, and was shown")
    else:
        transcript = after[order.outputs[2]]
        need(transcript.startswith(whole or b"transcript 2\n"), "TRANSCRIPT doesn't begin with what is kept")
        need(not kept.ended or transcript == whole, "TRANSCRIPT isn't the whole one that was kept")


def records(line):
    """Returns the records of a line of a list, each a list of fields."""
    line, rows, at, end = line.removeprefix(MARK), [[]], 0, None
    while end != b"":
        found = FIELD.match(line, at)
        quoted, bare, end = found.groups(b"")
        rows[-1].append((quoted.replace(b'""', b'"') + bare).strip(b" \t"))
        rows += [[]] if end == b"\r" else []
        at = found.end()
    full = [[i for i, field in enumerate(row) if field] for row in rows]
    return [row[: places[-1] + 1] for row, places in zip(rows, full) if places]


def is_utf8(text):
    """Checks whether these bytes are UTF-8."""
    try:
        text.decode()
    except UnicodeDecodeError:
        return False
    return True


def list_of(text):
    """Returns the lines of a list, as pairs of a scenario's and a result's name, and the reason for a rejection, or `None`."""
    pairs = []
    for number, line in enumerate(text.split(b"\n"), 1):
        for record in records(line):
            if len(pairs) == MOST_LISTED or len(record) != 2 or not all(map(is_utf8, record)):
                return [], b"line %d: bad list" % number
            pairs.append(tuple(map(bytes.decode, record)))
    return pairs, None if pairs else b"empty list"


def file_of(name):
    """Returns the name of the file in the folder that a path names."""
    return re.sub(r"\A(\./+)+", "", name)


class Batch:
    """What a batch reads. `pairs` is its list, and `refusal` the line that rejects the list or names a result given twice, or `None`.
    `there` has the existing files, in order, up to the first missing one, which is `missing`, or `None`."""

    def __init__(self, words, before):
        at = os.fsencode(words[2])
        self.pairs, why = list_of(before[words[2]]) if words[2] in before else ([], None)
        names = [*words, *itertools.chain(*self.pairs)]
        twice = next((result for _, result in self.pairs if names.count(result) > 1), None)
        self.refusal = at + b": " + why if why else twice and os.fsencode(twice) + b": given twice"
        names = [*words, *(scenario for scenario, _ in self.pairs if not self.refusal)]
        self.there = list(itertools.takewhile(lambda name: file_of(name) in before, names))
        self.missing = names[len(self.there)] if len(self.there) < len(names) else None

    def told(self, status):
        """Returns the lines of the statuses 3 and 5: pairs of a pattern and the file whose lines the number may count."""
        if status == 3:
            return [(b"cannot read " + re.escape(os.fsencode(self.missing)), None)]
        patterns = [DOMAIN_ROW, LINES["rows"], None, *[LINES["scenario"]] * len(self.pairs)]
        told = [(re.escape(os.fsencode(n)) + b": (" + p + b")", n) for n, p in zip(self.there, patterns) if p]
        if self.refusal and len(self.there) > 2:
            told.append((re.escape(self.refusal), None))
        if len(self.there) > 3:
            told.append((re.escape(os.fsencode(self.there[0])) + b": " + NO_ROW, None))
        return told


def own_statuses(batch, status, printed):
    """Returns the printed status of each auction of a batch."""
    *lines, rest = printed.split(b"\n")
    need(rest == b"" and len(lines) == len(batch.pairs), "not a line for each line of the list")
    told = [line.rpartition(b" ") for line in lines]
    names = [os.fsencode(scenario) for scenario, _ in batch.pairs]
    need([name for name, _, _ in told] == names, "the lines aren't in the list's order")
    need(all(own in (b"0", b"1", b"6", b"7") for _, _, own in told), "no status of an auction of a batch")
    own = [int(word) for _, _, word in told]
    need(status == (11 if max(own) > 1 else max(own)), "the status isn't that of the auctions")
    return own


def look_at_stored(batch, own, before, after):
    """Checks which files are stored for auctions with these statuses: those of the finished ones."""
    stored = {file_of(result): (scenario, status) for (scenario, result), status in zip(batch.pairs, own) if status < 2}
    for name, (scenario, status) in stored.items():
        need(name in after and after[name] != before.get(name), f"{name!r} isn't stored")
        need((look_at_result(after[name])[3] > 0) == (status == 1), f"{name!r} isn't of the status that is printed")
        ids = sorted(station["id"] for station in json.loads(before[file_of(scenario)].decode())["stations"])
        rows = after[name].splitlines()[1:]
        need(ids == [int(row.split(b",")[0]) for row in rows], f"{name!r} isn't of its scenario's stations")
    return set(stored)


def may_store(batch, case, printed):
    """Returns the pairs whose results may be stored at status 4: those before the one in the line, or all if the output is full."""
    if case.full:
        return batch.pairs
    bad = [at for at, (_, result) in enumerate(batch.pairs) if not is_plain(file_of(result))]
    told = [at for at in bad if printed == b"cannot write " + os.fsencode(batch.pairs[at][1]) + b"\n"]
    need(told, "no line of this status")
    return batch.pairs[: told[0]]


def look_at_batch(case, words, status, printed, after):
    """Fails if a batch may not end like this."""
    before, batch = case.files, Batch(words, case.files)
    need(status in ({3, 4, 5} if case.full else STATUSES["batch"]), "no status of this command, with memory enough")
    wanting = batch.refusal or batch.missing
    need(status in (3, 5) or wanting is None, f"to be refused or missing: {wanting!r}")
    need(status != 3 or batch.missing is not None, "all files are there")
    changed = {name for name in {**before, **after} if before.get(name) != after.get(name)}
    if status in (3, 5):
        may = set()
        need(case.full or is_complete(printed, batch.told(status), before), "no line of this status")
    elif status == 4:
        may = {file_of(result) for _, result in may_store(batch, case, printed)}
        for name in changed & may:
            look_at_result(after.get(name, b""))
    else:
        may = look_at_stored(batch, own_statuses(batch, status, printed), before, after)
    need(changed <= may, f"new or changed: {sorted(changed - may)}")


def may_change(order, status, printed):
    """Returns the names that may be new or changed, and how many of them must exist."""
    if order is None or status not in (0, 1, 4):
        return [], 0
    bad = next((i for i, name in enumerate(order.outputs) if not is_plain(name)), len(order.outputs))
    return order.outputs[: bad + 1], bad


def look_at(case, status, printed, said, after):
    """Fails if a run may not end like this. `said` is the standard error."""
    order = order_of(case.words)
    need(status >= 0, f"ended by signal {-status}")
    need(not said, f"on standard error: {said[:200]!r}")
    if order is not None and order.name == "batch":
        look_at_batch(case, order.inputs, status, printed, after)
        return
    names, there = may_change(order, status, printed)
    changed = [name for name in {**case.files, **after} if case.files.get(name) != after.get(name)]
    need(all(name in names for name in changed), f"new or changed: {changed}")
    need(all(name in after for name in names[:there]), f"not all of {names[:there]} are there")
    if order is None:
        need(status == 2 and (case.full or printed.endswith(b"\n")), "the words are no command")
        return
    allowed = STATUSES[order.name]
    need(status in (allowed - {0, 1} | {4} if case.full else allowed), "no status of this command, with memory enough")
    if case.full:
        return
    look_at_line(order, status, printed, case.files)
    if status in (0, 1):
        need(all(name in case.files for name in order.inputs), "an input isn't there")
        look_at_end(order, status, printed, after)
    if order.name == "resume":
        look_at_beginning(order, status, printed, case.files, after)
