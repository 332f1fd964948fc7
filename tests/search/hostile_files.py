"""Valid inputs of the program, and how they are made hostile.

A set holds the texts of an auction's three input files, its transcript, and its owners' answers, which follow the values. Most
transcripts come from the program. A few are written here, with rare kinds of steps.

A pseudorandom draw makes one or more of a set's texts hostile, or the words of a run. The files of a batch are drawn from the sets:
the constraint files of one, variants of its own or another's scenarios, and a list. The beginning of a resumed
auction is mostly a set's transcript, cut anywhere. Its scenario may be a variant of that set's.
"""
import json
import re
import subprocess

INPUTS = ("domains.csv", "rows.csv", "scenario.json")
OUTPUTS = ("result.csv", "channels.csv", "stored.txt")
TRANSCRIPT = "transcript.txt"
OWNERS = "owners.csv"
LIST = "list.csv"
NAMES = (*INPUTS, TRANSCRIPT)
FILES = (*NAMES, OWNERS)
MADE = (1, 5, 16)
# The greatest budget of a hostile scenario of `run`. Valid scenarios, and one in fifty others, may have more.
TAME = 1000
SOUND_BUDGETS = (b"1000", b"100000")

FITS = "start empty\nfit 1 1 1\nat 1 14\nfit 1 2 1\nat 2 14\nfit 1 3 1\nat 3 15\nfit 2 1 1\nat 1 15\n"
PROOF = "13 -1 0 7 2 8 3 12 0\n14 0 13 1 9 2 10 3 11 0\n"
# Transcripts of the three stations, with one step of each kind that decides a test.
OF_THREE = {
    "log": f"transcript 1\n{FITS}log 2 3 0 2\non 1 2 3\n{PROOF}end 5\n",
    "outside": f"transcript 2\n{FITS}outside 2 3 2\n{PROOF}end 5\n",
    "spent": f"transcript 2\n{FITS}undecided 2 3 2\nlines 0 1\n13 -1 0 7 2 8 3 12 0\nmoves 1 1\nmove 3 15\nend 5\n",
}
# Auctions of one and two stations. In one the station has no channel; in the other the stations interfere on their only channel.
SMALL = {
    "none": (
        "DOMAIN,1,40\n",
        "",
        {"version": 1, "top": 36, "opening": 100, "decrements": [], "stations": [{"id": 1, "volume": 1, "value": 5}],
         "workers": [{"kind": "cdcl", "budget": 1000}]},
        "transcript 1\nstart empty\nnone 1 1\nend 1\n",
    ),
    "dead": (
        "DOMAIN,1,14\nDOMAIN,2,14\n",
        "CO,14,14,1,2\n",
        {"version": 2, "top": 14, "opening": 100, "rate": 1000, "floor": 0,
         "stations": [{"id": 1, "volume": 1, "value": 50}, {"id": 2, "volume": 1, "value": 50}],
         "workers": [{"kind": "walk", "budget": 9, "seed": 7}, {"kind": "cdcl", "budget": 9}]},
        "transcript 2\nstart empty\nfit 1 1 1\nat 1 14\ndead 1 2 0 1 14 2 14\nend 2\n",
    ),
}


class Faulty(Exception):
    """The program does not do what is asked."""


def read(folder, names):
    """Returns the files of a folder, by name."""
    return {name: (folder / name).read_bytes() for name in names}


def ran(program, folder, *words):
    """Runs the program in a folder. The status must be 0 or 1."""
    done = subprocess.run([program, *words], cwd=folder, stdout=subprocess.PIPE)
    if done.returncode not in (0, 1):
        raise Faulty(f"{folder}: {' '.join(words)}: status {done.returncode}: {done.stdout.decode()}")


def prices(scenario):
    """Yields the prices of a scenario, from the opening price to the last one."""
    price = opening = scenario["opening"]
    yield price
    if scenario["version"] == 1:
        for fall in scenario["decrements"]:
            price -= fall
            yield price
        return
    for _ in range(1000):
        if price == 0:
            return
        price -= min(price, max(1, price * scenario["rate"] // 1000, opening * scenario["floor"] // 1000))
        yield price


def said(scenario):
    """Returns the answers of a scenario's owners, who stay while the offer is at least the value."""
    bids = [(station["id"], station["volume"], station["value"]) for station in scenario["stations"] if station.get("value") is not None]
    lines = [f"{r},{s},stay\n" for r, price in enumerate(prices(scenario)) for s, volume, value in bids if value <= price * volume]
    return "".join(lines).encode()


def add(program, top, name, texts, transcript=None):
    """Writes a valid set, with the given transcript or that of the set's auction. Has the transcript verified, also as one of the live
    auction whose owners follow the values."""
    folder = top / name
    folder.mkdir(exist_ok=True)
    for file, text in zip(INPUTS, texts):
        (folder / file).write_bytes(text)
    if transcript is None:
        ran(program, folder, "run", *INPUTS, "result", "channels", TRANSCRIPT)
    else:
        (folder / TRANSCRIPT).write_bytes(transcript)
    ran(program, folder, "verify", *NAMES)
    (folder / OWNERS).write_bytes(said(json.loads(texts[2])))
    ran(program, folder, "verify-live", *INPUTS, OWNERS, TRANSCRIPT)


def spent(scenario, top, budget=1):
    """Returns a scenario with this top channel and a worker of each kind, whose budgets leave some tests undecided."""
    workers = [{"kind": "cdcl", "budget": budget}, {"kind": "walk", "budget": budget}]
    return json.dumps({**json.loads(scenario), "workers": workers, "top": top}).encode()


def make_sound(program, examples, top):
    """Writes the valid sets, one folder each."""
    three = [(examples / "three-stations" / name).read_bytes() for name in INPUTS]
    thirty = read(examples / "verified", NAMES)
    add(program, top, "three", three)
    for name, text in OF_THREE.items():
        scenario = spent(three[2], 15) if name == "spent" else three[2]
        add(program, top, f"three-{name}", [*three[:2], scenario], text.encode())
    for name, (domains, rows, scenario, transcript) in SMALL.items():
        add(program, top, name, [domains.encode(), rows.encode(), json.dumps(scenario).encode()], transcript.encode())
    texts = [thirty[name] for name in INPUTS]
    add(program, top, "thirty", texts, thirty[TRANSCRIPT])
    add(program, top, "thirty-spent", [*texts[:2], spent(texts[2], 18, 8)])
    for size in MADE:
        folder = top / f"made-{size}"
        folder.mkdir()
        ran(program, folder, "make", "7", str(size), *INPUTS)
        texts = [(folder / name).read_bytes() for name in INPUTS]
        add(program, top, f"made-{size}", texts)
        add(program, top, f"made-{size}-spent", [*texts[:2], spent(texts[2], 15)])


NUMBERS = [str(n).encode() for n in (
    0, -1, 1, 2, 13, 14, 15, 51, 52, 100, 255, 256, 1000, 1001, 4096, 4097, 8192, 8193, 65535, 65536, 1_000_000, 1_000_001,
    10**9, 10**15, 10**15 + 1, 2**31, 2**32 - 1, 2**32, 2**53, 2**63 - 1, 2**63, 2**64 - 1, 2**64, 2**65, 10**40,
)] + [b"00", b"007", b"+7", b"-0", b"1.0", b"1e2", b"1e999", b"0x10", b"9" * 400]
TOKENS = NUMBERS + [b"null", b"true", b"[]", b"{}", b'""', b'"x"', b'"cdcl"', b'"walk"', b'"\\ud800"', b"NaN", b"DOMAIN", b"CO",
                    b"ADJ+1", b"ADJ-1", b"ADJ+2", b"ADJ-2", b"d", b"c", b"fit", b"log", b"end", b"", b" ", b"\t"]
MARKS = [b'"', b'""', b"'", b"\r", b"\r\n", b"\n", b"\n\n", b"\0", b"\xef\xbb\xbf", b"\xff", b"\xc3", b"\xed\xa0\x80", b"\\", b",",
         b",,", b" ", b"  ", b"\t", b"[", b"]", b"{", b"}", b":", b"-", b"#", b"\x1a", b"\x0b", b"\xe2\x80\xa8", b"/*", b"\\u0000"]
LIES = [
    b"transcript 1", b"transcript 2", b"transcript 3", b"start empty", b"start fit 0", b"start fit 1000000", b"fit 1 1 1000000",
    b"fit 1 1 0", b"fit 4294967295 1 1", b"fit 1 1 18446744073709551616", b"at 1 14", b"at 4294967295 51", b"same 1 1", b"same 2 1",
    b"none 1 1", b"log 2 3 0 1000000", b"log 2 3 0 0", b"log 2 3 0 1000001", b"on", b"on 1 2 3", b"on 3 2 1", b"on 1 1",
    b"dead 2 3 0 1 14 2 14", b"outside 2 3 1000000", b"outside 2 3 0", b"undecided 2 3 1", b"undecided 2 3 2",
    b"undecided 2 3 1000000", b"lines 0 1000000", b"lines 0 0",
    b"moves 1 1000000", b"moves 0 0", b"move 1 14", b"13 0 0", b"13 -1 0 0", b"9223372036854775807 0 1 0",
    b"9223372036854775808 0 1 0", b"13 9223372036854775807 0 9223372036854775807 0", b"13 d 1 0", b"13 0 -7 0", b"0 0 1 0",
    b"end 0", b"end 5", b"end 4294967296", b"end 18446744073709551615", b"end 18446744073709551616", b"", b"x",
    b"DOMAIN,1,14", b"DOMAIN,4294967296,14", b"DOMAIN", b"CO,14,14,1,2,3", b"CO,14,14", b"ADJ+1,51,52,1,2", b"ADJ-2,14,12,1,2",
    b"0,1,stay", b"1,1,leave", b"1,1,maybe", b"4294967295,1,stay", b"0,4294967295,stay", b"0,1", b'0,"1,stay',
    b'CO,"14",14,1,"2"', b'DOMAIN,"1', b"CO,14,14,1,1,1", b"CO,14,14," + b"1," * 3000 + b"2", b"DOMAIN,1" + b",14" * 3000,
]


def place(draw, text):
    """Returns a position in a text, or its end."""
    return draw.randrange(len(text) + 1)


def span(draw, text):
    """Returns two positions in a text, the second at or after the first and mostly near."""
    start = place(draw, text)
    return start, min(len(text), start + int(draw.expovariate(1 / 40)))


def put(text, start, end, middle):
    """Returns the text with `middle` in place of a span."""
    return text[:start] + middle + text[end:]


def bytes_of(draw):
    """Returns some pseudorandom bytes."""
    return draw.randbytes(1 + int(draw.expovariate(1 / 4)))


def cut(draw, text, _):
    return text[: place(draw, text)]


def beheaded(draw, text, _):
    return text[place(draw, text) :]


def doubled(draw, text, _):
    start, end = span(draw, text)
    return put(text, start, start, text[start:end])


def doubled_whole(_, text, __):
    return text + text


def dropped(draw, text, _):
    return put(text, *span(draw, text), b"")


def spliced(draw, text, other):
    start, end = span(draw, other)
    return put(text, *span(draw, text), other[start:end])


def sprinkled(draw, text, _):
    at = place(draw, text)
    return put(text, at, at, bytes_of(draw))


def overwritten(draw, text, _):
    some = bytes_of(draw)
    at = place(draw, text)
    return put(text, at, min(len(text), at + len(some)), some)


def swapped_bytes(draw, text, _):
    if len(text) < 2:
        return text
    some = bytearray(text)
    one, two = draw.randrange(len(some)), draw.randrange(len(some))
    some[one], some[two] = some[two], some[one]
    return bytes(some)


def marked(draw, text, _):
    at = place(draw, text)
    return put(text, at, at, draw.choice(MARKS))


def of_other_ends(draw, text, _):
    return text.replace(b"\n", draw.choice((b"\r\n", b"\r", b"", b"\n\n", b" \n")))


def begun_by_mark(_, text, __):
    return b"\xef\xbb\xbf" + text


def unvalued(draw, text, _):
    """Returns a scenario in which some stations, from the first on, have no value."""
    return text.replace(b'"value"', b'"worth"', draw.choice((1, 2, 3, -1)))


def of_lines(change):
    """Returns a mutation of a text's list of lines."""

    def changed(draw, text, other):
        lines = text.split(b"\n")
        change(draw, lines, other.split(b"\n"))
        return b"\n".join(lines)

    return changed


def double_line(draw, lines, _):
    lines.insert(draw.randrange(len(lines) + 1), draw.choice(lines))


def drop_line(draw, lines, _):
    lines.pop(draw.randrange(len(lines)))


def swap_lines(draw, lines, _):
    one, two = draw.randrange(len(lines)), draw.randrange(len(lines))
    lines[one], lines[two] = lines[two], lines[one]


def take_line(draw, lines, others):
    lines.insert(draw.randrange(len(lines) + 1), draw.choice(others))


def lie(draw, lines, _):
    at = draw.randrange(len(lines))
    lines[at : at + draw.randrange(2)] = [draw.choice(LIES)]


def at_token(pattern, choose):
    """Returns a mutation that replaces one match in a text."""
    found = re.compile(pattern)

    def changed(draw, text, other):
        spans = [match.span() for match in found.finditer(text)]
        if not spans:
            return sprinkled(draw, text, other)
        start, end = draw.choice(spans)
        return put(text, start, end, choose(draw, text[start:end], text))

    return changed


def near(draw, number, _):
    """Returns a number near this one."""
    return str(int(number[:30]) + draw.choice((-2, -1, 1, 2, 10))).encode()


def same_kind(draw, _, text):
    """Returns another number of the text."""
    return draw.choice(re.findall(rb"\d+", text))


def nest(draw, token, _):
    """Returns a deeply nested value."""
    depth = draw.choice((1, 2, 100, 126, 127, 128, 129, 5000, 100_000))
    left, right = draw.choice(((b"[", b"]"), (b'{"a":', b"}")))
    return left * depth + token + right * draw.choice((depth, depth, 0))


NUMBER, TOKEN = rb"-?\d+", rb'[^\s,:\[\]{}]+'
# Mutations after which most texts are still well-formed, and which therefore reach the auction and the check of its steps.
MILD = [
    *[at_token(NUMBER, near), at_token(rb"\d+", same_kind)] * 3,
    unvalued,
    *map(of_lines, (double_line, drop_line, swap_lines)),
]
HARSH = [
    cut, beheaded, doubled, doubled_whole, dropped, spliced, sprinkled, overwritten, swapped_bytes, marked, of_other_ends, begun_by_mark,
    *map(of_lines, (double_line, drop_line, swap_lines, swap_lines, take_line, lie, lie)),
    *[at_token(NUMBER, lambda draw, *_: draw.choice(NUMBERS))] * 3,
    *[at_token(TOKEN, lambda draw, *_: draw.choice(TOKENS))] * 2,
    at_token(TOKEN, nest),
    lambda *_: b"",
]


def tamed(draw, scenario):
    """Returns a scenario with small budgets, so that its run ends soon; one in fifty is unchanged."""
    if draw.randrange(50) == 0:
        return scenario

    def small(found):
        sound = found[2] in SOUND_BUDGETS or not TAME < int(found[2][:30]) <= 1_000_000
        return found[0] if sound else found[1] + str(int(found[2]) % TAME + 1).encode()

    return re.sub(rb'("budget"\s*:\s*)(\d+)', small, scenario)


def hostile(draw, files, others, weights):
    """Makes some of the files hostile, in place. `others` are texts of other files."""
    if draw.randrange(25) == 0:
        name = draw.choice(list(files))
        files[name] = draw.choice(others)
    for _ in range(draw.choices((0, 1, 2, 3, 8), (3, 60, 20, 12, 5))[0]):
        (name,) = draw.choices(list(files), weights)
        mutations = MILD if draw.randrange(2) else HARSH
        files[name] = draw.choice(mutations)(draw, files[name], draw.choice(others))
    files["scenario.json"] = tamed(draw, files["scenario.json"])
    if draw.randrange(40) == 0:
        del files[draw.choice(list(files))]


# The numbered names of a batch's scenarios and results. Most are plain, and some are in quotes in the list.
PLAIN = ("{}.json", "{}.csv")
SCENARIOS = [*[PLAIN[0]] * 8, "scenario {}.json", "{},x.json", "\u00e9{}.json", '"{}".json', "{}\r.json", "-{}", "x 6\r{}"]
RESULTS = [
    *[PLAIN[1]] * 8, "result {}.csv", "{},x.csv", "\u00e9{}.csv", '{}"x".csv', "{}\r.csv", "-{}.csv", "./{}.csv", ".//./{}",
]
# Names that no file may have, or that no file has.
NOWHERE = [
    b"", b".", b"..", b"/", b"./", b"nowhere", b"nowhere/x", b"x" * 255, b"x" * 256, b"-", b"--", b"a\0b", b"/dev/null/x",
    b"x/..",
]
# Names that are not UTF-8.
BROKEN = [b"\xff", b"x\xc3", b"\xed\xa0\x80.csv", b"\xc0\x80", b"\xf4\x90\x80\x80", b"x\x80y"]
# The possible ends of a line of a list.
ENDS = [
    *[b"\n"] * 8, b"\r\n", b"\n\n", b" \t\n", b",,\n", b" , ,\n", b"\r", b"\r\r\n", b"\n , \n", b'\n""\n', b',""\n',
    b"\n\xef\xbb\xbf",
]
# Lines of a list, most of them invalid.
LISTED = [
    b"0.json", b"0.json,", b"0.json,x,y", b"0.json,,x", b",x", b"# 0.json,x", b"0.json;x", b'"0.json,x', b'0.json,"x',
    b'"0.json"x,y', b'0.json,x"', b' "0.json",x',
    b"\t0.json\t,\tx\t", b"0.json,\xc2\xa0x", b"\xef\xbb\xbf\xef\xbb\xbf0.json,x", b"0.json,x,,, ,",
    b"0.json,\xff", b"\xff,x", b"\xff", b"0.json,x\r0.json,y", b"0.json,x\ry", b"\0", b'"""0.json""",x', b'"",x', b'0.json,""',
    b"domains.csv,x", b"list.csv,x", b"0.json,list.csv", b"0.json,0.json", b"0.json,./0.json", b"0.json,./list.csv",
    b"./0.json,x", b"0.json,0.csv", b"0.json,./0.csv",
]
WORKERS = [
    [{"kind": "cdcl", "budget": 1000}],
    [{"kind": "cdcl", "budget": 1}],
    [{"kind": "walk", "budget": 1}, {"kind": "cdcl", "budget": 1}],
    [{"kind": "cdcl", "budget": 20, "seed": 3}, {"kind": "cdcl", "budget": 20}],
    [{"kind": "walk", "budget": 99}, {"kind": "cdcl", "budget": 99}],
]
VALUES = [None, 0, 1, 50, 1000, 10**6, 10**15]
# One batch in this many has about 256 lines.
LONG = 60


def varied(draw, text):
    """Returns a valid scenario with some of a valid scenario's stations."""
    told = json.loads(text)
    for _ in range(draw.randrange(5)):
        change = draw.randrange(6)
        stations = told["stations"]
        if change == 0:
            told["top"] = draw.choice((14, 15, 16, draw.randrange(14, 52)))
        elif change == 1:
            told["workers"] = draw.choice(WORKERS)
        elif change == 2:
            value = draw.choice(VALUES)
            for station in draw.sample(stations, draw.randrange(1, len(stations) + 1)):
                station["value"] = value
        elif change == 3:
            told["stations"] = draw.sample(stations, draw.randrange(1, len(stations) + 1))
        elif change == 4:
            told["opening"] = min(1_000_000, told["opening"] + draw.choice((1, 50, 1000)))
        else:
            told.update(version=2, rate=draw.choice((100, 300, 1000)), floor=draw.choice((50, 1000)))
    return json.dumps(told).encode()


def make_beginning(draw, files, sound):
    """Replaces the transcript by a beginning, in place. Mostly the transcript is cut anywhere. Sometimes it is empty, another set's, no
    transcript, complete, or complete with extra bytes. The scenario is sometimes a variant, or has other workers."""
    kind, text = draw.randrange(24), files[TRANSCRIPT]
    if kind == 0:
        text = draw.choice((b"", draw.randbytes(draw.randrange(200))))
    elif kind < 3:
        text = draw.choice(sound)[TRANSCRIPT]
    elif kind == 3:
        text += bytes_of(draw)
    files[TRANSCRIPT] = text if kind in (3, 4) else cut(draw, text, b"")
    change, scenario = draw.randrange(6), files[INPUTS[2]]
    if change == 0:
        files[INPUTS[2]] = varied(draw, scenario)
    elif change == 1:
        files[INPUTS[2]] = json.dumps({**json.loads(scenario), "workers": draw.choice(WORKERS)}).encode()


def field(draw, name):
    """Returns a name as a field of a list, in quotes if necessary and sometimes anyway."""
    if b'"' in name or b"," in name or b"\r" in name or draw.randrange(8) == 0:
        name = b'"' + name.replace(b'"', b'""') + b'"'
    return name + draw.choice((b"", b"", b"", b"", b" ", b"\t"))


def change_pair(draw, pairs):
    """Makes a line of a list hostile, through one of its names."""
    names = [name for pair in pairs for name in pair] + [name.encode() for name in (*INPUTS[:2], LIST)]
    pair, change = draw.choice(pairs), draw.randrange(7)
    if change == 0:
        pair[1] = draw.choice(names)
    elif change == 1:
        pair[1] = b"./" + draw.choice(names)
    elif change == 2:
        pair[0] = draw.choice(names)
    else:
        pair[draw.randrange(2)] = draw.choice(BROKEN if change == 3 else NOWHERE)


def change_list(draw, text, other):
    """Returns a hostile list, with a line of another kind or changed like any text."""
    lines = text.split(b"\n")
    change = draw.randrange(12)
    if change == 0:
        return draw.choice((b"", b"\n", b" , \n\r\n", MARKS[8], b'""', b",,,\n,"))
    if change < 7:
        lines.insert(draw.randrange(len(lines) + 1), draw.choice(LISTED))
        return b"\n".join(lines)
    return draw.choice(MILD if change < 9 else HARSH)(draw, text, other)


def listed(draw, names):
    """Returns the pairs of a list: each of these scenario names with a result name, and sometimes about 256 of them."""
    names = draw.choices(names, k=draw.randrange(255, 259)) if draw.randrange(LONG) == 0 else names
    return [[name.encode(), draw.choice(RESULTS).format(number).encode()] for number, name in enumerate(names)]


def hostile_batch(draw, sound):
    """Returns the files of a batch of two to six auctions, some of them hostile."""
    own, others = draw.choice(sound), list(draw.choice(sound).values())
    files = {name: own[name] for name in INPUTS[:2]}
    names = [draw.choice(SCENARIOS).format(number) for number in range(draw.randrange(2, 7))]
    for name in names:
        files[name] = varied(draw, own[INPUTS[2]]) if draw.randrange(40) else draw.choice(sound)[INPUTS[2]]
    pairs = listed(draw, names if draw.randrange(4) else draw.choices(names, k=len(names)))
    files.update({pair[1].decode(): b"old\n" for pair in pairs if b"/" not in pair[1] and draw.randrange(2)})
    many = draw.choices((0, 1, 2, 4), (9, 8, 3, 1))[0]
    changes = draw.choices((change_pair, change_list, *INPUTS), (5, 4, 1, 1, 4), k=many)
    for _ in range(changes.count(change_pair)):
        change_pair(draw, pairs)
    files[LIST] = b"".join(field(draw, one) + b"," + field(draw, two) + draw.choice(ENDS) for one, two in pairs)
    for change in changes:
        if change is change_list:
            files[LIST] = change_list(draw, files[LIST], draw.choice(others))
        elif change in INPUTS:
            name = draw.choice(names) if change == INPUTS[2] else change
            mutations = MILD if draw.randrange(2) else HARSH
            files[name] = draw.choice(mutations)(draw, files[name], draw.choice(others))
    files.update({name: tamed(draw, files[name]) for name in names})
    if draw.randrange(40) == 0:
        del files[draw.choice(list(files))]
    return files
