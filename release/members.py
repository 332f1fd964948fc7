"""What the launcher says of a scenario whose members may be misspelt: the program passes over a member of a name that it doesn't know,
and a station whose `value` is called otherwise has none.

A name is reported if it is like one that is absent beside it; a note of the author's own is not.
"""
import difflib
import functools
import json
import os
import stat

from streams import shown

# The members of a scenario, of a station of it and of a worker, as docs/FORMATS.md has them.
OWN = ("version", "top", "opening", "decrements", "rate", "floor", "stations", "workers")
ITEMS = {"stations": ("id", "volume", "value"), "workers": ("kind", "budget", "seed")}
LONGEST = 64_000_000
MOST_TOLD = 5


def notes(name):
    """A line, in bytes, for each name of a member that may be misspelt; nothing where the file isn't a plain one that can be read."""
    told = {}
    for found, place, meant in misspelt(scenario_of(name)):
        told.setdefault((found, place), meant)
    lines = [f"{shown(name)}: the program passes over {shown(found.encode())}{place}; is it {meant}?\n" for (found, place), meant in told.items()]
    return "".join(lines[:MOST_TOLD]).encode("utf-8", "surrogateescape")


def scenario_of(name):
    """The value that a file of JSON has, or None."""
    try:
        state = os.stat(name)
        if not stat.S_ISREG(state.st_mode) or state.st_size > LONGEST:
            return None
        with open(name, "rb") as file:
            return json.loads(file.read().decode(), parse_int=len, parse_float=len)
    except (OSError, ValueError, RecursionError):
        return None


def misspelt(scenario):
    """Each member that is like one that is absent beside it: its name, where it stands, and the one that it is like."""
    if not isinstance(scenario, dict):
        return
    yield from unlike(scenario, OWN, "")
    for member, names in ITEMS.items():
        items = scenario.get(member)
        for item in items if isinstance(items, list) else []:
            if isinstance(item, dict):
                yield from unlike(item, names, f" in {member}")


def unlike(members, names, place):
    """The same of one object, whose members may have these names."""
    absent = tuple(name for name in names if name not in members)
    for found in members:
        if found not in names:
            for meant in like(found.lower(), absent):
                yield found, place, meant


@functools.lru_cache(maxsize=1_000)
def like(found, absent):
    """The name that is most like this one, if there is one. The stations of a scenario mostly have the same members."""
    return difflib.get_close_matches(found, absent, 1)
