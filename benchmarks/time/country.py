"""Writes the three input files of an auction of a country's size, which are made up.

290 towns of unlike size lie on a plane, a third of them near a few hubs. Each has some of 2,900 stations, at one mast or
round it. Three quarters of these reach 75 to 150 km, the others 35 to 80. Two may not share a channel where they are nearer
than what they reach together, give or take some noise; the plane is so wide that a station has 26 such neighbours in the
mean. Of these the near ones, except those of one mast, may not stand on neighbouring channels. A town lacks half of the
channels from 14 up to the top one, 29, in the mean, and a station few more. Two fifths of the stations take no part, as far
as a map of their channels is found on the way. A volume is the root of people times neighbours; a value is log-normal round
three tenths of the opening offer; and the price falls by a twentieth in each of 60 rounds. The one worker learns. The same
seed makes the same files.
"""
import json
import math
import random

STATIONS = 2900
TOWNS = 290
DEGREE = 26
TOP = 29
CHANNELS = [c for c in range(14, 52) if c != 37]
OPENING = 90_000
ROUNDS = 60
KEYS = {0: "CO", 1: "ADJ+1", -1: "ADJ-1", 2: "ADJ+2", -2: "ADJ-2"}


class Grid:
    """Stations by squares, for the near ones."""

    side = 430.0

    def __init__(self):
        self.squares = {}

    def put(self, i, x, y):
        self.squares.setdefault((int(x // self.side), int(y // self.side)), []).append(i)

    def near(self, x, y):
        column, row = int(x // self.side), int(y // self.side)
        for i in range(-1, 2):
            for j in range(-1, 2):
                yield from self.squares.get((column + i, row + j), ())


class Station:
    """A station: its town, where it stands from the town's middle and how far it reaches, in km, and its people."""

    def __init__(self, draw, town, people):
        full = draw.random() < 0.75
        spread = 4 if draw.random() < 0.5 else 28
        self.town = town
        self.east, self.north = draw.gauss(0, spread), draw.gauss(0, spread)
        self.reach = min(150, max(75, draw.gauss(115, 16))) if full else min(80, max(35, draw.gauss(55, 10)))
        self.people = people * draw.uniform(0.4, 1) * (1 if full else 0.35)


def towns(draw, stations):
    """The towns' places on a plane of one station a unit, their people, and how many stations each has."""
    count = max(2, round(stations * TOWNS / STATIONS))
    wide, high = 1.32 * math.sqrt(stations), 0.76 * math.sqrt(stations)
    hubs = [(draw.uniform(0.1, 0.9) * wide, draw.uniform(0.1, 0.9) * high) for _ in range(max(1, count // 25))]
    near = 0.1 * wide / math.sqrt(max(1, count / 60))
    places = []
    while len(places) < count:
        x, y = draw.uniform(0, wide), draw.uniform(0, high)
        if draw.random() < 0.3:
            hub = draw.choice(hubs)
            x, y = draw.gauss(hub[0], near), draw.gauss(hub[1], near)
        if 0 <= x <= wide and 0 <= y <= high:
            places.append((x, y))
    people = [(k + 2.5) ** -0.85 for k in range(count)]
    shares = [p**0.3 for p in people]
    own = [max(1, int(stations * share / sum(shares))) for share in shares]
    for k in range(stations - sum(own)):
        own[k % count] += 1
    return places, people, own


def noise(draw, pairs, i, j):
    """Some noise of a pair of stations, the same whenever it is asked for."""
    if (i, j) not in pairs:
        pairs[i, j] = (draw.gauss(0, 1), draw.random())
    return pairs[i, j]


def neighbours(draw, noises, places, stations, scale):
    """The pairs that may not share a channel, and those that may not stand on neighbouring ones, on a plane of this scale."""
    grid, same, next_to = Grid(), [], []
    at = [(places[s.town][0] * scale + s.east, places[s.town][1] * scale + s.north) for s in stations]
    for j, (x, y) in enumerate(at):
        for i in grid.near(x, y):
            far = math.hypot(at[i][0] - x, at[i][1] - y)
            both = stations[i].reach + stations[j].reach
            if far > 1.45 * both:
                continue
            rough, chance = noise(draw, noises, i, j)
            edge = both * math.exp(0.12 * rough)
            if far < edge:
                same.append((i, j))
                if 6 < far < 0.4 * edge and chance < 0.7:
                    next_to.append((i, j))
        grid.put(j, x, y)
    return sorted(same), sorted(next_to)


def plane(draw, places, stations):
    """The pairs on a plane so wide that a station has as many neighbours as it should."""
    noises, low, high = {}, 10, 260
    wanted = min(DEGREE, 0.6 * (len(stations) - 1))
    for _ in range(9):
        middle = math.sqrt(low * high)
        same, _ = neighbours(draw, noises, places, stations, middle)
        if 2 * len(same) / len(stations) > wanted:
            low = middle
        else:
            high = middle
    return neighbours(draw, noises, places, stations, math.sqrt(low * high))


def domains(draw, places, stations):
    """The channels of each station."""
    north = max(y for _, y in places)
    lost = []
    for k, (_, y) in enumerate(places):
        share = 0.5 * draw.choice((0.4, 1, 1, 1.6))
        if y > 0.85 * north:
            share = max(share, 0.75)
        if k <= len(places) // 16:
            share = max(share, 0.5)
        lost.append({c for c in CHANNELS if draw.random() < (share if c <= TOP else 0.02)})
    low = [c for c in CHANNELS if c <= TOP]
    own = []
    for station in stations:
        kept = {c for c in CHANNELS if c not in lost[station.town] and draw.random() >= 0.06}
        if len(kept.intersection(low)) < 3:
            kept.update(draw.sample(low, 3))
        own.append(sorted(kept))
    return own


class Rows:
    """The rows by key, channels and station, and for each station and channel what it may not stand beside."""

    def __init__(self, draw, own):
        self.draw, self.own = draw, [set(channels) for channels in own]
        self.others, self.against = {}, [{} for _ in own]

    def put(self, i, a, j, b):
        """A pair, from one of its sides. Now and then a row names a channel that is not in a domain."""
        if a in self.own[i] and b in self.own[j]:
            self.against[i].setdefault(a, []).append((j, b))
            self.against[j].setdefault(b, []).append((i, a))
        elif self.draw.random() < 0.5:
            return
        if self.draw.random() < 0.5:
            i, a, j, b = j, b, i, a
        self.others.setdefault((b - a, a), {}).setdefault(i, set()).add(j)

    def text(self, ids):
        """The file of rows."""
        lines = []
        for (offset, a), stations in sorted(self.others.items()):
            for i, others in sorted(stations.items()):
                named = ",".join(str(ids[j]) for j in sorted(others))
                lines.append(f"{KEYS[offset]},{a},{a + offset},{ids[i]},{named}\n")
        return "".join(lines)


def rows(draw, own, same, next_to):
    """The rows of these pairs."""
    made = Rows(draw, own)
    for i, j in same:
        for c in CHANNELS:
            if draw.random() >= 0.03:
                made.put(i, c, j, c)
    for i, j in next_to:
        offsets = (1, -1, 2, -2) if draw.random() < 0.12 else (1, -1)
        for offset in (x for x in offsets if draw.random() < 0.93):
            for c in CHANNELS:
                if c + offset in CHANNELS and draw.random() >= 0.03:
                    made.put(i, c, j, c + offset)
    return made


def on_air(draw, own, against):
    """Two fifths of the stations, but those for which no channel is found beside the ones before."""
    order = [i for i in range(len(own)) if draw.random() < 0.4]
    draw.shuffle(order)
    channel = {}
    for i in order:
        free = [c for c in own[i] if c <= TOP and all(channel.get(j) != b for j, b in against[i].get(c, ()))]
        if free:
            channel[i] = draw.choice(free)
    return set(channel)


def bids(draw, ids, stations, same, stay):
    """The stations of the scenario."""
    degree = [1] * len(stations)
    for i, j in same:
        degree[i] += 1
        degree[j] += 1
    roots = [math.sqrt(station.people * n) for station, n in zip(stations, degree)]
    made = []
    for i, root in enumerate(roots):
        volume = max(1, int(1_000_000 * root / max(roots)))
        offer = volume * OPENING
        value = None if i in stay else min(offer, int(offer * math.exp(draw.gauss(-1.2, 1))))
        made.append({"id": ids[i], "volume": volume, "value": value})
    return made


def scenario(stations, budget):
    """The scenario of these stations."""
    falls, price = [], OPENING
    for _ in range(ROUNDS):
        falls.append(max(1, price // 20))
        price -= falls[-1]
    workers = [{"kind": "cdcl", "budget": budget}]
    return {"version": 1, "top": TOP, "opening": OPENING, "decrements": falls, "stations": stations, "workers": workers}


def write(folder, seed, stations, budget):
    """Writes `domains.csv`, `rows.csv` and `scenario.json` of an auction of so many stations, whose worker learns so much."""
    draw = random.Random(seed)
    places, people, counts = towns(draw, stations)
    made = [Station(draw, town, people[town]) for town, count in enumerate(counts) for _ in range(count)]
    draw.shuffle(made)
    ids = sorted(draw.sample(range(100, 200_000), len(made)))
    same, next_to = plane(draw, places, made)
    own = domains(draw, places, made)
    pairs = rows(draw, own, same, next_to)
    stay = on_air(draw, own, pairs.against)
    named = (f"DOMAIN,{i},{','.join(map(str, channels))}\n" for i, channels in zip(ids, own))
    (folder / "domains.csv").write_text("".join(named))
    (folder / "rows.csv").write_text(pairs.text(ids))
    (folder / "scenario.json").write_text(json.dumps(scenario(bids(draw, ids, made, same, stay), budget)))
