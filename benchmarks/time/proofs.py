"""Takes the proofs of a transcript apart: for each a file of the formula that it is over, in DIMACS's lines, and one of its
own lines, which are LRAT's."""
import json


class Book:
    """The stations of a scenario, each with its channels up to the top one, and the pairs that interfere."""

    def __init__(self, folder):
        scenario = json.loads((folder / "scenario.json").read_text())
        known = {bid["id"] for bid in scenario["stations"]}
        self.channels = {}
        for line in (folder / "domains.csv").read_text().splitlines():
            station, *channels = map(int, line.split(",")[1:])
            if station in known:
                self.channels[station] = [c for c in sorted(set(channels)) if 14 <= c <= scenario["top"]]
        self.pairs = {station: set() for station in self.channels}
        with open(folder / "rows.csv", encoding="ascii") as rows:
            for row in rows:
                a, b, station, *others = map(int, row.split(",")[1:])
                for other in others:
                    self.put(station, a, other, b)
        for station, pairs in self.pairs.items():
            self.pairs[station] = sorted(pairs)

    def put(self, f, a, g, b):
        """A pair, where both of its entries are in their stations' domains, once."""
        if f != g and a in self.channels.get(f, ()) and b in self.channels.get(g, ()):
            if f < g:
                self.pairs[f].add((a, g, b))
            else:
                self.pairs[g].add((b, f, a))

    def formula(self, stations):
        """The number of variables, and the clauses, of the formula of these stations, which ascend."""
        number, own = {}, []
        for f in stations:
            own.append([number.setdefault((f, c), len(number) + 1) for c in self.channels[f]])
        clauses = [" ".join(map(str, vs)) for vs in own]
        clauses += [f"-{v} -{w}" for vs in own for i, v in enumerate(vs) for w in vs[i + 1 :]]
        inside = set(stations)
        for f in stations:
            clauses += [f"-{number[f, a]} -{number[g, b]}" for a, g, b in self.pairs[f] if g in inside]
        return len(number), clauses


def cut(transcript, book, folder):
    """Writes the files of each `log` step, N.cnf and N.lrat of the N-th, into the folder. Gives how many there are, and the
    bytes of their lines. The proofs of receipts and those from outside are passed over."""
    count = size = 0
    with open(transcript, encoding="ascii") as lines:
        for line in lines:
            if not line.startswith("log "):
                continue
            count += 1
            stations = [int(field) for field in next(lines).split()[1:]]
            variables, clauses = book.formula(stations)
            with open(folder / f"{count}.cnf", "w", encoding="ascii") as out:
                out.write(f"p cnf {variables} {len(clauses)}\n")
                out.writelines(f"{clause} 0\n" for clause in clauses)
            with open(folder / f"{count}.lrat", "w", encoding="ascii") as out:
                for _ in range(int(line.split()[4])):
                    size += out.write(next(lines))
    return count, size
