#!/usr/bin/env python3
"""Turns a proof without hints into the hinted lines that `repack import` reads.

    hinted.py FORMULA PROOF LINES

FORMULA is DIMACS CNF, as `repack export` stores it. PROOF is what a prover says of it in plain DRUP or DRAT text: a clause a
line, ended by 0; deletions (`d`) are passed over. Each clause is checked by propagating its opposite over the clauses before it,
and what the conflict rests on becomes its hints, in the order of their use; clauses that the last one doesn't rest on are left
out. LINES are written in LRAT's form, numbered on from the formula's clauses. A clause that doesn't follow so (a RAT step) is
named, and nothing is written: the status is 1 then.
"""
import sys


class Refused(Exception):
    """A line of a proof that doesn't follow."""


class Prover:
    """Clauses with two watched literals each, and the trail of what they force together with assumptions."""

    def __init__(self):
        self.clauses = []
        self.watches = {}
        self.true = {}
        self.trail = []

    def add(self, clause):
        """The clause, by its place. Of a clause of two literals or more the first two are watched, open ones before others."""
        place = len(self.clauses)
        literals = sorted(set(clause), key=lambda it: -it in self.true)
        self.clauses.append(literals)
        for literal in literals[:2]:
            self.watches.setdefault(literal, []).append(place)
        return place

    def put(self, literal, reason):
        self.true[literal] = reason
        self.trail.append(literal)

    def propagate(self, head):
        """The place of a clause that is false, once all that is forced behind the head is on the trail; or none."""
        while head < len(self.trail):
            false = -self.trail[head]
            head += 1
            watching, kept = self.watches.get(false, []), []
            for at, place in enumerate(watching):
                clause = self.clauses[place]
                if clause[0] == false:
                    clause[0], clause[1] = clause[1], clause[0]
                if clause[0] in self.true:
                    kept.append(place)
                    continue
                for other in range(2, len(clause)):
                    if -clause[other] not in self.true:
                        clause[1], clause[other] = clause[other], clause[1]
                        self.watches.setdefault(clause[1], []).append(place)
                        break
                else:
                    kept.append(place)
                    if -clause[0] in self.true:
                        self.watches[false] = kept + watching[at + 1 :]
                        return place
                    self.put(clause[0], place)
            self.watches[false] = kept
        return None

    def fix(self, place):
        """Takes what a clause forces for good. Says whether all is refuted by that."""
        clause = self.clauses[place]
        if any(it in self.true for it in clause):
            return False
        left = [it for it in clause if -it not in self.true]
        if len(left) > 1:
            return False
        head = len(self.trail)
        if left:
            self.put(left[0], place)
        false = place if not left else self.propagate(head)
        return false is not None

    def hints(self, clause):
        """The places of the clauses that show this one, in the order of their use."""
        assumed = {-literal for literal in clause}
        for literal in clause:
            if literal in self.true:
                # It is true for good: what forced it shows the clause.
                return self.rests_on([literal], None, assumed)
        head = len(self.trail)
        for literal in set(clause):
            if -literal not in self.true:
                self.put(-literal, None)
        false = self.propagate(head)
        found = self.rests_on(self.clauses[false], false, assumed) if false is not None else None
        for literal in self.trail[head:]:
            del self.true[literal]
        del self.trail[head:]
        return found

    def rests_on(self, literals, false, assumed=frozenset()):
        """What made these literals false, or the one true, by their reasons, from the first on; of what is assumed, nothing."""
        wanted = {it if it in self.true else -it for it in literals}
        found = [] if false is None else [false]
        for literal in reversed(self.trail):
            if literal in wanted and literal not in assumed and self.true[literal] is not None:
                found.append(self.true[literal])
                wanted.update(-it for it in self.clauses[self.true[literal]] if it != literal)
        return found[::-1]


def clauses_of(path, of_proof):
    """The clauses of a file, each a list of literals."""
    with open(path) as file:
        for line in file:
            words = line.split()
            if not words or words[0] in ("c", "p", "d") or (of_proof and words[0] in ("o", "s", "v")):
                continue
            numbers = [int(word) for word in words]
            if numbers[-1] != 0:
                raise Refused(f"a line of {path} does not end in 0")
            yield numbers[:-1]


def refutation(formula, proof):
    """The clauses of the formula, and the lines that refute them, each its literals and hints by places from 0."""
    prover, lines = Prover(), []
    given = list(clauses_of(formula, False))
    ended = False
    for clause in given:
        ended = prover.fix(prover.add(clause)) or ended
    if not ended:
        for clause in clauses_of(proof, True):
            hints = prover.hints(clause)
            if hints is None:
                raise Refused(f"line {len(lines) + 1} of {proof} does not follow by propagation")
            lines.append((clause, hints))
            if not clause or prover.fix(prover.add(clause)):
                break
        else:
            raise Refused(f"{proof} does not end in a refutation")
    if not lines or lines[-1][0]:
        lines.append(([], last_hints(prover)))
    return len(given), lines


def last_hints(prover):
    """What the clause rests on that is false for good."""
    for place, clause in enumerate(prover.clauses):
        if all(-it in prover.true for it in clause):
            return prover.rests_on(clause, place)
    raise Refused("nothing is refuted")


def needed(count, lines):
    """The lines that the last one rests on."""
    keep = {count + len(lines) - 1}
    for at in range(len(lines) - 1, -1, -1):
        if count + at in keep:
            keep.update(lines[at][1])
    return [at for at in range(len(lines)) if count + at in keep]


def line_of(number, clause, hints):
    """A line of a proof in LRAT's form."""
    return " ".join(map(str, [number, *clause, 0, *hints, 0]))


def write(count, lines, path):
    """Writes the lines that are needed; those left out give no number."""
    number = {place: place + 1 for place in range(count)}
    with open(path, "w") as file:
        for at in needed(count, lines):
            number[count + at] = len(number) + 1
            clause, hints = lines[at]
            file.write(line_of(number[count + at], dict.fromkeys(clause), [number[it] for it in hints]) + "\n")


def main(words):
    if len(words) != 3:
        sys.exit(__doc__)
    try:
        count, lines = refutation(words[0], words[1])
    except Refused as why:
        print(f"hinted.py: {why}", file=sys.stderr)
        return 1
    write(count, lines, words[2])
    return 0


if __name__ == "__main__":
    sys.exit(main(sys.argv[1:]))
