"""The subjects of the tests, and the jobs that run them."""
import difflib
import os
import re
import shutil
import subprocess

from jobs import Job, Result, last_lines
from tree import TOP, units

# The most seconds for one test: tests of large files are slow without optimization.
SECONDS = 900
# The seed and the number of the runs of `tests/search/hostile`.
HOSTILE = ("--seed", "57", "--runs", "1500", "--jobs", "1")
# The folders of the shell scripts, besides `repack`.
FOLDERS_OF_SCRIPTS = (".ci", "release", "tests", "tests/search", "benchmarks/time")
NO_PROGRAM = "no program of these sources is built; ./repack --version builds it"
NO_RT = "the toolchain's command rt is not on the path"
NO_SHELLCHECK = "shellcheck is not installed"
ENDED = re.compile(r"^test (\S+) \.\.\. (\w+)\n((?:    .*\n)*)", re.M)
CASE = re.compile(r"^(ok|FAILED) (.*)\n((?:    .*\n)*)", re.M)
GROWTHS = re.compile(r"^(.*): (\d+) growths.*, (\d+) otherwise$", re.M)


def names():
    """Returns each subject with its number of tests, or `None` if only a run shows the number."""
    found = {}
    for unit in units():
        for test in unit.tests:
            subject = subject_of(unit, test)
            found[subject] = found.get(subject, 0) + 1
    known = {"hostile": 1, "mutants": 1, "scripts": len(shell_scripts())}
    return {**dict(sorted(found.items())), **{name: known.get(name) for name in OTHERS}}


def subject_of(unit, test):
    """Returns the subject of a test: its folder in `tests/`."""
    return test.split("::")[0] if unit.folders else unit.name


def name_in(unit, test):
    """Returns the name of a test with its subject in front."""
    return test if unit.folders else f"{unit.name}::{test}"


def is_of(name, wanted):
    """Checks whether `wanted` names a test: a subject, a module below a subject, or a test, whose middle part may be omitted."""
    subject, _, rest = wanted.partition("::")
    return name == wanted or name.startswith(wanted + "::") or bool(rest) and name.startswith(subject + "::") and name.endswith("::" + rest)


def tests_of(wanted):
    """Returns the complete names of the tests that the words name."""
    return [name_in(unit, test) for unit in units() for test in unit.tests if any(is_of(name_in(unit, test), word) for word in wanted)]


def like(word):
    """Returns the name most similar to a word, as the end of a sentence."""
    known = [*names(), *(name_in(unit, test) for unit in units() for test in unit.tests)]
    found = difflib.get_close_matches(word, known, 1)
    return f" (is it {found[0]}?)" if found else ""


def jobs_of(copy, wanted):
    """Returns the jobs of the wanted subjects, modules and tests, or all jobs if none is wanted, and the words that name nothing.
    `copy` makes a copy of the tree with its tests and returns the copy's folder."""
    found, unknown = [], set(wanted)
    for unit in units():
        own = [test for test in unit.tests if not wanted or any(is_of(name_in(unit, test), word) for word in wanted)]
        unknown -= {word for word in wanted if any(is_of(name_in(unit, test), word) for test in unit.tests)}
        if own:
            found.append(unit_job(copy, unit, own))
    for name, make in OTHERS.items():
        if not wanted or name in wanted:
            found += make()
    return found, unknown - {*OTHERS}


def unit_job(copy, unit, own):
    """Returns the job that builds a unit and runs these of its tests."""
    if not shutil.which("rt"):
        return Job(unit.name, 0, (), str(TOP), lambda printed, status: [skipped(name_in(unit, test), NO_RT) for test in own])
    # The test program accepts at most one filter.
    alone = own if len(own) == 1 else ()
    path = f"PATH={TOP / 'tests' / 'runner' / 'bin'}:{os.environ['PATH']}"
    words = ("env", path, "rt", "try", "--test", "--steps", "1", "--seconds", str(SECONDS), *(["--", *alone] if alone else []))
    weight = 100 + len(unit.calls.split())
    return Job(unit.name, weight, words, str(copy() / "crates" / unit.name), lambda printed, status: results_of(unit, own, printed))


def results_of(unit, own, printed):
    """Returns the results of a unit's tests from the output of its run. A test that the output lacks has failed."""
    told = {test: (outcome, why) for test, outcome, why in ENDED.findall(printed)}
    lost = f"{unit.name} ended before this test:\n{last_lines(printed)}" if told else f"{unit.name} was not built:\n{last_lines(printed)}"
    results = []
    for test in own:
        outcome, why = told.get(test, ("missing", lost))
        why = "\n".join(in_tests(unit, line.strip()) for line in why.splitlines())
        results.append(Result(name_in(unit, test), name_in(unit, test), "passed" if outcome == "ok" else "failed", why))
    return results


def in_tests(unit, line):
    """Returns a line of the toolchain with the copy's source names replaced by their names in `tests/`."""
    if not unit.folders:
        return re.sub(r"\bsrc/([\w/]+)/tests\.rt\b", rf"tests/{unit.name}/\1.tests.rs", line)
    line = re.sub(r"\bsrc/(\w+)\.rt\b", r"tests/\1/mod.rs", line)
    return re.sub(r"\bsrc/([\w/]+)\.rt\b", r"tests/\1.rs", line)


def skipped(name, why):
    """Returns the result of a skipped test."""
    return Result(name, name, "skipped", why)


def by_status(name):
    """Returns the reader of a job with a single test, which passes if the status is 0."""
    return lambda printed, status: [Result(name, name.split(":")[0], "failed" if status else "passed", last_lines(printed))]


def has_program():
    """Checks whether a program of these sources exists, released or built."""
    own = {"REPACK_BUILD": "0", "PATH": "/usr/bin:/bin"}
    return subprocess.run([TOP / "release" / "find"], env=own, capture_output=True, check=False).returncode == 0


def program_job(name, weight, words, read):
    """Returns a job that needs the program."""
    if not has_program():
        return Job(name, 0, (), str(TOP), lambda printed, status: [skipped(name, NO_PROGRAM)])
    return Job(name, weight, words, str(TOP), read)


def plain_job(name, weight, words, read):
    """Returns a job that needs no program."""
    return Job(name, weight, words, str(TOP), read)


def cases(name, weight, script, make=program_job):
    """Returns the job of a script that prints `ok NAME` or `FAILED NAME` for each case, and then the reasons, indented by four."""

    def read(printed, status):
        found = [Result(f"{name}: {case}", name, "passed" if word == "ok" else "failed", why) for word, case, why in CASE.findall(printed)]
        is_complete = status == 0 or any(result.outcome == "failed" for result in found)
        return found if found and is_complete else [*found, *by_status(name)(printed, 1)]

    return make(name, weight, (script,), read)


def memory():
    """Returns the job that refuses each growth of the program's memory."""

    def read(printed, status):
        found = []
        for name, growths, otherwise in GROWTHS.findall(printed):
            # If no growth is counted, none was refused.
            is_good = int(growths) > 0 and int(otherwise) == 0
            found.append(Result(f"memory: {name}", "memory", "passed" if is_good else "failed", last_lines(printed)))
        is_complete = status == 0 or any(result.outcome == "failed" for result in found)
        return found if found and is_complete else [*found, *by_status("memory")(printed, 1)]

    return program_job("memory", 90, ("tests/search/memory", "--short"), read)


def hostile():
    """Returns the job that runs the program on hostile words and files."""
    return program_job("hostile", 80, ("tests/search/hostile", *HOSTILE), by_status("hostile"))


def mutants():
    """Returns the job that checks whether each manual mutant still applies."""
    return Job("mutants", 1, ("tests/mutants",), str(TOP), by_status("mutants"))


def shell_scripts():
    """Returns the shell scripts of the repository."""
    places = [TOP / "repack", *(place for folder in FOLDERS_OF_SCRIPTS for place in sorted((TOP / folder).iterdir()))]
    return [place for place in places if place.is_file() and place.read_bytes().startswith(b"#!/bin/sh")]


def script_job(script):
    """Returns the job that checks a shell script."""
    name = f"scripts: {script.relative_to(TOP)}"
    if not shutil.which("shellcheck"):
        return Job(name, 0, (), str(TOP), lambda printed, status: [skipped(name, NO_SHELLCHECK)])
    return Job(name, 1, ("shellcheck", str(script)), str(TOP), by_status(name))


# The subjects besides the units.
OTHERS = {
    "examples": lambda: [cases("examples", 50, "tests/examples")],
    "launcher": lambda: [cases("launcher", 55, "tests/launcher")],
    "limits": lambda: [cases("limits", 60, "tests/limits")],
    "stores": lambda: [cases("stores", 47, "tests/stores")],
    "release": lambda: [cases("release", 45, "tests/release")],
    "installed": lambda: [cases("installed", 40, "tests/installed")],
    "memory": lambda: [memory()],
    "hostile": lambda: [hostile()],
    "mutants": lambda: [mutants()],
    "documents": lambda: [cases("documents", 2, "tests/documents", plain_job)],
    "plain": lambda: [cases("plain", 1, "tests/plain", plain_job)],
    "scripts": lambda: [script_job(script) for script in shell_scripts()],
}
