"""The tests' sources, and a copy of the tree that has the tests where the toolchain expects them.

The gate rejects a `.rt` file outside a crate, and so tests are written as `.rs`. In the copy:

- each line of `tests/units.txt` becomes a crate, with a module for each of its folders. `tests/FOLDER/mod.rs` becomes
  `src/FOLDER.rt`, and `tests/FOLDER/a/b.rs` becomes `src/FOLDER/a/b.rt`;
- `tests/CRATE/a/b.tests.rs` becomes the module `tests` of the crate's own module `a::b`.
"""
import pathlib
import re
import shutil
import typing

TOP = pathlib.Path(__file__).resolve().parent.parent.parent
TESTS = TOP / "tests"
TEST = re.compile(r"^#\[test\]\s*\n(?:\s*#\[.*\]\s*\n)*\s*(?:pub )?fn (\w+)", re.M)


class Unit(typing.NamedTuple):
    """A program that is built and run: its crate in the copy, its folders of `tests/`, and the crates that they call. `tests` are the
    names of its tests as the program prints them. A unit for the inside of a product's crate has no folders."""

    name: str
    folders: tuple
    calls: str
    tests: tuple


def names_in(source, path):
    """Returns the complete names of the tests in a source that is the module `path`."""
    return [f"{path}::{name}" for name in TEST.findall(source.read_text(encoding="utf-8"))]


def path_of(source, folder):
    """Returns the module of a source in a folder: `a/b.rs` is `a::b`, and `mod.rs` is the folder."""
    parts = source.relative_to(folder).with_suffix("").parts
    return "::".join(part for part in parts if part != "mod")


def shared_units():
    """Yields the units of `units.txt`."""
    for line in (TESTS / "units.txt").read_text(encoding="utf-8").splitlines():
        if not line or line.startswith("#"):
            continue
        name, folders, calls = line.split(":")
        folders = tuple(folders.split())
        tests = [it for folder in folders for source in sorted((TESTS / folder).rglob("*.rs")) for it in names_in(source, path_of(source, TESTS))]
        yield Unit(name, folders, calls.strip(), tuple(tests))


def inside_units():
    """Yields the units that test the inside of a crate."""
    for folder in sorted({source.parent for source in TESTS.rglob("*.tests.rs")}):
        tests = [it for source in sorted(folder.rglob("*.tests.rs")) for it in names_in(source, f"{inside_path(source, folder)}::tests")]
        yield Unit(folder.name, (), "", tuple(tests))


def inside_path(source, folder):
    """Returns the module that a source tests from inside: `a/b.tests.rs` tests `a::b`."""
    return "::".join(str(source.relative_to(folder)).removesuffix(".tests.rs").split("/"))


def units():
    """Returns all units."""
    return [*shared_units(), *inside_units()]


def lay(to):
    """Copies the crates to the folder `to`, with the tests in their places."""
    shutil.copytree(TOP / "crates", to / "crates", ignore=shutil.ignore_patterns("out"))
    shutil.copy(TOP / "HANDLES", to)
    # The toolchain's search for the top of the repository ends here.
    (to / ".git").mkdir()
    listed = (TOP / "crates.txt").read_text(encoding="utf-8")
    for unit in shared_units():
        listed += f"{unit.name}: {unit.calls}\n"
        lay_unit(unit, to / "crates" / unit.name / "src")
    (to / "crates.txt").write_text(listed, encoding="utf-8")
    for source in TESTS.rglob("*.tests.rs"):
        lay_inside(source, to / "crates" / source.parent.name / "src")


def lay_unit(unit, src):
    """Makes the crate of a unit, with its sources in `src`."""
    for folder in unit.folders:
        for source in (TESTS / folder).rglob("*.rs"):
            inside = source.relative_to(TESTS).with_suffix(".rt")
            put(source, src / (inside.parent.with_suffix(".rt") if source.name == "mod.rs" else inside))
    modules = "".join(f"#[cfg(test)]\nmod {folder};\n" for folder in unit.folders)
    (src / "lib.rt").write_text(f"#![tactic(auto)]\n\n{modules}", encoding="utf-8")


def lay_inside(source, src):
    """Adds a source to a crate as the module `tests` of the module that the source tests."""
    module = src / source.name.replace(".tests.rs", ".rt")
    put(source, module.with_suffix("") / "tests.rt")
    with open(module, "a", encoding="utf-8") as text:
        text.write("\n#[cfg(test)]\nmod tests;\n")


def put(source, place):
    """Copies a source to a new place."""
    if place.exists():
        raise FileExistsError(f"{source} would stand in the place of {place}")
    place.parent.mkdir(parents=True, exist_ok=True)
    shutil.copyfile(source, place)
