"""The program that a script runs, built before, or proved and built in a copy of the crates."""
import os
import pathlib
import shutil
import subprocess
import sys

TOP = pathlib.Path(__file__).resolve().parents[2]
PROGRAMS = TOP / "benchmarks" / "programs"
YARDSTICKS = TOP / "benchmarks" / "yardsticks"


def started():
    """The program that `./repack` starts. Where it would have to build one first, the script ends."""
    found = subprocess.run([TOP / "release" / "find"], env={**os.environ, "REPACK_BUILD": "0"}, stdout=subprocess.PIPE, text=True)
    if found.returncode:
        sys.exit("./repack --version builds the program")
    return pathlib.Path(found.stdout.strip()).resolve()


def told(words):
    """The arguments of a script, `--program` added: the program, which is the one that `./repack` starts where none is named."""
    words.add_argument("--program", type=lambda path: pathlib.Path(path).resolve(), help="the program (the one that ./repack starts)")
    given = words.parse_args()
    given.program = given.program or started()
    if not given.program.exists():
        sys.exit(f"{given.program} isn't there")
    return given


def built(top, name, needs, programs=PROGRAMS):
    """Proves and builds the program `name`.txt of the folder `programs`, which needs these crates, below the folder `top`. Returns its
    path. The answers that its proof needs are in `name`_proofs, where there is such a folder."""
    print("proving and building the program, which takes some minutes", file=sys.stderr, flush=True)
    shutil.copytree(TOP / "crates", top / "crates", ignore=shutil.ignore_patterns("out"))
    (top / "crates.txt").write_text((TOP / "crates.txt").read_text() + f"\n{name}: {needs}\n")
    shutil.copy(TOP / "HANDLES", top)
    subprocess.run(["git", "init", "-q", str(top)], check=True)
    crate = top / "crates" / name
    (crate / "src").mkdir(parents=True)
    shutil.copy(programs / f"{name}.txt", crate / "src" / "main.rt")
    proofs = programs / f"{name}_proofs"
    # They are texts there, since rt wants each proof file within a crate.
    for text in proofs.rglob("*.txt"):
        place = (crate / "proofs" / text.relative_to(proofs)).with_suffix(".antt")
        place.parent.mkdir(parents=True, exist_ok=True)
        shutil.copy(text, place)
    # rt builds a program by running it; without its files it ends at once.
    done = subprocess.run(["rt", "run"], cwd=crate, stdout=subprocess.PIPE, stderr=subprocess.STDOUT, text=True)
    program = crate / "out" / name
    if not program.exists():
        sys.exit(f"the program was not built:\n{done.stdout}")
    return program
