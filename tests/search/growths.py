"""Runs a program and counts its growths, refuses one of them on request, and measures its memory (`fail_allocation.c`)."""
import os
import pathlib
import shutil
import struct
import subprocess
import sys
import typing
from subprocess import DEVNULL as NONE, PIPE

SOURCE = pathlib.Path(__file__).resolve().parent / "fail_allocation.c"
# The numbers of the library, in its order.
NUMBERS = struct.Struct("6q")
# The most seconds of a run.
LIMIT = 60


class Run(typing.NamedTuple):
    """How a run ended: its status, or `None` if it was killed after a minute; its standard output and standard error; how many growths
    it asked for and how many were refused; the most bytes of blocks that it held at once; the most kilobytes of memory that it
    had."""

    status: typing.Optional[int]
    printed: bytes
    said: bytes
    growths: int
    refused: int
    most: int
    peak: int


def compilers():
    """Yields the commands that may build the library: the system's compiler, and the toolchain's compiler, found by `rt`."""
    yield ["cc"]
    rt = shutil.which("rt")
    if rt:
        yield [str(pathlib.Path(rt).resolve().parent.parent / "toolchain/bin/clang"), "-nostdlib", "-fuse-ld=lld"]


class Counted:
    """The library, built in a folder, and the file of its numbers."""

    def __init__(self, folder):
        self.library, self.numbers = folder / "fail_allocation.so", folder / "growths"
        for compiler in compilers():
            command = [*compiler, "-O1", "-shared", "-fPIC", "-o", self.library, SOURCE]
            if shutil.which(compiler[0]) and subprocess.run(command, stderr=subprocess.DEVNULL).returncode == 0:
                return
        sys.exit(f"{SOURCE} can't be built: neither cc nor the toolchain's clang does")

    def run(self, command, folder, refuse=0):
        """Runs a command in a folder and refuses the growth of this number, or none if the number is 0."""
        self.numbers.write_bytes(NUMBERS.pack(refuse, 0, 0, 0, 0, 0))
        places = {**os.environ, "LD_PRELOAD": str(self.library), "GROWTHS": str(self.numbers)}
        with subprocess.Popen(command, cwd=folder, env=places, stdin=NONE, stdout=PIPE, stderr=PIPE) as process:
            try:
                printed, said = process.communicate(timeout=LIMIT)
                status = process.returncode
            except subprocess.TimeoutExpired:
                process.kill()
                printed, said = process.communicate()
                status = None
        _, growths, refused, _, most, peak = NUMBERS.unpack(self.numbers.read_bytes())
        return Run(status, printed, said, growths, refused, most, peak)
