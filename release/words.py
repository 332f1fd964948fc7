"""The words of the program's command line, as its own help names them.

The launcher asks for those of one command, and the man page and the completions are made of all of them, so that no list of
commands or arguments is kept beside the program.
"""
import re
import subprocess
import typing

# The arguments that are numbers and not names of files.
NUMBERS = ("SEED", "SIZE", "STEP")
LISTED = re.compile(r"^  (\S+) {2,}(.+)$", re.M)
# `clap` puts a long help on the line below its argument.
ARGUMENT = re.compile(r"^  <(\w+)>\s+(.+)$", re.M)


class Argument(typing.NamedTuple):
    """An argument of a command: its name, as RESULT, and its line of help."""

    name: str
    help: str

    @property
    def is_output(self):
        """Whether it names a file that the command stores."""
        return self.help.startswith("Where to store")

    @property
    def is_input(self):
        """Whether it names a file that the command reads."""
        return not self.is_output and self.name not in NUMBERS


class Command(typing.NamedTuple):
    """A command of the program: its name, what it does, and its arguments in order."""

    name: str
    about: str
    arguments: tuple


def said(program, *words):
    """What the program prints on these words."""
    return subprocess.run([program, *words], stdout=subprocess.PIPE, stdin=subprocess.DEVNULL, check=False, text=True).stdout


def command_of(program, name):
    """The command of this name, or None where the program knows none."""
    about, found, usage = said(program, "help", name).partition(f"\n\nUsage: repack {name}")
    if not found:
        return None
    return Command(name, about.strip(), tuple(Argument(*row) for row in ARGUMENT.findall(usage)))


def commands_of(program):
    """All commands of the program, in the order in which its help lists them, without `help`."""
    listed = said(program, "help").partition("Commands:\n")[2].partition("\n\n")[0]
    return [command_of(program, name) for name, _ in LISTED.findall(listed) if name != "help"]


def options_of(program):
    """The options of the program, as pairs of their spelling and their help."""
    listed = said(program, "help").partition("Options:\n")[2].partition("\n\n")[0]
    return LISTED.findall(re.sub(r"(-\w), ", r"\1,", listed))


def version_of(program):
    """The program's version, as 1.0.0."""
    return said(program, "--version").split()[-1]
