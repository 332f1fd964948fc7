"""What the launcher knows of the files that a command stores: whether they can be stored, and what is said of them afterwards.

The names of files are bytes, as the program compares and prints them.
"""
import collections
import os
import re
import stat

from streams import shown

# What a number of the command line may be, as docs/FORMATS.md says.
RANGES = {"SEED": (0, 18_446_744_073_709_551_615), "SIZE": (1, 4_096), "STEP": (1, 4_294_967_295)}
DIGITS = re.compile(r"\+?0*([0-9]{1,20})")
MOST_RECORDS = 256
LONGEST_LIST = 64_000_000
LONGEST_TRANSCRIPT = 68_719_476_736
GIVEN_TWICE = 5
CANNOT_WRITE = 4
TRANSCRIPTS = ("TRANSCRIPT", "NEWTRANSCRIPT")
# The commands whose results can be verified, each with the command for this and its arguments.
VERIFIED_BY = {
    "run": ("verify", ("DOMAINS", "ROWS", "SCENARIO", "TRANSCRIPT")),
    "live": ("verify-live", ("DOMAINS", "ROWS", "SCENARIO", "OWNERS", "TRANSCRIPT")),
    "resume": ("verify", ("DOMAINS", "ROWS", "SCENARIO", "TRANSCRIPT")),
}


def given(command, rest):
    """The arguments of a command, each with the word for it; empty where the program takes the words behind the command for none of
    its own."""
    values = positional(rest)
    if values is None or len(values) != len(command.arguments):
        return []
    pairs = list(zip(command.arguments, values))
    if not all(is_number(argument.name, value) for argument, value in pairs if argument.name in RANGES):
        return []
    named = [(argument, os.fsencode(value)) for argument, value in pairs]
    return named if all(is_text(value) for _, value in named) else []


def positional(rest):
    """The words without the first `--`, or None where an option is among those before it."""
    place = rest.index("--") if "--" in rest else len(rest)
    if any(word.startswith("-") and word != "-" for word in rest[:place]):
        return None
    return rest[:place] + rest[place + 1 :]


def is_number(name, value):
    """Whether a word is a number in the range of this argument."""
    found = DIGITS.fullmatch(value)
    least, most = RANGES[name]
    return found is not None and least <= int(found[1]) <= most


def is_text(name):
    """Whether bytes are UTF-8; the program takes no other word."""
    try:
        name.decode()
    except UnicodeDecodeError:
        return False
    return True


def refusal(arguments):
    """The status, the line of the program's and the reason where an output can't be stored, or would be stored over an input or another
    output; else None. A name that is given twice byte by byte is left to the program, and so is a list that can't be read."""
    names = [(value, argument.is_output) for argument, value in arguments if argument.is_output or argument.is_input]
    lists = [value for argument, value in arguments if argument.name == "LIST"]
    for name in lists:
        records = listed(name)
        if records is None:
            return None
        names += [(value, is_output) for record in records for value, is_output in zip(record, (False, True))]
    if not any(is_output for _, is_output in names) or has_twice(names):
        return None
    return one_file(names) or unwritable(names)


def listed(name):
    """The records of a batch's list, each the names of a scenario and of its result; None where it can't be read as such."""
    try:
        state = os.stat(name)
        if not stat.S_ISREG(state.st_mode) or state.st_size > LONGEST_LIST:
            return None
        records = []
        with open(name, "rb") as file:
            for line in file:
                records += records_of(line)
                if len(records) > MOST_RECORDS:
                    return None
    except (OSError, ValueError):
        return None
    return records if all(len(record) == 2 for record in records) else None


def records_of(line):
    """The record of a line, as a list, which is empty where no field is left in it.

    # Errors

    `ValueError` where the line can't be read."""
    import csv

    text = line.rstrip(b"\n")
    text = (text[3:] if text.startswith(b"\xef\xbb\xbf") else text).decode()
    try:
        fields = [field.strip(" \t") for record in csv.reader([text]) for field in record]
    except csv.Error as error:
        raise ValueError(str(error)) from error
    while fields and not fields[-1]:
        fields.pop()
    return [[field.encode() for field in fields]] if fields else []


def has_twice(names):
    """Whether the name of an output is given twice, byte by byte."""
    counts = collections.Counter(name for name, _ in names)
    return any(is_output and counts[name] > 1 for name, is_output in names)


def one_file(names):
    """The refusal of the first output that is the same file as another name, or None."""
    keys = [identity(name) for name, _ in names]
    alike = collections.defaultdict(list)
    for key, (name, _) in zip(keys, names):
        alike[key].append(name)
    for key, (name, is_output) in zip(keys, names):
        if is_output and key is not None and len(alike[key]) > 1:
            other = next(other for other in alike[key] if other != name)
            return GIVEN_TWICE, name + b": given twice\n", f"{shown(name)} and {shown(other)} are one file\n".encode()
    return None


def identity(name):
    """What two names have in common where they name one file, which may not be there yet. None for what holds no bytes that could be
    lost, as a device, and for a place where no file can be."""
    try:
        state = os.stat(name)
        return (state.st_dev, state.st_ino) if stat.S_ISREG(state.st_mode) else None
    except FileNotFoundError:
        pass
    except OSError:
        return None
    folder, own = os.path.split(os.path.realpath(name))
    try:
        state = os.stat(folder)
    except OSError:
        return None
    return state.st_dev, state.st_ino, own


def unwritable(names):
    """The refusal of the first output that can't be stored, or None."""
    for name, is_output in names:
        reason = why_unwritable(name) if is_output else None
        if reason:
            return CANNOT_WRITE, b"cannot write " + name + b"\n", f"{reason}\n".encode()
    return None


def why_unwritable(name):
    """Why a file of this name can't be stored, or None where nothing is known. A plain file is replaced by one that is made beside it, so
    its folder has to be writable and the file needn't be. A device, a pipe or what a link leads to is written itself."""
    try:
        state = os.stat(name)
    except (FileNotFoundError, NotADirectoryError):
        folder = os.path.dirname(os.path.realpath(name) if os.path.islink(name) else name)
        return why_no_file(folder or b".") if name else "an empty name is no file's"
    except OSError as error:
        return f"{shown(name)}: {error.strerror}"
    if stat.S_ISDIR(state.st_mode):
        return f"{shown(name)}: this is a folder"
    if stat.S_ISREG(state.st_mode) and not os.path.islink(name):
        return why_no_file(os.path.dirname(name) or b".")
    return None if may(name, os.W_OK) else f"{shown(name)}: forbidden to write"


def why_no_file(folder):
    """Why no file can be made in a folder, or None where nothing is known."""
    own = shown(folder)
    try:
        state = os.stat(folder)
    except FileNotFoundError:
        return f"{own}: no such folder"
    except NotADirectoryError:
        return f"{own}: not a folder"
    except OSError as error:
        return f"{own}: {error.strerror}"
    if not stat.S_ISDIR(state.st_mode):
        return f"{own}: not a folder"
    return None if may(folder, os.W_OK | os.X_OK) else f"{own}: forbidden to make a file in this folder"


def may(name, mode):
    """Whether the launcher may do this with a file, and so the program."""
    return os.access(name, mode, effective_ids=os.access in os.supports_effective_ids)


def notes(command, arguments, is_terminal):
    """What is said of the files that a command stored, in bytes: which of them is too long to be read back, and on a terminal where the
    results are and how they are verified."""
    too_long = [text for argument, value in arguments if argument.is_output and argument.name in TRANSCRIPTS for text in length_note(value)]
    where = where_stored(command, arguments, not too_long) if is_terminal and command in VERIFIED_BY else []
    return "".join(f"{text}\n" for text in [*too_long, *where]).encode("utf-8", "surrogateescape")


def length_note(name):
    """A line on a transcript that is longer than one that is read back may be, or none."""
    state = os.stat(name)
    if not stat.S_ISREG(state.st_mode) or state.st_size <= LONGEST_TRANSCRIPT:
        return []
    most = f"a transcript that is read back (verify, resume ..) may have at most {LONGEST_TRANSCRIPT:,}"
    return [f"{shown(name)} has {state.st_size:,} bytes; {most}"]


def where_stored(command, arguments, is_readable):
    """Where the results are, and the command that verifies them where the transcript can be read back."""
    stored = [quoted(value) for argument, value in arguments if argument.is_output]
    text = f"stored {', '.join(stored[:-1])} and {stored[-1]}"
    verify, wanted = VERIFIED_BY[command]
    names = {argument.name: value for argument, value in arguments}
    values = [names[name] for name in wanted]
    if not is_readable or not os.path.isfile(values[-1]):
        return [text]
    dashes = ["--"] if any(value.startswith(b"-") and value != b"-" for value in values) else []
    called = quoted(os.fsencode(os.environ.get("REPACK_CALLED") or "repack"))
    return [f"{text}; to verify them:", " ".join(["  " + called, verify, *dashes, *map(quoted, values)])]


def quoted(name):
    """A name as a shell takes it."""
    import shlex

    return shlex.quote(name.decode("utf-8", "surrogateescape"))
