"""Runs the program and says on standard error what helps the person who called it.

    python3 -I launcher.py PROGRAM WORD ..

The program's bytes on standard output, the files that it stores and the status are those of the program alone. All that is said
here goes to standard error: what was wrong with a file, where the results are, how long a run takes. Nothing is run where an output
could not be stored or would be stored over an input; the line and the status are then the program's own for this.

The launcher never reads standard input, never writes a file, and never shows a traceback: where the help fails, nothing is said.
"""
import io
import os
import sys

# The folder of the sources stays as it is, and its modules are found with `-I` too.
sys.dont_write_bytecode = True
sys.path.insert(0, os.path.dirname(os.path.realpath(__file__)))

try:
    import processes
    from streams import say, tried
except Exception:  # pylint: disable=broad-except
    # Without the help the program still does what it is there for.
    os.execv(sys.argv[1], sys.argv[1:])

REPEATED_LINES = 20
# The statuses that the program replaces by 4 where it can't print.
PRINTED_STATUSES = (0, 1, 11)
CANNOT_PRINT = 4
# What the launcher ends with where it isn't told a program.
USAGE = 2


def given_of(program, words):
    """The arguments that the command line gives, each with its name; empty where it is none that the program carries out."""
    if not words or words[0].startswith("-") or words[0] == "help":
        return []
    import outputs
    import words as words_of

    command = words_of.command_of(program, words[0])
    return outputs.given(command, words[1:]) if command else []


def refusal(given):
    """The status, the line and the reason where an output can't be stored, or None."""
    if not given:
        return None
    import outputs

    return outputs.refusal(given)


def is_elsewhere():
    """Whether standard output is no terminal, and not where standard error leads."""
    output, error = os.fstat(1), os.fstat(2)
    return not os.isatty(1) and (output.st_dev, output.st_ino) != (error.st_dev, error.st_ino)


def refuse(status, line, reason):
    """Prints a line of the program's and says the reason. Returns the status."""
    try:
        os.write(1, line)
    except OSError:
        pass
    say((line if is_elsewhere() else b"") + reason)
    return status


def status_of(ended, flow):
    """The status of the program, which is 4 where its output could not be passed on: a program that prints into a pipe doesn't see
    that standard output is full or closed, and would have answered so."""
    if flow.error and ended.si_status in PRINTED_STATUSES:
        return CANNOT_PRINT
    return ended.si_status


def repeated(status, printed):
    """The bytes that are repeated on standard error of what the program printed at a status, wherever standard output leads."""
    if not 2 <= status <= 11 or status == 2 and not printed.first.startswith(b"error:"):
        return b""
    lines = io.BytesIO(printed.last).readlines()
    if status == 11:
        lines = [line for line in lines if line.endswith((b" 6\n", b" 7\n"))]
    return b"".join(lines[-REPEATED_LINES:])


def hints_of(status, printed, given):
    """What is said of a file that the program's line names."""
    if status not in (3, 5, 9, 10):
        return b""
    import hints

    return hints.hint(bytes(printed.last), [(argument.name, name) for argument, name in given])


def is_unprinted(status, printed):
    """Whether a run ended with 4 since it could not print what it had to, and not since it could not store a file."""
    return status == CANNOT_PRINT and not printed.last.startswith(b"cannot write ")


def notes_of(command, status, printed, given):
    """What is said of the files that were stored, which they are also where the rest could not be printed."""
    if not given or status not in (0, 1) and not is_unprinted(status, printed):
        return b""
    import outputs

    return outputs.notes(command, given, status in (0, 1) and os.isatty(2))


def members_of(status, given):
    """What is said of the members of a scenario that an auction was carried out or checked by."""
    names = [name for argument, name in given if argument.name == "SCENARIO" and not argument.is_output]
    if not names or status not in (0, 1, 6, 7):
        return b""
    import members

    return members.notes(names[0])


def say_after(words, status, flow, given):
    """Says what is to be said after a run."""
    printed = flow.printed
    if flow.error and is_unprinted(status, printed):
        # A reader that wants no more, as `head`, knows.
        if not isinstance(flow.error, BrokenPipeError):
            say(f"standard output: {getattr(flow.error, 'strerror', None) or flow.error}\n".encode())
    elif is_elsewhere():
        say(repeated(status, printed))
    say(tried(hints_of, status, printed, given) or b"")
    say(tried(members_of, status, given) or b"")
    say(tried(notes_of, words[0] if words else "", status, printed, given) or b"")


def main():
    if len(sys.argv) < 2:
        say(b"usage: launcher.py PROGRAM WORD ..\n")
        os._exit(USAGE)
    processes.fill_descriptors()
    processes.set_interrupt()
    program, words = sys.argv[1], sys.argv[2:]
    given = tried(given_of, program, words) or []
    refused = tried(refusal, given)
    if refused:
        os._exit(refuse(*refused))
    ended, flow = processes.run(program, words)
    if ended.si_code != os.CLD_EXITED:
        processes.die_by(ended.si_status)
    status = status_of(ended, flow)
    tried(say_after, words, status, flow, given)
    os._exit(status)


if __name__ == "__main__":
    main()
