"""How the launcher starts the program, passes signals to it, and ends as the program ended."""
import os
import select
import signal

import streams
from streams import say, tried

PASSED = (signal.SIGTERM, signal.SIGHUP, signal.SIGINT, signal.SIGQUIT, signal.SIGUSR1, signal.SIGUSR2)
# Of Linux's prctl.
PR_SET_PDEATHSIG = 1
# What a shell ends with where a program isn't found or can't be run.
NOT_FOUND = 127
NOT_RUN = 126


def fill_descriptors():
    """Fills standard input, output or error, where it is closed, with one that can't be written to and that the program doesn't get.
    Otherwise a pipe would take its place."""
    for descriptor in range(3):
        try:
            os.fstat(descriptor)
        except OSError:
            os.open(os.devnull, os.O_RDONLY)


def set_interrupt():
    """Has SIGINT end the launcher without a traceback, unless its caller ignores this signal."""
    if signal.getsignal(signal.SIGINT) is signal.default_int_handler:
        signal.signal(signal.SIGINT, signal.SIG_DFL)


def find_prctl():
    """The system's call `prctl`, and SIGKILL as it takes it."""
    import ctypes

    return ctypes.CDLL(None).prctl, ctypes.c_ulong(signal.SIGKILL)


def start(program, words):
    """Starts the program, with the signals that are passed on held back. Returns its process, the pipe of its output, and the signals
    that were held back before.

    # Errors

    Where the system has no pipe, process or memory to spare. Nothing was started then."""
    prctl = tried(find_prctl)
    launcher = os.getpid()
    read_end, write_end = os.pipe()
    # Where a caller ignores this signal, the system forgets how a process ended.
    signal.signal(signal.SIGCHLD, lambda *_: None)
    mask = signal.pthread_sigmask(signal.SIG_BLOCK, [*PASSED, signal.SIGCHLD])
    try:
        process = os.fork()
    except OSError:
        signal.pthread_sigmask(signal.SIG_SETMASK, mask)
        raise
    if process == 0:
        become(program, words, write_end, mask, prctl, launcher)
    os.close(write_end)
    return process, read_end, mask


def become(program, words, write_end, mask, prctl, launcher):
    """Makes this process the program, which the system kills where the launcher is killed. Never returns."""
    try:
        if prctl:
            prctl[0](PR_SET_PDEATHSIG, prctl[1])
        if os.getppid() == launcher:
            os.dup2(write_end, 1)
            signal.pthread_sigmask(signal.SIG_SETMASK, mask)
            replace(program, words)
    finally:
        os._exit(NOT_RUN)


def replace(program, words):
    """Runs the program in the place of this process. Never returns."""
    # Python ignores this signal, and the program would too. That of a file's greatest size stays ignored: the program tells it.
    signal.signal(signal.SIGPIPE, signal.SIG_DFL)
    try:
        os.execv(program, [program, *words])
    except OSError as error:
        say(f"repack: cannot run {program}: {error.strerror}\n".encode("utf-8", "surrogateescape"))
        os._exit(NOT_FOUND if isinstance(error, FileNotFoundError) else NOT_RUN)


def watch(process, mask):
    """Passes signals to the program from here on, those that were held back first. Returns a descriptor that can be read after each signal,
    also after the program's end, and the set of the signals that were passed."""
    wake, woken = os.pipe()
    os.set_blocking(wake, False)
    os.set_blocking(woken, False)
    signal.set_wakeup_fd(woken, warn_on_full_buffer=False)
    passed = set()

    def pass_on(number, _):
        passed.add(number)
        os.kill(process, number)

    set_handlers(pass_on)
    signal.pthread_sigmask(signal.SIG_SETMASK, set(mask) - {signal.SIGCHLD})
    return wake, passed


def set_handlers(handler):
    """Sets what is done with the signals that are passed on. Those that the caller ignores, as `nohup` does, stay ignored."""
    for number in PASSED:
        if signal.getsignal(number) != signal.SIG_IGN:
            signal.signal(number, handler)


def relay(process, flow, life, mask):
    """Passes the program's output and the launcher's signals on until the program has ended. Returns how, as `waitid` says it."""
    wake, passed = watch(process, mask)
    ended = has_ended(process)
    while ended is None:
        events = flow.events()
        found = streams.ready([(wake, select.POLLIN), *events], life.milliseconds())
        if wake in found:
            os.read(wake, 512)
        if any(descriptor in found for descriptor, _ in events):
            flow.step()
        tried(life.tick)
        ended = has_ended(process)
    # From here on a signal ends the launcher, which may still wait for the reader of its output.
    signal.set_wakeup_fd(-1)
    set_handlers(signal.SIG_DFL)
    tried(life.clear)
    # A program that got a signal would not have waited for that reader either.
    flow.drain(ended.si_code == os.CLD_EXITED or ended.si_status not in passed)
    return ended


def has_ended(process):
    """How a process ended, or None while it runs. It is not waited for, so that its number stays its own and a signal hits no other."""
    return os.waitid(os.P_PID, process, os.WEXITED | os.WNOHANG | os.WNOWAIT)


def run(program, words):
    """Runs the program. Returns how it ended and the flow of its output."""
    try:
        process, read_end, mask = start(program, words)
    except (OSError, MemoryError):
        replace(program, words)
    life = streams.Life(process)
    flow = streams.Flow(read_end, life)
    try:
        return relay(process, flow, life, mask), flow
    except Exception as error:  # pylint: disable=broad-except
        # The program goes on, and the launcher answers as where standard output fails.
        flow.fail(error)
        return os.waitid(os.P_PID, process, os.WEXITED | os.WNOWAIT), flow


def die_by(number):
    """Ends the launcher by a signal, as the program ended."""
    tried(forbid_image)
    tried(signal.signal, number, signal.SIG_DFL)
    tried(signal.pthread_sigmask, signal.SIG_UNBLOCK, [number])
    os.kill(os.getpid(), number)
    os._exit(128 + number)


def forbid_image():
    """Has the system store no image of the launcher's memory: the program's own was stored where the system stores any."""
    import resource

    resource.setrlimit(resource.RLIMIT_CORE, (0, resource.getrlimit(resource.RLIMIT_CORE)[1]))
