"""Jobs, each of which runs some tests as one process, and lanes that run jobs in parallel."""
import concurrent.futures
import itertools
import os
import signal
import subprocess
import sys
import time
import typing

# The most memory of one build of a unit, in bytes (measured).
MEMORY_OF_A_BUILD = 3_500_000_000
# The number of output lines shown for a failure without a test's name.
LINES_SHOWN = 25


class Result(typing.NamedTuple):
    """The result of one test: its name, the name that `./test` runs it by, and `passed`, `failed` or `skipped`. `why` is the reason if it
    did not pass."""

    name: str
    alone: str
    outcome: str
    why: str = ""


class Job(typing.NamedTuple):
    """A process that runs tests: its name, its relative duration, its command and its folder. `read` returns the results for the output
    and the status. A job without a command runs nothing: `read` returns why its tests are skipped."""

    name: str
    weight: int
    words: tuple
    folder: str
    read: typing.Callable


class Lanes:
    """Runs jobs in parallel, the longest first, and reports progress."""

    def __init__(self):
        self.running = set()
        self.stopped = False

    def run(self, jobs):
        """Runs the jobs and returns their results, in the order in which they ended."""
        results, ended = [], 0
        with concurrent.futures.ThreadPoolExecutor(lanes()) as pool:
            waiting = [pool.submit(self.one, job) for job in sorted(jobs, key=lambda job: -job.weight)]
            try:
                for future in concurrent.futures.as_completed(waiting):
                    job, found, seconds = future.result()
                    ended += 1
                    tell(job, found, seconds, f"{ended} of {len(jobs)}")
                    results += found
            except BaseException:
                self.stop()
                raise
        return results

    def one(self, job):
        """Runs one job, and returns the job with its results and its duration in seconds."""
        if self.stopped or not job.words:
            return job, job.read("", 0), 0
        begin = time.monotonic()
        process = subprocess.Popen(
            job.words, cwd=job.folder, stdin=subprocess.DEVNULL, stdout=subprocess.PIPE, stderr=subprocess.STDOUT, text=True, errors="replace"
        )
        self.running.add(process)
        if self.stopped:
            process.terminate()
        printed = process.communicate()[0]
        self.running.discard(process)
        return job, job.read(printed, process.returncode), time.monotonic() - begin

    def stop(self):
        """Ends the running jobs and starts no more."""
        self.stopped = True
        for process in list(self.running):
            process.send_signal(signal.SIGTERM)


def lanes():
    """Returns how many jobs run in parallel: one per processor, as far as the free memory allows, and at least one."""
    free = int(next(line for line in open("/proc/meminfo", encoding="ascii") if line.startswith("MemAvailable")).split()[1]) * 1024
    return max(1, min(len(os.sched_getaffinity(0)), free // MEMORY_OF_A_BUILD))


def tell(job, results, seconds, place):
    """Prints the results of a job's tests: their numbers on one line, then each test that did not pass."""
    count = {outcome: sum(result.outcome == outcome for result in results) for outcome in ("passed", "failed", "skipped")}
    numbers = ", ".join(f"{number} {outcome}" for outcome, number in count.items() if number)
    print(f"{job.name}: {numbers or 'nothing'} in {seconds:.0f} s ({place})")
    # Tests that failed for the same reason, such as a failed build, are printed together.
    for why, group in itertools.groupby((result for result in results if result.outcome == "failed"), key=lambda result: result.why):
        first, *others = group
        more = f" and {len(others)} more" if others else ""
        print(f"FAILED {first.name}{more}, alone by: ./test {first.alone}")
        print("".join(f"    {line}\n" for line in why.splitlines()), end="")
    sys.stdout.flush()


def last_lines(printed):
    """Returns the end of a job's output."""
    return "\n".join(printed.splitlines()[-LINES_SHOWN:])
