"""Runs programs one at a time, and says how long they took, how much memory they had at most, and what they wrote.

The peak is what the kernel reports for the process itself (`os.wait4`). A child of Python's own would inherit Python's peak across fork and
exec, so a small shell starts each program and ends, and the program, now an orphan, becomes a child of this process again (Linux's
`PR_SET_CHILD_SUBREAPER`). The start of the shells is part of each time; it is taken out with the start-up (see `Program`).
"""
import ctypes
import dataclasses
import os
import subprocess
import tempfile
import time

PR_SET_CHILD_SUBREAPER = 36
START = '{ sh -c "$INNER" sh "$@" <&3 >&4 & } 3<&0 4>&1'
INNER = 'echo $$ >&2; exec "$@" 2>/dev/null 3<&- 4>&-'
RUNS = 3


def adopt_orphans():
    if ctypes.CDLL(None, use_errno=True).prctl(PR_SET_CHILD_SUBREAPER, 1, 0, 0, 0) != 0:
        raise OSError(ctypes.get_errno(), "prctl")


@dataclasses.dataclass
class Ran:
    seconds: float
    peak: int


def run_to_end(command, source, sink):
    """Runs a command over a file, its output into another one: the seconds that it took, and its usage. Fails if its status isn't 0."""
    with open(source, "rb") as data, open(sink, "wb") as out:
        begin = time.perf_counter()
        words = ["sh", "-c", START, "sh", *map(str, command)]
        shell = subprocess.run(words, stdin=data, stdout=out, stderr=subprocess.PIPE, env={**os.environ, "INNER": INNER}, check=True)
        _, status, usage = os.wait4(int(shell.stderr), 0)
        took = time.perf_counter() - begin
    if status != 0:
        raise RuntimeError(f"{command} ended with status {os.waitstatus_to_exitcode(status)}")
    return took, usage


def run(command, source, sink=os.devnull):
    """The seconds of a command over a file, its output into another one, and its peak. Fails if its status isn't 0."""
    took, usage = run_to_end(command, source, sink)
    return Ran(took, usage.ru_maxrss * 1024)


def run_by_processor(command):
    """The seconds of a processor that a command takes over an empty input, and its peak. Fails if its status isn't 0."""
    _, usage = run_to_end(command, os.devnull, os.devnull)
    return Ran(usage.ru_utime + usage.ru_stime, usage.ru_maxrss * 1024)


class Program:
    """A command, and its start-up: the least time that it takes over an input without a byte, measured when it is first needed."""

    def __init__(self, name, *command):
        self.name = name
        self.command = command
        self.start = None

    def over(self, source, runs=RUNS):
        """The least seconds over a file beyond the start-up, and the greatest peak."""
        if self.start is None:
            self.start = min(run(self.command, os.devnull).seconds for _ in range(10))
        ran = [run(self.command, source) for _ in range(runs)]
        return Ran(max(min(one.seconds for one in ran) - self.start, 1e-6), max(one.peak for one in ran))

    def output(self, source):
        with tempfile.NamedTemporaryFile() as sink:
            run(self.command, source, sink.name)
            return sink.read()


def same_output(source, *programs):
    """Fails if the programs write other bytes than the first one over a file; gives how many bytes it writes."""
    first = programs[0].output(source)
    for other in programs[1:]:
        theirs = other.output(source)
        if theirs != first:
            at = next((n for n, (a, b) in enumerate(zip(first, theirs)) if a != b), min(len(first), len(theirs)))
            raise RuntimeError(f"{other.name} writes other bytes than {programs[0].name} from byte {at} on: {theirs[at:at + 60]} and not {first[at:at + 60]}")
    return len(first)


def in_turn(source, ours, theirs, runs=RUNS):
    """Both programs over a file, one after the other in each round, so that a busy moment meets both."""
    same_output(source, ours, theirs)
    rounds = [(ours.over(source, 1), theirs.over(source, 1)) for _ in range(runs)]
    best = [Ran(min(one.seconds for one in side), max(one.peak for one in side)) for side in zip(*rounds)]
    return best[0], best[1]


adopt_orphans()
