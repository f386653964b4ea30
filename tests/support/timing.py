"""Runs a command and says what it took: wall time, processor time and peak memory."""

import os
import resource
import signal
import subprocess
import sys
import time
from collections.abc import Callable, Mapping, Sequence
from dataclasses import dataclass


@dataclass(frozen=True)
class Run:
    """What a run came to: its status (below 0 for a signal), and what it took."""

    status: int
    wall: float  # seconds
    processor: float  # seconds, its own and the system's
    peak: int | None  # KiB; None where it cannot be told from what this Python takes


def own_peak() -> int:
    """The greatest memory of this process, in KiB."""
    return resource.getrusage(resource.RUSAGE_SELF).ru_maxrss


def set_limits(child: int, processor: int | None, wall: int | None) -> None:
    """Ends a child by a signal where it takes more than so many seconds."""
    if processor is not None:
        resource.prlimit(child, resource.RLIMIT_CPU, (processor, processor))
    if wall is not None:
        signal.signal(signal.SIGALRM, lambda *_: os.kill(child, signal.SIGKILL))
        signal.alarm(wall)


def run(
    words: Sequence[str],
    script: str = os.devnull,
    printed: str = os.devnull,
    said: str | None = None,
    folder: str | None = None,
    environment: Mapping[str, str] | None = None,
    processor: int | None = None,
    wall: int | None = None,
) -> Run:
    """Runs a command over the file `script`; what it prints goes to the file `printed`, what it says on the standard
    error to `said`.

    A command that takes more than `processor` seconds of a processor, or `wall` seconds, is ended by a signal. A
    process begins with the peak of the one that starts it, so a peak that is not clearly above that of this Python is
    not told."""
    with open(script, "rb") as source, open(printed, "wb") as out, open(said or os.devnull, "wb") as errors:
        begun = time.perf_counter()
        stderr = errors if said else None
        child = subprocess.Popen(words, stdin=source, stdout=out, stderr=stderr, cwd=folder, env=environment)
        set_limits(child.pid, processor, wall)
        _, status, used = os.wait4(child.pid, 0)
        taken = time.perf_counter() - begun
    if wall is not None:
        signal.alarm(0)
    child.returncode = os.waitstatus_to_exitcode(status)
    peak = used.ru_maxrss if used.ru_maxrss > 1.1 * own_peak() else None
    return Run(child.returncode, taken, used.ru_utime + used.ru_stime, peak)


def least(runs: Sequence[Run]) -> Run:
    """The least times of some runs, and their greatest peak. All of them have one status, or the script ends."""
    statuses = {it.status for it in runs}
    if len(statuses) != 1:
        sys.exit(f"runs of one command ended with statuses {sorted(statuses)}")
    peaks = [it.peak for it in runs if it.peak is not None]
    wall, processor = min(it.wall for it in runs), min(it.processor for it in runs)
    return Run(runs[0].status, wall, processor, max(peaks, default=None))


def in_turn(count: int, *ways: Callable[[], Run]) -> list[Run]:
    """What each of some ways takes, the least of so many runs.

    The ways take turns, so that a busy machine is in the way of all."""
    found: list[list[Run]] = [[] for _ in ways]
    for _ in range(count):
        for runs, way in zip(found, ways):
            runs.append(way())
    return [least(it) for it in found]


def peak_of(words: Sequence[str], script: str = os.devnull) -> int | None:
    """The peak memory of a command in KiB, from a run of its own: by /usr/bin/time where it is installed, which is
    small itself."""
    if not os.access("/usr/bin/time", os.X_OK):
        return run(words, script, said=os.devnull).peak
    with open(script, "rb") as source:
        measured = ["/usr/bin/time", "-q", "-f", "%M", *words]
        done = subprocess.run(measured, stdin=source, stdout=subprocess.DEVNULL, stderr=subprocess.PIPE, text=True)
    return int(done.stderr.split()[-1])
