"""What may take only so many seconds of processor time, with the processes that it starts.

Nothing here is proved. What runs `within` some seconds raises `Spent` when they are over.
"""
import os
import resource
import signal
import subprocess
from collections.abc import Iterator, Sequence
from contextlib import contextmanager
from contextvars import ContextVar

END: ContextVar[float | None] = ContextVar("END", default=None)  # of what runs within some seconds


class Spent(Exception):
    """The processor time that something may take is over."""


def taken() -> float:
    """The seconds of processor time of this process and of those that it has waited for."""
    return sum(os.times()[:4])


def spent(*_: object) -> None:
    raise Spent


@contextmanager
def within(seconds: int) -> Iterator[None]:
    """What runs here may take so many seconds, with the processes that it starts by `run`; then it raises `Spent`."""
    before = signal.signal(signal.SIGPROF, spent)
    token = END.set(taken() + seconds)
    signal.setitimer(signal.ITIMER_PROF, seconds)
    try:
        yield
    finally:
        signal.setitimer(signal.ITIMER_PROF, 0)
        END.reset(token)
        signal.signal(signal.SIGPROF, before)


def run(words: Sequence[str], folder: str | None = None) -> subprocess.CompletedProcess[str]:
    """Runs a command, in a folder, as long as there is time."""
    end = END.get()
    left = 0 if end is None else int(end - taken())
    if end is not None and left < 1:
        raise Spent
    with subprocess.Popen(words, cwd=folder, stdout=subprocess.PIPE, stderr=subprocess.PIPE, encoding="utf-8",
                          errors="replace") as child:
        if end is not None:
            resource.prlimit(child.pid, resource.RLIMIT_CPU, (left, left + 1))
        output, error = child.communicate()
    if end is not None and child.returncode in (-signal.SIGXCPU, -signal.SIGKILL):
        raise Spent
    return subprocess.CompletedProcess(words, child.returncode, output, error)
