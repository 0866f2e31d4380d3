"""What all scripts share: words that make no sense, what they say while they work, and how they end.

Nothing here is proved. No function but `ran` ends a script or prints what went wrong; the others raise one of three:

- `Words`: the words make no sense. The script ends with the status 2.
- `Refused`: a model, a file, a number or the program isn't as it must be. The script ends with the status 70.
- `Ended`: the program refused. The script passes on what it printed, and ends with its status.

The environment variable PUNGIROE_PATIENCE says after how many whole seconds a script tells what is at work, 2 if it
isn't set. Python 3.11 or later.
"""
import os
import signal
import sys
import threading
import time
from collections.abc import Callable
from dataclasses import dataclass

# Seconds until what is at work is told.
PATIENCE = int(told) if (told := os.environ.get("PUNGIROE_PATIENCE", "")).isdecimal() and len(told) < 6 else 2


class Words(Exception):
    """Words that make no sense; the text says what is wrong."""


class Refused(Exception):
    """What isn't as it must be; the text says what and why."""


@dataclass(frozen=True)
class Answer:
    """What the program printed. The error has no line feed."""
    status: int
    output: str
    error: str


class Ended(Exception):
    """The program refused."""

    def __init__(self, answer: Answer) -> None:
        super().__init__(answer.error or f"the status {answer.status}")
        self.answer = answer


# Words


def shown(word: str) -> str:
    """A word in a line that says what is wrong with it."""
    short = word if len(word) <= 60 else word[:57] + "..."
    return ascii(short)


def plain(name: object) -> str:
    """The name of a file in a line that says what is wrong with it."""
    return str(name) if str(name).isprintable() else shown(str(name))


# Progress

Telling = Callable[[str], None]  # is told what is at work


def quiet(stage: str) -> None:
    """In place of progress that nobody is told of."""


class Progress:
    """Tells on standard error what is at work, once some time has passed."""

    def __init__(self, name: str, stage: str = "the contacts") -> None:
        self.name, self.stage, self.late = name, stage, False
        self.start = time.monotonic()
        self.timer = threading.Timer(PATIENCE, self.begin)
        self.timer.daemon = True
        self.timer.start()

    def begin(self) -> None:
        self.late = True
        self.tell()

    def tell(self) -> None:
        print(f"{self.name}: {time.monotonic() - self.start:.0f} s: {self.stage}", file=sys.stderr, flush=True)

    def __call__(self, stage: str) -> None:
        self.stage = stage
        if self.late:
            self.tell()

    def __enter__(self) -> "Progress":
        return self

    def __exit__(self, *_: object) -> None:
        self.timer.cancel()


# How a script ends


def ran(asked: Callable[[list[str]], int], name: str, page: str | None, words: list[str],
        stage: str | None = None) -> int:
    """The status of a script: that of `asked` on its words. Without words the script's page is printed. A script that
    has no Progress of its own names what is at work."""
    if threading.current_thread() is threading.main_thread():
        signal.signal(signal.SIGPIPE, signal.SIG_DFL)
    if not words:
        print((page or "").rstrip(), file=sys.stderr)
        return 2
    try:
        if not stage:
            return asked(words)
        with Progress(name, stage):
            return asked(words)
    except Words as fault:
        return said(f"{name}: {fault}", 2)
    except (Refused, ArithmeticError) as fault:
        return said(f"{name}: {fault}", 70)
    except OSError as fault:  # of the system's own folders and commands; what files are named is told by their names
        return said(f"{name}: {fault}", 70)
    except Ended as end:
        sys.stdout.write(end.answer.output)
        return said(end.answer.error, end.answer.status)


def said(line: str, status: int) -> int:
    if line:
        print(line, file=sys.stderr)
    return status
