"""Calls of the program.

Nothing here is proved. The environment variable PUNGIROE names the program, which is else the script `pungiroe` at the
top of the clone. If that has to prove and build the program first, the first call says so.
"""
import functools
import os
import subprocess
from pathlib import Path

from masonry import time_limit
from masonry.console import Answer, Ended, Refused, said

SCRIPT = Path(__file__).resolve().parents[2] / "pungiroe"
PROGRAM = os.environ.get("PUNGIROE") or str(SCRIPT)
ASKS = "PUNGIROE_BUILD"  # the environment variable by which the script only says why it would build
NOT_BUILT = "nothing is built: run ./pungiroe, which takes many minutes, or name a built program in PUNGIROE"


def run(*words: object) -> Answer:
    tell_of_build()
    try:
        done = time_limit.run([PROGRAM, *map(str, words)])
    except (OSError, ValueError) as fault:
        raise Refused(f"{PROGRAM}: {getattr(fault, 'strerror', None) or fault}") from None
    if done.returncode < 0:
        raise Refused(f"{PROGRAM} was ended by the signal {-done.returncode}")
    return Answer(done.returncode, done.stdout, done.stderr.strip().rpartition("\n")[2])  # behind those of a build


def why_due() -> str:
    """Why the program is first proved and built, for many minutes; nothing if it isn't. The script `pungiroe` itself
    says so, without building."""
    if Path(PROGRAM) != SCRIPT:
        return ""
    words = {name: value for name, value in os.environ.items() if name != "PUNGIROE"}
    return subprocess.run([PROGRAM], env={**words, ASKS: "why"}, capture_output=True, text=True).stdout.strip()


def built() -> bool:
    return not why_due()


@functools.cache
def tell_of_build() -> None:
    """Says at the first call of the program that it is first built, if it is."""
    if reason := why_due():
        said(f"pungiroe: the program {reason}, so it is proved and built first, in 11 minutes on four idle "
             "processors; the environment variable PUNGIROE may name a built one", 0)


def answer(*words: object) -> str:
    """The program's output, where its status is 0."""
    done = run(*words)
    if done.status != 0:
        raise Ended(done)
    return done.output
