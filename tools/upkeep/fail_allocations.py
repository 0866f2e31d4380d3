#!/usr/bin/env python3
"""Refuses each allocation of the built program in turn, outside the gate.

Run it at the top of the repository once ./pungiroe is built: tools/upkeep/fail_allocations.py

It needs a C compiler, and makes a library with it that replaces malloc and realloc. It repeats each call of the program
below: the first time the first allocation fails, then the second, until there are no more. Each time the status must
be 11, with nothing on standard output and at most the line `memory` on standard error; or the answer must be the usual
one. The library fails one allocation only, so a program that tried again would print the usual answer.
"""
import os
import shutil
import subprocess
import sys
import tempfile

LIBRARY = r"""
#define _GNU_SOURCE
#include <dlfcn.h>
#include <stddef.h>
#include <stdio.h>
#include <stdlib.h>
static long count;
static int fails(void) {
    const char *at = getenv("FAIL_AT");
    return at != NULL && ++count == atol(at);
}
void *malloc(size_t size) {
    static void *(*real)(size_t);
    if (real == NULL) real = (void *(*)(size_t))dlsym(RTLD_NEXT, "malloc");
    return fails() ? NULL : real(size);
}
void *realloc(void *block, size_t size) {
    static void *(*real)(void *, size_t);
    if (real == NULL) real = (void *(*)(void *, size_t))dlsym(RTLD_NEXT, "realloc");
    return fails() ? NULL : real(block, size);
}
static void __attribute__((destructor)) tell(void) {
    const char *name = getenv("COUNT_TO");
    FILE *file = name == NULL ? NULL : fopen(name, "w");
    if (file != NULL) { fprintf(file, "%ld", count); fclose(file); }
}
"""

CALLS = [
    ["check", "posts/pushed-post.toml", "certificates/tipping-post.cert"],
    ["table", "posts/pushed-post.toml", "certificates/tipping-post.cert"],
    ["contacts", "walls/stack-bond.toml"],
    ["stand", "posts/standing-post.toml"],
    ["load", "posts/pushed-post.toml"],
    ["stack", "harmonic", "3"],
    ["sample", "0"],
]


Answer = tuple[int, bytes, bytes]


def answer(program: str, words: list[str], environment: dict[str, str]) -> Answer:
    run = subprocess.run([program, *words], capture_output=True, env={**os.environ, **environment})
    return run.returncode, run.stdout, run.stderr


def tried(program: str, words: list[str], library: str, count_file: str) -> tuple[int, list[int]]:
    """How many failures were tried, and which of them gave another answer."""
    usual = answer(program, words, {})
    wrong: list[int] = []
    number = 0
    while True:
        number += 1
        environment = {"LD_PRELOAD": library, "FAIL_AT": str(number), "COUNT_TO": count_file}
        given = answer(program, words, environment)
        wanting = given[0] == 11 and given[1] == b"" and given[2] in (b"", b"memory\n")
        if given != usual and not wanting:
            wrong.append(number)
        with open(count_file) as file:
            if int(file.read()) < number:
                return number - 1, wrong


def main() -> int:
    top = os.path.dirname(os.path.dirname(os.path.dirname(os.path.abspath(__file__))))
    program = os.environ.get("PUNGIROE", os.path.join(top, "crates/pungiroe/out/pungiroe"))
    if len(sys.argv) > 1 or shutil.which("cc") is None or not os.access(program, os.X_OK):
        print("fail_allocations: it takes no words, and needs a C compiler and the built program", file=sys.stderr)
        return 2
    os.chdir(os.path.join(top, "examples"))
    failed = False
    with tempfile.TemporaryDirectory() as scratch:
        source, library = os.path.join(scratch, "fails.c"), os.path.join(scratch, "fails.so")
        with open(source, "w") as file:
            file.write(LIBRARY)
        subprocess.run(["cc", "-shared", "-fPIC", "-O1", "-o", library, source, "-ldl"], check=True)
        for words in CALLS:
            count, wrong = tried(program, words, library, os.path.join(scratch, "count"))
            print(f"{' '.join(words)}: {count} allocations refused, {len(wrong)} wrong answers {wrong or ''}")
            failed = failed or bool(wrong)
    return int(failed)


if __name__ == "__main__":
    sys.exit(main())
