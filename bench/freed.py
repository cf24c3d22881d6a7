#!/usr/bin/env python3
"""freed.py [--program PROGRAM] [SESSION ..]: counts what the workbench has taken from the system's allocator over each session, and what of it
has not been given back when it ends.

PROGRAM is the workbench; left out, it is the one that bin/prove builds. SESSION is a file of commands; left out, they are those of
crates/pli_sessions/data whose names speak of areas. A generation that is an area holds one region of raw memory; that it is given back when the
generation ends is proved of `Region` (its lease is used up by its drop), but that the drop is there at all is what no contract can say. Prints
a line for each session that leaves something, and the sums; the status is 1 where one does.

The system's calls are counted by a small library, which cc compiles into a temporary folder and which is loaded before them.
"""
import argparse
import os
import subprocess
import sys
import tempfile
from pathlib import Path

TOP = Path(__file__).resolve().parent.parent

COUNTER = r"""
#include <stdio.h>
#include <stdlib.h>
#include <unistd.h>
void *__libc_malloc(size_t size);
void *__libc_realloc(void *old, size_t size);
void __libc_free(void *old);
static long taken, given;
void *malloc(size_t size) { void *made = __libc_malloc(size); taken += made != NULL; return made; }
void *realloc(void *old, size_t size) { void *made = __libc_realloc(old, size); taken += made != NULL && old == NULL; return made; }
void free(void *old) { given += old != NULL; __libc_free(old); }
__attribute__((destructor)) static void tell(void) {
    char text[48];
    int size = snprintf(text, sizeof text, "%ld %ld\n", taken, given);
    if (write(atoi(getenv("COUNT")), text, size) != size) _exit(99);
}
"""


def counted(program, library, session):
    """How many times memory was taken in a run over the session, and how many times it was given back."""
    count, told = os.pipe()
    environment = {"LD_PRELOAD": str(library), "COUNT": str(told)}
    subprocess.run([program], input=session.read_bytes(), stdout=subprocess.DEVNULL, env=environment, pass_fds=[told], check=True)
    os.close(told)
    with os.fdopen(count) as answer:
        return map(int, answer.read().split())


def main():
    words = argparse.ArgumentParser(description=__doc__, formatter_class=argparse.RawDescriptionHelpFormatter)
    words.add_argument("--program", default=TOP / "crates/pliwb/out/pliwb")
    words.add_argument("sessions", nargs="*", type=Path)
    given = words.parse_args()
    sessions = given.sessions or sorted(it for it in (TOP / "crates/pli_sessions/data").rglob("*.session") if "area" in str(it))
    left = all_taken = 0
    with tempfile.TemporaryDirectory() as folder:
        source, library = Path(folder) / "counter.c", Path(folder) / "counter.so"
        source.write_text(COUNTER)
        subprocess.run([os.environ.get("CC", "cc"), "-O1", "-shared", "-fPIC", "-o", library, source], check=True)
        for session in sessions:
            taken, back = counted(given.program, library, session)
            all_taken += taken
            if taken != back:
                left += 1
                print(f"{session}: {taken} taken, {back} given back")
    print(f"{len(sessions)} sessions, memory taken {all_taken} times; {left} leave something")
    return 1 if left else 0


if __name__ == "__main__":
    sys.exit(main())
