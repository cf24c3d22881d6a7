#!/usr/bin/env python3
"""refuse.py [--program PROGRAM] [--kit N [N ..]] [SESSION ..]: runs the workbench over sessions once for each allocation, which is refused, and
checks the answers.
refuse.py --tests [--program PROGRAM]: runs the tests of crates/pli_refused_tests so, each of which ends with status 0 wherever that is.

SESSION is a file of commands; left out, they are crates/pliwb/stdin and those of bench/refused. PROGRAM is the workbench; left out, it is the
one that bin/prove builds, and with --tests the one that `rt test` in that crate leaves in its out/. A run passes in which
  the status is 3 and nothing was written: memory was refused while the command line was read; or
  the status is 0, and either nothing shows (where memory was asked for once more, and given), or one command is answered NO MEMORY, a RUN
  after some first bytes of its output and a line end, and every other command as in the session without that one: what was refused left
  nothing. For a BUILD the other session has an ADD and a DELETE, since no module stands after a BUILD that was refused; so a RUN there is
  B2, and LEDGER as before. The next BUILD answers what it does in that session, which is its first, and its LEDGER may tell less: what the
  refused BUILD has expanded and compiled is kept. How much less is printed: 3+3 is a BUILD that expands three units and compiles three.
What a session answers where no memory is refused comes from the program itself, which is proved to answer it so. Allocations are refused from
the first on, until a run meets none.

The system's malloc and realloc are counted by a small library, which cc compiles into a temporary folder and which is loaded before them. The
program itself is as it was built. With --kit nothing is compiled: each N is one run of `rt try --fail-alloc N`, which takes about a minute, and
which does not say whether so many allocations were made.
"""
import argparse
import os
import re
import subprocess
import sys
import tempfile
from pathlib import Path

TOP = Path(__file__).resolve().parent.parent

# REFUSE is the number of the allocation that is refused; the file descriptor COUNT takes how many there were.
COUNTER = r"""
#include <stddef.h>
#include <stdio.h>
#include <stdlib.h>
#include <unistd.h>
void *__libc_malloc(size_t size);
void *__libc_realloc(void *old, size_t size);
static long count;
static int is_refused(void) {
    const char *number = getenv("REFUSE");
    count += 1;
    return number && atol(number) == count;
}
void *malloc(size_t size) { return is_refused() ? NULL : __libc_malloc(size); }
void *realloc(void *old, size_t size) { return is_refused() ? NULL : __libc_realloc(old, size); }
__attribute__((destructor)) static void tell(void) {
    char text[24];
    const char *descriptor = getenv("COUNT");
    int size = snprintf(text, sizeof text, "%ld\n", count);
    if (descriptor && write(atoi(descriptor), text, size) != size) _exit(99);
}
"""

NO_MEMORY = b"NO MEMORY\n"

# Commands after which the members are the same and no module stands.
NO_MODULE = [b"ADD NO_SUCH_MEMBER_YET SOURCE\n", b"DELETE NO_SUCH_MEMBER_YET\n"]

TESTS = ["tests::three_units", "tests::statuses"]

COUNTS = re.compile(rb"EXPANDED (\d+) COMPILED (\d+)\n")


class Program:
    """The workbench, with a library that refuses an allocation."""

    def __init__(self, folder, program):
        self.program = program
        source, self.library = Path(folder) / "counter.c", Path(folder) / "counter.so"
        source.write_text(COUNTER)
        subprocess.run([os.environ.get("CC", "cc"), "-O1", "-shared", "-fPIC", "-o", self.library, source], check=True)

    def run(self, session, refused=0, words=()):
        """The status, the answers, and how many allocations there were."""
        count, told = os.pipe()
        environment = {"LD_PRELOAD": str(self.library), "REFUSE": str(refused), "COUNT": str(told)}
        ended = subprocess.run([self.program, *words], input=session, stdout=subprocess.PIPE, env=environment, pass_fds=[told])
        os.close(told)
        with os.fdopen(count) as counted:
            return ended.returncode, ended.stdout, int(counted.read())


def by_kit(session, refused):
    """The status and the answers of a run of the kit's."""
    with tempfile.TemporaryFile() as given:
        given.write(session)
        given.seek(0)
        ended = subprocess.run(
            ["rt", "try", "--fail-alloc", str(refused)], cwd=TOP / "crates" / "pliwb", stdin=given, stdout=subprocess.PIPE, stderr=subprocess.PIPE
        )
    if b"run=ended" not in ended.stdout + ended.stderr:
        sys.exit(f"allocation {refused}: {(ended.stdout + ended.stderr).decode(errors='replace')}")
    answers = b"".join(line for line in ended.stdout.splitlines(True) if not line.startswith((b"allocations:", b"checked:", b"interpreter:", b"run=")))
    return ended.returncode, answers


def is_command(word, command):
    return command.split(b" ", 1)[0].strip().upper() == word


def counted_by(commands):
    """How many LEDGERs of some commands tell of no BUILD among them, and how many of the first one."""
    told = [0, 0, 0]
    builds = 0
    for command in commands:
        builds += is_command(b"BUILD", command)
        told[min(builds, 2)] += is_command(b"LEDGER", command)
    return told[0], told[1]


class Refused:
    """What a session answers where a command is refused: the answers before it, its own, and those after it."""

    def __init__(self, program, commands, place):
        self.place, self.command = place + 1, commands[place].rstrip(b"\r\n")
        self.before = program.run(b"".join(commands[:place]))[1]
        self.answer = program.run(b"".join(commands[: place + 1]))[1][len(self.before) :]
        is_build = is_command(b"BUILD", self.command)
        instead, answered = (NO_MODULE, b"OK\nOK\n") if is_build else ([], b"")
        others = program.run(b"".join(commands[:place] + instead + commands[place + 1 :]))[1]
        assert others.startswith(self.before + answered)
        self.after = others[len(self.before + answered) :]
        self.earlier, self.next = counted_by(commands[place + 1 :]) if is_build else (0, 0)

    def shown(self, answers):
        """What answers show that are those of this command refused, else None."""
        shown = f"{self.place} {self.command.decode(errors='replace')[:40]}"
        if not answers.startswith(self.before):
            return None
        answers = answers[len(self.before) :]
        if is_command(b"RUN", self.command):
            rest = b"\n" + NO_MEMORY + self.after
            is_cut = answers.endswith(rest) and self.answer.startswith(answers[: len(answers) - len(rest)])
            return shown if is_cut else None
        if not answers.startswith(NO_MEMORY):
            return None
        return self.told(shown, answers[len(NO_MEMORY) :])

    def told(self, shown, after):
        """The same with what LEDGER tells of the next BUILD, which may be less."""
        found, wanted = COUNTS.findall(after), COUNTS.findall(self.after)
        if len(found) != len(wanted) or COUNTS.split(after)[::3] != COUNTS.split(self.after)[::3]:
            return None
        for number, (one, other) in enumerate(zip(found, wanted)):
            is_next = self.earlier <= number < self.earlier + self.next
            if one != other and not (is_next and all(int(less) <= int(more) for less, more in zip(one, other))):
                return None
        if self.next:
            shown += ", then " + b"+".join(found[self.earlier]).decode()
        return shown


class Expected:
    """What a session may answer where one allocation is refused."""

    def __init__(self, program, session):
        commands = session.splitlines(True)
        self.whole = program.run(session)[1]
        self.refused = [Refused(program, commands, place) for place in range(len(commands))]

    def kind(self, status, answers):
        """What a run shows, or None where it shows what it may not."""
        if status == 3 and not answers:
            return "the command line was not read"
        if status != 0:
            return None
        if answers == self.whole:
            return "nothing shows"
        shown = (refused.shown(answers) for refused in self.refused)
        return next((it for it in shown if it), None)


def runs(program, session, kit):
    """The runs of a session, each with the number of the allocation that is refused, until one meets none."""
    for refused in kit:
        yield refused, *by_kit(session, refused)
    refused = 0
    while not kit:
        refused += 1
        status, answers, allocations = program.run(session, refused)
        if allocations < refused:
            return
        yield refused, status, answers


def tried(program, file, kit):
    """How many runs of a session show what they may not."""
    session = file.read_bytes()
    expected, kinds, bad = Expected(program, session), {}, 0
    for refused, status, answers in runs(program, session, kit):
        kind = expected.kind(status, answers)
        if kind is None:
            bad += 1
            print(f"allocation {refused}: status {status}, {answers!r}")
        else:
            kinds.setdefault(kind, []).append(refused)
    for kind, given in kinds.items():
        print(f"{len(given):6} {kind}: {', '.join(map(str, given[:8]))}{' ..' if len(given) > 8 else ''}")
    print(f"{file.name}: allocations={sum(map(len, kinds.values())) + bad} wrong={bad}", flush=True)
    return bad


def tried_test(program, test):
    """How many runs of a test do not end well."""
    refused = bad = 0
    while True:
        refused += 1
        status, _, allocations = program.run(b"", refused, [test])
        if allocations < refused:
            print(f"{test}: allocations={refused - 1} wrong={bad}", flush=True)
            return bad
        if status:
            bad += 1
            print(f"allocation {refused}: status {status}")


def built(words):
    """The program that is tried."""
    if words.program:
        return words.program.resolve()
    if words.tests:
        subprocess.run(["rt", "test"], cwd=TOP / "crates" / "pli_refused_tests", check=True)
        return TOP / "crates" / "pli_refused_tests" / "out" / "pli_refused_tests_tests"
    subprocess.run([TOP / "bin" / "prove"], check=True)
    return TOP / "crates" / "pliwb" / "out" / "pliwb"


def main():
    reader = argparse.ArgumentParser()
    reader.add_argument("sessions", nargs="*", type=Path, metavar="SESSION")
    reader.add_argument("--program", type=Path)
    reader.add_argument("--tests", action="store_true")
    reader.add_argument("--kit", type=int, nargs="+", metavar="N", default=[])
    words = reader.parse_args()
    sessions = words.sessions or [TOP / "crates" / "pliwb" / "stdin", *sorted((TOP / "bench" / "refused").iterdir())]
    with tempfile.TemporaryDirectory() as folder:
        program = Program(folder, built(words))
        if words.tests:
            return 1 if sum(tried_test(program, test) for test in TESTS) else 0
        return 1 if sum(tried(program, file, words.kit) for file in sessions) else 0


sys.exit(main())
