#!/usr/bin/env python3
"""program.py [PROGRAM]: tries the built program from outside, by its words, its streams and its status.

PROGRAM is the program itself, not a script; left out, it is crates/pliwb/out/pliwb, which bin/prove builds. Each line of
the output is one thing that was tried, with `ok` or with what was found. The status is 0 where all is well.

What it tries: words, right and wrong; what each status writes on both streams; that each line is answered before more is
read, and that nothing is awaited after QUIT; a writer that is closed, a full device, streams that are closed; calls of
the system that are interrupted, by a small library, which cc compiles and which is loaded before the C library's, and by
signals that stop the program and let it go on.
"""
import os
import signal
import subprocess
import sys
import tempfile
import time
from pathlib import Path

TOP = Path(__file__).resolve().parent.parent

SESSION = b"ADD M SOURCE\nINSERT M 0 M: PROC OPTIONS(MAIN); ; END M;\nBUILD\nRUN\nRUN 1\n"
# What it is answered with two steps for a bare RUN, and with one.
ANSWERS = b"OK\nOK\nBUILT\nENDED\nOUT OF STEPS\n"
ANSWERS_OF_ONE = b"OK\nOK\nBUILT\nOUT OF STEPS\nOUT OF STEPS\n"

# Each read and write of the three streams is interrupted INTERRUPTIONS times before it is made; the file descriptor COUNT
# takes how many were.
INTERRUPTER = r"""
#define _GNU_SOURCE
#include <dlfcn.h>
#include <errno.h>
#include <stdio.h>
#include <stdlib.h>
#include <unistd.h>
static long left = -1, count;
static int is_interrupted(int descriptor) {
    const char *number = getenv("INTERRUPTIONS");
    if (descriptor > 2 || !number) return 0;
    if (left < 0) left = atol(number);
    if (left-- == 0) return 0;
    count += 1;
    errno = EINTR;
    return 1;
}
ssize_t read(int descriptor, void *bytes, size_t size) {
    static ssize_t (*made)(int, void *, size_t);
    if (!made) made = dlsym(RTLD_NEXT, "read");
    return is_interrupted(descriptor) ? -1 : made(descriptor, bytes, size);
}
ssize_t write(int descriptor, const void *bytes, size_t size) {
    static ssize_t (*made)(int, const void *, size_t);
    if (!made) made = dlsym(RTLD_NEXT, "write");
    return is_interrupted(descriptor) ? -1 : made(descriptor, bytes, size);
}
__attribute__((destructor)) static void tell(void) {
    const char *descriptor = getenv("COUNT");
    if (descriptor) dprintf(atoi(descriptor), "%ld\n", count);
}
"""

failures = 0


def report(what, is_well, found=""):
    """One line of the output."""
    global failures
    failures += not is_well
    print(f"{what}: {'ok' if is_well else f'FOUND {found!r}'}", flush=True)


def ended(program, words=(), session=SESSION, **streams):
    """The status, the answers and what was told of a run."""
    streams = {"stdout": subprocess.PIPE, "stderr": subprocess.PIPE, **streams}
    given = {} if "stdin" in streams else {"input": session}
    run = subprocess.run([program, *words], timeout=60, **given, **streams)
    return run.returncode, run.stdout, run.stderr


def try_words(program):
    for words, wanted in [
        (["--steps", "2"], ANSWERS),
        (["--steps=002"], ANSWERS),
        (["--steps", "+1"], ANSWERS_OF_ONE),
        (["--steps", "999999999999999999"], ANSWERS),
        ([], ANSWERS),
    ]:
        found = ended(program, words)
        report(f"words {words}", found == (0, wanted, b""), found)
    for words, told in [
        (["--steps"], b"error: "),
        (["--steps", "x"], b"error: "),
        (["--steps", "1000000000000000000"], b"error: "),
        (["--steps", "1", "--steps", "2"], b"error: "),
        (["FILE"], b"error: "),
        ([""], b"error: "),
        (["--help"], b"The workbench"),
    ]:
        found = ended(program, words)
        report(f"wrong words {words}", found[:2] == (2, b"") and found[2].startswith(told), found)
    with open("/dev/full", "wb") as full:
        found = ended(program, ["FILE"], stderr=full)
    report("wrong words, and no room for what is told", found[:2] == (2, b""), found)


def try_turns(program):
    """Each line is answered before the next is given, and nothing is awaited after QUIT."""
    with subprocess.Popen([program], stdin=subprocess.PIPE, stdout=subprocess.PIPE) as run:
        found = b""
        for line in [b"ADD M SOURCE\n", b"MEMB", b"ERS\r\n", b"RUN\n", b"QUIT\nRUN\n"]:
            run.stdin.write(line)
            run.stdin.flush()
            if line.endswith(b"\n"):
                while not found.endswith(b"OK\n" if line != b"RUN\n" else b"B2 NOT BUILT\n"):
                    found += run.stdout.read1(4096)
            found += b"|" if line.endswith(b"\n") else b""
        found = found.rstrip(b"|")
        status = run.wait(60)
        rest = run.stdout.read()
    wanted = b"OK\n|M SOURCE 0\nOK\n|B2 NOT BUILT\n|OK\n"
    report("each line is answered before the next, and nothing is awaited after QUIT", (status, found, rest) == (0, wanted, b""), (status, found, rest))


def try_failing_streams(program):
    with open("/dev/full", "wb") as full:
        found = ended(program, stdout=full)
    report("a full device", found == (1, None, b""), found)
    reader, writer = os.pipe()
    os.close(reader)
    found = ended(program, stdout=writer)
    os.close(writer)
    report("a pipe that nobody reads", found == (1, None, b""), found)
    run = subprocess.Popen([program], stdin=subprocess.PIPE, stdout=subprocess.PIPE, stderr=subprocess.PIPE)
    run.stdin.write(b"RUN\n")
    run.stdin.flush()
    first = run.stdout.readline()
    run.stdout.close()
    run.stdin.write(b"RUN\n")
    run.stdin.close()
    told = run.stderr.read()
    found = (run.wait(60), first, told)
    report("a pipe that is closed in mid-stream", found == (1, b"B2 NOT BUILT\n", b""), found)
    folder = os.open(TOP, os.O_RDONLY)
    found = ended(program, stdin=folder)
    os.close(folder)
    report("a folder to read from", found == (1, b"", b""), found)
    for closed, wanted in [(0, (1, b"", b"")), (1, (1, b"", b"")), (2, (0, ANSWERS, b""))]:
        found = ended(program, preexec_fn=lambda: os.close(closed))
        report(f"stream {closed} closed", found == wanted, found)


def interrupted(program, library, interruptions):
    """The status, the answers, and how many calls were interrupted."""
    count, told = os.pipe()
    environment = {"LD_PRELOAD": str(library), "INTERRUPTIONS": str(interruptions), "COUNT": str(told)}
    run = subprocess.run([program], input=SESSION, stdout=subprocess.PIPE, env=environment, pass_fds=[told], timeout=60)
    os.close(told)
    with os.fdopen(count) as counted:
        return run.returncode, run.stdout, int(counted.read() or -1)


def try_interruptions(program):
    with tempfile.TemporaryDirectory() as folder:
        source, library = Path(folder) / "interrupter.c", Path(folder) / "interrupter.so"
        source.write_text(INTERRUPTER)
        subprocess.run([os.environ.get("CC", "cc"), "-O1", "-shared", "-fPIC", "-o", library, source, "-ldl"], check=True)
        status, answers, calls = interrupted(program, library, 2)
        report("each call interrupted twice", (status, answers) == (0, ANSWERS) and calls > 2, (status, answers, calls))
        found = interrupted(program, library, 1000000)
        report("the first call always interrupted", found == (1, b"", 64), found)


def try_signals(program):
    """The program is stopped and goes on, while it waits for a line and while nobody reads what it writes."""
    names = [f"N{number}" for number in range(900)]
    session = "".join(f"ADD {name} SOURCE\n" for name in names).encode() + b"MEMBERS\n" * 20
    wanted = b"OK\n" * 900 + ("".join(f"{name} SOURCE 0\n" for name in sorted(names)).encode() + b"OK\n") * 20
    with tempfile.TemporaryFile() as given:
        given.write(session)
        given.seek(0)
        with subprocess.Popen([program], stdin=given, stdout=subprocess.PIPE) as run:
            stop_and_go(run)
            found = run.stdout.read()
            status = run.wait(60)
    report("stopped while it writes", (status, found) == (0, wanted), (status, len(found)))
    with subprocess.Popen([program], stdin=subprocess.PIPE, stdout=subprocess.PIPE) as run:
        run.stdin.write(b"RUN\nRU")
        run.stdin.flush()
        found = run.stdout.readline()
        stop_and_go(run)
        run.stdin.write(b"N\n")
        run.stdin.close()
        found += run.stdout.read()
        status = run.wait(60)
    report("stopped while it reads", (status, found) == (0, b"B2 NOT BUILT\n" * 2), (status, found))


def stop_and_go(run):
    for _ in range(3):
        time.sleep(0.1)
        run.send_signal(signal.SIGSTOP)
        time.sleep(0.1)
        run.send_signal(signal.SIGCONT)


def main():
    program = sys.argv[1] if len(sys.argv) > 1 else str(TOP / "crates" / "pliwb" / "out" / "pliwb")
    for tried in [try_words, try_turns, try_failing_streams, try_interruptions, try_signals]:
        tried(program)
    sys.exit(1 if failures else 0)


main()
