#!/usr/bin/env python3
"""speed.py [--only WORD] [PROGRAM]: runs the programs of bench/speed/ by the workbench and beside each the same in CPython.

Each NAME.pli stands beside NAME.py, which does the same in the same way and prints the same words. PROGRAM with its words;
left out, it is bin/pliwb --proved. Times are of the processor, medians of five, each without what comes before the first
statement: for the workbench that is a session that only builds; CPython tells the time itself, from when it has compiled
the program.
"""
import math
import resource
import statistics
import subprocess
import sys
from pathlib import Path

TOP = Path(__file__).resolve().parent.parent
FOLDER = TOP / "bench" / "speed"
ROUNDS = 5
# what CPython runs a program by: it compiles it, and tells the processor seconds of its run on standard error
TOLD = """
import sys, time
with open(sys.argv[1]) as file:
    program = compile(file.read(), sys.argv[1], "exec")
begun = time.process_time()
exec(program, {"__name__": "__main__"})
sys.stdout.flush()
print(time.process_time() - begun, file=sys.stderr)
"""


def session(text, run):
    """The commands that type and build a main procedure, and run it."""
    typed = [f"INSERT M {number} {line}" for number, line in enumerate(text.splitlines())]
    return "\n".join(["ADD M SOURCE", *typed, "BUILD", *(["RUN 999999999"] if run else []), "QUIT", ""]).encode()


def spent():
    """The processor seconds of all processes that have ended."""
    usage = resource.getrusage(resource.RUSAGE_CHILDREN)
    return usage.ru_utime + usage.ru_stime


def once(words, given):
    """The processor seconds of one run, and what it printed."""
    before = spent()
    printed = subprocess.run(words, input=given, stdout=subprocess.PIPE, check=True).stdout
    return spent() - before, printed.decode()


def timed(words, given):
    """The median of the processor seconds of some runs, and what was printed."""
    rounds = [once(words, given) for _ in range(ROUNDS)]
    return statistics.median(seconds for seconds, _ in rounds), rounds[0][1]


def timed_by_python(path):
    """The median of the processor seconds of some runs of a program by CPython, and what was printed."""
    words = [sys.executable, "-c", TOLD, str(path)]
    rounds = [subprocess.run(words, capture_output=True, check=True, text=True) for _ in range(ROUNDS)]
    return statistics.median(float(it.stderr.split()[-1]) for it in rounds), rounds[0].stdout


def words_in(answers):
    """The words that a session's run printed."""
    after = answers.partition("BUILT\n")[2]
    return after.partition("ENDED\n")[0].split() if "ENDED\n" in after else answers.split()


def main():
    program = sys.argv[1:]
    chosen = program[1] if program[:1] == ["--only"] else ""
    program = program[2:] if chosen else program
    program = program or [str(TOP / "bin" / "pliwb"), "--proved"]
    ratios = []
    print("| Program | Here | CPython | Ratio |")
    print("|---|---|---|---|")
    for path in sorted(FOLDER.glob("*.pli")):
        if chosen not in path.stem:
            continue
        text = path.read_text()
        built, _ = timed(program, session(text, False))
        here, answers = timed(program, session(text, True))
        there, printed = timed_by_python(path.with_suffix(".py"))
        if words_in(answers) != printed.split():
            sys.exit(f"{path.stem}: {' '.join(words_in(answers))[:200]} was printed, and {printed[:200]} by CPython")
        here = max(here - built, 0.001)
        ratios.append(here / there)
        print(f"| {path.stem.replace('_', ' ')} | {here:.3f} s | {there:.3f} s | {here / there:.2f} |", flush=True)
    mean = math.exp(sum(map(math.log, ratios)) / len(ratios))
    print(f"| geometric mean of {len(ratios)} | | | {mean:.2f} |")


if __name__ == "__main__":
    main()
