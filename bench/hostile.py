#!/usr/bin/env python3
"""hostile.py [PROGRAM]: times one BUILD of texts that are made to cost much, each at three sizes, and prints a table of seconds.

A text has about 12,500 tokens, four times as many, and then as many as an expansion may have. What grows faster than its text shows
from column to column; a time over 3 s is marked, and the status is then 1. The time is that of the whole session, in which the text
is typed and built once; after a minute it is given up, with the larger ones. PROGRAM is the built program, crates/pliwb/out/pliwb
if none is given.
"""
import re
import subprocess
import sys
import time
from pathlib import Path

SIZES = 12_500, 50_000, 199_000
WANTED, MOST = 3.0, 60
TOKEN = re.compile(r"'[^']*'|[A-Z0-9_$]+|->|\S")


def joined(parts):
    """The parts with commas between them."""
    return [part + "," for part in parts[:-1]] + parts[-1:]


def many(statement, tokens):
    """So many tokens of one statement over and over."""
    return [statement] * (tokens // len(TOKEN.findall(statement)))


def each(form, tokens, names):
    """So many tokens of one statement, with the names in turn."""
    count = tokens // len(TOKEN.findall(form.format("N")))
    return [form.format(names[number % len(names)]) for number in range(count)]


def levels(name, tokens, first=1):
    """A chain of levels of one name, each item a member of the one before it."""
    return [f"{level} {name}" for level in range(first, tokens // 3 + first)]


def structures(form, tokens):
    """Structures with members."""
    return [form.format(number) for number in range(tokens // (len(TOKEN.findall(form.format(0))) + 1))]


def deep(tokens):
    yield from ["DCL "] + joined(levels("A", tokens // 2)) + [";"]
    yield from many("A=A;", tokens // 2)


def deep_pair(tokens):
    yield from ["DCL "] + joined(levels("A", tokens // 2)) + [";"]
    yield from many("A.A=0;", tokens // 2)


def deep_within(tokens):
    yield from ["DCL 1 B,2 C,"] + joined(levels("A", tokens // 2, 3)) + [";"]
    yield from many("B.A=0;", tokens // 2)


def deep_within_each(tokens):
    count = tokens // 12
    yield from ["DCL "] + [f"{level} B{level}," for level in range(1, count + 1)]
    yield from joined(levels("A", tokens // 4, count + 1)) + [";"]
    yield from each("B{0}.A=0;", tokens // 2, range(1, count + 1))


def deep_within_three(tokens):
    count = tokens // 16
    yield from ["DCL "] + [f"{level} B{level}," for level in range(1, count + 1)]
    yield from joined(levels("A", tokens // 4, count + 1)) + [";"]
    yield from each("B1.B{0}.A=0;", tokens // 2, range(2, count + 1))


def within_three_turned(tokens):
    count = tokens // 22
    yield from ["DCL "] + [f"{level} B{level}," for level in range(1, count + 1)]
    yield from joined([f"{count + 1} A"] * (tokens // 6)) + [";"]
    yield from each("B{0}.B1.A=0;", tokens // 22 * 8, range(2, count + 1))


def deep_qualified(tokens):
    yield from ["DCL 1 B,2 C,"] + joined(levels("A", tokens // 2)) + [";"]
    yield from many("B.A=0;", tokens // 2)


def deep_long(tokens):
    yield from ["DCL 1 B,2 C,"] + joined(levels("A", tokens // 2)) + [";"]
    yield from many("B." + "A." * 30 + "A=0;", tokens // 2)


def one_member(tokens):
    yield from ["DCL "] + joined(structures("1 S{0},2 X", tokens // 2)) + [";"]
    yield from many("X=X;", tokens // 2)


def member_of_each(tokens):
    parts = structures("1 S{0},2 X FIXED BIN", tokens // 2)
    yield from ["DCL "] + joined(parts) + [";"]
    yield from each("S{0}.X=0;", tokens // 2, range(len(parts)))


def member_of_parts(tokens):
    parts = structures("2 G{0},3 X FIXED BIN", tokens // 2)
    yield from ["DCL 1 S,"] + joined(parts) + [";"]
    yield from each("G{0}.X=0;", tokens // 2, range(len(parts)))


def member_apart(tokens):
    yield from ["DCL 1 Q,2 F,3 S,4 X FIXED BIN,"]
    yield from joined(structures("2 G{0},3 S,4 Y FIXED BIN,2 H{0},3 X FIXED BIN", tokens // 2)) + [";"]
    yield from many("S.X=0;", tokens // 2)


def locators_apart(tokens):
    yield from ["DCL 1 Q,2 F,3 S,4 X PTR,"]
    yield from joined(structures("2 G{0},3 S,4 Y PTR,2 H{0},3 X PTR", tokens // 2)) + [";DCL "]
    yield from joined([f"N{number} PTR BASED(S.X)" for number in range(tokens // 18)]) + [";"]


def member_turned(tokens):
    yield from ["DCL 1 Q,2 F,3 A,4 B,5 X FIXED BIN,"]
    yield from joined(structures("2 G{0},3 B,4 A,5 X FIXED BIN", tokens // 2)) + [";"]
    yield from many("A.B.X=0;", tokens // 2)


def member_turned_each(tokens):
    count = tokens // 26
    yield from ["DCL "] + [f"{level} P{level}," for level in range(1, count + 1)]
    yield from joined(structures(f"{count + 1} B,{count + 2} A,{count + 3} X", tokens // 2)) + [";"]
    yield from each("P{0}.A.B.X=0;", tokens // 26 * 10, range(1, count + 1))


def member_of_none(tokens):
    yield from ["DCL 1 Q,2 R,"] + joined(structures("1 S{0},2 X", tokens // 2)) + [";"]
    yield from many("Q.X=0;", tokens // 2)


def first_values(tokens):
    names = [f"N{number}" for number in range(tokens // 4)]
    yield from ["DCL ("] + joined(names) + [") CHAR INIT("] + joined(["'A'"] * (tokens // 4)) + [");"]


def first_values_of_arrays(tokens):
    names = [f"N{number}" for number in range(tokens // 4)]
    yield from ["DCL ("] + joined(names) + [")(300,300) FIXED BIN INIT("] + joined(["1"] * (tokens // 4)) + [");"]


def repeated(tokens):
    names = [f"N{number}" for number in range(tokens // 4)]
    yield from ["DCL ("] + joined(names) + [") "] + ["FIXED "] * (tokens // 2) + [";"]


def descriptions(tokens):
    names = [f"N{number}" for number in range(tokens // 4)]
    yield from ["DCL ("] + joined(names) + [") ENTRY("] + joined(["PTR"] * (tokens // 4)) + [");"]


def locators(tokens):
    names = [f"N{number}" for number in range(tokens // 8)]
    yield from ["DCL "] + joined(levels("P", tokens // 2)) + [";DCL ("] + joined(names) + [") FIXED BIN BASED("]
    yield from ["P."] * (tokens // 8) + ["P);"]


def blocks(tokens):
    yield "DCL X FIXED BIN;L:;"
    yield from ["BEGIN;"] * 60
    yield from many("X=X;GOTO L;", tokens - 200)
    yield from ["END;"] * 60


def parameters(tokens):
    names = [f"N{number}" for number in range(tokens // 4)]
    yield from ["F:PROC("] + joined(names) + [");DCL ("] + joined(names) + [") PTR;END;"]


TEXTS = (
    ("a chain of levels of one name, and its name", deep),
    ("the same, and references of two names", deep_pair),
    ("the same within two structures, qualified by the first", deep_within),
    ("the same within many structures, qualified by each", deep_within_each),
    ("the same, qualified by the first and each", deep_within_three),
    ("members of one name within many, qualified by these, turned", within_three_turned),
    ("a chain, and references that qualify too much", deep_qualified),
    ("the same, and references of 32 names", deep_long),
    ("structures with a member of one name, and its name", one_member),
    ("the same, qualified by each structure in turn", member_of_each),
    ("the same within one structure, qualified in part", member_of_parts),
    ("the same, qualified by another structure", member_of_none),
    ("structures and members of one name each, mostly apart", member_apart),
    ("the same, in BASED", locators_apart),
    ("structures of two names, mostly one within the other", member_turned),
    ("the same within many, qualified by each of these", member_turned_each),
    ("INITIAL with many values, of many names", first_values),
    ("the same, of many arrays", first_values_of_arrays),
    ("an attribute that stands many times, of many names", repeated),
    ("ENTRY with many descriptions, of many names", descriptions),
    ("BASED with a reference of many names, of many names", locators),
    ("60 blocks, and uses of the outermost names", blocks),
    ("parameters that are declared", parameters),
)


def session(pieces):
    """The commands that type these pieces as a unit, as many on a line as there is room for, and build it."""
    lines, line = ["M:PROC;"], ""
    for piece in (part for whole in pieces for part in re.findall(r".{1,100}(?:[,;(.)]|$)|.+", whole)):
        if len(line) + len(piece) > 118:
            lines.append(line)
            line = ""
        line += piece
    lines += [line, "END M;"]
    # What does not fit into one member is included.
    parts = [lines[at:at + 9000] for at in range(0, len(lines), 9000)]
    commands = ["ADD M SOURCE"]
    for number, part in enumerate(parts):
        commands += [f"INSERT M {number} %INCLUDE K{number};", f"ADD K{number} INCLUDE"]
        commands += [f"INSERT K{number} {at} {text}" for at, text in enumerate(part)]
    return "".join(command + "\n" for command in commands + ["BUILD"]).encode()


def timed(program, typed):
    """The seconds that a session takes, or None if it is given up."""
    begin = time.perf_counter()
    try:
        subprocess.run(program, input=typed, stdout=subprocess.DEVNULL, check=True, timeout=MOST)
    except subprocess.TimeoutExpired:
        return None
    return time.perf_counter() - begin


def main():
    top = Path(__file__).resolve().parent.parent
    program = sys.argv[1:] or [str(top / "crates" / "pliwb" / "out" / "pliwb")]
    heading = "".join(f"{size:>10,}" for size in SIZES)
    print(f"{'tokens, about':55}{heading}")
    worst = 0.0
    for title, text in TEXTS:
        times = []
        while len(times) < len(SIZES) and None not in times:
            times.append(timed(program, session(text(SIZES[len(times)]))))
        over = max(taken or MOST for taken in times)
        worst = max(worst, over)
        shown = "".join(f"{taken:9.2f}s" if taken else f"  over {MOST}s" for taken in times)
        print(f"{title:55}{shown}{'  over' if over > WANTED else ''}", flush=True)
    return int(worst > WANTED)


sys.exit(main())
