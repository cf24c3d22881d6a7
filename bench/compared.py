"""compared.py: what meaning.py expects of programs and what the workbench answers, for runs.py and units.py.

A program is a list of units, each the name of its member and its tokens. Each token is typed on a line of its own, so that the line of a
diagnostic tells the token. `compare` builds and runs programs with the workbench and prints how many agreed, and the shortest that did not.
"""
import re
import subprocess
from collections import Counter

import declarations
import meaning
import mutations

SHOWN = 10
TEXTS = """
    T1 NOT A VARIABLE, T2 AGGREGATE NOT ALLOWED HERE, T3 WRONG NUMBER OF SUBSCRIPTS, T4 WRONG OPERAND TYPE, T5 CANNOT ASSIGN,
    T6 WRONG NUMBER OF ARGUMENTS, T7 WRONG ARGUMENT, T8 NOT CALLABLE HERE, T9 WRONG RETURN, T10 LOCATOR MISSING OR NOT ALLOWED,
    T11 CANNOT ALLOCATE OR FREE, T12 BAD CONTROL VARIABLE, T13 WRONG BUILT-IN ARGUMENT, T14 CANNOT PRINT,
    N1 NO MAIN PROCEDURE, N2 TWO MAIN PROCEDURES, N3 UNRESOLVED, N4 DEFINED TWICE, N5 MISMATCH, N6 MODULE TOO LARGE
"""
TEXT_OF = declarations.TEXT_OF | dict(text.split(maxsplit=1) for text in " ".join(TEXTS.split()).split(", "))
LAST_LINE = re.compile(r"ENDED$|OUT OF STEPS$|ERROR E|MACHINE FAULT$|B2 NOT BUILT$|NO MEMORY$")


def session(programs, steps):
    for program in programs:
        for member, words in program:
            yield f"ADD {member} SOURCE"
            for number, word in enumerate(words):
                yield f"INSERT {member} {number} {word}"
        yield "BUILD"
        for many in steps:
            yield f"RUN {many}"
        for member, _ in program:
            yield f"DELETE {member}"


def answered(workbench, programs, steps):
    """What the workbench answers to each program: its diagnostics, or what each run answers."""
    given = "".join(command + "\n" for command in session(programs, steps)).encode()
    ended = subprocess.run(workbench, input=given, stdout=subprocess.PIPE, check=True)
    answers = iter(ended.stdout.decode().split("\n"))
    for program in programs:
        mutations.expect_ok(answers, sum(1 + len(words) for _, words in program))
        diagnostics, runs = [], []
        while (line := next(answers)) not in ("BUILT", "NOT BUILT"):
            diagnostics.append(line)
        for _ in steps:
            printed = []
            while not LAST_LINE.match(line := next(answers)):
                printed.append(line)
            runs.append("\n".join([*printed, line]))
        mutations.expect_ok(answers, len(program))
        yield diagnostics or runs


def told(units):
    """The diagnostics of units: their own, or those of linking."""
    placed = [(unit.member, *unit.origin(at), code) for unit in units for at, code in unit.faults()]
    own = [f"{unit} {member}:{line} {code} {TEXT_OF[code]}" for unit, member, line, code in placed]
    linked = [] if own else meaning.Program(units).faults()
    return own or [" ".join(filter(None, [code, TEXT_OF[code], name, member])) for code, name, member in linked]


def expected(program, steps):
    units = [meaning.Unit(words, member) for member, words in sorted(program)]
    diagnostics = told(units)
    if diagnostics:
        return diagnostics
    linked = meaning.Program(units)
    return [printed + line for printed, line in (linked.run(many) for many in steps)]


def summary(wanted):
    """How often each last line and each code is expected."""
    last = Counter(re.sub(r" [\w$]+ \d+$", "", lines[-1].split("\n")[-1]) for lines in wanted if LAST_LINE.match(lines[-1].split("\n")[-1]))
    codes = Counter(found[1] for lines in wanted for line in lines if (found := re.match(r"(?:[\w$]+ [\w$]+:\d+ )?([APTN]\d+) ", line)))
    return f"last lines {dict(last.most_common(12))}; codes {dict(sorted(codes.items()))}"


def compare(title, workbench, programs, steps, shown):
    """Whether the workbench answers programs as expected; `shown` writes one that it does not."""
    wanted = [expected(program, steps) for program in programs]
    print(f"{title}: {len(programs)}; {summary(wanted)}", flush=True)
    if not workbench:
        return True
    got = list(answered(workbench, programs, steps))
    wrong = [(program, want, found) for program, want, found in zip(programs, wanted, got, strict=True) if want != found]
    print(f"{title}: {len(programs) - len(wrong)} of {len(programs)} agree", flush=True)
    for program, want, found in sorted(wrong, key=lambda one: sum(len(words) for _, words in one[0]))[:SHOWN]:
        print("  " + shown(program))
        if len(want) != len(found):
            print(f"    expected {want}\n    answered {found}")
        for place, (one, other) in enumerate(zip(want, found)):
            if one != other:
                print(f"    {place}: expected {one!r}\n    {place}: answered {other!r}")
                break
    return not wrong
