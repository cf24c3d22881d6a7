#!/usr/bin/env python3
"""edited.py PROGRAM [ARGUMENT..]: builds after edits beside builds of a fresh workbench, in 300 random sessions.

In each session the members of a small program, which include texts, are edited, added, deleted and typed anew, and are built again and again.
Each answer to BUILD, DUMP and RUN must be, to the byte, what a fresh workbench answers in which the same members are typed; and what LEDGER
answers must be what a plain model here says: of each unit it keeps the names that its expansion has looked up, with their versions, and the
tokens that were compiled. It prints how many builds agreed, how many of them gave a module, and how many units were expanded and compiled; of
those that did not agree the first three sessions. All is the same every time. The status is 0 where all agree.
"""
import re
import subprocess
import sys

from mutations import Numbers

SESSIONS, ROUNDS = 300, 8
SEED = 19810101
SHOWN = 3

# A line that is no command: its answer parts the answers of a session.
MARK, MARKED = "?", "B1 BAD COMMAND\n"
SHOWS = ["DUMP", "RUN 60"]

SOURCES = ["A", "B", "C", "MAIN"]
INCLUDES = ["K", "L", "N"]
STATEMENTS = ["X = X + 1;", "X = X * 2; Y = X;", "PUT LIST(X);", "IF X > 3 THEN Y = 1;", "Y = Y + X;", "CALL A;", "CALL B;", ";", "S = S || 'Q';"]
COMMENTS = ["/* NOTHING */", "   /* MORE */   ", "/* X = 1; */"]
DIRECTIVES = ["%INCLUDE K;", "%INCLUDE L;", "%INCLUDE N;", "%INCLUDE M;"]
FAULTY = ["X = Z;", "X = ;", "S = 'NOT ENDED", "%INCLUDE;", "CALL C;", "DCL X BIT;", "END;"]


class Members:
    """The members of a workbench, with versions, and edits of them, which are all accepted."""

    def __init__(self, numbers):
        self.numbers, self.next, self.lines, self.versions = numbers, 1, {}, {}
        self.commands = []

    def chosen(self, several):
        return several[self.numbers.below(len(several))]

    def touch(self, name):
        self.versions[name], self.next = self.next, self.next + 1

    def add(self, name):
        self.commands.append(f"ADD {name} {'SOURCE' if name in SOURCES else 'INCLUDE'}")
        self.lines[name] = []
        self.touch(name)

    def delete(self, name):
        self.commands.append(f"DELETE {name}")
        del self.lines[name], self.versions[name]

    def insert(self, name, after, line):
        self.commands.append(f"INSERT {name} {after} {line}")
        self.lines[name].insert(after, line)
        self.touch(name)

    def replace(self, name, number, line):
        self.commands.append(f"REPLACE {name} {number} {line}")
        self.lines[name][number - 1] = line
        self.touch(name)

    def remove(self, name, number):
        self.commands.append(f"REMOVE {name} {number} {number}")
        del self.lines[name][number - 1]
        self.touch(name)

    def sound(self, name):
        """Lines of a member that have no fault."""
        body = [self.chosen(STATEMENTS + COMMENTS) for _ in range(1 + self.numbers.below(4))]
        if name in INCLUDES:
            return body
        options = " OPTIONS(MAIN)" if name == "MAIN" else ""
        declared = ["DCL (X, Y) FIXED BIN(15) EXT, S CHAR(9) VAR;", "DCL (A, B) ENTRY;" if name not in "AB" else f"DCL {'AB'.replace(name, '')} ENTRY;"]
        body = [line for line in body if line != f"CALL {name};"]
        if self.numbers.below(2):
            body.append(self.chosen(DIRECTIVES[: len(INCLUDES)]))
        return [f"{name}: PROC{options};", *declared, *body, f"END {name};"]

    def type(self, name):
        """Types a member anew, without a fault."""
        if name in self.lines:
            self.delete(name)
        self.add(name)
        for number, line in enumerate(self.sound(name)):
            self.insert(name, number, line)

    def edit(self):
        """An edit, most often of a line."""
        choice, name = self.numbers.below(16), self.chosen(SOURCES + INCLUDES)
        if name not in self.lines or choice < 2:
            return self.type(name)
        if choice == 2:
            return self.delete(name)
        lines = self.lines[name]
        new = self.chosen(STATEMENTS * 2 + COMMENTS * 4 + DIRECTIVES + FAULTY)
        first = 3 if name in SOURCES else 0
        room = len(lines) - first - (1 if name in SOURCES else 0)
        if choice < 8 or room < 1:
            return self.insert(name, first + self.numbers.below(max(room, 0) + 1), new) if len(lines) > first else self.type(name)
        number = first + 1 + self.numbers.below(room)
        if choice < 10:
            return self.remove(name, number)
        if choice < 12:
            return self.replace(name, number, lines[number - 1])
        return self.replace(name, number, new)

    def typed(self):
        """The commands that type these members in a fresh workbench."""
        typed = []
        for name, lines in sorted(self.lines.items()):
            typed.append(f"ADD {name} {'SOURCE' if name in SOURCES else 'INCLUDE'}")
            typed += [f"INSERT {name} {number} {line}" for number, line in enumerate(lines)]
        return typed


class Faulty(Exception):
    """An expansion ends in a fault."""


TOKEN = re.compile(r"\s*(/\*.*?\*/|'[^']*'|\w+|\|\||[^\s\w])")


def tokens_of(lines):
    """The tokens of a member, whose comments and strings end on their lines; a string without an end is a fault."""
    tokens = [token for line in lines for token in TOKEN.findall(line) if not token.startswith("/*")]
    if "'" in tokens:
        raise Faulty
    return tokens


def expand(members, name, path, looked):
    """The tokens of a member with what it includes. The names that are looked up come to `looked` in any case."""
    looked.setdefault(name)
    if name not in members.lines:
        raise Faulty
    tokens, found = tokens_of(members.lines[name]), []
    while tokens:
        token = tokens.pop(0)
        if token != "%":
            found.append(token)
            continue
        if len(tokens) < 3 or tokens[0] != "INCLUDE" or not tokens[1].isidentifier() or tokens[2] != ";":
            raise Faulty
        included, tokens = tokens[1], tokens[3:]
        if included in [*path, name]:
            raise Faulty
        found += expand(members, included, [*path, name], looked)
    return found


class Ledger:
    """What is kept of units."""

    def __init__(self):
        self.traces, self.compiled = {}, {}

    def build(self, members):
        """The answer of LEDGER after a build."""
        units = [name for name in SOURCES if name in members.lines]
        self.traces = {unit: self.traces.get(unit) for unit in units}
        self.compiled = {unit: self.compiled.get(unit) for unit in units}
        expanded = compiled = 0
        for unit in units:
            looked = {}
            try:
                tokens = expand(members, unit, [], looked)
            except Faulty:
                tokens = None
            trace = {name: members.versions.get(name) for name in looked}
            kept = self.traces[unit]
            if kept is None or any(members.versions.get(name) != version for name, version in kept.items()):
                expanded, self.traces[unit] = expanded + 1, trace
            if tokens is not None and tokens != self.compiled[unit]:
                compiled, self.compiled[unit] = compiled + 1, tokens
        return expanded, compiled


def answers(program, commands):
    """The answers to commands, parted by what the marks among them are answered."""
    text = "".join(command + "\n" for command in [*commands, "QUIT"])
    given = subprocess.run(program, input=text.encode(), stdout=subprocess.PIPE, check=True).stdout.decode()
    return given.split(MARKED)


def session(numbers):
    """The commands of a session, and for each build the members in a fresh workbench, and what is expanded and compiled."""
    members, ledger, builds = Members(numbers), Ledger(), []
    for name in SOURCES + INCLUDES:
        if numbers.below(8):
            members.type(name)
    for _ in range(ROUNDS):
        for _ in range(numbers.below(4)):
            members.edit()
        members.commands += [MARK, "BUILD", MARK, "LEDGER", MARK, *SHOWS, MARK]
        builds.append((members.typed(), *ledger.build(members)))
    return members.commands, builds


def disagreement(program, commands, builds):
    """What is wrong in a session, if anything is, and how many builds gave a module."""
    parts, modules = answers(program, commands), 0
    for number, (typed, expanded, compiled) in enumerate(builds):
        built, work, shown = parts[4 * number + 1 : 4 * number + 4]
        fresh = answers(program, [*typed, MARK, "BUILD", MARK, *SHOWS, MARK])
        said = f"EXPANDED {expanded} COMPILED {compiled}\n"
        if [built, shown] != fresh[1:3]:
            return f"build {number + 1}: {built + shown!r}, and fresh {''.join(fresh[1:3])!r}", modules
        if work != said:
            return f"build {number + 1}: {work!r}, and by the model {said!r}", modules
        modules += built.endswith("BUILT\n") and not built.endswith("NOT BUILT\n")
    return None, modules


def main():
    program, numbers = sys.argv[1:], Numbers(SEED)
    if not program:
        sys.exit(__doc__.splitlines()[0])
    wrong, modules, expanded, compiled = [], 0, 0, 0
    for _ in range(SESSIONS):
        commands, builds = session(numbers)
        found, made = disagreement(program, commands, builds)
        modules += made
        expanded, compiled = expanded + sum(b[1] for b in builds), compiled + sum(b[2] for b in builds)
        if found:
            wrong.append((found, commands))
    print(f"{SESSIONS - len(wrong)} of {SESSIONS} sessions agree: {SESSIONS * ROUNDS} builds, {modules} with a module; ", end="")
    print(f"{expanded} units expanded, {compiled} compiled")
    for found, commands in wrong[:SHOWN]:
        print(found, *commands, sep="\n  ")
    sys.exit(bool(wrong))


if __name__ == "__main__":
    main()
