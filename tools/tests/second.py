#!/usr/bin/env python3
"""second.py: a workbench that answers commands as they come by the second opinion of bench/.

It knows what bench/answers.py knows, and what the tests of the tool need beside that: lines that are no command,
refusals of edits for their text, MEMBERS, faults of tokens and directives (by the tool's own scan.py), and output that
is written as a run prints it.
"""
import re
import sys
from pathlib import Path

TOP = Path(__file__).resolve().parents[2]
sys.path[:0] = [str(TOP / "bench"), str(TOP / "tools" / "pli")]
import answers  # noqa: E402
import compared  # noqa: E402
import meaning  # noqa: E402
from scan import scan  # noqa: E402

TEXTS = """
    X1 UNENDED COMMENT, X2 UNENDED STRING, X3 BAD CHARACTER, X4 BAD NUMBER, X5 NAME TOO LONG, X6 BAD BITS,
    I1 NO SUCH MEMBER, I2 RECURSIVE INCLUDE, I3 TOO MANY TOKENS, I4 BAD INCLUDE
"""
TEXT_OF = dict(text.split(maxsplit=1) for text in " ".join(TEXTS.split()).split(", "))
MOST_TOKENS = 200_000
NAME, NUMBER = "[A-Z][A-Z0-9_$]{0,30}", "[0-9]{1,9}"
COMMAND = re.compile(
    f"ADD {NAME} (SOURCE|INCLUDE)|(DELETE|LIST) {NAME}|(INSERT|REPLACE) {NAME} {NUMBER}( .*)?"
    f"|REMOVE {NAME} {NUMBER} {NUMBER}|MEMBERS|BUILD|QUIT|RUN( [0-9]{{1,18}})?",
    re.IGNORECASE,
)


class Fault(Exception):
    """A fault of a unit before it is read."""

    def __init__(self, code, member, line):
        super().__init__(code)
        self.code, self.member, self.line = code, member, line


class Flow(list):
    """Output that is written, and not kept."""

    def append(self, text):
        sys.stdout.write(text)
        sys.stdout.flush()


class Second(answers.Workbench):
    """The commands of a session, answered as they come."""

    def answer(self, command):
        if len(command) > 200 or not COMMAND.fullmatch(command):
            return ["B1 BAD COMMAND"]
        word, name, *rest = [*command.split(" ", 3), ""]
        word, name = word.upper(), name.upper()
        if word == "MEMBERS":
            return [*(f"{each} {kind} {len(lines)}" for each, (kind, lines) in sorted(self.members.items())), "OK"]
        if word in ("INSERT", "REPLACE", "REMOVE", "LIST") and name not in self.members:
            return ["M2 NO SUCH MEMBER"]
        refused = self.refused(name, rest) if word in ("INSERT", "REPLACE") else None
        return [refused] if refused else super().answer(command if word != "LIST" else f"LIST {name}")

    def refused(self, name, rest):
        """The refusal of a line for its number or its text."""
        text = rest[1] if len(rest) > 2 else ""
        if int(rest[0]) > len(self.lines(name)):
            return "M3 NO SUCH LINE"
        if len(text) > 120:
            return "M4 LINE TOO LONG"
        return "M5 BAD BYTE" if re.search(r"[^\t -~]", text) else None

    def remove(self, words):
        name, first, last = words.upper().split(" ")
        if not 1 <= int(first) <= int(last) <= len(self.lines(name)):
            return "M3 NO SUCH LINE"
        del self.lines(name)[int(first) - 1 : int(last)]

    def build(self):
        units, told = [], []
        for name in sorted(name for name, (kind, _) in self.members.items() if kind == "SOURCE"):
            try:
                units.append(self.unit(name))
                told += compared.told(units[-1:]) if units[-1].faults() else []
            except Fault as fault:
                told.append(f"{name} {fault.member}:{fault.line} {fault.code} {TEXT_OF[fault.code]}")
        told = told or compared.told(units)
        self.module = None if told else meaning.Program(units)
        return [*told, "NOT BUILT"] if told else ["BUILT"]

    def unit(self, name):
        """A unit, of its tokens, each on a line of its own."""
        self.read = 0
        tokens = list(self.tokens(name, ()))
        words, places = [token.text for token in tokens], [(token.source, token.line) for token in tokens]
        return meaning.Unit(words, name, places)

    def tokens(self, name, around):
        """The tokens of a member with those that it includes in their places."""
        items = scan("\n".join(self.lines(name)), name)
        for item in items[-1:]:
            if item.kind.startswith("X"):
                raise Fault(item.kind, name, item.line)
        for item in items:
            if item.is_fault:
                raise Fault(item.kind, name, item.line)
            self.read += 4 if item.kind == "include" else 1
            if self.read > MOST_TOKENS:
                raise Fault("I3", name, item.line)
            if item.kind != "include":
                yield item
            elif item.text in (*around, name):
                raise Fault("I2", name, item.line)
            elif item.text not in self.members:
                raise Fault("I1", name, item.line)
            else:
                yield from self.tokens(item.text, (*around, name))

    def run(self, steps):
        if not self.module:
            return ["B2 NOT BUILT"]
        run = meaning.Run(self.module, steps)
        run.output = Flow()
        printed, line = run.whole()
        sys.stdout.write(printed)
        return [line]


def main():
    bench = Second()
    for line in sys.stdin.buffer:
        command = line.decode("latin-1").removesuffix("\n").removesuffix("\r")
        sys.stdout.write("".join(answer + "\n" for answer in bench.answer(command)))
        sys.stdout.flush()
        if command.upper() == "QUIT":
            break


if __name__ == "__main__":
    try:
        main()
    except (BrokenPipeError, KeyboardInterrupt):
        sys.exit(1)
