#!/usr/bin/env python3
"""answers.py SESSION: what a workbench answers to the commands of a session, by meaning.py.

`Workbench` knows edits that are not refused for their text, BUILD, RUN, LIST and QUIT, and inclusion where its directive is a line. What
else a session asks for is Unknown, and so is a unit that has no tokens for reader.py, or an inclusion that has a fault.
"""
import re
import sys
from pathlib import Path

import compared
import meaning


class Unknown(Exception):
    """A session asks for what is not known here."""


class Workbench:
    """The commands of a session, answered by meaning.py."""

    def __init__(self):
        self.members, self.module = {}, None

    def lines(self, name):
        return self.members[name][1]

    def answer(self, command):
        """The answer to a command: its lines."""
        word, *words = command.split(" ", 1)
        word = word.upper()
        edits = {"ADD": self.add, "DELETE": self.delete, "INSERT": self.insert, "REPLACE": self.replace, "REMOVE": self.remove}
        if word in edits:
            refused = edits[word](*words)
            self.module = self.module if refused else None
            return [refused or "OK"]
        if word == "BUILD":
            return self.build()
        if word == "RUN":
            return self.run(int(*words) if words else 1_000_000)
        if word == "LIST":
            return [*(f"{at + 1} {line}" for at, line in enumerate(self.lines(*words))), "OK"]
        if word == "QUIT":
            return ["OK"]
        raise Unknown(command)

    def add(self, words):
        name, kind = words.upper().split(" ")
        if name in self.members:
            return "M1 NAME TAKEN"
        self.members[name] = kind, []

    def delete(self, name):
        if self.members.pop(name.upper(), None) is None:
            return "M2 NO SUCH MEMBER"

    def placed(self, words):
        name, number, *text = words.split(" ", 2)
        return self.lines(name.upper()), int(number), text[0] if text else ""

    def insert(self, words):
        lines, number, text = self.placed(words)
        if number > len(lines):
            return "M3 NO SUCH LINE"
        lines.insert(number, text)

    def replace(self, words):
        lines, number, text = self.placed(words)
        if not 1 <= number <= len(lines):
            return "M3 NO SUCH LINE"
        lines[number - 1] = text

    def remove(self, words):
        name, first, last = words.split(" ")
        del self.lines(name.upper())[int(first) - 1 : int(last)]

    def build(self):
        try:
            units = [self.unit(name) for name, (kind, _) in sorted(self.members.items()) if kind == "SOURCE"]
        except (ValueError, KeyError, RecursionError) as fault:
            raise Unknown("a unit") from fault
        told = compared.told(units)
        self.module = None if told else meaning.Program(units)
        return [*told, "NOT BUILT"] if told else ["BUILT"]

    def unit(self, name):
        lines = [*self.expanded(name)]
        return meaning.Unit([self.written(line) for line, *_ in lines], name, [origin for _, *origin in lines])

    def expanded(self, name, depth=0):
        """The lines of a member, with those of the members that it includes, each with its member and its number there."""
        if depth > len(self.members):
            raise RecursionError(name)
        for at, line in enumerate(self.lines(name)):
            included = re.fullmatch(r"\s*%INCLUDE\s+('?)([\w$]+)\1\s*;\s*", line.upper())
            if included:
                yield from self.expanded(included[2], depth + 1)
            else:
                yield line, name, at + 1

    @staticmethod
    def written(line):
        """A line in capitals outside of character constants."""
        parts = line.split("'")
        return "'".join(part if at % 2 else part.upper() for at, part in enumerate(parts))

    def run(self, steps):
        if not self.module:
            return ["B2 NOT BUILT"]
        printed, line = self.module.run(steps)
        return (printed + line).split("\n")


def answers_to(path):
    """The answers to a session, each a line."""
    bench = Workbench()
    return [line for command in path.read_text().splitlines() for line in bench.answer(command)]


if __name__ == "__main__":
    print("\n".join(answers_to(Path(sys.argv[1]))))
