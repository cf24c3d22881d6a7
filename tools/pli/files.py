"""Files as members of the workbench: their lines, what they include, and what can be no member."""
import re
from functools import cached_property, partial
from pathlib import Path

from report import LONGEST_LINE, limited, placed
from scan import scan
from streams import Trouble

NAME = re.compile(r"[A-Z][A-Z0-9_$]{0,30}")
INCLUDED = (".INC", ".H", ".PLI", ".PL1")
MOST_BYTES = 16_000_000
MOST_LINES = 9_999
MOST_MEMBERS = 998
BAD_BYTE = re.compile(rb"[^\t -~]")


class Member:
    """A member of the workbench. `str` gives the path of its file as it is shown; lines have no line ends."""

    def __init__(self, name, kind, lines=(), path=None, shown=None):
        self.name, self.kind, self.lines, self.path = name, kind, list(lines), path
        self.shown, self.text = shown or str(path or name), b"\n".join(self.lines).decode("latin-1")

    def __str__(self):
        return self.shown

    @cached_property
    def items(self):
        """Its tokens and directives, up to what is no token."""
        return scan(self.text, self)

    @cached_property
    def by_tokens(self):
        """A line for each token, with the item that it is of; none where that cannot be."""
        lines = [(word.encode("latin-1"), item) for item in self.items
                 for word in (["%", "INCLUDE", item.text, ";"] if item.kind == "include" else [item.spelled])]
        bad = self.items and self.items[-1].kind.startswith("X")
        return None if bad or len(lines) > MOST_LINES else lines

    def item(self, line):
        """What stands on a line of it as it is typed by tokens."""
        if self.by_tokens is None:
            return next((item for item in self.items[-1:] if item.is_fault and item.line == line), None)
        return self.by_tokens[line - 1][1] if line <= len(self.by_tokens) else None

    def typed(self, by_tokens=False):
        """The commands that type it, as it is or with a line for each token where that can be."""
        yield f"ADD {self.name} {self.kind}".encode()
        lines = [word for word, _ in self.by_tokens] if by_tokens and self.by_tokens is not None else self.lines
        for number, line in enumerate(lines):
            yield f"INSERT {self.name} {number} ".encode() + line


def read(path):
    """The lines of a file; `-` is standard input. A carriage return before a line feed is no part of a line."""
    try:
        with open(0 if str(path) == "-" else path, "rb", closefd=str(path) != "-") as file:
            data = file.read(MOST_BYTES + 1)
    except (OSError, ValueError) as error:
        raise Trouble(f"{path}: {getattr(error, 'strerror', None) or error}", 2) from None
    if len(data) > MOST_BYTES:
        raise Trouble(f"{path}: over {MOST_BYTES:,} bytes, more than a member can have", 2)
    lines = [line.removesuffix(b"\r") for line in data.removeprefix(b"\xef\xbb\xbf").split(b"\n")]
    return lines[:-1] if lines[-1] == b"" else lines


def unit_of(path, name):
    """The member of a file that is a unit."""
    standard = str(path) == "-"
    lines, given = read(path), (name or ("stdin" if standard else path.stem)).upper()
    if not NAME.fullmatch(given):
        raise Trouble(f"{path}: {given} is no name of a member{'' if name else f'; --as NAME {path} gives it one'}", 2)
    return Member(given, "SOURCE", lines, None if standard else path, "<stdin>" if standard else None)


def found_in(folder, name):
    """The file of a folder that has the text of an included name."""
    wanted = [name + suffix for suffix in INCLUDED]
    try:
        found = [each for each in folder.iterdir() if each.name.upper() in wanted and not each.is_dir()]
    except OSError:
        return None
    return min(found, key=lambda each: (wanted.index(each.name.upper()), each.name), default=None)


def include(members, item, folders):
    """Adds the member that a directive asks for; says what is wrong where another stands in its place."""
    beside = item.source.path.parent if item.source.path else Path()
    path = next(filter(None, (found_in(folder, item.text) for folder in [beside, *folders])), None)
    stands = members.get(item.text)
    if path is None or stands and stands.path and path.resolve() == stands.path.resolve():
        return None
    lines, means = read(path), f"%INCLUDE {item.text} means {path}"
    if not stands:
        members[item.text] = Member(item.text, "INCLUDE", lines, path)
    elif stands.kind == "SOURCE":
        return f"{means}, but {stands} is the unit {item.text}; --as NAME FILE names it otherwise"
    return f"{means} here, and {stands} elsewhere; rename one of them" if stands and lines != stands.lines else None


def refused(member):
    """What the workbench would refuse of a member: lines, columns and messages."""
    for number, line in enumerate(member.lines[:MOST_LINES], 1):
        if len(line) > LONGEST_LINE:
            yield number, LONGEST_LINE + 1, f"M4 LINE TOO LONG: {len(line)} bytes, {LONGEST_LINE} at most"
        elif bad := BAD_BYTE.search(line):
            yield number, bad.start() + 1, f"M5 BAD BYTE: X'{line[bad.start()]:02X}'"
    if len(member.lines) > MOST_LINES:
        yield MOST_LINES + 1, 1, f"M6 TOO MANY LINES: a member has at most {MOST_LINES:,}"


def gathered(units, folders, most):
    """The units of a call and all that they include, by their names; none where one can be no member, which is told."""
    members, wrong = {}, []
    for path, name in units:
        unit = unit_of(path, name)
        other = members.setdefault(unit.name, unit)
        if other is not unit:
            raise Trouble(f"{unit}: {other} is the unit {unit.name} already; --as NAME FILE names it otherwise", 2)
    todo = list(members.values())
    for member in todo:
        for item in member.items:
            if item.kind == "include" and (message := include(members, item, folders)):
                wrong.append((member, item.line, item.column, message))
        todo += list(members.values())[len(todo) :]
    if len(members) > MOST_MEMBERS:
        raise Trouble(f"M7 TOO MANY MEMBERS: {len(members)} files, {MOST_MEMBERS} at most", 2)
    wrong += [(member, *what) for member in members.values() for what in refused(member)]
    limited([partial(placed, *each) for each in wrong], most)
    return None if wrong else members
