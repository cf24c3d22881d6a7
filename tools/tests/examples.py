"""Examples in pages and files: the texts, what they are members of, and what is said of them."""
import re
from pathlib import Path
from typing import NamedTuple

TOP = Path(__file__).resolve().parents[2]
SECTION = re.compile(r"^#+ (.*)$")
FENCE = re.compile(r"^```([\w .-]*)$")
FILE = re.compile(r"/\* ([\w$]+)\.(pli|inc) \*/")
KIND = {"pli": "SOURCE", "inc": "INCLUDE"}


class Block(NamedTuple):
    """A fenced block of a page: the heading above it, the word of its fence, its lines, and its place."""

    heading: str
    word: str
    lines: list
    place: str


def blocks(page):
    """The fenced blocks of a page."""
    heading, block = "", None
    for number, line in enumerate((TOP / page).read_text(encoding="utf-8").splitlines(), 1):
        fence = FENCE.match(line)
        if block and fence:
            yield block
            block = None
        elif block:
            block.lines.append(line)
        elif fence:
            block = Block(heading, fence[1], [], f"{page}:{number}")
        elif SECTION.match(line):
            heading = SECTION.match(line)[1]


def members(lines):
    """The members of an example: a line that names a file in a comment begins one, else all is one unit."""
    found = [] if FILE.fullmatch(lines[0]) else [("M", "SOURCE", [])]
    for line in lines:
        if named := FILE.fullmatch(line):
            found.append((named[1].upper(), KIND[named[2]], []))
        found[-1][2].append(line)
    return found


def typed(members):
    """The commands that type members."""
    for name, kind, lines in members:
        yield f"ADD {name} {kind}"
        for number, line in enumerate(lines):
            yield f"INSERT {name} {number} {line}" if line else f"INSERT {name} {number}"
