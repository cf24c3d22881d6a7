#!/usr/bin/env python3
"""damaged.py [--write]: what is wrong with some 33,500 damaged modules, by a plain reader of decks and modules of its own.

The reader is written from docs/FORMAT.md alone: it reads from the front on, byte by byte, and looks at the limits at the end. It shares nothing
with the compiler. The modules are those that the tests of damaged.rt in crates/pli_bench_tests make, of the modules that
stand there as text: 20,000 of them with one to three changes that a random number names, and each with one byte put to 0, to 255 and to those
beside it. A digit stands for each in the tables of found.rt there: the number of the first fault, or 0 for a module that is good. The script
tells how many have which digit, and whether the tables have them all; --write writes these. The status is 0 where they agree.
"""
import re
import sys
from collections import Counter
from pathlib import Path

TESTS = Path(__file__).resolve().parent.parent / "crates" / "pli_bench_tests" / "src" / "tests"
MODULES, A_LINE = 20000, 100
NONE = 65535
FILE = """\
//! What is wrong with damaged modules, as `bench/damaged.py` found it, which writes this file.

/// A digit for each at random: the number of its first fault, or 0 where it has none. Each line has 100.
pub static FOUND: &str = "\\
{found}";

/// A digit for each byte of each module that is put to 0, to 255, to the byte after it and to that before it.
pub static BYTES: &str = "\\
{of_bytes}";
"""
MOST_LEVELS = 512
MOST_BYTES, MOST_INITIAL, MOST_STATIC, MOST_CODE = 1000000, 16777216, 16777216, 1000000

# The operands of each instruction: how many bytes a number has, and what it is.
OPERANDS = {
    0x01: "4", 0x02: "4", 0x03: "2i", 0x04: "2i", 0x05: "1 2i", 0x06: "2b 1", 0x07: "2g 1", 0x08: "2b", 0x09: "1", 0x0A: "1", 0x0B: "1e",
    0x0D: "1 2", 0x0E: "2g", 0x0F: "2D", 0x10: "4 2D", 0x11: "4l 4l 4", 0x12: "2v", 0x16: "2t", 0x17: "2D", 0x18: "1", 0x1E: "1p", 0x24: "1k",
    0x30: "2g", 0x31: "2g", 0x32: "2g", 0x33: "2t", 0x34: "2t 2i", 0x35: "2D", 0x38: "1c 2b", 0x39: "1c", 0x3A: "1c", 0x3D: "2", 0x3E: "2",
    0x40: "1d", 0x41: "1w 1d", 0x42: "1f",
}  # fmt: skip
RANGES = {"e": (1, 13), "k": (0, 5), "c": (0, 2), "l": (-32767, 32767), "d": (1, 8), "w": (0, 1), "f": (2, 4)}

# The versions, each with the bytes of a number as a value, the greatest precision, the last tag of a description and the last instruction.
VERSIONS = {1: (4, 31, 9, 0x3F), 2: (8, 63, 9, 0x3F), 3: (8, 63, 13, 0x43)}

# The tags of what an array may consist of whose bounds are all `*`.
ELEMENTS = {1, 2, 3, 4, 5, 6, 10, 11, 12}


sys.setrecursionlimit(10 * MOST_LEVELS)


class Fault(Exception):
    """The number of a fault."""


class Bytes:
    """Bytes that are read from the front on."""

    def __init__(self, given):
        self.left = given

    def take(self, count):
        if count > len(self.left):
            raise Fault(3)
        taken, self.left = self.left[:count], self.left[count:]
        return taken

    def number(self, size, least=0, most=None, signed=False):
        found = int.from_bytes(self.take(size), "big", signed=signed)
        if found < least or most is not None and found > most:
            raise Fault(5)
        return found

    def bound(self):
        return self.number(4, -32767, 32767, signed=True)

    def name(self):
        text = self.take(self.number(1, 1, 31))
        if not re.fullmatch(rb"[A-Z][A-Z0-9_$]*", text):
            raise Fault(5)
        return text

    def list(self, read):
        return [read() for _ in range(self.number(2))]

    def begin(self, letters, versions):
        """The letters and the version, which is one of these."""
        if self.left[:4] != letters:
            raise Fault(1)
        self.take(4)
        version = self.number(1)
        if version not in versions:
            raise Fault(2)
        return version

    def end(self):
        if self.left:
            raise Fault(4)


class Deck:
    """A deck of one of these versions, whose bytes are all that is given."""

    def __init__(self, given, versions=VERSIONS):
        self.bytes = given = Bytes(given)
        self.number_size, self.most_digits, self.last_tag, self.last_instruction = VERSIONS[given.begin(b"PLID", versions)]
        given.name()
        given.number(1, 0, 1)
        self.taken, self.returned = [], []
        self.signature()
        self.descriptions = given.list(lambda: self.description(1))
        self.templates = given.list(lambda: (given.number(2), [(given.number(4), self.value()) for _ in range(given.number(4))]))
        self.values = given.list(self.value)
        self.globals = given.list(self.a_global)
        self.blocks = given.list(self.block)
        self.code = given.list(self.instruction)
        given.end()
        self.look_at_jumps()
        self.look_at_numbers()
        self.look_at_templates()

    def signature(self):
        """The descriptions that a signature names, of parameters and of a result."""
        self.taken += [self.bytes.number(2) for _ in range(self.bytes.number(1, 0, 64))]
        result = self.bytes.number(2)
        self.returned += [] if result == NONE else [result]

    def description(self, level, is_element=False):
        given = self.bytes
        tag = given.number(1, 1, self.last_tag)
        if level > MOST_LEVELS or is_element and tag not in ELEMENTS:
            raise Fault(5)
        if tag == 1:
            return tag, given.number(1, 1, self.most_digits)
        if tag < 5:
            return tag, given.number(2, 1, 32767)
        if tag == 7:
            size = given.number(4, 1, MOST_BYTES)
            if size % 8:
                raise Fault(5)
            return tag, size
        if tag == 8:
            count = 1
            for _ in range(given.number(1, 1, 8)):
                low, high = given.bound(), given.bound()
                if low > high:
                    raise Fault(5)
                count *= high - low + 1
            return tag, count, self.description(level + 1)
        if tag == 9:
            return tag, [self.description(level + 1) for _ in range(given.number(2, 1))]
        if tag == 13:
            return tag, given.number(1, 1, 8), self.description(level + 1, is_element=True)
        return (tag,)

    def value(self):
        given = self.bytes
        tag = given.number(1, 1, 5)
        if tag == 1:
            return tag, given.number(self.number_size, 1 - 2**self.most_digits, signed=True)
        if tag == 2:
            return tag, len(given.take(given.number(2, 0, 32767)))
        if tag == 3:
            count = given.number(2, 0, 32767)
            bits = given.take((count + 7) // 8)
            if count % 8 and bits[-1] & (255 >> count % 8):
                raise Fault(5)
            return tag, count
        return (tag,)

    def a_global(self):
        """The kind of a global and the template that it names."""
        given = self.bytes
        kind = given.number(1, 0, 4)
        if kind > 1:
            given.name()
        if kind < 4:
            return kind, given.number(2)
        self.signature()
        return kind, None

    def block(self):
        given = self.bytes
        given.number(1, 0, 2)
        parent = given.number(2)
        given.number(1, 0, 64)
        templates = given.list(lambda: given.number(2))
        given.number(2)
        first = given.number(2)
        given.number(4)
        return parent, templates, first

    def instruction(self):
        """What an instruction names: kinds of numbers, and the numbers."""
        given, named = self.bytes, []
        for operand in OPERANDS.get(given.number(1, 1, self.last_instruction), "").split():
            size, kind = int(operand[0]), operand[1:]
            within = (1, self.most_digits) if kind == "p" else RANGES.get(kind, ())
            named.append((kind, given.number(size, *within, signed=kind == "l")))
        return named

    def look_at_jumps(self):
        for instruction in self.code:
            for kind, number in instruction:
                if kind == "i" and number >= len(self.code):
                    raise Fault(6)

    def look_at_numbers(self):
        counts = {"b": self.blocks, "g": self.globals, "D": self.descriptions, "v": self.values, "t": self.templates}
        named = [named for instruction in self.code for named in instruction if named[0] in counts]
        named += [("D", number) for number in self.returned]
        named += [("D", number) for number, _ in self.templates]
        stored = [number for kind, number in named if kind == "D"]
        named += [("D", number) for number in self.taken]
        named += [("t", number) for _, number in self.globals if number is not None]
        named += [("b", parent) for parent, _, _ in self.blocks if parent != NONE]
        named += [("t", number) for _, templates, _ in self.blocks for number in templates]
        beyond = any(number >= len(counts[kind]) for kind, number in named)
        if beyond or not self.blocks or any(first >= len(self.code) for _, _, first in self.blocks):
            raise Fault(7)
        if any(has_star(self.descriptions[number]) for number in stored):
            raise Fault(7)

    def look_at_templates(self):
        initial = 0
        for number, values in self.templates:
            size = self.size_of(number)
            initial += size if values else 0
            if size > MOST_BYTES or any(not holds(self.descriptions[number], offset, value) for offset, value in values):
                raise Fault(8)
        if initial > MOST_INITIAL:
            raise Fault(8)

    def size_of(self, number):
        return extent(self.descriptions[number])[0]


def has_star(description):
    """Whether a `*` stands in a description."""
    tag, *rest = description
    if tag == 8:
        return has_star(rest[1])
    return any(map(has_star, rest[0])) if tag == 9 else tag > 9


def rounded(at, alignment):
    return -(-at // alignment) * alignment


def extent(description):
    """The size and the alignment of a description."""
    tag, *rest = description
    if tag == 1:
        size = 2 if rest[0] <= 15 else 4 if rest[0] <= 31 else 8
        return size, size
    if tag == 2:
        return rest[0], 1
    if tag == 3:
        return rest[0] + 2, 2
    if tag == 4:
        return (rest[0] + 7) // 8, 1
    if tag == 5:
        return 8, 4
    if tag == 6:
        return 4, 4
    if tag == 7:
        return rest[0], 8
    if tag == 8:
        size, alignment = extent(rest[1])
        return rounded(size, alignment) * rest[0], alignment
    end, greatest = 0, 1
    for member in rest[0]:
        size, alignment = extent(member)
        end = rounded(end, alignment) + size
        greatest = max(greatest, alignment)
    return end, greatest


def holds(description, offset, value):
    """Whether an element that holds the value begins at an offset."""
    tag, *rest = description
    if tag == 8:
        size, alignment = extent(rest[1])
        stride = rounded(size, alignment)
        return offset < stride * rest[0] and holds(rest[1], offset % stride, value)
    if tag == 9:
        end = 0
        for member in rest[0]:
            size, alignment = extent(member)
            start = rounded(end, alignment)
            end = start + size
            if start <= offset < end:
                return holds(member, offset - start, value)
        return False
    if offset:
        return False
    kind, *of = value
    if tag == 1:
        return kind == 1 and abs(of[0]) < 2 ** rest[0]
    if tag == 2:
        return kind == 2 and of[0] == rest[0]
    if tag == 3:
        return kind == 2 and of[0] <= rest[0]
    if tag == 4:
        return kind == 3 and of[0] == rest[0]
    return (tag, kind) in {(5, 4), (6, 5)}


class Module:
    """A module, whose bytes are all that is given."""

    def __init__(self, given):
        self.bytes = given = Bytes(given)
        self.version = given.begin(b"PLIM", VERSIONS)
        units = given.number(2, 1, 999)
        main = given.number(2)
        self.externals, before = [], b""
        for _ in range(given.number(2)):
            name = given.name()
            if name <= before:
                raise Fault(5)
            before = name
            self.externals.append((given.number(1, 2, 3), given.number(2), given.number(2)))
        self.units = [self.unit() for _ in range(units)]
        given.end()
        self.look_at_numbers(main)
        self.look_at_limits()

    def unit(self):
        given = self.bytes
        given.name()
        deck = Deck(given.take(given.number(4)), {self.version})
        outer = [kind for kind, _ in deck.globals if kind > 1]
        count = given.number(2)
        if count != len(outer):
            raise Fault(5)
        return deck, [(kind, given.number(2)) for kind in outer]

    def look_at_numbers(self, main):
        kinds = {number: kind for number, (kind, _, _) in enumerate(self.externals)}
        good = main < len(self.units)
        for kind, unit, number in self.externals:
            table = self.units[unit][0].globals if unit < len(self.units) else []
            good = good and number < len(table) and table[number][0] == kind
        for _, links in self.units:
            for kind, number in links:
                good = good and (number < len(self.units) if kind == 4 else kinds.get(number) == kind)
        if not good:
            raise Fault(7)

    def look_at_limits(self):
        statics = sum(deck.size_of(deck.templates[number][0]) for deck, _ in self.units for kind, number in deck.globals if kind == 0)
        for kind, unit, number in self.externals:
            deck = self.units[unit][0]
            if kind == 2:
                statics += deck.size_of(deck.templates[deck.globals[number][1]][0])
        if statics > MOST_STATIC or sum(len(deck.code) for deck, _ in self.units) > MOST_CODE:
            raise Fault(8)


def digit_of(given):
    """The number of the first fault of a module, or 0."""
    try:
        Module(given)
        return 0
    except Fault as fault:
        return fault.args[0]


class Random:
    """Pcg32 of the crate rand_pcg."""

    def __init__(self, state, stream):
        self.step = stream << 1 | 1
        self.state = state + self.step
        self.word()

    def word(self):
        state = self.state & 2**64 - 1
        self.state = state * 6364136223846793005 + self.step
        mixed, turn = (state >> 18 ^ state) >> 27 & 2**32 - 1, state >> 59
        return (mixed >> turn | mixed << (32 - turn)) & 2**32 - 1


def changed_byte(module, place, how, any_byte):
    """The byte that a change puts into a place."""
    beside = {2: place + 1, 3: place - 1}.get(how, place)
    old, near = module[place], module[beside] if 0 <= beside < len(module) else module[place]
    return [0, 255, near, near, old ^ 1, old ^ 2, old ^ 128, old + 1 & 255, old - 1 & 255, any_byte][min(how, 9)]


def changed(module, random):
    """A module with one change, as the test makes it."""
    place, how, any_byte = random.word() % max(len(module), 1), random.word() % 12, random.word() & 255
    if how == 10:
        return module[:place]
    if how == 11:
        return module[: place + 1] + module[place:]
    if place >= len(module):
        return module
    return module[:place] + bytes([changed_byte(module, place, how, any_byte)]) + module[place + 1 :]


def damaged(bases, number):
    """The damaged module of a number."""
    random = Random(number, 54)
    module = bases[number % len(bases)]
    for _ in range(1 + random.word() % 3):
        module = changed(module, random)
    return module


def with_each_byte(bases):
    """The modules with each byte put to 0, to 255, and to those beside it."""
    for base in bases:
        for place in range(len(base)):
            for how in range(4):
                yield base[:place] + bytes([changed_byte(base, place, how, 0)]) + base[place + 1 :]


def text_of(file, name):
    """The text of a static of the tests, without the ends of its lines."""
    found = re.search(rf'static {name}: &str = "\\?\n?(.*?)";', (TESTS / file).read_text(), re.S)
    return found[1].replace("\\\n", "").split("\n") if found else []


def in_lines(digits):
    return [digits[at : at + A_LINE] for at in range(0, len(digits), A_LINE)]


def main():
    random = Random(42, 54)
    assert [random.word() for _ in range(3)] == [0xA15C02B7, 0x7B47F409, 0xBA1D3330]
    bases = [bytes.fromhex(line) for line in text_of("written.rt", "MODULES")]
    assert all(digit_of(base) == 0 for base in bases), [digit_of(base) for base in bases]
    digits = "".join(str(digit_of(damaged(bases, number))) for number in range(MODULES))
    of_bytes = "".join(str(digit_of(module)) for module in with_each_byte(bases))
    if sys.argv[1:] == ["--write"]:
        (TESTS / "found.rt").write_text(FILE.format(found="\n".join(in_lines(digits)), of_bytes="\\\n".join(in_lines(of_bytes))))
    for digit, count in sorted(Counter(digits + of_bytes).items()):
        print(f"{count:6} with {'fault ' + digit if digit != '0' else 'no fault'}")
    stands = text_of("found.rt", "FOUND") == in_lines(digits) and text_of("found.rt", "BYTES") == [of_bytes]
    print(f"modules={len(digits) + len(of_bytes)} the table {'agrees' if stands else 'is another'}")
    return 0 if stands else 1


if __name__ == "__main__":
    sys.exit(main())
