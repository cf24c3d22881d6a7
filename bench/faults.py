"""faults.py: the faults A1 to A15 of a unit's declarations and references, for declarations.py.

It is written from the rules of declarations alone, over the trees of reader.py, and shares nothing with the compiler. `faults_of(words)`
takes a unit as a list of tokens and answers its faults in their order, each a token, counted from 0, and a code: the one P fault, or
for each declared name and each reference the least A code.

The unit is walked once: every block gets the names that it declares, every reference is kept with its block. Then each name and each
reference is judged. An item is a name of a DECLARE; a part is a parameter's description in ENTRY, a result is what RETURNS describes.
"""
from math import prod

import reader

BUILT_IN = set("""
    ABS MAX MIN MOD DIVIDE SIGN LENGTH INDEX ALLOCATION LBOUND HBOUND SUBSTR ADDR NULL EMPTY POINTER OFFSET
""".split())

# The types of data, by the attributes that say them.
DATA = {
    "FIXED": "number",
    "BINARY": "number",
    "CHARACTER": "characters",
    "VARYING": "characters",
    "BIT": "bits",
    "POINTER": "locator",
    "OFFSET": "offset",
    "AREA": "area",
}
STORAGE = {"AUTOMATIC", "STATIC", "BASED", "CONTROLLED"}
SCOPE = {"INTERNAL", "EXTERNAL"}
NO_VARIABLE = {"ENTRY", "BUILTIN"}
LEVEL_1_ONLY = STORAGE | SCOPE | NO_VARIABLE
NOT_OF_PARAMETERS = LEVEL_1_ONLY | {"INITIAL"}

STAR = "*"

MOST_DIGITS = 63
MOST = {"FIXED": MOST_DIGITS, "BINARY": MOST_DIGITS, "CHARACTER": 32_767, "BIT": 32_767, "AREA": 1_000_000}
MOST_DIMENSIONS = 8
MOST_LEVEL = 255
MOST_PARAMETERS = 64
MOST_BYTES = 1_000_000
FARTHEST_BOUND = 32_767


class Word(str):
    """A token's text, with its place."""

    at = 0


class Placed(reader.Statements):
    """The reader, with places in its trees."""

    def take(self):
        word = Word(super().take())
        word.at = self.at - 1
        return word


def value(number):
    """The value of `["+" | "-"] number`."""
    sign = -1 if number[0] == "-" else 1
    digits = number.lstrip("+-")
    return sign * (int(digits[:-1], 2) if digits.endswith("B") else int(digits))


class Description:
    """Dimensions and attributes as they are written, and the block from which the names in them are looked up."""

    def __init__(self, block, dimensions, attributes):
        self.block = block
        self.bounds = [self.bound(written) for written in dimensions]
        self.words = [written if isinstance(written, str) else written[0] for written in attributes]
        self.has = set(self.words)
        self.given = {written[0]: written[1:] for written in attributes if not isinstance(written, str)}
        self.data = {DATA[word] for word in self.words if word in DATA}

    @staticmethod
    def bound(written):
        if written == STAR:
            return STAR
        return (1, value(written)) if isinstance(written, str) else (value(written[0]), value(written[2]))

    def number(self, word, otherwise):
        """The number after an attribute; a `*` is none."""
        return otherwise if self.is_any(word) or word not in self.given else value(self.given[word][0])

    def is_any(self, word):
        """Whether a `*` stands after an attribute."""
        return word in self.given and self.given[word][0] == STAR

    def has_any_length(self):
        return any(self.is_any(word) for word in ("CHARACTER", "BIT", "AREA"))

    def is_open(self):
        """Whether a `*` stands for its length or for a bound."""
        return STAR in self.bounds or self.has_any_length()

    def precision(self):
        return self.number("FIXED", self.number("BINARY", 15))

    def bad_bounds(self):
        bad = [1 for bound in self.bounds if bound != STAR and not -FARTHEST_BOUND <= bound[0] <= bound[1] <= FARTHEST_BOUND]
        return bool(bad) or len(self.bounds) > MOST_DIMENSIONS

    def bad_stars(self, is_parameter):
        """Whether a `*` stands for a bound that must be written: only all bounds of a parameter may be such."""
        return STAR in self.bounds and not (is_parameter and set(self.bounds) == {STAR})

    def count(self):
        """The elements of its own dimensions."""
        return prod(high - low + 1 for low, high in self.bounds)

    def agrees(self):
        """Whether the attributes agree, wherever they stand."""
        has = self.has
        return (
            len(self.words) == len(has)
            and len(self.data) <= 1
            and ("VARYING" not in has or "CHARACTER" in has)
            and not {"FIXED", "BINARY"} <= self.given.keys()
            and len(has & STORAGE) <= 1
            and len(has & SCOPE) <= 1
            and not ("EXTERNAL" in has and has & {"AUTOMATIC", "BASED"})
            and ("ENTRY" not in has or has <= {"ENTRY", "RETURNS", "EXTERNAL"})
            and ("BUILTIN" not in has or has == {"BUILTIN"})
            and not ("RETURNS" in has and "ENTRY" not in has and self.data)
        )

    def lacks(self):
        """Whether a variable without members has less than a type; FIXED and BINARY are both written."""
        return not self.data or self.data == {"number"} and not {"FIXED", "BINARY"} <= self.has

    def codes(self, is_parameter=False):
        """The codes that attributes have, a parameter's or any other's."""
        if not self.agrees():
            yield 3
        if "RETURNS" in self.has and "ENTRY" not in self.has:
            yield 4
        for word, code in [("FIXED", 5), ("BINARY", 5), ("CHARACTER", 6), ("BIT", 6), ("AREA", 6)]:
            if not 1 <= self.number(word, 1) <= MOST[word]:
                yield code
        if self.has_any_length() and (not is_parameter or "AREA" in self.has):
            yield 6
        if self.bad_bounds() or self.bad_stars(is_parameter):
            yield 7
        if "OFFSET" in self.given and not names_area(self.block, self.given["OFFSET"][0]):
            yield 12
        if "BASED" in self.given and not names_locator(self.block, self.given["BASED"][0].split(".")):
            yield 12
        if "AREA" in self.has and (self.bounds or "BASED" in self.has):
            yield 13
        if "RETURNS" in self.given:
            yield from Description(self.block, [], self.given["RETURNS"]).result_codes()
        parts = self.given.get("ENTRY", ())[1:]
        if len(parts) > MOST_PARAMETERS:
            yield 14
        for _, *part in parts:
            yield from Description(self.block, *dimensions_of(part)).part_codes()

    def result_codes(self):
        """The codes of a result: one value, and no area."""
        yield from self.codes()
        if self.has & NOT_OF_PARAMETERS or "AREA" in self.has:
            yield 3
        if self.lacks():
            yield 4

    def part_codes(self):
        """The codes of a part, which is a parameter's description."""
        codes = {*self.codes(is_parameter=True)}
        codes |= {3} if self.has & NOT_OF_PARAMETERS else set()
        codes |= {4} if self.lacks() else set()
        if not codes & {3, 4, 5, 6, 7} and not self.is_open() and array_size(*self.element(), self)[0] > MOST_BYTES:
            codes.add(15)
        return codes

    def element(self):
        """Size and alignment of one element of a type."""
        if self.data == {"number"}:
            return number_size(self.precision())
        if self.data == {"characters"}:
            length = self.number("CHARACTER", 1)
            return (2 + length, 2) if "VARYING" in self.has else (length, 1)
        if self.data == {"bits"}:
            return rounded(self.number("BIT", 1), 8) // 8, 1
        if self.data == {"area"}:
            return rounded(self.number("AREA", 1000), 8), 8
        return (8, 4) if self.data == {"locator"} else (4, 4)


def dimensions_of(parts):
    """Dimensions, or none, and what stands after them."""
    if parts and parts[0][0] == "dimensions":
        return parts[0][1:], parts[1:]
    return (), parts


def number_size(precision):
    """Size and alignment of a number of so many binary digits."""
    size = 2 if precision <= 15 else 4 if precision <= 31 else 8
    return size, size


def rounded(size, alignment):
    return -(-size // alignment) * alignment


def array_size(size, alignment, description):
    """Size and alignment of all elements, or of the one that has no dimensions."""
    if description.bounds:
        size = description.count() * rounded(size, alignment)
    return size, alignment


class Named:
    """A name that a block declares: a label, with its list, or a procedure."""

    above, members = None, ()

    def __init__(self, name, within=None, tree=None):
        self.name, self.path, self.within, self.tree = name, [name], within, tree


class Item(Named):
    """A name of a DECLARE, with its level and the item to which it belongs."""

    def __init__(self, name, level, description, above):
        super().__init__(name)
        self.level, self.description, self.above, self.members = level, description, above, []
        self.is_parameter = False
        if above:
            above.members.append(self)
            self.path = above.path + [name]

    def levels(self):
        """The item and those above it."""
        item = self
        while item:
            yield item
            item = item.above

    def code(self):
        """The least of its own codes, or 99."""
        codes = {*self.codes()}
        if self.above is None and not codes and self.size_is_known() and self.size()[0] > MOST_BYTES:
            return 15
        return min(codes, default=99)

    def codes(self):
        """Its own codes, but A15."""
        has, description = self.description.has, self.description
        yield from description.codes(self.is_parameter)
        if not self.stands_well():
            yield 3
        if not self.members and not has & NO_VARIABLE and description.lacks():
            yield 4
        if not 1 <= self.level <= MOST_LEVEL or self.level > 1 and not self.above:
            yield 8
        if "INITIAL" in has and not self.initials_fit():
            yield 9
        if "AREA" in has and (self.level != 1 or self.above and any(item.description.bounds for item in self.above.levels())):
            yield 13

    def stands_well(self):
        """Whether its attributes agree with its name, level, members and dimensions, and with a parameter."""
        has = self.description.has
        return not (
            has & LEVEL_1_ONLY and self.level != 1
            or self.members and (self.description.data or has & NO_VARIABLE or "RETURNS" in has or self.is_parameter)
            or self.description.bounds and has & NO_VARIABLE
            or "BUILTIN" in has and self.name not in BUILT_IN
            or self.is_parameter and has & NOT_OF_PARAMETERS
        )

    def initials_fit(self):
        """Whether the constants in INITIAL have the item's type, its range and at most its number."""
        if self.members or "AREA" in self.description.has:
            return False
        given, written = 0, self.description.given["INITIAL"]
        for constant in written:
            times, constant = (value(constant[1]), constant[2]) if isinstance(constant, tuple) else (1, constant)
            given += times
            if not self.holds(constant):
                return False
        levels = [item.description for item in self.levels()]
        return any(level.bad_bounds() or STAR in level.bounds for level in levels) or given <= prod(level.count() for level in levels)

    def holds(self, constant):
        """Whether a constant has the item's type and range; strings are fitted."""
        data = self.description.data
        if constant == "NULL":
            return data <= {"locator", "offset"}
        if constant.startswith("'"):
            return data <= {"characters" if constant.endswith("'") else "bits"}
        return data <= {"number"} and abs(value(constant)) < 2 ** min(self.description.precision(), MOST_DIGITS)

    def size_is_known(self):
        return not 3 <= min(self.codes(), default=99) <= 7 and not self.description.is_open() and all(member.size_is_known() for member in self.members)

    def size(self):
        """Size and alignment in bytes."""
        if not self.members:
            return array_size(*self.description.element(), self.description)
        end, greatest = 0, 1
        for member in self.members:
            size, alignment = member.size()
            end = rounded(end, alignment) + size
            greatest = max(greatest, alignment)
        return array_size(end, greatest, self.description)


class Block:
    """The names that a block declares: those that count, members too."""

    def __init__(self, outer):
        self.outer, self.names, self.items = outer, [], []
        self.label, self.parameters, self.results, self.is_procedure = None, [], [], False

    def declares(self, name):
        return any(named.name == name for named in self.names)

    def has_variable(self, name):
        """Whether an item of this name stands beneath no other, also one that does not count."""
        return any(item.name == name and not item.above for item in self.items)

    def own(self, name):
        """What is declared by this name alone, no member."""
        return next((named for named in self.names if named.path == [name]), None)


def found(block, names):
    """What a reference may mean, in the innermost block that declares its first name; None where there is none."""
    while block and not block.declares(names[0]):
        block = block.outer
    if not block:
        return None
    fitting = [named for named in block.names if fits(named.path, names)]
    return [named for named in fitting if named.path == names] or fitting


def fits(path, names):
    """Whether the names qualify a path, at least in part."""
    rest = iter(path[:-1])
    return names[-1] == path[-1] and all(name in rest for name in names[:-1])


def variable(block, names):
    """The one variable that the names mean, or None."""
    meant = found(block, names) or []
    if len(meant) == 1 and isinstance(meant[0], Item) and not meant[0].description.has & NO_VARIABLE:
        return meant[0]
    return None


def names_area(block, name):
    """Whether OFFSET(name) is good: an area without subscripts; its other faults are no fault of it."""
    item = variable(block, [name])
    return item is not None and "AREA" in item.description.has and not any(level.description.bounds for level in item.levels())


def names_locator(block, names):
    """Whether BASED(names) is good: a pointer or an offset without subscripts, and not BASED."""
    item = variable(block, names)
    if item is None or not item.description.has & {"POINTER", "OFFSET"}:
        return False
    return not any(level.description.bounds or "BASED" in level.description.has for level in item.levels())


class Frame:
    """What encloses a statement: the list of a block, the list of a group in it, or an ON-unit that stands in it."""

    def __init__(self, kind, block):
        self.kind, self.block = kind, block


class Unit:
    """A unit's declarations and references, and the faults of them."""

    def __init__(self, name, procedure):
        self.faults, self.items, self.checks, self.blocks = {}, [], [], {}
        outermost = Block(None)
        outermost.names.append(Named(name, tree=procedure))
        self.procedure(name, procedure, outermost, ())
        for item in self.items:
            self.fault(item.name, item.code())
        for check in self.checks:
            check()

    def fault(self, name, code):
        """A fault at a name, where the least code counts."""
        if code < 99:
            self.faults[name.at] = min(code, self.faults.get(name.at, 99))

    def declare(self, block, named):
        """Whether a name counts, that is no other of the block, or of the structure, has it before."""
        if block.own(named.name) if not named.above else any(named.path == other.path for other in block.names):
            self.fault(named.name, 2)
            return False
        block.names.append(named)
        return True

    def procedure(self, name, tree, outer, frames):
        """A procedure, whose name belongs to the outer block."""
        _, parameters, options, *items = tree
        block = Block(outer)
        results = [option[1:] for option in options if option[0] == "RETURNS"]
        self.blocks[id(tree)] = block
        block.label, block.parameters, block.results, block.is_procedure = name, parameters, results, True
        is_main = any(option[0] == "OPTIONS" for option in options)
        if len(results) > 1 or is_main and (parameters or results):
            self.fault(name, 3)
        if len(parameters) > MOST_PARAMETERS:
            self.fault(name, 14)
        self.checks.append(lambda: self.judge_results(name, outer, results))
        self.statements(items, block, frames, "block")
        for item in block.items:
            item.is_parameter = not item.above and item.name in parameters
        for number, parameter in enumerate(parameters):
            if parameter in parameters[:number]:
                self.fault(parameter, 2)
            if not block.has_variable(parameter):
                self.fault(parameter, 4)

    def judge_results(self, name, outer, results):
        for result in results:
            self.fault(name, min(Description(outer, [], result).result_codes(), default=99))

    def statements(self, trees, block, frames, kind):
        """The list of a block or of a group."""
        within = Frame(kind, block)
        for tree in trees:
            label = None
            if tree[0] == "label":
                _, label, tree = tree
                self.declare(block, Named(label, None if tree[0] == "procedure" else within, tree))
            self.statement(tree, label, block, frames + (within,))

    def statement(self, tree, label, block, frames):
        kind, *parts = tree
        if kind == "procedure":
            self.procedure(label, tree, block, frames)
        elif kind == "begin":
            self.blocks[id(tree)] = Block(block)
            self.statements(parts, self.blocks[id(tree)], frames, "block")
        elif kind == "do":
            for part in parts[0]:
                self.expression(part[1] if part[0] in ("while", "to", "by", "repeat") else part, block)
            self.statements(parts[1:], block, frames, "group")
        elif kind == "if":
            self.expression(parts[0], block)
            for part in parts[1:]:
                self.statement(part, None, block, frames)
        elif kind == "on":
            self.statement(parts[1], None, block, frames + (Frame("unit", block),))
        elif kind == "declare":
            self.declaration(parts, block)
        elif kind == "goto":
            self.checks.append(lambda: self.go_to(parts[0], block, frames))
        elif kind == "put":
            for _, listed in parts:
                for part in listed:
                    self.expression(part, block)
        elif kind == "allocate":
            for _, name, *options in parts:
                for part in (name, *(reference for _, reference in options)):
                    self.expression(part, block)
        elif kind not in ("revert", "signal"):
            for part in parts:
                self.expression(part, block)

    def declaration(self, trees, block):
        """The items of a DECLARE: one of a level over 1 belongs to the nearest before it that has a lesser level."""
        before = []
        for _, *parts in trees:
            level = value(parts.pop(0)) if isinstance(parts[0], str) else 1
            names = parts.pop(0)
            description = Description(block, *dimensions_of(parts))
            for name in names:
                above = next((item for item in reversed(before) if 1 < level > item.level), None)
                item = Item(name, level, description, above)
                if not above or above in block.names:
                    self.declare(block, item)
                before.append(item)
                block.items.append(item)
        self.items += before

    def expression(self, tree, block):
        """The references in an expression: what stands before an arrow is one of its own."""
        if isinstance(tree, str):
            tree = (tree, []) if tree[0].isalpha() else ("constant",)
        if tree[0] == "reference" or len(tree) > 1 and isinstance(tree[1], list):
            names = []
            for part in tree[1:] if tree[0] == "reference" else [tree]:
                if part == "->":
                    self.reference(names, block)
                    names = []
                elif part != ".":
                    names.append(part if isinstance(part, str) else part[0])
                    for argument in () if isinstance(part, str) else part[1]:
                        self.expression(argument, block)
            self.reference(names, block)
        else:
            for operand in tree[1:]:
                self.expression(operand, block)

    def reference(self, names, block):
        self.checks.append(lambda: self.judge_reference(names, block))

    def judge_reference(self, names, block):
        meant = found(block, names)
        if meant is None and len(names) == 1 and names[0] in BUILT_IN:
            return
        if not meant:
            self.fault(names[0], 1)
        elif len(meant) > 1:
            self.fault(names[0], 10)

    def go_to(self, name, block, frames):
        """GOTO reaches the labels of the lists around it; out of an ON-unit none in a group of the block in which the ON stands."""
        meant = found(block, [name])
        if meant is None:
            self.fault(name, 1)
            return
        if len(meant) > 1:
            self.fault(name, 10)
            return
        within = meant[0].within
        if within not in frames:
            self.fault(name, 11)
            return
        left = [frame for frame in frames[frames.index(within) :] if frame.kind == "unit"]
        if within.kind == "group" and any(unit.block is within.block for unit in left):
            self.fault(name, 11)


def faults_of(words):
    """The faults of a unit's tokens: each its token, counted from 0, and its code."""
    tokens = reader.tokens_of(words)
    try:
        tree = Placed(tokens).unit()
    except reader.Fault as fault:
        return [(fault.at, fault.code)]
    name = Word(tokens[0].text)
    return [(at, f"A{code}") for at, code in sorted(Unit(name, tree).faults.items())]
