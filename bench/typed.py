"""typed.py: the faults of types T1 to T14 of a unit, for meaning.py.

It is written from the rules of types alone, over the trees of reader.py and the blocks of faults.py, and shares nothing with the compiler.
`Types` walks a unit: `found` are its faults, each a token, counted from 0, and a code; `types` and `calls` keep the type of each expression
and what each call calls. It knows what the workbench compiles.
"""
from functools import lru_cache
from math import prod

import faults
import reader

MOST_DIGITS = faults.MOST_DIGITS

# What is asked again and again of what has been declared.
remembered = lru_cache(maxsize=8192)

FUNCTIONS = {"ABS": 1, "MAX": 2, "MIN": 2, "MOD": 2, "DIVIDE": 3, "SIGN": 1, "LENGTH": 1, "INDEX": 2, "ALLOCATION": 1, "LBOUND": 2, "HBOUND": 2, "SUBSTR": (2, 3)}
FUNCTIONS |= {"ADDR": 1, "NULL": 0, "EMPTY": 0, "POINTER": 2, "OFFSET": 2}
NUMBER, CHARACTERS, VARYING, BITS, POINTER, OFFSET, AREA = "number", "characters", "varying", "bits", "pointer", "offset", "area"

# The type of NULL, which is a pointer or an offset as what it meets.
NULL = "null"
LOCATORS = {POINTER, OFFSET, NULL}
STRINGS = {CHARACTERS, BITS}


class Node(tuple):
    """A tree that knows where it begins, and a statement's number."""

    at = number = end = equals = None


class Reader(faults.Placed):
    """The reader of trees, with the places and numbers that faults of types and runs name."""

    def __init__(self, tokens):
        super().__init__(tokens)
        self.begun, self.ended = 0, 0

    def begin_statement(self):
        super().begin_statement()
        self.begun += 1

    def one(self, kind, label):
        number, at = self.begun, self.at
        tree = super().one(kind, label)
        inner = tree[2] if tree[0] == "label" else tree
        if not isinstance(inner, Node):
            inner = Node(inner)
        inner.number, inner.at = number, at
        return ("label", tree[1], inner) if tree[0] == "label" else inner

    def end(self, label):
        self.ended = self.begun
        super().end(label)

    def procedure(self, label):
        number, at = self.begun, self.at
        tree = Node(super().procedure(label))
        tree.number, tree.at, tree.end = number, at, self.ended
        return tree

    def operand(self):
        at = self.at
        tree = super().operand()
        if isinstance(tree, tuple) and tree[0] == "parentheses":
            tree = Node(tree)
            tree.at = at
        return tree

    def assignment(self):
        target = self.outer_reference()
        equals = self.at
        self.take()
        tree = Node(("assign", target, self.outermost()))
        tree.equals = equals
        self.semicolon()
        return tree

    def do(self, label):
        # the `=` after the control variable
        equals = []
        expect = self.expect

        def kept(text, code):
            if code == "P11":
                equals.append(self.at)
            return expect(text, code)

        self.expect = kept
        try:
            with self.nested():
                self.take()
                specification = self.specification()
                self.semicolon()
                self.expect = expect
                items = self.items_of(group=True)
                self.end(label)
        finally:
            self.expect = expect
        tree = Node(("do", specification, *items))
        tree.equals = equals[0] if equals else None
        return tree


# descriptions: (NUMBER, p), (CHARACTERS, n), (VARYING, n), (BITS, n), (POINTER, None), (OFFSET, None), (AREA, bytes), ("array", bounds, element),
# ("structure", members); a parameter's may have a `*` for n, or for all of its bounds


def described(description):
    """One element of the attributes' type."""
    if description.data == {"number"}:
        return NUMBER, description.precision()
    if description.data in ({"locator"}, {"offset"}):
        return (POINTER if "POINTER" in description.has else OFFSET), None
    if description.data == {"area"}:
        return AREA, faults.rounded(description.number("AREA", 1000), 8)
    if description.data == {"characters"}:
        return (VARYING if "VARYING" in description.has else CHARACTERS), length_of(description, "CHARACTER")
    return BITS, length_of(description, "BIT")


def length_of(description, word):
    return faults.STAR if description.is_any(word) else description.number(word, 1)


def element_of(item):
    """The description of one element of an item."""
    if item.members:
        return "structure", tuple(whole_of(member) for member in item.members)
    return described(item.description)


def with_bounds(bounds, element):
    return ("array", tuple(bounds), element) if bounds else element


@remembered
def whole_of(item):
    return with_bounds(item.description.bounds, element_of(item))


# signatures: the descriptions of the parameters, and that of the result or None


def result_of(block, attributes):
    return described(faults.Description(block, [], attributes))


def signature_of_procedure(block):
    """That of a procedure's block."""
    result = result_of(block.outer, block.results[0]) if block.results else None
    return [whole_of(block.own(name)) for name in block.parameters], result


def signature_of_entry(description):
    """That of the attributes of an ENTRY."""
    parts = [faults.Description(description.block, *faults.dimensions_of(part)) for _, *part in description.given.get("ENTRY", ())[1:]]
    result = result_of(description.block, description.given["RETURNS"]) if "RETURNS" in description.given else None
    return [with_bounds(part.bounds, described(part)) for part in parts], result


def is_variable(meant):
    """Whether a name means a variable."""
    return isinstance(meant, faults.Item) and "ENTRY" not in meant.description.has


def is_stacked(meant):
    """Whether a name means a whole CONTROLLED variable."""
    return is_variable(meant) and not meant.above and "CONTROLLED" in meant.description.has


def is_based(meant):
    """Whether a name means a whole BASED variable."""
    return is_variable(meant) and not meant.above and "BASED" in meant.description.has


def root_of(item):
    """The variable at level 1 to which an item belongs."""
    return [*item.levels()][-1]


def implied_names(root):
    """The names in BASED, with the block in which they are looked up; None where it has none."""
    given = root.description.given.get("BASED")
    return given and given[0].split("."), root.description.block


@remembered
def implied_item(root):
    """The item that BASED names, or None."""
    names, block = implied_names(root)
    return names and faults.variable(block, names)


@remembered
def area_named(description):
    """The variable that OFFSET names in attributes, or None."""
    return faults.variable(description.block, [description.given["OFFSET"][0]]) if "OFFSET" in description.given else None


def is_procedure(meant):
    """Whether a name means what is called: a procedure, or an entry."""
    if isinstance(meant, faults.Item):
        return "ENTRY" in meant.description.has
    return isinstance(meant, faults.Named) and meant.tree is not None and meant.tree[0] == "procedure"


def is_open(description):
    """Whether a `*` stands in a description."""
    kind, given = description[:2]
    if kind == "array":
        return faults.STAR in given or is_open(description[2])
    return given == faults.STAR


def agrees(parameter, given):
    """Whether an argument of a description is passed by reference: a `*` of the parameter agrees with everything of its form."""
    if parameter[0] != given[0]:
        return False
    if parameter[0] == "array":
        pairs = zip(parameter[1], given[1])
        return len(parameter[1]) == len(given[1]) and all(p in (faults.STAR, g) for p, g in pairs) and agrees(parameter[2], given[2])
    return parameter == given or parameter[1] == faults.STAR


def is_aggregate(description):
    return description[0] in ("array", "structure")


def scalars_of(description):
    """How many scalars a description has."""
    if description[0] == "array":
        return prod(high - low + 1 for low, high in description[1]) * scalars_of(description[2])
    return sum(map(scalars_of, description[1])) if description[0] == "structure" else 1


def types_of(description):
    """The types of its scalars, in order."""
    if description[0] == "array":
        return types_of(description[2]) * prod(high - low + 1 for low, high in description[1])
    if description[0] == "structure":
        return [scalar for member in description[1] for scalar in types_of(member)]
    return [description]


def size_of(description):
    """Its size and alignment in bytes."""
    kind, given = description[0], description[1]
    if kind == "array":
        size, alignment = size_of(description[2])
        return prod(high - low + 1 for low, high in given) * faults.rounded(size, alignment), alignment
    if kind == "structure":
        end, greatest = 0, 1
        for member in given:
            size, alignment = size_of(member)
            end, greatest = faults.rounded(end, alignment) + size, max(greatest, alignment)
        return end, greatest
    if kind == NUMBER:
        return faults.number_size(given)
    if kind == VARYING:
        return 2 + given, 2
    if kind in (POINTER, OFFSET):
        return (8 if kind == POINTER else 4), 4
    if kind == AREA:
        return given, 8
    return (given, 1) if kind == CHARACTERS else (faults.rounded(given, 8) // 8, 1)


def binary_digits(decimal_digits):
    return min(MOST_DIGITS, 1 + (332 * decimal_digits + 99) // 100)


def decimal_digits(binary):
    return 1 + (100 * binary + 331) // 332


class Value:
    """The type of an expression or a target: a description; for a decimal constant its digits; for an offset the area that it names, or None.

    An area that is no variable's, as EMPTY and what stands in parentheses, has 0 bytes."""

    def __init__(self, description, decimal=None, area=None):
        self.description, self.decimal, self.area = description, decimal, area

    kind = property(lambda self: {VARYING: CHARACTERS}.get(self.description[0], self.description[0]))
    precision = property(lambda self: self.description[1])


class Fault(Exception):
    def __init__(self, code, at):
        super().__init__(code, at)
        self.code, self.at = code, at


class Part:
    """A name with what stands in parentheses after it, or None."""

    def __init__(self, tree):
        self.name, self.arguments = (tree, None) if isinstance(tree, str) else (tree[0], tree[1])


class Reference:
    """A reference: what stands before its last arrow, and its parts."""

    def __init__(self, tree):
        written = tree[1:] if isinstance(tree, tuple) and tree[0] == "reference" else (tree,)
        last = max((at for at, part in enumerate(written) if part == "->"), default=-1)
        self.locator = written[:last] if last > 0 else None
        self.parts = [Part(part) for part in written[last + 1 :] if part != "."]
        self.at = self.parts[0].name.at
        self.names = [part.name for part in self.parts]

    def before(self):
        """The reference before the last arrow."""
        return self.locator[0] if len(self.locator) == 1 else ("reference", *self.locator)


def is_reference(tree):
    if isinstance(tree, str):
        return tree[0].isalpha()
    return tree[0] == "reference" or len(tree) > 1 and isinstance(tree[1], list)


def first_token(tree):
    """Where an expression begins."""
    if isinstance(tree, str):
        return tree.at
    if isinstance(tree, Node) and tree.at is not None:
        return tree.at
    if is_reference(tree):
        part = tree[1] if tree[0] == "reference" else tree
        return part.at if isinstance(part, str) else part[0].at
    return tree[0].at if len(tree) == 2 else first_token(tree[1])


def constant_value(word):
    """A constant's type and value."""
    if word.startswith("'"):
        if word.endswith("'"):
            text = word[1:-1].replace("''", "'")
            return Value((CHARACTERS, len(text))), text
        digits, base = word[1:].split("'B")
        width = int(base or 1)
        text = "".join(f"{int(digit, 16):0{width}b}" for digit in digits)
        return Value((BITS, len(text))), text
    if word.endswith("B"):
        return Value((NUMBER, len(word) - 1)), int(word[:-1], 2)
    return Value((NUMBER, binary_digits(len(word))), len(word)), int(word)


def leads(value):
    """Whether a value leads to storage: a pointer, or an offset that names an area."""
    return value.kind == POINTER or value.kind == OFFSET and value.area is not None


def converts(source, target):
    """Whether a value of a type is assigned to a scalar."""
    kinds = {
        CHARACTERS: {NUMBER, CHARACTERS, BITS},
        POINTER: {POINTER, NULL} | ({OFFSET} if leads(source) else set()),
        OFFSET: {OFFSET, NULL} | ({POINTER} if leads(target) else set()),
    }
    return target.kind != AREA and source.kind in kinds.get(target.kind, {target.kind})


class Types:
    """The faults of types of a unit."""

    def __init__(self, unit):
        self.unit, self.found, self.types, self.calls, self.meanings = unit, [], {}, {}, {}

    # names

    def meaning(self, reference, block):
        """What the names mean: an item (a variable, member or entry), a label or procedure (Named), or a built-in function's name."""
        asked = (id(block), *reference.names)
        if asked not in self.meanings:
            meant = faults.found(block, reference.names)
            is_function = not meant or isinstance(meant[0], faults.Item) and "BUILTIN" in meant[0].description.has
            self.meanings[asked] = str(reference.names[0]) if is_function else meant[0]
        return self.meanings[asked]

    # references

    def subscripts(self, reference, block):
        written = []
        for part in reference.parts:
            for subscript in part.arguments or []:
                kind = self.value(subscript, block)
                if kind.kind != NUMBER:
                    raise Fault(4, first_token(subscript))
                written.append(subscript)
        return written

    def arguments_of_no_variable(self, reference, block):
        for part in reference.parts:
            for argument in part.arguments or []:
                self.argument(argument, block)

    def variable(self, reference, block, aggregates=True):
        """The item that a reference names, with its subscripts and its type."""
        if reference.locator is not None:
            is_located = leads(self.variable(Reference(reference.before()), block, aggregates=False)[2])
        item = self.meaning(reference, block)
        if not is_variable(item):
            self.arguments_of_no_variable(reference, block)
            raise Fault(1, reference.at)
        written = self.subscripts(reference, block)
        above = [level.description.bounds for level in reversed([*item.levels()])]
        wanted = sum(map(len, above))
        codes = set()
        if written:
            description = element_of(item)
            if len(written) != wanted:
                codes.add(3)
        else:
            description = whole_of(item)
            if any(above[:-1]):
                codes.add(3)
        if not codes and not aggregates and is_aggregate(description):
            codes.add(2)
        root = root_of(item)
        if reference.locator is None:
            is_located = is_based(root) and self.is_led(root)
        if is_based(root) and not is_located or not is_based(root) and reference.locator is not None:
            codes.add(10)
        if codes:
            raise Fault(min(codes), reference.at)
        return item, written, self.type_of(item, description)

    @staticmethod
    def type_of(item, description):
        return Value(description, area=area_named(item.description))

    def is_led(self, root):
        """Whether BASED names what leads to storage."""
        locator = implied_item(root)
        return locator is not None and leads(self.type_of(locator, whole_of(locator)))

    # expressions

    def value(self, tree, block):
        """The type of a value; an aggregate is none."""
        found = self.typed(tree, block)
        self.types[id(tree)] = found
        return found

    def typed(self, tree, block):
        if isinstance(tree, str) and not tree[0].isalpha():
            return constant_value(tree)[0]
        if is_reference(tree):
            return self.named(Reference(tree), tree, block)
        if tree[0] == "parentheses":
            found = self.value(tree[1], block)
            return Value((AREA, 0)) if found.kind == AREA else found
        if len(tree) == 2:
            return self.prefixed(tree, block)
        return self.operated(tree, block)

    def prefixed(self, tree, block):
        operand = self.value(tree[1], block)
        if operand.kind != (BITS if tree[0] == "^" else NUMBER):
            raise Fault(4, tree[0].at)
        return operand

    def operated(self, tree, block):
        sign, *operands = tree
        left, right = [self.value(operand, block) for operand in operands]
        kinds = {left.kind, right.kind}
        if sign in ("+", "-", "*"):
            if kinds != {NUMBER}:
                raise Fault(4, sign.at)
            p, q = left.precision, right.precision
            return Value((NUMBER, min(MOST_DIGITS, p + q + 1 if sign == "*" else max(p, q) + 1)))
        if sign in ("&", "|"):
            if kinds != {BITS}:
                raise Fault(4, sign.at)
            return Value((BITS, 1))
        if sign == "||":
            if not kinds <= STRINGS:
                raise Fault(4, sign.at)
            return Value((BITS if kinds == {BITS} else CHARACTERS, 1))
        if not (kinds <= STRINGS or kinds == {NUMBER} or sign in ("=", "^=") and self.are_locators(left, right)):
            raise Fault(4, sign.at)
        return Value((BITS, 1))

    @staticmethod
    def are_locators(left, right):
        """Whether two locators are compared: a pointer is not, beside an offset that names no area."""
        kinds = {left.kind, right.kind}
        return kinds <= LOCATORS and (not {POINTER, OFFSET} <= kinds or leads(left) and leads(right))

    def named(self, reference, tree, block):
        """A variable, or a call."""
        item = self.meaning(reference, block) if reference.locator is None else None
        arguments = reference.parts[0].arguments
        if isinstance(item, str) and len(reference.parts) == 1 and (arguments is not None or item in ("NULL", "EMPTY")):
            return self.function(item, reference, arguments or [], block)
        if is_procedure(item) and arguments is not None:
            return self.call(item, reference.parts[0], tree, block, True)
        return self.variable(reference, block, aggregates=False)[2]

    def argument(self, tree, block):
        """The type of what may be an aggregate: a reference's alone."""
        if is_reference(tree):
            reference = Reference(tree)
            item = self.meaning(reference, block) if reference.locator is None else None
            if is_variable(item) or reference.locator is not None:
                found = self.variable(reference, block)[2]
                self.types[id(tree)] = found
                return found
        return self.value(tree, block)

    def call(self, called, part, tree, block, is_value):
        """The faults of the arguments in order, then the least of T6, T7 and T8."""
        given = [self.argument(argument, block) for argument in part.arguments or []]
        if not is_procedure(called):
            raise Fault(8, part.name.at)
        parameters, result = self.signature(called)
        codes = set()
        if len(given) != len(parameters):
            codes.add(6)
        elif not all(self.is_good(a, p) for a, p in zip(given, parameters)):
            codes.add(7)
        if bool(result) != is_value:
            codes.add(8)
        if codes:
            raise Fault(min(codes), part.name.at)
        self.calls[id(tree)] = called
        return Value(result, area=self.area_returned(called)) if is_value else None

    def signature(self, called):
        """That of a procedure or an entry."""
        if isinstance(called, faults.Item):
            return signature_of_entry(called.description)
        return signature_of_procedure(self.unit.blocks[id(called.tree)])

    def area_returned(self, called):
        """The area that the OFFSET in what a function returns names, or None."""
        if isinstance(called, faults.Item):
            return area_named(faults.Description(called.description.block, [], called.description.given["RETURNS"]))
        return self.result(self.unit.blocks[id(called.tree)]).area

    @staticmethod
    def is_good(given, parameter):
        if is_aggregate(parameter) or is_aggregate(given.description) or given.kind == AREA:
            return given.description[0] != "structure" and agrees(parameter, given.description)
        return converts(given, Value(parameter))

    @staticmethod
    def result(block):
        """The type of what a function returns."""
        return Value(result_of(block.outer, block.results[0]), area=area_named(faults.Description(block.outer, [], block.results[0])))

    def function(self, name, reference, arguments, block):
        at, many = reference.at, FUNCTIONS[name]
        if len(arguments) not in (many if isinstance(many, tuple) else (many,)):
            for argument in arguments:
                self.argument(argument, block)
            raise Fault(6, at)
        if name in ("LBOUND", "HBOUND"):
            return self.bound_of(at, arguments, block)
        if name in ("ALLOCATION", "ADDR"):
            return self.whole_in(at, name, arguments[0], block)
        if name in ("NULL", "EMPTY"):
            return Value((NULL, None) if name == "NULL" else (AREA, 0))
        kinds = [self.constant_in(argument, block) if (name, place) == ("DIVIDE", 2) else self.value(argument, block) for place, argument in enumerate(arguments)]
        if name == "DIVIDE":
            if kinds[2] is None or not 1 <= kinds[2] <= MOST_DIGITS or any(kind.kind != NUMBER for kind in kinds[:2]):
                raise Fault(13, at)
            return Value((NUMBER, kinds[2]))
        if name in ("POINTER", "OFFSET"):
            return self.located_in(at, name, *kinds)
        if name == "SUBSTR":
            if kinds[0].kind not in STRINGS or any(kind.kind != NUMBER for kind in kinds[1:]):
                raise Fault(13, at)
            return Value((kinds[0].kind, 1))
        if name in ("LENGTH", "INDEX"):
            if any(kind.kind not in STRINGS for kind in kinds) or len({kind.kind for kind in kinds}) > 1:
                raise Fault(13, at)
            return Value((NUMBER, 15))
        if any(kind.kind != NUMBER for kind in kinds):
            raise Fault(13, at)
        if name == "SIGN":
            return Value((NUMBER, 15))
        return Value((NUMBER, kinds[-1].precision if name == "MOD" else max(kind.precision for kind in kinds)))

    @staticmethod
    def located_in(at, name, locator, area):
        """POINTER takes an offset, OFFSET a pointer or NULL, both the reference of an area."""
        if locator.kind not in ({OFFSET} if name == "POINTER" else {POINTER, NULL}) or area.kind != AREA or not area.description[1]:
            raise Fault(13, at)
        return Value((POINTER if name == "POINTER" else OFFSET, None))

    def constant_in(self, tree, block):
        """The value of a bare decimal constant, or None, after the faults within."""
        if isinstance(tree, str) and tree.isdigit():
            return int(tree)
        self.argument(tree, block)
        return None

    def bound_of(self, at, arguments, block):
        array, number = arguments
        bounds = None
        if is_reference(array) and not self.is_call(array, block):
            description = self.variable(Reference(array), block)[2].description
            bounds = description[1] if description[0] == "array" else None
        else:
            self.value(array, block)
        place = self.constant_in(number, block)
        if bounds is None or place is None or not 1 <= place <= len(bounds):
            raise Fault(13, at)
        return Value((NUMBER, 15))

    def whole_in(self, at, name, tree, block):
        """ALLOCATION takes a whole CONTROLLED variable, ADDR a whole one that is no parameter."""
        if is_reference(tree) and not self.is_call(tree, block):
            item, written, _ = self.variable(Reference(tree), block)
            if name == "ALLOCATION" and is_stacked(item) and not written:
                return Value((NUMBER, 15))
            if name == "ADDR" and not (item.above or item.is_parameter or written):
                return Value((POINTER, None))
        else:
            self.value(tree, block)
        raise Fault(13, at)

    def is_call(self, tree, block):
        reference = Reference(tree)
        if reference.locator is not None:
            return False
        meant = self.meaning(reference, block)
        return meant in ("NULL", "EMPTY") or reference.parts[0].arguments is not None and not is_variable(meant)

    # statements

    def judged(self, judge, *given):
        """The one fault of a statement."""
        try:
            judge(*given)
        except Fault as fault:
            self.found.append((fault.at, f"T{fault.code}"))

    def procedure(self, tree):
        block = self.unit.blocks[id(tree)]
        self.statements(tree[3:], block, block)

    def statements(self, trees, block, procedure):
        for tree in trees:
            self.statement(tree[2] if tree[0] == "label" else tree, block, procedure)

    def statement(self, tree, block, procedure):
        kind, *parts = tree
        if kind == "procedure":
            self.procedure(tree)
        elif kind == "begin":
            self.statements(parts, self.unit.blocks[id(tree)], procedure)
        elif kind == "do":
            self.judged(self.group, tree, block)
            self.statements(parts[1:], block, procedure)
        elif kind == "if":
            self.judged(self.condition, parts[0], block)
            for part in parts[1:]:
                self.statement(part, block, procedure)
        elif kind == "on":
            self.statement(parts[1], block, procedure)
        elif kind == "assign":
            self.judged(self.assign, tree, block)
        elif kind == "put":
            self.judged(self.put, dict(parts).get("LIST", []), block)
        elif kind == "call":
            self.judged(self.call_statement, tree, block)
        elif kind == "return":
            self.judged(self.returned, tree, block, procedure)
        elif kind == "allocate":
            self.judged(self.allocate, parts, block)
        elif kind == "free":
            self.judged(self.free, parts, block)

    def allocate(self, allocations, block):
        for _, name, *given in allocations:
            kinds = {}
            for word in ("IN", "SET"):
                if word in dict(given):
                    kinds[word] = self.variable(Reference(dict(given)[word]), block, aggregates=False)[2]
            meant = self.meaning(Reference(name), block)
            if not (is_stacked(meant) and not given or is_based(meant) and self.is_placed(meant, **kinds)):
                raise Fault(11, name.at)

    def is_placed(self, root, IN=None, SET=None):
        """Whether a BASED variable is allocated by what IN and SET name."""
        return (not IN or IN.kind == AREA) and (leads(SET) if SET else self.is_led(root))

    def free(self, references, block):
        for tree in references:
            reference = Reference(tree)
            item, written, _ = self.variable(reference, block)
            if written or not (is_stacked(item) or is_based(item)):
                raise Fault(11, reference.at)

    def condition(self, tree, block):
        if self.value(tree, block).kind != BITS:
            raise Fault(4, first_token(tree))

    def number(self, tree, block):
        if self.value(tree, block).kind != NUMBER:
            raise Fault(4, first_token(tree))

    def put(self, items, block):
        for item in items:
            if self.value(item, block).kind in LOCATORS | {AREA}:
                raise Fault(14, first_token(item))

    def call_statement(self, tree, block):
        part = Part(tree[1])
        meant = self.meaning(Reference(tree[1]), block)
        self.call(meant, part, tree, block, False)

    def assign(self, tree, block):
        target = self.variable(Reference(tree[1]), block)[2]
        self.assigned(target, tree[2], tree.equals, block)

    def assigned(self, target, source, at, block):
        if is_aggregate(target.description):
            is_good = self.argument(source, block).description == target.description and not is_open(target.description)
        elif target.kind == AREA:
            is_good = self.value(source, block).kind == AREA and is_reference(source)
        else:
            is_good = converts(self.value(source, block), target)
        if not is_good:
            raise Fault(5, at)

    def returned(self, tree, block, procedure):
        value = self.value(tree[1], block) if len(tree) > 1 else None
        if (value is not None) != bool(procedure.results):
            raise Fault(9, tree.at)
        if value is not None and not converts(value, self.result(procedure)):
            raise Fault(5, first_token(tree[1]))

    def group(self, tree, block):
        specification = tree[1]
        if not specification:
            return
        if isinstance(specification[0], tuple) and specification[0][0] == "while":
            self.condition(specification[0][1], block)
            return
        variable, start, *rest = specification
        rest = dict(rest)
        begins = self.value(start, block)
        for word, limit in rest.items():
            if word in ("to", "by"):
                self.number(limit, block)
        reference = Reference(variable)
        _, written, target = self.variable(reference, block, aggregates=False)
        is_counted = target.kind == NUMBER or not ("to" in rest or "by" in rest)
        if written or reference.locator is not None or target.kind == AREA or not is_counted:
            raise Fault(12, reference.at)
        if not converts(begins, target):
            raise Fault(5, tree.equals)
        if "while" in rest:
            self.condition(rest["while"], block)
        if "repeat" in rest and not converts(self.value(rest["repeat"], block), target):
            raise Fault(5, first_token(rest["repeat"]))
