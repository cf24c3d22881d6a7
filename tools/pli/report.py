"""What is wrong, told where it is: places, lines with a caret, and notes, also on the types of operands."""
import re
from difflib import get_close_matches
from functools import cache, partial

from leftout import left_out
from outline import CHARACTER, NUMBER, OPENING, Outline, after_expression, closing, parts, spelled
from streams import tell

UNIT_FAULT = re.compile(r"(\S+) (\S+):(\d+) ([A-Z]\d+) (.+)")
LINK_FAULT = re.compile(r"(N[2-5]) (.+) (\S+) (\S+)")
FIRST_PLACES = {"N2": "the first main procedure is at", "N4": "first defined at", "N5": "does not agree with"}
OUTSIDE = {"ENTRY", "EXTERNAL", "EXT"}
LONGEST_LINE = 120
LEVELS = [{"|"}, {"&"}, {"=", "^=", "<", "<=", ">", ">="}, {"||"}, {"+", "-"}, {"*"}]
FAMILIES = {"CHARACTER": CHARACTER, "BIT": {"BIT"}, "FIXED BINARY": NUMBER, "POINTER": {"POINTER", "PTR"}}
FAMILIES |= {"OFFSET": {"OFFSET"}, "AREA": {"AREA"}}
CONSTANTS = {"number": "FIXED BINARY", "binary": "FIXED BINARY", "string": "CHARACTER", "bits": "BIT"}
NUMBERS = "ABS MAX MIN MOD DIVIDE SIGN LENGTH INDEX ALLOCATION LBOUND HBOUND".split()
NO_AREA = "OFFSET without an area"
BUILT_IN = dict.fromkeys(NUMBERS, "FIXED BINARY") | {"ADDR": "POINTER", "POINTER": "POINTER", "OFFSET": NO_AREA}
BUILT_IN |= {"NULL": "POINTER", "EMPTY": "AREA", "SUBSTR": ""}


def placed(member, line, column, message):
    """Tells a message at a place, with the line and a caret below it."""
    tell(f"{member}:{line}:{column}: {message}")
    text = re.sub(r"[^\t -~]", "?", b"".join(member.lines[line - 1 : line]).decode("latin-1"))
    if text and len(text) <= LONGEST_LINE:
        tell(text + "\n" + re.sub(r"[^\t]", " ", text[: column - 1]) + "^")


def limited(told, most):
    """Calls each of some, up to a number, and tells how many are left."""
    for each in told[:most]:
        each()
    if len(told) > most:
        tell(f"pli: {len(told) - most} more; --errors {len(told)} tells all")


class Report:
    """Tells the diagnostics of builds and the errors of runs of some members."""

    def __init__(self, members, most=20):
        self.members, self.most, self.unit = members, most, cache(partial(Outline, members))

    def sources(self):
        """The names of the units."""
        return sorted(name for name, member in self.members.items() if member.kind == "SOURCE")

    def diagnosed(self, lines, by_tokens):
        """Tells the diagnostics of a build, at the places that a build by tokens has; those of an include once."""
        first, second = ([UNIT_FAULT.fullmatch(line) for line in each] for each in (lines, by_tokens or []))
        agreed = [each and each.group(1, 4) for each in first] == [each and each.group(1, 4) for each in second]
        told = {}
        for number, fault in enumerate(first):
            if fault is None:
                told[number] = partial(self.tell_link, lines[number])
                continue
            item = self.members[second[number][2]].item(int(second[number][3])) if agreed else None
            own = number if item is None and fault[1] == fault[2] else None
            told.setdefault((*fault.group(2, 3, 4), item, own), partial(self.tell_fault, fault, item))
        limited(list(told.values()), self.most)

    def tell_fault(self, fault, item):
        """Tells a diagnostic of a unit, at a token, a directive or what is none where that is known."""
        unit, member, line, code, text = fault.groups()
        if item is None:
            tell(f"{self.members[member]}:{line}: {code} {text}")
            return
        placed(item.source, item.line, item.column, f"{code} {text}: {item.spelled}")
        outline = self.unit(unit)
        at = next((at for at, token in enumerate(outline.tokens) if token is item), -1)
        notes = [left_out(code, [item], 0)] if item.is_fault else [left_out(code, outline.tokens, at)]
        if code == "I1":
            kinds = "with .inc, .h, .pli or .pl1"
            notes = [f"no file {item.text} {kinds} beside {item.source}, and none in a folder of -I"]
        elif at >= 0 and code in NOTES and outline.starts:
            notes = [*NOTES[code](outline, code, at), *notes]
        chain = outline.chains[at] if at >= 0 else outline.last
        notes += [f"included by {directive.source}:{directive.line}" for directive in reversed(chain)]
        for note in filter(None, notes):
            tell(f"  note: {note}")

    def tell_link(self, line):
        """Tells a diagnostic of linking, at both places where it has two."""
        found = LINK_FAULT.fullmatch(line)
        if not found:
            note = "\n  note: a run begins in the procedure with OPTIONS(MAIN)" if line.startswith("N1") else ""
            tell(f"pli: {line}{note}")
            return
        code, text, name, unit = found.groups()
        units = {each: self.unit(each) for each in self.sources()}
        here = {each: outline.tokens[0] for each, outline in units.items()}
        firsts = [head for head in here.values() if head.text == name]
        if code == "N2":
            firsts = [here[each] for each, outline in units.items() if "MAIN" in outline.text_of(0).upper()]
        elif code != "N4":
            here = {each: outline.tokens[item.at] for each, outline in units.items()
                    for item in reversed(outline.declared.values()) if item.name == name and item.has(OUTSIDE)}
            firsts += here.values()
        placed(here[unit].source, here[unit].line, here[unit].column, f"{code} {text}: {name}")
        if code in FIRST_PLACES:
            tell(f"  note: {FIRST_PLACES[code]} {firsts[0].source}:{firsts[0].line}")

    def place_of(self, unit, number):
        """Where a statement begins, and its text."""
        outline = self.unit(unit)
        token = outline.tokens[outline.starts[number - 1]]
        return f"{token.source}:{token.line}", outline.text_of(number - 1)


def where(token, beside):
    """A place in words: a line of the same file, or a file and a line."""
    return f"line {token.line}" if beside.source is token.source else f"{token.source}:{token.line}"


def meant(outline, _, at):
    """A declared name that is nearly the one that is not."""
    names = {each.name for each in outline.declared.values()} | set(BUILT_IN)
    return [f"did you mean {near}" for near in get_close_matches(outline.tokens[at].text, sorted(names), 1, 0.7)]


def first_declared(outline, _, at):
    """Where a name that is declared twice was declared first."""
    own = outline.declared.get(at)
    same = [each for each in outline.declared.values() if own and each[1:4] == own[1:4]]
    first = next((each for each in same if each.kind != "parameter" or own.kind == "parameter"), own)
    return [f"first declared at {where(outline.tokens[first.at], outline.tokens[at])}"] if first is not own else []


def still_open(outline, code, at):
    """What an END does not close, or what has none."""
    number, token = outline.number_at(at), outline.tokens[at]
    each = outline.statements[number]
    around = each.around
    if code == "P9":
        around = around[:-1] if each.word == "END" else (*around, number) if each.word in OPENING else around
        if token.text != ";":
            yield f"; is missing behind {token.spelled}"
    if around:
        opening = outline.statements[around[-1]]
        yield f"{opening.word} of {where(outline.tokens[opening.at], token)} is still open"


def before(outline, code, at):
    """The statement before one that is none, or that does not end."""
    number, tokens = outline.number_at(at), outline.tokens
    if code == "P5":
        start = outline.starts[number]
        place = where(tokens[start], tokens[at])
        return [f"; is missing behind the statement before, of {place}: {spelled(tokens[start:at])}"]
    end, notes = after_expression(tokens, at), []
    if end and tokens[end].text != ";" and tokens[end].line > tokens[end - 1].line:
        notes.append(f"; may be missing behind {spelled(tokens[at:end])}")
    if number:
        place = where(tokens[outline.starts[number - 1]], tokens[at])
        notes.append(f"the statement before, of {place}: {outline.text_of(number - 1)}")
    return notes


def described(attributes, is_array=False):
    """The type that attributes say; nothing where they say none."""
    texts = [token.text for token in attributes]
    name = next((name for name, words in FAMILIES.items() if words & {*texts}), "")
    if name == "OFFSET" and ("OFFSET", "(") not in zip(texts, texts[1:]):
        name = NO_AREA
    return "array of " * is_array + name


def returned(head):
    """The type that RETURNS says among attributes."""
    return next((described(head[at:]) for at, token in enumerate(head) if token.text == "RETURNS"), "")


class Types:
    """Types in a statement, by tokens: `pairs` of operators and `=`, `calls` of names, `whole` of expressions."""

    def __init__(self, outline, number):
        self.outline, self.blocks = outline, outline.blocks_of(number)
        self.tokens = [*outline.tokens, *[outline.tokens[-1]._replace(kind="sign", text=";")] * 3]
        self.pairs, self.calls, self.whole = {}, {}, {}
        each = outline.statements[number]
        self.at = each.at
        if each.word == "=" or each.word == "DO" and self.tokens[self.at + 2].text in ("=", "(", "."):
            self.at += each.word == "DO"
            target, equals = self.reference(), self.at
            self.at += 1
            self.pairs[equals] = self.expression(), target
        self.at = max(self.at, each.at + 1)
        self.list(each.end)

    def expression(self, level=0):
        """The type of the expression that begins here, which is passed."""
        if level == len(LEVELS):
            return self.operand()
        first, left = self.at, self.expression(level + 1)
        while (sign := self.tokens[self.at].text) in LEVELS[level]:
            at = self.at
            self.at += 1
            self.pairs[at] = left, self.expression(level + 1)
            strings = "CHARACTER" if sign == "||" and "CHARACTER" in self.pairs[at] else "BIT"
            left = "FIXED BINARY" if sign in "+-*" else strings
        self.whole[first] = left
        return left

    def operand(self):
        """The type of an operand without operators, or with one before it."""
        at, (kind, text, *_) = self.at, self.tokens[self.at]
        if kind == "name":
            return self.reference()
        self.at += 1
        if text in ("+", "-", "^"):
            self.pairs[at] = (self.operand(),)
            return self.pairs[at][0]
        inside = self.expression() if text == "(" else CONSTANTS.get(kind, "")
        self.at += text == "(" and self.tokens[self.at].text == ")"
        return inside

    def reference(self):
        """The type of what a reference means; what stands before an arrow is passed."""
        sign = "->"
        while sign in (".", "->"):
            names, given, first = ([], [], self.at) if sign == "->" else (names, given, first)
            names.append(self.tokens[self.at].text)
            self.at += 1
            if self.tokens[self.at].text == "(":
                end = closing(self.tokens, self.at)
                self.at += 1
                given += self.list(end - 1)
                self.at = end
            sign = self.tokens[self.at].text
            self.at += sign in (".", "->")
        return self.meant(names, given, first)

    def list(self, end):
        """The types of expressions up to a place, parted by commas or else."""
        several = []
        while self.at < end:
            before = self.at
            several.append(self.expression())
            self.at = max(self.at, before + 1) + (self.tokens[self.at].text == ",")
        self.at = end
        return several

    def meant(self, names, given, at):
        """The type of a variable, an element, or what a call gives."""
        found = self.outline.meant(names, self.blocks)
        if found is None:
            return BUILT_IN.get(names[0]) or (given[0] if names[0] == "SUBSTR" and given else "")
        if found.kind == "PROCEDURE":
            number = self.outline.number_at(found.at)
            items = [self.outline.meant([each.name], [number]) for each in self.outline.declared.values()
                     if (each.block, each.kind) == (number, "parameter")]
            self.calls[at] = given, [described(item.attributes, item.array) for item in items if item]
            return returned(self.tokens[found.at : self.outline.statements[number].end])
        head = found.attributes
        if found.has({"ENTRY"}):
            place = next(place for place, token in enumerate(head) if token.text == "ENTRY") + 1
            listed = head[place:] and head[place].text == "("
            ends = parts(head, place + 1, closing(head, place) - 1) if listed else []
            self.calls[at] = given, [described(head[first:last], head[first].text == "(") for first, last in ends]
            return returned(head)
        is_array = not given and any(each.array for each in self.outline.owners(found))
        members = any(each.parent == found.at for each in self.outline.declared.values())
        return "structure" if members else described(head, is_array)


def told_types(outline, code, at):
    """What is to be said of the types at a fault T4, T5 or T7."""
    types = Types(outline, outline.number_at(at))
    kinds = types.pairs.get(at) or (types.whole.get(at, ""),)
    if code == "T7":
        given, wanted = (", ".join(kinds) for kinds in types.calls.get(at, ("", "")))
        return [f"argument {given}, parameter {wanted}"] if given and wanted else []
    if code == "T5" and len(kinds) == 1:
        around = (outline.statements[block] for block in types.blocks)
        each = next(each for each in around if each.word == "PROCEDURE")
        kinds = *kinds, returned(outline.tokens[each.at : each.end])
    if code == "T5" and kinds == ("AREA", "AREA"):
        return ["an area in parentheses is not assigned: write the variable alone"]
    if code == "T5":
        other = " of another description" if kinds[0] == kinds[1] else ""
        return [f"{kinds[0]} is assigned to {kinds[1]}{other}"] if all(kinds) else []
    return [f"operand{'s' * (len(kinds) > 1)} {' and '.join(kinds)}"] if all(kinds) else []


NOTES = {"A1": meant, "A2": first_declared, "P8": still_open, "P9": still_open, "P2": before, "P5": before}
NOTES |= dict.fromkeys(("T4", "T5", "T7"), told_types)
