#!/usr/bin/env python3
"""reader.py [FILE]: reads the text of one unit straight from the grammar, and prints its tree or its one fault P1 to P18.

It is written from the rules alone and shares nothing with the compiler, so that the two can be compared (mutations.py). Each method
reads the part of the grammar that its first line gives, beginning at the next token: `[x]` is optional, `{x}` stands any number of times,
capitals are keywords. `read(lines)` answers `("tree", tree)` or `(code, line, token)`, tokens counted from 0. Texts have no fault of
their tokens (X) and no directives: what is no token is a ValueError, and the lengths of tokens are not looked at.
"""
import re
import sys
from contextlib import contextmanager
from typing import NamedTuple

MOST_LEVELS = 64
MOST_OPERATORS = 1000

# The test for an assignment knows no limit, so it goes as deep as the text does.
sys.setrecursionlimit(4_000_000)

ABBREVIATIONS = {
    "DCL": "DECLARE",
    "PROC": "PROCEDURE",
    "BIN": "BINARY",
    "CHAR": "CHARACTER",
    "VAR": "VARYING",
    "INIT": "INITIAL",
    "PTR": "POINTER",
    "AUTO": "AUTOMATIC",
    "CTL": "CONTROLLED",
    "EXT": "EXTERNAL",
    "INT": "INTERNAL",
    "FOFL": "FIXEDOVERFLOW",
    "ZDIV": "ZERODIVIDE",
}

# What a statement's first keyword may be. ELSE and THEN begin none.
UNIT_STATEMENTS = {"ASSIGNMENT", "NULL", "ALLOCATE", "BEGIN", "CALL", "FREE", "GOTO", "PUT", "REVERT", "SIGNAL", "STOP"}
STATEMENTS = UNIT_STATEMENTS | {"DO", "IF", "ON", "RETURN"}
LISTED = STATEMENTS | {"DECLARE", "END", "PROCEDURE"}
KEYWORDS = LISTED - {"ASSIGNMENT", "NULL"}

CONDITIONS = {"FIXEDOVERFLOW", "ZERODIVIDE", "AREA"}
PLAIN_ATTRIBUTES = {"VARYING", "POINTER", "CONTROLLED", "STATIC", "AUTOMATIC", "EXTERNAL", "INTERNAL", "BUILTIN"}
ATTRIBUTES = PLAIN_ATTRIBUTES | set("FIXED BINARY CHARACTER BIT OFFSET AREA BASED ENTRY RETURNS INITIAL".split())

# Infix operators, the weakest first; those of one level associate to the left.
LEVELS = [{"|"}, {"&"}, {"=", "^=", "<", "<=", ">", ">="}, {"||"}, {"+", "-"}, {"*"}]
PREFIXES = {"+", "-", "^"}
NUMBERS = {"decimal", "binary"}
CONSTANTS = NUMBERS | {"characters", "bits"}


class Token(NamedTuple):
    kind: str
    text: str
    line: int


TOKEN = re.compile(
    r"""(?P<space>[ \t\n]+|/\*.*?\*/)
    | (?P<bits>'[0-9A-F]*'B[1-4]?)(?![A-Z0-9_$])
    | (?P<characters>'(?:[^'\n]|'')*')(?!B)
    | (?P<binary>[01]+B)(?![A-Z0-9_$.])
    | (?P<decimal>[0-9]+)(?![A-Z0-9_$.])
    | (?P<name>[A-Z][A-Z0-9_$]*)
    | (?P<sign>->|\|\||<=|>=|[\^~][=<>]|[-+*(),.;:=<>&|^~])""",
    re.VERBOSE | re.IGNORECASE | re.DOTALL,
)
SYNONYMS = {"~": "^", "~=": "^=", "^<": ">=", "~<": ">=", "^>": "<=", "~>": "<="}


def tokens_of(lines):
    """The tokens of a text, each with its line, counted from 1."""
    text, at, line, tokens = "\n".join(lines), 0, 1, []
    while at < len(text):
        found = TOKEN.match(text, at)
        if not found:
            raise ValueError(f"line {line}: no token")
        if found.lastgroup != "space":
            word = found.group()
            word = word if found.lastgroup == "characters" else word.upper()
            tokens.append(Token(found.lastgroup, SYNONYMS.get(word, word), line))
        line += found.group().count("\n")
        at = found.end()
    return tokens


class Fault(Exception):
    """The first fault, at a token."""

    def __init__(self, code, at):
        super().__init__(code, at)
        self.code, self.at = code, at


NOTHING = Token("end", "", 0)


class Tokens:
    """A place in a list of tokens, and what may stand there."""

    def __init__(self, tokens):
        self.tokens, self.at = tokens, 0
        self.semicolons = max((at for at, token in enumerate(tokens) if token.text == ";"), default=-1)

    def token(self, ahead=0):
        at = self.at + ahead
        return self.tokens[at] if at < len(self.tokens) else NOTHING

    def text(self, ahead=0):
        return self.token(ahead).text

    def keyword(self, ahead=0):
        """The next word, abbreviations written out."""
        return ABBREVIATIONS.get(self.text(ahead), self.text(ahead))

    def is_name(self, ahead=0):
        return self.token(ahead).kind == "name"

    def is_label(self):
        return self.is_name() and self.text(1) == ":"

    def is_number(self):
        return self.token().kind in NUMBERS

    def fault(self, code):
        """The fault of the next token; where the text ends, an END is missing."""
        if self.at >= len(self.tokens):
            raise Fault("P9", max(len(self.tokens) - 1, 0))
        raise Fault(code, self.at)

    def take(self):
        self.at += 1
        return self.tokens[self.at - 1].text

    def expect(self, text, code):
        if self.text() != text:
            self.fault(code)
        return self.take()

    def accept(self, text):
        """Whether the next token is this one, which is then passed."""
        if self.text() == text:
            self.at += 1
            return True
        return False

    def name(self):
        if not self.is_name():
            self.fault("P6")
        return self.take()

    def number(self):
        if not self.is_number():
            self.fault("P13")
        return self.take()

    def opening(self):
        self.expect("(", "P4")

    def closing(self):
        self.expect(")", "P4")

    def semicolon(self):
        self.expect(";", "P5")

    def one_or_more(self, read):
        """x {"," x}"""
        several = [read()]
        while self.accept(","):
            several.append(read())
        return several

    def enclosed(self, read):
        """ "(" x ")" """
        self.opening()
        inside = read()
        self.closing()
        return inside


class Expressions(Tokens):
    """Expressions and references, with the limits on nesting and operators."""

    def __init__(self, tokens):
        super().__init__(tokens)
        self.level, self.operators, self.limited = 0, 0, True

    @contextmanager
    def nested(self):
        """A level of nesting, which the next token opens."""
        if self.limited and self.level == MOST_LEVELS:
            self.fault("P16")
        self.level += 1
        yield
        self.level -= 1

    def operator(self):
        """An operator of the outermost expression that is being read."""
        if self.limited and self.operators == MOST_OPERATORS:
            self.fault("P16")
        self.operators += 1
        return self.take()

    def outermost(self):
        """An expression that no other contains."""
        self.operators = 0
        return self.expression()

    def expression(self, level=0):
        """e = e' {operator e'}, e' of the next level"""
        if level == len(LEVELS):
            return self.operand()
        left = self.expression(level + 1)
        while self.text() in LEVELS[level]:
            left = (self.operator(), left, self.expression(level + 1))
        return left

    def operand(self):
        """("+" | "-" | "^") e7 | constant | "(" expr ")" | ref"""
        if self.text() in PREFIXES:
            with self.nested():
                return (self.operator(), self.operand())
        if self.token().kind in CONSTANTS:
            return self.take()
        if self.text() == "(":
            with self.nested():
                return ("parentheses", self.enclosed(self.expression))
        if self.is_name():
            return self.reference(self.expression)
        self.fault("P3")

    def begins_expression(self):
        return self.text() in PREFIXES or self.text() == "(" or self.is_name() or self.token().kind in CONSTANTS

    def reference(self, argument):
        """[ref "->"] part {"." part}"""
        parts = [self.part(argument)]
        while self.text() in ("->", "."):
            parts += [self.take(), self.part(argument)]
        return parts[0] if len(parts) == 1 else ("reference", *parts)

    def part(self, argument):
        """name [args]"""
        name = self.name()
        return (name, self.arguments(argument)) if self.text() == "(" else name

    def arguments(self, argument):
        """ "(" [expr {"," expr}] ")" """
        with self.nested():
            self.opening()
            several = self.one_or_more(argument) if self.begins_expression() else []
            self.closing()
        return several

    def outer_reference(self):
        """A reference in no expression: each of its subscripts is outermost."""
        return self.reference(self.outermost)

    def is_assignment(self):
        """Whether the tokens up to the next semicolon are a reference, `=` and one expression, whatever their number and depth."""
        before = self.at, self.level, self.operators
        self.limited = False
        try:
            self.outer_reference()
            self.expect("=", "P2")
            self.outermost()
            return self.text() == ";"
        except Fault:
            return False
        finally:
            self.at, self.level, self.operators = before
            self.limited = True


class Declarations(Expressions):
    """What stands after DECLARE, and attributes."""

    def declaration(self):
        """DECLARE item {"," item} ";" """
        self.take()
        items = self.one_or_more(self.item)
        self.semicolon()
        return ("declare", *items)

    def item(self):
        """[number] (name | "(" name {"," name} ")") [dims] {attr}"""
        level = [self.take()] if self.is_number() else []
        if self.text() == "(":
            names = self.enclosed(lambda: self.one_or_more(self.name))
        else:
            names = [self.name()]
        return ("item", *level, names, *self.dimensions(), *self.attributes())

    def dimensions(self):
        """["(" bound {"," bound} ")"]"""
        return [("dimensions", *self.enclosed(lambda: self.one_or_more(self.bound)))] if self.text() == "(" else []

    def bound(self):
        """"*" | [int ":"] int"""
        if self.text() == "*":
            return self.take()
        first = self.integer()
        return (first, ":", self.integer()) if self.accept(":") else first

    def integer(self):
        """["+" | "-"] number"""
        return self.take() + self.number() if self.text() in ("+", "-") else self.number()

    def attributes(self):
        """{attr}"""
        several = []
        while self.keyword() in ATTRIBUTES:
            several.append(self.attribute())
        return several

    def some_attributes(self):
        """attr {attr}"""
        if self.keyword() not in ATTRIBUTES:
            self.fault("P12")
        return self.attributes()

    def attribute(self):
        """One attribute, at whose keyword the place is."""
        word = self.keyword()
        self.take()
        if word in PLAIN_ATTRIBUTES:
            return word
        if word == "RETURNS":
            return (word, *self.enclosed(self.some_attributes))
        if word == "INITIAL":
            return (word, *self.enclosed(lambda: self.one_or_more(self.initial)))
        if self.text() != "(":
            return word
        if word == "ENTRY":
            return (word, "(", *self.enclosed(self.descriptions))
        return (word, self.enclosed(self.inside(word)))

    def inside(self, word):
        """What may stand in the parentheses after an attribute."""
        if word in ("FIXED", "BINARY"):
            return self.precision
        return {"OFFSET": self.name, "BASED": self.qualified}.get(word, self.length)

    def length(self):
        """number | "*" """
        return self.take() if self.text() == "*" else self.number()

    def precision(self):
        """number ["," "0"]"""
        number = self.number()
        if self.accept(","):
            self.expect("0", "P13")
        return number

    def qualified(self):
        """name {"." name}"""
        names = self.name()
        while self.accept("."):
            names += "." + self.name()
        return names

    def descriptions(self):
        """[pd {"," pd}]"""
        begins = self.text() == "(" or self.keyword() in ATTRIBUTES
        return self.one_or_more(self.description) if begins else []

    def description(self):
        """[dims] attr {attr}"""
        return ("parameter", *self.dimensions(), *self.some_attributes())

    def initial(self):
        """["(" number ")"] int | string | NULL ["(" ")"]"""
        if self.text() == "(":
            return ("times", self.enclosed(self.number), self.integer())
        if self.token().kind in ("characters", "bits"):
            return self.take()
        if self.accept("NULL"):
            if self.accept("("):
                self.closing()
            return "NULL"
        return self.integer()


class Statements(Declarations):
    """Statements, groups, blocks and the unit."""

    def __init__(self, tokens):
        super().__init__(tokens)
        self.in_unit = False

    def unit(self):
        """name ":" proc, and nothing after it"""
        for ahead, stands in enumerate([self.is_name(), self.text(1) == ":", self.keyword(2) == "PROCEDURE"]):
            if not stands and (ahead < len(self.tokens) or ahead == 0):
                raise Fault("P1", ahead)
        self.begin_statement()
        label = self.label()
        tree = self.procedure(label)
        if self.at < len(self.tokens):
            self.fault("P10")
        return tree

    def begin_statement(self):
        """Where a statement begins there is a semicolon ahead."""
        if self.at > self.semicolons:
            raise Fault("P9", len(self.tokens) - 1)

    def label(self):
        """[name ":"]"""
        if not self.is_label():
            return None
        label = self.take()
        self.take()
        return label

    def statement_kind(self):
        """What the statement is that begins here."""
        if self.is_assignment():
            return "ASSIGNMENT"
        if self.text() == ";":
            return "NULL"
        if self.text() == "GO" and self.text(1) == "TO":
            return "GOTO"
        if self.keyword() not in KEYWORDS:
            self.fault("P2")
        return self.keyword()

    def items_of(self, group):
        """{decl | name ":" proc | [name ":"] stmt}, in a group without procedures, up to an END without a label"""
        items = []
        while True:
            self.begin_statement()
            start = self.at
            label = self.label()
            if label and self.is_label():
                self.fault("P14")
            kind = self.statement_kind()
            if label and kind in ("DECLARE", "END"):
                raise Fault("P14", start)
            if kind == "END":
                return items
            if kind == "PROCEDURE" and group:
                raise Fault("P17", start)
            if kind == "PROCEDURE" and not label:
                self.fault("P14")
            items.append(self.one(kind, label))

    def unlabelled(self, allowed):
        """stmt, after THEN, ELSE or ON"""
        self.begin_statement()
        if self.is_label():
            self.fault("P14")
        kind = self.statement_kind()
        if kind not in allowed:
            self.fault("P17")
        return self.one(kind, None)

    def one(self, kind, label):
        """A statement of this kind, after its label."""
        readers = {
            "ASSIGNMENT": self.assignment,
            "NULL": self.null,
            "ALLOCATE": self.allocate,
            "CALL": self.call,
            "DECLARE": self.declaration,
            "FREE": self.free,
            "GOTO": self.go_to,
            "IF": self.if_statement,
            "ON": self.on,
            "PUT": self.put,
            "RETURN": self.returned,
            "REVERT": self.of_condition,
            "SIGNAL": self.of_condition,
            "STOP": self.stop,
        }
        labelled = {"PROCEDURE": self.procedure, "BEGIN": self.begin, "DO": self.do}
        tree = labelled[kind](label) if kind in labelled else readers[kind]()
        return ("label", label, tree) if label else tree

    def end(self, label):
        """END [name] ";", the name the label of what it ends"""
        self.take()
        if self.is_name():
            if self.text() != label:
                self.fault("P8")
            self.take()
        self.semicolon()

    def procedure(self, label):
        """PROCEDURE ["(" name {"," name} ")"] {popt} ";" list END [name] ";" """
        in_unit, self.in_unit = self.in_unit, False
        with self.nested():
            self.take()
            parameters = self.enclosed(lambda: self.one_or_more(self.name)) if self.text() == "(" else []
            options = self.procedure_options()
            self.semicolon()
            items = self.items_of(group=False)
            self.end(label)
        self.in_unit = in_unit
        return ("procedure", parameters, options, *items)

    def procedure_options(self):
        """{OPTIONS "(" MAIN ")" | RETURNS "(" attr {attr} ")" | RECURSIVE}"""
        options = []
        while True:
            if self.accept("OPTIONS"):
                options.append(("OPTIONS", self.enclosed(lambda: self.expect("MAIN", "P18"))))
            elif self.accept("RETURNS"):
                options.append(("RETURNS", *self.enclosed(self.some_attributes)))
            elif self.accept("RECURSIVE"):
                options.append("RECURSIVE")
            else:
                return options

    def begin(self, label):
        """BEGIN ";" list END [name] ";" """
        with self.nested():
            self.take()
            self.semicolon()
            items = self.items_of(group=False)
            self.end(label)
        return ("begin", *items)

    def do(self, label):
        """DO [spec] ";" list END [name] ";" """
        with self.nested():
            self.take()
            specification = self.specification()
            self.semicolon()
            items = self.items_of(group=True)
            self.end(label)
        return ("do", specification, *items)

    def specification(self):
        """[WHILE "(" expr ")" | ref "=" expr [range] [WHILE "(" expr ")"]]"""
        if self.text() == "WHILE" and self.text(1) == "(":
            return self.condition_of_while()
        if not self.is_name():
            return []
        variable = self.outer_reference()
        self.expect("=", "P11")
        return [variable, self.outermost(), *self.span(), *self.condition_of_while()]

    def condition_of_while(self):
        """[WHILE "(" expr ")"]"""
        return [("while", self.enclosed(self.outermost))] if self.accept("WHILE") else []

    def span(self):
        """[TO expr [BY expr] | BY expr [TO expr] | REPEAT expr]"""
        if self.accept("TO"):
            return [("to", self.outermost()), *self.after("BY")]
        if self.accept("BY"):
            return [("by", self.outermost()), *self.after("TO")]
        return self.after("REPEAT")

    def after(self, word):
        """[word expr]"""
        return [(word.lower(), self.outermost())] if self.accept(word) else []

    def if_statement(self):
        """IF expr THEN stmt [ELSE stmt]"""
        with self.nested():
            self.take()
            condition = self.outermost()
            self.expect("THEN", "P7")
            then = self.unlabelled(STATEMENTS)
            if not self.stands_else():
                return ("if", condition, then)
            self.take()
            return ("if", condition, then, self.unlabelled(STATEMENTS))

    def stands_else(self):
        """Whether ELSE stands here, and neither as a label nor in an assignment."""
        return self.text() == "ELSE" and not self.is_label() and not self.is_assignment()

    def on(self):
        """ON cond stmt"""
        with self.nested():
            self.take()
            condition = self.condition()
            in_unit, self.in_unit = self.in_unit, True
            unit = self.unlabelled(UNIT_STATEMENTS)
            self.in_unit = in_unit
        return ("on", condition, unit)

    def condition(self):
        """FIXEDOVERFLOW | ZERODIVIDE | AREA"""
        word = self.keyword()
        if word not in CONDITIONS:
            self.fault("P15")
        self.take()
        return word

    def of_condition(self):
        """REVERT cond ";" | SIGNAL cond ";" """
        word = self.take().lower()
        condition = self.condition()
        self.semicolon()
        return (word, condition)

    def assignment(self):
        """ref "=" expr ";" """
        target = self.outer_reference()
        self.take()
        value = self.outermost()
        self.semicolon()
        return ("assign", target, value)

    def null(self):
        """ ";" """
        self.take()
        return ("null",)

    def stop(self):
        """STOP ";" """
        self.take()
        self.semicolon()
        return ("stop",)

    def go_to(self):
        """GOTO name ";", in one word or two"""
        self.at += 1 if self.text() == "GOTO" else 2
        name = self.name()
        self.semicolon()
        return ("goto", name)

    def call(self):
        """CALL name [args] ";" """
        self.take()
        called = self.part(self.outermost)
        self.semicolon()
        return ("call", called)

    def free(self):
        """FREE ref {"," ref} ";" """
        self.take()
        references = self.one_or_more(self.outer_reference)
        self.semicolon()
        return ("free", *references)

    def returned(self):
        """RETURN ["(" expr ")"] ";", nowhere in an ON-unit"""
        if self.in_unit:
            self.fault("P17")
        self.take()
        value = [self.enclosed(self.outermost)] if self.text() == "(" else []
        self.semicolon()
        return ("return", *value)

    def allocate(self):
        """ALLOCATE alloc {"," alloc} ";" """
        self.take()
        allocations = self.one_or_more(self.allocation)
        self.semicolon()
        return ("allocate", *allocations)

    def allocation(self):
        """name {IN "(" ref ")" | SET "(" ref ")"}, each once"""
        name, given = self.name(), {}
        while self.text() in ("IN", "SET"):
            if self.text() in given:
                self.fault("P18")
            word = self.take()
            given[word] = self.enclosed(self.outer_reference)
        return ("allocation", name, *given.items())

    def put(self):
        """PUT [SKIP] [LIST "(" expr {"," expr} ")"] ";", one of them at least, in either order"""
        self.take()
        given = {}
        while self.text() in ("SKIP", "LIST"):
            if self.text() in given:
                self.fault("P18")
            word = self.take()
            given[word] = self.enclosed(lambda: self.one_or_more(self.outermost)) if word == "LIST" else []
        if not given:
            self.fault("P18")
        self.semicolon()
        return ("put", *given.items())


def read(lines):
    """`("tree", tree)`, or the one fault of a unit's text: its code, its line, and its token, counted from 0."""
    tokens = tokens_of(lines)
    try:
        return "tree", ("unit", tokens and tokens[0].text, Statements(tokens).unit())
    except Fault as fault:
        return fault.code, tokens[fault.at].line if tokens else 1, fault.at


def show(tree):
    """A tree on lines: what is short stands on one, longer parts below each other."""
    if not isinstance(tree, (tuple, list)):
        return str(tree)
    parts = [show(part) for part in tree]
    short = "(" + " ".join(parts) + ")"
    if len(short) <= 100 and "\n" not in short:
        return short
    return "(" + "\n".join(parts).replace("\n", "\n  ") + ")"


def main():
    text = open(sys.argv[1]).read() if sys.argv[1:] else sys.stdin.read()
    answer = read(text.split("\n"))
    if answer[0] == "tree":
        print(show(answer[1]))
    else:
        code, line, token = answer
        print(f"{code}, line {line}, token {token}")


if __name__ == "__main__":
    main()
