"""grown.py: units grown from the grammar at random, for mutations.py.

Each method grows the part of the grammar that its first line gives, as a list of words. Where names are no keywords, each unit grown
reads; where they are keywords, it may read otherwise than it was grown, or not at all.
"""

PLAIN = "A B C X Y Z P Q S1 F_1".split()
KEYWORDS = """
    IF THEN ELSE DO WHILE TO BY REPEAT END PROC OPTIONS MAIN RETURNS BEGIN ON REVERT SIGNAL STOP ALLOCATE IN SET FREE CALL GOTO GO RETURN
    PUT SKIP LIST AREA FOFL DCL FIXED ENTRY INIT NULL BIT PROCEDURE DECLARE
""".split()
CONSTANTS = "0 1 5 007 2147483647 9223372036854775807 101B 0B 'A' '' 'IF' '10'B ''B 'F0'B4".split()
INFIXES = "+ + - * || & | = < > <= >= ^= ^< ~>".split()
PLAIN_ATTRIBUTES = "VARYING VAR POINTER PTR CONTROLLED CTL STATIC AUTOMATIC AUTO EXTERNAL EXT INTERNAL INT BUILTIN".split()
SIMPLE = "allocate call free go_to put of_condition stop null assignment assignment".split()
ANYWHERE = SIMPLE + "begin returned on do do if_statement if_statement".split()


class Grower:
    """Grows units; `numbers` gives the choices, `names` the names."""

    def __init__(self, numbers, names):
        self.numbers, self.names, self.in_unit = numbers, names, False

    def any(self, choices):
        return choices[self.numbers.below(len(choices))]

    def chance(self, of):
        return self.numbers.below(of) == 0

    def maybe(self, grow, of=3):
        return grow() if self.chance(of) else []

    def several(self, grow, least=1):
        """x {"," x}"""
        words = []
        for number in range(least + self.numbers.below(3) // (1 + self.numbers.below(2))):
            words += ([","] if number else []) + grow()
        return words

    def enclosed(self, words):
        return ["(", *words, ")"]

    def name(self):
        return [self.any(self.names)]

    def number(self):
        return [self.any(["1", "5", "0", "101B", "31"])]

    def expression(self, depth=2):
        """operand {operator operand}"""
        words = self.operand(depth)
        while self.chance(3):
            words += [self.any(INFIXES), *self.operand(depth)]
        return words

    def operand(self, depth):
        """("+" | "-" | "^") e7 | constant | "(" expr ")" | ref"""
        choice = self.numbers.below(10)
        if choice < 2:
            return [self.any("+ - ^ ~".split()), *self.operand(depth)]
        if choice < 4:
            return [self.any(CONSTANTS)]
        if choice < 6 and depth:
            return self.enclosed(self.expression(depth - 1))
        return self.reference(depth)

    def reference(self, depth=2):
        """[ref "->"] part {"." part}"""
        words = self.part(depth)
        while self.chance(5):
            words += [self.any(["->", "."]), *self.part(depth)]
        return words

    def part(self, depth=2):
        """name [args]"""
        if depth and self.chance(5):
            return self.name() + self.enclosed(self.several(lambda: self.expression(depth - 1), least=0))
        return self.name()

    def declaration(self):
        """DECLARE item {"," item} ";" """
        return [self.any(["DCL", "DECLARE"]), *self.several(self.item), ";"]

    def item(self):
        """[number] (name | "(" name {"," name} ")") [dims] {attr}"""
        names = self.enclosed(self.several(self.name)) if self.chance(4) else self.name()
        words = self.maybe(self.number, 5) + names + self.maybe(self.dimensions, 4)
        while not self.chance(3):
            words += self.attribute(2)
        return words

    def dimensions(self):
        """ "(" bound {"," bound} ")" """
        return self.enclosed(self.several(self.bound))

    def bound(self):
        """"*" | [int ":"] int"""
        if self.chance(6):
            return ["*"]
        return (self.integer() + [":"] if self.chance(2) else []) + self.integer()

    def integer(self):
        """["+" | "-"] number"""
        return self.maybe(lambda: [self.any(["+", "-"])]) + self.number()

    def attributes(self, depth):
        """attr {attr}"""
        words = self.attribute(depth)
        while self.chance(3):
            words += self.attribute(depth)
        return words

    def attribute(self, depth):
        """attr"""
        choice = self.numbers.below(10 if depth else 6)
        if choice < 3:
            return [self.any(PLAIN_ATTRIBUTES)]
        if choice < 5:
            zero = self.maybe(lambda: [",", "0"])
            return [self.any(["FIXED", "BINARY", "BIN"]), *self.maybe(lambda: self.enclosed(self.number() + zero))]
        if choice < 6:
            return [self.any(["CHARACTER", "CHAR", "BIT", "AREA"]), *self.maybe(lambda: self.enclosed(self.length()))]
        if choice < 7:
            return ["OFFSET", *self.maybe(lambda: self.enclosed(self.name()))]
        if choice < 8:
            return ["BASED", *self.maybe(lambda: self.enclosed(self.name() + self.maybe(lambda: [".", *self.name()])))]
        if choice < 9:
            return [self.any(["INIT", "INITIAL"]), *self.enclosed(self.several(self.initial))]
        return self.entry(depth)

    def length(self):
        """number | "*" """
        return ["*"] if self.chance(4) else self.number()

    def entry(self, depth):
        """ENTRY ["(" [pd {"," pd}] ")"] | RETURNS "(" attr {attr} ")" """
        if self.chance(2):
            return ["RETURNS", *self.enclosed(self.attributes(depth - 1))]
        return ["ENTRY", *self.maybe(lambda: self.enclosed(self.several(lambda: self.description(depth - 1), least=0)), 2)]

    def description(self, depth):
        """[dims] attr {attr}"""
        return self.maybe(self.dimensions) + self.attributes(depth)

    def initial(self):
        """["(" number ")"] int | string | NULL ["(" ")"]"""
        choice = self.numbers.below(4)
        if choice == 0:
            return [self.any(["'A'", "''", "'10'B"])]
        if choice == 1:
            return ["NULL", *self.maybe(lambda: ["(", ")"])]
        return self.maybe(lambda: self.enclosed(self.number())) + self.integer()

    def unit(self):
        """name ":" proc"""
        name = self.name()
        return name + [":"] + self.procedure(name, 3)

    def procedure(self, label, depth):
        """PROCEDURE ["(" name {"," name} ")"] {popt} ";" list END [name] ";" """
        in_unit, self.in_unit = self.in_unit, False
        words = [self.any(["PROC", "PROCEDURE"]), *self.maybe(lambda: self.enclosed(self.several(self.name)))]
        while self.chance(3):
            returns = ["RETURNS", *self.enclosed(self.attributes(1))]
            words += self.any([["OPTIONS", "(", "MAIN", ")"], returns, ["RECURSIVE"]])
        words += [";", *self.items(depth, group=False), *self.end(label)]
        self.in_unit = in_unit
        return words

    def end(self, label):
        """END [name] ";" """
        return ["END", *(label if label and self.chance(2) else []), ";"]

    def items(self, depth, group):
        """{decl | name ":" proc | [name ":"] stmt}"""
        words = []
        while not self.chance(4):
            label = self.maybe(self.name, 4)
            if self.chance(6):
                words += self.declaration()
            elif label and depth and not group and self.chance(2):
                words += label + [":"] + self.procedure(label, depth - 1)
            else:
                words += (label + [":"] if label else []) + self.statement(ANYWHERE, label, depth)
        return words

    def statement(self, kinds, label, depth):
        """stmt"""
        kind = self.any(kinds if depth else SIMPLE)
        if kind == "returned" and self.in_unit:
            kind = "stop"
        if kind in ("do", "begin", "on", "if_statement"):
            return getattr(self, kind)(label, depth - 1)
        return getattr(self, kind)()

    def begin(self, label, depth):
        """BEGIN ";" list END [name] ";" """
        return ["BEGIN", ";", *self.items(depth, group=False), *self.end(label)]

    def do(self, label, depth):
        """DO [spec] ";" list END [name] ";" """
        return ["DO", *self.maybe(self.specification, 1), ";", *self.items(depth, group=True), *self.end(label)]

    def specification(self):
        """WHILE "(" expr ")" | ref "=" expr [range] [WHILE "(" expr ")"]"""
        condition = ["WHILE", *self.enclosed(self.expression())]
        if self.chance(4):
            return condition
        words = self.any([["TO", "BY"], ["BY", "TO"], ["TO"], ["BY"], ["REPEAT"], []])
        limits = [word for limit in words for word in (limit, *self.expression())]
        return self.reference() + ["="] + self.expression() + limits + (condition if self.chance(3) else [])

    def if_statement(self, _label, depth):
        """IF expr THEN stmt [ELSE stmt]"""
        words = ["IF", *self.expression(), "THEN", *self.statement(ANYWHERE, [], depth)]
        return words + self.maybe(lambda: ["ELSE", *self.statement(ANYWHERE, [], depth)], 2)

    def on(self, _label, depth):
        """ON cond stmt"""
        in_unit, self.in_unit = self.in_unit, True
        words = ["ON", *self.condition(), *self.statement(SIMPLE + ["begin"], [], depth)]
        self.in_unit = in_unit
        return words

    def condition(self):
        """FIXEDOVERFLOW | ZERODIVIDE | AREA"""
        return [self.any(["FIXEDOVERFLOW", "FOFL", "ZERODIVIDE", "ZDIV", "AREA"])]

    def of_condition(self):
        """REVERT cond ";" | SIGNAL cond ";" """
        return [self.any(["REVERT", "SIGNAL"]), *self.condition(), ";"]

    def assignment(self):
        """ref "=" expr ";" """
        return self.reference() + ["="] + self.expression() + [";"]

    def null(self):
        """ ";" """
        return [";"]

    def stop(self):
        """STOP ";" """
        return ["STOP", ";"]

    def go_to(self):
        """GOTO name ";" """
        return self.any([["GOTO"], ["GO", "TO"]]) + self.name() + [";"]

    def call(self):
        """CALL name [args] ";" """
        return ["CALL", *self.part(), ";"]

    def free(self):
        """FREE ref {"," ref} ";" """
        return ["FREE", *self.several(self.reference), ";"]

    def returned(self):
        """RETURN ["(" expr ")"] ";" """
        return ["RETURN", *self.maybe(lambda: self.enclosed(self.expression()), 2), ";"]

    def allocate(self):
        """ALLOCATE alloc {"," alloc} ";" """
        return ["ALLOCATE", *self.several(self.allocation), ";"]

    def allocation(self):
        """name {IN "(" ref ")" | SET "(" ref ")"}"""
        options = self.any([["IN", "SET"], ["SET", "IN"], ["IN"], ["SET"], []])
        return self.name() + [word for option in options for word in (option, *self.enclosed(self.reference()))]

    def put(self):
        """PUT [SKIP] [LIST "(" expr {"," expr} ")"] ";" """
        listed = ["LIST", *self.enclosed(self.several(self.expression))]
        return ["PUT", *self.any([["SKIP"], listed, ["SKIP", *listed], [*listed, "SKIP"]]), ";"]
