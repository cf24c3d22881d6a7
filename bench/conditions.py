"""conditions.py: what programs grown at random have of ON, REVERT and SIGNAL, for runs.py and units.py.

`Conditions` stands before a grower of runs.py or units.py. Its programs raise conditions in each form of expression and statement; ON-units
stand in procedures, functions, BEGIN blocks and other ON-units, return, raise again, and are left by GOTO, an error or STOP. A GOTO leads to
any label that it reaches, of lists far outside too. Blocks have procedures and functions of their own, whose statements are grown, and which
call themselves some times.
"""
from typing import NamedTuple

NAMES = ["FOFL", "FIXEDOVERFLOW", "ZDIV", "ZERODIVIDE", "AREA"]
STORAGE = ["allocate", "allocate_within", "free", "assign_area", "set_offset"]
PARAMETER = "DCL Z_ FIXED BIN ( 15 ) , TIMES_ FIXED BIN ( 15 ) STATIC ; TIMES_ = TIMES_ + 1 ; IF TIMES_ >".split()


class Around(NamedTuple):
    """What stands round a statement: a list of a `block` or a `group`, with its label; a `unit`, in whose block its ON stands; a `procedure` or
    a `function`."""

    kind: str
    block: int
    label: str = ""


class Conditions:
    """A grower's programs with conditions. `routines` are the names of the procedures and functions that are known, which end in `_`; of so many
    external procedures as `bare` says one begins without ON-units."""

    bare = 8

    def __init__(self, numbers, slips):
        super().__init__(numbers, slips)
        self.begin_unit()

    # units

    def begin_unit(self):
        self.around, self.place, self.blocks, self.routines, self.made = [Around("block", 0, "AWAY")], ("block", 0), 0, [], 0

    def unit(self):
        return self.whole(super().unit)

    def procedure(self, name, is_guarded):
        return self.whole(lambda: super(Conditions, self).procedure(name, is_guarded))

    def whole(self, grow):
        """An external procedure, whose first list has the label L1."""
        self.begin_unit()
        return self.with_routines(grow, 1 + self.below(2), "L1")

    def beginning(self):
        """Some ON statements, and what raises conditions after them."""
        return [*self.units(), *self.stirred(4)]

    def units(self):
        """ON for each condition, or for some."""
        conditions = NAMES[::2] if self.below(self.bare) else []
        return [word for condition in conditions if self.below(4) for word in self.on(condition)]

    def stirred(self, many):
        """Some statements that call procedures or raise conditions."""
        forms = [self.call_of_routine, self.call_of_routine, self.raised, self.raised, self.raised, self.signal]
        return [word for _ in range(1 + self.below(many)) for word in self.chosen(*forms)()]

    def via(self):
        return self.within("block", super().via)

    # lists and blocks

    def within(self, kind, grow):
        """What grows in a group, or in a block more."""
        before = self.place
        self.blocks += kind == "block"
        self.place = kind, self.blocks if kind == "block" else before[1]
        words = grow()
        self.place = before
        return words

    def list(self, many):
        self.around.append(Around(*self.place, f"L{self.labels + 1}"))
        is_first = not self.labels
        words = super().list(many)
        words = [*self.beginning(), *words] if is_first else words
        self.around.pop()
        return words

    def group(self):
        return self.within("group", super().group)

    def begin(self):
        many = self.chosen(1, 1, 2) if self.below(4) == 0 else 0
        return self.within("block", lambda: self.with_routines(super(Conditions, self).begin, many, f"L{self.labels + 1}"))

    # procedures

    def with_routines(self, grow, many, label):
        """A block that calls some procedures and functions of its own, which stand at its end; its list has that label."""
        known = len(self.routines)
        for _ in range(many):
            self.made += 1
            self.routines.append(f"{self.chosen('P', 'P', 'F')}{self.made}_")
        words = grow()
        end = len(words) - words[::-1].index("END") - 1
        self.around.append(Around("block", self.place[1], label))
        for name in self.routines[known:]:
            words[end:end] = self.within("block", lambda name=name: self.routine(name, "function" if name[0] == "F" else "procedure"))
        self.around.pop()
        del self.routines[known:]
        return words

    def routine(self, name, kind):
        """A procedure or a function, which comes to its end at once when it has been called some times."""
        returns, value = ("RETURNS ( FIXED BIN ( 15 ) )".split(), "( Z_ )".split()) if kind == "function" else ([], [])
        self.level += 1
        self.around.append(Around(kind, self.place[1]))
        words = [*(self.on(self.condition()) if self.below(2) else []), *self.stirred(2), *self.list(2)]
        words += ["RETURN", "(", *self.expression("number", 2), ")", ";"] if kind == "function" and self.below(8) else []
        self.around.pop()
        self.level -= 1
        heading = [name, ":", "PROC", "(", "Z_", ")", *returns, ";", *PARAMETER, str(1 + self.below(4)), "THEN", "RETURN", *value, ";"]
        return [*heading, *words, "END", *self.chosen([], [name]), ";"]

    def called(self, name):
        if not name.endswith("_"):
            return super().called(name)
        return [name, "(", *self.chosen(["1"], ["I"], ["L"], ["(", "N", ")"], self.expression("number", 1)), ")"]

    def leaves(self):
        """The innermost of procedures, functions and ON-units round a statement, or none."""
        return next((around.kind for around in reversed(self.around) if around.kind in ("procedure", "function", "unit")), None)

    def ending(self):
        if self.leaves() == "function":
            return ["RETURN", "(", *self.expression("number", 1), ")", ";"]
        return ["STOP", ";"] if self.leaves() == "unit" else super().ending() if self.leaves() is None else self.chosen(["STOP", ";"], ["RETURN", ";"])

    def returned(self):
        return super().returned() if self.leaves() != "unit" or self.below(8) == 0 else self.null()

    # expressions, with fewer errors than those of runs.py, so that programs go on for longer

    def expression(self, kind, depth=3):
        words = super().expression(kind, depth)
        return ["(", *words, ")"] if len(words) > 1 and words[0] != "(" and not self.slips and self.below(8) else words

    def small_number(self):
        return self.chosen(["1"], ["1"], ["0"]) if self.below(4) else super().small_number()

    def variable(self, kind):
        if kind == "number" and self.below(8) == 0 and any(around.kind in ("procedure", "function") for around in self.around):
            return ["Z_"]
        return super().variable(kind)

    def seldom(self, many):
        """Now and then, and less often in an ON-unit, which else raises conditions without end."""
        return self.below(many * 6 if any(around.kind == "unit" for around in self.around) else many) == 0

    def subscript(self, high):
        if self.seldom(16):
            return [*self.raising(), "+", "1"]
        return [str(1 + self.below(high))] if self.below(4) else super().subscript(high)

    def leaf(self, kind):
        if kind == "number" and self.seldom(6):
            return self.raising()
        functions = [name for name in self.routines if name[0] == "F"]
        if kind == "number" and functions and self.below(8) == 0:
            return self.called(self.chosen(*functions))
        return super().leaf(kind)

    def raising(self):
        """What raises a condition, or may do so."""
        number = self.chosen(["1"], ["I"], ["J"], ["N"], ["L"], ["Z_"] if self.leaves() in ("procedure", "function") else ["K"])
        return self.chosen(
            ["(", "9223372036854775807", "+", *number, ")"],
            ["(", *number, "*", "9223372036854775807", ")"],
            ["(", "-", "9223372036854775807", "-", *number, ")"],
            ["MOD", "(", *number, ",", self.chosen("0", "K", "L"), ")"],
            ["DIVIDE", "(", *number, ",", self.chosen("0", "J", "L"), ",", self.chosen("3", "15", "31", "63"), ")"],
            ["DIVIDE", "(", "30000", ",", *number, ",", self.chosen("3", "7"), ")"],
        )

    # statements

    def statement(self, label):
        return self.of_conditions() if self.below(4) == 0 else super().statement(label)

    def simple(self):
        return self.chosen(lambda: self.on(self.condition()), self.signal, self.revert)() if self.below(6) == 0 else super().simple()

    def of_conditions(self):
        forms = [lambda: self.on(self.condition())] * 3 + [self.signal, self.signal, self.revert, self.overflow, self.overflow, self.jump]
        forms += [self.call_of_routine] * 2 * bool(self.routines)
        return self.chosen(*forms)()

    def condition(self):
        return self.chosen(*NAMES)

    def signal(self):
        return ["SIGNAL", self.condition(), ";"]

    def revert(self):
        return ["REVERT", self.condition(), ";"]

    def overflow(self):
        """An assignment of what may be too large."""
        return ["L", "=", *self.expression("number", 1), ";"]

    def raised(self):
        """A statement that raises a condition in some form."""
        if hasattr(self, "allocate_within") and self.below(3) == 0:
            return [word for _ in range(2 + self.below(4)) for word in self.allocate_within()]
        e = self.raising
        return self.chosen(
            lambda: ["N", "=", *e(), "+", *e(), ";"],
            lambda: ["A", "(", *e(), "+", "1", ")", "=", *e(), ";"],
            lambda: ["PUT", "LIST", "(", *e(), ",", "N", ",", *e(), ")", ";"],
            lambda: ["IF", *e(), self.comparison(), *e(), "THEN", *self.simple(), "ELSE", *self.simple()],
            lambda: ["DO", "I", "=", *e(), "TO", *e(), "BY", *e(), ";", *self.put(), "IF", "I", ">", "N", "THEN", "GOTO", self.reached(), ";", "END", ";"],
            lambda: ["DO", "J", "=", "1", "TO", "3", "WHILE", "(", *e(), "<", "J", ")", ";", *self.simple(), "END", ";"],
            lambda: ["DO", "L", "=", "6", "TO", "7", ";", *self.put(), "IF", "N", ">", "L", "THEN", "GOTO", self.reached(), ";", "N", "=", "N", "+", "1", ";", "END", ";"],
            lambda: ["DO", "K", "=", "1", "REPEAT", *e(), "WHILE", "(", "K", "^=", "0", ")", ";", *self.simple(), "END", ";"],
            lambda: ["CALL", *self.chosen(["ADD1", "("], ["FILL", "(", "A", ","], ["DOWN", "("]), *e(), ")", ";"],
            lambda: ["V", "=", "CAT", "(", *e(), ",", "SUBSTR", "(", "C", ",", "1", ",", *e(), ")", ")", ";"],
            lambda: ["PUT", "LIST", "(", "FACT", "(", *e(), ")", ",", "MAX", "(", *e(), ",", "I", ")", ")", ";"],
            lambda: ["T", "(", *e(), "+", "1", ")", ".", "P", "=", *self.expression("number", 1), ";"],
        )()

    def reached(self):
        """A label to which GOTO leads here; with a slip any label of the lists around."""
        labels = []
        for place, around in enumerate(self.around):
            left = {inner.block for inner in self.around[place:] if inner.kind == "unit"}
            if around.label and (around.kind == "block" or around.block not in left or self.slips and self.below(2)):
                labels.append(around.label)
        return self.chosen(*labels)

    def jump(self):
        return ["IF", *self.expression("bits", 1), "THEN", "GOTO", self.reached(), ";"]

    def call_of_routine(self):
        name = self.chosen(*self.routines)
        return ["CALL", *self.called(name), ";"] if name[0] == "P" else ["PUT", "LIST", "(", *self.called(name), ")", ";"]

    def on(self, condition):
        """ON, with each statement that may be a unit."""
        self.around.append(Around("unit", self.place[1]))
        forms = [self.assign, self.assign, self.put, self.put, self.call, self.null, self.revert, self.overflow]
        forms += [self.signal] * (self.below(4) == 0) + [lambda: ["GOTO", self.reached(), ";"]] * 3
        forms += [self.begin] * 4 * (self.level < 3) + [self.call_of_routine] * bool(self.routines)
        forms += [getattr(self, name) for name in STORAGE if hasattr(self, name)]
        forms += [self.ending] * (self.below(8) == 0)
        words = ["ON", condition, *self.chosen(*forms)()]
        self.around.pop()
        return words
