#!/usr/bin/env python3
"""units.py [PROGRAM [ARGUMENT..]]: compares the workbench with meaning.py on programs of several units.

It prints how many programs agreed, and of those that did not the ten shortest, each with what was expected and what was answered:
  150 programs of two to four units grown at random, at each number of steps from 0 to 40, and at 5,000;
  300 of which some have other descriptions, values, names or main procedures than they should: what linking finds, and a run;
  200 whose expressions have operands, arguments and targets of wrong types now and then: all their diagnostics;
  150 with variables that are CONTROLLED in most units, and EXTERNAL in most of these;
  150 with an area and offsets in it, EXTERNAL in most units;
  150 with conditions and ON-units (conditions.py) besides all these;
  150 with `*` for the length and bounds of parameters, and 100 such with changes where units meet.
The units call each other, both ways, and the main procedure; each has variables of the same names, of which most are EXTERNAL and others
STATIC or AUTOMATIC in some units. The routines of runs.py are external procedures, whose bodies are grown, or internal ones in every unit.
All is the same every time. Without PROGRAM meaning.py is run alone.
"""
import sys

import mutations
import runs
from compared import compare
from conditions import Conditions

PROGRAMS, LINKED, FAULTY, STARRED = 150, 300, 200, 100
SEED = 19760809
FEW_STEPS, MANY_STEPS = 40, 5000

# The variables of each unit, as runs.py has them; @ stands where words of storage may.
DECLARED = """
    I @ FIXED BIN ( 15 ) | J @ FIXED BIN ( 15 ) INIT ( 2 ) | K @ FIXED BIN ( 15 ) | N @ FIXED BIN ( 31 ) INIT ( 5 ) | L @ FIXED BIN ( 3 )
    WIDE @ FIXED BIN ( 63 ) INIT ( 4294967295 )
    C @ CHAR ( 4 ) INIT ( 'ABCD' ) | V CHAR ( 6 ) VAR @ INIT ( 'XY' ) | D CHAR ( 3 ) @ | B BIT ( 4 ) @ INIT ( '1010'B ) | F BIT INIT ( '1'B ) @
    A ( 3 ) FIXED BIN ( 15 ) @ INIT ( 1 , - 2 , 3 ) | M ( 0 : 1 , 2 ) @ CHAR ( 2 ) INIT ( 'P' , 'QR' , 'QR' ) | A2 ( 3 ) @ FIXED BIN ( 15 )
    1 S @ , 2 X FIXED BIN ( 31 ) INIT ( 7 ) , 2 Y ( 2 ) BIT ( 3 ) | 1 S2 @ , 2 X1 FIXED BIN ( 31 ) , 2 Y1 ( 2 ) BIT ( 3 ) INIT ( '11'B )
    1 T ( 2 ) @ , 2 P FIXED BIN ( 7 ) INIT ( 1 , 2 ) , 2 Q ( 2 ) CHAR ( 1 ) INIT ( 'A' , 'B' , 'C' )
""".replace("\n", "|").split("|")
DECLARED = [declared.split() for declared in DECLARED if declared.strip()]

# The routines: the descriptions of their parameters, which are Z and W, and of the result.
SIGNATURES = {
    "ADD1": (["FIXED BIN ( 15 )"], None),
    "CAT": (["CHAR ( 4 )", "CHAR ( 3 ) VAR"], "CHAR ( 5 ) VAR"),
    "FACT": (["FIXED BIN ( 15 )"], "FIXED BIN ( 63 )"),
    "ODD": (["FIXED BIN ( 15 )"], "BIT"),
    "FILL": (["( 3 ) FIXED BIN ( 15 )", "FIXED BIN ( 15 )"], None),
    "DOWN": (["FIXED BIN ( 15 )"], None),
}
# The same with the length and bounds of the argument.
STARS = SIGNATURES | {
    "CAT": (["CHAR ( * )", "CHAR ( * ) VAR"], "CHAR ( 5 ) VAR"),
    "FILL": (["( * ) FIXED BIN ( 15 )", "FIXED BIN ( 15 )"], None),
}
START = "START"
PARAMETERS = ["Z", "W"]
KINDS = {"FIXED": "number", "CHAR": "characters", "BIT": "bits"}
MEMBERS = ["A", "M", "M1", "M_", "Q", "Z", "FACT", "B$", "LONG_NAME_OF_A_MEMBER", "I"]


def kind_of(description):
    """The kind of one element."""
    return next(KINDS[word] for word in description.split() if word in KINDS)


def internal_routines():
    """The words of each routine of runs.py."""
    found, words = {}, list(runs.ROUTINES)
    for name in SIGNATURES:
        end = next(at for at in range(len(words)) if words[at : at + 3] == ["END", name, ";"]) + 3
        found[name], words = words[:end], words[end:]
    return found


INTERNAL = internal_routines()


class Grower(runs.Grower):
    """Programs of several units. While a unit is grown, `own` are its parameters as variables, by their kind, and `result` that of the
    procedure in which statements are grown."""

    signatures = SIGNATURES

    def __init__(self, numbers, slips):
        super().__init__(numbers, slips)
        self.own, self.result, self.external = {}, None, []

    def some(self, several, many):
        """So many of several, in another order."""
        several, taken = list(several), []
        for _ in range(many):
            taken.append(several.pop(self.below(len(several))))
        return taken

    # expressions and statements, with fewer errors than those of runs.py, so that programs go on for longer

    def expression(self, kind, depth=3):
        words = super().expression(kind, depth)
        return ["(", *words, ")"] if len(words) > 1 and not self.slips and self.below(4) else words

    def subscript(self, high):
        return [str(1 + self.below(high))] if self.below(6) else super().subscript(high)

    def small_number(self):
        return self.chosen(["1"], ["1"], ["0"]) if self.below(6) else super().small_number()

    def variable(self, kind):
        if self.own.get(kind) and self.below(4) == 0:
            return self.chosen(*self.own[kind])
        return super().variable(kind)

    def leaf(self, kind):
        functions = [name for name in self.external if self.signatures[name][1] and kind_of(self.signatures[name][1]) == kind]
        if functions and self.below(8) == 0:
            return self.called(self.chosen(*functions))
        return super().leaf(kind)

    def called(self, name):
        """A call of an external procedure, with a variable or another expression for each parameter."""
        arguments = []
        for parameter in self.signatures[name][0]:
            arguments += [",", *self.argument(parameter)]
        called = [name, "(", *arguments[1:], ")"]
        return self.wrong_call(name, called) if self.slip() else called

    def argument(self, parameter):
        if parameter.startswith("("):
            return self.chosen(["A"], ["A2"])
        kind = kind_of(parameter)
        if self.below(3):
            return self.variable(kind)
        return self.expression(self.chosen("number", kind, kind) if kind == "characters" else kind, 1)

    def wrong_call(self, name, called):
        return self.chosen(
            [name],
            [*called[:-1], ",", "1", ")"],
            [name, "(", ")"],
            [name, "(", "S", ")"],
            [name, "(", "A", *called[3:]],
            [START],
            [START, "(", ")"],
        )

    def statement(self, label):
        return self.call_of_external() if self.below(5) == 0 else super().statement(label)

    def call_of_external(self):
        name = self.chosen(*self.external)
        result = self.signatures[name][1]
        if not result:
            return ["CALL", *self.called(name), ";"]
        return self.chosen([*self.variable(kind_of(result)), "=", *self.called(name), ";"], ["PUT", "LIST", "(", *self.called(name), ")", ";"])

    def call(self):
        if self.below(12) == 0:
            return ["CALL", START, ";"]
        if self.below(4) == 0:
            return ["CALL", "VIA", "(", *self.variable("number"), ")", ";"]
        return super().call()

    def ending(self):
        if self.result:
            return ["RETURN", "(", *self.expression(self.result, 1), ")", ";"] if self.below(4) else ["STOP", ";"]
        return super().ending()

    # units

    def storage(self):
        """What a unit says of a variable that is one for all units, or its own."""
        if self.below(6) == 0:
            return self.chosen([], ["STATIC"])
        return self.chosen(["EXT"], ["EXTERNAL"], ["STATIC", "EXT"], ["EXTERNAL", "STATIC"])

    def variables(self):
        words = []
        for declared in DECLARED:
            at = declared.index("@")
            words += ["DCL", *declared[:at], *self.storage(), *declared[at + 1 :], ";"]
        return words

    def entry(self, name):
        """The declaration of an external procedure in another unit."""
        parameters, result = self.signatures.get(name, ([], None))
        listed = " , ".join(parameters)
        attributes = [f"ENTRY ( {listed} )" if listed else self.chosen("ENTRY", "ENTRY ( )")]
        attributes += [f"RETURNS ( {result} )"] * bool(result) + self.chosen([], ["EXT"])
        return f"DCL {name} {' '.join(self.some(attributes, len(attributes)))} ;".split()

    def entries(self, name):
        words = []
        for other in [START, *self.external]:
            if other != name or self.below(3) == 0:
                words += self.entry(other)
        return words

    def guard(self):
        """What ends the calls of a program that would go on without end."""
        returned = ["(", {"number": "Z", "characters": "'END'", "bits": "'1'B"}[self.result], ")"] if self.result else []
        counted = "DCL DEPTH FIXED BIN ( 15 ) EXT ; DEPTH = DEPTH + 1 ; IF DEPTH >".split()
        return [*counted, str(2 + self.below(9)), "THEN", "RETURN", *returned, ";"]

    def heading(self, name):
        """The heading of a unit, and what declares its parameters."""
        if name == START:
            return "START : PROC OPTIONS ( MAIN ) ;".split()
        parameters, result = self.signatures[name]
        named = PARAMETERS[: len(parameters)]
        declared = " , ".join(f"{parameter} {description}" for parameter, description in zip(named, parameters))
        returns = f"RETURNS ( {result} )" if result else ""
        return f"{name} : PROC ( {' , '.join(named)} ) {returns} ; DCL {declared} ;".split()

    def parameters_of(self, name):
        found = {}
        for parameter, description in zip(PARAMETERS, self.signatures[name][0] if name != START else []):
            element = [parameter, "(", *self.subscript(3), ")"] if description.startswith("(") else [parameter]
            found.setdefault(kind_of(description), []).append(element)
        return found

    def via(self):
        """An internal procedure that calls others."""
        result, own = self.result, self.own
        self.result, self.own = None, {"number": [["Z"]]}
        words = [*"VIA : PROC ( Z ) ; DCL Z FIXED BIN ( 15 ) ;".split(), *self.list(2), "END", ";"]
        self.result, self.own = result, own
        return words

    def procedure(self, name, is_guarded):
        """The words of the unit that has the procedure of a name."""
        self.labels, self.own = 0, self.parameters_of(name)
        result = self.signatures[name][1] if name != START else None
        self.result = kind_of(result) if result else None
        before = [*self.variables(), *self.entries(name)]
        body = [*(self.guard() if is_guarded else []), *self.list(4 if name == START else 3)]
        body += "AWAY : PUT LIST ( 'AWAY' , N , I , V ) ;".split()
        returned = ["RETURN", "(", *self.expression(self.result, 2), ")", ";"] if self.result and self.below(8) else []
        internal = [word for other in SIGNATURES if other not in self.external for word in INTERNAL[other]]
        return [*self.heading(name), *before, *body, *returned, *self.via(), *internal, "END", *self.chosen([], [name]), ";"]

    def program(self):
        """A program: a list of units, each the name of its member and its words."""
        self.external = self.some(SIGNATURES, 1 + self.below(3))
        names, is_guarded = [START, *self.external], self.below(6) > 0
        return [(member, self.procedure(name, is_guarded)) for member, name in zip(self.some(MEMBERS, len(names)), names)]


# What a block more may declare.
INNER = """
    N FIXED BIN ( 31 ) EXT INIT ( 5 ) | N FIXED BIN ( 31 ) EXT INIT ( 6 ) | N FIXED BIN ( 31 ) EXT | N ENTRY
    ADD1 CHAR ( 2 ) EXT | FACT CHAR ( 2 ) EXT | START ENTRY | START ENTRY ( BIT ) | START FIXED BIN ( 15 ) EXT
    DOWN ENTRY ( FIXED BIN ( 15 ) ) | ODD ENTRY ( FIXED BIN ( 15 ) ) | ODD ENTRY ( FIXED BIN ( 15 ) ) RETURNS ( BIT ( 1 ) )
    A ( 1 : 3 ) FIXED BIN ( 15 ) EXT INIT ( 1 , - 2 , 3 ) | 1 S EXT , 2 N FIXED BIN ( 31 ) INIT ( 7 ) , 2 M ( 2 ) BIT ( 3 )
    NOWHERE ENTRY
"""
INNER = [declared for declared in INNER.replace("\n", "|").split("|") if declared.strip()]


class Changer(Grower):
    """Programs of which some are changed where units meet."""

    def linked(self):
        program = self.program()
        seldom = [self.drop, self.double, self.change_main, self.enlarge]
        for _ in range(self.below(3)):
            self.chosen(*[self.change_number] * 4, *[self.change_initial] * 3, *[self.insert] * 3, *seldom)(program)
        return program

    def unit_of(self, program):
        """A unit's number, its member and its words."""
        at = self.below(len(program))
        return at, *program[at]

    def declarations(self, words):
        """Where declarations of entries and EXTERNAL variables begin and end."""
        starts = [at for at, word in enumerate(words) if word == "DCL"]
        ranges = [(at, words.index(";", at)) for at in starts]
        return [(at, end) for at, end in ranges if {"ENTRY", "EXT", "EXTERNAL"} & set(words[at:end])]

    def change_number(self, program):
        """Another number in a declaration: a precision, a length, a bound or an initial value."""
        at, member, words = self.unit_of(program)
        start, end = self.chosen(*self.declarations(words))
        places = [place for place in range(start + 2, end) if words[place].isdigit() and not words[place + 1].isidentifier()]
        if places:
            place = self.chosen(*places)
            number = self.chosen(str(int(words[place]) + 1), str(max(int(words[place]) - 1, 1)), "0" + words[place])
            program[at] = member, [*words[:place], number, *words[place + 1 :]]

    def change_initial(self, program):
        """Other initial values, or none, or the same that are written in another way."""
        at, member, words = self.unit_of(program)
        places = [place for place, word in enumerate(words) if word == "INIT"]
        if not places:
            return
        place = self.chosen(*places)
        end = next(end for end in range(place, len(words)) if words[end] == ")" and words[end + 1] in (",", ";", "EXT", "EXTERNAL", "STATIC"))
        first = words[place + 2]
        if first.startswith("'") and first.endswith("B"):
            others = [["INIT", "(", "'110'B", ")"], ["INIT", "(", "'1'B", ")"], ["INIT", "(", "'1010'B1", ")"]]
        elif first.startswith("'"):
            others = [["INIT", "(", first[:-1] + " '", *words[place + 3 : end + 1]]] * 2
        else:
            others = [["INIT", "(", *self.chosen(["(", "1", ")"], ["(", "0", ")"]), *words[place + 2 : end + 1]]] * 2
        others += [[], words[place : end + 1]]
        program[at] = member, [*words[:place], *self.chosen(*others), *words[end + 1 :]]

    def insert(self, program):
        """A block more, before all declarations or after them, which declares a name that other units have too."""
        declared = self.chosen(*INNER).strip().split()
        place = self.chosen(self.put_before, self.put_after)
        place(program, *self.unit_of(program), ["BEGIN", ";", "DCL", *declared, ";", "END", ";"])

    @staticmethod
    def put_before(program, at, member, words, more):
        start = words.index(";") + 1
        program[at] = member, [*words[:start], *more, *words[start:]]

    @staticmethod
    def put_after(program, at, member, words, more):
        end = len(words) - words[::-1].index("END") - 1
        program[at] = member, [*words[:end], *more, *words[end:]]

    def drop(self, program):
        program.pop(self.below(len(program)))

    def double(self, program):
        """Another unit, of a procedure that stands, or another main procedure."""
        member = next(name for name in MEMBERS if name not in dict(program))
        _, _, words = self.unit_of(program)
        program.append((member, self.chosen(words, words, "OTHER : PROC OPTIONS ( MAIN ) ; DCL N CHAR EXT ; END OTHER ;".split())))

    def change_main(self, program):
        for at, (member, words) in enumerate(program):
            if words[3] == "OPTIONS":
                program[at] = member, [*words[:3], *words[7:]]

    def enlarge(self, program):
        """Static variables of 1,000,000 bytes each, in all sixteen or some more, and now and then as many bytes as there may be."""
        many = 16 + self.below(3) // 2
        for number in range(many):
            declared = f"DCL BIG{number} ( 1000 ) CHAR ( 1000 ) {self.chosen('STATIC', 'EXT', 'EXT')} ;".split()
            for _ in range(1 + self.below(2)):
                at, member, words = self.unit_of(program)
                if declared[1] not in words:
                    self.put_after(program, at, member, words, declared)


class StackGrower(Grower):
    """Programs of several units, with CONTROLLED variables that most units share."""

    def variables(self):
        shared = self.chosen(["CTL", "EXT"], ["EXTERNAL", "CTL"])
        storage = shared if self.below(8) else self.chosen(["CTL"], ["CTL"], ["CTL"], ["EXT"])
        initial = "4" if self.below(16) else "5"
        return [*super().variables(), *"DCL G FIXED BIN ( 15 )".split(), *storage, "INIT", "(", initial, ")", ";"]

    def variable(self, kind):
        return ["G"] if kind == "number" and self.below(6) == 0 else super().variable(kind)

    def leaf(self, kind):
        return ["ALLOCATION", "(", "G", ")"] if kind == "number" and self.below(10) == 0 else super().leaf(kind)

    def statement(self, label):
        if self.below(6) == 0:
            return [self.chosen("ALLOCATE", "ALLOCATE", "ALLOCATE", "FREE"), "G", *self.chosen([], [",", "G"]), ";"]
        return super().statement(label)


class AreaGrower(Grower):
    """Programs of several units, with an area and offsets in it that most units share; in some of them all these areas are CONTROLLED."""

    def program(self):
        self.stacked = ["CTL"] if self.below(4) == 0 else []
        return super().program()

    def variables(self):
        of_area, of_offset = (["EXT"] if self.below(8) else self.chosen([], ["STATIC"] if not self.stacked else []) for _ in range(2))
        size = self.chosen("50", "53", "56") if self.below(32) else "48"
        words = ["DCL", "W0", "AREA", "(", size, ")", *of_area, *self.stacked, ",", "O0", "OFFSET", "(", "W0", ")", *of_offset]
        made = ["ALLOCATE", "W0", ";"] if self.stacked else []
        return [*super().variables(), *words, *"INIT ( NULL ) , U0 FIXED BIN ( 15 ) BASED ( O0 ) INIT ( 3 ) ;".split(), *made, *self.chosen([], "IF O0 = NULL THEN ALLOCATE U0 ;".split())]

    def variable(self, kind):
        return ["U0"] if kind == "number" and self.below(8) == 0 else super().variable(kind)

    def statement(self, label):
        if self.below(8):
            return super().statement(label)
        several = """ALLOCATE U0 ; | ALLOCATE U0 ; | ALLOCATE U0 IN ( W0 ) ; | FREE U0 ; | IF O0 = NULL THEN ALLOCATE U0 ; | IF O0 ^= NULL THEN U0 = N ; | O0 = NULL ;
            | W0 = EMPTY ; | BEGIN ; DCL W1 AREA ( 50 ) ; W1 = W0 ; W0 = EMPTY ( ) ; W0 = W1 ; END ; | BEGIN ; DCL P0 PTR ; P0 = O0 ; O0 = NULL ; O0 = P0 ; PUT LIST ( P0 -> U0 ) ; END ;"""
        return self.chosen(*several.split("|")).split()


class ConditionGrower(Conditions, AreaGrower, StackGrower):
    """Programs of several units with conditions, and with stacks and an area that most units share."""

    def variables(self):
        """A stack in every unit."""
        words = super().variables()
        at = words.index("G")
        words[at + 6 : at + 6] = ["CTL"] * ("CTL" not in words[at : words.index("INIT", at)])
        return words

    def procedure(self, name, is_guarded):
        self.bare, self.is_main = (8, True) if name == START else (2, False)
        return super().procedure(name, is_guarded)

    def beginning(self):
        """ON-units, which conditions of the other units meet too."""
        words = super().beginning()
        return [*self.units(), *self.call_of_external(), *words] if self.is_main else words


class StarGrower(Grower):
    """Programs of several units with `*` for the length and bounds of parameters."""

    signatures = STARS


class StarChanger(Changer):
    """Such programs that are changed where units meet."""

    signatures = STARS


def shown(program):
    """The units, without the routines that are the same in all."""
    texts = []
    for member, words in program:
        text = " ".join(words)
        for routine in INTERNAL.values():
            text = text.replace(" ".join(routine), "..")
        texts.append(f"{member}: {text}")
    return "\n  ".join(texts)


def main():
    workbench, agree = sys.argv[1:], True
    sound = Grower(mutations.Numbers(SEED), False)
    changed = Changer(mutations.Numbers(SEED + 1), False)
    faulty = Grower(mutations.Numbers(SEED + 2), True)
    agree &= compare("programs grown", workbench, [sound.program() for _ in range(PROGRAMS)], [*range(FEW_STEPS + 1), MANY_STEPS], shown)
    agree &= compare("programs changed", workbench, [changed.linked() for _ in range(LINKED)], [MANY_STEPS], shown)
    agree &= compare("programs with wrong types", workbench, [faulty.program() for _ in range(FAULTY)], [MANY_STEPS], shown)
    stacked = StackGrower(mutations.Numbers(SEED + 3), False)
    agree &= compare("programs with shared stacks", workbench, [stacked.program() for _ in range(PROGRAMS)], [*range(FEW_STEPS + 1), MANY_STEPS], shown)
    placed = AreaGrower(mutations.Numbers(SEED + 4), False)
    agree &= compare("programs with shared areas", workbench, [placed.program() for _ in range(PROGRAMS)], [*range(FEW_STEPS + 1), MANY_STEPS], shown)
    raised = ConditionGrower(mutations.Numbers(SEED + 5), False)
    agree &= compare("programs with conditions", workbench, [raised.program() for _ in range(PROGRAMS)], [*range(FEW_STEPS + 1), MANY_STEPS], shown)
    starred, changed = StarGrower(mutations.Numbers(SEED + 6), False), StarChanger(mutations.Numbers(SEED + 7), False)
    agree &= compare("programs with asterisks", workbench, [starred.program() for _ in range(PROGRAMS)], [*range(FEW_STEPS + 1), MANY_STEPS], shown)
    agree &= compare("programs with asterisks changed", workbench, [changed.linked() for _ in range(STARRED)], [MANY_STEPS], shown)
    sys.exit(not agree)


if __name__ == "__main__":
    main()
