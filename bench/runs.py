#!/usr/bin/env python3
"""runs.py [PROGRAM [ARGUMENT..]]: compares the workbench with meaning.py, which is written from the rules of types and runs alone.

It prints how many units agreed, and of those that did not the ten shortest, each with what was expected and what was answered:
  the answers to each session of the examples, of several units, of conditions and of storage (crates/pli_sessions), as they stand beside
  it, with those of meaning.py;
  300 programs grown at random, at each number of steps from 0 to 40, and at 5,000;
  300 programs grown so of which some variables are CONTROLLED, which ALLOCATE and FREE change, at the same numbers of steps;
  300 programs grown so with pointers and BASED variables, and 300 with areas and offsets too, at the same numbers of steps;
  300 programs grown so with conditions and ON-units (conditions.py), and 300 with these and storage of all classes, at the same;
  300 programs grown so with `*` for lengths and bounds of parameters, at the same;
  3,000 units whose expressions have operands, arguments and targets of wrong types now and then: all their diagnostics; 500 with
  CONTROLLED variables, 500 with pointers, 500 with areas, 500 with conditions and storage of all classes, and 500 with `*`.
Each token of a unit is typed on a line of its own, so that the line of a diagnostic tells the token. All is the same every time.
Without PROGRAM meaning.py is run alone.
"""
import sys
from pathlib import Path

import answers
import mutations
from compared import compare
from conditions import Conditions

PROGRAMS = 300
FAULTY, FAULTY_STACKS, FAULTY_POINTERS, FAULTY_AREAS, FAULTY_CONDITIONS, FAULTY_STARS = 3000, 500, 500, 500, 500, 500
SEED = 19741130
FEW_STEPS, MANY_STEPS = 40, 5000
SESSIONS = Path(__file__).resolve().parent.parent / "crates" / "pli_sessions" / "data"
FOLDERS = ["examples", "units", "conditions", "storage", "extents"]

# The variables that each program has, with their kinds: a number, characters or bits, and how one is written.
VARIABLES = """
    DCL ( I , J , K ) FIXED BIN ( 15 ) , N FIXED BIN ( 31 ) INIT ( 5 ) , L FIXED BIN ( 3 ) , WIDE FIXED BIN ( 63 ) INIT ( 4294967295 ) ;
    DCL C CHAR ( 4 ) INIT ( 'ABCD' ) , V CHAR ( 6 ) VAR INIT ( 'XY' ) , D CHAR ( 3 ) STATIC ;
    DCL B BIT ( 4 ) INIT ( '1010'B ) , F BIT STATIC INIT ( '1'B ) ;
    DCL A ( 3 ) FIXED BIN ( 15 ) INIT ( 1 , - 2 , 3 ) , M ( 0 : 1 , 2 ) CHAR ( 2 ) INIT ( 'P' , 'QR' , 'QR' ) , A2 ( 3 ) FIXED BIN ( 15 ) ;
    DCL 1 S , 2 X FIXED BIN ( 31 ) INIT ( 7 ) , 2 Y ( 2 ) BIT ( 3 ) , 1 S2 , 2 X1 FIXED BIN ( 31 ) , 2 Y1 ( 2 ) BIT ( 3 ) INIT ( '11'B ) ;
    DCL 1 T ( 2 ) STATIC , 2 P FIXED BIN ( 7 ) INIT ( 1 , 2 ) , 2 Q ( 2 ) CHAR ( 1 ) INIT ( 'A' , 'B' , 'C' ) ;
""".split()
STACKED = """
    DCL G FIXED BIN ( 15 ) CTL INIT ( 4 ) , H ( 2 ) CTL CHAR ( 3 ) INIT ( 'X' , 'YZ' ) ;
    DCL 1 R CTL , 2 R1 BIT ( 2 ) INIT ( '1'B ) , 2 R2 FIXED BIN ( 31 ) , 1 R3 , 2 R4 BIT ( 2 ) , 2 R5 FIXED BIN ( 31 ) , W CHAR ( 2 ) VAR CTL ;
""".split()
PUSH = """
    PUSH : PROC ( Z ) ; DCL Z FIXED BIN ( 15 ) , W FIXED BIN ( 15 ) CTL ; ALLOCATE W ; W = Z ; IF ALLOCATION ( W ) < 3 THEN CALL PUSH ( Z + 1 ) ;
        FREE G ; ALLOCATE G ; PUT LIST ( W , G ) ; IF Z = 3 THEN Z = 2 ; FREE W ; END PUSH ;
""".split()
POINTING = """
    DCL ( P1 , P2 ) PTR , P3 ( 2 ) PTR STATIC , U1 FIXED BIN ( 15 ) BASED ( P1 ) INIT ( 6 ) , U2 ( 2 ) CHAR ( 3 ) BASED ( P2 ) INIT ( 'X' , 'YZ' ) ;
    DCL U3 FIXED BIN ( 15 ) BASED , 1 U4 BASED ( P2 ) , 2 U5 FIXED BIN ( 15 ) INIT ( 2 ) , 2 U6 PTR , 1 U7 , 2 U8 FIXED BIN ( 15 ) , 2 U9 PTR ;
""".split()
HANG = """
    HANG : PROC ( Z , W ) RETURNS ( PTR ) ; DCL Z PTR , W FIXED BIN ( 15 ) , E FIXED BIN ( 15 ) BASED ( Z ) , R PTR , G FIXED BIN ( 15 ) ; IF W > 2 THEN Z = ADDR ( G ) ;
        IF Z = NULL THEN ALLOCATE E ; E = E + 1 ; PUT LIST ( E ) ; IF W = 2 THEN FREE E ; ALLOCATE U3 SET ( R ) ; R -> U3 = W ; RETURN ( R ) ; END HANG ;
""".split()
AREAS = """
    DCL W1 AREA ( 69 ) , W2 AREA ( 56 ) , W3 AREA ( 48 ) CTL , ( O1 , O2 ) OFFSET ( W1 ) , O3 ( 2 ) OFFSET ( W2 ) STATIC INIT ( NULL ) , O4 OFFSET , O5 OFFSET ( W3 ) ;
    DCL E1 FIXED BIN ( 15 ) BASED ( O1 ) INIT ( 3 ) , E2 ( 2 ) CHAR ( 3 ) BASED , 1 E3 BASED ( O2 ) , 2 E4 FIXED BIN ( 63 ) INIT ( 8 ) , 2 E5 OFFSET ( W1 ) , 1 E6 , 2 E7 FIXED BIN ( 63 ) , 2 E8 OFFSET ;
""".split()
HEAP = """
    HEAP : PROC ( Z , W , U ) RETURNS ( OFFSET ( W1 ) ) ; DCL Z AREA ( 50 ) , W OFFSET ( Z ) , U FIXED BIN ( 15 ) , E FIXED BIN ( 15 ) BASED ( W ) , R PTR , Y OFFSET ( W1 ) ;
        IF W = NULL THEN ALLOCATE E ; E = E + 1 ; PUT LIST ( E ) ; IF U = 2 THEN FREE E ; IF U > 2 THEN Z = EMPTY ; ALLOCATE E1 SET ( Y ) ; R = Y ; R -> U3 = U ; IF U = 1 THEN RETURN ( R ) ;
        RETURN ( Y ) ; END HEAP ;
""".split()
ROUTINES = """
    ADD1 : PROC ( Z ) ; DCL Z FIXED BIN ( 15 ) ; Z = Z + 1 ; PUT LIST ( Z ) ; END ADD1 ;
    CAT : PROC ( Z , W ) RETURNS ( CHAR ( 5 ) VAR ) ; DCL Z CHAR ( 4 ) , W CHAR ( 3 ) VAR ; IF LENGTH ( W ) = 0 THEN RETURN ( Z ) ; W = '' ;
        RETURN ( W || Z ) ; END CAT ;
    FACT : PROC ( Z ) RETURNS ( FIXED BIN ( 63 ) ) ; DCL Z FIXED BIN ( 15 ) ; IF Z < 2 THEN RETURN ( 1 ) ;
        RETURN ( Z * FACT ( Z - 1 ) ) ; END FACT ;
    ODD : PROC ( Z ) RETURNS ( BIT ) ; DCL Z FIXED BIN ( 15 ) , W FIXED BIN ( 15 ) STATIC INIT ( 0 ) ; W = W + 1 ; N = N + W ;
        IF Z = 13 THEN GOTO AWAY ; IF Z = 11 THEN ; ELSE RETURN ( MOD ( Z , 2 ) = 1 ) ; END ODD ;
    FILL : PROC ( Z , W ) ; DCL Z ( 3 ) FIXED BIN ( 15 ) , W FIXED BIN ( 15 ) , U FIXED BIN ( 15 ) ;
        DO U = 1 TO 3 ; Z ( U ) = W + U ; IF Z ( U ) > 20 THEN RETURN ; END ; END FILL ;
    DOWN : PROC ( Z ) ; DCL Z FIXED BIN ( 15 ) , W CHAR ( 2 ) ; W = Z ; IF Z > 0 THEN CALL DOWN ( Z - 1 ) ; ELSE IF F THEN GOTO AWAY ;
        BEGIN ; DCL W FIXED BIN ( 7 ) ; W = Z ; PUT LIST ( W ) ; IF W = 3 THEN RETURN ; END ; PUT LIST ( W ) ; END DOWN ;
""".split()


STARRED = """
    SHOW : PROC ( Z ) ; DCL Z CHAR ( * ) ; PUT LIST ( LENGTH ( Z ) , Z ) ; IF Z = 'A' THEN Z = '*' || Z ; ELSE Z = LENGTH ( Z ) + 1 ; END SHOW ;
    SPIN : PROC ( Z ) ; DCL Z CHAR ( * ) VAR ; DO Z = '' REPEAT Z || '*' WHILE ( LENGTH ( Z ) < 2 & Z ^= '*' ) ; CALL SHOW ( Z ) ; END ;
        Z = 12 ; PUT LIST ( Z , LENGTH ( Z ) ) ; END SPIN ;
    EACH : PROC ( Z , W ) ; DCL Z ( * ) FIXED BIN ( 15 ) , W FIXED BIN ( 15 ) , U FIXED BIN ( 15 ) ; DO U = LBOUND ( Z , 1 ) TO HBOUND ( Z , 1 ) ;
        Z ( U ) = Z ( U ) + W ; END ; IF W > 2 THEN PUT LIST ( Z ( W ) ) ; IF W = 1 THEN CALL EACH ( Z , 2 ) ; END EACH ;
    GRID : PROC ( Z , W ) ; DCL Z ( * , * ) CHAR ( * ) , W ( * ) CHAR ( * ) ; PUT LIST ( LBOUND ( Z , 1 ) , HBOUND ( Z , 2 ) , LENGTH ( W ( 2 ) ) , Z ( 0 , 1 ) ) ;
        Z ( 1 , 1 ) = W ( 1 ) ; W ( 2 ) = Z ( 0 , 2 ) || 'Z' ; IF ALLOCATION ( H ) > 1 THEN FREE H ; PUT LIST ( HBOUND ( W , 1 ) , W ( 1 ) ) ; CALL SHOW ( W ( 2 ) ) ; END GRID ;
    MASK : PROC ( Z , W ) RETURNS ( BIT ( 8 ) ) ; DCL Z BIT ( * ) , W ( 2 ) BIT ( * ) ; IF Z THEN Z = ^ Z ; W ( 1 ) = Z ; RETURN ( Z || W ( 2 ) ) ; END MASK ;
""".split()


class Grower:
    """Programs grown at random."""

    def __init__(self, numbers, slips):
        self.numbers, self.slips, self.depth, self.labels, self.level = numbers, slips, 0, 0, 0

    def below(self, bound):
        return self.numbers.below(bound)

    def chosen(self, *several):
        return several[self.below(len(several))]

    def slip(self):
        return self.slips and self.below(12) == 0

    def kind(self, kind):
        return self.chosen("number", "characters", "bits") if self.slip() else kind

    # expressions

    def expression(self, kind, depth=3):
        kind = self.kind(kind)
        if depth == 0 or self.below(3) == 0:
            return self.leaf(kind)
        return getattr(self, kind)(depth - 1)

    def leaf(self, kind):
        if self.slip():
            return self.chosen(["A"], ["S"], ["T", "(", "1", ")"], ["FACT"], ["ABS"], ["A", "(", "1", ",", "1", ")"], ["P"], ["(", "A", ")"], ["AWAY"], ["DOWN", "(", "1", ")"],
                               ["M"], ["Q", "(", "1", ")"], ["C", "(", "1", ")"], ["I", "(", ")"], ["FACT", "(", "A", ")"], ["MAX", "(", "A", ",", "1", ")"], ["CAT", "(", "C", ")"])
        if self.below(3):
            return self.variable(kind)
        return [{"number": self.number_constant, "characters": self.characters_constant, "bits": self.bits_constant}[kind]()]

    def number_constant(self):
        return self.chosen("0", "1", "2", "3", "7", "12", "007", "101B", "30000", "2147483647", "4294967296", "9223372036854775807", "1B")

    def characters_constant(self):
        return self.chosen("''", "'A'", "'BC'", "'DE F'", "'QR'", "' '", "'A''B'")

    def bits_constant(self):
        return self.chosen("''B", "'1'B", "'0'B", "'1100'B", "'A'B4", "'12'B3", "'00'B")

    def subscript(self, high):
        return [str(1 + self.below(high))] if self.below(3) else self.chosen(["I"], ["J"], ["MOD", "(", "N", ",", "3", ")", "+", "1"], ["K"])

    def variable(self, kind):
        if kind == "number":
            return self.chosen(["I"], ["J"], ["K"], ["N"], ["L"], ["WIDE"], ["A", "(", *self.subscript(3), ")"], ["S", ".", "X"], ["X"],
                               ["T", "(", *self.subscript(2), ")", ".", "P"], ["P", "(", *self.subscript(2), ")"])
        if kind == "characters":
            return self.chosen(["C"], ["V"], ["D"], ["M", "(", self.chosen("0", "1"), ",", *self.subscript(2), ")"],
                               ["T", "(", *self.subscript(2), ")", ".", "Q", "(", *self.subscript(2), ")"], ["Q", "(", "1", ",", "2", ")"])
        return self.chosen(["B"], ["F"], ["Y", "(", *self.subscript(2), ")"], ["S", ".", "Y", "(", "2", ")"])

    def number(self, depth):
        e = lambda kind="number": self.expression(kind, depth)
        return self.chosen(
            lambda: [*e(), self.chosen("+", "-", "*"), *e()],
            lambda: [*e(), self.chosen("+", "-"), *e()],
            lambda: ["(", *e(), ")"],
            lambda: [self.chosen("-", "+"), *e()],
            lambda: ["(", *e(), self.chosen("+", "-"), *e(), ")", "*", *self.leaf("number")],
            lambda: [self.chosen("ABS", "SIGN"), "(", *e(), ")"],
            lambda: [self.chosen("MAX", "MIN", "MOD"), "(", *e(), ",", *e(), ")"],
            lambda: ["DIVIDE", "(", *e(), ",", *e(), ",", "0" if self.slip() else self.chosen("3", "15", "31", "63", "+" if self.slip() else "10"), ")"],
            lambda: ["LENGTH", "(", *e(self.chosen("characters", "bits")), ")"],
            lambda: self.index(depth),
            lambda: [self.chosen("LBOUND", "HBOUND"), "(", *self.chosen(["A", ")", ",", "1"], ["M", ",", "2"], ["M", ",", "1"], ["T", ",", "1"], ["S", ".", "Y", ",", "1"])[:9], ")"]
            if self.slip() else [self.chosen("LBOUND", "HBOUND"), "(", *self.chosen(["A", ",", "1"], ["M", ",", "2"], ["M", ",", "1"], ["T", ",", "1"], ["S", ".", "Y", ",", "1"]), ")"],
            lambda: ["FACT", "(", *self.small(), ")"],
        )()

    def index(self, depth):
        kind = self.chosen("characters", "bits")
        return ["INDEX", "(", *self.expression(kind, depth), ",", *self.expression(kind, depth), ")"]

    def small(self):
        return self.chosen(["3"], ["I"], ["(", "J", ")"], ["5"], ["L"], ["2", "+", "2"], ["FACT", "(", "2", ")"], self.expression("number", 1))

    def characters(self, depth):
        e = lambda kind="characters": self.expression(kind, depth)
        return self.chosen(
            lambda: [*e(), "||", *e(self.chosen("characters", "bits"))],
            lambda: ["(", *e(), ")"],
            lambda: ["SUBSTR", "(", *e(), ",", *self.small_number(), ",", *self.small_number(), ")"],
            lambda: ["SUBSTR", "(", *e(), ",", *self.small_number(), ")"],
            lambda: ["CAT", "(", *self.chosen(e, lambda: ["C"], lambda: e("number"))(), ",", *self.chosen(e, lambda: ["V"])(), ")"],
        )()

    def small_number(self):
        return self.chosen(["1"], ["2"], ["0"], ["I"], self.expression("number", 1))

    def bits(self, depth):
        e = lambda kind="bits": self.expression(kind, depth)
        return self.chosen(
            lambda: [*e("number"), self.comparison(), *e("number")],
            lambda: [*self.leaf(self.chosen("characters", "bits")), self.comparison(), *self.leaf(self.chosen("characters", "bits"))],
            lambda: [*self.leaf("bits"), self.chosen("&", "|"), *e()],
            lambda: ["^", *self.leaf("bits")],
            lambda: ["^", "(", *e(), ")"],
            lambda: [*self.leaf("bits"), "||", *self.leaf("bits")],
            lambda: ["(", *e(), ")"],
            lambda: ["SUBSTR", "(", *e(), ",", "1", ")"],
            lambda: ["ODD", "(", *self.chosen(["13"], ["11"], ["I"], ["4"], ["7"]), ")"],
        )()

    def comparison(self):
        return self.chosen("=", "^=", "<", "<=", ">", ">=")

    # statements

    def target(self, kind):
        return self.leaf(kind) if self.slip() else self.variable(kind)

    def list(self, many):
        """A list of statements, of which some have labels, to which some of them go."""
        self.labels += 1
        label = f"L{self.labels}"
        before, after = [], []
        for _ in range(1 + self.below(many)):
            before += self.statement(label)
        for _ in range(self.below(many)):
            after += self.statement(label)
        return [*before, label, ":", *self.statement(None), *after]

    def statement(self, label):
        forms = [self.assign] * 4 + [self.put] * 3 + [self.if_statement] * 2 + [self.call] * 2 + [self.aggregate, self.null]
        if label:
            forms += [lambda: ["IF", *self.expression("bits", 2), "THEN", "GOTO", label, ";"]] * 2
        if self.level < 3:
            forms += [self.group] * 3 + [self.begin]
        if self.slips and self.below(20) == 0:
            forms = [self.returned]
        if self.below(40) == 0:
            forms = [self.ending]
        return self.chosen(*forms)()

    def ending(self):
        return [self.chosen("STOP", "RETURN"), ";"]

    def null(self):
        return [";"]

    def assign(self):
        kind = self.chosen("number", "characters", "bits")
        source = self.chosen(kind, kind, "number", "bits") if kind == "characters" else kind
        return [*self.target(kind), "=", *self.expression(source), ";"]

    def aggregate(self):
        pairs = [["A", "A2"], ["A2", "A"], ["S2", "S"], ["S", "S2"], ["T ( 1 )", "T ( 2 )"], ["T ( I )", "T ( 1 )"], ["S . Y", "Y1"]]
        wrong = [["A", "M"], ["A", "1"], ["N", "A"], ["S", "T ( 1 )"], ["A", "( A2 )"], ["T", "S"], ["M", "M"]]
        target, source = self.chosen(*(wrong if self.slip() else pairs))
        return [*target.split(), "=", *source.split(), ";"]

    def put(self):
        items = []
        for _ in range(1 + self.below(3)):
            items += [",", *self.expression(self.chosen("number", "characters", "bits"))]
        listed = ["LIST", "(", *items[1:], ")"]
        return ["PUT", *self.chosen(listed, ["SKIP", *listed], [*listed, "SKIP"], ["SKIP"] if self.below(4) == 0 else listed), ";"]

    def if_statement(self):
        self.level += 1
        otherwise = ["ELSE", *self.statement(None)] if self.below(2) else []
        then = self.simple() if otherwise else self.statement(None)
        self.level -= 1
        return ["IF", *self.expression("bits", 2), "THEN", *then, *otherwise]

    def simple(self):
        return self.chosen(self.assign, self.put, self.call, self.null)()

    def call(self):
        called = self.chosen(
            lambda: ["ADD1", "(", *self.chosen(["I"], ["A", "(", "2", ")"], ["N"], ["(", "I", ")"], self.expression("number", 1)), ")"],
            lambda: ["FILL", "(", self.chosen("A", "A2"), ",", *self.chosen(["I"], ["A", "(", "1", ")"], ["2"]), ")"],
            lambda: ["DOWN", "(", *self.chosen(["2"], ["3"], ["4"], ["J"]), ")"],
        )()
        if self.slip():
            called = self.chosen(["FACT", "(", "1", ")"], ["ADD1"], ["ADD1", "(", "A", ")"], ["ADD1", "(", "'A'", ")"], ["FILL", "(", "M", ",", "1", ")"], ["I"], ["LENGTH", "(", "C", ")"],
                                 ["FILL", "(", "(", "A", ")", ",", "1", ")"], ["CAT", "(", "1", ",", "S", ")"], ["AWAY"], ["FILL", "(", "S", ",", "B", ")"], ["ADD1", "(", "1", ",", "2", ")"])
        return ["CALL", *called, ";"]

    def returned(self):
        return self.chosen(["RETURN", "(", *self.expression("number", 1), ")", ";"], ["RETURN", ";"])

    def group(self):
        self.level += 1
        listed = self.list(2)
        variable, limit = self.chosen("I", "J", "K"), self.expression("number", 1)
        turns = str(1 + self.below(4))
        heading = self.chosen(
            [],
            ["WHILE", "(", *self.expression("bits", 2), ")"],
            [variable, "=", "1", "TO", turns],
            [variable, "=", *self.expression("number", 1), "TO", *limit],
            [variable, "=", turns, "TO", "0", "BY", "-", "1"],
            [variable, "=", "1", "BY", "2", "TO", turns],
            [variable, "=", *limit],
            [variable, "=", "1", "REPEAT", variable, "*", "2", "WHILE", "(", variable, "<", "9", ")"],
            [variable, "=", "1", "TO", "9", "WHILE", "(", *self.expression("bits", 2), ")"],
            ["L", "=", turns, "TO", "7"],
            ["V", "=", "''", "REPEAT", "V", "||", "'*'", "WHILE", "(", "LENGTH", "(", "V", ")", "<", "3", ")"],
        )
        if self.slip():
            heading = self.chosen(["A", "(", "1", ")", "=", "1", "TO", "2"], ["C", "=", "1", "TO", "2"], ["B", "=", "1"], ["A", "=", "1"], ["I", "=", "'A'", "TO", "2"], ["I", "=", "1", "TO", "'A'"],
                                  ["WHILE", "(", "1", ")"], ["I", "=", "1", "REPEAT", "'A'"], ["FACT", "=", "1"], ["I", "=", "1", "BY", "B", "TO", "'A'"], ["B", "=", "'1'B", "WHILE", "(", "I", ")"])
        self.level -= 1
        return ["DO", *heading, ";", *listed, "END", ";"]

    def begin(self):
        self.level += 1
        listed = self.list(2)
        declared = self.chosen([], "DCL I FIXED BIN ( 31 ) INIT ( 3 ) ;".split(), "DCL C CHAR ( 2 ) VAR , B BIT ( 3 ) ;".split(), "DCL A ( 3 ) FIXED BIN ( 15 ) ;".split())
        self.level -= 1
        return ["BEGIN", ";", *declared, *listed, "END", ";"]

    def unit(self):
        self.labels = 0
        return [*"M : PROC OPTIONS ( MAIN ) ;".split(), *VARIABLES, *self.list(6), *"AWAY : PUT LIST ( 'AWAY' , N , I , V ) ;".split(), *ROUTINES, *"END M ;".split()]


class StackGrower(Grower):
    """Programs with CONTROLLED variables."""

    def variable(self, kind):
        if self.below(4):
            return super().variable(kind)
        if kind == "number":
            return self.chosen(["G"], ["G"], ["R", ".", "R2"])
        return self.chosen(["H", "(", *self.subscript(2), ")"]) if kind == "characters" else ["R1"]

    def leaf(self, kind):
        if self.slip():
            return self.chosen(["ALLOCATION", "(", *self.chosen(["A"], ["H", "(", "1", ")"], ["R1"], ["1"], ["G", ",", "G"], ["FACT"], ["(", "G", ")"], ["B", "->", "G"]), ")"], ["R"], ["H"], ["B", "->", "G"])
        if kind == "number" and self.below(8) == 0:
            return ["ALLOCATION", "(", self.chosen("G", "H", "R", "W"), ")"]
        return super().leaf(kind)

    def statement(self, label):
        return self.chosen(self.allocate, self.allocate, self.free)() if self.below(6) == 0 else super().statement(label)

    def several(self):
        names = [self.chosen("G", "H", "R", "W") for _ in range(1 + self.below(2))]
        return [word for name in names for word in (",", name)][1:]

    def allocate(self):
        if self.slip():
            return ["ALLOCATE", *self.chosen(["A"], ["R1"], ["FACT"], ["G", "IN", "(", "C", ")"], ["G", "SET", "(", "A", ")"], ["G", "SET", "(", "B", ")", "IN", "(", "S", ")"], ["NOWHERE"], ["AWAY"]), ";"]
        return ["ALLOCATE", *self.several(), ";"]

    def free(self):
        if self.slip():
            return ["FREE", *self.chosen(["A"], ["R1"], ["FACT"], ["H", "(", "1", ")"], ["B", "->", "G"], ["G", "(", "1", ")"], ["AWAY"]), ";"]
        return ["FREE", *self.several(), ";"]

    def aggregate(self):
        return self.chosen(["R", "=", "R3", ";"], ["R3", "=", "R", ";"]) if self.below(4) == 0 else super().aggregate()

    def unit(self):
        self.labels = 0
        first = ["ALLOCATE", "G", ",", "H", ",", "R", ",", "R", ";"] if self.below(6) else []
        words = [*"M : PROC OPTIONS ( MAIN ) ;".split(), *VARIABLES, *STACKED, *first, *self.list(6)]
        return [*words, *"AWAY : PUT LIST ( 'AWAY' , N , ALLOCATION ( G ) , ALLOCATION ( R ) ) ;".split(), *ROUTINES, *PUSH, *"END M ;".split()]

    def call(self):
        return ["CALL", "PUSH", "(", *self.chosen(["G"], ["I"], ["2"]), ")", ";"] if self.below(4) == 0 else super().call()


class PointerGrower(Grower):
    """Programs with pointers and BASED variables."""

    def pointer(self):
        return self.chosen(["P1"], ["P1"], ["P2"], ["P3", "(", *self.subscript(2), ")"], ["U6"], ["P2", "->", "U4", ".", "U6"], ["U9"])

    def pointed(self):
        """The value of a pointer."""
        if self.slip():
            return self.chosen(["I"], ["P3"], ["ADDR", "(", "A", "(", "1", ")", ")"], ["ADDR", "(", "U5", ")"], ["ADDR", "(", "1", ")"], ["NULL", "(", "1", ")"], ["U3"], ["HANG"], ["'A'"])
        address = ["ADDR", "(", self.chosen("I", "J", "K", "U1", "U4", "U7", "A"), ")"]
        call = ["HANG", "(", *self.chosen(["P1"], ["NULL"], ["P3", "(", "1", ")"], ["(", "P2", ")"]), ",", *self.chosen(["I"], ["1"], ["2"], ["3"]), ")"]
        return self.chosen(self.pointer(), self.pointer(), ["NULL"], ["NULL", "(", ")"], address, address, call)

    def variable(self, kind):
        if self.below(4):
            return super().variable(kind)
        if kind == "number":
            return self.chosen(["U1"], ["U1"], [*self.pointer(), "->", "U3"], [*self.pointer(), "->", "U1"], ["U5"], ["U8"], ["P2", "->", "U5"])
        return ["U2", "(", *self.subscript(2), ")"] if kind == "characters" else super().variable(kind)

    def leaf(self, kind):
        if self.slip():
            return self.chosen(["P1"], ["U3"], ["I", "->", "U3"], ["P1", "->", "I"], ["P3", "->", "U3"], ["U4"], ["NULL"], ["S", ".", "X", "->", "U1"], ["FACT", "->", "U3"], ["ADDR", "(", "I", ")"])
        if kind == "bits" and self.below(4) == 0:
            return ["(", *self.pointed(), self.chosen("=", "^=") if not self.slip() else self.comparison(), *self.pointed(), ")"]
        return super().leaf(kind)

    def statement(self, label):
        forms = [self.allocate, self.allocate, self.free, self.point, self.point]
        return self.chosen(*forms)() if self.below(5) == 0 else super().statement(label)

    def point(self):
        return [*self.pointer(), "=", *self.pointed(), ";"]

    def allocate(self):
        if self.slip():
            return ["ALLOCATE", *self.chosen(["U3"], ["U5"], ["P1"], ["U1", "SET", "(", "I", ")"], ["U3", "SET", "(", "P3", ")"], ["I", "SET", "(", "P1", ")"], ["U6", "SET", "(", "P1", ")"]), ";"]
        return ["ALLOCATE", *self.chosen(["U1"], ["U2"], ["U4"], ["U4"], ["U1", ",", "U4"], [self.chosen("U1", "U3", "U4"), "SET", "(", *self.pointer(), ")"]), ";"]

    def free(self):
        if self.slip():
            return ["FREE", *self.chosen(["U3"], ["U5"], ["P1"], ["I", "->", "U1"], ["P1", "->", "I"], ["U2", "(", "1", ")"], ["P2", "->", "U5"]), ";"]
        return ["FREE", *self.chosen(["U1"], ["U2"], ["U4"], [*self.pointer(), "->", self.chosen("U1", "U3", "U4")]), ";"]

    def aggregate(self):
        return self.chosen(["U4", "=", "U7", ";"], ["U7", "=", "U4", ";"]) if self.below(3) == 0 else super().aggregate()

    def unit(self):
        self.labels = 0
        first = "ALLOCATE U1 , U4 , U3 SET ( P3 ( 1 ) ) , U1 SET ( P3 ( 2 ) ) ; U6 = P1 ; U9 = P3 ( 1 ) ;".split() if self.below(6) else []
        words = [*"M : PROC OPTIONS ( MAIN ) ;".split(), *VARIABLES, *POINTING, *first, *self.list(6)]
        return [*words, *"AWAY : PUT LIST ( 'AWAY' , N , P1 = P2 , U9 = NULL ) ;".split(), *ROUTINES, *HANG, *"END M ;".split()]


class AreaGrower(PointerGrower):
    """Programs with areas and offsets, beside pointers."""

    def area(self):
        return self.chosen("W1", "W1", "W2", "W3")

    def offset(self):
        """An offset that names an area."""
        return self.chosen(["O1"], ["O1"], ["O2"], ["O3", "(", *self.subscript(2), ")"], ["E5"], ["O2", "->", "E5"], ["O5"])

    def pointer(self):
        return super().pointer() if self.below(2) else self.offset()

    def heap(self):
        call = ["HEAP", "(", self.chosen("W2", "W2", "W2", "W1") if self.slip() else "W2", ",", *self.chosen(["O3", "(", "1", ")"], ["O3", "(", "2", ")"], ["NULL"], ["(", "O1", ")"], ["E8"])]
        return [*call, ",", *self.chosen(["I"], ["0"], ["1"], ["1"], ["2"], ["3"]), ")"]

    def pointed(self):
        """The value of a pointer, or of an offset that names an area."""
        if self.slip():
            return self.chosen(["O4"], ["W1"], ["EMPTY"], ["OFFSET", "(", "P1", ",", "W1", ")"], ["POINTER", "(", "P1", ",", "W1", ")"], ["POINTER", "(", "O1", ",", "(", "W1", ")", ")"], ["POINTER", "(", "O3", ",", "W2", ")"],
                               ["POINTER", "(", "O1", ",", "O1", ")"], ["POINTER", "(", "NULL", ",", "W1", ")"], ["POINTER"], ["HEAP", "(", "W1", ",", "O1", ",", "1", ")"], ["HEAP", "(", "W2", ",", "P1", ",", "1", ")"])
        if self.below(3):
            return super().pointed()
        return self.chosen(self.offset(), ["POINTER", "(", *self.chosen(self.offset(), ["O4"], ["E8"]), ",", self.area(), ")"], self.heap(), ["ADDR", "(", self.chosen("E1", "E3", "W1"), ")"])

    def put_off(self):
        """The value of an offset, which need not name an area."""
        made = ["OFFSET", "(", *self.chosen(["O1"] if self.slip() else ["NULL"], ["P1"], ["U9"], ["ADDR", "(", "E1", ")"], ["POINTER", "(", "O4", ",", "W1", ")"]), ",", self.area(), ")"]
        return self.chosen(self.offset(), ["O4"], ["E8"], ["NULL"], made, ["EMPTY"] if self.slip() else ["O1"])

    def variable(self, kind):
        if self.below(4):
            return super().variable(kind)
        if kind == "number":
            return self.chosen(["E1"], ["E1"], ["E4"], ["E7"], [*self.offset(), "->", "U3"], ["O2", "->", "E4"])
        return ["O5", "->", "E2", "(", *self.subscript(2), ")"] if kind == "characters" and self.below(2) else super().variable(kind)

    def leaf(self, kind):
        if self.slip():
            return self.chosen(["W1"], ["O1"], ["EMPTY"], ["O4", "->", "U3"], ["W1", "->", "U3"], ["O1", "->", "I"], ["E2", "(", "1", ")"], ["ADDR", "(", "W1", ")"], ["O3"], ["LENGTH", "(", "W1", ")"], ["ALLOCATION", "(", "W1", ")"])
        if kind == "bits" and self.below(6) == 0:
            return ["(", *self.put_off(), self.chosen("=", "^="), *self.put_off(), ")"]
        if kind == "number" and self.below(16) == 0:
            return ["ALLOCATION", "(", "W3", ")"]
        return super().leaf(kind)

    def statement(self, label):
        forms = [self.allocate_within, self.allocate_within, self.free, self.set_offset, self.set_offset, self.assign_area]
        return self.chosen(*forms)() if self.below(6) == 0 else super().statement(label)

    def set_offset(self):
        return [*self.chosen(self.offset(), ["O4"], ["E8"]), "=", *self.put_off(), ";"] if self.below(2) else self.point()

    def assign_area(self):
        if self.slip():
            return self.chosen(["W1", "=", "(", "W2", ")", ";"], ["W1", "=", "I", ";"], ["W1", "=", "NULL", ";"], ["W1", "=", "A", ";"], ["A", "=", "W1", ";"], ["W1", "=", "(", "EMPTY", ")", ";"], ["EMPTY", "=", "W1", ";"])
        return [self.area(), "=", *self.chosen([self.area()], [self.area()], [self.area()], ["EMPTY"], ["EMPTY", "(", ")"]), ";"]

    def allocate_within(self):
        if self.slip():
            return ["ALLOCATE", *self.chosen(["E1", "IN", "(", "I", ")"], ["E2", "IN", "(", "W1", ")"], ["E1", "SET", "(", "O4", ")"], ["U3", "IN", "(", "W1", ")", "SET", "(", "W2", ")"], ["W1"], ["W3", "IN", "(", "W1", ")"],
                                             ["E1", "IN", "(", "EMPTY", ")"], ["E4", "IN", "(", "W1", ")", "SET", "(", "O1", ")"], ["E1", "SET", "(", "O3", ")", "IN", "(", "S", ")"]), ";"]
        within = ["IN", "(", self.area(), ")", "SET", "(", *self.pointer(), ")"]
        return ["ALLOCATE", *self.chosen(["E1"], ["E1"], ["E3"], ["E1", ",", "E3"], ["W3"], ["E2", "SET", "(", "O5", ")"], [self.chosen("E1", "U3"), *within], ["E3", "SET", "(", "O2", ")"], ["U4", "IN", "(", self.area(), ")"],
                                         ["E1", "SET", "(", "O3", "(", *self.subscript(2), ")", ")", "IN", "(", "W2", ")"]), ";"]

    def free(self):
        if self.below(2):
            return super().free()
        return ["FREE", *self.chosen(["E1"], ["E3"], ["W3"], [*self.offset(), "->", "U3"], ["O5", "->", "E2"]), ";"]

    def aggregate(self):
        return self.chosen(["E3", "=", "E6", ";"], ["E6", "=", "E3", ";"]) if self.below(3) == 0 else super().aggregate()

    def unit(self):
        self.labels = 0
        first = """ALLOCATE U1 , U4 , U3 SET ( P3 ( 1 ) ) , U1 SET ( P3 ( 2 ) ) , W3 , E1 , E3 , E1 SET ( O3 ( 1 ) ) , E1 SET ( O3 ( 2 ) ) , E2 SET ( O5 ) ;
            U6 = P1 ; U9 = P3 ( 1 ) ; E5 = O1 ; E8 = O2 ; O4 = O1 ;""".split() if self.below(6) else []
        words = [*"M : PROC OPTIONS ( MAIN ) ;".split(), *VARIABLES, *POINTING, *AREAS, *first, *self.list(6)]
        return [*words, *"AWAY : PUT LIST ( 'AWAY' , N , P1 = O1 , O2 = O4 ) ;".split(), *ROUTINES, *HANG, *HEAP, *"END M ;".split()]


class StorageGrower(AreaGrower, StackGrower):
    """Programs with storage of all classes."""

    def allocate(self):
        return self.chosen(PointerGrower, StackGrower).allocate(self)

    def free(self):
        return self.chosen(AreaGrower, StackGrower).free(self)

    def unit(self):
        words, first = super().unit(), ["ALLOCATE", "G", ",", "H", ",", "R", ",", "W", ";"] if self.below(6) else []
        start = words.index(";") + 1
        return [*words[:start], *STACKED, *first, *words[start:-3], *PUSH, *words[-3:]]


class StarGrower(StackGrower):
    """Programs with `*` for lengths and bounds of parameters."""

    def bits(self, depth):
        if self.below(4):
            return super().bits(depth)
        masked = self.chosen(["B"], ["Y", "(", "1", ")"], ["F"], self.expression("bits", depth))
        return ["MASK", "(", *masked, ",", *(self.chosen(["B"], ["A"], ["T"], ["(", "Y", ")"]) if self.slip() else self.chosen(["Y"], ["S", ".", "Y"], ["Y1"])), ")"]

    def call(self):
        if self.below(3) == 0:
            return super().call()
        text = self.chosen(["C"], ["D"], ["V"], ["M", "(", "0", ",", *self.subscript(2), ")"], ["H", "(", "1", ")"], ["T", "(", "1", ")", ".", "Q", "(", "2", ")"], self.expression("characters", 2), self.expression("number", 1),
                           self.expression("bits", 1))
        if self.slip():
            text = self.chosen(["A"], ["M"], ["S"], ["AWAY"], ["R"], text + [",", "1"])
        array = self.chosen(["A"], ["A2"])
        grid = ["M", ",", "H"]
        if self.slip():
            array = self.chosen(["M"], ["(", "A", ")"], ["1"], ["H"], ["S"], ["A", "(", "1", ")"], ["Y"])
            grid = self.chosen(["A", ",", "H"], ["M", ",", "M"], ["M", ",", "A"], ["M", ",", "'A'"], ["(", "M", ")", ",", "H"], ["M"], ["H", ",", "M"])
        return ["CALL", *self.chosen(["SHOW", "(", *text, ")"], ["SPIN", "(", *self.chosen(["V"], ["W"], text), ")"], ["EACH", "(", *array, ",", *self.chosen(["1"], ["2"], ["3"], ["I"], ["4"]), ")"], ["GRID", "(", *grid, ")"]), ";"]

    def unit(self):
        words = super().unit()
        return [*words[:-3], *STARRED, *words[-3:]]


class ConditionGrower(Conditions, Grower):
    """Programs with conditions."""


class WholeGrower(Conditions, StorageGrower):
    """Programs with conditions and storage of all classes."""

    def free(self):
        return super().free() if self.below(3) == 0 else self.allocate()


def as_program(words):
    return [("M", words)]


def shown(program):
    """What is not the same in all programs."""
    text = " ".join(program[0][1])
    for part in (VARIABLES, STACKED, POINTING, AREAS, ROUTINES, PUSH, HANG, HEAP, STARRED):
        text = text.replace(" ".join(part), "..")
    return text


def compare_sessions():
    """The answers that stand beside the sessions of some folders."""
    known, wrong = 0, []
    for path in sorted(path for folder in FOLDERS for path in (SESSIONS / folder).glob("*.session")):
        try:
            found = answers.answers_to(path)
        except answers.Unknown as unknown:
            print(f"  {path.name} asks for {unknown}, which is not known here")
            continue
        known += 1
        if found != path.with_suffix(".answers").read_text().split("\n")[:-1]:
            wrong.append(path.name)
    print(f"answers to sessions of {', '.join(FOLDERS)}: {known - len(wrong)} of {known} agree {' '.join(wrong)}", flush=True)
    return not wrong


def main():
    workbench, agree = sys.argv[1:], True
    steps = [*range(FEW_STEPS + 1), MANY_STEPS]
    agree &= compare_sessions()
    sound, faulty = Grower(mutations.Numbers(SEED), False), Grower(mutations.Numbers(SEED + 1), True)
    agree &= compare("programs grown", workbench, [as_program(sound.unit()) for _ in range(PROGRAMS)], steps, shown)
    agree &= compare("units with wrong types", workbench, [as_program(faulty.unit()) for _ in range(FAULTY)], steps[:3] + [MANY_STEPS], shown)
    sound, faulty = StackGrower(mutations.Numbers(SEED + 2), False), StackGrower(mutations.Numbers(SEED + 3), True)
    agree &= compare("programs with controlled storage", workbench, [as_program(sound.unit()) for _ in range(PROGRAMS)], steps, shown)
    faulted = [as_program(faulty.unit()) for _ in range(FAULTY_STACKS)]
    agree &= compare("units with wrong types and controlled storage", workbench, faulted, [MANY_STEPS], shown)
    sound, faulty = PointerGrower(mutations.Numbers(SEED + 4), False), PointerGrower(mutations.Numbers(SEED + 5), True)
    agree &= compare("programs with pointers", workbench, [as_program(sound.unit()) for _ in range(PROGRAMS)], steps, shown)
    faulted = [as_program(faulty.unit()) for _ in range(FAULTY_POINTERS)]
    agree &= compare("units with wrong types and pointers", workbench, faulted, [MANY_STEPS], shown)
    sound, faulty = AreaGrower(mutations.Numbers(SEED + 6), False), AreaGrower(mutations.Numbers(SEED + 7), True)
    agree &= compare("programs with areas", workbench, [as_program(sound.unit()) for _ in range(PROGRAMS)], steps, shown)
    faulted = [as_program(faulty.unit()) for _ in range(FAULTY_AREAS)]
    agree &= compare("units with wrong types and areas", workbench, faulted, [MANY_STEPS], shown)
    sound, whole, faulty = ConditionGrower(mutations.Numbers(SEED + 8), False), WholeGrower(mutations.Numbers(SEED + 9), False), WholeGrower(mutations.Numbers(SEED + 10), True)
    agree &= compare("programs with conditions", workbench, [as_program(sound.unit()) for _ in range(PROGRAMS)], steps, shown)
    agree &= compare("programs with conditions and all storage", workbench, [as_program(whole.unit()) for _ in range(PROGRAMS)], steps, shown)
    faulted = [as_program(faulty.unit()) for _ in range(FAULTY_CONDITIONS)]
    agree &= compare("units with wrong types, conditions and all storage", workbench, faulted, [MANY_STEPS], shown)
    sound, faulty = StarGrower(mutations.Numbers(SEED + 11), False), StarGrower(mutations.Numbers(SEED + 12), True)
    agree &= compare("programs with asterisks", workbench, [as_program(sound.unit()) for _ in range(PROGRAMS)], steps, shown)
    agree &= compare("units with wrong types and asterisks", workbench, [as_program(faulty.unit()) for _ in range(FAULTY_STARS)], [MANY_STEPS], shown)
    sys.exit(not agree)


if __name__ == "__main__":
    main()
