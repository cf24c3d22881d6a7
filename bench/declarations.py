#!/usr/bin/env python3
"""declarations.py [PROGRAM [ARGUMENT..]]: compares the workbench with faults.py, which is written from the rules of declarations alone.

It prints how many units agreed, and of those that did not the twenty shortest, each with its lines as expected and as answered:
  the units of declarations.txt, whose faults were worked out by hand, with faults.py and with the program;
  faults.py with the program on 2,000 units grown at random, rich in declarations and with few names;
  faults.py with the program on 3,000 mutations of them: tokens dropped, doubled or swapped.
Each token is typed on a line of its own, so that the line of a diagnostic tells the token. Where a unit has no fault P or A, the
program may answer BUILT or any later diagnostic. All is the same every time. How often each code is expected is printed before.
Without PROGRAM only faults.py is compared.
"""
import re
import subprocess
import sys
from collections import Counter
from pathlib import Path

import faults
import mutations
import reader

UNITS = 2000
MUTATIONS = 3000
SEED = 19760804
SHOWN = 20
FEWEST, MOST, MOST_OF_LONG = 25, 90, 400

TEXTS = """
    P1 NO PROCEDURE, P2 NOT A STATEMENT, P3 EXPRESSION EXPECTED, P4 PARENTHESIS EXPECTED, P5 SEMICOLON EXPECTED, P6 NAME EXPECTED,
    P7 THEN EXPECTED, P8 WRONG END NAME, P9 END MISSING, P10 TEXT AFTER END, P11 BAD DO, P12 BAD ATTRIBUTE, P13 CONSTANT EXPECTED,
    P14 BAD LABEL, P15 BAD CONDITION, P16 NESTED TOO DEEP, P17 MISPLACED STATEMENT, P18 BAD OPTION,
    A1 NOT DECLARED, A2 DECLARED TWICE, A3 ATTRIBUTES CONFLICT, A4 ATTRIBUTES MISSING, A5 BAD PRECISION, A6 BAD LENGTH, A7 BAD BOUNDS,
    A8 BAD LEVEL, A9 BAD INITIAL, A10 AMBIGUOUS, A11 BAD GOTO, A12 BAD LOCATOR OR AREA NAME, A13 AREA NOT ALLOWED HERE,
    A14 TOO MANY PARAMETERS, A15 GENERATION TOO LARGE
"""
TEXT_OF = dict(text.split(maxsplit=1) for text in " ".join(TEXTS.split()).split(", "))

NAMES = "A B C D E X Y Z P Q S T".split()
MEMBERS = "X Y Z".split()

# How units are grown. Words in lower case are grown in turn, or are a method of Grower; `{` and `}` are about a block, `[` and `]`
# about a list. An alternative after `~` has its parts in any order, one after `3x` is taken three times as often, and one after `!`
# only where a slip is made.
GRAMMAR = """
    unit = M : PROC { inside } END M ;
    inside = 2x body | OPTIONS ( MAIN ) body | RECURSIVE returning body | ( first ) ; DCL first odims type body
        | ( first , second ) returning ; DCL second type , first type body | ( first ) ; DCL first starred body
        | ( first , second ) ; DCL first starred , second starred body | ! ( first , second ) ; DCL first type body
        | ! ( first ) OPTIONS ( MAIN ) ; DCL first type body | ! ( first ) ; DCL first scalar body | ! OPTIONS ( MAIN ) returning body
        | ! returning returning body | ! many_parameters
    body = ; [ DCL items ; rest ]
    rest = 3x | 2x DCL items ; rest | 4x part rest
    part = label : statement | 3x statement | new : PROC { inside } END ;
    group = 2x | label : statement group | statement group | DCL items ; group
    items = 2x item | 2x item , items
    statement = 5x ref = expression ; | 3x GOTO reached ; | FREE ref ; | CALL simple ; | PUT LIST ( expression ) ; | ALLOCATE simple ;
        | ALLOCATE simple IN ( ref ) SET ( ref ) ; | IF expression THEN statement | DO ref = expression TO ref ; [ group ] END ;
        | 3x DO ; [ group ] END ; | BEGIN ; { [ DCL items ; rest ] } END ; | 3x ON AREA acted | ! GOTO anywhere ; | ! GOTO name ;
    acted = 4x GOTO reached ; | ref = ref ; | BEGIN ; { [ DCL items ; rest ] } END ; | ! GOTO anywhere ;
    expression = 4x ref | ref + ref | 5 | function ( ref ) | ^ ( ref )
    ref = 6x known | known ( ref ) | locator -> known | ! name | ! known . name | ! name . known | ! member_name
        | ! member_name . member_name
    function = ABS | NULL | MAX | POINTER | OFFSET | ! PTR

    item = 3x one new odims scalar | structure , structure | ( new , new ) odims scalar | 4x structure | new_area areal
        | 2x new_locator located | based | entry | builtin
    one = 4x | 1 | ! 0 | ! 2 | ! 256
    scalar = 3x type | 2x initialled | ~ type storage | ~ initialled storage
    type = 2x ~ fixed BIN | 2x ~ FIXED binary | 2x CHAR length | ~ character VAR | 2x bit | PTR | offset | ! FIXED | ! VAR | !
        | ! ~ bit VAR | ! ~ fixed binary | ! ~ fixed character | ! ~ bit returning | ! returning | ! ~ bit PTR | ! STATIC
    initialled = ~ fixed BIN numbers | ~ character characters | ~ bit bits | ~ PTR nulls | ~ offset nulls | ! ~ bit characters
        | ! ~ character numbers | ! ~ PTR bits | ! ~ fixed BIN nulls | ! ~ fixed BIN characters
    fixed = FIXED | 3x FIXED precision
    binary = BIN | 3x BIN precision
    precision = ( 15 ) | ( 31 ) | ( 63 ) | ( 3 ) | ( 101B ) | ( 32 , 0 ) | ! ( 0 ) | ! ( 64 ) | ! ( 1000000B )
    character = CHAR length
    bit = BIT length
    length = 3x | ( 5 ) | ( 80 ) | ( 1000 ) | ( 32767 ) | ! ( 0 ) | ! ( 32768 ) | ! ( * )
    starred = any_characters | BIT ( * ) | ( stars ) type | ( stars ) any_characters | dims BIT ( * ) | ! ( * , bounds ) type
        | ! ( stars ) area | ! AREA ( * ) | ! ~ any_characters storage
    any_characters = CHAR ( * ) | CHAR ( * ) VAR
    stars = 2x * | * , stars
    offset = OFFSET in_area | ! OFFSET ( name )
    storage = STATIC | AUTO | CTL | BASED | EXT | INT | ~ STATIC EXT | ~ CTL EXT | ! ~ STATIC CTL | ! ~ AUTO EXT | ! EXT INT
        | ! ~ BASED EXT | ! INT INT
    numbers = 6x INIT ( number ) | INIT ( number , number ) | INIT ( ( 3 ) number ) | INIT ( ( 2 ) 1 , number )
    number = 1 | 7 | - 7 | 32767 | + 101B | ! 32768 | ! 999999 | ! 9223372036854775807
    characters = 5x INIT ( 'ABC' ) | INIT ( 'A' , '' )
    bits = 5x INIT ( '1'B ) | INIT ( 'F0'B4 , ''B )
    nulls = 5x INIT ( NULL ) | INIT ( NULL ( ) , NULL )
    odims = 3x | dims
    dims = ( bounds ) | ! ( 1 , 1 , 1 , 1 , 1 , 1 , 1 , 1 , 2 )
    bounds = 3x bound | bound , bounds
    bound = 2 | 3 | 0 : 2 | - 1 : 1 | 5 : 5 | 1000 | - 32767 : 32767 | ! 0 | ! 3 : 2 | ! - 4 | ! 32768 | ! - 32768 : 1
        | ! *

    structure = one new odims top , two member otype , two member odims otype | one new odims top , two member , three member otype
        | one new odims top , two member odims otype , two member , three member otype , three member otype
        | one new top , two member odims , three member initialled , two member otype
    top = 3x | storage | BASED by_locator | ! bit | ! VAR | ! numbers | ! ENTRY
    otype = 6x type | initialled | ! AREA | ! ~ type storage | ! ENTRY | ! BUILTIN
    two = 2 | ! 0 | ! 1 | ! 3 | ! 5 | ! 256 | ! 300
    three = 2x 3 | 4 | 255 | ! 2 | ! 300
    areal = 3x area | ~ area CTL | ~ area STATIC | ! dims area | ! ~ area BASED | ! ~ area numbers
    area = AREA | AREA ( 64 ) | AREA ( 1000000 ) | ! AREA ( 0 ) | ! AREA ( 1000001 )
    located = 2x PTR | 2x offset | PTR CTL | ! dims PTR | ! ~ PTR BASED | ! ~ PTR ENTRY | ! ~ PTR bit
    based = new based_on
    based_on = ~ type by_name | ~ initialled by_name | ! ~ area by_name | ! ~ type by_name EXT
    by_name = BASED by_locator | ! BASED ( name ) | ! BASED ( known )
    entry = one new entered | ! new dims entered
    entered = 2x ENTRY | ENTRY ( ) | ~ described returning | ~ described EXT | ENTRY ( parts ) | many_parts
        | ! ~ ENTRY STATIC | ! ~ ENTRY bit
    described = ENTRY ( parts )
    parts = 2x described_part | described_part , parts
    described_part = 4x odims type | area | 2x starred | ! dims area | ! ~ type STATIC | ! BUILTIN | ! ENTRY
    returning = RETURNS ( result )
    result = 3x type | ! AREA | ! ~ type INT
    builtin = function BUILTIN | ! new BUILTIN | ! function dims BUILTIN | ! function BUILTIN EXT | ! 2 function BUILTIN
"""


def rules_of(grammar):
    """For each rule its good and its wrong alternatives, each whether its parts stand in any order, and the parts."""
    rules = {}
    for text in re.split(r"\n\s*(?=\w+ = )", grammar.strip()):
        rule, _, alternatives = text.partition(" = ")
        rules[rule] = [], []
        for alternative in alternatives.split("|"):
            parts = alternative.split()
            wrong = parts[:1] == ["!"]
            parts = parts[wrong:]
            times = int(parts.pop(0)[0]) if parts and re.fullmatch(r"\dx", parts[0]) else 1
            shuffled = parts[:1] == ["~"]
            rules[rule][wrong].extend([(shuffled, parts[shuffled:])] * times)
    return rules


class Grower:
    """Grows units; of a hundred choices that can be wrong `careless` are.

    Each open block has the names that it declares and what they may be used as; each open list has its labels.
    """

    def __init__(self, numbers):
        self.numbers, self.rules = numbers, rules_of(GRAMMAR)
        self.marks = {"{": self.open_block, "}": self.close_block, "[": self.open_list, "]": self.close_list}

    def unit(self):
        while True:
            self.careless = self.any([0, 2, 4, 7, 15])
            self.blocks, self.lists, self.labels, self.is_long = [], [], [], False
            words = self.grow("unit")
            if FEWEST <= len(words) <= (MOST_OF_LONG if self.is_long else MOST):
                return words

    def any(self, choices):
        return choices[self.numbers.below(len(choices))]

    def slip(self):
        return self.numbers.below(100) < self.careless

    def grow(self, rule):
        good, wrong = self.rules[rule]
        shuffled, parts = self.any(wrong if wrong and self.slip() else good)
        grown = [self.part(part) for part in parts]
        words = []
        while grown:
            words += grown.pop(self.numbers.below(len(grown)) if shuffled else 0)
        return words

    def part(self, part):
        if part in self.rules:
            return self.grow(part)
        if part in self.marks:
            self.marks[part]()
            return []
        return getattr(self, part)() if part.islower() else [part]

    def open_block(self):
        self.blocks.append({"names": {}, "known": [], "area": [], "locator": []})

    def close_block(self):
        self.blocks.pop()

    def open_list(self):
        self.lists.append([])

    def close_list(self):
        self.lists.pop()

    def name(self):
        return [self.any(NAMES)]

    def new(self, *uses):
        """A name that the block has not yet."""
        block = self.blocks[-1]
        free = [name for name in NAMES if name not in block["names"]]
        name = self.any(NAMES if self.slip() or not free else free)
        block["names"][name] = self.root = name
        for use in ("known", *uses):
            block[use].append([name])
        return [name]

    def new_area(self):
        return self.new("area")

    def new_locator(self):
        return self.new("locator")

    def member(self):
        name = self.member_name()
        self.blocks[-1]["known"].append([self.root, *name])
        return name

    def parameter(self, number):
        """The block's parameter of this number."""
        names = self.blocks[-1]["names"]
        if number not in names:
            names[number] = self.new()[0]
        return [names[number]]

    def first(self):
        return self.parameter(1)

    def second(self):
        return self.parameter(2)

    def label(self):
        label = self.new()
        self.lists[-1].append(label)
        self.labels.append(label)
        return label

    def reached(self):
        """A label of a list that encloses this place."""
        labels = [label for labels in self.lists for label in labels]
        return self.any(labels) if labels else self.anywhere()

    def anywhere(self):
        return self.any(self.labels) if self.labels else self.name()

    def used(self, use):
        return [path for block in self.blocks for path in block[use]]

    def known(self):
        """A known item, its names in full or in part."""
        path = self.any(self.used("known") or [self.name()])
        return path[:1] + [".", path[1]] if len(path) > 1 and self.numbers.below(2) else path[-1:]

    def member_name(self):
        return [self.any(MEMBERS)]

    def simple(self):
        return self.known()[-1:]

    def locator(self):
        return self.any(self.used("locator") or [self.name()])

    def enclosed(self, use):
        """A known name in parentheses, or nothing."""
        if self.slip():
            return ["(", *self.known(), ")"] if use == "locator" else ["(", *self.name(), ")"]
        paths = self.used(use)
        return ["(", *self.any(paths), ")"] if paths and self.numbers.below(3) else []

    def in_area(self):
        return self.enclosed("area")

    def by_locator(self):
        return self.enclosed("locator")

    def many_parts(self):
        self.is_long = True
        return ["ENTRY", "(", "BIT", *[",", "BIT"] * self.any([63, 64, 64]), ")"]

    def many_parameters(self):
        self.is_long = True
        names = [word for number in range(self.any([64, 65])) for word in (",", f"N{number}")]
        return ["(", *names[1:], ")", ";", "DCL", "(", *names[1:], ")", "BIT", *self.grow("body")]


def sort_of(word):
    """Words of one sort, but for signs, may often stand for each other."""
    if word in NAMES or word.isdigit():
        return "name" if word in NAMES else "number"
    return "attribute" if reader.ABBREVIATIONS.get(word, word) in reader.PLAIN_ATTRIBUTES else "sign"


def mutate(numbers, words):
    """A unit with a token dropped, doubled, or swapped with one near it or, mostly, with one of its sort."""
    words = list(words)
    at = 3 + numbers.below(len(words) - 3)
    change = numbers.below(10)
    if change < 2:
        words[at : at + 1] = [words[at]] * (2 * change)
        return words
    other = min(at + 1 + numbers.below(3), len(words) - 1)
    if change > 2:
        at = next(place for place in [*range(at, len(words)), *range(3, at)] if sort_of(words[place]) != "sign")
        alike = [place for place in range(3, len(words)) if sort_of(words[place]) == sort_of(words[at]) and place != at]
        other = alike[numbers.below(len(alike))] if alike else at
    words[at], words[other] = words[other], words[at]
    return words


def worked_units():
    """The units worked out by hand: tokens, and the faults, each a token and a code."""
    for line in (Path(__file__).resolve().parent / "declarations.txt").read_text().splitlines():
        if line and not line.startswith("#"):
            words, expected = [], []
            for word in mutations.written_out(line):
                if word.startswith("@"):
                    expected.append((len(words), word[1:]))
                else:
                    words.append(word)
            yield words, expected


def lines_of(expected):
    return [f"M M:{at + 1} {code} {TEXT_OF[code]}" for at, code in expected]


def program_answers(program, units):
    """The diagnostics that the program answers to each unit."""
    given = "".join(command + "\n" for command in mutations.session(units)).encode()
    ended = subprocess.run(program, input=given, stdout=subprocess.PIPE, check=True)
    answers = iter(ended.stdout.decode().splitlines())
    for words in units:
        mutations.expect_ok(answers, 1 + len(words))
        diagnostics = []
        while (line := next(answers, None)) not in ("BUILT", "NOT BUILT"):
            if line is None:
                sys.exit("a build was not answered")
            diagnostics.append(line)
        mutations.expect_ok(answers, 1)
        yield diagnostics


def at_word(line, words):
    """The token that a diagnostic's line tells."""
    found = re.match(r"M M:([0-9]+) ", line)
    return f", at {words[int(found[1]) - 1]}" if found and int(found[1]) <= len(words) else ""


def compare(title, units, expected, answered):
    """Prints how many agree and the shortest that do not; answers whether all do."""
    wrong = []
    for words, want, is_now in zip(units, expected, answered, strict=True):
        if not want:
            is_now = [line for line in is_now if re.match(r"M M:\d+ [PAXI]\d", line)]
        if want != is_now:
            wrong.append((words, want, is_now))
    print(f"{title}: {len(units) - len(wrong)} of {len(units)} agree", flush=True)
    for words, want, is_now in sorted(wrong, key=lambda one: len(one[0]))[:SHOWN]:
        print(f"  {' '.join(words)}")
        for side, lines, others in [("expected", want, is_now), ("answered", is_now, want)]:
            for line in [line for line in lines if line not in others]:
                print(f"    {side} {line}{at_word(line, words)}")
    return not wrong


def count(title, expected):
    """Prints how often each code is expected."""
    codes = Counter(line.split()[2] for lines in expected for line in lines)
    table = ", ".join(f"{code} {codes[code]}" for code in TEXT_OF if code in codes)
    print(f"{title}: {len(expected)}, {sum(not lines for lines in expected)} without a fault; {table}", flush=True)


def main():
    program = sys.argv[1:]
    table, worked = map(list, zip(*worked_units()))
    worked = [lines_of(expected) for expected in worked]
    grower = Grower(mutations.Numbers(SEED))
    some = [grower.unit() for _ in range(UNITS)]
    numbers = mutations.Numbers(SEED + 1)
    mutated = [mutate(numbers, some[numbers.below(UNITS)]) for _ in range(MUTATIONS)]
    agree = True
    for title, units in [("units worked out by hand", table), ("units grown", some), ("mutations of them", mutated)]:
        expected = [lines_of(faults.faults_of(words)) for words in units]
        count(title, expected)
        if units is table:
            agree &= compare(f"{title}, and faults.py", units, worked, expected)
            expected = worked
        if program:
            agree &= compare(f"{title}, and the program", units, expected, program_answers(program, units))
    sys.exit(not agree)


if __name__ == "__main__":
    main()
