#!/usr/bin/env python3
"""mutations.py PROGRAM [ARGUMENT..]: compares the workbench with reader.py, which is written from the grammar alone.

For each comparison it prints how many agreed and the first ten that did not:
  the texts of texts.txt, whose answers were worked out by hand, with reader.py and with the program;
  1,000 units grown from the grammar (grown.py), which read, with both;
  reader.py with the program on 1,000 units grown with keywords as names;
  reader.py with the program on 5,000 mutations of the texts and 3,000 of the units: tokens deleted, doubled, swapped, or replaced.
Each token is typed on a line of its own, so that the line of a diagnostic tells the token. Where a text reads, the program may answer
BUILT or any diagnostic but P, X and I. All is the same every time. Without PROGRAM only reader.py is compared.
"""
import re
import subprocess
import sys
from pathlib import Path

import grown
import reader

TEXTS = Path(__file__).resolve().parent / "texts.txt"
MUTATIONS = 5000
UNITS = 1000
MUTATED_UNITS = 3000
SEED = 20261122
SHOWN = 10
LONG = 500

# What a token may be replaced by.
OTHERS = """
    ; ; ; ; : = = ( ( ) ) , , . -> + - * ^ < <= >= ^= || & | 1 5 0 00 101B 'A' '' '10'B
    A X M L F IF THEN THEN ELSE ELSE DO WHILE TO BY REPEAT END END PROC PROCEDURE OPTIONS MAIN RETURNS RECURSIVE BEGIN ON REVERT SIGNAL
    STOP ALLOCATE IN SET FREE CALL GOTO GO RETURN PUT SKIP LIST AREA FOFL FIXEDOVERFLOW ZDIV ZERODIVIDE DECLARE DCL FIXED BIN BINARY
    CHAR CHARACTER BIT VAR VARYING PTR POINTER OFFSET BASED CTL CONTROLLED STATIC AUTO AUTOMATIC EXT EXTERNAL INT INTERNAL BUILTIN
    ENTRY INIT INITIAL NULL
""".split()


class Numbers:
    """A linear congruential generator of 64 bits, of which the upper 32 are used (Knuth's multiplier)."""

    def __init__(self, seed):
        self.state = seed

    def below(self, bound):
        self.state = (self.state * 6364136223846793005 + 1442695040888963407) % 2**64
        return (self.state >> 32) % bound


def written_out(text):
    """The words of a text with each `[3 A B ]` written out."""
    words, bracket = [], None
    for word in text.split():
        if word.startswith("["):
            bracket = int(word[1:]), len(words)
        elif word == "]":
            times, start = bracket
            words[start:] = words[start:] * times
        else:
            words.append(word)
    return words


def worked_texts():
    """The texts worked out by hand: tokens and answer, which is `reads`, or the code and the token."""
    for line in TEXTS.read_text().splitlines():
        if line and not line.startswith("#"):
            answer, _, text = line.partition(" ")
            words = written_out(text)
            if answer == "reads":
                yield words, "reads"
            else:
                at = words.index("@")
                yield words[:at] + words[at + 1 :], (answer, at)


def read_answer(words):
    """What the reader says of a text: `reads`, or the code and the token."""
    answer = reader.read(words)
    if answer[0] == "tree":
        return "reads"
    code, line, token = answer
    assert line == token + 1
    return code, token


def place(numbers, words):
    """A place of a text, seldom one of its first four tokens."""
    at = numbers.below(len(words))
    return numbers.below(len(words)) if at < 4 and numbers.below(4) else at


def mutate(numbers, words):
    """A text with one change or two."""
    words = list(words)
    for _ in range(1 + numbers.below(3) // 2):
        if not words:
            break
        at = place(numbers, words)
        change = numbers.below(4)
        if change == 0:
            del words[at]
        elif change == 1:
            words.insert(at, words[at])
        elif change == 2:
            other = min(at + 1 + numbers.below(3), len(words) - 1)
            words[at], words[other] = words[other], words[at]
        else:
            words[at] = OTHERS[numbers.below(len(OTHERS))]
    return words


def mutations(texts, good):
    """The mutations: half of any text, half of those that read; of a long text one in four is kept."""
    numbers, made = Numbers(SEED), 0
    while made < MUTATIONS:
        chosen = good if numbers.below(2) else texts
        words = chosen[numbers.below(len(chosen))]
        if len(words) < LONG or numbers.below(4) == 0:
            made += 1
            yield mutate(numbers, words)


def session(texts):
    """The commands that type, build and delete each text."""
    for words in texts:
        yield "ADD M SOURCE"
        for number, word in enumerate(words):
            yield f"INSERT M {number} {word}"
        yield "BUILD"
        yield "DELETE M"


def expect_ok(answers, count):
    for _ in range(count):
        answer = next(answers, "nothing")
        if answer != "OK":
            sys.exit(f"an edit was answered {answer}")


def built(answers):
    """The first line that a build answers."""
    first = line = next(answers, "nothing")
    while line not in ("BUILT", "NOT BUILT"):
        line = next(answers, None)
        if line is None:
            sys.exit(f"a build was answered {first} and no end")
    return first


def program_answers(program, texts):
    """What the program says of each text, as the reader does; a diagnostic that is not expected stands whole."""
    given = "".join(command + "\n" for command in session(texts)).encode()
    ended = subprocess.run(program, input=given, stdout=subprocess.PIPE, check=True)
    answers = iter(ended.stdout.decode().splitlines())
    for words in texts:
        expect_ok(answers, 1 + len(words))
        first = built(answers)
        expect_ok(answers, 1)
        found = re.match(r"M M:([0-9]+) (P[0-9]+) ", first)
        if found:
            yield found[2], int(found[1]) - 1 if words else 0
        else:
            yield first if re.match(r"M M:[0-9]+ [XI][0-9]", first) else "reads"


def spoken(answer):
    return answer if isinstance(answer, str) else f"{answer[0]} at {answer[1]}"


def excerpt(words, *answers):
    """A text; of a long one what stands around the places of the answers."""
    if len(words) <= 60:
        return " ".join(words)
    places = [answer[1] for answer in answers if not isinstance(answer, str)] or [0]
    start, end = max(min(places) - 20, 0), max(places) + 10
    return f"{len(words)} tokens, from {start}: " + " ".join(words[start:end][:80])


def compare(title, texts, wanted, got):
    """Prints how many agree and the first that do not; answers whether all do."""
    wrong = [(words, want, is_now) for words, want, is_now in zip(texts, wanted, got, strict=True) if want != is_now]
    print(f"{title}: {len(texts) - len(wrong)} of {len(texts)} agree")
    for words, want, is_now in wrong[:SHOWN]:
        print(f"  {spoken(want)}, not {spoken(is_now)}: {excerpt(words, want, is_now)}")
    return not wrong


def units(names):
    """Units grown from the grammar with these names."""
    grower = grown.Grower(Numbers(SEED), names)
    return [grower.unit() for _ in range(UNITS)]


def mutated_units(some):
    numbers = Numbers(SEED + 1)
    return [mutate(numbers, some[numbers.below(len(some))]) for _ in range(MUTATED_UNITS)]


def compare_reader(title, texts, wanted):
    return compare(f"{title}, and the reader", texts, wanted, [read_answer(words) for words in texts])


def compare_program(title, program, texts, wanted=None):
    """The program with the answers that are wanted, or else with the reader's."""
    wanted = wanted or [read_answer(words) for words in texts]
    return compare(f"{title}, and the program", texts, wanted, program_answers(program, texts))


def main():
    program = sys.argv[1:]
    texts, wanted = map(list, zip(*worked_texts()))
    plain, read = units(grown.PLAIN), ["reads"] * UNITS
    agree = compare_reader("texts worked out by hand", texts, wanted)
    agree &= compare_reader("units grown from the grammar", plain, read)
    if program:
        good = [words for words, want in zip(texts, wanted) if want == "reads"]
        named = units(grown.PLAIN + grown.KEYWORDS)
        agree &= compare_program("texts worked out by hand", program, texts, wanted)
        agree &= compare_program("mutations of the texts: the reader", program, list(mutations(texts, good)))
        agree &= compare_program("units grown from the grammar", program, plain, read)
        agree &= compare_program("units with keywords as names: the reader", program, named)
        agree &= compare_program("mutations of the units: the reader", program, mutated_units(plain + named))
    sys.exit(not agree)


if __name__ == "__main__":
    main()
