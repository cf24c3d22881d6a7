"""What is warned of, and what is not."""
import sys
import unittest

from examples import TOP

sys.path.insert(0, str(TOP / "tools" / "pli"))
from files import Member  # noqa: E402
from warn import warnings  # noqa: E402


def warned(text, included=""):
    """The warnings of a unit, each with its place."""
    tokens, others = (Member("M", "SOURCE", each.encode().split(b"\n")).items for each in (text, included))
    tokens[-3:-3] = others
    return [f"{place.line}:{place.column} {line}" for place, line in warnings(tokens)]


def body(text):
    return f"M: PROC OPTIONS(MAIN);\n{text}\nEND M;\n"


class Warn(unittest.TestCase):
    def expect(self, text, *lines):
        self.assertEqual([line.split(":", 1)[1] for line in warned(body(text))], list(lines))

    def test_a_comment_within_a_comment(self):
        told = "/* within a comment: comments do not nest, this one ends at the first */"
        self.expect("/* X = 1; /* OLD */", f"11 {told}")
        self.assertEqual(warned(body("/* ONE\n  TWO /* THREE */")), [f"3:7 {told}"])
        self.expect("/* ONE */ /* TWO */ /*/ THREE */ PUT LIST('/* /*');")

    def test_names_that_are_never_used(self):
        self.expect("DCL X BIT;", "5 X is declared and never used")
        self.expect("DCL (X, Y) BIT; X = '1'B;", "9 Y is declared and never used")
        self.expect("DCL 1 S, 2 A BIT, 2 B BIT;", "7 S is declared and never used")
        self.expect("DCL F ENTRY;", "5 F is declared and never used")
        self.expect("S: PROC; END S;", "1 S is a procedure that is never called")

    def test_names_that_are_used(self):
        self.expect("DCL X BIT; X = '1'B;")
        self.expect("DCL X BIT EXTERNAL;")
        self.expect("DCL 1 S, 2 A BIT, 2 B BIT; B = '1'B;")
        self.expect("DCL 1 S, 2 A BIT, 1 T, 2 A BIT; T = S;")
        self.expect("CALL S; S: PROC; END S;")
        self.expect("CALL S('1'B); S: PROC(P); DCL P BIT; END S;")
        self.expect("DCL P POINTER, X BIT BASED(P); X = '1'B;")
        self.assertEqual(warned(body(""), included="DCL X BIT;"), [])

    def test_strings_that_are_cut(self):
        self.expect("DCL X CHAR(3); X = 'FOUR';", "20 this constant is cut: X has 3 characters")
        self.expect("DCL X CHAR; X = 'IT';", "17 this constant is cut: X has 1 character")
        self.expect("DCL X VAR CHARACTER(3); IF X = '' THEN X = 'FOUR';", "44 this constant is cut: X has 3 characters")
        self.expect("DCL X(2) CHAR(3) INIT('ONE', 'FOUR'); X(1) = X(2);", "30 this constant is cut: X has 3 characters")
        self.expect("DCL X(2) CHAR(3); X(1 + 1) = 'FOUR';", "30 this constant is cut: X has 3 characters")
        self.expect("DCL (X, Y) CHAR(2) INIT('ONE'); X = Y;", "25 this constant is cut: Y has 2 characters")

    def test_numbers_that_are_too_large(self):
        told = "is beyond X, whose numbers go up to 32767: E9 FIXEDOVERFLOW when it is assigned"
        self.expect("DCL X FIXED BIN; X = 32768;", f"22 32768 {told}")
        self.expect("DCL X FIXED(15) BIN; X = -40000;", f"27 -40000 {told}")
        told = "25 1000B is beyond X, whose numbers go up to 7: E9 FIXEDOVERFLOW when it is assigned"
        self.expect("DCL X FIXED BIN(3); X = 1000B;", told)

    def test_only_what_is_sure(self):
        self.expect("DCL X CHAR(3); X = 'IT''';")
        self.expect("DCL X CHAR(4); X = 'FOUR'; X = 'FOUR' || 'FIVE'; X = Y;")
        self.expect("DCL X FIXED BIN(15); X = 32767; X = -32767; X = 40000 - 10000;")
        self.expect("DCL X CHAR(3); BEGIN; DCL X CHAR(4); X = 'FOUR'; END;")
        self.expect("DCL X CHAR(3); IF X = 'FOUR' THEN ; DO X = 'FOUR' REPEAT X; END; PUT LIST(X = 'FOUR');")
        self.expect("DCL X BIT(1); X = '11'B;")

    def test_texts_that_are_not_good(self):
        bad = "M: PROC; DCL 1; DCL ,; DCL X CHAR(; X = 'A';"
        for text in ("", "M", "M: PROC", "DCL", "DCL;", "M: PROC; DCL (X", "M: PROC; DCL X(", bad):
            warned(text)


if __name__ == "__main__":
    unittest.main()
