"""The statements of an outline, beside those of the second opinion's reader."""
import sys
import unittest
from pathlib import Path

TOP = Path(__file__).resolve().parents[2]
sys.path[:0] = [str(TOP / "bench"), str(TOP / "tools" / "pli")]
import grown  # noqa: E402
import mutations  # noqa: E402
import reader  # noqa: E402
from outline import statements  # noqa: E402
from scan import scan  # noqa: E402

NAMES = "A B IF DO PUT ELSE THEN END LIST DCL ON CALL PROC".split()
UNITS = 200


class Placed(reader.Statements):
    """The reader of a unit, which keeps where each statement begins."""

    def __init__(self, tokens):
        super().__init__(tokens)
        self.starts = []

    def begin_statement(self):
        super().begin_statement()
        self.starts.append(self.at)


class Statements(unittest.TestCase):
    def check(self, text):
        placed = Placed(reader.tokens_of(text.split("\n")))
        placed.unit()
        self.assertEqual([each.start for each in statements(scan(text, ""))], placed.starts, text)

    def test_programs(self):
        lines = (TOP / "bench" / "programs.txt").read_text().splitlines()
        for line in lines:
            if not line.startswith(("#", "==")):
                self.check(f"M: PROC OPTIONS(MAIN);\n{line.upper()}\nEND M;")

    def test_keywords_as_names(self):
        grower = grown.Grower(mutations.Numbers(1), NAMES)
        for _ in range(UNITS):
            self.check("\n".join(grower.unit()))


if __name__ == "__main__":
    unittest.main()
