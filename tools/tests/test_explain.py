"""What is said of a code."""
import sys
import unittest

from examples import TOP

sys.path.insert(0, str(TOP / "tools" / "pli"))
from pages import explain  # noqa: E402


class Explain(unittest.TestCase):
    def test_a_code_in_either_case(self):
        text = explain("p7")
        self.assertTrue(text.startswith("P7 THEN EXPECTED\n\nWrong:\n    M: PROC OPTIONS(MAIN);\n"), text)
        self.assertIn("\n\nRight:\n    M: PROC OPTIONS(MAIN);\n", text)
        self.assertTrue(text.endswith("    END M;\n"), text)
        self.assertNotIn("```", text)
        self.assertEqual(text, explain("P7 THEN EXPECTED"))

    def test_the_last_code_of_a_part_ends_with_it(self):
        self.assertNotIn("# ", explain("X6"))
        self.assertNotIn("Usual mistakes", explain("L8"))

    def test_endings_by_their_words(self):
        for ending in ("OUT OF STEPS", "machine  fault", "No Memory"):
            self.assertTrue(explain(ending).startswith(" ".join(ending.upper().split())), ending)

    def test_what_is_no_code(self):
        for code in ("", " ", "A16", "Q1", "A", "1", "OUT", "A1A", "../A1"):
            self.assertIsNone(explain(code), code)


if __name__ == "__main__":
    unittest.main()
