"""The schedule by which the program is proved: its order, its length, and what it reads of the repository."""
import sys
import unittest
from pathlib import Path

TOP = Path(__file__).resolve().parent.parent.parent
sys.path.insert(0, str(TOP / "tools" / "prove"))
import schedule  # noqa: E402
from kit import Kit  # noqa: E402

LIST = """# crates
low:
left: low itoa
right: low
app status=3: right left
apart: low
"""
USES = {"low": [], "right": ["low"], "left": ["low"], "app": ["right", "left"]}
MINUTES = {"low": 2, "left": 1, "right": 3, "app": 1}
PAGE = """
| Crate | Code | Proof | Tests |
|---|---|---|---|
| `low` | 12 | 2.5 | 1.0 |
| `law` |  |  | |
| all | 12 | 2.5 | |
"""


def repository():
    """The crates of the program of this repository, and the minutes of their proofs."""
    every = schedule.listed((TOP / "crates.txt").read_text())
    uses = {name: every[name] for name in schedule.below(every, "pliwb")}
    known = schedule.measured((TOP / "docs" / "GATE.md").read_text())
    return uses, {name: known.get(name) or schedule.guessed(TOP / "crates" / name) for name in uses}


def least(uses, minutes, places):
    """What no order can do better than: what stands below a crate is shared out, then the longest chain goes on with it."""
    lengths = schedule.chains(uses, minutes)
    work = {name: sum(minutes[it] for it in schedule.below(uses, name) if it != name) for name in uses}
    return max(work[name] / places + lengths[name] for name in uses)


class Reads(unittest.TestCase):
    def test_list(self):
        uses = {"low": [], "left": ["low"], "right": ["low"], "app": ["right", "left"], "apart": ["low"]}
        self.assertEqual(schedule.listed(LIST), uses)

    def test_libraries_of_the_kit(self):
        self.assertEqual(schedule.named(LIST)["left"], ["low", "itoa"])
        self.assertEqual(schedule.named(LIST)["app"], ["right", "left"])

    def test_below(self):
        self.assertEqual(schedule.below(schedule.listed(LIST), "app"), ["low", "right", "left", "app"])

    def test_table(self):
        self.assertEqual(schedule.measured(PAGE), {"low": 2.5, "law": 0})


class Order(unittest.TestCase):
    def test_chains(self):
        self.assertEqual(schedule.chains(USES, MINUTES), {"app": 1, "left": 2, "right": 4, "low": 6})

    def test_longest_chain_first(self):
        lengths = schedule.chains(USES, MINUTES)
        self.assertEqual(schedule.ready(USES, {"low"}, (), lengths), ["right", "left"])
        self.assertEqual(schedule.ready(USES, {"low"}, {"right"}, lengths), ["left"])

    def test_free_places_are_dealt_out(self):
        self.assertEqual(schedule.dealt(["a", "b", "c"], 2), {"a": 1, "b": 1})
        self.assertEqual(schedule.dealt(["a", "b", "c"], 4), {"a": 2, "b": 1, "c": 1})
        self.assertEqual(schedule.dealt(["a"], 4), {"a": 4})
        self.assertEqual(schedule.dealt(["a"], 0), {})
        self.assertEqual(schedule.dealt([], 4), {})

    def test_a_crate_that_the_end_waits_for_takes_two_places(self):
        lengths = {"a": 6, "b": 2}
        self.assertEqual(schedule.shares(["a", "b"], 4, 2, lengths, 24), {"a": 1, "b": 1})
        self.assertEqual(schedule.shares(["a", "b"], 4, 2, lengths, 23), {"a": 2, "b": 1})
        self.assertEqual(schedule.shares(["a", "b"], 4, 4, lengths, 7), {"a": 2, "b": 2})
        self.assertEqual(schedule.shares(["a"], 4, 4, lengths, 6), {"a": 4})
        self.assertEqual(schedule.shares(["a"], 1, 1, lengths, 6), {"a": 1})
        self.assertEqual(schedule.shares(["a", "b"], 4, 0, lengths, 23), {})

    def test_processors_share_a_proof(self):
        self.assertEqual(schedule.shared(2, 1), 2)
        self.assertLess(schedule.shared(2, 4), schedule.shared(2, 2))
        self.assertGreater(schedule.shared(2, 4), 0.5)

    def test_times(self):
        low, app = schedule.shared(2, 2), schedule.shared(1, 2)
        two = {"low": (0, low), "right": (low, low + 3), "left": (low, low + 1), "app": (low + 3, low + 3 + app)}
        self.assertEqual(schedule.times(USES, MINUTES, 2), two)
        one = {"low": (0, 2), "right": (2, 5), "left": (5, 6), "app": (6, 7)}
        self.assertEqual(schedule.times(USES, MINUTES, 1), one)

    def test_length_from_the_middle(self):
        self.assertEqual(schedule.length(USES, MINUTES, 2, {"low"}, {"right": 0.5}), 1 + schedule.shared(1, 2))
        self.assertEqual(schedule.length(USES, MINUTES, 2, set(USES)), 0)


class Words(unittest.TestCase):
    """How a crate is proved, in a kit at /kit."""

    def setUp(self):
        self.kit = Kit.__new__(Kit)
        self.kit.home = Path("/kit")

    def test_a_library_keeps_its_statements_alone(self):
        words = self.kit.build("left", False, ["low", "itoa"], {"low": []}, Path("/made"), "left.rlib")
        self.assertEqual(words[:5], ["/kit/bin/rattle", "build", "--crate-name", "left", "src/lib.rt"])
        self.assertIn("low=/made/low.rlib", words)
        self.assertIn("itoa=/kit/rlibs/itoa.rlib", words)
        self.assertEqual(words[-3:], ["--statements", "-o", "left.rlib"])
        self.assertIn("--jobs 1", " ".join(words))

    def test_processors_share_a_check(self):
        words = self.kit.build("left", False, ["low"], {"low": []}, Path("/made"), "left.rlib", 3)
        self.assertIn("--jobs 3", " ".join(words))

    def test_a_program_is_made_by_llvm(self):
        words = self.kit.build("app", True, ["left"], {"left": []}, Path("/made"), "app.o")
        self.assertEqual(words[4], "src/main.rt")
        self.assertNotIn("--statements", words)
        self.assertEqual(words[-4:], ["--backend", "llvm", "-o", "app.o"])


class Repository(unittest.TestCase):
    def test_no_crate_begins_early_and_no_place_is_idle(self):
        uses, minutes = repository()
        times = schedule.times(uses, minutes, 4)
        for name, (begins, _) in times.items():
            may_begin = max((times[it][1] for it in uses[name]), default=0)
            self.assertGreaterEqual(begins, may_begin)
            for moment in {it for it, _ in times.values() if may_begin <= it < begins}:
                self.assertEqual(sum(a <= moment < b for a, b in times.values()), 4, name)

    def test_length(self):
        uses, minutes = repository()
        for places in (1, 2, 3, 4, 8):
            self.assertLessEqual(schedule.length(uses, minutes, places), 1.1 * least(uses, minutes, places))


if __name__ == "__main__":
    unittest.main()
