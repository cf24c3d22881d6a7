"""Every example of docs/DIAGNOSTICS.md, docs/LANGUAGE.md and examples/, given to a workbench."""
import os
import re
import subprocess
import sys
import tempfile
import unittest
from concurrent.futures import ThreadPoolExecutor
from pathlib import Path

from asked import PROGRAM, SECOND, answered
from examples import TOP, blocks, members, typed

sys.path.insert(0, str(TOP / "tools" / "pli"))
from scan import scan  # noqa: E402

CODES = {"X": 6, "I": 4, "P": 18, "A": 15, "T": 14, "G": 1, "N": 6, "E": 13, "M": 8, "B": 2, "K": 8, "L": 8}
ENDINGS = ["OUT OF STEPS", "MACHINE FAULT", "NO MEMORY"]
BYTES = [f"{letter}{number}" for letter in "KL" for number in range(1, 9)]
IN_WORDS = {*ENDINGS[1:], "G1", "M4", "M5", "M6", "M7", "M8", *BYTES}
EXAMPLES = TOP / "examples"
STEPS = 20_000
DIAGNOSTIC = re.compile(r"(?:\S+ \S+:\d+ )?([A-Z]\d+) (.*)")
LINKING = re.compile(r"(N[2-5] [A-Z ]+?) \S+ \S+")
RUN_ERROR = re.compile(r"ERROR (E\d+ .*) \S+ \d+")
TOLD = re.compile(r"(?:\S+:\d+(?::\d+)?|pli): ([XIPATGNE]\d+ [A-Z -]+?|OUT OF STEPS)(?::.*)?")
COURSE = re.compile(r"^- `([^`]*)`: ", re.MULTILINE)
SECOND_KNOWS = "XIPATNEOMB"


def code_of(heading):
    return heading.split()[0] if re.match(r"[A-Z]\d", heading) else heading


def diagnostics(answer):
    """What a BUILD says, without places and names."""
    found = []
    for line in answer[:-1]:
        linked = LINKING.fullmatch(line)
        found.append(linked[1] if linked else " ".join(DIAGNOSTIC.fullmatch(line).groups()))
    return found


def result(answers):
    """What a BUILD and a RUN come to: the diagnostics, or how the run ended."""
    built, ran = answers[-2:]
    if built != ["BUILT"]:
        return diagnostics(built)
    error = RUN_ERROR.fullmatch(ran[-1])
    return [error[1] if error else ran[-1]]


def built_and_run(lines, steps=STEPS):
    return [*typed(members(lines)), "BUILD", f"RUN {steps}"]


class Diagnostics(unittest.TestCase):
    """The page of diagnostics."""

    def setUp(self):
        self.blocks = [block for block in blocks("docs/DIAGNOSTICS.md") if code_of(block.heading) in self.codes()]

    def codes(self):
        return [f"{letter}{number}" for letter, many in CODES.items() for number in range(1, many + 1)] + ENDINGS

    def test_each_code_has_a_wrong_and_a_right_example(self):
        words = {}
        for block in self.blocks:
            words.setdefault(code_of(block.heading), []).append(block.word)
        wanted = {code: ["wrong", "right"] for code in self.codes() if code not in IN_WORDS}
        self.assertEqual(words, wanted)

    def expected(self, block):
        """What an example is answered with, or None where the second opinion does not know it."""
        if not PROGRAM and code_of(block.heading)[0] not in SECOND_KNOWS:
            return None
        return [block.heading] if block.word == "wrong" else ["ENDED"]

    def test_units(self):
        chosen = [block for block in self.blocks if block.heading[0] not in "MB" and self.expected(block)]
        for block, answers in zip(chosen, answered([built_and_run(block.lines) for block in chosen])):
            with self.subTest(block.place, heading=block.heading, word=block.word):
                self.assertEqual(result(answers), self.expected(block))

    def test_commands(self):
        chosen = [block for block in self.blocks if re.match(r"[MB]\d", block.heading)]
        for block, answers in zip(chosen, answered([block.lines for block in chosen])):
            with self.subTest(block.place, heading=block.heading, word=block.word):
                if answers is None:
                    self.assertFalse(PROGRAM)
                elif block.word == "wrong":
                    self.assertEqual(answers[-1], [block.heading])
                else:
                    self.assertFalse([answer for answer in answers if re.match(r"[MB]\d", answer[-1])])


class Language(unittest.TestCase):
    """The page of the language."""

    def setUp(self):
        self.blocks = list(blocks("docs/LANGUAGE.md"))

    def test_each_section_has_a_program(self):
        self.assertEqual([block.word for block in self.blocks if block.word not in ("pli", "prints")], [])
        text = (TOP / "docs" / "LANGUAGE.md").read_text(encoding="utf-8")
        sections = re.findall(r"^## (.*)$", text, re.MULTILINE)
        self.assertEqual(set(sections) - {block.heading for block in self.blocks}, {"What is left out"})

    def test_programs_print_what_is_shown(self):
        pairs = [(one, other) for one, other in zip(self.blocks, self.blocks[1:]) if one.word == "pli"]
        for (program, printed), answers in zip(pairs, answered([built_and_run(program.lines) for program, _ in pairs])):
            with self.subTest(program.place):
                self.assertEqual(printed.word, "prints")
                self.assertEqual(result(answers), ["ENDED"])
                self.assertEqual([line.rstrip() for line in answers[-1][:-1]], printed.lines)


def told(call):
    """What bin/pli writes when it is called so in a folder, on both streams, and apart."""
    words, folder, apart = call
    environment = {**os.environ, "PLIWB": PROGRAM or SECOND}
    errors = subprocess.PIPE if apart else subprocess.STDOUT
    streams = {"stdin": subprocess.DEVNULL, "stdout": subprocess.PIPE, "stderr": errors}
    ended = subprocess.run([TOP / "bin" / "pli", *words], cwd=folder, env=environment, **streams)
    return ended.stdout.decode(), (ended.stderr or b"").decode()


class Tool(unittest.TestCase):
    """What bin/pli says of examples."""

    def all_told(self, calls):
        with ThreadPoolExecutor(4) as pool:
            return list(pool.map(told, calls))

    def test_mistakes_are_told_as_shown(self):
        known = list(blocks("docs/DIAGNOSTICS.md"))
        pairs = [(one, other) for one, other in zip(known, known[1:]) if one.word.startswith("mistake")]
        with tempfile.TemporaryDirectory() as folder:
            calls = [one.word.split()[1:] for one, _ in pairs]
            for call, (one, _) in zip(calls, pairs):
                Path(folder, call[0]).write_text("".join(line + "\n" for line in one.lines))
            for (one, says), (printed, _) in zip(pairs, self.all_told([(call, folder, False) for call in calls])):
                with self.subTest(one.place):
                    self.assertEqual(printed, "".join(line + "\n" for line in says.lines))

    def test_what_is_said_of_the_gallery(self):
        faulty = [path.with_suffix(".pli") for path in sorted(EXAMPLES.glob("*.err"))]
        calls = [([f"examples/{path.name}", "--steps", "3000"], TOP, True) for path in faulty]
        for path, (out, err) in zip(faulty, self.all_told(calls)):
            with self.subTest(path.name):
                self.assertEqual(err, path.with_suffix(".err").read_text())
                self.assertEqual(out, path.with_suffix(".out").read_text() if path.with_suffix(".out").exists() else "")


class Gallery(unittest.TestCase):
    """The programs of examples/, as its README names them."""

    def setUp(self):
        self.calls = [call.split() for call in COURSE.findall((EXAMPLES / "README.md").read_text(encoding="utf-8"))]

    def units(self, call):
        return [EXAMPLES / word for word in call if word.endswith(".pli")]

    def session(self, call):
        texts = [(path.stem.upper(), "SOURCE", path.read_text().splitlines()) for path in self.units(call)]
        for _, _, lines in list(texts):
            names = [item.text for item in scan("\n".join(lines), "") if item.kind == "include"]
            texts += [(name, "INCLUDE", (EXAMPLES / f"{name.lower()}.inc").read_text().splitlines()) for name in names]
        steps = call[call.index("--steps") + 1] if "--steps" in call else STEPS
        return [*typed(dict((text[0], text) for text in texts).values()), "BUILD", f"RUN {steps}"]

    def test_the_course_has_each_program_once(self):
        named = [path.name for call in self.calls for path in self.units(call)]
        self.assertEqual(sorted(named), sorted(path.name for path in EXAMPLES.glob("*.pli")))

    def test_programs_print_what_stands_beside_them(self):
        for call, answers in zip(self.calls, answered([self.session(call) for call in self.calls])):
            with self.subTest(call[0]):
                printed = "".join(line + "\n" for line in answers[-1][:-1]) if answers[-2] == ["BUILT"] else ""
                out, err = (self.units(call)[0].with_suffix(suffix) for suffix in (".out", ".err"))
                self.assertEqual(printed, out.read_text() if out.exists() else "")
                lines = err.read_text().splitlines() if err.exists() else []
                said = [found[1] for line in lines if (found := TOLD.fullmatch(line))]
                self.assertEqual(said or ["ENDED"], result(answers))

    def test_the_gallery_is_that_of_the_sessions(self):
        known = {self.texts(path.read_text()) for path in EXAMPLES.glob("*.pli")}
        for path in sorted((TOP / "crates" / "pli_sessions" / "data" / "examples").glob("*.session")):
            for text in self.built(path):
                with self.subTest(path.name):
                    self.assertIn(self.texts(text), known)

    def built(self, path):
        """The texts of the one member of a session at each of its BUILDs."""
        lines = []
        for command in path.read_text().splitlines():
            word, _, *rest = command.split(" ", 3) if " " in command else (command, "")
            if word == "INSERT":
                lines.insert(int(rest[0]), rest[1] if len(rest) > 1 else "")
            elif word == "REPLACE":
                lines[int(rest[0]) - 1] = rest[1]
            elif word == "REMOVE":
                del lines[int(rest[0]) - 1 : int(rest[1])]
            elif word == "BUILD":
                yield "\n".join(lines)

    @staticmethod
    def texts(text):
        """The tokens of a program, without the name of its procedure."""
        tokens = [item.text for item in scan(text, "")]
        return tuple([*tokens[1:-2], *tokens[-1:]])


if __name__ == "__main__":
    unittest.main()
