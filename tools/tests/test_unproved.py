"""The one crate that an unproved run of the workbench compiles."""
import re
import sys
import tempfile
import unittest
from pathlib import Path

TOP = Path(__file__).resolve().parents[2]
sys.path.insert(0, str(TOP / "tools" / "unproved"))
import one_crate  # noqa: E402


class OneCrate(unittest.TestCase):
    @classmethod
    def setUpClass(cls):
        cls.written = {}
        for has_words in (False, True):
            folder = tempfile.TemporaryDirectory()
            cls.addClassCleanup(folder.cleanup)
            cls.written[has_words] = Path(folder.name)
            one_crate.write(TOP, Path(folder.name), has_words)

    def test_paths(self):
        text = "#[tactic(auto, using(\n    crate::proofs::A::b\n))]\nuse crate::a::B;\nuse pli_base::{C};\nuse std::D;\n"
        text += "let x = pli_base::f(crate::g);\n"
        turned = "\n\n\nuse crate::pli_x::a::B;\nuse crate::pli_base::{C};\nuse std::D;\n"
        turned += "let x = crate::pli_base::f(crate::pli_x::g);\n"
        self.assertEqual(one_crate.turned(text, "pli_x", ["pli_base"]), turned)

    def check_lines(self, old, new, names_readers):
        """They are the same but for where paths begin, and tactics, each of which leaves empty lines.

        So does what names the readers of words, which must stand in the file if `names_readers` says so."""
        self.assertEqual(len(old), len(new))
        left_out = "".join(was + "\n" for was, now in zip(old, new) if was and not now)
        left_out, named = one_crate.NAMES_READER.subn("", one_crate.TACTIC.sub("", left_out))
        self.assertEqual(left_out.strip(), "")
        self.assertEqual(named > 0, names_readers)
        self.assertNotIn("[tactic(", "".join(new))
        begun = re.compile(r"\b(?:crate|pli_\w+)::")
        kept = [(begun.sub("", was), begun.sub("", now)) for was, now in zip(old, new) if now]
        self.assertEqual([was for was, _ in kept], [now for _, now in kept])

    def test_all_lines(self):
        """Each file of a library stands in it, line for line, and none that is not below the program."""
        for has_words, folder in self.written.items():
            source, found = folder / "crates" / "pliwb" / "src", 0
            for file in source.rglob("*.rt"):
                crate, *rest = file.relative_to(source).with_suffix("").parts
                if crate != "main":
                    whole = TOP / "crates" / crate / "src" / ("/".join(rest or ["lib"]) + ".rt")
                    names_readers = crate == one_crate.WORKBENCH and not rest and not has_words
                    with self.subTest(file=whole):
                        self.check_lines(whole.read_text().split("\n"), file.read_text().split("\n"), names_readers)
                    found += 1
            self.assertGreater(found, 300)
            kits = (folder / "crates.txt").read_text().split()[1:]
            self.assertEqual("clap" in kits, has_words)
            self.assertFalse(set(kits) & one_crate.libraries(TOP).keys())

    def test_main(self):
        """Without words `main` has the numbers of the command line, and none reads words; each module is named once."""
        for has_words, folder in self.written.items():
            source = folder / "crates" / "pliwb" / "src"
            main = (source / "main.rt").read_text()
            named = re.findall(r"\bmod (\w+);", main)
            self.assertEqual(sorted(named), sorted(it.stem for it in source.glob("pli_*.rt")))
            for reader in one_crate.READERS:
                self.assertEqual((source / one_crate.WORKBENCH / f"{reader}.rt").exists(), has_words)
            self.assertEqual("1_000_000)" in main and "1_000_000_000)" in main, not has_words)
            self.assertEqual(main.count("#![tactic(auto)]"), 1)


if __name__ == "__main__":
    unittest.main()
