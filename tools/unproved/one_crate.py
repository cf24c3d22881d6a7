"""one_crate.py TOP FOLDER [WORD..]: writes the workbench as one crate, which an unproved run compiles sooner.

Each library of TOP becomes a module of the program, without its tactics, which only proofs read. Lines keep their
numbers, so a fault in `src/NAME/FILE.rt` stands in that line of `crates/NAME/src/FILE.rt`. Of many crates each is given
drops of its own of the same types: as one crate there is nearly a third less to compile.

With no WORD for the workbench its reader of words is left out too, and with it the library that reads them: a sixth.
"""
import re
import sys
from pathlib import Path

PROGRAM = "pliwb"
# What `main` of the program comes to where no word is given.
WITHOUT_WORDS = """//! The workbench without words.
#![tactic(auto)]

use crate::pli_base::Device;
use crate::pli_bench::Bench;
use std::process::ExitCode;

fn main(rt: HostRuntime) -> ExitCode {
    let mut reader = Device::over(rt.stdin());
    let mut writer = Device::over(rt.stdout());
    match Bench::new(rt.alloc(), STEPS).serve(&mut reader, &mut writer, READS) {
        Ok(_) => ExitCode::from(0),
        Err(_) => ExitCode::from(1),
    }
}
"""
LIBRARIES_WITHOUT_WORDS = ["pli_base", "pli_bench"]
# The modules of `pli_bench` that read words and give them to the workbench, and the library that they read words by.
WORKBENCH = "pli_bench"
READERS = ["arguments", "serving"]
READS_WORDS = "clap"
# A line of the workbench's own file that names one of them.
NAMES_READER = re.compile(rf"^(?:pub )?(?:mod|use) (?:{'|'.join(READERS)})\b[^;]*;$", re.M)
# An attribute with a tactic, on lines of its own; it has no other closing bracket.
TACTIC = re.compile(r"^ *#!?\[tactic\([^\]]*\)\]$", re.M)


def libraries(top):
    """What each crate of the list uses."""
    lines = (line.partition("#")[0].partition(":") for line in (top / "crates.txt").read_text().splitlines())
    return {name.split()[0]: uses.split() for name, colon, uses in lines if colon}


def below(uses, names):
    """The repository's crates among these and below them, and the kit's."""
    found, left = {}, list(names)
    while left:
        name = left.pop()
        if name not in found:
            found[name] = name in uses
            left += uses.get(name, [])
    return sorted(it for it in found if found[it]), sorted(it for it in found if not found[it])


def emptied(pattern, text):
    """A text whose lines that match are empty."""
    return pattern.sub(lambda found: "\n" * found[0].count("\n"), text)


def turned(text, crate, ours):
    """A file of a crate as one of the module of that name; of the program itself where that is None."""
    text = emptied(TACTIC, text)
    if crate:
        text = re.sub(r"(?<![\w$.])crate::", f"crate::{crate}::", text)
    return re.sub(rf"(?<![\w.:])(?=(?:{'|'.join(ours)})::)", "crate::", text)


def constant(top, file, name):
    """The number of a constant of the command line."""
    text = (top / "crates" / WORKBENCH / "src" / file).read_text()
    return re.search(rf"^(?:pub )?const {name}: u64 = ([0-9_]+);$", text, re.M)[1]


def files_of(top, name, has_words):
    """The files of a library with their texts; without words the workbench has no readers of them."""
    base = top / "crates" / name / "src"
    left_out = READERS if name == WORKBENCH and not has_words else []
    for file in base.rglob("*.rt"):
        if file.stem not in left_out:
            text = file.read_text()
            yield file.relative_to(base), emptied(NAMES_READER, text) if left_out else text


def main_of(top, has_words, ours):
    """The program's own file, and a line that names its modules."""
    text = (top / "crates" / PROGRAM / "src" / "main.rt").read_text()
    if not has_words:
        steps, reads = constant(top, "arguments.rt", "DEFAULT_STEPS"), constant(top, "serving.rt", "READS")
        text = WITHOUT_WORDS.replace("STEPS", steps).replace("READS", reads)
    # Its first empty line is that of its tactic, which it keeps.
    text = turned(text, None, ours).replace("\n\n", "\n#![tactic(auto)]\n", 1)
    return text + " ".join(f"mod {name};" for name in ours) + "\n"


def write(top, folder, has_words):
    """Writes the crate, and its list, into a folder."""
    uses = libraries(top)
    ours, kits = below(uses, uses[PROGRAM] if has_words else LIBRARIES_WITHOUT_WORDS)
    source = folder / "crates" / PROGRAM / "src"
    for name in ours:
        for path, text in files_of(top, name, has_words):
            to = source / f"{name}.rt" if str(path) == "lib.rt" else source / name / path
            to.parent.mkdir(parents=True, exist_ok=True)
            to.write_text(turned(text, name, ours))
    (source / "main.rt").write_text(main_of(top, has_words, ours))
    kits = [it for it in kits if has_words or it != READS_WORDS]
    (folder / "crates.txt").write_text(f"{PROGRAM}: {' '.join(kits)}\n")


if __name__ == "__main__":
    write(Path(sys.argv[1]), Path(sys.argv[2]), len(sys.argv) > 3)
