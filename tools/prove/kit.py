"""How the kit proves and builds: the words of its calls, for a library and for a program."""
import subprocess
from pathlib import Path

TARGET = "x86_64-unknown-linux-gnu"


def said(*words):
    """What a command prints, without the end of its line."""
    return subprocess.run(words, stdout=subprocess.PIPE, text=True, check=True).stdout.strip()


class Kit:
    """The kit that `rt` is of: its folder, and its one line."""

    def __init__(self):
        self.home, self.version = Path(said("rt", "doc")).parent, said("rt", "version")

    def build(self, name, is_program, uses, below, libraries, made, processors=1):
        """The words that prove a crate whole, from nothing, and then make of it a library or the object of a program.

        They are called in the crate's folder. `uses` are the libraries that it names, `below` those of the repository,
        which stand in the folder `libraries`. A library is made with its statements and without its proofs, so that
        the crates above it load no more than they can cite."""
        root = "src/main.rt" if is_program else "src/lib.rt"
        words = [self.home / "bin" / "rattle", "build", "--crate-name", name, root]
        for it in ("std", *uses):
            words += ["--extern", f"{it}={(libraries if it in below else self.home / 'rlibs') / it}.rlib"]
        for it in (self.home / "rlibs", libraries):
            words += ["-L", f"dependency={it}"]
        words += ["--antt-project", self.home / "rattle" / "logic" / "antt-project.json"]
        words += ["--logic-built", self.home / "logic_built", "--links", f"{name}=", "--jobs", processors]
        words += ["--toolchain", self.home / "toolchain", "--backend", "llvm"] if is_program else ["--statements"]
        return [*map(str, words), "-o", str(made)]

    def link(self, made, program):
        """The words that make a program of its object."""
        words = [self.home / "bin" / "rattle-link", "--target", TARGET, "--toolchain", self.home / "toolchain"]
        words += ["-o", program, made, self.home / "c" / "libos_c.a", self.home / "c" / "liblibc_c.a"]
        return [*map(str, words)]
