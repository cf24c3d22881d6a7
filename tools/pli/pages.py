"""What pages tell: the words of a call, what a code means, and what to write for what the profile leaves out."""
import re
from functools import cache
from pathlib import Path

TOP = Path(__file__).resolve().parents[2]
BLOCK = re.compile(r"^```([\w ]+)\n(.*?)^```$", re.MULTILINE | re.DOTALL)
SECTION = re.compile(r"^## ([^\n]*)\n(.*?)(?=^#{1,2} |\Z)", re.MULTILINE | re.DOTALL)
ROW = re.compile(r"^- (\w+) (`[^:]*`):\s+(.*(?:\n  .*)*)", re.MULTILINE)
CODE = re.compile(r"[A-Z]\d+")


def read(page):
    """The text of a page; nothing where there is none."""
    return (TOP / page).read_text(encoding="utf-8") if (TOP / page).exists() else ""


def printed(name):
    """A text that the tool prints, out of its page."""
    return dict(BLOCK.findall(read("tools/README.md")))[name].encode()


def shown(block):
    """An example as a terminal shows it: a heading, and its lines after four blanks."""
    return "\n".join([f"{block[1].capitalize()}:", *("    " + line for line in block[2].splitlines())])


def explain(code):
    """The text for a code, as `A1`, or an ending, as `OUT OF STEPS`, in either case; None for what is neither."""
    words = " ".join(code.upper().split())
    wanted = words.split()[0] if CODE.match(words) else words
    for title, text in SECTION.findall(read("docs/DIAGNOSTICS.md")):
        if wanted == (title.split()[0] if CODE.match(title) else title):
            return BLOCK.sub(shown, f"{title}\n\n{text.strip()}\n")
    return None


@cache
def instead():
    """What to write for what the profile leaves out, by a kind and a word of the lists of the language's page."""
    rows = ROW.findall(read("docs/LANGUAGE.md"))
    told = [(kind, words, " ".join(advice.replace("`", "").split()).removesuffix(".")) for kind, words, advice in rows]
    return {(kind, each): advice for kind, words, advice in told for each in re.findall("`([^`]*)`", words)}
