"""What of full PL/I the profile leaves out and what to write in its place, by leftout.txt and docs/LANGUAGE.md."""
import re
from difflib import get_close_matches
from functools import cache

from outline import NUMBER, declared
from pages import instead, read

LIKE = 0.7


@cache
def rules():
    """The rules of leftout.txt: codes, patterns, and what is said."""
    text = read("tools/pli/leftout.txt")
    rows = re.sub(r"\.\.\.\n +|#.*\n", "", text)
    for word, pattern in re.findall("^# ([A-Z]+) = (.*)", text, re.MULTILINE):
        rows = rows.replace(word, pattern)
    parted = [re.split(" {2,}", row, maxsplit=2) for row in rows.splitlines()]
    return [({*codes.split()}, re.compile(rf"(?<!\S){pattern}(?!\S)"), said) for codes, pattern, said in parted]


def by_rule(said, found):
    """What a rule says of a statement that its pattern fits."""
    what, arrow, write = (found.expand(part) for part in said.partition(" -> "))
    write = instead().get((write[1:-1], found[1])) if write.startswith("[") else write
    return (f"the profile leaves out {what}; {write}" if write else None) if arrow else what


def statement_at(tokens, at):
    """A statement, as far as semicolons tell, with `@` before the token at a place; strings are empty."""
    words = ["''" if token.kind == "string" else token.spelled.upper() for token in tokens]
    text = " ".join(["", *words[:at], "@", *words[at:], ""])
    return re.search(r"(?:^|(?<=;))[^;]* @ (?:;|[^;]*)", text)[0]


def more_codes(code, tokens, at):
    """What labels and declarations tell of the token of a diagnostic, as codes of rules."""
    items, text = declared(tokens), tokens[at].text
    if code == "P8" and text in [one.text for one, other in zip(tokens[:at], tokens[1:at]) if other.text == ":"]:
        return ["LABEL"]
    if code == "A1" and not get_close_matches(text, [item.name for item in items], 1, LIKE):
        return ["NEW"]
    targets = [item for item in items if code == "T5" and item.name == tokens[at - 1].text]
    if len(targets) != 1:
        return []
    if targets[0].array:
        given = {token.text for token in tokens[at + 1 : at + 2]}
        return ["TARGET", "ARRAY"] if given.isdisjoint(item.name for item in items if item.array) else ["TARGET"]
    kinds = {"NUMBER": NUMBER, "BITS": {"BIT"}}
    return ["TARGET", *(kind for kind, words in kinds.items() if targets[0].has(words))]


def left_out(code, tokens, at):
    """What the profile leaves out at the token of a diagnostic and what to write, in one line; None if not known."""
    if not 0 <= at < len(tokens):
        return None
    text, known = statement_at(tokens, at), {code, *more_codes(code, tokens, at)}
    fitting = ((said, found) for codes, pattern, said in rules() if known & codes and (found := pattern.search(text)))
    return next(filter(None, (by_rule(*each) for each in fitting)), None)
