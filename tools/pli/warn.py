"""What a unit may do and most likely does not mean to, told only where it is sure."""
from collections import Counter

from outline import CHARACTER, NUMBER, closing, declared
from scan import Token, pieces

BEFORE_STATEMENT = {";", ":", "THEN", "ELSE"}


def opened_twice(comment):
    """The place of a `/*` within a comment, if there is one."""
    before = comment.text[: comment.text.find("/*", 2) + 1].split("\n")
    line, column = comment.line + len(before) - 1, len(before[-1]) + (comment.column - 1 if len(before) == 1 else 0)
    told = "/* within a comment: comments do not nest, this one ends at the first */"
    return [(Token("sign", "/*", "/*", comment.source, line, column), told)] if before != [""] else []


def unused(unit, items):
    """Variables and procedures that the unit's own file declares and nothing names."""
    texts = [token.text for token in unit]
    procedures = [at for at in range(1, len(unit)) if texts[at + 1 : at + 3] in ([":", "PROC"], [":", "PROCEDURE"])]
    apart = {*procedures, *(item.at for item in items)}
    named = {text for at, text in enumerate(texts) if at not in apart and texts[max(0, at - 1)] != "END"}
    starts = [at for at, item in enumerate(items) if item.level <= 1 or at == 0]
    for first, last in zip(starts, [*starts[1:], len(items)]):
        token, family = unit[items[first].at], {item.name for item in items[first:last]}
        if token.source == unit[0].source and not items[first].has({"EXT", "EXTERNAL"}) and not named & family:
            yield token, f"{token.text} is declared and never used"
    for at in procedures:
        if texts[at] not in named:
            yield unit[at], f"{texts[at]} is a procedure that is never called"


def cut(item, token, sign=""):
    """What is wrong with a constant that goes to an item, if it is sure."""
    characters, most = item.size(CHARACTER, 1), 2 ** min(item.size(NUMBER, 15), 63) - 1
    if token.kind == "string" and item.has(CHARACTER) and len(token.text[1:-1].replace("''", "'")) > characters:
        yield token, f"this constant is cut: {item.name} has {characters} character{'s' * (characters > 1)}"
    if token.kind in ("number", "binary") and item.has(NUMBER):
        if (int(token.text[:-1], 2) if token.kind == "binary" else int(token.text)) > most:
            told = f"{sign}{token.spelled} is beyond {item.name}, whose numbers go up to {most}"
            yield token, f"{told}: E9 FIXEDOVERFLOW when it is assigned"


def assigned(unit, only):
    """Constants that are assigned and do not fit. `only` has the names that are declared once."""
    for at in range(1, len(unit) - 3):
        if unit[at].text not in only or unit[at].kind != "name" or unit[at - 1].text not in BEFORE_STATEMENT:
            continue
        equals = closing(unit, at + 1) if unit[at + 1].text == "(" else at + 1
        value = equals + 1 + ([token.text for token in unit[equals + 1 : equals + 2]] in (["-"], ["+"]))
        if value + 1 < len(unit) and unit[equals].text == "=" and unit[value + 1].text == ";":
            sign = unit[equals + 1].text if value > equals + 1 else ""
            yield from cut(only[unit[at].text], unit[value], sign)


def warnings(unit):
    """What is to be warned of in a unit of expanded tokens and in its texts: places, each with a line."""
    items, sources = declared(unit), dict.fromkeys(token.source for token in unit)
    many = Counter(item.name for item in items)
    comments = [piece for each in sources for piece in pieces(each.text, each) if piece.kind == "comment"]
    told = [warned for comment in comments for warned in opened_twice(comment)]
    for item in {id(item.attributes): item for item in items}.values():
        told += [each for token in item.attributes if token.kind == "string" for each in cut(item, token)]
    told += [*unused(unit, items), *assigned(unit, {item.name: item for item in items if many[item.name] == 1})]
    return sorted(told, key=lambda each: (str(each[0].source), each[0].line, each[0].column))
