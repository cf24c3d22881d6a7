"""The outline of a unit: its statements, which blocks they stand in, and what is declared where."""
from bisect import bisect_left, bisect_right
from collections import namedtuple

MOST_TOKENS = 200_000
WHOLE = {"DCL": "DECLARE", "PROC": "PROCEDURE"}
OPENING = {"PROCEDURE", "BEGIN", "DO"}
INFIX = {"|", "&", "=", "^=", "<", "<=", ">", ">=", "||", "+", "-", "*"}
CHARACTER = {"CHAR", "CHARACTER"}
NUMBER = {"FIXED", "BIN", "BINARY"}


class Statement(namedtuple("Statement", "start at end word around is_else")):
    """The places of its label, first word and end, that word, the numbers of those open around, and if after ELSE."""


class Item(namedtuple("Item", "at name block parent level array attributes kind", defaults=(-1, -1, 1, 0, (), "item"))):
    """A declared name; `parent` is the token of its structure, `kind` also `parameter` or the word it labels."""

    def has(self, words):
        """Whether one of some attributes is among its own."""
        return any(token.text in words for token in self.attributes)

    def size(self, words, default):
        """The number in parentheses after one of these attributes, or the default."""
        texts = [token.text for token in self.attributes]
        sizes = [texts[at + 2] for at, text in enumerate(texts[:-2]) if text in words and texts[at + 1] == "("]
        return int(sizes[0]) if sizes and sizes[0].isdigit() else default


def closing(tokens, at):
    """The place after a token, or after the parenthesis that it opens; the statement's end where none closes it."""
    depth = 0
    for place in range(at, len(tokens)):
        depth += {"(": 1, ")": -1}.get(tokens[place].text, 0)
        if depth <= 0 or tokens[place].text == ";":
            return place + (depth <= 0)
    return len(tokens)


def parts(tokens, first, last):
    """The places of the items between two places, which commas outside of parentheses part."""
    begin = at = first
    while at < last:
        if tokens[at].text == ",":
            yield begin, at
            begin = at + 1
        at = closing(tokens, at)
    yield begin, last


def declared(tokens):
    """All names that DECLARE statements declare, as far as tokens alone tell it, in the order of the text."""
    ends = [-1, *(at for at, token in enumerate(tokens) if token.text == ";")]
    starts = [(begin + 2, end) for begin, end in zip(ends, ends[1:]) if tokens[begin + 1].text in ("DCL", "DECLARE")]
    found = []
    for first, last in (part for each in starts if tokens[each[0]].text != "=" for part in parts(tokens, *each)):
        at = first + (first < last and tokens[first].kind == "number")
        after = closing(tokens, at) if at < last else at + 1
        dimensions = after < last and tokens[after].text == "("
        attributes = tokens[closing(tokens, after) if dimensions else after : last]
        level = int(tokens[first].text) if at > first else 1
        names = [place for place in range(at, min(after, last)) if tokens[place].kind == "name"]
        found += [Item(place, tokens[place].text, -1, -1, level, dimensions, attributes) for place in names]
    return found


def expanded(members, name):
    """The tokens of a unit and all that it includes, of each the directives to it, and those to what ends this."""
    tokens, chains, read, opened = [], [], 0, [(name, (), iter(members[name].items))]
    while opened and read <= MOST_TOKENS:
        _, chain, items = opened[-1]
        item = next(items, None)
        directive = item and item.kind == "include"
        read += 4 if directive else 1
        if item is None:
            opened.pop()
        elif directive and item.text in members and item.text not in [each for each, *_ in opened]:
            opened.append((item.text, (*chain, item), iter(members[item.text].items)))
        elif directive or item.is_fault:
            return tokens, chains, chain
        else:
            tokens.append(item)
            chains.append(chain)
    return tokens, chains, ()


def after_expression(tokens, at):
    """The place after the longest expression that begins at a place; none where there is none."""
    opened, operand, reference = [], True, False
    for at in range(at, len(tokens)):
        kind, text = tokens[at].kind, tokens[at].text
        if operand and kind == "sign":
            if text == "(":
                opened.append(False)
            elif text not in ("+", "-", "^"):
                return None
        elif operand:
            operand, reference = False, kind == "name"
        elif reference and text == "(":
            opened.append(True)
            operand = at + 1 < len(tokens) and tokens[at + 1].text != ")"
        elif text in INFIX or reference and text in (".", "->") or text == "," and opened and opened[-1]:
            operand, reference = True, False
        elif text == ")" and opened:
            reference = opened.pop()
        else:
            return None if opened else at
    return None


def is_assignment(tokens, at):
    """Whether the tokens up to the next semicolon are a reference, `=` and one expression."""
    end = after_expression(tokens, at) if tokens[at].kind == "name" else None
    if end is None or tokens[end].text != ";":
        return False
    at += 1
    while tokens[at].text in ("(", ".", "->"):
        at = closing(tokens, at) if tokens[at].text == "(" else at + 2
    return tokens[at].text == "="


def statements(tokens):
    """The statements of a unit in the order in which they begin, as far as its text is good."""
    semicolons = [at for at, token in enumerate(tokens) if token.text == ";"]
    found, around, at, is_else = [], (), 0, False
    while semicolons and at <= semicolons[-1]:
        start, at = at, at + 2 if tokens[at].kind == "name" and tokens[at + 1].text == ":" else at
        word = "=" if is_assignment(tokens, at) else WHOLE.get(tokens[at].text, tokens[at].text)
        last = end = semicolons[bisect_left(semicolons, at)] + 1
        if word == "IF" and (then := after_expression(tokens, at + 1)) and tokens[then].text == "THEN":
            end = then + 1
        elif word == "ON":
            end = min(at + 2, end)
        found.append(Statement(start, at, end, word, around, is_else))
        around = around[:-1] if word == "END" else (*around, len(found) - 1) if word in OPENING else around
        after = [token.text for token in tokens[end : end + 2]]
        is_else = end == last and after[:1] == ["ELSE"] and after[1:] != [":"] and not is_assignment(tokens, end)
        at = end + is_else
    return found


def spelled(tokens):
    """Tokens as they are written, on one line."""
    text = ""
    for before, token in zip([None, *tokens], tokens):
        beside = before and (before.source, before.line, before.column + len(before.spelled)) == token[3:]
        text += token.spelled if beside or not before else f" {token.spelled}"
    return text


class Outline:
    """A unit: its tokens, their directives, its statements, its blocks by their statements, and its declared names."""

    def __init__(self, members, name):
        self.tokens, self.chains, self.last = expanded(members, name)
        self.statements = statements(self.tokens)
        self.starts = [each.start for each in self.statements]
        self.declared = {each.at: each for each in sorted(self.names(), key=lambda each: each.at)}

    def number_at(self, at):
        """The number, from 0, of the statement in which a token stands; -1 where there is none."""
        return bisect_right(self.starts, at) - 1

    def text_of(self, number):
        """A statement as it is written, up to what stands in it, on one line."""
        return spelled(self.tokens[self.statements[number].start : self.statements[number].end])

    def blocks_of(self, number):
        """The blocks around a statement, from the inside, by their PROCEDURE or BEGIN; -1 is around the unit."""
        around = self.statements[number].around if number >= 0 else ()
        return [*(each for each in reversed(around) if self.statements[each].word != "DO"), -1]

    def names(self):
        """Labels, procedures and parameters, and what DECLARE declares."""
        for number, each in enumerate(self.statements):
            if each.at > each.start:
                yield Item(each.start, self.tokens[each.start].text, self.blocks_of(number)[0], kind=each.word)
            for at in range(each.at + 2, closing(self.tokens, each.at + 1)) if each.word == "PROCEDURE" else ():
                if self.tokens[at].kind == "name":
                    yield Item(at, self.tokens[at].text, number, kind="parameter")
        above = []
        for item in declared(self.tokens):
            above = [each for each in above if each.level < item.level and item.level > 1]
            block, parent = self.blocks_of(self.number_at(item.at))[0], above[-1].at if above else -1
            yield item._replace(block=block, parent=parent)
            above.append(item)

    def owners(self, found):
        """A declared name and all that it is a member of."""
        while found:
            yield found
            found = self.declared.get(found.parent)

    def meant(self, names, blocks):
        """What DECLARE, a label or a procedure makes of names in the first of some blocks that has them."""
        for block in blocks:
            here = [each for each in self.declared.values() if (each.block, each.name) == (block, names[-1])]
            here = [list(self.owners(each)) for each in here if each.kind != "parameter"]
            here = [owners for owners in here if set(names) <= {owner.name for owner in owners}]
            if here:
                return min(here, key=len)[0]
        return None
