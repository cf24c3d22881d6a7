"""Tokens of PL/I text, and what stands in the way of reading them, each with its source, line and column from 1."""
import re
from collections import namedtuple

GREATEST_NUMBER = 2**63 - 1


class Token(namedtuple("Token", "kind text spelled source line column")):
    """A token, a directive of kind `include`, whose text is a member's name, or what is neither, of its code's kind."""

    @property
    def is_fault(self):
        """Whether its kind is a code."""
        return self.kind[1:].isdigit()


# What a piece may be, the first that fits; a piece that is named for a code is no token.
PIECE = re.compile(
    r"""(?P<space>[ \t\n]+)
    | (?P<comment>/\*.*?\*/) | (?P<X1>/\*)
    | (?P<bits>(?:'[01]*'B1?|'[0-3]*'B2|'[0-7]*'B3|'[0-9A-F]*'B4)(?![A-Z0-9_$]))
    | (?P<X6>'(?:[^'\n]|'')*+'B[A-Z0-9_$]*)
    | (?P<string>'(?:[^'\n]|'')*+') | (?P<X2>')
    | (?P<number>[0-9]{1,19}(?![A-Z0-9_$.])) | (?P<binary>[01]{1,63}B(?![A-Z0-9_$.])) | (?P<X4>[0-9][A-Z0-9_$.]*)
    | (?P<name>[A-Z][A-Z0-9_$]{0,30}(?![A-Z0-9_$])) | (?P<X5>[A-Z][A-Z0-9_$]*)
    | (?P<sign>->|\|\||<=|>=|[\^~][=<>]|[-+*(),.;:=<>&|^~%])
    | (?P<X3>.)""",
    re.VERBOSE | re.IGNORECASE | re.DOTALL,
)
SIGNS = {"~": "^", "~=": "^=", "^<": ">=", "~<": ">=", "^>": "<=", "~>": "<="}
DIRECTIVE = re.compile(r"% INCLUDE ('?)([A-Z][A-Z0-9_$]{0,30})\1 ;", re.IGNORECASE)


def pieces(text, source):
    """All that a text is made of, spaces and comments too."""
    line, start = 1, 0
    for found in PIECE.finditer(text):
        kind, spelled = found.lastgroup, found.group()
        kind = "X4" if kind == "number" and int(spelled) > GREATEST_NUMBER else kind
        normal = spelled if kind == "string" else SIGNS.get(spelled, spelled.upper())
        yield Token(kind, normal, spelled, source, line, found.start() - start + 1)
        line += spelled.count("\n")
        start = found.start() + spelled.rindex("\n") + 1 if "\n" in spelled else start


def scan(text, source):
    """The tokens of a text, its directives in their places, up to what is no token; a `%` alone ends nothing."""
    found = []
    for piece in pieces(text, source):
        if piece.kind in ("space", "comment"):
            continue
        found.append(piece)
        if piece.is_fault:
            break
        if piece.text == ";" and (directive := DIRECTIVE.fullmatch(" ".join(item.text for item in found[-4:]))):
            name = directive[2].upper()
            found[-4:] = [found[-4]._replace(kind="include", text=name, spelled=f"%INCLUDE {name}")]
    return [item._replace(kind="I4") if item.text == "%" else item for item in found]
