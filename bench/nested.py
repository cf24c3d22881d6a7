"""nested.py: programs in which each of ten forms stands in each, and is left by a GOTO, by RETURN and by an error, for stepped.py.

Each way out stands in the inner form, and is taken at its second turn where there are two, at the third where both forms have two. After the
forms stands what a program does that goes on. Procedures stand at the end of the innermost block round the form that calls them.
"""
from typing import NamedTuple


class Form(NamedTuple):
    """A form: its statements, with `@` where others stand in it and `#` for its depth; its procedure, if it calls one; how often the others
    are executed; whether only one statement may stand in it; what RETURN is in its procedure, or what stands for it in an ON-unit."""

    text: str
    routine: str = ""
    turns: int = 1
    takes_one: bool = False
    leaves: str = ""


FORMS = {
    "if": Form("IF K > 8 THEN PUT LIST('NEVER'); ELSE @", takes_one=True),
    "while": Form("N# = 0; DO WHILE(N# < 2); N# = N# + 1; @ END;", turns=2),
    "to_and_by": Form("DO I# = 3 TO 1 BY -2; @ END;", turns=2),
    "repeat": Form("DO I# = 1 REPEAT I# * 3 WHILE(I# < 9); @ END;", turns=2),
    "group": Form("DO; N# = #; @ PUT LIST('DO#', N#); END;"),
    "begin": Form("BEGIN; DCL X# FIXED BIN(15) INIT(#0); @ X# = X# + K; PUT LIST(X#); ! END;"),
    "call": Form("CALL P#(K);", "P#: PROC(X#); DCL X# FIXED BIN(15); @ PUT LIST('P#', X#); ! END P#;", leaves="RETURN;"),
    "function": Form("PUT LIST('F#', F#());", "F#: PROC RETURNS(FIXED BIN(15)); @ RETURN(#0); ! END F#;", leaves="RETURN(K);"),
    "on_unit": Form("ON AREA BEGIN; DCL X# FIXED BIN(15) INIT(#0); @ PUT LIST('U#', X# + K); ! END; SIGNAL AREA; REVERT AREA;", leaves="STOP;"),
    "jump_back": Form("DO; N# = 0; L#: N# = N# + 1; @ IF N# < 2 THEN GOTO L#; END;", turns=2),
}
ERRORS = ["A(K + 2) = K;", "C = SUBSTR('A', K + 2);", "S = K + 7;", "S = MOD(K, 0);"]
DECLARED = "DCL (K, I1, I2, N1, N2) FIXED BIN(15), A(2) FIXED BIN(15), C CHAR(1), S FIXED BIN(3);"
AFTER = "PUT LIST('END', K); OUT: PUT LIST('OUT', S, N1, I1);"


def put_into(form, depth, statements, routines):
    """A form of that depth with statements in it, and the procedures that stand after it."""
    inner = f"DO; {statements} END;" if form.takes_one and statements.count(";") > 1 and depth == 2 else statements
    filled = [text.replace("#", str(depth)).replace("@", inner) for text in (form.text, form.routine)]
    for place, text in enumerate(filled):
        if "!" in text:
            filled[place], routines = " ".join(text.replace("!", routines).split()), ""
    return filled[0], " ".join(part for part in (filled[1], routines) if part)


def program(outer, inner, way):
    """The inner form in the outer one, left that way."""
    turns = outer.turns * inner.turns
    statements = f"K = K + 1; PUT LIST(K); IF K = {min(turns, 3)} THEN {way} S = K;"
    text, routines = put_into(inner, 2, statements, "")
    text, routines = put_into(outer, 1, text, routines)
    return " ".join(part for part in (DECLARED, text, AFTER, routines) if part)


def programs(number, outer):
    """The programs with each form in that one; which error leaves it goes round."""
    for error, inner in enumerate(FORMS.values(), number):
        for way in ("GOTO OUT;", inner.leaves or outer.leaves or "RETURN;", ERRORS[error % 4]):
            yield program(outer, inner, way)


def topics():
    """Each topic with its programs: one for each outer form."""
    return {f"forms_in_{name}": [*programs(number, outer)] for number, (name, outer) in enumerate(FORMS.items())}
