"""What is said of a form that the profile leaves out, at the diagnostic that a build answers there."""
import sys
import unittest

from asked import answered
from examples import TOP, typed

sys.path.insert(0, str(TOP / "tools" / "pli"))
from leftout import left_out  # noqa: E402
from pages import instead  # noqa: E402
from scan import scan  # noqa: E402

# A code, a statement with `@` before the token at which it stands, and below it what is said, if anything.
CASES = """
X3  DCL X FIXED BIN(15); X = 7 @/ 2;
    /; write DIVIDE(x, y, 15)
X3  PUT LIST(@"X");
    "; write strings in single quotes
X3  IF 1 = 2 @! 1 = 3 THEN ;
    !; write | for "or", ^ for "not"
X4  DCL X FIXED BIN(15); X = @2.5;
    numbers with a point or an exponent; count the smallest part
X4  DCL X FIXED BIN(15); X = @2E5;
    numbers with a point or an exponent; count the smallest part
X4  DCL X FIXED BIN(15); X = @99999999999999999999;
I4  @%PAGE;
    preprocessor statements other than %INCLUDE; write one %INCLUDE for each member
P2  @SELECT; WHEN(1) ; END;
    SELECT; write IF .. THEN .. ELSE IF
P2  @GET LIST(X);
    GET; give variables INITIAL values, or assign them
P2  DO; @LEAVE; END;
    LEAVE; write GOTO to a label, or a condition in WHILE
P2  DO; @ITERATE; END;
    ITERATE; write GOTO to a label, or a condition in WHILE
P2  @READ FILE(F) INTO(X);
    READ; PUT LIST alone prints
P2  F: @ENTRY(X);
    ENTRY; write a procedure of its own
P2  @X, Y = 0;
    several targets of an assignment; write an assignment for each
P2  @X(1), Y(2) = 0;
    several targets of an assignment; write an assignment for each
P2  @X(1, 2) = 0 0;
P2  @X = Y ** 2;
    **; multiply, in a DO group where the exponent is large
P2  @X += 1;
    +=; write X = X + ..
P2  @X = '1F'X;
    hexadecimal strings; write '..'B4 for bits, or the characters
P2  @X = (3)'AB';
    repetition of strings, (n)'..'; write the string out, or join it in a DO group
P2  @(SUBRG): X = 1;
    condition prefixes; ranges and overflow are always tested
P2  ON FOFL @SYSTEM;
    SYSTEM; leave the ON away, the run ends then
P2  @X = Y AND Z;
    there is no AND: write &
P2  @PRINT 1;
P3  IF 2 *@* 2 = 4 THEN ;
    **; multiply, in a DO group where the exponent is large
P3  IF 2 =@= 4 THEN ;
    there is no ==: write =
P3  IF 2 <@> 4 THEN ;
    there is no <>: write ^=
P4  DCL X(3) FIXED BIN(15), I FIXED BIN(15); PUT LIST((X(I) @DO I = 1 TO 3));
    DO within PUT LIST; write a DO group with PUT LIST in it
P4  DCL X FIXED BIN(15) INIT(1 @+ 2);
    expressions and CALL in INITIAL; write a constant, or assign the value
P4  DCL (X @FIXED, Y) BIN(15);
    attributes within a list of names; write them behind the list, or an item for each name
P4  DCL F ENTRY(@FLOAT);
    FLOAT; write FIXED BIN(63) and count the smallest part
P4  S: PROC(X @FIXED BIN(15)); END;
    attributes in a list of parameters; write DCL X .. in the procedure
P4  PUT LIST @1;
P5  DCL X FIXED @DEC(5);
    DEC; write FIXED BIN(p), with up to 63 binary digits
P5  DCL X @FLOAT;
    FLOAT; write FIXED BIN(63) and count the smallest part
P5  DCL X @COMPLEX;
    COMPLEX; write FIXED BIN(63) and count the smallest part
P5  DCL X @PICTURE '999';
    PICTURE; write CHAR(n), and edit by SUBSTR and ||
P5  DCL X FIXED BIN(15) @DEFINED Y;
    DEFINED; name the variable itself
P5  DCL X @LIKE Y;
    LIKE; write the members again, or include them
P5  DCL X @LABEL;
    LABEL; GOTO names a label of the text
P5  DCL SYSPRINT @FILE;
    FILE; PUT LIST alone prints, and nothing is read
P5  DCL X @FOO;
P5  PUT SKIP@(2);
    SKIP(n); write PUT SKIP; once for each line
P5  PUT SKIP @EDIT(X) (F(5));
    PUT EDIT; write PUT LIST, where numbers have a width by their precision
P5  DO I = 1@, 3, 5; END;
    lists of DO specifications; write a group for each, which call one procedure
P5  DO I = 1 TO 5 @UNTIL(X = 1); END;
    UNTIL; write DO WHILE(^(..)), which tests before each turn
P5  GOTO L@(3);
    arrays of labels; write IF .. THEN GOTO for each label
P5  FREE X @IN(A);
    FREE with IN; write the locator, FREE P -> X
P5  ALLOCATE X@(5);
    extents and attributes in ALLOCATE; write them in the declaration
P5  CALL S(X) @TASK;
    TASK; leave it away, since there is one task
P5  BEGIN @OPTIONS(ORDER); END;
    OPTIONS; leave it away
P6  DCL (X, @(Y, Z)) FIXED BIN(15);
    lists within lists of names; write one list
P7  IF X @AND Y THEN ;
    there is no AND: write &
P7  IF X @PUT LIST(1);
P8  DO; END @M;
    an END that closes several groups; write an END for each
P8  DO; END @DO;
    a label or nothing stands behind END: write END;
P8  DO; END @Q;
P11  DO UNTIL(X = 1)@; END;
    UNTIL; write DO WHILE(^(..)), which tests before each turn
P11  DO FOREVER@; END;
    FOREVER; write DO WHILE('1'B)
P11  DO I@; END;
P12  DCL F ENTRY RETURNS(@FLOAT);
    FLOAT; write FIXED BIN(63) and count the smallest part
P13  DCL X FIXED(@*) BIN;
    * beside another bound or for a precision; write the number
P13  DCL X(1:@*) BIT;
    * beside another bound or for a precision; write the number
P13  DCL N FIXED BIN(15), X(@N) BIT;
    computed extents; write a constant, the greatest that is needed
P13  DCL X FIXED BIN(15, @2);
    fractions of numbers; count the smallest part
P13  DCL X CHAR(5) INIT((5)@'A');
    *, repeated strings and lists in INITIAL; write each value; (n) stands before a number alone
P13  DCL X(3) BIT INIT(@*);
    *, repeated strings and lists in INITIAL; write each value; (n) stands before a number alone
P14  A: @B: ;
    several labels of a statement; write L1: ; L2: and the statement
P14  @PROC S; END;
    a procedure has its name before it: write NAME: PROC
P15  ON @ENDFILE(SYSIN) STOP;
    the condition ENDFILE; the conditions are FIXEDOVERFLOW, ZERODIVIDE and AREA
P18  PUT @PAGE;
    PUT PAGE; write PUT SKIP
P18  PUT @DATA(X);
    PUT DATA; write PUT LIST with the name in quotes before the variable
P18  PUT @X;
P18  S: PROC OPTIONS(@REENTRANT); END;
    further OPTIONS; write OPTIONS(MAIN)
A1  @I = 1;
    implicit declaration; write DCL I FIXED BIN(15); or another type
A1  PUT LIST(@TRIM('X'));
    the built-in function TRIM; write a function with INDEX and SUBSTR
A1  CALL @S;
    a procedure of another file is declared too: write DCL S ENTRY;
A1  GOTO @L;
A1  DCL COUNT FIXED BIN(15); @CUONT = 1;
A1  PUT LIST(@F(1));
    implicit declaration; write DCL F ENTRY RETURNS(..), or with bounds
A3  DCL @X BIT(8) VARYING;
    BIT VARYING; write BIT(n)
A3  DCL @X BIT(8) CHAR(8);
A4  DCL @X FIXED;
    defaults of types; write FIXED BIN(15)
A4  DCL @X;
A6  DCL @X CHAR(*);
    * for lengths but of parameters; write the length
A6  DCL X BIT, (@Y, Z) BIT(*) STATIC;
    * for lengths but of parameters; write the length
A6  DCL @X CHAR(0);
A7  DCL @X(3, *) BIT;
    * for bounds but all those of a parameter; write the bounds
A7  S: PROC(X); DCL @X(*, 3) BIT; END;
    * for bounds but all those of a parameter; write the bounds
A7  DCL @X(3:1) BIT;
T1  DCL S CHAR(5); @SUBSTR(S, 1, 2) = 'AB';
    SUBSTR as a target; join the parts, as SUBSTR(S, 1, 2) || 'X' || SUBSTR(S, 4)
T1  PUT LIST(@LENGTH);
T2  DCL A(3) FIXED BIN(15); PUT LIST(@A);
    whole arrays and structures in expressions; write a DO group over the elements
T3  DCL A(3, 3) FIXED BIN(15); PUT LIST(@A(1));
    sections of arrays; write all subscripts, or none
T4  PUT LIST('N' @|| 5);
    numbers as operands of ||; assign the number to a CHAR variable first
T4  PUT LIST('5' @+ 5);
    conversion of strings to numbers; write FIXED BIN variables
T4  IF @5 THEN ;
T5  DCL A(3) FIXED BIN(15); A @= 0;
    a scalar assigned to an array; write a DO group that assigns each element
T5  DCL A(3) FIXED BIN(15), B(4) FIXED BIN(15); A @= B;
T5  DCL A(3) FIXED BIN(15), B FIXED BIN(15); A @= B;
    a scalar assigned to an array; write a DO group that assigns each element
T5  DCL X FIXED BIN(15); X @= '5';
    conversion of strings to numbers; write a procedure that reads the digits
T5  DCL (X, Y) FIXED BIN(15); X @= Y = 0;
    several targets of an assignment; a second = compares, so write an assignment for each
T5  DCL B BIT; B @= 1;
    conversion to bits; write a comparison, as B = (X > 0)
T5  DCL 1 S, 2 B BIT, 2 N FIXED BIN(15); S @= 1;
"""


def cases():
    """Each code with its statement and what is said, or an empty text."""
    lines = CASES.strip().splitlines()
    for line, below in zip(lines, [*lines[1:], ""]):
        if not line.startswith(" "):
            code, statement = line.split(maxsplit=1)
            yield code, statement, below.strip() if below.startswith(" ") else ""


def unit(statement):
    return f"M: PROC OPTIONS(MAIN);\n{statement.replace('@', '')}\nEND M;\n"


class LeftOut(unittest.TestCase):
    def at(self, statement):
        """The tokens of a unit and the number of the token after `@`."""
        tokens = scan(unit(statement), "")
        column = statement.index("@") + 1
        return tokens, next(at for at, token in enumerate(tokens) if (token.line, token.column) == (2, column))

    def test_what_is_said(self):
        for code, statement, said in cases():
            with self.subTest(statement, code=code):
                told = left_out(code, *self.at(statement)) or ""
                self.assertEqual(told.removeprefix("the profile leaves out "), said)

    def test_a_build_says_the_code_there(self):
        texts = [[("M", "SOURCE", unit(statement).splitlines())] for _, statement, _ in cases()]
        answers = answered([[*typed(text), "BUILD"] for text in texts])
        for (code, statement, _), answer in zip(cases(), answers):
            with self.subTest(statement):
                self.assertRegex(answer[-1][0], f"^M M:[23] {code} ")

    def test_a_fault_of_tokens_may_stand_alone(self):
        for code, statement, _ in cases():
            tokens, at = self.at(statement)
            if tokens[at].is_fault:
                self.assertEqual(left_out(code, [tokens[at]], 0), left_out(code, tokens, at))

    def test_any_code_at_any_token(self):
        """There is no text that makes it fail."""
        codes = [f"{letter}{number}" for letter in "PATZGN" for number in range(1, 19)]
        for _, statement, _ in cases():
            tokens = [token for token in scan(unit(statement), "") if not token.is_fault]
            for at in range(len(tokens)):
                for code in codes:
                    left_out(code, tokens[: at + 1], at)
                    left_out(code, tokens, at)

    def test_the_lists_of_the_page_are_read(self):
        kinds = {kind for kind, _ in instead()}
        self.assertEqual(kinds, {"attribute", "statement", "group", "PUT", "function", "character"})


if __name__ == "__main__":
    unittest.main()
