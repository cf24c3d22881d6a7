"""bin/pli by its words, files, streams and signals, over the workbench of PLIWB, else the second opinion."""
import os
import pty
import select
import signal
import subprocess
import tempfile
import time
import unittest
from pathlib import Path

TOP = Path(__file__).resolve().parents[2]
PLI = str(TOP / "bin" / "pli")
SECOND = str(TOP / "tools" / "tests" / "second.py")
WORKBENCH = os.environ.get("PLIWB") or SECOND
WAIT = 60

RANGE = """RANGE: PROC OPTIONS(MAIN);
  CALL S(5);
S: PROC(N);
  DCL N FIXED BIN(15), A(3) FIXED BIN(15);
  PUT LIST('BEFORE');
  A(N) =
    1;
END S;
END RANGE;
"""
ENDLESS = """E: PROC OPTIONS(MAIN);
DCL I FIXED BIN(31);
DO WHILE('1'B);
I = I + 1;
PUT SKIP LIST('LINE', I);
END;
END E;
"""
TRACED = """pli: the last 3 statements
range.pli:2: CALL S(5);
range.pli:5: PUT LIST('BEFORE');
range.pli:6: A(N) = 1;
"""
SILENT = "E: PROC OPTIONS(MAIN);\nPUT LIST('BEGUN');\nPUT SKIP LIST('HALF');\nDO WHILE('1'B);\nEND;\nEND E;\n"


def body(*lines):
    """A main procedure M of these lines."""
    return "\n".join(["M: PROC OPTIONS(MAIN);", *lines, "END M;", ""])


class Room(unittest.TestCase):
    """A folder for files, and calls of bin/pli in it."""

    def setUp(self):
        self.folder = tempfile.TemporaryDirectory()
        self.addCleanup(self.folder.cleanup)
        self.room = Path(self.folder.name)

    def write(self, **files):
        """Files by their names, in which `_` stands for the point before a suffix, the last one."""
        for name, text in files.items():
            path = self.room / ".".join(name.rsplit("_", 1))
            path.parent.mkdir(exist_ok=True)
            path.write_bytes(text if isinstance(text, bytes) else text.encode())

    def pli(self, *words, given=b"", workbench=WORKBENCH, **streams):
        streams = {"stdout": subprocess.PIPE, "stderr": subprocess.PIPE, **streams}
        environment = {**os.environ, "PLIWB": workbench}
        ran = subprocess.run([PLI, *words], cwd=self.room, input=given, env=environment, timeout=WAIT, **streams)
        told = (ran.stderr or b"").decode()
        self.assertNotIn("Traceback", told)
        self.assertNotIn("fault of the tool", told)
        return ran.returncode, (ran.stdout or b"").decode(), told

    def check(self, words, status, output="", told=""):
        self.assertEqual(self.pli(*words), (status, output, told))

    def check_told(self, words, *parts, status=1):
        """What is told has these parts, one after the other."""
        found = self.pli(*words)
        self.assertEqual(found[0], status, found)
        rest = found[2]
        for part in parts:
            self.assertIn(part, rest, found[2])
            rest = rest.partition(part)[2]


class Runs(Room):
    def test_a_unit_and_its_include(self):
        group = ["DCL I FIXED BIN(15);", "DO I = 1 TO 2;", "PUT SKIP LIST('LINE', I);", "END;"]
        self.write(lines_pli=body("%INCLUDE FIRST;", *group), First_inc="PUT LIST('FROM FIRST');\n")
        printed = "FROM FIRST \nLINE                            1 \nLINE                            2 \n"
        self.check(["lines.pli"], 0, printed)
        self.check(["lines.pli", "--", "LIST FIRST", "MEMBERS"], 0,
                   "1 PUT LIST('FROM FIRST');\nOK\nFIRST INCLUDE 1\nLINES SOURCE 7\nOK\n")

    def test_units_together(self):
        units = [str(TOP / "examples" / name) for name in ("marks.pli", "mean.pli", "report.pli")]
        status, output, told = self.pli(*units)
        self.assertEqual((status, told), (0, ""))
        self.assertIn("MEAN OF                 SECOND                          8 \n", output)

    def test_a_line_feed_is_printed_once(self):
        self.write(m_pli=body("PUT SKIP;"))
        self.check(["m.pli"], 0, "\n")

    def test_a_program_may_print_what_ends_a_run(self):
        lines = ["PUT LIST('ENDED');", "PUT SKIP LIST('ERROR E1 SUBSCRIPT RANGE M 1');", "PUT SKIP LIST('OK');"]
        self.write(m_pli=body(*lines))
        self.check(["m.pli"], 0, "ENDED \nERROR E1 SUBSCRIPT RANGE M 1 \nOK \n")

    def test_an_error_has_its_place_and_statement(self):
        self.write(range_pli=RANGE)
        self.check(["range.pli"], 1, "BEFORE \n", "range.pli:6: E1 SUBSCRIPT RANGE\n  A(N) = 1;\n")
        self.check(["range.pli", "--", "RUN"], 1, "BEFORE \n", "range.pli:6: E1 SUBSCRIPT RANGE\n  A(N) = 1;\n")

    def test_a_trace_has_the_last_statements(self):
        self.write(range_pli=RANGE)
        told = f"range.pli:6: E1 SUBSCRIPT RANGE\n  A(N) = 1;\n{TRACED}"
        self.check(["range.pli", "--trace"], 1, "BEFORE \n", told)

    def test_a_trace_counts_turns_calls_and_branches(self):
        group = ["DCL I FIXED BIN(15);", "DO I = 1 TO 30000;", "IF I = 2900 THEN CALL S;", "ELSE ;", "END;"]
        self.write(m_pli=body(*group, "S: PROC;", "PUT LIST(DIVIDE(1, 0, 15));", "END S;"))
        turn = "m.pli:4: IF I = 2900 THEN\nm.pli:5: ;\n"
        tail = f"{turn}m.pli:4: IF I = 2900 THEN\nm.pli:4: CALL S;\nm.pli:8: PUT LIST(DIVIDE(1, 0, 15));\n"
        status, output, told = self.pli("m.pli", "--trace")
        self.assertEqual((status, output, told[-len(tail) :]), (1, "", tail))
        self.assertIn("pli: the last 20 statements\n", told)
        told = f"pli: OUT OF STEPS\npli: the last 3 statements\nm.pli:3: DO I = 1 TO 30000;\n{turn}"
        self.check(["m.pli", "--trace", "--steps=6"], 1, "", told)

    def test_a_trace_goes_into_units(self):
        units = ["ON ZDIV PUT LIST('Z');", "ON FOFL BEGIN;", "SIGNAL ZDIV;", "END;", "SIGNAL FOFL;", "SIGNAL AREA;"]
        self.write(m_pli=body(*units))
        lines = ["2: ON ZDIV", "3: ON FOFL", "6: SIGNAL FOFL;", "3: BEGIN;", "4: SIGNAL ZDIV;", "2: PUT LIST('Z');"]
        told = "m.pli:7: E11 AREA\n  SIGNAL AREA;\npli: the last 7 statements\n"
        told += "".join(f"m.pli:{line}\n" for line in [*lines, "7: SIGNAL AREA;"])
        self.check(["m.pli", "--trace"], 1, "Z \n", told)

    def test_steps(self):
        self.write(m_pli=ENDLESS)
        for words in (["--steps", "6"], ["--steps=6"]):
            self.check(["m.pli", *words], 1, "\nLINE                                 1 \n", "pli: OUT OF STEPS\n")

    def test_standard_input_and_names(self):
        self.write(x_pli=body("CALL X;", "DCL X ENTRY;"), y_pli="X: PROC;\nPUT LIST(A(5));\nDCL A(3) BIT;\nEND;\n")
        self.assertEqual(self.pli("-", given=RANGE.encode())[2], "<stdin>:6: E1 SUBSCRIPT RANGE\n  A(N) = 1;\n")
        self.check(["--as", "FIRST", "x.pli", "y.pli"], 1, "", "y.pli:2: E1 SUBSCRIPT RANGE\n  PUT LIST(A(5));\n")


class Commands(Room):
    """Commands after `--`."""

    def test_answers_and_statuses(self):
        self.write(m_pli=body("PUT LIST(1);"))
        self.check(["m.pli", "--", "RUN 1", "FOO", "QUIT", "MEMBERS"], 1, "B1 BAD COMMAND\nOK\n", "pli: OUT OF STEPS\n")
        self.check(["m.pli", "--", "run"], 0, "   1 \n")

    def test_edits_are_followed(self):
        self.write(m_pli=body("PUT LIST(1);"))
        edits = ["INSERT M 1 X = 1;", "BUILD", "REMOVE M 2 2", "REPLACE M 2 PUT LIST(DIVIDE(1, 0, 15));"]
        status, output, told = self.pli("m.pli", "--", *edits, "BUILD", "RUN")
        self.assertEqual((status, output), (1, "OK\nNOT BUILT\nOK\nOK\nBUILT\n"))
        self.assertIn("m.pli as edited:2:1: A1 NOT DECLARED: X\nX = 1;\n^\n", told)
        self.assertIn("m.pli as edited:2: E10 ZERODIVIDE\n  PUT LIST(DIVIDE(1, 0, 15));\n", told)


class Places(Room):
    """Diagnostics with their token, their line and a caret, and notes."""

    def test_a_token_below_a_caret(self):
        self.write(m_pli=body("DCL (COUNT, B) FIXED BIN(15);", "\tCOUNT = 1;  COUNTT = 2;"))
        self.check_told(["m.pli"], "m.pli:3:14: A1 NOT DECLARED: COUNTT\n\tCOUNT = 1;  COUNTT = 2;\n\t            ^\n",
                        "note: did you mean COUNT\n")

    def test_whole_lines_decide(self):
        self.write(m_pli=body("CALL M(1);"), q_pli="Q: PROC;\n  X = 1;\nEND;\n")
        told = "m.pli:2:6: T6 WRONG NUMBER OF ARGUMENTS: M\n", "q.pli:2:3: A1 NOT DECLARED: X\n"
        self.check_told(["m.pli", "q.pli"], *told)

    def test_notes_on_declarations(self):
        self.write(m_pli=body("DCL X BIT;", "DCL X CHAR(2);", "BEGIN; DCL X BIT; END;"))
        told = "m.pli:3:5: A2 DECLARED TWICE: X\nDCL X CHAR(2);\n    ^\n  note: first declared at line 2\n"
        self.check_told(["m.pli"], told)
        self.assertEqual(self.pli("m.pli")[2].count("A2"), 1)

    def test_notes_on_ends(self):
        self.write(a_pli=body("DCL I FIXED BIN;", "DO I = 1 TO 2;", "PUT LIST(I);"))
        self.write(b_pli="M: PROC OPTIONS(MAIN);\nDO;\nEND;\n", c_pli="M: PROC OPTIONS(MAIN);\nEND M")
        told = "a.pli:5:5: P8 WRONG END NAME: M\nEND M;\n    ^\n"
        self.check_told(["a.pli"], told, "note: DO of line 3 is still open\n")
        self.check_told(["b.pli"], "b.pli:3:4: P9 END MISSING: ;\n", "note: PROCEDURE of line 1 is still open\n")
        self.check_told(["c.pli"], "c.pli:2:5: P9 END MISSING: M\n", "note: ; is missing behind M\n")

    def test_notes_on_statements(self):
        self.write(a_pli=body("DCL I FIXED BIN;", "I = 1", "PUT LIST(I);"), b_pli=body("PUT LIST(1)", "PUT LIST(2);"))
        self.check_told(["a.pli"], "a.pli:3:1: P2 NOT A STATEMENT: I\n", "; may be missing behind I = 1\n",
                        "the statement before, of line 2: DCL I FIXED BIN;\n")
        told = "b.pli:3:1: P5 SEMICOLON EXPECTED: PUT\n"
        self.check_told(["b.pli"], told, "the statement before, of line 2: PUT LIST(1)\n")

    def test_notes_on_types(self):
        lines = ["N = C + 1;", "B = N * 2;", "IF 1 < N < 3 THEN ;", "CALL F(C, A(1));", "N = G(1) & B;"]
        first = "F: PROC(X, Y); DCL X FIXED BIN(15), Y FIXED BIN(31); END F;"
        second = "G: PROC(X) RETURNS(FIXED BIN(15)); DCL X FIXED BIN(15); RETURN('A'); END G;"
        items = "DCL B BIT(4), C CHAR(5) VAR, N FIXED BIN(15), A(3) FIXED BIN(31);"
        self.write(m_pli=body(items, *lines, first, second))
        self.check_told(
            ["m.pli"],
            *("m.pli:3:7: T4 WRONG OPERAND TYPE: +\n", "note: operands CHARACTER and FIXED BINARY\n"),
            *("m.pli:4:3: T5 CANNOT ASSIGN: =\n", "note: FIXED BINARY is assigned to BIT\n"),
            *("m.pli:5:10: T4 WRONG OPERAND TYPE: <\n", "note: operands BIT and FIXED BINARY\n"),
            *("m.pli:6:6: T7 WRONG ARGUMENT: F\n", "note: argument CHARACTER, FIXED BINARY, parameter FIXED BINARY, "),
            *("m.pli:7:10: T4 WRONG OPERAND TYPE: &\n", "note: operands FIXED BINARY and BIT\n"),
            *("m.pli:9:64: T5 CANNOT ASSIGN: 'A'\n", "note: CHARACTER is assigned to FIXED BINARY\n"),
        )

    def test_both_places_of_link_faults(self):
        self.write(q_pli="Q: PROC OPTIONS(MAIN);\n DCL V BIT EXT;\nEND;", s_pli="Q: PROC;\nEND;")
        self.write(r_pli="R: PROC OPTIONS(MAIN);\nDCL V BIT(2) EXT, NO ENTRY(BIT);\nEND;")
        self.check_told(
            ["s.pli", "r.pli", "q.pli"],
            *("r.pli:1:1: N2 TWO MAIN PROCEDURES: R\n", "note: the first main procedure is at q.pli:1\n"),
            "r.pli:2:19: N3 UNRESOLVED: NO\n",
            *("s.pli:1:1: N4 DEFINED TWICE: Q\n", "note: first defined at q.pli:1\n"),
            *("r.pli:2:5: N5 MISMATCH: V\n", "note: does not agree with q.pli:2\n"),
        )
        self.check_told(["s.pli"], "pli: N1 NO MAIN PROCEDURE\n", "OPTIONS(MAIN)")

    def test_faults_of_tokens(self):
        for text, told in (
            *(("X = 1.5;", "2:5: X4 BAD NUMBER: 1.5"), ("X = 'A;", "2:5: X2 UNENDED STRING: '")),
            *(("/* A", "2:1: X1 UNENDED COMMENT"), ("  # ;", "2:3: X3 BAD CHARACTER: #")),
            *((f" {'A' * 32};", "2:2: X5 NAME TOO LONG"), ("X = '2'B;", "2:5: X6 BAD BITS")),
        ):
            self.write(m_pli=body(text))
            self.check_told(["m.pli"], f"m.pli:{told}")

    def test_too_many_tokens_for_a_line_each(self):
        self.write(m_pli=body("X = 1;", *[";" * 100] * 100))
        self.check(["m.pli"], 1, "", "m.pli:2: A1 NOT DECLARED\n")

    def test_at_most_twenty(self):
        self.write(m_pli=body(*["X = 1;"] * 25))
        told = self.pli("m.pli")[2]
        self.assertEqual(told.count(" A1 "), 20)
        self.assertTrue(told.endswith("pli: 5 more; --errors 25 tells all\n"))
        self.assertEqual(self.pli("m.pli", "--errors", "30")[2].count(" A1 "), 25)

    def test_warnings(self):
        self.write(m_pli=body("DCL C CHAR(2);", "C = 'LONG';", "/* A /* B */"))
        self.check_told(["m.pli", "--warn"], "m.pli:3:5: warning: ", "m.pli:4:6: warning: ", status=0)


class Includes(Room):
    def test_forms_of_directives(self):
        self.write(m_pli=body("%INCLUDE /* c */ K;", "%INCLUDE'k2';", "%\nINCLUDE\nK3\n;", "%include K4;"))
        self.write(k_INC="PUT LIST(1);", K2_h="PUT LIST(2);", K3_PL1="PUT LIST(3);", K4_Pli="PUT LIST(4);")
        self.check(["m.pli"], 0, "   1                       2                       3                       4 \n")

    def test_folders(self):
        (self.room / "one").mkdir()
        (self.room / "one" / "k.inc").write_text("PUT LIST('ONE');")
        self.write(m_pli=body("%INCLUDE K;"))
        self.check(["m.pli", "-I", "one"], 0, "ONE \n")
        self.check(["-Ione", "m.pli"], 0, "ONE \n")
        told = "m.pli:2:1: I1 NO SUCH MEMBER: %INCLUDE K\n%INCLUDE K;\n^\n"
        self.check_told(["m.pli"], told, "no file K with .inc, .h, .pli or .pl1")
        self.write(k_inc="PUT LIST('BESIDE');")
        self.check(["m.pli", "-I", "one"], 0, "BESIDE \n")

    def test_a_fault_of_an_include_is_told_once(self):
        self.write(m_pli=body("DCL P ENTRY;", "%INCLUDE K;"), p_pli="P: PROC;\n%INCLUDE K;\nEND;")
        self.write(k_inc="%INCLUDE L;\n", l_inc="\n X = 1;\n")
        told = "l.inc:2:2: A1 NOT DECLARED: X\n X = 1;\n ^\n"
        self.check_told(["m.pli", "p.pli"], told, "included by k.inc:1\n", "included by m.pli:3\n")
        self.assertEqual(self.pli("m.pli", "p.pli")[2].count("A1"), 1)

    def test_names_that_collide(self):
        for folder, text in (("a", "PUT LIST('A');"), ("b", "PUT LIST('B');")):
            (self.room / folder).mkdir()
            (self.room / folder / "k.inc").write_text(text)
        (self.room / "a" / "m.pli").write_text(body("%INCLUDE K;", "DCL P ENTRY; CALL P;"))
        (self.room / "b" / "p.pli").write_text("P: PROC;\n%INCLUDE K;\nEND;\n")
        (self.room / "b" / "m.pli").write_text("")
        self.check_told(["a/m.pli", "b/p.pli"], "b/p.pli:2:1: %INCLUDE K means b/k.inc here, and a/k.inc elsewhere")
        (self.room / "b" / "k.inc").write_text("PUT LIST('A');")
        self.check(["a/m.pli", "b/p.pli"], 0, "A                       A \n")
        self.check_told(["a/m.pli", "b/m.pli"], "pli: b/m.pli: a/m.pli is the unit M already; --as NAME FILE", status=2)
        self.write(calc_pli=body("%INCLUDE CALC;"), calc_inc=";")
        told = "calc.pli:2:1: %INCLUDE CALC means calc.inc, but calc.pli is the unit CALC; --as NAME FILE"
        self.check_told(["calc.pli"], told)
        self.check(["--as", "MAIN", "calc.pli"], 0)

    def test_carriage_returns(self):
        long = b"/*" + b"-" * 116 + b"*/"
        lines = [b"M: PROC OPTIONS(MAIN);", b"%INCLUDE K;", long, b"  X = 1;", b"END M;", b""]
        self.write(m_pli=b"\r\n".join(lines), k_inc=b"PUT LIST(1);\r\n")
        self.check_told(["m.pli"], "m.pli:4:3: A1 NOT DECLARED: X\n  X = 1;\n  ^\n")


class Refusals(Room):
    """Words, files, workbenches and streams that are not as they should be: a line each, and a status."""

    def test_words(self):
        self.write(m_pli=body(";"))
        for words, told in (
            ([], "pli: no file is given"),
            (["--stepz=3", "m.pli"], "pli: --stepz=3 is no option; did you mean --steps"),
            (["m.pli", "--steps"], "pli: --steps: something is missing"),
            (["--steps", "X", "m.pli"], "pli: --steps X: a number"),
            (["-I", "none", "m.pli"], "pli: -I none: there is no such folder"),
            (["--as", "2", "m.pli"], "pli: m.pli: 2 is no name of a member"),
            (["none.pli"], "pli: none.pli: No such file or directory"),
            (["."], "pli: .: Is a directory"),
            (["--explain", "Q9"], "pli: Q9 is no code"),
            (["m.pli", "--trace", "--", "RUN"], "pli: --trace goes with a run"),
        ):
            status, output, found = self.pli(*words)
            self.assertEqual((status, output, found[: len(told)], found.count("\n")), (2, "", told, 1))

    def test_help(self):
        status, output, told = self.pli("--help")
        self.assertEqual((status, output[:12], told), (0, "pli FILE.. [", ""))
        self.assertEqual(self.pli("--version")[0::2], (0, ""))
        self.assertTrue(self.pli("--explain", "a1")[1].startswith("A1 NOT DECLARED\n"))

    def test_files(self):
        self.write(empty_pli="", byte_pli=body(" \x01"), many_pli=body(*[";"] * 9998))
        self.write(long_pli=body("/*" + "-" * 120 + "*/"))
        (self.room / "2names.pli").write_text(body(";"))
        self.check(["empty.pli"], 1, "", "empty.pli:1: P1 NO PROCEDURE\n")
        self.check(["long.pli"], 1, "", "long.pli:2:121: M4 LINE TOO LONG: 124 bytes, 120 at most\n")
        self.check(["byte.pli"], 1, "", "byte.pli:2:2: M5 BAD BYTE: X'01'\n ?\n ^\n")
        self.check_told(["many.pli"], "many.pli:10000:1: M6 TOO MANY LINES")
        told = "pli: 2names.pli: 2NAMES is no name of a member; --as NAME 2names.pli gives it one\n"
        self.check(["2names.pli"], 2, "", told)
        self.write(bytes_pli=bytes(range(256)) * 50)
        self.check_told(["bytes.pli"], "bytes.pli:1:1: M5 BAD BYTE: X'00'\n")

    @unittest.skipIf(os.geteuid() == 0, "nothing is unreadable for the superuser")
    def test_an_unreadable_file(self):
        self.write(m_pli=body(";"))
        (self.room / "m.pli").chmod(0)
        self.check(["m.pli"], 2, "", "pli: m.pli: Permission denied\n")

    def test_workbenches(self):
        self.write(m_pli=body(";"))
        for program, told in (
            ("/none", ": No such file or directory"),
            (".", ": Permission denied"),
            ("/bin/true", " ended with status 0 before it had answered"),
            ("/bin/false", " ended with status 1 before it had answered"),
            ("/bin/cat", " does not answer as a workbench"),
        ):
            self.check(["m.pli", "--workbench", program], 3, "", f"pli: {program}{told}\n")
        self.assertEqual(self.pli("m.pli", "--workbench", WORKBENCH, workbench="/none")[0], 0)

    def test_outputs(self):
        self.write(m_pli=ENDLESS)
        with open("/dev/full", "wb") as full:
            told = "pli: standard output: No space left on device\n"
            self.assertEqual(self.pli("m.pli", stdout=full)[0::2], (3, told))
        reading, writing = os.pipe()
        os.close(reading)
        self.assertEqual(self.pli("m.pli", stdout=writing)[0::2], (3, "pli: standard output: Broken pipe\n"))
        os.close(writing)
        for closed, status, told in (
            (">&-", 3, b"pli: standard output: Bad file descriptor\n"),
            ("2>&-", 1, b""),
            ("<&-", 1, b"pli: OUT OF STEPS\n"),
        ):
            call, environment = f"{PLI} m.pli --steps 9 {closed}", {**os.environ, "PLIWB": WORKBENCH}
            ran = subprocess.run(call, shell=True, cwd=self.room, capture_output=True, timeout=WAIT, env=environment)
            self.assertEqual((ran.returncode, ran.stderr), (status, told))


class Batch(Room):
    """An unproved run, which takes all questions before it answers the first."""

    def setUp(self):
        super().setUp()
        starter = '[ "$1" = --which ] && exec echo unproved; cat >given; "$SERVER" <given; sleep 0.2; echo >ended'
        (self.room / "starter").write_text(f"#!/bin/sh\n{starter}\n")
        (self.room / "starter").chmod(0o755)

    def pli(self, *words, **streams):
        begin = f"import sys; sys.path.insert(0, {str(TOP / 'tools' / 'pli')!r}); import main, workbench"
        program = f"{begin}; workbench.STARTER = './starter'; sys.exit(main.main(sys.argv[1:]))"
        environment = {**os.environ, "PLIWB": "", "SERVER": WORKBENCH}
        call = ["python3", "-c", program, *words]
        ran = subprocess.run(call, cwd=self.room, capture_output=True, timeout=WAIT, env=environment)
        return ran.returncode, ran.stdout.decode(), ran.stderr.decode()

    def test_a_run_and_its_trace(self):
        self.write(range_pli=RANGE)
        told = f"range.pli:6: E1 SUBSCRIPT RANGE\n  A(N) = 1;\n{TRACED}"
        self.check(["range.pli", "--trace"], 1, "BEFORE \n", told)
        self.assertTrue((self.room / "ended").exists())

    def test_diagnostics_and_commands(self):
        self.write(m_pli=body("X = 1;"), good_pli=body("PUT LIST(1);"))
        self.check_told(["m.pli"], "m.pli:2:1: A1 NOT DECLARED: X\nX = 1;\n^\n")
        self.check(["good.pli", "--", "LIST GOOD", "RUN", "QUIT"], 0,
                   "1 M: PROC OPTIONS(MAIN);\n2 PUT LIST(1);\n3 END M;\nOK\n   1 \nOK\n")


class Signals(Room):
    def started(self, text):
        self.write(m_pli=text)
        return subprocess.Popen([PLI, "m.pli"], cwd=self.room, stdout=subprocess.PIPE, stderr=subprocess.PIPE,
                                env={**os.environ, "PLIWB": WORKBENCH})

    def stopped(self, running, number):
        """What a running call gives after a signal; its workbench ends too."""
        children = Path(f"/proc/{running.pid}/task/{running.pid}/children").read_text().split()
        running.send_signal(number)
        output, told = running.communicate(timeout=WAIT)
        self.assertTrue(children)
        self.assertFalse([child for child in children if Path(f"/proc/{child}").exists()])
        return running.returncode, output, told

    def test_output_comes_as_it_is_printed(self):
        running = self.started(ENDLESS)
        for line in ("\n", f"LINE {1:33} \n", f"LINE {2:33} \n"):
            self.assertEqual(running.stdout.readline(), line.encode())
        status, output, told = self.stopped(running, signal.SIGINT)
        self.assertEqual((status, told, output[-1:]), (130, b"pli: stopped\n", b"\n"))

    def test_a_run_is_asked_once(self):
        self.write(m_pli=body("DCL I FIXED BIN(31);", "DO I = 1 TO 9999;", "END;", "PUT LIST('DONE');"))
        (self.room / "bench").write_text(f"#!/bin/sh\ntee asked | exec {WORKBENCH}\n")
        (self.room / "bench").chmod(0o755)
        self.assertEqual(self.pli("m.pli", workbench="./bench"), (0, "DONE \n", ""))
        self.assertEqual((self.room / "asked").read_bytes().count(b"\nRUN "), 1)

    def test_output_so_far(self):
        for number in (signal.SIGINT, signal.SIGTERM):
            running = self.started(SILENT)
            time.sleep(3)
            self.assertEqual(self.stopped(running, number), (128 + number, b"BEGUN \nHALF \n", b"pli: stopped\n"))


class Prompt(Room):
    """The prompt, on a terminal."""

    def setUp(self):
        super().setUp()
        self.process, self.terminal = pty.fork()
        if not self.process:
            os.chdir(self.room)
            os.execve(PLI, [PLI], {**os.environ, "PLIWB": WORKBENCH, "TERM": "dumb"})
        self.addCleanup(os.close, self.terminal)

    def until(self, wanted):
        """What the terminal shows, up to some text."""
        shown, end = b"", time.time() + WAIT
        while wanted not in shown and time.time() < end and select.select([self.terminal], [], [], WAIT)[0]:
            shown += os.read(self.terminal, 4096)
        self.assertIn(wanted, shown)
        return shown

    def line(self, text, wanted):
        os.write(self.terminal, text.encode() + b"\n")
        return self.until(wanted)

    def test_a_session(self):
        self.write(m_pli=ENDLESS, k_inc=";\n")
        self.until(b"pli> ")
        self.line("HELP", b"SAVE FILE [NAME]")
        self.line("LOAD none.pli", b"pli: none.pli: No such file")
        self.line("LOAD m.pli", b"OK")
        self.line("LOAD k.inc", b"OK")
        self.line("MEMBERS", b"K INCLUDE 1\r\nM SOURCE 7\r\nOK")
        self.line("FOO", b"B1 BAD COMMAND")
        self.line("BUILD", b"BUILT")
        self.line("RUN 6", b"OUT OF STEPS")
        self.line("RUN 999999999", b" 20 \r\n")
        os.write(self.terminal, b"\x03")
        self.until(b"pli: stopped; the members are kept")
        self.line("REPLACE M 5 PUT LIST('NEW');", b"OK")
        self.line("SAVE new.pli M", b"OK")
        self.line("BUILD", b"BUILT")
        self.line("RUN 6", b"NEW \r\nOUT OF STEPS")
        os.write(self.terminal, b"QUIT\n")
        self.assertEqual(os.waitpid(self.process, 0)[1], 0)
        edited = ENDLESS.replace("PUT SKIP LIST('LINE', I);", "PUT LIST('NEW');")
        self.assertEqual((self.room / "new.pli").read_text(), edited)


if __name__ == "__main__":
    unittest.main()
