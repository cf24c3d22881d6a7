"""Members typed into a workbench, built, run and traced, for a call and at the prompt, and what comes of it told."""
import re
import signal
import textwrap
from collections import deque
from contextlib import suppress
from pathlib import Path

from files import Member, gathered
from outline import OPENING
from pages import printed
from report import LONGEST_LINE, Report
from streams import Stopped, Trouble, end_line, show, tell
from workbench import Workbench, chosen

SPREAD = 7  # so many times the steps lead a program with marks as far as one without them
SHOWN = 20
EVERY = 4096
MOST_IN_BATCH = 350_000
ERROR = re.compile(r"ERROR (E\d+ .*) (\S+) (\d+)")
EDIT = re.compile(r"(ADD|DELETE|INSERT|REPLACE|REMOVE) ([A-Z][A-Z0-9_$]*)(?: (\S+))?(?: (.*))?", re.IGNORECASE)


def edit(members, command):
    """Makes the edit that a workbench accepted, if the command is one."""
    if not (found := EDIT.fullmatch(command.decode("latin-1"))):
        return
    word, name, first, rest = found[1].upper(), found[2].upper(), found[3], found[4] or ""
    if word == "ADD":
        members[name] = Member(name, first.upper())
    elif word == "DELETE":
        del members[name]
    else:
        at, old = int(first) - (word != "INSERT"), members[name]
        end = int(rest) if word == "REMOVE" else at + (word == "REPLACE")
        lines = [*old.lines[:at], *([] if word == "REMOVE" else [rest.encode("latin-1")]), *old.lines[end:]]
        members[name] = Member(name, old.kind, lines, old.path, f"{str(old).removesuffix(' as edited')} as edited")


def answered(bench, members, command):
    """The answers to a command that is no RUN, which are shown; an edit is made in the members too."""
    answers = [line for line in bench.ask([command]) if line != f"{bench.mark} INCLUDE 1".encode()]
    if answers == [b"OK"]:
        edit(members, command)
    show(b"".join(answer + b"\n" for answer in answers))
    return answers


class Session:
    """The members of a call in a workbench."""

    def __init__(self, bench, members, report):
        self.bench, self.members, self.report = bench, members, report

    def typing(self, by_tokens=False):
        """The commands that type all members and build them."""
        return [*(command for member in self.members.values() for command in member.typed(by_tokens)), b"BUILD"]

    def by_tokens(self):
        """The commands that type the members by tokens and build, and type them again as they were."""
        deleting = [f"DELETE {name}".encode() for name in self.members]
        return [*deleting, *self.typing(True), *deleting, *self.typing()]

    def plan(self, commands, trace):
        """Asks a batch all that may be asked."""
        traced = questions(self, 1, 1) if trace else []
        self.bench.plan([self.typing(), self.by_tokens(), *([command] for command in commands), *traced])

    def build(self, commands):
        """Whether members are built by commands of which the last is BUILD; tells the diagnostics."""
        answers = self.bench.ask(commands)
        for command, answer in zip(commands[:-1], answers):
            if answer != b"OK":
                raise Trouble(f"the workbench answers {answer.decode()} to {command[:60].decode('latin-1')}")
        lines = [line.decode() for line in answers[len(commands) - 1 :]]
        if lines == ["BUILT"]:
            return True
        commands = self.by_tokens()
        answers, typed = self.bench.ask(commands) or [], commands.index(b"BUILD")
        end = answers.index(b"NOT BUILT") if b"NOT BUILT" in answers else 0
        by_tokens = [line.decode() for line in answers[typed:end]] if set(answers[:typed]) <= {b"OK"} else None
        self.report.diagnosed([line for line in lines if line != "NOT BUILT"], by_tokens)
        return False

    def run(self, command, steps=None):
        """The status of a run, whose output is shown as it comes, with a trace where its steps are given."""
        ending = self.bench.ask([command], show).decode()
        if ending == "ENDED":
            return 0
        if error := ERROR.fullmatch(ending):
            place, text = self.report.place_of(error[2], int(error[3]))
            tell(f"{place}: {error[1]}\n  {text}")
        else:
            tell(f"pli: {ending}")
        if steps is not None:
            tell_trace(self, steps)
        return 1

    def command(self, command):
        """The status of a command of the workbench, whose answers are shown."""
        if command.split(b" ")[0].upper() == b"RUN":
            return self.run(command)
        if command.upper() == b"BUILD":
            built = self.build([command])
            show(b"BUILT\n" if built else b"NOT BUILT\n")
            return int(not built)
        answers = answered(self.bench, self.members, command)
        self.report = Report(self.members, self.report.most)
        return int(answers[-1:] != [b"OK"])


def traced(outline, declaration, counting):
    """The words of a unit with marks. `counting` stands before a statement, whose number is its `#`: five steps."""
    statements, words = outline.statements, []

    def add(number, within=()):
        """Adds a statement with all that stands in it, after THEN, ELSE and ON within these words and END; gives the
        number of the next.
        """
        each, following = statements[number], number + 1
        words.extend([*within, *(token.spelled for token in outline.tokens[each.start : each.at])])
        if each.word not in ("PROCEDURE", "DECLARE", "END"):
            words.extend([part.replace("#", str(number + 1)) for part in counting] + [";"] * (not within))
        words.extend(token.spelled for token in outline.tokens[each.at : each.end])
        if each.word == "IF":
            following = add(following, ["DO ;"])
            if following < len(statements) and statements[following].is_else:
                words.append("ELSE")
                following = add(following, ["DO ;"])
        elif each.word == "ON":
            following = add(following, ["BEGIN ;"] + [";"] * (SPREAD - 1))
        elif each.word in OPENING:
            turns = each.word == "DO" and each.end - each.at > len(("DO", ";"))
            words.extend(declaration * (not number) + [";"] * (SPREAD - 1) * (turns or each.word == "PROCEDURE"))
            while statements[following].word != "END":
                following = add(following)
            words.append("END ;")
            following += 1
        words.extend(["END ;"] * bool(within))
        return following

    add(0)
    return words


def filled(words):
    """Lines of words, which are parted between them alone."""
    text = " ".join(word.replace(" ", "\0").replace("\t", "\1") for word in words)
    lines = textwrap.wrap(text, LONGEST_LINE, break_long_words=False, break_on_hyphens=False)
    return [line.replace("\0", " ").replace("\1", "\t") for line in lines]


def questions(session, first, every, steps=MOST_IN_BATCH):
    """The commands that build the program with marks from a statement on, that run it, and that take it away."""
    units = {name: session.report.unit(name) for name in session.report.sources()}
    used = {token.text for outline in units.values() for token in outline.tokens}
    count, limit = [name for number in range(len(used) + 2) if (name := f"T${number}") not in used][:2]
    declaration = ["DCL", f"{count} FIXED BIN(31) EXT ,", f"{limit} FIXED BIN(31) EXT INIT({first}) ;"]
    before = [f"{count} = {count} + 1;", f"IF {count} >= {limit} THEN DO;", f"{limit} = {limit} + {every};"]
    build = [f"DELETE {name}".encode() for name in session.members]
    for unit, (name, outline) in enumerate(units.items()):
        mark = f"PUT SKIP LIST('{session.bench.mark} {unit} #');"
        lines = filled(traced(outline, declaration, [*before, mark, "END; ELSE DO; ; ; END;"]))
        build += [f"ADD {name} SOURCE".encode()]
        build += [f"INSERT {name} {at} {line}".encode("latin-1") for at, line in enumerate(lines)]
    deleted = [f"DELETE {name}".encode() for name in units]
    return [*build, b"BUILD"], [f"RUN {steps}".encode()], [*deleted, *session.typing()]


def marks(session, first, every, steps):
    """How many marks a run prints, the last of them, and how it ends; nothing where there can be no marks."""
    build, run, restore = questions(session, first, every, steps)
    last, seen = deque(maxlen=SHOWN), 0

    def keep(data):
        nonlocal seen
        found = re.findall(rb"^%s (\d+) (\d+) " % session.bench.mark.encode(), data, re.MULTILINE)
        seen += len(found)
        last.extend(found)

    answers = session.bench.ask(build)
    ending = session.bench.ask(run, keep) if answers and answers[-1] == b"BUILT" else None
    session.bench.ask(restore)
    return ending and (seen, last, ending)


def tell_trace(session, steps):
    """Tells the last statements that a run of so many steps began."""
    batch, most = session.bench.batch, MOST_IN_BATCH if session.bench.batch else SPREAD * steps
    found = marks(session, *((1, 1) if batch else (EVERY, EVERY)), most)
    too_long = batch and found and found[2] == b"OUT OF STEPS" and SPREAD * steps > most
    if found and not batch:
        found = marks(session, max(1, found[0] * EVERY - SHOWN + 1), 1, most)
    if not found or too_long:
        tell(f"pli: no trace: the {'run is too long for an unproved program' if found else 'program is too large'}")
        return
    tell(f"pli: the last {len(found[1])} statements")
    for unit, number in found[1]:
        place, text = session.report.place_of(session.report.sources()[int(unit)], int(number))
        tell(f"{place}: {text}")


class Shell:
    """A prompt over a workbench, whose members are kept beside it."""

    def __init__(self, call):
        self.words, batch = chosen(call.given)
        if batch:
            raise Trouble("the prompt wants the proved program, which bin/prove makes, or one that --workbench names")
        self.folders, self.members, self.bench = call.folders, {}, Workbench(self.words)

    def serve(self):
        """Answers lines until the end; the status."""
        with suppress(ImportError):
            import readline  # noqa: F401, gives `input` its history
        tell("pli: HELP tells the commands")
        line = ""
        while line.strip().upper() != "QUIT":
            try:
                line = input("pli> ")
                self.answer(line.encode("utf-8", "surrogateescape"))
            except EOFError:
                show(b"\n")
                break
            except Trouble as trouble:
                if trouble.status == 3:
                    raise
                tell(f"pli: {trouble}")
            except Stopped as stopped:
                if stopped.args != (signal.SIGINT,):
                    raise
                self.begin_again()
        return 0

    def begin_again(self):
        """After Ctrl-C: a new workbench with the same members, where one was asked."""
        if not self.bench.busy:
            show(b"\n")
            return
        handler = signal.signal(signal.SIGINT, signal.SIG_IGN)
        self.bench.stop()
        end_line()
        self.bench = Workbench(self.words)
        self.typed([], self.members)
        tell("pli: stopped; the members are kept, and BUILD builds them")
        signal.signal(signal.SIGINT, handler)

    def typed(self, gone, members):
        """Types members, after the end of others."""
        commands = [command for member in members.values() for command in member.typed()]
        answers = self.bench.ask([f"DELETE {name}".encode() for name in gone] + commands)
        for wrong in filter(b"OK".__ne__, answers):
            raise Trouble(f"the workbench answers {wrong.decode()}")

    def answer(self, line):
        """Answers a line."""
        word, *rest = [each.decode("utf-8", "surrogateescape") for each in line.split()[:3]] or [""]
        own = {"LOAD": self.load, "SAVE": self.save}.get(word.upper())
        if word.upper() == "HELP":
            show(printed("prompt"))
        elif own and not rest:
            raise Trouble(f"{word} FILE: the file is missing", 2)
        elif own:
            own(Path(rest[0]), *rest[1:])
            show(b"OK\n")
        elif word.upper() == "RUN":
            show(self.bench.ask([line], show) + b"\n")
        elif word and word.upper() != "QUIT":
            answered(self.bench, self.members, line)

    def load(self, path, name=None):
        """Types a file and what it includes."""
        members = gathered([(path, name)], self.folders, 1)
        if members is None:
            raise Trouble(f"{path} is not loaded", 2)
        if path.suffix.lower() in (".inc", ".h"):
            next(iter(members.values())).kind = "INCLUDE"
        self.typed(members.keys() & self.members.keys(), members)
        self.members |= members

    def save(self, path, name=None):
        """Writes a member to a file."""
        given = (name or path.stem).upper()
        if given not in self.members:
            raise Trouble(f"there is no member {given}; SAVE FILE NAME names one", 2)
        try:
            path.write_bytes(b"".join(line + b"\n" for line in self.members[given].lines))
        except OSError as error:
            raise Trouble(f"{path}: {error.strerror}", 2) from None
