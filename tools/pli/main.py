"""The words of a call, what it does, and the one line in which all ends that does not go as it should."""
import os
import re
import signal
from difflib import get_close_matches
from pathlib import Path

from files import gathered
from pages import explain, printed
from report import Report, placed
from session import Session, Shell
from streams import Stopped, Trouble, end_line, handle_signals, prepare, show, tell
from warn import warnings
from workbench import Workbench, chosen

STEPS = 999_999_999
STEPS_IN_BATCH = 1_000_000
NUMBERS = ("--steps", "--errors")
VALUED = ("--as", "-I", "--workbench", "--explain", *NUMBERS)
FLAGS = ("--trace", "--warn", "--proved", "--unproved", "--help", "--version")


class Call:
    """What the words of a call ask for: paths of units with the names of --as, folders, commands, and other options."""

    def __init__(self, words):
        self.units, self.folders, self.commands, self.given = [], [], [], {}
        left = list(words)
        while left:
            word = left.pop(0)
            if word == "--":
                self.commands, left = left, []
            elif word == "-" or not word.startswith("-"):
                self.units.append((Path(word), None))
            else:
                self.option(word, left)
        if self.commands and "--trace" in self.given:
            raise Trouble("--trace goes with a run, not with commands behind --", 2)

    def option(self, word, left):
        """Takes an option, with its value from the word or from those that are left."""
        name, equals, value = ("-I", "=", word[2:]) if word[:2] == "-I" and word != "-I" else word.partition("=")
        if name not in (*VALUED, *FLAGS) or name in FLAGS and equals:
            near = [f"; did you mean {each}" for each in get_close_matches(name, (*VALUED, *FLAGS), 1)]
            raise Trouble(f"{word} is no option{''.join(near)}; see pli --help", 2)
        if len(left) < (name in VALUED and not equals) + (name == "--as"):
            raise Trouble(f"{word}: something is missing behind it; see pli --help", 2)
        value = left.pop(0) if name in VALUED and not equals else value
        if name in NUMBERS and not re.fullmatch(r"[0-9]{1,18}", value):
            raise Trouble(f"{name} {value}: a number of 1 to 18 digits is wanted", 2)
        if name == "-I" and not Path(value).is_dir():
            raise Trouble(f"-I {value}: there is no such folder", 2)
        if name == "--as":
            self.units.append((Path(left.pop(0)), value))
        elif name == "-I":
            self.folders.append(Path(value))
        else:
            self.given[name] = int(value) if name in NUMBERS else value


def build_and_run(call):
    """The status of a call with files."""
    most, trace = call.given.get("--errors", 20), "--trace" in call.given
    members = gathered(call.units, call.folders, most)
    if members is None:
        return 1
    report = Report(members, most)
    outlines = [report.unit(name) for name in report.sources() if "--warn" in call.given]
    for token, text in dict.fromkeys(warned for outline in outlines for warned in warnings(outline.tokens)):
        placed(token.source, token.line, token.column, f"warning: {text}")
    bench = Workbench(*chosen(call.given))
    session = Session(bench, members, report)
    steps = call.given.get("--steps", STEPS_IN_BATCH if bench.batch else STEPS)
    run = f"RUN {steps}".encode()
    commands = [os.fsencode(command) for command in call.commands]
    quits = next((at for at, command in enumerate(commands) if command.upper() == b"QUIT"), len(commands))
    if bench.batch:
        session.plan(commands[:quits] or [run], trace)
    if not session.build(session.typing()):
        return 1
    if not commands:
        return session.run(run, steps if trace else None)
    status = max([session.command(command) for command in commands[:quits]], default=0)
    show(b"OK\n" if quits < len(commands) else b"")
    return status


def done(call):
    """The status of a call."""
    if "--help" in call.given:
        show(printed("help"))
    elif "--version" in call.given:
        show(b"pli 1.0\n")
    elif "--explain" in call.given:
        if (text := explain(call.given["--explain"])) is None:
            raise Trouble(f"{call.given['--explain']} is no code of a diagnostic", 2)
        show(text.encode())
    elif call.units:
        return build_and_run(call)
    elif os.isatty(0):
        return Shell(call).serve()
    else:
        raise Trouble("no file is given; see pli --help", 2)
    return 0


def main(words):
    """The status of a call; nothing that goes wrong ends otherwise than in a line."""
    try:
        prepare()
        return done(Call(words))
    except Trouble as trouble:
        tell(f"pli: {trouble}")
        return trouble.status
    except Stopped as stopped:
        handle_signals(signal.SIG_IGN)
        Workbench.stop_all()
        end_line()
        tell("pli: stopped")
        return 128 + stopped.args[0]
    except Exception as error:
        tell(f"pli: a fault of the tool itself: {type(error).__name__}: {error}")
        return 3
    finally:
        handle_signals(signal.SIG_IGN)
        Workbench.stop_all()
