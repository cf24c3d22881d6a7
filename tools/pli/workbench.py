"""The workbench as a process: commands go to it, and answers come back as they come, up to a random mark."""
import os
import queue
import secrets
import select
import signal
import subprocess
import threading
import time
from collections import deque
from contextlib import suppress

from pages import TOP
from streams import Trouble, put

STARTER = str(TOP / "bin" / "pliwb")
CHUNK = 65536
SECONDS_TO_END = 5


def started(words, **streams):
    """A process of its own group, which a signal to the tool does not reach."""
    try:
        return subprocess.Popen(words, bufsize=0, stdout=subprocess.PIPE, start_new_session=True, **streams)
    except OSError as error:
        raise Trouble(f"{words[0]}: {error.strerror}") from None


def chosen(given):
    """The words that start the workbench which options want, and whether it answers only when all is asked."""
    proof = {"--proved", "--unproved"} & given.keys()
    if program := given.get("--workbench") or not proof and os.environ.get("PLIWB"):
        return [program], False
    if not proof:
        which = started([STARTER, "--which"], stdin=subprocess.DEVNULL).communicate()[0]
        proof = {"--proved" if which.strip() == b"proved" else "--unproved"}
    return [STARTER, *proof], "--unproved" in proof


class Workbench:
    """A workbench that was started. Where it is a batch, all questions are planned before the first is asked."""

    alive = []

    def __init__(self, words, batch=False):
        self.words, self.batch, self.planned, self.busy, self.emit = words, batch, deque(), False, None
        self.answers = False
        self.mark = f"MARK_{secrets.token_hex(12)}".upper()
        self.end, self.given = f"1 {self.mark}\n".encode(), queue.SimpleQueue()
        self.pending, self.leading = b"", b"OK\nOK\n" + self.end + b"OK\n"
        self.child = started(words, stdin=subprocess.PIPE)
        self.alive.append(self)
        threading.Thread(target=self.feed, daemon=True).start()
        self.say([f"ADD {self.mark} INCLUDE".encode(), f"INSERT {self.mark} 0 {self.mark}".encode()])

    def feed(self):
        """Writes what is said, beside the reading of answers, so that neither waits for the other."""
        with suppress(OSError):
            while (data := self.given.get()) is not None:
                put(self.child.stdin.fileno(), data)
            self.child.stdin.close()

    def say(self, commands):
        """Gives commands, and the mark after them."""
        self.given.put(b"".join(command + b"\n" for command in [*commands, f"LIST {self.mark}".encode()]))

    def plan(self, questions):
        """Asks a batch all questions that there may be."""
        for commands in questions:
            self.say(commands)
        self.planned.extend(questions)
        self.given.put(None)

    def ask(self, commands, emit=None):
        """The answers to commands; nothing where they were not planned. Of a RUN `emit` gets all but the last line."""
        if not self.batch:
            self.busy = True
            self.say(commands)
            answers = self.hear(emit)
            self.busy = False
            return answers
        while self.planned:
            if self.planned.popleft() == commands:
                return self.hear(emit)
            self.hear(lambda _: None)
        return None

    def read(self):
        """Takes what the workbench wrote, and waits for it."""
        chunk = os.read(self.child.stdout.fileno(), CHUNK)
        if not chunk:
            raise Trouble(f"{self.words[0]} ended with status {self.child.wait()} before it had answered")
        self.pending += chunk

    def printed(self):
        """How many bytes of what is pending a run printed for certain: all before a line that may be its end."""
        begun = self.pending.rfind(b"\n") + 1
        if not self.end.startswith(self.pending[begun:]):
            return begun
        return self.pending.rfind(b"\n", 0, max(begun - 1, 0)) + 1

    def hear(self, emit=None):
        """The answers up to the next mark, as `ask` gives them."""
        while len(self.pending) < len(self.leading) and self.leading.startswith(self.pending):
            self.read()
        if not self.pending.startswith(self.leading):
            raise Trouble(f"{self.words[0]} does not answer as a workbench")
        self.pending, self.leading, self.emit = self.pending[len(self.leading) :], b"OK\n", emit
        self.answers = True
        while (at := self.pending.find(self.end)) < 0:
            if emit and (cut := self.printed()):
                emit(self.pending[:cut])
                self.pending = self.pending[cut:]
            self.read()
        answers, self.pending = self.pending[:at], self.pending[at + len(self.end) :]
        if not emit:
            return answers.split(b"\n")[:-1]
        printed = answers.rfind(b"\n", 0, len(answers) - 1) + 1
        emit(answers[:printed])
        self.emit = None
        return answers[printed:-1]

    def finish(self):
        """Takes what is left of a batch that answers: it has done all that it was asked, and ends by itself."""
        ends, output = time.monotonic() + SECONDS_TO_END, self.child.stdout.fileno()
        while select.select([output], [], [], max(ends - time.monotonic(), 0))[0] and (chunk := os.read(output, CHUNK)):
            self.pending += chunk
        with suppress(subprocess.TimeoutExpired):
            self.child.wait(max(ends - time.monotonic(), 0))

    def stop(self):
        """Ends the workbench with all that it started, and passes on what it had printed of a run."""
        self.alive.remove(self)
        if self.batch and self.answers:
            self.finish()
        for number in (signal.SIGTERM, signal.SIGKILL):
            with suppress(OSError, subprocess.TimeoutExpired):
                if self.child.poll() is None:
                    os.killpg(self.child.pid, number)
                    self.child.wait(SECONDS_TO_END)
        if self.emit:
            os.set_blocking(self.child.stdout.fileno(), False)
            printed = (self.pending + (self.child.stdout.read() or b"")).partition(self.end)[0]
            with suppress(Trouble):
                self.emit(printed)

    @classmethod
    def stop_all(cls):
        """Ends every workbench."""
        for each in list(cls.alive):
            each.stop()
