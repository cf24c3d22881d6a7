"""prove [--plan] [--places N] [CRATE]: proves and builds a program, by default pliwb, and all that it stands on.

Crates are proved side by side, one on each processor, as many as fit into memory, and those first on which the longest
chain waits; where fewer can begin, they share the processors that are left, and near the end each is proved by two.
What was proved before and has not changed is not proved again. A run that is stopped goes on the next time, with the
crates that were not finished. --places N proves N at a time; --plan shows when each crate would begin and end, and
proves nothing. A line for each crate goes to standard error.

Status 0: it is proved and built. 1: a crate is refused, or sources changed meanwhile. 2: words that are no call. 129,
130 or 143: it was stopped by a signal.
"""
import contextlib
import fcntl
import hashlib
import os
import shutil
import signal
import subprocess
import sys
import time
from pathlib import Path

import schedule
from kit import Kit

TOP = Path(__file__).resolve().parent.parent.parent
MADE = TOP / "out" / "prove"
LIBRARIES = MADE / "libraries"
PARTS = ("src", "specs", "proofs")
CHECK = 4_100_000_000  # bytes of the greatest process of a proof
SIGNALS = (signal.SIGINT, signal.SIGTERM, signal.SIGHUP)


def tell(text):
    print(f"prove: {text}", file=sys.stderr, flush=True)


def clock(minutes):
    return f"{minutes:.0f} min" if minutes >= 2 else f"{60 * minutes:.0f} s"


def free_memory():
    """The bytes that processes can still take, by what the system says."""
    rows = Path("/proc/meminfo").read_text().splitlines()
    return next(1024 * int(row.split()[1]) for row in rows if row.startswith("MemAvailable"))


def sum_of(folder):
    """A sum of the sources of a crate."""
    made = hashlib.sha256()
    for part in PARTS:
        for file in sorted(it for it in (folder / part).rglob("*") if it.is_file()):
            made.update(f"{file.relative_to(folder)} {file.stat().st_size}\n".encode() + file.read_bytes())
    return made.hexdigest()


class Repository:
    """The crates that one crate stands on, itself among them, and what is kept of them."""

    def __init__(self, crate):
        self.crate, self.text, self.kit = crate, (TOP / "crates.txt").read_text(), Kit()
        every = schedule.listed(self.text)
        self.uses = {name: every[name] for name in schedule.below(every, crate)}
        self.named = schedule.named(self.text)
        known = schedule.measured((TOP / "docs" / "GATE.md").read_text())
        self.minutes = {name: known.get(name) or schedule.guessed(self.folder(name)) for name in self.uses}

    def folder(self, name):
        return TOP / "crates" / name

    def is_program(self, name):
        return (self.folder(name) / "src" / "main.rt").exists()

    def made(self, name):
        """What is made of a crate: a program's file, or a library."""
        return self.folder(name) / "out" / name if self.is_program(name) else LIBRARIES / f"{name}.rlib"

    def sources(self):
        """For each crate a sum of its sources."""
        return {name: sum_of(self.folder(name)) for name in self.uses}

    def sums(self, sources):
        """For each crate a sum of all that its proof rests on."""
        found = {}
        for name in self.uses:
            rest = self.kit.version, name, self.named[name], [found[it] for it in self.uses[name]]
            found[name] = hashlib.sha256(repr((rest, sources[name])).encode()).hexdigest()
        return found

    def words(self, name, sums):
        """By which words it is noted that a crate was proved at its sum; those of a program tell which program."""
        made = self.made(name)
        return f"{sums[name]} {hashlib.sha256(made.read_bytes()).hexdigest()}" if self.is_program(name) else sums[name]

    def note(self, name):
        return MADE / f"{name}.proved"

    def proved(self, sums):
        """The crates that stand."""
        kept = {name for name in self.uses if self.made(name).exists() and self.note(name).exists()}
        return {name for name in kept if self.note(name).read_text() == self.words(name, sums)}

    def keep(self, name, new, sums):
        """Puts what was made of a crate at its place, and notes that it was proved. A program is older than all sources
        there, until it is known that none has changed."""
        made = self.made(name)
        if self.is_program(name):
            os.utime(new, (0, 0))
        self.note(name).unlink(missing_ok=True)
        made.parent.mkdir(parents=True, exist_ok=True)
        if made.is_dir():
            shutil.rmtree(made)
        os.replace(new, made)
        self.note(name).write_text(self.words(name, sums))


@contextlib.contextmanager
def alone():
    """Waits for another run, and for checks that outlived one: they hold the lock too. Then no other run begins."""
    LIBRARIES.mkdir(parents=True, exist_ok=True)
    with open(MADE / "lock", "w") as lock:
        try:
            fcntl.flock(lock, fcntl.LOCK_EX | fcntl.LOCK_NB)
        except BlockingIOError:
            tell("waiting for another run")
            fcntl.flock(lock, fcntl.LOCK_EX)
        yield lock.fileno()


class Check:
    """A crate that is being proved, in a room with copies of its sources."""

    def __init__(self, repository, name, lock, processors):
        self.repository, self.name, self.lock = repository, name, lock
        self.room, self.began = MADE / "rooms" / name, time.monotonic()
        shutil.rmtree(self.room, ignore_errors=True)
        for part in PARTS:
            if (repository.folder(name) / part).exists():
                shutil.copytree(repository.folder(name) / part, self.room / part)
        self.new = self.room / f"{name}.{'o' if repository.is_program(name) else 'rlib'}"
        self.said = open(self.room / "said", "w+", errors="replace")
        kind, uses = repository.is_program(name), repository.named[name]
        made = LIBRARIES, self.new, processors
        self.process = self.call(repository.kit.build(name, kind, uses, repository.uses, *made))

    def call(self, words):
        how = {"stdin": subprocess.DEVNULL, "stdout": self.said, "stderr": subprocess.STDOUT}
        return subprocess.Popen(words, cwd=self.room, pass_fds=(self.lock,), **how)

    def ended(self):
        return self.process.poll() is not None

    def is_of(self, sources):
        """Whether what was proved has these sources."""
        return sum_of(self.room) == sources[self.name]

    def linked(self):
        """Makes a program of its object; whether that went well."""
        made, self.new = self.new, self.room / self.name
        self.process = self.call(self.repository.kit.link(made, self.new))
        return self.process.wait() == 0

    def close(self):
        """Stops what is left of the check, and empties the room; what the check said."""
        self.process.terminate()
        self.process.wait()
        self.said.seek(0)
        with self.said:
            said = self.said.read()
        shutil.rmtree(self.room, ignore_errors=True)
        return said


class Run:
    """The proof of all crates of a repository's program."""

    def __init__(self, repository, places, lock, started):
        self.repository, self.places, self.lock, self.started = repository, places, lock, started
        self.sources = repository.sources()
        self.sums = repository.sums(self.sources)
        self.done = repository.proved(self.sums)
        self.lengths = schedule.chains(repository.uses, repository.minutes)
        self.checks, self.taken, self.reckoned, self.failed = {}, 0, 0, []

    def left(self):
        """The minutes till all stand, as far as the proofs that have ended tell."""
        pace = self.taken / self.reckoned if self.reckoned else 1
        minutes = {name: pace * it for name, it in self.repository.minutes.items()}
        ran = {name: (time.monotonic() - check.began) / 60 for name, check in self.checks.items()}
        running = {name: max(minutes[name] - it, 0.1) for name, it in ran.items()}
        return schedule.length(self.repository.uses, minutes, self.places, self.done, running)

    def tell(self, what):
        gone = time.monotonic() - self.started
        stand = f"{len(self.done)} of {len(self.repository.uses)} stand"
        tell(f"{what}: {stand}, {gone // 60:.0f} min {gone % 60:.0f} s; some {clock(self.left())} left")

    def begin(self):
        """Begins what can begin, unless a crate was refused; whether anything runs."""
        uses, minutes = self.repository.uses, self.repository.minutes
        names = [] if self.failed else schedule.ready(uses, self.done, self.checks, self.lengths)
        free, left = self.places - len(self.checks), sum(minutes[it] for it in uses if it not in self.done)
        for name, processors in schedule.shares(names, self.places, free, self.lengths, left).items():
            self.checks[name] = Check(self.repository, name, self.lock, processors)
        return bool(self.checks)

    def fault(self, check):
        """Why what a check has proved can't be taken; none where it can."""
        status = check.process.returncode
        if status:
            return "is refused" if status == 1 else f"was not judged: its check broke off with status {status}"
        if not check.is_of(self.sources):
            return "changed meanwhile: prove once more, which proves what changed"
        return "" if not self.repository.is_program(check.name) or check.linked() else "is proved, but was not linked"

    def end(self, name):
        """Takes up what the check of a crate came to."""
        check = self.checks[name]
        minutes, fault = (time.monotonic() - check.began) / 60, self.fault(check)
        if not fault:
            self.repository.keep(name, check.new, self.sums)
        del self.checks[name]
        said = check.close()
        if fault:
            self.failed.append(name)
            print(said, end="", file=sys.stderr)
            tell(f"{name} {fault}")
            if self.checks:
                tell(f"no other is begun; first {' '.join(self.checks)} will end")
            return
        self.done.add(name)
        self.taken, self.reckoned = self.taken + minutes, self.reckoned + self.repository.minutes[name]
        self.tell(f"{name} proved")

    def prove(self):
        """Whether each crate stands."""
        try:
            while self.begin():
                ended = [name for name, check in self.checks.items() if check.ended()]
                for name in ended:
                    self.end(name)
                if not ended:
                    time.sleep(0.1)
        finally:
            for check in self.checks.values():
                check.close()
        return not self.failed


def show_plan(repository, places):
    uses, minutes = repository.uses, repository.minutes
    planned = schedule.times(uses, minutes, places)
    for name, (begins, ends) in sorted(planned.items(), key=lambda it: it[1]):
        print(f"{begins:6.1f} {ends:6.1f}  {name}")
    chain, whole = max(schedule.chains(uses, minutes).values()), sum(minutes.values())
    print(f"{schedule.length(uses, minutes, places):.1f} minutes, {places} crates at a time")
    print(f"the longest chain takes {chain:.1f}, all crates one after the other {whole:.1f}")


def stop(number, _):
    """Ends the run at a signal, as at an error: what is under way is put away first."""
    for it in SIGNALS:
        signal.signal(it, signal.SIG_IGN)
    sys.exit(128 + number)


def words(given):
    """Whether the plan is wanted, how many places, and the crate; none where the words are no call."""
    plan, places, rest = "--plan" in given, None, [it for it in given if it != "--plan"]
    if "--places" in rest:
        at = rest.index("--places")
        places = rest[at + 1] if at + 1 < len(rest) else ""
        del rest[at : at + 2]
    named = rest or ["pliwb"]
    wrong = len(named) > 1 or named[0] not in schedule.listed((TOP / "crates.txt").read_text())
    if wrong or places is not None and not (places.isdigit() and int(places)):
        return None
    return plan, places and int(places), named[0]


def is_changed(run):
    """Whether sources or the list of crates are others than at the beginning."""
    now = Repository(run.repository.crate)
    return now.sums(now.sources()) != run.sums


def prove(repository, places):
    """Whether all stands in the end."""
    started = time.monotonic()
    with alone() as lock:
        run = Run(repository, places, lock, started)
        run.tell(f"{places} crates at a time")
        stands, now = run.prove(), time.time()
        if stands and is_changed(run):
            tell("sources changed meanwhile: prove once more, which proves what changed")
            return False
        if stands and repository.is_program(repository.crate):
            # What has changed since then is newer than the program.
            os.utime(repository.made(repository.crate), (now, now))
    if stands:
        tell(f"{repository.crate} stands, {(time.monotonic() - started) / 60:.1f} min")
    return stands


def main():
    call = words(sys.argv[1:])
    if not call:
        print(__doc__.strip(), file=sys.stderr)
        return 2
    plan, places, crate = call
    repository = Repository(crate)
    places = places or max(min(len(os.sched_getaffinity(0)), free_memory() // CHECK), 1)
    if plan:
        show_plan(repository, places)
        return 0
    for it in SIGNALS:
        signal.signal(it, stop)
    try:
        return 0 if prove(repository, places) else 1
    except (OSError, shutil.Error) as error:
        tell(error)
        return 1


if __name__ == "__main__":
    sys.exit(main())
