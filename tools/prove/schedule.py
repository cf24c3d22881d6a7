"""The order in which crates are proved: what each waits for, what its proof is reckoned at, how long all takes."""
import re
from pathlib import Path

EMPTY = 0.3  # minutes of a proof that has hardly any code
LINES = 400  # lines of code that are reckoned at a further minute
SHARED = 0.55  # the part of a proof whose functions several processors can share


def named(text):
    """Each crate that a list of crates names, with the libraries that it names beside it, those of the kit too."""
    rows = [line.partition("#")[0].partition(":") for line in text.splitlines()]
    return {name.split()[0]: rest.split() for name, _, rest in rows if name.split()}


def listed(text):
    """Each crate that a list of crates names, with the crates of the list that it stands on."""
    uses = named(text)
    return {name: [it for it in below if it in uses] for name, below in uses.items()}


def below(uses, name):
    """A crate and all that it stands on, each after what it stands on itself."""
    found = {}

    def visit(each):
        if each not in found:
            for it in uses[each]:
                visit(it)
            found[each] = None

    visit(name)
    return list(found)


def measured(page):
    """The minutes of each crate's own proof, by the table of a page that has measured them."""
    minutes, column = {}, None
    for line in page.splitlines():
        cells = [cell.strip() for cell in line.split("|")[1:-1]]
        if "Proof" in cells:
            column = cells.index("Proof")
        elif column is not None and column < len(cells) and re.fullmatch(r"`\w+`", cells[0]):
            minutes[cells[0].strip("`")] = float(cells[column] or 0)
    return minutes


def guessed(folder):
    """The minutes of a proof that no page has measured, by the lines of its code."""
    return EMPTY + sum(file.read_bytes().count(b"\n") for file in Path(folder).glob("src/**/*.rt")) / LINES


def chains(uses, minutes):
    """For each crate the minutes of the longest chain of proofs that begins with it, each waiting for the last."""
    lengths = {}
    for name in reversed([*uses]):
        above = [lengths[it] for it in lengths if name in uses[it]]
        lengths[name] = minutes[name] + max(above, default=0)
    return lengths


def ready(uses, done, begun, lengths):
    """The crates that can begin, those first on which the longest chain waits."""
    free = [it for it in uses if it not in done and it not in begun and all(under in done for under in uses[it])]
    return sorted(free, key=lambda it: -lengths[it])


def dealt(names, places):
    """For each of the crates that begin on so many free places how many of these it takes.

    It is one, unless there are more than crates that can begin: then they are dealt out, so that none stays idle. A
    crate that can begin later has its place all the same."""
    taken = names[: max(places, 0)]
    return {name: len(range(first, places, len(taken))) for first, name in enumerate(taken)}


def shares(names, places, free, lengths, left):
    """The same, where a crate takes two places at least if its chain is longer than a fair share of the minutes that
    are left: then it is among those that the end waits for."""
    late = {name for name in names if lengths[name] * places > left}
    return {name: max(it, min(places, 2)) if name in late else it for name, it in dealt(names, free).items()}


def shared(minutes, processors):
    """The minutes of a proof whose functions so many processors share."""
    return minutes * (1 - SHARED + SHARED / processors)


def times(uses, minutes, places, done=(), running=None):
    """When each crate begins and ends, from now on, if a proof on one processor takes the minutes it is reckoned at,
    and each takes free places alone.

    Some are done, and of those that are running the minutes that are left are given."""
    done, lengths, now = set(done), chains(uses, minutes), 0
    begun = {name: (0, left) for name, left in (running or {}).items()}
    while len(done) < len(uses):
        open_now = {it: begun[it][1] for it in begun if it not in done}
        for name, processors in dealt(ready(uses, done, begun, lengths), places - len(open_now)).items():
            begun[name] = (now, now + shared(minutes[name], processors))
            open_now[name] = begun[name][1]
        now = min(open_now.values())
        done |= {it for it, ends in open_now.items() if ends <= now}
    return begun


def length(*given, **named):
    """How many minutes there are till all stand."""
    return max((ends for _, ends in times(*given, **named).values()), default=0)
