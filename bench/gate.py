#!/usr/bin/env python3
"""gate.py [LOG]: what the gate costs, measured, as the table of docs/GATE.md.

Runs .ci/run on a clean clone of what is committed here, with nothing else beside it, and writes each line with the seconds since the start to LOG (gate.log, if none is given). While
it runs, it looks twice a second at the prover's processes, and so knows for each crate what its proof, its tests and its must-fail edits cost.
If the gate passes, the table in docs/GATE.md is replaced. The status is the gate's. Takes as long as the gate, and says too little where the kit keeps what earlier runs proved.
"""
import os
import re
import resource
import subprocess
import sys
import tempfile
import textwrap
import threading
import time

TOP = os.path.dirname(os.path.dirname(os.path.abspath(__file__)))
BEGIN, END = '<!-- measured -->', '<!-- end of what is measured -->'
TICKS = os.sysconf('SC_CLK_TCK')


def read(path):
    try:
        with open(path, 'rb') as file:
            return file.read()
    except OSError:
        return b''


class Watch:
    """What each process of the prover used, by crate and part."""

    def __init__(self, room):
        self.room = room
        self.used, self.part_of, self.times, self.memory, self.over = {}, {}, {}, 0, False

    def look(self, now):
        for pid in filter(str.isdigit, os.listdir('/proc')):
            words = read(f'/proc/{pid}/cmdline').split(b'\0')
            if not words[0].endswith(b'/rattle') or b'--crate-name' not in words:
                continue
            stat = read(f'/proc/{pid}/stat').rpartition(b') ')[2].split()
            if len(stat) < 20:
                continue
            key = pid, stat[19]
            if key not in self.part_of:
                try:
                    room = os.readlink(f'/proc/{pid}/cwd')
                except OSError:
                    continue
                if not room.startswith(self.room) and 'rt-edit-' not in room:
                    continue
                part = 'edits' if 'rt-edit-' in room else 'tests' if b'--test' in words else 'proof'
                self.part_of[key] = words[words.index(b'--crate-name') + 1].decode(), part
            self.used[key] = (int(stat[11]) + int(stat[12])) / TICKS
            held = re.search(rb'VmHWM:\s+(\d+)', read(f'/proc/{pid}/status'))
            self.memory = max(self.memory, int(held[1]) if held else 0)
            begun, _ = self.times.get(self.part_of[key], (now, now))
            self.times[self.part_of[key]] = begun, now

    def run(self, started):
        while not self.over:
            self.look(time.monotonic() - started)
            time.sleep(0.5)

    def minutes(self):
        """Processor minutes of each crate and part."""
        sums = {}
        for key, part in self.part_of.items():
            sums[part] = sums.get(part, 0) + self.used.get(key, 0) / 60
        return sums


def lines_of(folder, ending, tests=False):
    count = 0
    for at, folders, names in os.walk(folder):
        folders[:] = [it for it in folders if it != 'out']
        for name in names:
            if name.endswith(ending):
                count += read(f'{at}/{name}').count(b'\n')
    return count


def functions_of(folder, pattern):
    count = 0
    for at, _, names in os.walk(folder):
        for name in names:
            if name.endswith('.rt'):
                count += len(re.findall(pattern, read(f'{at}/{name}').decode(), re.M))
    return count


def crates():
    """Each crate with what it stands on, in the order of crates.txt."""
    listed = {}
    for line in read(f'{TOP}/crates.txt').decode().splitlines():
        name, colon, uses = line.partition(':')
        if colon and not line.startswith('#'):
            listed[name.split()[0]] = uses.split()
    return listed


def chain(listed, times):
    """The crates one above the other whose proofs took longest together, and how many minutes by the clock."""
    best = {}

    def of(name):
        if name not in best:
            begun, ended = times.get((name, 'proof'), (0, 0))
            below = max((of(it) for it in listed[name] if it in listed), default=(0, []))
            best[name] = below[0] + (ended - begun) / 60, below[1] + [name]
        return best[name]

    return max(of(it) for it in listed)


def cell(minutes):
    return f'{minutes:.1f}' if minutes else ''


def table(listed, watch, wall, processors, passed):
    minutes = watch.minutes()
    rows = ['| Crate | Code | Definitions | Proofs | Functions | Tests | Edits | Proof | Tests | Edits | Proved at |', '|---|---|---|---|---|---|---|---|---|---|---|']
    sums = [0] * 9
    for name in listed:
        folder = f'{TOP}/crates/{name}'
        edits = len([it for it in os.listdir(f'{folder}/must-fail') if it.endswith('.edit')]) if os.path.isdir(f'{folder}/must-fail') else 0
        counts = [lines_of(f'{folder}/src', '.rt'), lines_of(f'{folder}/specs', '.antt'), lines_of(f'{folder}/proofs', '.antt'),
                  functions_of(f'{folder}/src', r'^\s*(?:pub(?:\([a-z]+\))? )?(?:const )?fn '), functions_of(f'{folder}/src', r'^\s*#\[test\]'), edits]
        counts[3] -= counts[4]
        costs = [minutes.get((name, part), 0) for part in ('proof', 'tests', 'edits')]
        sums = [a + b for a, b in zip(sums, counts + costs)]
        stood = watch.times.get((name, 'proof'), (0, 0))[1] / 60
        rows.append(f'| `{name}` | ' + ' | '.join(str(it) if it else '' for it in counts) + ' | ' + ' | '.join(map(cell, costs)) + f' | {stood:.0f} min |')
    rows.append('| all | ' + ' | '.join(str(it) for it in sums[:6]) + ' | ' + ' | '.join(f'{it:.1f}' for it in sums[6:]) + ' | |')
    longest, names = chain(listed, watch.times)
    said = [f'A whole run on {os.cpu_count()} processors: {wall / 60:.1f} minutes by the clock, {processors / 60:.1f} processor minutes, {passed}. '
            f'The greatest process held {watch.memory / 1e6:.1f} GB.',
            f'The longest chain of proofs took {longest:.1f} minutes: ' + ', '.join(f'`{it}`' for it in names) + '.',
            'Lines of code, definitions and proofs; functions, tests and must-fail edits; processor minutes of the proof, of the tests and of the edits; the minute at which the proof stood.']
    laid = [textwrap.fill(it, 120, break_long_words=False, break_on_hyphens=False) for it in (' '.join(said[:2]), said[2])]
    return '\n'.join([laid[0], '', laid[1], '', *rows])


def main():
    log = sys.argv[1] if len(sys.argv) > 1 else 'gate.log'
    if log.startswith('-'):
        sys.exit(__doc__)
    last = ''
    with tempfile.TemporaryDirectory(prefix='gate-') as room, open(log, 'w') as out:
        subprocess.run(['git', 'clone', '-q', TOP, f'{room}/juranikko'], check=True)
        watch = Watch(room)
        started = time.monotonic()
        looking = threading.Thread(target=watch.run, args=(started,), daemon=True)
        looking.start()
        with subprocess.Popen(['bash', '.ci/run'], cwd=f'{room}/juranikko', stdout=subprocess.PIPE, stderr=subprocess.STDOUT, stdin=subprocess.DEVNULL, errors='replace', text=True) as run:
            for line in run.stdout:
                out.write('%7.0f %s' % (time.monotonic() - started, line))
                out.flush()
                last = line.strip() or last
        watch.over = True
        looking.join()
    wall, used = time.monotonic() - started, resource.getrusage(resource.RUSAGE_CHILDREN)
    written = table(crates(), watch, wall, used.ru_utime + used.ru_stime, last)
    print(written)
    if run.returncode == 0:
        page = f'{TOP}/docs/GATE.md'
        text = read(page).decode()
        before, _, rest = text.partition(BEGIN)
        with open(page, 'w') as file:
            file.write(f'{before}{BEGIN}\n{written}\n{END}{rest.partition(END)[2]}')
    sys.exit(run.returncode)


if __name__ == '__main__':
    main()
