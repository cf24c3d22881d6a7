#!/usr/bin/env python3
"""names.py: which definitions the headline reaches, name by name.

    bench/names.py                 for each file with such a name: its lines, and those of such names
    bench/names.py --others        and the other names that stand in these files
    bench/names.py --why NAME      how a name is reached (NAME as `pli_world.World.held`)
    bench/names.py --users FILE    what uses the names of a file from other files (FILE as `pli_world.World`)
    bench/names.py --held          for each name how many lines are reached through it alone

The roots are the clauses of `Bench::new`, `Bench::command` and `Bench::serve`. A state is what these relate, from
`opened` on; how the code sees one as such need not be believed. Lines are counted without imports, comments and blank
lines. What a word means is found without types: a word that a definition binds itself is none of these names.
"""
import os
import re
import sys
from collections import defaultdict

TOP = os.path.dirname(os.path.dirname(os.path.abspath(__file__)))
ROOT = os.path.join(TOP, 'crates', 'pli_bench', 'src', 'bench.rt')
ROOT_FUNCTIONS = ('new', 'command', 'serve')
USE = re.compile(r'(?:ghost |pub )?use Rattle\.(\w+)\.(specs|proofs)\.([^{\s;]+?)(?:\.\{(.*)\})?(?: as (\S+?))?;?$')
HEAD = re.compile(r'^ *(?:unfoldable )?(?:abbrev )?(?:pub )?(?:(data|record) )?(\S+)(?= |$)')
WORD = re.compile(r'[^\s(){}\[\];,"]+')


def lines_of(path):
    with open(path, encoding='utf-8') as file:
        return file.read().splitlines()


def counted(line):
    """Whether a line is no import, comment or blank line."""
    text = line.strip()
    return bool(text) and not text.startswith(('--', 'use ', 'pub use ', 'pub mod'))


def own_lines(path):
    return sum(map(counted, lines_of(path)))


def stripped(line):
    return re.sub(r'"[^"]*"', ' ', re.sub(r'(^|\s)--.*$', '', line)).rstrip()


def spec_path(crate, parts):
    """The file that a path of modules names, and the names after it."""
    for length in range(len(parts), 0, -1):
        path = os.path.join(TOP, 'crates', crate, 'specs', *parts[:length]) + '.antt'
        if os.path.isfile(path):
            return path, parts[length:]
    return None, parts


class Imports:
    """Names and modules that a file brings in."""

    def __init__(self):
        self.names = {}
        self.modules = {}

    def add(self, text):
        found = USE.match(text)
        if not found:
            return
        crate, parts = found[1], found[3].split('.')
        if found[4] is None:
            self.modules[found[5] or parts[-1]] = (crate, parts)
        for item in (found[4] or '').split(','):
            name, _, other = item.strip().partition(' as ')
            if name:
                self.names[other.strip() or name] = (crate, parts, name)


class Definition:
    def __init__(self, name, kind, indent, bound):
        self.name = name
        self.kind = kind
        self.indent = indent
        self.bound = bound       # what its module's parameters bind
        self.parts = []          # its signature and its clauses, or its fields and constructors
        self.lines = 0
        self.makes = set()       # constructors

    def add(self, line, begins):
        if begins or not self.parts:
            self.parts.append(line)
        else:
            self.parts[-1] += ' ' + line
        self.lines += 1


class File:
    """The definitions and imports of a file of specs/."""

    def __init__(self, path):
        self.path = path
        self.imports = Imports()
        self.definitions = {}
        self.owners = {}         # names and constructors, to their definitions
        self.read()

    def read(self):
        last, waiting, modules = None, 0, []
        for raw in lines_of(self.path):
            line = stripped(raw)
            text = line.strip()
            if not text or text.startswith('pub mod '):
                continue
            if text.startswith(('use ', 'pub use ')):
                self.imports.add(text)
                continue
            indent = len(line) - len(line.lstrip())
            if re.match(r'(abbrev )?mutual$|infix[lr]? \d|module _', text):
                if text.startswith('module'):
                    modules = [m for m in modules if m[0] < indent] + [(indent, set(re.findall(r'[^\s(){}:]+', text)))]
                waiting += 1
                last = None
                continue
            if last and self.continues(last, indent, text):
                begins = indent == last.indent and not text.startswith(('}', ')'))
                if last.kind and indent == last.indent + 2:
                    begins = True
                    made = re.match(r'(?:pub )?([^:(]+?) :', text)
                    if made and last.kind == 'data':
                        last.makes |= set(made[1].split())
                last.add(line, begins)
                continue
            head = HEAD.match(line)
            bound = set().union(*(m[1] for m in modules if m[0] < indent)) if modules else set()
            last = Definition(head[2], head[1] or '', indent, bound)
            last.lines = waiting
            last.add(line, True)
            waiting = 0
            self.definitions[last.name] = last
        for definition in self.definitions.values():
            for name in definition.makes | {definition.name}:
                self.owners[name] = definition.name

    @staticmethod
    def continues(last, indent, text):
        """Whether a line goes on with the last definition."""
        if indent > last.indent or text.startswith(('}', ')', last.name + ' ')):
            return True
        sign = last.name.strip('◌')
        return indent == last.indent and '◌' in last.name and sign in text.split() and not HEAD.match(text)[1] \
            and not re.match(r'(unfoldable|abbrev|pub|data|record) ', text)


FILES = {}


def file_at(path):
    if path not in FILES:
        FILES[path] = File(path)
    return FILES[path]


def meant_in(crate, parts, name, seen=()):
    """The definition that a name of a module is: its file and its name."""
    path, after = spec_path(crate, parts)
    if path is None or parts[0] == 'declared':
        return None
    return meant(path, after[0] if after else name, seen)


def meant(path, name, seen=()):
    file = file_at(path)
    if name in file.owners:
        return path, file.owners[name]
    if name in file.imports.names and (path, name) not in seen:
        return meant_in(*file.imports.names[name], seen + ((path, name),))
    return None


def words_meant(words, imports, bound, of_name):
    """What these words mean, of which some are bound."""
    for word in words:
        first, _, rest = word.rstrip('.').partition('.')
        if first in imports.modules and rest:
            found = meant_in(*imports.modules[first], rest.split('.')[0])
        else:
            found = None if first in bound or not first else of_name(first) or of_name('◌' + first + '◌')
        if found:
            yield found


def references(key):
    """What a definition needs."""
    path, name = key
    file = file_at(path)
    definition = file.definitions[name]
    needs = set()
    for number, text in enumerate(definition.parts):
        bound = set(definition.bound)
        for group in re.findall(r'[({]([^(){}:=]+) : ', text) + re.findall(r'λ ([^.()]+)\.(?=\s|$)', text):
            bound |= set(group.split())
        bound |= set(re.findall(r'\blet ([^\s:=]+)', text)) | set(re.findall(r'([\w«»]+) ←', text))
        if number and not definition.kind:
            for word in WORD.findall(text.split(' = ')[0]):
                found = meant(path, word)
                makes = found and word in file_at(found[0]).definitions[found[1]].makes
                if re.match(r'[a-z_][^.]*$', word) and word != name and not makes:
                    bound.add(word)
        text = re.sub(r'λ ([^.()]+)\.(?=\s|$)', ' ', text)
        text = re.sub(r'[{;]\s*[\w«»]+ = ', ' ; ', text)
        needs |= set(words_meant(WORD.findall(text), file.imports, bound, lambda word: meant(path, word)))
        if re.search(r'\bdo\b', text) or ' ← ' in text:
            needs |= {found for found in (meant(path, '◌>>=◌'),) if found}
    return needs - {key}


def roots():
    """What the clauses of the public functions name."""
    imports, words, inside = Imports(), [], False
    for line in lines_of(ROOT):
        text = line.strip()
        if text.startswith('ghost use ') and not line.startswith(' '):
            imports.add(text)
        begins = re.match(r'    pub fn (\w+)', line)
        if begins:
            inside = begins[1] in ROOT_FUNCTIONS
        if line.startswith('    {'):
            inside = False
        if inside:
            words += WORD.findall(text)

    def of_name(name):
        return meant_in(*imports.names[name]) if name in imports.names else None

    return set(words_meant(words, imports, set(), of_name))


def reached():
    """Each name that is reached, and through which."""
    came = {key: None for key in roots()}
    left = list(came)
    while left:
        key = left.pop()
        for need in references(key):
            if need not in came:
                came[need] = key
                left.append(need)
    return came


def lines_reached(came):
    """The lines of names that are reached, by file."""
    lines = defaultdict(int)
    for path, name in came:
        lines[path] += file_at(path).definitions[name].lines
    return lines


def shown(path, name=''):
    rest = os.path.relpath(path, os.path.join(TOP, 'crates')).replace('/specs/', '.').replace('.antt', '')
    return rest + ('.' + name if name else '')


def held_lines(came):
    """For each name, how many lines are reached through it alone."""
    graph = {key: [need for need in references(key) if need in came] for key in came}
    size = {(path, name): file_at(path).definitions[name].lines for path, name in came}
    first = [key for key in came if came[key] is None]
    for without in came:
        seen = {key for key in first if key != without}
        left = list(seen)
        while left:
            for need in graph[left.pop()]:
                if need not in seen and need != without:
                    seen.add(need)
                    left.append(need)
        yield sum(size.values()) - sum(size[key] for key in seen), shown(*without)


def main():
    came = reached()
    command, of = (sys.argv[1:] + ['', ''])[:2]
    if command == '--why':
        key = next((key for key in came if shown(*key) == of), None)
        while key:
            print(shown(*key))
            key = came[key]
    elif command == '--users':
        for key in came:
            for need in references(key):
                if shown(need[0]) == of and key[0] != need[0]:
                    print(f'{need[1]} <- {shown(*key)}')
    elif command == '--held':
        for lines, name in sorted(held_lines(came), reverse=True):
            print(f'{lines:5} {name}')
    else:
        lines = lines_reached(came)
        for path in sorted(lines):
            print(f'{own_lines(path):5} {lines[path]:5} {shown(path)}')
            for definition in file_at(path).definitions.values():
                if command == '--others' and (path, definition.name) not in came:
                    print(f'            {definition.lines:4} {definition.name}')
        print(f'{sum(map(own_lines, lines)):5} {sum(lines.values()):5} in {len(lines)} files')


if __name__ == '__main__':
    main()
