#!/usr/bin/env python3
"""comments.py [CRATE..]: the definitions and the public items that have no comment of their own.

Of each crate, or of those that are named, it lists the definitions of specs/ that have no comment directly before them
(a line that begins a section is none), and the public items of src/ that have no doc comment; modules have theirs at
the head of their file. The status is 0 where it lists nothing.
"""
import os
import re
import sys

TOP = os.path.dirname(os.path.dirname(os.path.abspath(__file__)))
# a definition, or its declaration within `mutual`
DEFINITION = re.compile(r'( *)(?:(?:abbrev|unfoldable) (?:pub )?(?!mutual)|pub (?:record|data) )(\S+)')
DECLARED = re.compile(r'( +)(?:pub )?(\S+) : ')
PUBLIC = re.compile(r'( *)pub (?:(?:const|unsafe|ghost|spec) )*(fn|struct|enum|trait|type|const|static) (\w+)')


def files(folder, ending):
    for path, _, names in sorted(os.walk(folder)):
        for name in sorted(names):
            if name.endswith(ending):
                yield os.path.join(path, name)


def lines_of(path):
    with open(path, encoding='utf-8') as file:
        return file.read().split('\n')


def definitions(lines):
    """The numbers of the lines that begin definitions, with their names."""
    block = None
    for number, line in enumerate(lines):
        depth = len(line) - len(line.lstrip())
        if line.strip() and block is not None and depth <= block:
            block = None
        if re.fullmatch(r' *(abbrev )?mutual', line):
            block = depth
            continue
        found = DEFINITION.match(line)
        if not found and block is not None and depth == block + 2:
            found = DECLARED.match(line)
        if found:
            yield number, found[2]


def before(lines, number, skipped):
    number -= 1
    while number >= 0 and re.match(skipped, lines[number]):
        number -= 1
    return lines[number].strip() if number >= 0 else ''


def bare_definitions(lines):
    for number, name in definitions(lines):
        last = before(lines, number, r' *(infix[lr]? |unfolding |(abbrev )?mutual$)')
        if not last.startswith('--') or last.startswith('-- ----'):
            yield number, name


def bare_items(lines):
    for number, line in enumerate(lines):
        found = PUBLIC.match(line)
        if found and not before(lines, number, r' *(#\[|[\w(), .:"*=]*\)?\]$)').startswith('///'):
            yield number, found[3]


def main():
    chosen = sys.argv[1:] or sorted(os.listdir(os.path.join(TOP, 'crates')))
    count = 0
    for crate in chosen:
        folder = os.path.join(TOP, 'crates', crate)
        for part, ending, bare in ('specs', '.antt', bare_definitions), ('src', '.rt', bare_items):
            for path in files(os.path.join(folder, part), ending):
                for number, name in bare(lines_of(path)):
                    print(f'{os.path.relpath(path, TOP)}:{number + 1}: {name}')
                    count += 1
    print(f'{count} without a comment')
    return count > 0


if __name__ == '__main__':
    sys.exit(main())
