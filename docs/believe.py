#!/usr/bin/env python3
"""What a reader has to believe: the definitions that the clauses of `replay` reach. docs/believe.py [--words | --write]

It begins at the words that `ghost use` brings into crates/replay/src/lib.rt, and goes on from each definition to those
that its text names, by the `use` lines of its file, through crates/*/specs/*.antt to the end. A definition is its
signature and its cases; a record, all its parts. A name counts wherever it occurs in that text, also where it is a
parameter's: so the list has every definition that a clause reaches, and perhaps one that none does.

Without a word it prints each file with the number of lines of these definitions, comments and empty lines aside, and of
the whole file; with --words the names of the definitions behind that. With --write it puts the list into docs/PROOFS.md, between the
two lines that name this script; docs/check.py compares. Files come by the parts of the table there: a file stands in
the first part that names it, or else in the first whose files reach it.

The types of Rust that definitions name (`declared`), with what contracts see of them, aren't followed: they stand in src,
and --words names their files.
"""
import os
import re
import sys

TOP = os.path.join(os.path.dirname(os.path.abspath(__file__)), '..')
ROOT = 'crates/replay/src/lib.rt'
PAGE = 'docs/PROOFS.md'
FROM = '<!-- written by docs/believe.py: from here -->'
TO = '<!-- written by docs/believe.py: to here -->'
WIDTH = 100
USE = re.compile(r'\s*(?:pub )?(?:ghost )?use Rattle\.(\w+)\.specs\.([^\s{;]+?)\.?(?:\{([^}]*)\}|\s+as\s+(\w+))?;?\s*$')
HEAD = re.compile(r'\s*(?:(?:abbrev|unfoldable) (?:mutual )?(?:pub )?|pub (?:(?:record|data) )?)(\S+)')
CASE = re.compile(r'\s+(?:pub )?(\S+) : ')
TOKEN = re.compile(r'([^\s(){}\[\],.;]+)(?=(?:\.([^\s(){}\[\],.;]+))?)')
FILE = re.compile(r'\b(\w+)/specs/(\w+)\.antt((?:, \w+\.antt)*)')
EACH = re.compile(r'\| ((?:\w+, )*\w+): specs/(\w+)\.antt')
PART = re.compile(r'\| \*([^*]+)\* \|')


def read(path):
    with open(os.path.join(TOP, path), encoding='utf-8') as file:
        return file.read().split('\n')


def file_of(crate, module):
    """The file of a module of specs/, None for a type of Rust or for what the kit has."""
    path = 'crates/%s/specs/%s.antt' % (crate, module.split('.')[0])
    return path if os.path.isfile(os.path.join(TOP, path)) else None


def imported(line):
    """Of a `use` line: pairs of a word and where it stands (of a module that is used whole, with no word there), and the
    types of Rust, as crate and module."""
    found = USE.match(line)
    if not found or not os.path.isdir(os.path.join(TOP, 'crates', found[1])):
        return [], []
    path = file_of(found[1], found[2])
    if path is None:
        return [], [(found[1], found[2])]
    if found[3] is None:
        return [(found[4] or found[2], (path, None))], []
    words = [[it.strip('◌') for it in word.split(' as ')] for word in found[3].split(', ')]
    return [(word[-1], (path, word[0])) for word in words], []


class Specs:
    """One file of specs/: the lines of each definition, and where the words stand that it has from elsewhere."""

    def __init__(self, path):
        self.lines, self.words, self.types, self.whole, name = {}, {}, [], {}, None
        text = read(path)
        self.length = len(text) - 1
        for line in text:
            words, types = imported(line)
            self.words.update(words)
            self.types += types
            if line.startswith('module '):
                name = None
            if not line.strip() or re.match(r'\s*(--|(pub )?use )|module |infix', line):
                continue
            found = HEAD.match(line)
            # the parts of a record begin with `pub` too, but stand further in than its head
            if found and not (name and self.indent < len(line) - len(line.lstrip()) and self.is_record):
                name, self.indent = found[1].strip('◌'), len(line) - len(line.lstrip())
                self.is_record = bool(re.match(r'\s*pub (record|data) ', line))
                self.lines.setdefault(name, [])
            elif name and self.is_record and CASE.match(line):
                self.whole[CASE.match(line)[1]] = name
            if name is None:
                raise SystemExit('docs/believe.py: %s: not in a definition: %s' % (path, line))
            self.lines[name].append(line.split(' -- ')[0])

    def named(self, name):
        """What the text of a definition names: words of this file, as None and the word, and of others."""
        for line in self.lines[name]:
            for word, behind in TOKEN.findall(line):
                if word in self.lines:
                    yield None, word
                elif word in self.whole:
                    yield None, self.whole[word]
                elif word in self.words:
                    path, other = self.words[word]
                    if other or behind:
                        yield path, other or behind


class Reached:
    """All that is reached from the clauses."""

    def __init__(self):
        self.specs, self.names, self.types = {}, {}, set()
        self.first = []
        for line in read(ROOT):
            if line.startswith('ghost use '):
                words, types = imported(line)
                self.first += [place for _, place in words]
                self.types.update(types)
        self.uses = {}
        todo = list(self.first)
        while todo:
            path, name = todo.pop(0)
            if path not in self.specs:
                self.specs[path] = Specs(path)
            name = self.specs[path].whole.get(name, name)
            if name in self.names.setdefault(path, []):
                continue
            if name not in self.specs[path].lines:
                raise SystemExit('docs/believe.py: %s has no definition %s' % (path, name))
            self.names[path].append(name)
            for other, word in self.specs[path].named(name):
                todo.append((other or path, word))
                if other:
                    self.uses.setdefault(path, {})[other] = True
        for path, specs in self.specs.items():
            self.types.update(specs.types)

    def lines_of(self, path):
        return sum(len(self.specs[path].lines[name]) for name in self.names[path])

    def below(self, path):
        """The files that the definitions of a file reach, itself first."""
        found = [path]
        for at in found:
            found += [it for it in self.uses.get(at, {}) if it not in found]
        return found


def table_files(text):
    """The files that the table of the section names, by its parts: pairs of part and file."""
    part = None
    for line in text:
        found = PART.match(line)
        part = found[1] if found else part
        for crate, name, more in FILE.findall(line):
            for other in [name] + re.findall(r'(\w+)\.antt', more):
                yield part, 'crates/%s/specs/%s.antt' % (crate, other)
        for crates, name in EACH.findall(line.replace('| ', '|', 1).replace(' | ', '| ', 1)):
            for crate in crates.split(', '):
                yield part, 'crates/%s/specs/%s.antt' % (crate, name)


def section():
    """The lines of the section, before the list."""
    text = read(PAGE)
    at = text.index('## What a reader has to believe')
    return text[at:text.index(FROM)]


def by_part(reached):
    """The reached files by the parts of the table, in its order; those of the clauses themselves come first."""
    named = [(part, path) for part, path in table_files(section()) if path in reached.specs]
    place = {}
    for part, path in named:
        place.setdefault(path, part)
    for part, path in named:
        for other in reached.below(path):
            place.setdefault(other, part)
    parts = ['The clauses'] + list(dict.fromkeys(part for part, _ in named))
    return {part: sorted(it for it in reached.specs if place.get(it, parts[0]) == part) for part in parts}


def rows(part, paths, reached):
    """The rows of a part: its files by crate, with the lines of each that are reached."""
    crates = {}
    for path in paths:
        _, crate, _, name = path.split('/')
        crates.setdefault(crate, []).append('%s %d' % (name[:-5], reached.lines_of(path)))
    cell, first = '', '*%s*' % part
    for crate, names in crates.items():
        for at, name in enumerate(names):
            piece = ('%s: ' % crate if at == 0 else '') + name + (', ' if at + 1 < len(names) else '; ')
            if len('| %s | %s%s |' % (first, cell, piece.rstrip())) > WIDTH:
                yield '| %s | %s |' % (first, cell.rstrip())
                cell, first = '', ''
            cell += piece
    if cell:
        yield '| %s | %s |' % (first, cell.rstrip('; '))


def told():
    """The list as docs/PROOFS.md has it, and complaints about the table."""
    reached = Reached()
    complaints = ['%s is listed, and no clause of `replay` reaches it' % path
                  for path in dict.fromkeys(path for _, path in table_files(section())) if path not in reached.specs]
    files = sorted(reached.specs)
    lines = sum(reached.lines_of(path) for path in files)
    names = sum(len(it) for it in reached.names.values())
    out = ['', '%d definitions in %d files, {:,} lines without comments:'.format(lines) % (names, len(files)), '']
    out += ['| Part | Files under crates/NAME/specs, with the lines that are reached |', '|---|---|']
    for part, paths in by_part(reached).items():
        out += rows(part, paths, reached)
    return out + [''], complaints


def faults():
    """Pairs of line number in docs/PROOFS.md and complaint."""
    text = read(PAGE)
    if FROM not in text or TO not in text:
        return [(1, 'the two lines of docs/believe.py are missing')]
    start, end = text.index(FROM), text.index(TO)
    wanted, complaints = told()
    found = [(text.index('## What a reader has to believe') + 1, it) for it in complaints]
    if text[start + 1:end] != wanted:
        found.append((start + 1, 'not what docs/believe.py writes: docs/believe.py --write mends it'))
    return found


def main(words):
    if words == ['--write']:
        text = read(PAGE)
        start, end = text.index(FROM), text.index(TO)
        wanted, complaints = told()
        with open(os.path.join(TOP, PAGE), 'w', encoding='utf-8') as file:
            file.write('\n'.join(text[:start + 1] + wanted + text[end:]))
        for it in complaints:
            print(it)
        return
    reached = Reached()
    for path in sorted(reached.specs):
        print('%s: %d of %d' % (path, reached.lines_of(path), reached.specs[path].length))
        if words == ['--words']:
            print('    ' + ' '.join(reached.names[path]))
    if words == ['--words']:
        print('types of Rust that these name, in src:')
        for crate, module in sorted({(crate, module.split('.')[1]) for crate, module in reached.types}):
            print('    %s: %s' % (crate, module))


if __name__ == '__main__':
    main(sys.argv[1:])
