#!/usr/bin/env python3
"""What a new part costs, counted by one that stands: docs/touches.py NAME [--files | --json], docs/touches.py [--write]

NAME is a part of the table PARTS, or variants: `Task::Ext`, `Link::Ext,Task::Ext`. Each line outside the part's own crates that
names it is printed, file by file, and the sums; --files leaves the lines out. Without a NAME the sums of all parts are printed,
which --write puts into docs/ADDING_A_STAGE.md; docs/check.py compares. The status is 2 where no type has such a variant.

A line of a crate's src/*.rt (source), specs/*.antt (definitions) or proofs/*.antt (proofs) counts once, however often it names it:
- by a variant: its declaration, `Type::Variant`, and in definitions, proofs and contracts the word under which `use` lines of that
  file bring it (`Red`, `tasks.Red`, `Red as Own`, also by way of another file's `pub use`), so that no other thing of that name
  counts (but types of Rust go by their name alone); or the arm of a goal that has its name, as `returns-in-Red`, `c.in-Red.is`
- by its printed word, at the head of a text in quotation marks (`codes "red"`, `b"settled "`)

That is what stands in tables and in cases by variant, where a new part needs as much. Comments don't count. Sums of their own have
- imports, that bring a variant's word; documents (the printed word heads a code span), scripts (or a text), tests and stories
- deeds, what the part does, since a new part does something else: other lines with a word that contains its stem, as its fields,
  functions and lemmas do; none where other things have the stem, too, as that of `settled`
"""
import argparse
import collections
import functools
import glob
import json
import os
import re

TOP = os.path.join(os.path.dirname(os.path.abspath(__file__)), '..')
PAGE = 'docs/ADDING_A_STAGE.md'
FROM, TO = ('<!-- written by docs/touches.py: %s here -->' % it for it in ('from', 'to'))
Part = collections.namedtuple('Part', 'crates variants text stem')  # its crates and variants, its printed word, the stem of its deeds
PARTS = {
    'redistribution': Part(['redist'], ['Link::Red', 'Task::Red', 'Phase::Red', 'Region::Redistributed'], 'red', 'redist'),
    'refresh': Part(['peer_out', 'out_chain', 'exit_side'], ['Task::Ref', 'Phase::Ref'], 'ref', 'refresh'),
    'settled': Part([], ['Question::Settled', 'Line::Settled'], 'settled', None),
}
BESIDE = [('documents', r'`%s\b', '*.md', '*/*.md'), ('scripts', r'[\'"]%s\b', '*/*.py', '*/*/*.py', '*/*.js'),
          ('tests', r'(?<![\w.])%s(?=[ .\\"])', 'crates/*_tests/src/*.rt'),
          ('stories', r'^(?!#)(?:.* )?%s(?=[. ]|$)', 'examples/*/*.events', 'examples/*/*.out')]
ROOMS = {'src': 'source', 'specs': 'definitions', 'proofs': 'proofs'}
CODE = ['crates/*/src/**/*.rt', 'crates/*/specs/**/*.antt', 'crates/*/proofs/**/*.antt']
USE = re.compile(r'use Rattle\.([\w.-]+?)(?: as (\w+)|\.\{([^}]*)\})')
ENUM = re.compile(r'enum (\w+)[^{]*\{\n(.*?)^\}', re.M | re.S)


@functools.lru_cache(None)
def read(path):
    with open(os.path.join(TOP, path), encoding='utf-8') as file:
        return file.read()


@functools.lru_cache(None)
def found(*patterns):
    """The files of these patterns, from the top, in their order."""
    paths = [it for one in patterns for it in glob.glob(os.path.join(TOP, one), recursive=True)]
    return dict.fromkeys(sorted(os.path.relpath(it, TOP) for it in paths))


@functools.lru_cache(None)
def declared():
    """Of each `Type::Variant` the lines that declare it, as path and number."""
    places = {}
    for path in found(*CODE):
        for enum in ENUM.finditer(read(path)) if path.endswith('.rt') else []:
            for one in re.finditer(r'(?m)^    ([A-Z]\w*)', enum[2]):
                number = read(path).count('\n', 0, enum.start(2) + one.start()) + 1
                places.setdefault('%s::%s' % (enum[1], one[1]), set()).add((path, number))
    return places


@functools.lru_cache(None)
def brought(path):
    """What `use` lines of a file bring: words for variants, those that other files have from it, and words for whole types."""
    words, passed, types = {}, {}, {}
    for use in USE.finditer(read(path)):
        *_, kind, last = use[1].split('.')
        other = 'crates/%s.antt' % use[1].replace('.', '/')
        known = brought(other)[1] if other in found(*CODE) else {}
        if last == 'TheVariants' and use[2]:
            types[use[2]] = kind
        for it in use[3].split(',') if use[3] and (last == 'TheVariants' or known) else []:
            word, _, new = it.strip().partition(' as ')
            if last == 'TheVariants' or word in known:
                words[new or word] = known.get(word) or '%s::%s' % (kind, word)
                if read(path)[use.start() - 4:use.start()] == 'pub ':
                    passed[new or word] = words[new or word]
    return words, passed, types


def pattern(path, part, mine):
    """What names the part in a file, which has these words for it."""
    ways = [r'(?<![\w.-])%s(?![\w-])' % word for word in mine] + [r'"%s(?=["\s])' % part.text]
    for kind, name in [it.split('::') for it in part.variants]:
        ways += [r'\b%s::%s\b' % (kind, name), r'\bin-%s(?![A-Za-z0-9_])' % name]
        ways += [r'(?<!\w)%s\.%s\b' % (prefix, name) for prefix, other in brought(path)[2].items() if other == kind]
    return re.compile('|'.join(ways))


def touches(part, deeds=True):
    """The lines that name a part, as path, number and text, by kind."""
    told = {kind: [] for kind in [*ROOMS.values(), 'imports', 'deeds']}
    places = set().union(*(declared()[it] for it in part.variants))
    stem = re.compile(part.stem, re.I) if part.stem and deeds else None
    for path in found(*CODE):
        crate, room = path.split('/')[1:3]
        mine = [word for word, variant in brought(path)[0].items() if variant in part.variants]
        pieces = {*mine, '"' + part.text, *(it.split('::')[1] for it in part.variants)}  # one is in each line that counts
        some = any(it in read(path) for it in pieces) or stem and stem.search(read(path))
        if not some or crate in part.crates or crate.endswith('_tests'):
            continue
        names = pattern(path, part, mine)
        importing, comment = False, r'(^|\s)//.*' if room == 'src' else r'(^|\s)--(\s.*|$)'
        for number, line in enumerate(read(path).split('\n'), 1):
            importing = importing or line.lstrip().startswith(('use ', 'pub use ', 'ghost use ', 'pub ghost use '))
            kind, line = None, re.sub(comment, '', line) if any(it in line for it in pieces) or importing or stem else ''
            if importing:
                kind = 'imports' if any(re.search(r'\b%s\b' % word, line) for word in mine) else None
                importing = room == 'src' and ';' not in line
            elif (path, number) in places or names.search(line):
                kind = ROOMS[room]
            elif stem and stem.search(line):
                kind = 'deeds'
            if kind:
                told[kind].append((path, number, line.strip()))
    return told


def beside(part):
    """The lines of documents, scripts, tests and stories that have the printed word, by kind."""
    return {kind: [(path, number, line.strip()) for path in found(*patterns)
                   for number, line in enumerate(read(path).split('\n'), 1) if re.search(named % part.text, line)]
            for kind, named, *patterns in BESIDE}


def sums(told):
    """Of each kind, and of code altogether, its lines, files and crates."""
    all_of = dict(told, code=[it for kind in ROOMS.values() for it in told[kind]])
    paths = {kind: {it[0] for it in lines} for kind, lines in all_of.items()}
    return {kind: {'lines': len(all_of[kind]), 'files': len(paths[kind]),
                   'crates': len({it.split('/')[1] for it in paths[kind] if it[:7] == 'crates/'})} for kind in all_of}


def wanted():
    """The table of all parts, as docs/ADDING_A_STAGE.md has it."""
    out = ['', '| Lines in files | Source | Definitions | Proofs | Together | Imports |', '|---|---|---|---|---|---|']
    for name, part in PARTS.items():
        of = sums(touches(part, deeds=False))
        cells = ' | '.join('%(lines)d in %(files)d' % of[kind] for kind in ROOMS.values())
        out.append('| %s | %s | %d in %d files of %d crates | %d |' % (name, cells, *of['code'].values(), of['imports']['lines']))
    return out + ['']


def faults():
    """Pairs of line number in docs/ADDING_A_STAGE.md and complaint."""
    text = read(PAGE).split('\n')
    try:
        if text[text.index(FROM) + 1:text.index(TO)] != wanted():
            yield text.index(FROM) + 1, 'not what docs/touches.py writes: docs/touches.py --write mends it'
    except ValueError:
        yield 1, 'the two lines of docs/touches.py are missing'
    except KeyError as missing:
        yield text.index(FROM) + 1, 'docs/touches.py has a part with %s, and no type has it' % missing


def report(part, asked):
    """Prints the lines of one part and their sums."""
    told = {**touches(part), **beside(part)}
    lines = [it for kind in ROOMS.values() for it in told[kind]]
    if asked.json:
        return print(json.dumps({'sums': sums(told), 'lines': told}, indent=1))
    for path in sorted({it[0] for it in lines}):
        here = ['    %d: %s' % it[1:] for it in lines if it[0] == path]
        print('\n'.join(['%s: %d' % (path, len(here))] + ([] if asked.files else here)))
    for kind, of in sums(told).items():
        print('%s: %s' % (kind, ', '.join('%d %s' % (of[it], it) for it in of if of[it]) or 'none'))


def main():
    parser = argparse.ArgumentParser(description='What a new part costs, counted by one that stands: ' + ', '.join(PARTS))
    parser.add_argument('name', nargs='?', metavar='NAME')
    for word in '--files', '--json', '--write':
        parser.add_argument(word, action='store_true')
    asked = parser.parse_args()
    try:
        if asked.name:
            report(PARTS.get(asked.name) or Part([], asked.name.split(','), '(?!)', None), asked)
        elif asked.write:
            text = read(PAGE).split('\n')
            text[text.index(FROM) + 1:text.index(TO)] = wanted()
            with open(os.path.join(TOP, PAGE), 'w', encoding='utf-8') as file:
                file.write('\n'.join(text))
        else:
            print('\n'.join(wanted()).strip())
    except KeyError as missing:
        parser.error('no type has %s' % missing)


if __name__ == '__main__':
    main()
