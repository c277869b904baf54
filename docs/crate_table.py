#!/usr/bin/env python3
"""Compares what documents say of the crates with crates.txt and the folders: docs/crate_table.py (docs/check.py asks for the same).

The table "Stands on" of docs/ARCHITECTURE.md names the edges that show how the crates stand on each other, and leaves out
those that follow: each edge that it names must be a dependency in crates.txt, each crate of crates.txt must stand in
exactly one row, and each dependency on a crate of this repository must be reachable through the named edges. The table of
rooms must have each crate once. crates.txt has the storeys of that table as its headings, in their order, each with its crates,
and each crate behind those that it depends on. The longest chain of crates is computed; the one that is written must be as long, and each
crate in it must depend on the one before.

Numbers that documents state of the repository (COUNTS) must be what is counted, and must be stated. No crate has more than
one edit in must-fail/: the others stand in wrong-bodies/ (CONTRIBUTING.md).
"""
import functools
import glob
import os
import re
import sys

TOP = os.path.join(os.path.dirname(os.path.abspath(__file__)), '..')
PAGE = 'docs/ARCHITECTURE.md'
NUMBERS = 'zero one two three four five six seven eight nine ten eleven twelve thirteen fourteen fifteen'.split()
CHAIN = r'longest\s+chain\s+of\s+crates(?:\s+that\s+stand\s+on\s+each\s+other)?\s+has\s+(\w+)'


def read(path):
    with open(os.path.join(TOP, path), encoding='utf-8') as file:
        return file.read()


def dependencies():
    """Of each crate of crates.txt the crates of the repository that it depends on."""
    lines = [line.split('#')[0] for line in read('crates.txt').split('\n')]
    all_of = {line.split(':')[0].split()[0]: line.split(':')[1].split() for line in lines if line.strip()}
    return {crate: [it for it in below if it in all_of] for crate, below in all_of.items()}


def table(text, heading):
    """The rows of the table with these headings, as lists of cells, joined where the first cell is empty."""
    rows = []
    at = text.index(heading) + 2
    for line in text[at:]:
        if not line.startswith('|'):
            break
        cells = [cell.strip() for cell in line.strip('|').split('|')]
        if cells[0] == '' and rows:
            rows[-1] = [(old + ' ' + new).strip() for old, new in zip(rows[-1], cells)]
        else:
            rows.append(cells)
    return rows


def names(cell):
    return re.findall(r'`(\w+)`', cell)


def longest(deps):
    """One of the longest chains of crates, the lowest first."""
    @functools.lru_cache(None)
    def chain(crate):
        return max((chain(it) for it in deps[crate]), key=len, default=()) + (crate,)
    return max((chain(crate) for crate in deps), key=len)


def edges(text, deps):
    """Complaints about the table "Stands on"."""
    stands_on = {}
    for crates, below in table(text, '| Crate | Stands on |'):
        for crate in names(crates):
            if crate in stands_on:
                yield '%s stands in two rows' % crate
            stands_on[crate] = names(below)
    for crate in sorted(set(deps) | set(stands_on)):
        if crate not in deps:
            yield 'crates.txt has no %s' % crate
        elif crate not in stands_on:
            yield '%s stands in no row' % crate
        else:
            yield from ('%s does not depend on %s' % (crate, it) for it in stands_on[crate] if it not in deps[crate])
            reached = list(stands_on[crate])
            for it in reached:
                reached += [more for more in stands_on.get(it, []) if more not in reached]
            yield from ('%s depends on %s, which no named edge leads to' % (crate, it)
                        for it in deps[crate] if it not in reached)


def rooms(text, deps):
    """Complaints about the table of rooms."""
    said = [it for row in table(text, '| Storey | Crates |') for it in names(row[1])]
    yield from ('the rooms name %s %d times' % (it, said.count(it)) for it in sorted(deps) if said.count(it) != 1)
    yield from ('the rooms name %s, which is no crate' % it for it in said if it not in deps)


def order(text, deps):
    """Complaints about the order of crates.txt."""
    storeys = {row[0]: names(row[1]) for row in table(text, '| Storey | Crates |')}
    lines = [line for line in read('crates.txt').split('\n')[1:] if line.strip()]
    headings = [line[2:] for line in lines if line.startswith('# ')]
    if headings != list(storeys):
        yield 'crates.txt has the headings %s' % ', '.join(headings)
    heading, above = '', set()
    for line in lines:
        if line.startswith('# '):
            heading = line[2:]
            continue
        crate = line.split(':')[0].split()[0]
        if crate not in storeys.get(heading, []):
            yield '%s is none of the crates of %s' % (crate, heading)
        yield from ('%s stands before %s, on which it stands' % (crate, it) for it in deps[crate] if it not in above)
        above.add(crate)


def chains(text, deps):
    """Complaints about the longest chain, as ARCHITECTURE writes it out."""
    found = re.search(CHAIN + r':([^.]*)\.', text)
    length = len(longest(deps))
    if not found or found[1] != NUMBERS[length]:
        yield 'the longest chain of crates has %s: %s' % (NUMBERS[length], ', '.join(longest(deps)))
        return
    chain = names(found[2])
    if len(chain) != length:
        yield 'the chain that is written has %d crates' % len(chain)
    yield from ('%s does not depend on %s' % (upper, lower) for lower, upper in zip(chain, chain[1:])
                if lower not in deps.get(upper, []))


def counted(pattern):
    return len(glob.glob(os.path.join(TOP, pattern)))


COUNTS = [
    ('docs/PROOFS.md', r'`crates/NAME/must-fail`, (\d+) in all', lambda: str(counted('crates/*/must-fail/*.edit'))),
    ('docs/PROOFS.md', r'`wrong-bodies/run.py` tries (\d+) more', lambda: str(counted('wrong-bodies/*/*.edit'))),
    ('docs/ARCHITECTURE.md', r'\b(\d+) crates', lambda: str(len(dependencies()))),
    ('docs/DECISIONS.md', CHAIN, lambda: NUMBERS[len(longest(dependencies()))]),
    ('docs/EXAMPLES.md', r': (\d+) stories, by topic', lambda: str(counted('crates/story_tests/data/stories/*/*.out'))),
    ('CONTRIBUTING.md', r'\b(\d+) crates', lambda: str(len(dependencies()))),
]


def faults():
    """Pairs of document and complaint."""
    deps, text = dependencies(), read(PAGE)
    lines = text.split('\n')
    for complaints in edges(lines, deps), rooms(lines, deps), chains(text, deps):
        yield from ((PAGE, it) for it in complaints)
    yield from (('crates.txt', it) for it in order(lines, deps))
    for page, pattern, count in COUNTS:
        said = re.findall(pattern, read(page))
        if not said:
            yield page, 'states no number by the pattern %s, which should be %s' % (pattern, count())
        yield from ((page, 'says %s, and it is %s (%s)' % (it, count(), pattern)) for it in said if it != count())
    tried = {crate: counted('crates/%s/must-fail/*.edit' % crate) for crate in deps}
    yield from (('CONTRIBUTING.md', 'says that the gate tries one edit of a crate, and %s has %d' % it)
                for it in sorted(tried.items()) if it[1] > 1)


if __name__ == '__main__':
    complaints = list(faults())
    for page, fault in complaints:
        print('%s: %s' % (page, fault))
    sys.exit(1 if complaints else 0)
