#!/usr/bin/env python3
"""The table of wrong bodies, tried.tsv: wrong-bodies/tried.py [--write]

A row for each edit of this folder, by crate and name; its columns, parted by tabs:

- crate, edit: the file CRATE/EDIT.edit
- day, commit: when the edit was tried last, and on which sources; `-` where nothing is recorded
- how: `run.py` (wrong-bodies/run.py), `gate` (it stood in the crate's must-fail/ then), `hand` (over built libraries), or `-`
- came: what it came to: `refused`, `proved` (the contract says too little, or the edit means the same), `bad` (it couldn't be
  applied, or not be read), or `-`
- by: what refused it, the first that the prover said; or a remark that takes something away from that: that the refusal is only by
  a name that a proof file cites or by a limit of the prover, or that the edit had another text then, before it followed the sources

run.py writes the rows of what it tries. Beside it searched.tsv has, by hand, on what the kit's search for wrong bodies was run: the
crate, a commit that has these sources or later ones, what was searched, what was proved beside bodies that answer want of memory, and
what was left. Without a word this prints how many edits were tried when, which --write puts into docs/PROOFS.md, once it has made the
rows those of the files; docs/check.py compares both, the rows with the files and the page with the rows.
"""
import collections
import glob
import os
import re
import sys

HERE = os.path.dirname(os.path.realpath(__file__))
ROOT = os.path.dirname(HERE)
TABLE = 'wrong-bodies/tried.tsv'
SEARCHED = 'wrong-bodies/searched.tsv'
PAGE = 'docs/PROOFS.md'
FROM, TO = ('<!-- written by wrong-bodies/tried.py: %s here -->' % it for it in ('from', 'to'))
Row = collections.namedtuple('Row', 'crate edit day commit how came by')
HOW = {'run.py': 'by run.py', 'gate': 'by the gate', 'hand': 'by hand', '-': 'not recorded'}
CAME = {'refused', 'proved', 'bad', '-'}


def read(path):
    with open(os.path.join(ROOT, path), encoding='utf-8') as file:
        return file.read()


def edits():
    """The edits of this folder, as pairs of crate and name."""
    found = [os.path.relpath(it, HERE).split('/') for it in glob.glob(os.path.join(HERE, '*', '*.edit'))]
    return sorted((crate, name[:-5]) for crate, name in found)


def rows():
    """The rows of the table, by crate and edit; the first line has the names of its columns."""
    lines = [line.split('\t') for line in read(TABLE).split('\n')[1:] if line]
    return {(line[0], line[1]): Row(*line) for line in lines}


def write(table):
    lines = ['\t'.join(Row._fields)] + ['\t'.join(table[it]) for it in sorted(table)]
    with open(os.path.join(ROOT, TABLE), 'w', encoding='utf-8') as file:
        file.write('\n'.join(lines) + '\n')


def told():
    """The lines in docs/PROOFS.md: how many edits were tried when."""
    counts = collections.Counter((row.day, row.commit, row.how, row.came) for row in rows().values())
    out = ['', '| Tried | On | On the sources of | Edits | Came to |', '|---|---|---|---|---|']
    for key in sorted(counts, reverse=True):
        day, commit, how, came = key
        out.append('| %s | %s | %s | %d | %s |' % (HOW[how], day, commit, counts[key], came))
    return out + ['']


def faults():
    """Triples of document, line number and complaint."""
    lines = read(TABLE).split('\n')
    if lines[0].split('\t') != list(Row._fields):
        return [(TABLE, 1, 'the columns are %s' % ', '.join(Row._fields))]
    found, seen = [], []
    for number, line in enumerate(lines[1:-1], 2):
        cells = line.split('\t')
        if len(cells) != len(Row._fields):
            found.append((TABLE, number, 'not a row of %d columns' % len(Row._fields)))
            continue
        row = Row(*cells)
        seen.append((row.crate, row.edit))
        known = row.how in HOW and row.came in CAME and row.by
        if not known or not re.fullmatch(r'-|\d{4}-\d\d-\d\d', row.day) or not re.fullmatch(r'-|[0-9a-f]{8,}', row.commit):
            found.append((TABLE, number, 'a column has what it may not have'))
    there = edits()
    found += [(TABLE, 1, '%s/%s.edit has no row' % it) for it in there if it not in seen]
    found += [(TABLE, 1, 'there is no %s/%s.edit' % it) for it in seen if it not in there]
    if not found and seen != there:
        found.append((TABLE, 1, 'not in the order of crates and edits, each once'))
    for number, line in enumerate(read(SEARCHED).split('\n')[:-1], 1):
        cells = line.split('\t')
        if len(cells) != 6 or number > 1 and not os.path.isdir(os.path.join(ROOT, 'crates', cells[0])):
            found.append((SEARCHED, number, 'not a row of 6 columns, the first a crate'))
    if found:
        return found
    page = read(PAGE).split('\n')
    if FROM not in page or TO not in page:
        return [(PAGE, 1, 'the two lines of wrong-bodies/tried.py are missing')]
    if page[page.index(FROM) + 1:page.index(TO)] != told():
        return [(PAGE, page.index(FROM) + 1, 'not what wrong-bodies/tried.py writes: with --write it mends that')]
    return []


def main(words):
    if words == ['--write']:
        known = rows()
        write({it: known.get(it, Row(*it, *['-'] * 5)) for it in edits()})
        page = read(PAGE).split('\n')
        page[page.index(FROM) + 1:page.index(TO)] = told()
        with open(os.path.join(ROOT, PAGE), 'w', encoding='utf-8') as file:
            file.write('\n'.join(page))
    else:
        print('\n'.join(told()).strip())


if __name__ == '__main__':
    main(sys.argv[1:])
