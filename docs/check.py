#!/usr/bin/env python3
"""Compares the documents with the repository: docs/check.py. It is the first part of the gate (.ci/run).

The examples in README.md, CONTRIBUTING.md, CHANGELOG.md and docs/: a fence ```text examples/FOLDER/NAME.EXT shows lines of that file
in their order; a line `..` stands for any number of lines that are left out. Each file in the folders of examples/ is a story, which the gate
runs (crates/story_tests). So no output stands in a document that the program didn't print.

Also refused there: lines of output in a block that names no file, lines of more than 100 columns, and what is said to be true
on the day of writing alone, which the next change makes false.

And by the scripts beside it, each of which says its rule at its head:
- crate_table.py: the tables of crates, the longest chain, and numbers that documents state
- names.py: each file, crate, function, heading and story that a document names exists
- manual.py: docs/replay.1 and docs/replay.bash have the commands, options and statuses of docs/LANGUAGE.md
- believe.py: the list of definitions that the clauses of `replay` reach, in docs/PROOFS.md
- promises.py: docs/PROMISES.md, what each public function promises
- wrong-bodies/tried.py: the table of wrong bodies has a row for each, and docs/PROOFS.md how many were tried when
- touches.py: how many lines name a part outside its own crate, in docs/ADDING_A_STAGE.md
- examples.py: docs/EXAMPLES.md

Each complaint is printed; the status is 1 where there is one, and 2 where a story has no output, so that it shows nothing.
"""
import glob
import os
import re
import sys

sys.dont_write_bytecode = True
sys.path.append(os.path.join(os.path.dirname(os.path.abspath(__file__)), '..', 'wrong-bodies'))
import believe
import crate_table
import examples
import manual
import names
import promises
import touches
import tried

TOP = os.path.join(os.path.dirname(os.path.abspath(__file__)), '..')
WIDTH = 100
PASSING = re.compile(r'\bto' + r'day\b', re.I)
OUTPUT = re.compile(r'([bi+=?we-]|rows?) (in|peer|filt|res|org|low|dyn|int|red|best|read|ebgp|ibgp|ext|fib|outf|adv)\b')


def shows(lines, whole):
    """Whether lines are those of a file, in order, but for what `..` leaves out."""
    at, free = 0, False
    for line in lines:
        if line == '..':
            free = True
            continue
        found = whole.index(line, at) if line in whole[at:] else None
        if found is None or found != at and not free:
            return line
        at, free = found + 1, False
    return None if free or at == len(whole) else '(the lines behind)'


def faults(path):
    """What is wrong with a document: pairs of line number and complaint."""
    with open(path, encoding='utf-8') as file:
        text = file.read().split('\n')
    fence = None
    for number, line in enumerate(text, 1):
        if len(line) > WIDTH:
            yield number, '%d columns' % len(line)
        if PASSING.search(line):
            yield number, 'what is true on one day alone'
        if line.startswith('```'):
            if fence is None:
                fence = number
                continue
            words = text[fence - 1][3:].split()
            block = text[fence:number - 1]
            if len(words) == 2 and not os.path.isfile(os.path.join(TOP, words[1])):
                yield fence, 'there is no %s' % words[1]
            elif len(words) == 2:
                with open(os.path.join(TOP, words[1]), encoding='utf-8') as file:
                    whole = file.read().split('\n')
                missed = shows(block, whole[:-1] if whole[-1] == '' else whole)
                if missed is not None:
                    yield fence, 'not as in %s: %s' % (words[1], missed)
            else:
                yield from ((fence + 1 + n, 'output of no file') for n, told in enumerate(block) if OUTPUT.match(told))
            fence = None
        elif fence is None and line.startswith('    ') and OUTPUT.match(line.strip()):
            yield number, 'output of no file'


def complaints():
    """All that is wrong, a line each."""
    at_the_top = [os.path.join(TOP, name) for name in ('README.md', 'CONTRIBUTING.md', 'CHANGELOG.md')]
    for path in at_the_top + sorted(glob.glob(os.path.join(TOP, 'docs', '*.md'))):
        for number, fault in faults(path):
            yield '%s:%d: %s' % (os.path.relpath(path, TOP), number, fault)
    yield from ('%s: %s' % it for it in crate_table.faults())
    yield from ('%s:%d: %s' % it for it in names.faults())
    yield from ('docs/PROOFS.md:%d: %s' % it for it in believe.faults())
    yield from ('docs/PROMISES.md:%d: %s' % it for it in promises.faults())
    yield from ('docs/ADDING_A_STAGE.md:%d: %s' % it for it in touches.faults())
    yield from ('%s:%d: %s' % it for it in tried.faults())
    yield from ('%s: %s' % it for it in manual.faults())
    yield from examples.faults()


def main():
    found, mute = list(complaints()), list(examples.without_output())
    for complaint in found + ['%s has no output' % name for name in mute]:
        print(complaint)
    sys.exit(2 if mute else 1 if found else 0)


if __name__ == '__main__':
    main()
