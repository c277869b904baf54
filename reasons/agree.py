#!/usr/bin/env python3
"""Whether the steps of why.py give the rows of `best`: agree.py [--prefixes 10000] [--first SEED] [--program WORDS] [CAPTURE..]

Outputs of `gen` are taken, seed by seed, until so many prefixes were compared, each whenever a message begins, where candidates or the best route
changed since the one before; then captures: MRT files, or folders of captures/make.py --keep, whose event files prepare.py and `mrt --as4` make,
with an interior route that holds all next hops, each prefix at the end. Without CAPTURE those in captures/kept/. The decision is made anew
(decision.py), and compared with the row of `best`.

Printed is of each source how many prefixes were compared and how many differ, and at how many of them which step was the last at which a route
lost (docs/BGP.md, "The decision"; `alone`: there was at most one). Statuses: 0; 1 where something differs; 2 where nothing was compared.
"""
import argparse
import collections
import os
import re
import subprocess
import sys

sys.dont_write_bytecode = True
HERE = os.path.dirname(os.path.abspath(__file__))
for folder in ('captures', 'python'):
    sys.path.insert(0, os.path.join(HERE, '..', folder))
import check
import tables
import why
from bgp import program

COUNT = 1000  # events of a seed
# what stands in front of the events of a seed (crates/event_gen/specs/Lines.antt)
FRONT = ['local 65000 192.0.2.254 192.0.2.254', 'peer 1 65001 192.0.2.1 192.0.2.1', 'peer 2 65002 192.0.2.2 192.0.2.2',
         'peer 3 65000 192.0.2.3 192.0.2.3', 'peer 4 65001 192.0.2.4 192.0.2.4']
CHANGES, LINKS = ('+', '=', '-'), re.compile(r'(best|red|res\.\d+)$')
HOLDS_ALL = 'route add static 0.0.0.0/0 direct eth0 1'


class Row:
    """What came of one source."""

    def __init__(self, name):
        self.name, self.count, self.steps, self.wrong = name, 0, collections.Counter(), []

    def take(self, where, found, wanted, prefixes):
        for prefix in prefixes:
            ours, theirs, step = why.decided_at(found, wanted, prefix)
            self.count += 1
            self.steps[step] += 1
            if ours != theirs:
                self.wrong.append('%s, %s: by the steps %s, on `best` %s' % (where, prefix, ours, theirs))

    def told(self):
        steps = ', '.join('%s %d' % ('step %d' % step if step else 'alone', self.steps[step]) for step in sorted(self.steps))
        yield '%s: %d prefixes, %d differ; %s' % (self.name, self.count, len(self.wrong), steps)
        yield from self.wrong[:10]


def of_seeds(words, prefixes, first):
    """Seeds of `gen`, until there are so many prefixes."""
    row, seed, wanted = Row('gen'), first, why.declared(FRONT)
    while row.count < prefixes:
        ran = subprocess.run(words + ['gen', str(seed), str(COUNT)], stdout=subprocess.PIPE, check=True)
        found, touched = tables.Tables(), set()
        for place, line in enumerate(ran.stdout.decode('ascii').split('\n')[:-1], 1):
            kind, link, prefix = (line.split(' ') + ['', ''])[:3]
            if kind in CHANGES and link.startswith('in.'):  # all that came of the event before is done
                row.take('seed %d, line %d' % (seed, place), found, wanted, sorted(touched))
                touched.clear()
            if kind in CHANGES and LINKS.match(link):
                touched.add(prefix)
            found.take(line)
        row.take('seed %d, the end' % seed, found, wanted, why.prefixes(found, wanted))
        seed += 1
    row.name = 'gen, seeds %d to %d' % (first, seed - 1)
    return row


def of_capture(words, name, paths):
    """One capture, prepared, with an interior route."""
    octets, _ = check.prepared(paths)
    said = subprocess.run(words + ['mrt', '--as4'], input=octets, stdout=subprocess.PIPE, check=True).stdout.decode('ascii').split('\n')
    place = next((place for place, line in enumerate(said) if line.startswith('local ')), None)
    if place is None:
        raise OSError('%s: nothing of it is of use' % name)
    lines, row = said[:place + 1] + [HOLDS_ALL] + said[place + 1:], Row(name)
    found, wanted = tables.Tables().take_all(tables.printed(words, lines)), why.declared(lines)
    row.take(name, found, wanted, why.prefixes(found, wanted))
    return row


def captures(paths):
    """The captures of the words: names, and the files of each in their order."""
    for path in paths:
        if os.path.isfile(path):
            yield path, [path]
        else:
            for folder, _, _ in sorted(os.walk(path)):
                yield from (('%s, %s' % (os.path.basename(folder), name), files) for name, files in check.captures(folder))


def main():
    words = argparse.ArgumentParser(description=__doc__, formatter_class=argparse.RawDescriptionHelpFormatter)
    words.add_argument('captures', metavar='CAPTURE', nargs='*', default=[check.KEPT])
    words.add_argument('--prefixes', type=int, default=10000)
    words.add_argument('--first', type=int, default=1, metavar='SEED')
    words.add_argument('--program', default=program.BUILT, help='the words of another program than the built one')
    asked = words.parse_args()
    command, rows = asked.program.split(' '), []
    try:
        if asked.prefixes:
            rows.append(of_seeds(command, asked.prefixes, asked.first))
        rows += [of_capture(command, name, paths) for name, paths in captures(asked.captures)]
    except (OSError, tables.Refused, subprocess.SubprocessError) as error:
        print('agree.py: %s' % ('%s: %s' % (error.filename, error.strerror) if getattr(error, 'filename', None) else error), file=sys.stderr)
        return 2
    for row in rows:
        print('\n'.join(row.told()))
    print('%d prefixes, %d differ' % (sum(row.count for row in rows), sum(len(row.wrong) for row in rows)))
    return 1 if any(row.wrong for row in rows) else 0 if any(row.count for row in rows) else 2


if __name__ == '__main__':
    sys.exit(main())
