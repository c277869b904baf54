#!/usr/bin/env python3
"""Kept captures of real routers against the tables that these showed: captures/check.py. A part of the gate; no daemon and no program is needed.

captures/kept/DAEMON/ has what a daemon wrote (make.py), `all.mrt`, or a table dump `dump.mrt` with `behind.mrt`, and `table.json`, the routes that it
showed at the end. Here

  1. what prepare.py makes of them has to be the story's capture in examples/captures/, octet for octet
  2. the rows of each peer's `filt.K` behind the story's output have to be the routes that the daemon showed

and the gate's stories say that the program makes the event file of that capture, and the output of that. The status is 1 where something differs.
"""
import io
import os
import sys

sys.dont_write_bytecode = True
HERE = os.path.dirname(os.path.abspath(__file__))
KEPT = os.path.join(HERE, 'kept')
EXAMPLES = os.path.join(HERE, '..', 'examples', 'captures')
for folder in ('reasons', 'python'):
    sys.path.insert(0, os.path.join(HERE, '..', folder))
import preparation
import prepare
import shown
import tables
from bgp import mrt


# the captures of a daemon, and the files of each in their order; the last two only where it tells no ends of sessions (make.py)
FILES = {'all': ['all.mrt'], 'dump': ['dump.mrt', 'behind.mrt'], 'bmp': ['stream.bmp'], 'told': ['told.mrt'], 'later': ['later.mrt']}


def captures(folder):
    """The captures of a daemon that are there: name, and the paths of the files."""
    for name, files in FILES.items():
        paths = [os.path.join(folder, file) for file in files]
        if all(map(os.path.isfile, paths)):
            yield name, paths


def story(daemon, capture):
    return 'eight_peers_of_%s' % daemon if capture == 'all' else 'dumped_by_%s' % daemon


def prepared(paths):
    """What prepare.py makes of files, and which address each stand-in stands for."""
    made, out = preparation.Preparation(prepare.words(paths), lambda octets: out.write(octets)), io.BytesIO()
    for path in paths:
        made.take_file(path)
        made.flush()
    return out.getvalue(), {mrt.shown(instead): mrt.shown(address) for (address, _), instead in made.addresses.instead.items()}


def told(folder, events, output, stand_ins):
    """Prints of each peer how many prefixes differ, and the first of them; yields its number, how many it has, and how many differ."""
    peers = {words[1]: words[4] for words in map(str.split, events) if words[:1] == ['peer']}
    links = tables.Tables().take_all(output).links
    ours = shown.with_real_hops(shown.of_tables(links, peers, stand_ins), stand_ins)
    with open(os.path.join(folder, 'table.json'), encoding='ascii') as file:
        theirs = shown.loaded(file.read())
    for number, count, differing in shown.apart(ours, theirs):
        print('    peer %d: %d prefixes, %d differ' % (number, count, len(differing)))
        for prefix in differing[:3]:
            print('      %s: program %s; daemon %s' % (prefix, ours.get(number, {}).get(prefix), theirs.get(number, {}).get(prefix)))
        yield number, count, len(differing)


def read(name, suffix):
    with open(os.path.join(EXAMPLES, name + suffix), 'rb') as file:
        return file.read()


def lines(octets):
    return octets.decode('ascii').split('\n')[:-1]


def main():
    wrong = 0
    for daemon in sorted(os.listdir(KEPT)):
        folder = os.path.join(KEPT, daemon)
        for capture, paths in captures(folder):
            name = story(daemon, capture)
            octets, stand_ins = prepared(paths)
            is_same = octets == read(name, '.mrt')
            print('%s: %s' % (name, 'as kept' if is_same else 'prepare.py makes another capture of it'))
            wrong += sum(differing for _, _, differing in told(folder, lines(read(name, '.events')), lines(read(name, '.out')), stand_ins)) + (not is_same)
    return 1 if wrong else 0


if __name__ == '__main__':
    sys.exit(main())
