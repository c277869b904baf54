#!/usr/bin/env python3
"""Parts captures by peer: by_peer.py FOLDER [FILE..] writes FOLDER/ADDRESS.mrt for each peer.

Each record of BGP4MP (types 16 and 17: messages and changes of state) goes to the file of its peer's address, as it stands and in its order;
all other records go nowhere, nor do those of no address. So each file is a capture of one peer, however many peers the collector has.
Without FILE, standard input. What prepare.py writes may be parted, too, with --peers 1- : so table dumps are parted.

Statuses: 0; 1 where a file is none of MRT or ends within a record; 2 where the words are wrong.
"""
import collections
import os
import sys

sys.dont_write_bytecode = True
sys.path.insert(0, os.path.join(os.path.dirname(os.path.abspath(__file__)), '..', 'python'))
from bgp import files, mrt

FLUSHED = 1 << 24  # octets that are kept before they are written


def peer_of(kind, subtype, body):
    """The peer's address; None of a record that isn't of a session, and where there is none."""
    if kind not in (mrt.BGP4MP, mrt.BGP4MP_ET) or subtype not in mrt.SUBTYPES[mrt.BGP4MP]:
        return None
    try:
        told = mrt.sides(subtype, body[4:] if kind == mrt.BGP4MP_ET else body)
    except ValueError:
        return None
    return told.peer if told.family in (1, 2) and any(told.peer) else None


class Parts:
    """A file for each peer; none stays open, since there may be more of them than a process may have."""

    def __init__(self, folder):
        self.folder, self.waiting, self.size, self.begun = folder, collections.defaultdict(list), 0, set()

    def take(self, address, octets):
        self.waiting[address].append(octets)
        self.size += len(octets)
        if self.size > FLUSHED:
            self.flush()

    def flush(self):
        for address, pieces in self.waiting.items():
            path = os.path.join(self.folder, mrt.shown(address) + '.mrt')
            with open(path, 'ab' if address in self.begun else 'wb') as file:
                file.write(b''.join(pieces))
            self.begun.add(address)
        self.waiting.clear()
        self.size = 0


def main(folder, paths):
    os.makedirs(folder, exist_ok=True)
    parts, status = Parts(folder), 0
    for path in paths or ['-']:
        try:
            for when, kind, subtype, body in files.read(path):
                address = peer_of(kind, subtype, body)
                if address:
                    parts.take(address, mrt.record(kind, subtype, body, when))
        except (OSError, mrt.Wrong) as error:
            print('by_peer.py: %s: %s' % (path, getattr(error, 'strerror', None) or error), file=sys.stderr)
            status = 1
    parts.flush()
    print('%d peers' % len(parts.begun))
    return status


if __name__ == '__main__':
    if len(sys.argv) < 2 or sys.argv[1] in ('-h', '--help'):
        print(__doc__.strip())
        sys.exit(0 if len(sys.argv) > 1 else 2)
    sys.exit(main(sys.argv[1], sys.argv[2:]))
