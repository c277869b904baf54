#!/usr/bin/env python3
"""MRT files, to compare two programs on and to measure one.

mrt_files.py SEED [--as4] > FILE           a file at random
mrt_files.py --many COUNT FOLDER           those of the seeds 0 to COUNT - 1, the odd ones for `--as4`
mrt_files.py --compare COUNT [--program WORDS] --other WORDS
mrt_files.py --large MIB > FILE            so many MiB, for `--as4`
mrt_files.py --measure MIB [--runs 3] [--program WORDS]

In the files at random records are of types 16 and 17, with AS numbers of two and of four octets, of all states, and messages of all lengths.
Between them stand records of other types, subtypes and address families, of AS 0 and of addresses that no speaker has. One file in three is
cut at a random octet, and some records have a length that is wrong, also 0 and 4294967295.

`--compare` gives two programs (`WORDS mrt [--as4]`) a record that is cut at each octet, and one of each length, of both types, both widths, a
state change and a message; a file of each odd case; and the files of so many seeds. It says which files give other lines or another status,
and how many; then the status is 1.

A large file is as a collector writes it: UPDATEs of eight peers, about five prefixes each, some keepalives, and sessions that end and begin.
`--measure` says what CPU time and memory `mrt --as4` takes for one, beside `bgpdump -m` where it is installed; the status is 1 where it
takes 8 MiB or more, or more than twice the time.
"""
import argparse
import collections
import gzip
import itertools
import os
import random
import shutil
import struct
import subprocess
import sys
import tempfile

HERE = os.path.dirname(os.path.abspath(__file__))
sys.path.insert(0, os.path.join(HERE, '..', 'python'))
import measure
from bgp import feed, messages, mrt, program, wire
from bgp.mrt import LOCAL, made_message, made_sides, made_states, record

LENGTHS = [0, 1, 18, 19, 23, 45, 100, 4095, 4096, 4097, 5000]


class Capture:
    """What one file has in common: this speaker, its peers, and how wild it is."""

    def __init__(self, seed, as4):
        self.random = random.Random(seed)
        self.as4 = as4
        self.local_as = self.asn()
        self.peers = [self.peer(n) for n in range(self.random.choice([1, 2, 3, 8, 70]))]
        self.wild = self.random.choice([0, 0.02, 0.1, 0.3])

    def asn(self):
        if self.as4:
            return self.random.choice([1, 65000, 65536, 4200000000, 4294967295])
        return self.random.choice([1, 65000, 65001, 65535])

    def peer(self, n):
        return self.asn(), (192, 0, 2, n + 1)

    def octets(self, count):
        return bytes(self.random.randrange(256) for _ in range(count))

    def message(self):
        if self.random.random() < 0.9:
            return self.octets(self.random.choice([19, 23, 45]))
        return self.octets(self.random.choice(LENGTHS))

    def chance(self):
        return self.random.random() < self.wild

    def sides(self, as4):
        """AS numbers, interface, family, addresses."""
        width = 4 if as4 else 2
        peer_as, peer = self.random.choice(self.peers)
        local_as, local, family, size = self.local_as, LOCAL, 1, 4
        if self.chance():
            peer_as = 0
        if self.chance():
            local_as = 0
        if self.chance():
            peer = self.random.choice([(0, 1, 2, 3), (127, 0, 0, 1), (224, 0, 0, 1), LOCAL, (223, 255, 255, 255)])
        if self.chance():
            local = self.random.choice([(0, 0, 0, 0), (127, 1, 1, 1), (255, 255, 255, 255), (192, 0, 2, 253)])
        if self.chance():
            family, size = self.random.choice([(2, 16), (3, 4), (0, 4), (257, 4)])
        numbers, interface = (peer_as % 256 ** width, local_as % 256 ** width), int.from_bytes(self.octets(2), 'big')
        if size == 16:
            peer, local = self.octets(16), self.octets(16)
        return made_sides(as4, peer, local, family, *numbers, interface)

    def record(self):
        kind = self.random.choice([16, 16, 17])
        as4 = self.as4 if not self.chance() else not self.as4
        is_state = self.random.random() < 0.25
        subtype = {(False, True): 0, (False, False): 1, (True, True): 5, (True, False): 4}[as4, is_state]
        body = self.octets(4) if kind == 17 else b''
        body += self.sides(as4)
        if is_state:
            body += self.random.randrange(7).to_bytes(2, 'big')
            body += self.random.choice([6, 6, 1, 2, 3, 4, 5, 0, 7, 262]).to_bytes(2, 'big')
        else:
            body += self.message()
        if self.chance():
            kind = self.random.choice([12, 13, 16, 17, 48, 272])
        if self.chance():
            subtype = self.random.randrange(12)
        if self.random.random() < self.wild / 10:
            body = body[:self.random.randrange(len(body) + 1)]
        if self.random.random() < self.wild / 10:
            body += self.octets(self.random.choice([1, 2, 70000]))
        if self.random.random() < self.wild / 10:
            body = b''
        length = len(body)
        if self.random.random() < self.wild / 20:
            length = self.random.choice([0, 4294967295, max(0, length - 1), length + 1])
        return mrt.HEAD.pack(int.from_bytes(self.octets(4), 'big'), kind, subtype, length) + body

    def file(self):
        octets = b''.join(self.record() for _ in range(self.random.choice([0, 1, 2, 5, 30, 200])))
        if self.random.random() < 1 / 3:
            octets = octets[:self.random.randrange(len(octets) + 1)]
        return octets


# ---- files for a case each

def shorter(whole, length):
    """The same record with a body of another length, which its header counts."""
    body = (whole[12:] + b'\x17\x17')[:length]
    return whole[:8] + length.to_bytes(4, 'big') + body


def cuts():
    """A record behind an established session, cut at each octet, and with each length from 0 to two too many."""
    for as4, kind, is_state in itertools.product((False, True), (16, 17), (False, True)):
        before = made_states(as4, 5, 6, kind)
        whole = made_states(as4, 6, 1, kind) if is_state else made_message(as4, b'\xff\x10\x02', kind)
        for place in range(len(whole) + 1):
            yield before + whole[:place], as4
        for length in range(len(whole) - 12 + 3):
            yield before + shorter(whole, length) + before, as4


def odd(as4):
    """The other cases, one file each."""
    up, down, said = made_states(as4, 5, 6), made_states(as4, 6, 1), made_message(as4, b'\x5a' * 19)
    yield b''
    yield b'local 65000 192.0.2.254 192.0.2.254\n'
    yield gzip.compress(up + said, mtime=0)
    yield up + said + down + up + said
    # states of no other number than 6, also those that no standard has
    yield b''.join(made_states(as4, 1, new) for new in (6, 6, 7, 8, 6, 65535, 0x0106, 6, 0, 5))
    yield said + down + said + made_message(as4, b'') + made_message(as4, b'\1' * 4096) + made_message(as4, b'\2' * 4097) + made_message(as4, b'\3' * 70000) + down
    # 70 peers, and the local address as one
    many = [(10, 0, 0, n) for n in range(70)]
    yield b''.join(made_states(as4, 5, 6, peer=peer) for peer in many) + b''.join(made_message(as4, b'\4', peer=peer) for peer in many)
    yield up + made_message(as4, b'\5', peer=LOCAL) + made_states(as4, 5, 6, peer=LOCAL) + said
    # sides the wrong way round, another local side, AS 0, addresses that no speaker has
    yield made_states(as4, 4, 5, peer=LOCAL, local=(192, 0, 2, 1)) + up + said
    yield up + made_message(as4, b'\6', local=(192, 0, 2, 253)) + made_message(as4, b'\7', peer=(0, 0, 0, 0)) + made_message(as4, b'\7', local=(224, 0, 0, 1))
    yield up + made_states(as4, 6, 1, local=(0, 0, 0, 0)) + said
    # other types, subtypes and families between, of any form
    other = [record(kind, subtype, b'\x2a' * size) for kind in (0, 11, 12, 13, 32, 48, 49) for subtype in (0, 1, 4) for size in (0, 3, 60)]
    yield up + b''.join(one + said for one in other)
    yield up + b''.join(record(16, subtype, b'\0' * size) + said for subtype in (2, 3, 6, 7, 8, 9, 10, 11, 255, 256) for size in (0, 40))
    yield up + b''.join(made_message(as4, b'', family=family) + made_states(as4, 5, 1, family=family) for family in (0, 2, 3, 256, 16388)) + said
    yield b''.join(made_states(not as4, 5, 6) + made_message(not as4, b'\x5a' * 19) + said for _ in range(3))
    # lengths that no record has
    for length in (0, 1, 2 ** 31 - 1, 2 ** 31, 2 ** 32 - 13, 2 ** 32 - 1):
        yield up + said[:8] + length.to_bytes(4, 'big') + said[12:]
        yield up + b'\0\0\0\0\0\x0d\0\0' + length.to_bytes(4, 'big') + said


def files(count):
    """Name, octets and width of each file that two programs are compared on."""
    for place, (octets, as4) in enumerate(cuts()):
        yield 'cut %d' % place, octets, as4
    for as4 in (False, True):
        for place, octets in enumerate(odd(as4)):
            yield 'odd %d%s' % (place, ' --as4' * as4), octets, as4
    for seed in range(count):
        yield 'seed %d' % seed, Capture(seed, seed % 2 == 1).file(), seed % 2 == 1


# ---- two programs

def answer(program, octets, as4):
    ran = subprocess.run(program + ['mrt'] + ['--as4'] * as4, input=octets, stdout=subprocess.PIPE, check=False)
    return ran.returncode, ran.stdout


def compare(count, program, other):
    """Says how many files give other lines or another status; the status of this script."""
    wrong, refused, number = 0, collections.Counter(), 0
    for number, (name, octets, as4) in enumerate(files(count), 1):
        ours, theirs = answer(program, octets, as4), answer(other, octets, as4)
        refused[theirs[1].split()[-1].decode() if theirs[0] == 3 else 'status %d' % theirs[0]] += 1
        if ours != theirs:
            wrong += 1
            print('%s: status %d, %d octets; status %d, %d octets' % (name, ours[0], len(ours[1]), theirs[0], len(theirs[1])))
    print('%d files (%s), %d differ' % (number, ', '.join('%d %s' % (seen, what) for what, seen in sorted(refused.items())), wrong))
    return 1 if wrong else 0


# ---- a large file

FIRST = struct.pack('>I', 65001)  # the AS with which paths begin


def wide(said):
    """An UPDATE with AS numbers of four octets."""
    attributes = b''.join(map(wire.attribute, messages.widened(said.attributes)))
    return wire.made_update(b'', attributes, b''.join(octets for _, octets in said.come))


def collected():
    """Records as a collector writes them, without an end."""
    said = [wide(messages.read(update)) for update in feed.updates(200000)]
    rand, clock, up = random.Random(1), 1700000000, set()
    keepalive = wire.message(wire.KEEPALIVE)
    for update in itertools.cycle(said):
        n = rand.randrange(8)
        clock += rand.random() < .05
        where = {'peer': (192, 0, 2, n + 1), 'when': clock}
        if n not in up:
            yield made_states(True, 5, 6, **where)
            up.add(n)
        elif rand.random() < .0001:
            yield made_states(True, 6, 1, **where)
            up.remove(n)
        else:
            yield made_message(True, keepalive if rand.random() < .05 else update.replace(FIRST, struct.pack('>I', 65001 + n), 1), **where)


def large(mib, out):
    left = mib << 20
    for made in collected():
        left -= len(made)
        if left < 0:
            return
        out.write(made)


def told(name, seen):
    print('%-12s %.2f s, %.1f MiB' % (name, seen['seconds'], seen['mib']))
    return seen


def measured(mib, program, runs):
    """What a large file takes; the status of this script."""
    with tempfile.NamedTemporaryFile(suffix='.mrt') as file:
        large(mib, file)
        file.flush()
        ours = told('mrt', measure.median(file, program + ['mrt', '--as4'], runs))
        if not shutil.which('bgpdump'):
            return 0 if ours['mib'] < 8 else 1
        theirs = told('bgpdump -m', measure.median(file, ['bgpdump', '-m', file.name], runs))
        return 0 if ours['mib'] < 8 and ours['seconds'] <= 2 * theirs['seconds'] else 1


def main():
    words = argparse.ArgumentParser(description=__doc__, formatter_class=argparse.RawDescriptionHelpFormatter)
    words.add_argument('seed', type=int, nargs='?', default=0)
    words.add_argument('--as4', action='store_true')
    words.add_argument('--many', nargs=2, metavar=('COUNT', 'FOLDER'))
    words.add_argument('--large', type=int, metavar='MIB')
    words.add_argument('--measure', type=int, metavar='MIB')
    words.add_argument('--runs', type=int, default=3)
    words.add_argument('--compare', type=int, metavar='COUNT')
    words.add_argument('--program', default=program.BUILT)
    words.add_argument('--other')
    asked = words.parse_args()
    if asked.large:
        large(asked.large, sys.stdout.buffer)
    elif asked.measure:
        return measured(asked.measure, asked.program.split(' '), asked.runs)
    elif asked.compare is not None:
        return compare(asked.compare, asked.program.split(' '), asked.other.split(' '))
    elif asked.many:
        for seed in range(int(asked.many[0])):
            with open(os.path.join(asked.many[1], '%d.mrt' % seed), 'wb') as out:
                out.write(Capture(seed, seed % 2 == 1).file())
    else:
        sys.stdout.buffer.write(Capture(asked.seed, asked.as4).file())
    return 0


if __name__ == '__main__':
    sys.exit(main())
