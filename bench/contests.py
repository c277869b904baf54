#!/usr/bin/env python3
"""Event files at random in which several peers have routes to the same few prefixes, and two programs compared on them:

contests.py SEED > FILE
contests.py --compare 300 --other 'COMMAND' [--first 1] [--jobs 2] [--program 'COMMAND'] [--keep FOLDER]

A file has two to six peers, some of them internal and some of one neighbour AS, and five prefixes. Routes differ in what the
decision compares, and are announced, replaced, sent again and withdrawn; sessions are lost and come back; filters of both sides are
edited, also in the middle of their walks; metrics to next hops change, and next hops are lost; static routes to the same prefixes come,
go and are redistributed; peers ask for all routes again; in half of the files this speaker is a route reflector. Work is done in small
slices, and between them is asked what stands where. No line is refused. In every third file routes differ in the later steps of the
decision alone, so that a MULTI_EXIT_DISC often keeps others out.

Both programs run each of so many seeds, from the first one on, with `run` and with `run --quiet`: outputs and statuses have to be equal,
and the program's own `check` has to call its output lawful. The program is the one that the gate built, and COMMAND any other with the
same words, to which `run` and `check` are put behind. A file that fails is kept, with both outputs. The status is 1 where one fails.
"""
import argparse
import concurrent.futures
import os
import random
import shlex
import socket
import sys
import tempfile

import everywhere
import events

sys.path.insert(0, os.path.join(everywhere.TOP, 'python'))
from bgp import wire

PREFIXES = ['10.1.0.0/16', '10.2.0.0/16', '10.3.0.0/16', '10.1.128.0/17', '10.0.0.0/8']
HOPS = ['192.0.2.1', '192.0.2.2', '192.0.2.3', '198.51.100.1']
LOCAL, LOCAL_AS = '192.0.2.254', 65000
RULES = ['any reject', 'any pref 200 accept', 'any pref 50 next', 'any med 1 accept', 'any nomed accept', 'any prepend 1 next',
         'path 65009 reject', 'path 65010 pref 150 accept', 'origin 0 reject', 'origin 1 med 0 next']
# what comes how often: the names of the methods that make a line
KINDS = {'announcement': 30, 'again': 6, 'withdrawal': 10, 'session': 7, 'incoming': 6, 'outgoing': 4, 'metric': 5, 'static': 4,
         'loss': 1, 'redistribution': 4, 'refresh': 2, 'work': 30, 'ask': 8, 'settled': 5, 'show': 2, 'idle': 2}


class Contest:
    """One file: its peers, what they have said, and which of them are up."""

    def __init__(self, seed):
        self.random, self.are_alike = random.Random(seed), seed % 3 == 0
        self.reflects = self.random.random() < .5
        self.peers = range(1, self.random.randint(2, 6) + 1)
        mixed = self.random.choice([[65001, 65001, 65001, 65002], [65001, 65002, LOCAL_AS], [65001, LOCAL_AS, LOCAL_AS]])
        self.asns = {k: self.random.choice(mixed + [65000 + k]) for k in self.peers}
        self.sessions, self.up = {k: 0 for k in self.peers}, set()
        self.said = []

    def lines(self):
        """The lines of the file."""
        yield from ['reflect'] * self.reflects
        yield events.LOCAL
        for k in self.peers:
            client = ' client' * (self.reflects and self.asns[k] == LOCAL_AS and self.random.random() < .5)
            yield 'peer %d %d 192.0.2.%d 192.0.2.%d%s' % (k, self.asns[k], self.random.randint(1, 5), k, client)
        if self.random.random() < .85:
            yield 'route add connected 192.0.2.0/24 direct eth0 1'
        for k in self.peers:
            if self.random.random() < .9:
                yield self.begin(k)
        for _ in range(self.random.randint(40, 140)):
            yield getattr(self, self.random.choices(list(KINDS), KINDS.values())[0])()
        yield 'idle'
        yield from ['show best', 'show fib'] + ['show adv.%d.%d' % (k, self.sessions[k]) for k in sorted(self.up)]

    def peer(self):
        return self.random.choice(self.peers)

    def speaker(self):
        """A peer that is up, as a rule."""
        return self.random.choice(sorted(self.up)) if self.up and self.random.random() < .98 else self.peer()

    def prefix(self):
        return self.random.choice(PREFIXES)

    def begin(self, k):
        self.sessions[k] += 1
        self.up.add(k)
        return 'up %d' % k

    def session(self):
        k = self.peer()
        if k not in self.up:
            return self.begin(k)
        self.up.discard(k)
        return 'down %d' % k

    def numbers(self, k):
        """The AS numbers of a path: now and then this speaker's, whose route is rejected."""
        if self.are_alike:
            return [self.asns[k] if self.asns[k] != LOCAL_AS else self.random.choice([65001, 65002]), 65009]
        first = [self.asns[k]] if self.asns[k] != LOCAL_AS else self.random.choice([[], [65001], [65002]])
        return first + self.random.choices([65009, 65010, LOCAL_AS], [12, 12, 1], k=self.random.choice([0, 1, 1, 1, 2]))

    def attributes(self, k):
        """What the decision compares, at random."""
        numbers = self.numbers(k)
        yield 0x40, wire.ORIGIN, bytes([self.random.choice([0, 0, 0, 0, 1, 2]) if not self.are_alike else 0])
        yield 0x40, wire.AS_PATH, wire.path_octets([(wire.AS_SEQUENCE, numbers)] if numbers else [], 2)
        yield 0x40, wire.NEXT_HOP, socket.inet_aton(self.random.choices(HOPS + [LOCAL], [8, 8, 8, 4, 1])[0])
        if self.random.random() < .8:
            yield 0x80, wire.MED, bytes([0, 0, 0, self.random.randint(0, 2)])
        if self.asns[k] == LOCAL_AS and not self.are_alike and self.random.random() < .6:
            yield 0x40, wire.LOCAL_PREF, bytes([0, 0, 0, self.random.choice([100, 100, 100, 150])])
        if self.asns[k] == LOCAL_AS and self.random.random() < .5:
            yield 0x80, wire.ORIGINATOR_ID, bytes([192, 0, 2, self.random.choice([1, 2, 3, 3, 254])])
        if self.asns[k] == LOCAL_AS and self.random.random() < .4:
            count = self.random.randint(1, 2)
            yield 0x80, wire.CLUSTER_LIST, bytes([192, 0, 2, self.random.randint(7, 9)]) * count

    def update(self, k, gone, come):
        said = b''.join(wire.attribute(wire.Attribute(*one)) for one in self.attributes(k)) if come else b''
        gone, come = (b''.join(map(wire.prefix_octets, found)) for found in (gone, come))
        return 'bgp %d %s' % (k, wire.made_update(gone, said, come).hex())

    def some(self, most):
        return self.random.sample(PREFIXES, self.random.randint(1, most))

    def announcement(self):
        self.said.append(self.update(self.speaker(), self.some(2) if self.random.random() < .1 else [], self.some(4)))
        return self.said[-1]

    def again(self):
        return self.random.choice(self.said) if self.said else self.announcement()

    def withdrawal(self):
        return self.update(self.speaker(), self.some(3), [])

    def refresh(self):
        return 'bgp %d %s' % (self.speaker(), wire.REFRESH.hex())

    def rules(self):
        rules = [self.random.choice(RULES + ['%s ge 8 le 24 %s' % (self.prefix(), self.random.choice(['reject', 'pref 300 accept']))])
                 for _ in range(self.random.choice([0, 1, 1, 2]))]
        return ''.join(' ' + rule for rule in rules)

    def incoming(self):
        return 'filter in %d%s' % (self.peer(), self.rules())

    def outgoing(self):
        return 'filter out %d%s' % (self.peer(), self.rules())

    def metric(self):
        """A route to a next hop comes, changes or goes."""
        where = self.random.choice([hop + '/32' for hop in HOPS] + ['192.0.2.0/24', '0.0.0.0/0'])
        if self.random.random() < .25:
            return 'route del ospf ' + where
        return 'route add ospf %s direct eth%d %d' % (where, self.random.randint(0, 1), self.random.randint(1, 3))

    def static(self):
        """An interior route to a prefix of the peers comes or goes."""
        if self.random.random() < .4:
            return 'route del static ' + self.prefix()
        return 'route add static %s via 192.0.2.9 eth0 %d' % (self.prefix(), self.random.randint(1, 2))

    def loss(self):
        return 'lost ' + self.random.choice(['static', 'ospf', 'connected'])

    def redistribution(self):
        return 'redist %s %s' % (self.random.choice(['static', 'static', 'ospf', 'connected']), self.random.choice(['on', 'on', 'off']))

    def work(self):
        k = self.peer()
        lost = 'del.%d.%d' % (k, max(1, self.sessions[k] - self.random.choice([0, 1, 1, 2])))
        task = self.random.choice(['out.%d' % k] * 4 + ['fin.%d' % k] * 3 + ['nh.%d' % k] * 3 + ['red', 'red', 'rd.rib', 'rd.rib', 'ext']
                                  + [lost] * 2 + ['ref.%d' % k, 'rdel.ospf.1', 'rdel.static.1'])
        return 'work %s %d' % (task, self.random.choice([1, 1, 1, 2, 3, 9]))

    def link(self):
        k = self.peer()
        session = max(1, self.sessions[k])
        return self.random.choice(['best'] * 6 + ['read.rib', 'red', 'fib', 'ext', 'in.%d' % k, 'filt.%d' % k, 'res.%d' % k]
                                  + ['%s.%d.%d' % (name, k, session) for name in ('read', 'outf', 'adv', 'peer')])

    def ask(self):
        return 'ask %s %s' % (self.link(), self.prefix())

    def show(self):
        return 'show ' + self.link()

    def settled(self):
        return 'settled ' + self.prefix()

    def idle(self):
        return 'idle'


def text(seed):
    return ''.join(line + '\n' for line in Contest(seed).lines()).encode()


def compared(seed, program, other, folder):
    """What is wrong with a seed, if anything."""
    given = text(seed)
    for words in (['run'], ['run', '--quiet']):
        ours, theirs = everywhere.run(program, words, given), everywhere.run(other, words, given)
        wrong = everywhere.difference(ours, theirs)
        if not wrong and ours[0]:
            wrong = 'status %d' % ours[0]
        if not wrong and words == ['run'] and everywhere.run(program, ['check'], ours[1]) != (0, b'lawful\n'):
            wrong = 'not lawful'
        if wrong:
            kept = everywhere.keep(folder or tempfile.mkdtemp(prefix='contests-'), str(seed), events=given, ours=ours[1], theirs=theirs[1])
            return '%s: %s (%s)' % (' '.join(words), wrong, kept)
    return None


def main():
    words = argparse.ArgumentParser(description=__doc__, formatter_class=argparse.RawDescriptionHelpFormatter)
    words.add_argument('seed', type=int, nargs='?', default=1)
    words.add_argument('--compare', type=int, metavar='COUNT')
    words.add_argument('--first', type=int, default=1, metavar='SEED')
    words.add_argument('--jobs', type=int, default=1, help='so many processes of each program at once')
    words.add_argument('--program', default=[everywhere.REPLAY], type=shlex.split, metavar='COMMAND')
    words.add_argument('--other', type=shlex.split, metavar='COMMAND')
    words.add_argument('--keep', metavar='FOLDER')
    asked = words.parse_args()
    if asked.compare is None:
        sys.stdout.buffer.write(text(asked.seed))
        return 0
    seeds = range(asked.first, asked.first + asked.compare)
    with concurrent.futures.ThreadPoolExecutor(asked.jobs) as pool:
        found = list(pool.map(lambda seed: compared(seed, asked.program, asked.other, asked.keep), seeds))
    failed = [(seed, wrong) for seed, wrong in zip(seeds, found) if wrong]
    for seed, wrong in failed:
        print('%d: %s' % (seed, wrong))
    print('%d files: %d passed, %d failed' % (len(found), len(found) - len(failed), len(failed)))
    return 1 if failed else 0


if __name__ == '__main__':
    sys.exit(main())
