#!/usr/bin/env python3
"""What the question costs whether a prefix is settled:
settled.py [--routes 200000] [--questions 100000] [--runs 5] [--tables same,apart] [--whole] [-- PROGRAM ..]

Eight peers announce so many routes in all. Then so many `settled PREFIX` are asked at prefixes of these, drawn by chance, and as many
`ask best PREFIX` at the same ones. A figure is the CPU seconds of `run --quiet` that the questions alone take, the median of some
rounds in one run; the table is one of these:

  same      each peer announces the same prefixes, an eighth of so many; all is read and sent: each answer is `yes`, by asking all
  apart     each peer announces an eighth of them
  unread    as `same`, but nothing is read: each answer is `no`
  lost      as `same`, and sixteen lost tables of a protocol stand: each is asked about the next hop of each peer's route

Behind them stands how many requests for memory a run makes, of the table `same`, without and with the questions, which a library
counts that `cc` builds. The built program runs, or PROGRAM with the words behind it. --whole is for one that reads all of its input
before it answers: then a figure is what the file with the questions takes longer than the one without.
"""
import argparse
import itertools
import os
import random
import re
import statistics
import subprocess
import sys
import tempfile

import events
import measure
from bgp import feed, wire

TOP = os.path.join(os.path.dirname(os.path.abspath(__file__)), '..')
REPLAY = os.path.join(TOP, 'crates', 'replay_main', 'out', 'replay_main')
PEERS, LOSSES = 8, 16
TABLES = ('same', 'apart', 'unread', 'lost')
KINDS = ('settled', 'ask best')

COUNTER = r'''
#include <errno.h>
#include <stdio.h>
#include <stdlib.h>
extern void *__libc_malloc(size_t);
extern void *__libc_calloc(size_t, size_t);
extern void *__libc_realloc(void *, size_t);
extern void *__libc_memalign(size_t, size_t);
static long requests;
__attribute__((destructor)) static void end(void) { dprintf(2, "requests=%ld\n", requests); }
void *malloc(size_t size) { requests++; return __libc_malloc(size); }
void *calloc(size_t count, size_t size) { requests++; return __libc_calloc(count, size); }
void *realloc(void *old, size_t size) { requests++; return __libc_realloc(old, size); }
void *aligned_alloc(size_t align, size_t size) { requests++; return __libc_memalign(align, size); }
int posix_memalign(void **given, size_t align, size_t size) {
    requests++;
    *given = __libc_memalign(align, size);
    return *given ? 0 : ENOMEM;
}
'''


def announced(message):
    """The prefixes that an UPDATE announces which withdraws none."""
    at = 23 + int.from_bytes(message[21:23], 'big')
    while at < len(message):
        behind = at + 1 + (message[at] + 7) // 8
        octets = message[at + 1:behind] + bytes(4 - (behind - at - 1))
        yield '%s/%d' % (wire.address(octets), message[at])
        at = behind


def messages(kind, count):
    """Pairs of a peer's number and its message."""
    for k in range(1, PEERS + 1):
        via = [] if k == 1 else [65000 + k]
        if kind == 'apart':
            said = itertools.islice(feed.updates(count, via=via), k - 1, None, PEERS)
        else:
            said = feed.updates(count // PEERS, via=via)
        yield from ((k, message) for message in said)


def table(kind, count):
    """The lines of a table, and the prefixes in it."""
    lines = [events.LOCAL] + list(events.peers(PEERS, 0, 0))
    found = {}
    for k, message in messages(kind, count):
        lines.append('bgp %d %s' % (k, message.hex()))
        found.update(dict.fromkeys(announced(message)))
    if kind != 'unread':
        lines.append('idle')
    if kind == 'lost':
        for place in range(LOSSES):
            lines += ['route add ospf 203.0.113.%d/32 direct eth0 1' % place, 'lost ospf']
    return octets(lines), list(found)


def octets(lines):
    return [line.encode() + b'\n' for line in lines]


def drawn(known, count):
    """So many questions of each kind, at the same prefixes."""
    rand = random.Random(2)
    asked = [rand.choice(known) for _ in range(count)]
    return {kind: octets('%s %s' % (kind, prefix) for prefix in asked) for kind in KINDS}


def in_one_run(program, lines, asked, runs):
    """Seconds of each round, by kind: between two lines that the program prints it answers the questions."""
    order = [kind for _ in range(runs) for kind in KINDS]
    parts = [lines + [events.LOOK]] + [asked[kind] + [events.LOOK] for kind in order]
    ends = [seen['seconds'] for seen in measure.stops(parts, program + ['run', '--quiet'], events.LOOKED)]
    took = {kind: [] for kind in KINDS}
    for kind, before, behind in zip(order, ends, ends[1:]):
        took[kind].append(behind - before)
    return took


def in_whole_runs(program, lines, asked, runs):
    """The same by what a file with the questions takes longer."""
    took = {kind: [] for kind in KINDS}
    with tempfile.TemporaryFile() as file:
        for _ in range(runs):
            alone = seconds(program, lines, file)
            for kind in KINDS:
                took[kind].append(seconds(program, lines + asked[kind], file) - alone)
    return took


def given(lines, file):
    file.seek(0)
    file.truncate()
    file.writelines(lines)
    file.flush()
    file.seek(0)
    return file


def seconds(program, lines, file):
    taken, _, status = measure.once(given(lines, file), program + ['run', '--quiet'])
    if status:
        raise RuntimeError('status %d' % status)
    return taken


def requests(program, lines, folder):
    """How many requests for memory a run makes."""
    library = os.path.join(folder, 'counter.so')
    if not os.path.exists(library):
        source = os.path.join(folder, 'counter.c')
        with open(source, 'w', encoding='ascii') as file:
            file.write(COUNTER)
        subprocess.run(['cc', '-O1', '-fno-builtin', '-shared', '-fPIC', '-o', library, source], check=True)
    with tempfile.TemporaryFile() as file:
        ran = subprocess.run(program + ['run', '--quiet'], stdin=given(lines, file), stdout=subprocess.DEVNULL, stderr=subprocess.PIPE,
                             env=dict(os.environ, LD_PRELOAD=library), check=True)
    return int(re.findall(rb'^requests=(\d+)$', ran.stderr, re.M)[-1])


def tell_seconds(program, asked):
    print('| Table | ' + ' | '.join('`%s`' % kind for kind in KINDS) + ' | beside it |')
    print('|---' * (len(KINDS) + 2) + '|')
    for kind in asked.tables:
        lines, known = table(kind, asked.routes)
        took = (in_whole_runs if asked.whole else in_one_run)(program, lines, drawn(known, asked.questions), asked.runs)
        middle = {name: statistics.median(rounds) for name, rounds in took.items()}
        beside = middle['settled'] / middle['ask best'] if middle['ask best'] > 0 else float('nan')
        print('| `%s` | %s | %.2f |' % (kind, ' | '.join('%.3f' % middle[name] for name in KINDS), beside), flush=True)


def tell_requests(program, asked):
    lines, known = table('same', asked.routes)
    questions = drawn(known, asked.questions)
    with tempfile.TemporaryDirectory() as folder:
        alone = requests(program, lines, folder)
        print('\nrequests for memory: %d without questions' % alone)
        for kind in KINDS:
            more = requests(program, lines + questions[kind], folder) - alone
            print('  %d more with %d `%s`' % (more, asked.questions, kind), flush=True)


def main():
    words = argparse.ArgumentParser(description=__doc__, formatter_class=argparse.RawDescriptionHelpFormatter)
    words.add_argument('--routes', type=int, default=200000)
    words.add_argument('--questions', type=int, default=100000)
    words.add_argument('--runs', type=int, default=5)
    words.add_argument('--tables', type=lambda names: names.split(','), default=TABLES, help='some of ' + ','.join(TABLES))
    words.add_argument('--whole', action='store_true')
    words.add_argument('program', nargs='*', metavar='PROGRAM', default=[REPLAY])
    asked = words.parse_args()
    program = asked.program
    print('%d routes, %d questions, load %.1f' % (asked.routes, asked.questions, os.getloadavg()[0]))
    tell_seconds(program, asked)
    tell_requests(program, asked)


if __name__ == '__main__':
    sys.exit(main())
