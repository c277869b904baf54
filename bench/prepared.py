#!/usr/bin/env python3
"""What captures/prepare.py takes: prepared.py [--records 1000000] [--runs 3] [--kinds plain,narrow,paths,dump] [--program WORDS]

Each kind is a file of so many records, with eight peers, about five prefixes an UPDATE, some keepalives, and sessions that end and begin:

  plain    AS numbers of four octets: nothing has to be put right
  narrow   the same with AS numbers of two octets
  paths    the same as plain with path identifiers
  dump     a table dump of so many prefixes, each with a route of one peer

In each round, on one file after the other, `prepare.py --quiet` and `bgpdump -m` (Debian's `bgpdump`); printed are medians of CPU seconds, and
peak memory.

Then prepare.py FILE | mrt --as4 | idle.py 10000 | run --quiet over a fifth of the records and over all, of 1,000 prefixes in all: peak memory of
each of the four. The status is 1 where prepare.py takes more than half of the time of bgpdump over `plain`, one of the pipe takes 64 MiB, or `run`
more than 2 MiB more over all than over a fifth.
"""
import argparse
import itertools
import os
import random
import shutil
import statistics
import struct
import subprocess
import sys
import tempfile

HERE = os.path.dirname(os.path.abspath(__file__))
sys.path.insert(0, os.path.join(HERE, '..', 'python'))
import measure
from bgp import dumps, feed, messages, mrt, program, wire

CAPTURES = os.path.join(HERE, '..', 'captures')
PREPARE, IDLE = [sys.executable, os.path.join(CAPTURES, 'prepare.py')], [sys.executable, os.path.join(CAPTURES, 'idle.py')]
PEERS, PREFIXES, MOST, GROWTH = 8, 200000, 64, 2  # MiB
KEEPALIVE = wire.message(wire.KEEPALIVE)
# a small process that becomes a command, and notes its CPU seconds, peak memory and status in a file (measure.STARTER says why)
STARTER = """
import os, sys
pid = os.fork()
if pid == 0:
    os.execvp(sys.argv[2], sys.argv[2:])
os.close(0), os.close(1)
_, status, used = os.wait4(pid, 0)
with open(sys.argv[1], 'w') as file:
    print(used.ru_utime + used.ru_stime, used.ru_maxrss / 1024, os.waitstatus_to_exitcode(status), file=file)
"""


def said_by(number, count, kind):
    """The UPDATEs of a peer over so many prefixes."""
    for octets in feed.updates(count, [bytes([192, 0, 2, number])], [], 2 if kind == 'narrow' else 4, 65000 + number):
        said = messages.read(octets)
        front = struct.pack('>I', 7) if kind == 'paths' else b''
        yield wire.made_update(b'', b''.join(map(wire.attribute, said.attributes)), b''.join(front + prefix for _, prefix in said.come))


def updates(count, kind, prefixes):
    """So many records of one kind, as a collector writes them."""
    said = [itertools.cycle(list(said_by(number, prefixes, kind))) for number in range(1, PEERS + 1)]
    rand, clock, up = random.Random(1), 1700000000, set()
    is_wide, subtype = kind != 'narrow', mrt.MESSAGE_AS4_ADDPATH if kind == 'paths' else None
    for _ in range(count):
        number = rand.randrange(PEERS)
        where = {'peer': (192, 0, 2, number + 1), 'peer_as': 65001 + number, 'when': clock}
        clock += rand.random() < .05
        if number not in up:
            up.add(number)
            yield mrt.made_states(is_wide, 5, 6, **where)
        elif rand.random() < .0001:
            up.remove(number)
            yield mrt.made_states(is_wide, 6, 1, **where)
        elif rand.random() < .05:
            yield mrt.made_message(is_wide, KEEPALIVE, **where)
        else:
            yield mrt.made_message(is_wide, next(said[number]), subtype=subtype, **where)


def dumped(count):
    """A table dump of so many prefixes, in turn of each peer."""
    yield dumps.made_index([dumps.Peer(65000 + number, bytes([192, 0, 2, number])) for number in range(1, PEERS + 1)], when=1700000000)
    left, places = count, itertools.cycle(range(PEERS))
    for octets in feed.updates(count, [bytes([192, 0, 2, 1])], [], 4):
        said = messages.read(octets)
        attributes = b''.join(map(wire.attribute, said.attributes))
        for _, prefix in said.come[:left]:
            yield dumps.made_rib(mrt.RIB_IPV4, prefix, [dumps.Entry(next(places), None, attributes)], when=1700000000)
        left -= len(said.come[:left])


def written(path, records):
    with open(path, 'wb') as file:
        for octets in records:
            file.write(octets)
    return os.path.getsize(path) / 2 ** 20


def beside(kind, path, size, runs):
    """Prints what both take of one file; whether prepare.py takes at most half of the time."""
    commands = {'prepare.py': PREPARE + ['--quiet', path]}
    if shutil.which('bgpdump'):
        commands['bgpdump -m'] = ['bgpdump', '-m', path]
    seen = {name: [] for name in commands}
    with open(os.devnull, 'rb') as nothing:
        for _ in range(runs):
            for name, command in commands.items():
                seen[name].append(measure.checked(nothing, ['sh', '-c', 'exec "$@" 2> /dev/null', 'sh'] + command))
    taken = {name: measure.middle(found) for name, found in seen.items()}
    ours, theirs = taken['prepare.py'], taken.get('bgpdump -m')
    print('| `%s` | %.0f | %.1f | %.1f | %s |' % (kind, size, ours['seconds'], ours['mib'], '%.1f | %.1f | %.2f' % (
        theirs['seconds'], theirs['mib'], statistics.median(a['seconds'] / b['seconds'] for a, b in zip(*seen.values()))) if theirs else ' | | '), flush=True)
    return not theirs or ours['seconds'] <= theirs['seconds'] / 2


def piped(path, command, folder):
    """The MiB and CPU seconds of each process of the pipe."""
    stages = [PREPARE + ['--quiet', path], command + ['mrt', '--as4'], IDLE + ['10000'], command + ['run', '--quiet']]
    started, before = [], None
    for place, words in enumerate(stages):
        is_last = place == len(stages) - 1
        started.append(subprocess.Popen([sys.executable, '-S', '-E', '-I', '-c', STARTER, os.path.join(folder, str(place))] + words,
                                        stdin=before or subprocess.DEVNULL, stdout=subprocess.DEVNULL if is_last else subprocess.PIPE))
        if before:
            before.close()
        before = started[-1].stdout
    for one in started:
        one.wait()
    found = []
    for place, words in enumerate(stages):
        with open(os.path.join(folder, str(place)), encoding='ascii') as file:
            seconds, mib, status = file.read().split()
        if int(status):
            raise RuntimeError('%s: status %s' % (' '.join(words), status))
        found.append((float(mib), float(seconds)))
    return found


def main():
    words = argparse.ArgumentParser(description=__doc__, formatter_class=argparse.RawDescriptionHelpFormatter)
    words.add_argument('--records', type=int, default=1000000)
    words.add_argument('--runs', type=int, default=3)
    words.add_argument('--kinds', default='plain,narrow,paths,dump')
    words.add_argument('--program', default=program.BUILT)
    asked, good = words.parse_args(), True
    command = asked.program.split(' ')
    with tempfile.TemporaryDirectory(prefix='prepared-') as folder:
        path = os.path.join(folder, 'one.mrt')
        print('| Records | MiB | `prepare.py`, s | MiB | `bgpdump -m`, s | MiB | Beside it |\n|---|---|---|---|---|---|---|')
        for kind in asked.kinds.split(','):
            size = written(path, dumped(asked.records) if kind == 'dump' else updates(asked.records, kind, PREFIXES))
            good = (beside(kind, path, size, asked.runs) or kind != 'plain') and good
        if not shutil.which(command[0]):
            print('prepared.py: %s is not there: no pipe' % command[0], file=sys.stderr)
            return 2
        print('\n| Records | `prepare.py`, MiB | `mrt` | `idle.py` | `run` | CPU, s |\n|---|---|---|---|---|---|')
        grown = []
        for count in (asked.records // 5, asked.records):
            written(path, updates(count, 'plain', 1000))
            found = piped(path, command, folder)
            grown.append(found[-1][0])
            good = good and all(mib < MOST for mib, _ in found)
            print('| %s | %s | %.1f |' % (format(count, ','), ' | '.join('%.1f' % mib for mib, _ in found), sum(seconds for _, seconds in found)), flush=True)
    return 0 if good and grown[1] - grown[0] <= GROWTH else 1


if __name__ == '__main__':
    sys.exit(main())
