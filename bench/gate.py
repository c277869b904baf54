#!/usr/bin/env python3
"""Where the processor time of a gate goes: gate.py [--json FILE] [--most N] [COMMAND ..]

Runs the command (`.ci/run` of this repository if there is none) and looks at its processes, once a second. In the end a table has
the processor seconds of each crate, most first: of its proof, of its must-fail edits and of its tests; then their sums, and what
the command took in all, user and system, as the system counts it. `beside` is the difference: the programs that were built and ran,
what was copied, and the last moment of each process, which no look saw. --most leaves out all crates behind the first N, and
--json writes all of it. The status is the command's.

It looks at Linux's /proc. A figure of a gate from nothing needs a machine with nothing beside it; results of earlier runs that
`rt ci` takes over count nothing here.
"""
import argparse
import collections
import json
import os
import resource
import subprocess
import sys
import time

TOP = os.path.realpath(os.path.join(os.path.dirname(os.path.abspath(__file__)), '..'))
PROVER = 'rattle'
KINDS = ('proof', 'edits', 'tests')
TICK = os.sysconf('SC_CLK_TCK')


def read(path):
    with open(path, encoding='utf-8', errors='replace') as file:
        return file.read()


def kind_of(words, folder):
    """What a prover's process does, by its words and its folder: rt copies a crate to where it tries an edit."""
    if os.path.basename(folder).startswith('rt-edit'):
        return 'edits'
    return 'tests' if any(it.endswith('_tests.o') for it in words) else 'proof'


class Seen:
    """The provers' processes below one process, by number and start."""

    def __init__(self, root):
        self.root, self.processes = root, {}

    def look(self):
        stats = {}
        for number in filter(str.isdigit, os.listdir('/proc')):
            try:
                name, _, rest = read(f'/proc/{number}/stat').partition('(')[2].rpartition(')')
                stats[int(number)] = (name, rest.split())
            except OSError:
                continue
        parents = {number: int(fields[1]) for number, (_, fields) in stats.items()}
        for number, (name, fields) in stats.items():
            if name == PROVER and self.is_below(number, parents):
                self.take(number, fields)

    def is_below(self, number, parents):
        while number > 1 and number != self.root:
            number = parents.get(number, 0)
        return number == self.root

    def take(self, number, fields):
        key = (number, fields[19])
        if key not in self.processes:
            try:
                words = read(f'/proc/{number}/cmdline').split('\0')
                folder = os.readlink(f'/proc/{number}/cwd')
            except OSError:
                return
            crate = words[words.index('--crate-name') + 1] if '--crate-name' in words else '-'
            self.processes[key] = [crate, kind_of(words, folder), 0.0]
        self.processes[key][2] = (int(fields[11]) + int(fields[12])) / TICK


def told(seen, used, wall):
    """The seconds by crate and kind, the sums, and what the command took."""
    crates = collections.defaultdict(lambda: dict.fromkeys(KINDS, 0.0))
    for crate, kind, seconds in seen.processes.values():
        crates[crate][kind] += seconds
    sums = {kind: sum(it[kind] for it in crates.values()) for kind in KINDS}
    return {'crates': crates, 'sums': sums, 'all': used, 'beside': used - sum(sums.values()), 'wall': wall}


def show(result, most):
    order = sorted(result['crates'].items(), key=lambda it: -sum(it[1].values()))
    print(f'{"crate":24}{"proof":>9}{"edits":>9}{"tests":>9}  seconds of a processor')
    for crate, row in order[:most]:
        print(f'{crate:24}' + ''.join(f'{row[kind]:9.0f}' for kind in KINDS))
    print(f'{"all crates":24}' + ''.join(f'{result["sums"][kind]:9.0f}' for kind in KINDS))
    print(f'the command: {result["all"] / 60:.1f} minutes of a processor in {result["wall"] / 60:.1f}; beside the crates {result["beside"] / 60:.1f}')


def main():
    parser = argparse.ArgumentParser(description=__doc__, formatter_class=argparse.RawDescriptionHelpFormatter)
    parser.add_argument('--json')
    parser.add_argument('--most', type=int)
    parser.add_argument('command', nargs=argparse.REMAINDER)
    given = parser.parse_args()
    command = given.command or [os.path.join(TOP, '.ci', 'run')]
    began = time.monotonic()
    with subprocess.Popen(command, cwd=None if given.command else TOP) as child:
        seen = Seen(child.pid)
        while True:
            seen.look()
            try:
                child.wait(timeout=1)
                break
            except subprocess.TimeoutExpired:
                continue
    used = resource.getrusage(resource.RUSAGE_CHILDREN)
    result = told(seen, used.ru_utime + used.ru_stime, time.monotonic() - began)
    show(result, given.most)
    if given.json:
        with open(given.json, 'w', encoding='utf-8') as file:
            json.dump(result, file, indent=1)
    return child.returncode


if __name__ == '__main__':
    sys.exit(main())
