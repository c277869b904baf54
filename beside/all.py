#!/usr/bin/env python3
"""All scenarios beside all daemons that are installed and have results: all.py [--daemons bird,frr,openbgpd,gobgp] [--only WORD] [--keep] [--jobs 3]
                                                      [--program WORDS | --try]

Runs each event file of scenarios/ by run.py on each daemon, and compares what that prints with what is kept in results/. Prints what
differs from the kept result, each difference that is unexplained, and a table: of each daemon its scenarios, comparisons and differences,
and how many differences each line of docs/BGP.md explains. `--keep` keeps the new results.
`--try` needs no built program: `rt try` runs this clone's, without a proof, once for all scenarios.

Statuses: 0; 1 where a result isn't the kept one, or a difference is unexplained; 2 where a run could not compare anything, no scenario has the
WORD, or no daemon is there.
"""
import argparse
import collections
import concurrent.futures
import difflib
import os
import re
import signal
import subprocess
import sys
import tempfile

sys.path.insert(0, os.path.join(os.path.dirname(os.path.abspath(__file__)), '..', 'python'))
from bgp import program
from routers import ROUTERS

HERE = os.path.dirname(os.path.abspath(__file__))
LIMIT = 600  # seconds that one scenario may take
RUNNING = set()
EXPLAINED = re.compile(r'^  .*; (unexplained|".*")$')


def names(only):
    found = sorted(name[:-len('.events')] for name in os.listdir(os.path.join(HERE, 'scenarios')) if name.endswith('.events'))
    return [name for name in found if only in name]


def tried(wanted, folder):
    """Has `rt try` run the program for each scenario; a file with what it printed of each."""
    cases = os.path.join(folder, 'cases')
    os.mkdir(cases)
    for name in wanted:
        with open(os.path.join(cases, name), 'w', encoding='latin-1', newline='\n') as file:
            file.write(program.read(scenario(name))[0])
    ran = subprocess.run(['rt', 'try', '--cases', cases, '--', 'run'], cwd=os.path.join(program.TOP, 'crates', 'replay_main'),
                         stdin=subprocess.DEVNULL, stdout=subprocess.PIPE, stderr=subprocess.PIPE, check=False)
    found = dict(zip(*[iter(re.split(r'^== (.*)\n', ran.stdout.decode('ascii', 'replace'), flags=re.M)[1:])] * 2))
    if set(found) != set(wanted):
        raise OSError('rt try: ' + ran.stderr.decode(errors='replace').strip()[-300:])
    for name, said in found.items():
        with open(os.path.join(folder, name), 'w', encoding='ascii') as file:
            file.write(said)
    return {name: os.path.join(folder, name) for name in wanted}


def scenario(name):
    return os.path.join(HERE, 'scenarios', name + '.events')


def one(daemon, name, words):
    """What run.py prints, and its status. `words` say where the program's output comes from."""
    command = [sys.executable, os.path.join(HERE, 'run.py'), scenario(name), '--daemon', daemon] + words
    with subprocess.Popen(command, stdin=subprocess.DEVNULL, stdout=subprocess.PIPE, stderr=subprocess.PIPE) as ran:
        RUNNING.add(ran)
        try:
            said, against = ran.communicate(timeout=LIMIT)
        except subprocess.TimeoutExpired:
            ran.terminate()
            said, against = ran.communicate()
            against += b'more than %d s' % LIMIT
        RUNNING.discard(ran)
    return said.decode(), against.decode().strip(), ran.returncode


def kept(daemon, name):
    path = os.path.join(HERE, 'results', daemon, name + '.txt')
    if not os.path.exists(path):
        return ''
    with open(path, encoding='ascii') as file:
        return file.read()


def has_results(daemon):
    return os.path.isdir(os.path.join(HERE, 'results', daemon))


def keep(daemon, name, said):
    os.makedirs(os.path.join(HERE, 'results', daemon), exist_ok=True)
    with open(os.path.join(HERE, 'results', daemon, name + '.txt'), 'w', encoding='ascii') as file:
        file.write(said)


class Table:
    """What all runs on one daemon came to."""

    def __init__(self):
        self.counts, self.keys, self.status = collections.Counter(), collections.Counter(), 0

    def take(self, said):
        end = re.search(r'^comparisons (\d+), differences (\d+), unexplained (\d+)$', said, re.M)
        self.counts['scenarios'] += end is not None
        self.counts['not for it'] += said.startswith('not for')
        for word, number in zip(('comparisons', 'differences', 'unexplained'), end.groups() if end else ()):
            self.counts[word] += int(number)
        for line in said.split('\n'):
            found = EXPLAINED.match(line)
            if found:
                self.keys[found.group(1)] += 1

    def told(self, daemon):
        yield '%s %s: %s' % (daemon, ROUTERS[daemon].version(), ', '.join('%s %d' % (word, self.counts[word]) for word in (
            'scenarios', 'not for it', 'comparisons', 'differences', 'unexplained')))
        yield from ('  %4d %s' % (count, key) for key, count in self.keys.most_common())


def judge(asked, daemon, name, table, said, against, status):
    """One run: what is printed of it, and whether it is as it should be."""
    if said.startswith('not for '):
        status = 0
    if status not in (0, 1) or not re.search('^(not for|comparisons) ', said, re.M):
        print('%s beside %s: status %d: %s' % (name, daemon, status, against))
        return 2
    table.take(said)
    before = kept(daemon, name)
    if asked.keep:
        keep(daemon, name, said)
    for line in said.split('\n'):
        if line.endswith('; unexplained'):
            print('%s beside %s:%s' % (name, daemon, line))
    if before == said or asked.keep:
        return status
    print('%s beside %s is not as kept:' % (name, daemon))
    print('\n'.join(list(difflib.unified_diff(before.split('\n'), said.split('\n'), 'kept', 'now', lineterm='', n=0))[2:]))
    return 1


def everything(asked, wanted, tables, printed):
    """All runs, some at once; the status."""
    status = 0
    with concurrent.futures.ThreadPoolExecutor(asked.jobs) as pool:
        runs = []
        for name in names(asked.only):
            words = ['--printed', printed[name]] if printed else ['--program', asked.program]
            runs += [(daemon, name, pool.submit(one, daemon, name, words)) for daemon in wanted]
        try:
            for daemon, name, run in runs:
                status = max(status, judge(asked, daemon, name, tables[daemon], *run.result()))
        except KeyboardInterrupt:
            pool.shutdown(wait=False, cancel_futures=True)
            for ran in list(RUNNING):
                ran.terminate()  # it takes its namespaces away
            raise
    return status


def unfit(wanted, only):
    """Why nothing can be compared; None where something can."""
    unknown = [daemon for daemon in wanted if daemon not in ROUTERS]
    missing = [daemon for daemon in wanted if daemon in ROUTERS and not ROUTERS[daemon].installed()]
    if unknown:
        return 'there is no class for %s in routers.py' % unknown[0]
    if missing or not wanted:
        return "%s isn't installed" % (missing[0] if missing else 'none of ' + ', '.join(ROUTERS))
    if not names(only):
        return 'no scenario has %s in its name' % only
    return 'network namespaces need root' if os.geteuid() else None


def main():
    words = argparse.ArgumentParser(description=__doc__, formatter_class=argparse.RawDescriptionHelpFormatter)
    words.add_argument('--daemons')
    words.add_argument('--only', default='')
    words.add_argument('--keep', action='store_true')
    words.add_argument('--jobs', type=int, default=3)
    words.add_argument('--program', default=program.BUILT)
    words.add_argument('--try', action='store_true', dest='tries')
    asked = words.parse_args()
    for sign in (signal.SIGINT, signal.SIGTERM):
        signal.signal(sign, signal.default_int_handler)
    wanted = asked.daemons.split(',') if asked.daemons else [daemon for daemon in ROUTERS if ROUTERS[daemon].installed() and has_results(daemon)]
    reason = unfit(wanted, asked.only)
    if reason:
        print('all.py: %s' % reason, file=sys.stderr)
        return 2
    tables = {daemon: Table() for daemon in wanted}
    try:
        with tempfile.TemporaryDirectory(prefix='beside-') as folder:
            printed = tried(names(asked.only), folder) if asked.tries else {}
            status = everything(asked, wanted, tables, printed)
    except OSError as error:
        print('all.py: %s' % error, file=sys.stderr)
        return 2
    except KeyboardInterrupt:
        return 130
    for daemon in wanted:
        print('\n'.join(tables[daemon].told(daemon)))
    return status


if __name__ == '__main__':
    sys.exit(main())
