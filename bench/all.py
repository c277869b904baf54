#!/usr/bin/env python3
"""Measures everything, and prints one table: all.py [--runs 5] [--sizes 50000,200000,800000] [--rows table,loss] [--json FILE]

It builds nothing: a program that isn't built is named, and its rows are left out (README.md says how each is built); --program names
another one than the built `replay`. A row is a piece of work at a number of routes. A row of an event file is measured in rounds: in
each round each such row, and at each size first the program and then, on the same event file, an older build (--before FILE) and the
real daemons (bird2, frr, openbgpd) that are installed and can do it (played.py); these need root. The other rows are parts of the
program, each measured by itself.

A figure is CPU seconds of user and system, the least and the median of the runs, and peak memory in MiB, the most of them (in three
rows the memory at that moment, of one run). Behind the program's stand its median beside that of `table` at the same size, and how much
longer it takes than at the size before, by route (1.0 would be linear); behind what stands beside it, how many times as much CPU (by the
leasts, by the medians) and memory the program takes. With `perf` a profile of `table` stands below. All of it goes to a JSON file too.

Figures of different machines don't compare, nor do those of a busy machine: the load when it began is printed with them.
"""
import argparse
import collections
import contextlib
import json
import os
import platform
import shutil
import subprocess
import sys
import tempfile

sys.path.insert(0, os.path.join(os.path.dirname(os.path.abspath(__file__)), '..', 'python'))
import daemons
import events
import measure
import played
from bgp import namespaces, session

TOP = os.path.join(os.path.dirname(os.path.abspath(__file__)), '..')
STEPS = ['puts', 'gets', 'matches', 'walk', 'removals']
PACKAGES = {'bird': 'bird2', 'frr': 'frr', 'openbgpd': 'openbgpd'}
QUIET = ['run', '--quiet']

# a row of an event file: its kind, how many peers there are (of `senders` and `many`: that send), the share of the routes that one of
# them announces, and the words of the program
Row = collections.namedtuple('Row', 'kind number share words')
SEVERAL = {'peers': [('peers', 8, 8)], 'best_lost': [('best_lost', 8, 8)], 'senders': [('senders_8', 8, 8), ('senders_32', 32, 32)],
           'many': [('many_8', 8, 8), ('many_32', 32, 32)], 'exits': [('exits', 64, 20)]}
ROWS = {name: Row(kind, number, share, QUIET) for kind in events.KINDS for name, number, share in SEVERAL.get(kind, [(kind, 1, 1)])}
ROWS['journal'] = Row('table', 1, 1, ['run'])


def built(name):
    return os.path.join(TOP, 'crates', name, 'out', name)


class Files:
    """Event files by kind, number of peers and size, each written when it is first asked for."""

    def __init__(self, folder):
        self.folder, self.made = folder, {}

    def of(self, row, size):
        key = row.kind, row.number, size
        if key not in self.made:
            self.made[key] = open(os.path.join(self.folder, '%s-%d-%d' % key), 'w+b')
            events.write(row.kind, size // row.share, self.made[key], row.number)
        return self.made[key]

    def table(self, size):
        return self.of(ROWS['table'], size)


def contestants(asked, row, file, beside):
    """Who does a row: the name, and what measures it once."""
    if os.path.exists(asked.program):
        yield 'program', lambda: measure.checked(file, [asked.program] + row.words)
    if asked.before:
        yield 'before', lambda: measure.checked(file, [asked.before] + row.words)
    for name, start, config in beside:
        if row.words == QUIET and row.kind in played.KINDS[name]:
            yield name, lambda: played.measure(name, start, config, file)


def work_of_event_files(asked, files, beside):
    """The rows of event files, in rounds."""
    seen = {}
    for turn in range(1, asked.runs + 1):
        for name, row in ROWS.items():
            for size in asked.sizes if name in asked.rows else ():
                for who, once in contestants(asked, row, files.of(row, size), beside):
                    try:
                        one = once()
                    except (OSError, EOFError, session.Refused, subprocess.SubprocessError) as error:
                        print('%s, %d, %s: %s' % (name, size, who, error), file=sys.stderr)
                        continue
                    seen.setdefault((name, size, who), []).append(one)
                    print('round %d: %s, %d, %s: %.3f s' % (turn, name, size, who, one['seconds']), file=sys.stderr)
    for (name, size, who), runs in seen.items():
        yield name, size, who, dict(measure.middle(runs), runs=runs)


def work_of_check(asked, files):
    """`check` of the journal of a table."""
    for size in asked.sizes:
        path = os.path.join(files.folder, 'journal')
        measure.once(files.table(size), [asked.program, 'run'], path)
        with open(path, 'rb') as journal:
            yield 'check', size, measure.median(journal, [asked.program, 'check'], asked.runs)


def work_of_gen(asked, _):
    """So many generated events in three tenths of each size, and all that they do."""
    with open(os.devnull, 'rb') as nothing:
        for size in asked.sizes:
            yield 'gen', size, measure.median(nothing, [asked.program, 'gen', '7', str(size * 3 // 10), '--quiet'], asked.runs)


def work_of_queue(asked, files):
    """Memory of a table whose changes nobody has read, when everyone has, and when all routes are gone again."""
    for size in asked.sizes:
        files.table(size).seek(0)
        lines = files.table(size).readlines()
        parts = [lines[:-1] + [events.LOOK], [b'idle\n', events.LOOK], [b'down 1\n', b'idle\n', events.LOOK]]
        for name, seen in zip(('unread', 'read', 'gone'), measure.stops(parts, [asked.program] + QUIET, events.LOOKED)):
            yield name, size, dict(seen, least=seen['seconds'])


def work_of_messages(asked, files):
    for size in asked.sizes:
        yield 'messages', size, measure.median(files.table(size), [built('bench_rows'), 'messages'], asked.runs)


def work_of_exits(asked, _):
    """Changes through the queue to 64 readers, and the messages of announcements."""
    with open(os.devnull, 'rb') as nothing:
        for kind in ('queue', 'octets'):
            for size in asked.sizes:
                yield kind, size, measure.median(nothing, [built('bench_rows'), kind, str(size)], asked.runs)


def work_of_tables(asked, _):
    """Each step of the tables: the difference of two runs, the second of which does one step more."""
    with open(os.devnull, 'rb') as nothing:
        for kind in ('table', 'map'):
            for size in asked.sizes:
                before = {'least': 0, 'seconds': 0}
                for steps, step in enumerate(STEPS, 1):
                    seen = measure.median(nothing, [built('bench_rows'), kind, str(size), str(steps)], asked.runs)
                    yield '%s: %s' % (kind, step), size, dict(seen, **{key: max(seen[key] - before[key], 0) for key in before})
                    before = {key: seen[key] for key in before}


# the rows of parts of the program: their names, whether they are of `replay` or of `bench_rows`, and what measures them
PARTS = [(['check'], 'replay_main', work_of_check), (['unread', 'read', 'gone'], 'replay_main', work_of_queue),
         (['gen'], 'replay_main', work_of_gen), (['messages'], 'bench_rows', work_of_messages),
         (['%s: %s' % (kind, step) for kind in ('table', 'map') for step in STEPS], 'bench_rows', work_of_tables),
         (['queue', 'octets'], 'bench_rows', work_of_exits)]
NAMES = list(ROWS) + [name for names, _, _ in PARTS for name in names]


def profile(program, file):
    """Where the time of a table goes: share of the samples and function, the greatest first."""
    with tempfile.TemporaryDirectory() as folder:
        data = os.path.join(folder, 'data')
        file.seek(0)
        ran = subprocess.run(['perf', 'record', '-q', '-e', 'cpu-clock', '-F', '999', '-o', data, program] + QUIET,
                             stdin=file, stdout=subprocess.DEVNULL, stderr=subprocess.DEVNULL, check=False)
        if ran.returncode:
            return []
        said = subprocess.run(['perf', 'report', '-q', '--stdio', '-i', data, '--no-children', '-F', 'overhead,symbol'],
                              stdout=subprocess.PIPE, stderr=subprocess.DEVNULL, check=False).stdout.decode()
    return [line.strip() for line in said.split('\n') if line.strip()][:15]


def ratio(one, other):
    return '%.2f' % (one / other) if other else ''


def cells(one):
    """Seconds and memory of who was measured, as they are printed."""
    if not one:
        return ['', '']
    return [', '.join(('%.2f' if one[key] >= 1 else '%.3f') % one[key] for key in ('least', 'seconds')), '%.0f' % one['mib']]


def lines_of(rows, name, size, before):
    """The lines of a row at a size; `before` is the size before it. The program's figures stand in the first one."""
    here = rows[name][size]
    ours, table, smaller = here.get('program'), rows.get('table', {}).get(size, {}).get('program'), rows[name].get(before, {}).get('program')
    seconds, mib = cells(ours)
    share = ratio(ours['seconds'], table['seconds']) if ours and table else ''
    growth = ratio(ours['seconds'] * before, smaller['seconds'] * size) if ours and smaller else ''
    first = [name, '{:,}'.format(size), seconds, share, growth, mib]
    for who in [who for who in ['before'] + list(PACKAGES) if who in here] or ['']:
        theirs = here.get(who)
        times = [ratio(ours[key], theirs[key]) for key in ('least', 'seconds')] if ours and theirs else []
        last = [who, cells(theirs)[0], ', '.join(times), cells(theirs)[1], ratio(ours['mib'], theirs['mib']) if times else '']
        yield '| ' + ' | '.join(first + last) + ' |'
        first = [''] * len(first)


def told(rows, sizes):
    """The table of the results, as lines of Markdown."""
    yield '| Work | Routes | CPU: least, median | beside `table` | growth | MiB | beside it | CPU | times | MiB | times |'
    yield '|---' * 11 + '|'
    for name in rows:
        for before, size in zip([0] + sizes, sizes):
            if size in rows[name]:
                yield from lines_of(rows, name, size, before)


def machine():
    return {'processors': os.cpu_count(), 'machine': platform.machine(), 'system': platform.platform(),
            'load': os.getloadavg()[0], 'daemons': {name: daemons.version(package) for name, package in PACKAGES.items()}}


def present():
    """The daemons that can be measured; of the others is said why not."""
    if os.geteuid():
        print('real daemons are left out: network namespaces need root', file=sys.stderr)
        return []
    found = daemons.commands()
    for name in sorted(set(PACKAGES) - {known[0] for known in found}):
        print("%s is left out: it isn't installed (Debian's package %s)" % (name, PACKAGES[name]), file=sys.stderr)
    return found


@contextlib.contextmanager
def placed(wanted):
    """The daemons' namespaces while they are needed; this process is in that of the speakers from then on."""
    if not wanted:
        yield
        return
    daemons.no_namespaces()
    try:
        played.place()
        namespaces.enter('bench-peers')
        yield
    finally:
        daemons.no_namespaces()


def collect(asked, folder):
    """All rows: by name, size and who was measured. And the profile."""
    files, rows = Files(folder), {}
    for path in (asked.program, built('bench_rows')):
        if not os.path.exists(path):
            print('not built: %s' % path, file=sys.stderr)
    beside = [known for known in present() if known[0] in asked.daemons]
    with placed(beside):
        for name, size, who, seen in work_of_event_files(asked, files, beside):
            rows.setdefault(name, {}).setdefault(size, {})[who] = seen
    for names, program, work in PARTS:
        if set(names) & set(asked.rows) and os.path.exists({'replay_main': asked.program}.get(program, built(program))):
            for name, size, seen in work(asked, files):
                if name in asked.rows:
                    rows.setdefault(name, {})[size] = {'program': seen}
                    print('%s, %d: %.3f s' % (name, size, seen['seconds']), file=sys.stderr)
    profiled = shutil.which('perf') and os.path.exists(asked.program) and 'table' in asked.rows
    return rows, profile(asked.program, files.table(asked.sizes[-1])) if profiled else []


def listed(known, said):
    """The words of a list, each of which has to be one of these."""
    found = said.split(',')
    unknown = sorted(set(found) - set(known))
    if unknown:
        raise argparse.ArgumentTypeError('no %s among %s' % (', '.join(unknown), ', '.join(known)))
    return found


def main():
    words = argparse.ArgumentParser(description=__doc__, formatter_class=argparse.RawDescriptionHelpFormatter)
    words.add_argument('--runs', type=int, default=5)
    words.add_argument('--sizes', type=lambda said: sorted(int(size) for size in said.split(',')), default=[50000, 200000, 800000])
    words.add_argument('--rows', type=lambda said: listed(NAMES, said), default=NAMES, help='those rows alone')
    words.add_argument('--daemons', type=lambda said: listed(PACKAGES, said), default=list(PACKAGES), help='those daemons alone')
    words.add_argument('--program', default=built('replay_main'), help='another program than the built one')
    words.add_argument('--before', metavar='FILE', help='an older build, which is measured in the same rounds')
    words.add_argument('--json', default=os.path.join(TOP, 'bench', 'all.json'))
    asked = words.parse_args()
    about = machine()
    with tempfile.TemporaryDirectory(prefix='bench-') as folder:
        rows, profiled = collect(asked, folder)
    print('%(processors)d processors, load %(load).1f when it began' % about)
    print('\n'.join(told(rows, asked.sizes)))
    print('\n'.join(profiled))
    with open(asked.json, 'w', encoding='utf-8') as file:
        json.dump({'about': about, 'runs': asked.runs, 'rows': rows, 'profile': profiled}, file, indent=1)
        file.write('\n')


if __name__ == '__main__':
    main()
