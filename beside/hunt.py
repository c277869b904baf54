#!/usr/bin/env python3
"""Looks for what is wrong in a router: hunt.py --daemon NAME [--minutes 10] [--seeds 1..] [--jobs 4] [--into FOLDER] [--known FOLDER ..]

Event files are made at random, by seed, out of what the daemon can be asked; each is run on the daemon and by `replay`, as run.py does
it, and at each `idle` their tables are compared. What differs and isn't explained by docs/BGP.md is made as small as it gets, while it
stays the same difference, and told once: a scenario that run.py takes is written to the folder `--into`, with the rule that it breaks.

  --minutes M      for so long new files are run; what was found by then is still made small
  --seeds A..B     the files of these seeds, or of one and all behind it (A..)
  --jobs N         so many daemons at once, each in two network namespaces of its own
  --groups N       ends after so many groups of differences
  --known FOLDER   leaves out what the scenarios of a folder show (the lines `# group` in them)
  --topics A,B     each file has these topics (docs/HUNT.md), beside those that are drawn
  --programs FOLDER  the daemon's programs are there (a build of one's own), and not where Debian has them
  --show SEED      prints the file of a seed, and runs nothing

Ctrl-C ends it, and leaves what was found: what couldn't be made small any more is in FOLDER/not_small, what didn't show three times in
a row in FOLDER/unsteady. Statuses: 0 where nothing was found, 1 where something was, 2 where nothing could be run.
"""
import argparse
import collections
import itertools
import multiprocessing.connection
import os
import signal
import sys
import time

sys.path.insert(0, os.path.join(os.path.dirname(os.path.abspath(__file__)), '..', 'python'))
from bgp import program
from hunting import files, groups, needs, scenario, topics, work
from routers import ROUTERS
from run import told

SAID = 60  # seconds between two lines that say how far it is
AT_FIRST, FOR_EACH = 2, 2  # how many differences of a key are made small, and how many more for each group that came of it


class Hunt:
    """What is to be done, and what was found."""

    def __init__(self, asked, router_class):
        self.asked, self.router_class = asked, router_class
        first, last = asked.seeds
        self.seeds = iter(range(first, last + 1)) if last else itertools.count(first)
        self.left, self.at_work = collections.deque(), []  # differences to be made small, and those that are
        self.by_key, self.groups, self.topics = collections.Counter(), set(), collections.Counter()
        self.kinds = collections.defaultdict(set)  # the groups that came of each key
        self.known = set().union(*(scenario.known(folder) for folder in asked.known))
        self.ran = self.refused = self.unsteady = 0
        self.begun = self.said = time.monotonic()

    def minutes(self):
        return (time.monotonic() - self.begun) / 60

    # ---- tasks

    def next_task(self):
        """What a process does next: first what was found, then the file of the next seed; None where all is done."""
        if self.asked.groups and len(self.groups) >= self.asked.groups:
            return None
        while self.left:
            seed, lines, found = self.left.popleft()
            if self.is_wanted(groups.key(found)):
                self.by_key[groups.key(found)] += 1
                self.at_work.append((seed, lines, found))
                return ('small', seed, lines, found)
        if self.minutes() >= self.asked.minutes:
            return None
        seed = next(self.seeds, None)
        return None if seed is None else ('file', seed)

    def is_wanted(self, key):
        """Whether one more difference of this key is made small."""
        return self.by_key[key] < AT_FIRST + FOR_EACH * len(self.kinds[key])

    def take(self, answer):
        if isinstance(answer, work.Small):
            self.at_work = [one for one in self.at_work if one[0] != answer.seed or groups.key(one[2]) != groups.key(answer.found)]
            self.take_small(answer)
            return
        self.ran += answer.found is not None
        self.refused += answer.found is None
        self.topics.update(answer.topics)
        for found in answer.found or ():
            if self.is_wanted(groups.key(found)):
                self.left.append((answer.seed, answer.lines, found))

    def take_small(self, answer):
        needed = needs.needs(answer.lines)
        group = groups.group(groups.key(answer.found), needed)
        self.kinds[groups.key(answer.found)].add(group)
        if answer.shown < work.TIMES:
            self.unsteady += 1
            self.write('unsteady', answer, group, needed, 'Shown by %d of %d new daemons.' % (answer.shown, work.TIMES))
        elif group not in self.known and group not in self.groups:
            self.groups.add(group)
            name = self.write('.', answer, group, needed, '' if answer.is_done else 'It could be smaller: the time was over.')
            print('found %s after %.1f minutes and %d files: %d event lines' % (name, self.minutes(), self.ran, len(answer.lines)))
            print('  ' + groups.sentence(groups.key(answer.found), needed))
            print('  %s; replay %s; %s %s' % (group, told(answer.found.difference.ours), self.asked.daemon, told(answer.found.difference.theirs)),
                  flush=True)

    def write(self, folder, answer, group, needed, more):
        said = [groups.sentence(groups.key(answer.found), needed),
                'replay: %s; %s: %s.' % (told(answer.found.difference.ours), self.asked.daemon, told(answer.found.difference.theirs)),
                'Found by beside/hunt.py beside %s %s, seed %d. %s' % (self.asked.daemon, self.router_class.version(), answer.seed, more)]
        content = scenario.text([one.encode('ascii', 'replace').decode() for one in said], group, answer.lines)
        return scenario.write(os.path.join(self.asked.into, folder), scenario.name(self.asked.daemon, group), content)

    # ---- what is said

    def say(self, always=False):
        if always or time.monotonic() - self.said > SAID:
            self.said = time.monotonic()
            print('%.1f minutes: %d files, %.0f a minute; %d groups, %d unsteady; %d are made small, %d wait' % (
                self.minutes(), self.ran, self.ran / max(self.minutes(), .01), len(self.groups), self.unsteady, len(self.at_work), len(self.left)),
                flush=True)

    def end(self):
        """Writes what couldn't be made small, each key once."""
        told = set()
        for seed, lines, found in self.at_work + list(self.left):
            key = groups.key(found)
            if not self.kinds[key] and key not in told:
                told.add(key)
                small = work.Small(seed, lines, found, 0, 0, False)
                needed = needs.needs(lines)
                self.write('not_small', small, groups.group(key, needed), needed, 'Not made small.')
        print('by topic: ' + ', '.join('%s %d' % one for one in self.topics.most_common()))
        if self.refused:
            print('%d files were refused by the program' % self.refused)


def hunted(hunt, workers, made):
    """Gives out tasks until all is done."""
    while True:
        for worker in workers:
            if worker.task is None:
                task = hunt.next_task()
                if task:
                    worker.give(task)
        busy = [worker for worker in workers if worker.task]
        if not busy:
            return
        for pipe in multiprocessing.connection.wait([worker.pipe for worker in busy], 1):
            worker = next(one for one in busy if one.pipe is pipe)
            try:
                answer = pipe.recv()
                worker.task = None
                hunt.take(answer)
            except (EOFError, ConnectionError):
                print('a process ended at %s' % (worker.task[:2],), file=sys.stderr)
                worker.stop()
                workers[workers.index(worker)] = made()
        hunt.say()


def seeds(text):
    first, _, last = text.partition('..')
    return int(first), int(last) if last else 0


def names(text):
    """Topics, each of which has to be one."""
    found = text.split(',')
    unknown = sorted(set(found) - set(topics.TOPICS))
    if unknown:
        raise argparse.ArgumentTypeError('no %s among %s' % (', '.join(unknown), ', '.join(topics.TOPICS)))
    return found


def words():
    found = argparse.ArgumentParser(description=__doc__, formatter_class=argparse.RawDescriptionHelpFormatter)
    found.add_argument('--daemon', choices=sorted(ROUTERS), required=True)
    found.add_argument('--minutes', type=float, default=10)
    found.add_argument('--seeds', type=seeds, default=(1, 0))
    found.add_argument('--jobs', type=int, default=os.cpu_count())
    found.add_argument('--groups', type=int, default=0)
    found.add_argument('--into', metavar='FOLDER', default='found')
    found.add_argument('--known', metavar='FOLDER', action='append', default=[])
    found.add_argument('--topics', type=names, default=[])
    found.add_argument('--programs', metavar='FOLDER')
    found.add_argument('--program', default=program.BUILT, help='the words of another program than the built one')
    found.add_argument('--show', type=int, metavar='SEED')
    return found


def run(asked):
    hunt, numbers = Hunt(asked, ROUTERS[asked.daemon]), itertools.count()
    made = lambda: work.Worker(ROUTERS[asked.daemon], 'hunt-%d-%d' % (os.getpid(), next(numbers)), asked.program.split(' '))
    workers = []
    try:
        for _ in range(asked.jobs):
            workers.append(made())
        hunted(hunt, workers, made)
    finally:
        for sign in (signal.SIGINT, signal.SIGTERM):
            signal.signal(sign, signal.SIG_IGN)
        for worker in workers:
            worker.process.terminate()
        for worker in workers:
            worker.stop()
        hunt.end()
        hunt.say(always=True)
    return 1 if hunt.groups or hunt.unsteady else 0


def main():
    asked = words().parse_args()
    ROUTERS[asked.daemon].topics = asked.topics
    if asked.show is not None:
        chosen, lines = files.made(asked.show, ROUTERS[asked.daemon])
        print('# seed %d: %s\n%s' % (asked.show, ', '.join(chosen), '\n'.join(lines)))
        return 0
    for sign in (signal.SIGINT, signal.SIGTERM):
        signal.signal(sign, signal.default_int_handler)
    try:
        if asked.programs:
            ROUTERS[asked.daemon].place(asked.programs)
        if not ROUTERS[asked.daemon].installed():
            raise OSError("%s isn't installed (Debian's package %s)" % (asked.daemon, ROUTERS[asked.daemon].package))
        if os.geteuid():
            raise OSError('network namespaces need root')
        return run(asked)
    except KeyboardInterrupt:
        return 130
    except OSError as error:
        print('hunt.py: %s' % error, file=sys.stderr)
        return 2


if __name__ == '__main__':
    sys.exit(main())
