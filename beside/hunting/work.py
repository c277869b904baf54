"""A process of a hunt, with a bed of its own: it runs files by seed, and makes small what it is given. And the other end of its pipe."""
import collections
import ctypes
import glob
import multiprocessing
import os
import shutil
import signal
import tempfile
import time

from bgp import namespaces
from hunting import files, groups, smaller
from hunting.bed import LONG, Bed

QUICK = .5  # seconds without an UPDATE after which a difference counts while a file is made small
TIMES = 3  # how often in a row a difference has to show on a new daemon
PR_SET_PDEATHSIG = 1  # linux/prctl.h
LONGEST = 240  # seconds that making one file small may take

Ran = collections.namedtuple('Ran', 'seed topics lines found')
Small = collections.namedtuple('Small', 'seed lines found shown tests is_done')  # `shown`: how many of `TIMES` runs showed it


class Shrinker:
    """One difference of one file."""

    def __init__(self, bed, wanted):
        self.bed, self.wanted, self.known, self.tests = bed, wanted, {}, 0
        self.end = time.monotonic() + LONGEST

    def __call__(self, lines, fresh=False, seconds=QUICK):
        """Whether a file shows the difference. Where the time is over no file does."""
        if tuple(lines) not in self.known or fresh:
            if time.monotonic() > self.end and not fresh:
                return False
            self.known[tuple(lines)] = self.found(lines, fresh, seconds) is not None
        return self.known[tuple(lines)]

    def found(self, lines, fresh, seconds):
        """The difference in a file, if it is there."""
        self.tests += 1
        seen = self.bed.run(lines, fresh, lambda found: self.among(found), seconds)
        return self.among(seen or [])

    def among(self, found):
        return next((one for one in groups.roots(found) if groups.key(one) == self.wanted), None)

    def times(self, lines):
        """How often of three times new daemons show it, and the last difference that they showed."""
        shown = [self.found(lines, True, LONG) for _ in range(TIMES)]
        return sum(one is not None for one in shown), next((one for one in reversed(shown) if one is not None), None)


def make_small(bed, seed, lines, found):
    """What is left of a file. Where the smallest isn't steady, and the file is, it is done once more with a new daemon for each run."""
    shows = Shrinker(bed, groups.key(found))
    whole = smaller.cut(lines, found.line)
    left = smaller.smaller(whole, shows)
    shown, last = shows.times(left)
    if shown < TIMES:
        careful = lambda these: shows(these, True, LONG)
        if shows.times(whole)[0] == TIMES:
            left = smaller.by_lines(whole, careful)
            shown, last = shows.times(left)
        else:
            left, (shown, last) = whole, shows.times(whole)
    return Small(seed, left, last or found, shown, shows.tests, time.monotonic() < shows.end)


def run_file(bed, seed):
    names, lines = files.made(seed, bed.router_class)
    found = bed.run(lines)
    return Ran(seed, names, lines, None if found is None else groups.roots(found))


TASKS = {'file': run_file, 'small': make_small}


def serve(pipe, router_class, name, words):
    """The process: a task is its word and its arguments. The bed goes whatever ends it."""
    signal.signal(signal.SIGINT, signal.SIG_IGN)  # whoever started it says when it ends
    signal.signal(signal.SIGTERM, ended)
    ctypes.CDLL(None).prctl(PR_SET_PDEATHSIG, signal.SIGTERM)
    bed = Bed(router_class, name, words)
    try:
        while True:
            word, *arguments = pipe.recv()
            pipe.send(TASKS[word](bed, *arguments))
    except (EOFError, OSError):
        pass  # the hunt is over
    finally:
        signal.signal(signal.SIGTERM, signal.SIG_IGN)
        bed.close()


def ended(*_):
    raise SystemExit(0)


class Worker:
    """A process as the hunt sees it: its pipe, and what it is at."""

    def __init__(self, router_class, name, words):
        self.name, self.task = name, None
        self.pipe, other = multiprocessing.Pipe()
        self.process = multiprocessing.Process(target=serve, args=(other, router_class, name, words))
        self.process.start()
        other.close()

    def give(self, task):
        self.task = task
        self.pipe.send(task)

    def stop(self, seconds=15):
        """Ends it, and takes away what it leaves where it can't do so itself."""
        self.pipe.close()
        if self.process.is_alive():
            self.process.terminate()
        self.process.join(seconds)
        if self.process.is_alive():
            self.process.kill()
            self.process.join()
        for part in ('router', 'peers'):
            namespaces.empty('%s-%s' % (self.name, part))
            namespaces.delete('%s-%s' % (self.name, part))
        for left in glob.glob(os.path.join(tempfile.gettempdir(), self.name + '[-.]*')):
            if os.path.isdir(left):
                shutil.rmtree(left, ignore_errors=True)
            else:
                os.unlink(left)
