#!/usr/bin/env python3
"""Refuses a run each of its requests for memory in turn: refused.py [FILE..] [--every K] [--from N] [--most COUNT]
[--built [--onwards] [--program FILE]] [--words 'gen 7 40']

An event file (NAME.events) is run, a journal (NAME.journal) is checked; with no FILE some of the longest stories of examples/ are,
or the command that --words names, with nothing to read. Request 1, 2, .. of a run is refused, until three runs in a row end as
if nothing was. A run has to end with status 6, and with a front of the whole run's output that ends where the output of some
first lines does. Requests whose runs end alike, one behind the other, stand in one line, with the status and how many octets were
written; WRONG stands before any other end, and then the exit status is 1.

  rt try   refuses (`--fail-alloc`), and needs nothing that was built; but it builds for each run, so take --every
  --built  takes the program that `(cd crates/replay_main && rt run -- run < /dev/null)` built, and puts before the C library's
           functions two that refuse, which `cc` builds: some milliseconds a run, so each request is tried, also behind one whose
           run ended as if it was granted. --onwards refuses all that follow, too; --program takes another program

The program reads 65,536 bytes at once, and writes what they gave before it reads on. So each line of an event file gets blanks up
to 16,384 bytes, and three comments of that size behind it: then one read gives one event, and what was written tells where the
run ended.
"""
import argparse
import os
import re
import subprocess
import sys
import tempfile

TOP = os.path.join(os.path.dirname(os.path.abspath(__file__)), '..')
CRATE = os.path.join(TOP, 'crates', 'replay_main')
BUILT = os.path.join(CRATE, 'out', 'replay_main')
STORIES = ['sessions/return', 'to_begin_with/to_the_forwarding_table', 'this_speakers_own/own_routes_go_out',
           'this_speakers_own/redistribution_is_edited', 'next_hops/moved_twice', 'decision/best_in_walks', 'decision/each_step',
           'sessions/seventeenth_loss', 'interior_routes/seventeenth_protocol_loss']
MEMORY, LINE, READ = 6, 16384, 65536
ENOUGH = 3  # so many runs in a row that end as the whole one say that no request is left

REFUSER = r'''
#include <stdio.h>
#include <stdlib.h>
extern void *__libc_malloc(size_t);
extern void *__libc_realloc(void *, size_t);
static long requests, refused, onwards;
__attribute__((constructor)) static void begin(void) {
    refused = atol(getenv("REFUSED_REQUEST"));
    onwards = atol(getenv("REFUSED_ONWARDS"));
    requests = 0;
}
__attribute__((destructor)) static void end(void) { dprintf(2, "requests=%ld\n", requests); }
static int is_refused(void) {
    requests++;
    return requests == refused || (onwards && refused && requests > refused);
}
void *malloc(size_t size) { return is_refused() ? NULL : __libc_malloc(size); }
void *realloc(void *old, size_t size) { return is_refused() ? NULL : __libc_realloc(old, size); }
'''


class Try:
    """A run by `rt try`."""
    def run(self, words, text, refused):
        flags = ['--fail-alloc', str(refused)] if refused else []
        with given(text) as file:
            done = subprocess.run(['rt', 'try'] + flags + ['--'] + words, cwd=CRATE, stdin=file, stdout=subprocess.PIPE,
                                  stderr=subprocess.PIPE)
        said = done.stderr.decode(errors='replace')
        ended = re.findall(r'^run=ended status=(\d+)', said, re.M)
        if not ended:
            return 'no end: ' + ' / '.join(said.strip().split('\n')[-3:]), done.stdout, None
        return int(ended[-1]), done.stdout, None


class Built:
    """A run of the built program, with a library before the C library."""
    def __init__(self, folder, onwards, program):
        self.library, self.onwards, self.program = os.path.join(folder, 'refuser.so'), onwards, program
        source = os.path.join(folder, 'refuser.c')
        with open(source, 'w', encoding='ascii') as file:
            file.write(REFUSER)
        subprocess.run(['cc', '-O1', '-fno-builtin', '-shared', '-fPIC', '-o', self.library, source], check=True)

    def run(self, words, text, refused):
        env = {'LD_PRELOAD': self.library, 'REFUSED_REQUEST': str(refused), 'REFUSED_ONWARDS': str(int(self.onwards))}
        with given(text) as file:
            done = subprocess.run([self.program] + words, stdin=file, stdout=subprocess.PIPE, stderr=subprocess.PIPE, env=env)
        counted = re.findall(rb'^requests=(\d+)$', done.stderr, re.M)
        return done.returncode, done.stdout, int(counted[-1]) if counted else None


def given(text):
    """A file at its begin, with this text."""
    file = tempfile.TemporaryFile()
    file.write(text)
    file.seek(0)
    return file


def spread(line):
    """A line of an event file, of which one read gives no more than its event."""
    body = line[:-1] if line.endswith(b'\n') else line
    if len(body) >= LINE or body.endswith(b'\r'):
        return line
    comment = b'#' * (LINE - 1) + b'\n'
    return body + b' ' * (LINE - 1 - len(body)) + b'\n' + comment * (READ // LINE - 1)


def work(path):
    """The words, and the pieces of the text that one read gives each."""
    with open(path, 'rb') as file:
        text = file.read()
    if path.endswith('.journal'):
        return ['check'], [text]
    return ['run'], [spread(line) for line in text.splitlines(keepends=True)]


class Whole:
    """The run to which nothing is refused, and where its output may be cut off."""
    def __init__(self, tool, words, pieces):
        self.status, self.output, self.requests = tool.run(words, b''.join(pieces), 0)
        self.cuts = None
        if self.requests is not None and words[0] == 'run':
            runs = (tool.run(words, b''.join(pieces[:count]), 0) for count in range(len(pieces) + 1))
            self.cuts = {len(output) for status, output, _ in runs if status == 0}

    def may_end(self, count):
        if self.cuts is not None:
            return count in self.cuts
        return count == 0 or self.output[count - 1:count] == b'\n'

    def judge(self, status, output):
        """What is to be said of a run, and whether it is the whole one."""
        if (status, output) == (self.status, self.output):
            return 'as if nothing was refused', True
        told = 'status %s, %d octets of %d' % (status, len(output), len(self.output))
        if status != MEMORY:
            return 'WRONG: ' + told, False
        if not self.output.startswith(output):
            same = len(os.path.commonprefix([self.output, output]))
            return 'WRONG: %s, no front: other octets from %d on' % (told, same), False
        if not self.may_end(len(output)):
            return 'WRONG: %s, a front that no first lines give' % told, False
        return told, False


class Said:
    """Lines of requests, one for those in a row whose runs ended alike."""
    def __init__(self):
        self.first = self.last = self.told = None
        self.counts = {}

    def add(self, number, told):
        kind = told if told.startswith('as') else told.split(' ')[0]
        self.counts[kind] = self.counts.get(kind, 0) + 1
        if told != self.told:
            self.end()
            self.first, self.told = number, told
        self.last = number

    def end(self):
        if self.told is not None:
            numbers = str(self.first) if self.first == self.last else '%d..%d' % (self.first, self.last)
            print('  %s: %s' % (numbers, self.told), flush=True)
        self.told = None


def refuse(tool, name, words, pieces, numbers):
    """Refuses these requests in turn; how many runs ended wrongly."""
    whole = Whole(tool, words, pieces)
    requests = '' if whole.requests is None else ', %d requests' % whole.requests
    print('%s: %s: status %s, %d octets%s' % (name, ' '.join(words), whole.status, len(whole.output), requests), flush=True)
    if not isinstance(whole.status, int):
        return 1
    said, alike, text = Said(), 0, b''.join(pieces)
    for number in numbers:
        if whole.requests is None and alike == ENOUGH or whole.requests is not None and number > whole.requests:
            break
        told, is_whole = whole.judge(*tool.run(words, text, number)[:2])
        alike = alike + 1 if is_whole else 0
        said.add(number, told)
    said.end()
    counts = dict(said.counts)
    granted = counts.pop('as if nothing was refused', 0)
    print('  %d ended with status %d and a front, %d as if nothing was refused, %d wrongly'
          % (counts.get('status', 0), MEMORY, granted, counts.get('WRONG:', 0)), flush=True)
    return counts.get('WRONG:', 0)


def main():
    parser = argparse.ArgumentParser(description=__doc__, formatter_class=argparse.RawDescriptionHelpFormatter)
    parser.add_argument('files', nargs='*', metavar='FILE')
    parser.add_argument('--every', type=int, default=1, metavar='K')
    parser.add_argument('--from', type=int, default=1, metavar='N', dest='first')
    parser.add_argument('--most', type=int, default=sys.maxsize, metavar='COUNT', help='at most so many runs of each file')
    parser.add_argument('--built', action='store_true')
    parser.add_argument('--onwards', action='store_true')
    parser.add_argument('--program', default=BUILT, metavar='FILE', help='for --built, another program than the built one')
    parser.add_argument('--words')
    args = parser.parse_args()
    if args.built and not os.path.exists(args.program):
        sys.exit('not built: ' + args.program)
    if args.words:
        works = [(os.devnull, args.words.split(), [])]
    else:
        paths = args.files or [os.path.join(TOP, 'examples', name + '.events') for name in STORIES]
        works = [(os.path.basename(path),) + work(path) for path in paths]
    end = args.first + args.every * args.most
    with tempfile.TemporaryDirectory() as folder:
        tool = Built(folder, args.onwards, args.program) if args.built else Try()
        wrong = sum(refuse(tool, *each, range(args.first, end, args.every)) for each in works)
    sys.exit(1 if wrong else 0)


if __name__ == '__main__':
    main()
