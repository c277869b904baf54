#!/usr/bin/env python3
"""Asks behind each event whether each prefix is settled, and compares the program with another one:
everywhere.py --other 'COMMAND' [--program 'COMMAND'] [--every 1] [--keep FOLDER] FILE..

Each FILE is an event file, say a random one. Lines that the other program refuses are left out first, one after the other. Then
`settled PREFIX` is put behind each event from `local` on (or behind each K-th, with --every K), for each prefix that occurs anywhere:
in the events, or in what the other program prints of them, so also inside messages; for the hosts that are next hops; and for one
that doesn't occur. Both programs run that, with `run` and with `run --quiet`: outputs and statuses have to be equal. The program's own
`check` has to call its output lawful.

The program is the one that the gate built, and COMMAND any other with the same words, to which `run` and `check` are put behind.
A file that fails is kept, with both outputs. The status is 1 where one fails.
"""
import argparse
import os
import re
import shlex
import subprocess
import sys
import tempfile

TOP = os.path.join(os.path.dirname(os.path.abspath(__file__)), '..')
REPLAY = os.path.join(TOP, 'crates', 'replay_main', 'out', 'replay_main')
PREFIX = re.compile(rb'(?<![^ ])\d+\.\d+\.\d+\.\d+/\d+(?![^ \n])')
HOP = re.compile(rb',n(\d+\.\d+\.\d+\.\d+)')
REFUSED = re.compile(rb'^refused (\d+) E\d$', re.M)
NOWHERE = b'203.0.113.0/25'


def run(command, words, text):
    done = subprocess.run(command + words, input=text, stdout=subprocess.PIPE, stderr=subprocess.PIPE)
    return done.returncode, done.stdout


def accepted(command, lines):
    """The lines that aren't refused, one after the other, and what is printed of them."""
    while True:
        _, output = run(command, ['run'], b''.join(lines))
        refused = REFUSED.search(output)
        if not refused:
            return lines, output
        at = int(refused.group(1)) - 1
        lines = lines[:at] + lines[at + 1:]


def prefixes(text, output):
    """All that occur, by their texts."""
    hosts = {hop + b'/32' for hop in HOP.findall(output)}
    found = set(PREFIX.findall(text)) | set(PREFIX.findall(output)) | hosts | {NOWHERE}
    return sorted(prefix for prefix in found if int(prefix.rpartition(b'/')[2]) <= 32)


def asked(lines, found, every):
    """The events with the questions, and how many these are."""
    questions = b''.join(b'settled %s\n' % prefix for prefix in found)
    text, count, declared = [], 0, False
    for number, line in enumerate(lines):
        text.append(line)
        declared = declared or line.split()[:1] == [b'local']
        if declared and number % every == 0:
            text.append(questions)
            count += len(found)
    return b''.join(text), count


def difference(ours, theirs):
    """The first line in which two answers differ; None where they don't."""
    if ours == theirs:
        return None
    if ours[0] != theirs[0]:
        return 'status %d, not %d' % (ours[0], theirs[0])
    pairs = zip(ours[1].split(b'\n'), theirs[1].split(b'\n'))
    for number, (mine, other) in enumerate(pairs, 1):
        if mine != other:
            return 'line %d: %r, not %r' % (number, mine[:200], other[:200])
    return 'one ends early'


def keep(folder, name, **texts):
    for kind, text in texts.items():
        with open(os.path.join(folder, '%s.%s' % (name, kind)), 'wb') as file:
            file.write(text)
    return os.path.join(folder, name)


def compare(path, asks):
    """What is wrong with a file, if anything, and how many questions it has."""
    with open(path, 'rb') as file:
        lines = file.read().splitlines(keepends=True)
    if lines and not lines[-1].endswith(b'\n'):
        lines[-1] += b'\n'
    lines, output = accepted(asks.other, lines)
    text, count = asked(lines, prefixes(b''.join(lines), output), asks.every)
    for words in (['run'], ['run', '--quiet']):
        ours, theirs = run(asks.program, words, text), run(asks.other, words, text)
        wrong = difference(ours, theirs)
        if wrong:
            folder = asks.keep or tempfile.mkdtemp(prefix='everywhere-')
            kept = keep(folder, os.path.basename(path), events=text, ours=ours[1], theirs=theirs[1])
            return '%s: %s (%s)' % (' '.join(words), wrong, kept), count
        if words == ['run'] and run(asks.program, ['check'], ours[1]) != (0, b'lawful\n'):
            return 'check', count
    return None, count


def main():
    words = argparse.ArgumentParser(description=__doc__, formatter_class=argparse.RawDescriptionHelpFormatter)
    words.add_argument('--other', required=True, type=shlex.split, metavar='COMMAND')
    words.add_argument('--program', default=[REPLAY], type=shlex.split, metavar='COMMAND')
    words.add_argument('--every', type=int, default=1, metavar='K')
    words.add_argument('--keep', metavar='FOLDER')
    words.add_argument('files', nargs='+', metavar='FILE')
    asks = words.parse_args()
    failed = questions = 0
    for path in asks.files:
        wrong, count = compare(path, asks)
        questions += count
        if wrong:
            failed += 1
            print('%s: %s' % (path, wrong), flush=True)
    print('%d files, %d questions: %d passed, %d failed' % (len(asks.files), questions, len(asks.files) - failed, failed))
    return 1 if failed else 0


if __name__ == '__main__':
    sys.exit(main())
