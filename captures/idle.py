#!/usr/bin/env python3
"""Puts lines into the event file of a capture: replay mrt --as4 | idle.py [EVERY] [--add LINE..] [--show LINK..] | replay run --quiet

Behind each EVERY messages (10,000) stands `idle`: all background work is done there, so that the program keeps no changes that somebody has
yet to read, however long the capture is. `--add` has lines that stand behind `local`, as an interior route that holds all next hops;
`--show` has links that are shown at the end. Nothing else is changed (docs/CAPTURES.md, "From the event file on").

Statuses: 0; 1 where standard output was closed; 2 where a word is wrong.
"""
import argparse
import os
import sys

EVERY = 10000  # messages


def with_lines(lines, every, added, shown):
    """The lines of an event file, with more between them."""
    count = 0
    for line in lines:
        yield line
        if line.startswith(b'local '):
            yield from (one.encode('ascii') + b'\n' for one in added)
        count += line.startswith(b'bgp ')
        if count == every:
            yield b'idle\n'
            count = 0
    yield from (b'show ' + link.encode('ascii') + b'\n' for link in shown)


def main():
    words = argparse.ArgumentParser(description=__doc__, formatter_class=argparse.RawDescriptionHelpFormatter)
    words.add_argument('every', metavar='EVERY', type=int, nargs='?', default=EVERY)
    words.add_argument('--add', nargs='+', default=[], metavar='LINE')
    words.add_argument('--show', nargs='+', default=[], metavar='LINK')
    asked = words.parse_args()
    if asked.every < 1:
        words.error('EVERY: a number from 1')
    try:
        sys.stdout.buffer.writelines(with_lines(sys.stdin.buffer, asked.every, asked.add, asked.show))
        sys.stdout.buffer.flush()
    except BrokenPipeError:
        os.dup2(os.open(os.devnull, os.O_WRONLY), 1)
        return 1
    return 0


if __name__ == '__main__':
    sys.exit(main())
