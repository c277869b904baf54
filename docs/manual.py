#!/usr/bin/env python3
"""Compares docs/replay.1 and docs/replay.bash with docs/LANGUAGE.md: docs/manual.py (docs/check.py asks for the same).

Each command of the table "The commands" has to stand in the page of the manual, each option with it, and each status; and the completion has to
offer the commands, and to each its options.
"""
import os
import re
import subprocess
import sys

TOP = os.path.join(os.path.dirname(os.path.abspath(__file__)), '..')
PAGE, COMPLETION, LANGUAGE = 'docs/replay.1', 'docs/replay.bash', 'docs/LANGUAGE.md'
ASK = '. "$1"; COMP_WORDS=(replay $2); COMP_CWORD=$3; COMP_WORDS[$3]=; _replay; echo "${COMPREPLY[@]}"'


def read(path):
    with open(os.path.join(TOP, path), encoding='utf-8') as file:
        return file.read()


def commands():
    """The options of each command, by its word."""
    found = {}
    for words in re.findall(r'(?m)^\| `replay ([^`]*)` \|', read(LANGUAGE)):
        found.setdefault(words.split()[0], set()).update(word for word in words.split() if word.startswith('--'))
    return found


def statuses():
    section = read(LANGUAGE).split('\n## The commands')[1]
    return re.findall(r'(?m)^\| ([0-9]) \|', section)


def offered(words):
    """What the completion offers behind some words."""
    ran = subprocess.run(['bash', '-c', ASK, 'bash', os.path.join(TOP, COMPLETION), ' '.join(words), str(len(words) + 1)], stdout=subprocess.PIPE, check=True)
    return set(ran.stdout.decode().split())


def faults():
    """Pairs of file and complaint."""
    text = read(PAGE).replace('\\-', '-')
    if re.findall(r'(?m)^\.B ([0-9])$', text) != statuses():
        yield PAGE, 'its statuses are not those of %s' % LANGUAGE
    if offered([]) != set(commands()):
        yield COMPLETION, 'the commands that it offers are not those of %s' % LANGUAGE
    for command, options in commands().items():
        if not re.search(r'(?m)^\.BI? %s\b' % command, text) or not re.search(r'(?m)^\.B replay %s\b' % command, text):
            yield PAGE, 'it has no command %s' % command
        if not all('.B %s\n' % option in text for option in options):
            yield PAGE, 'it lacks an option of %s' % command
        if offered([command]) != options:
            yield COMPLETION, 'behind %s it offers other options' % command


if __name__ == '__main__':
    complaints = list(faults())
    for name, fault in complaints:
        print('%s: %s' % (name, fault))
    sys.exit(1 if complaints else 0)
