#!/usr/bin/env python3
"""Runs the commands that the documents print: docs/commands.py [--program FILE] [--list] [PAGE..]

Each line of a fence ```sh in README.md, CONTRIBUTING.md, docs/*.md and bench/README.md is a command, run by bash from the top
of a fresh clone of what is committed, one after the other; a line that ends with a backslash goes on in the next one. Printed
is for each whether it ran, its status and how long it took, or why it was not run:

- it takes long (it proves, tries wrong bodies or measures), or needs another machine, a queue of jobs or root (NOT_RUN)
- it needs the built program, and none was given: --program FILE, which is put where `rt run` leaves it, and on the path as
  `replay`

Captures that a command reads are made of those in examples/ (SAMPLES). With --list nothing is run. The status is 1 where a
command that ran didn't end with status 0, and 2 where a PAGE or the program isn't there, or a PAGE has no command. It is no part of the gate: `rt try` takes minutes.
"""
import bz2
import os
import re
import shutil
import subprocess
import sys
import tempfile
import time

sys.dont_write_bytecode = True
import names

TOP = names.TOP
BUILT = 'crates/replay_main/out/replay_main'
NOT_RUN = [
    (r'\brt (ci|run|check|lib|test|all|verdict|must-fail|plant|tidy)\b|\.ci/run', 'it proves: minutes to hours'),
    (r'wrong-bodies/run\.py', 'it tries wrong bodies: minutes to hours'),
    (r'bench/(all|alike|daemons|everywhere|mrt_files|refused|settled)\.py|captures/make\.py', 'it measures or compares: minutes'),
    (r'beside/(hunt|planted)\.py --(daemon \w+ --minutes|cache)', 'it hunts: minutes to hours'),
    (r'--sshlogin(file)? [^:]|\bssh\b|\bsbatch\b|\bsrun\b', 'it needs other machines'),
    (r'\bxdg-open\b', 'it needs a desktop'),
]
NEEDS_PROGRAM = re.compile(r'(^|[\s(|;])replay (run|mrt|check|gen)\b|' + re.escape(BUILT)
                           + r'|reasons/(why|told|refused|agree)\.py|beside/(run|all)\.py|live/\w+\.py|view/check\.py')
SAMPLES = {
    'bgp.mrt': 'examples/to_begin_with/captured_by_bird.mrt',
    'rib.20260101.0000.bz2': 'captures/kept/bird/dump.mrt',
    'updates.20260101.0000.bz2': 'examples/captures/captured_by_frr.mrt',
    'table.mrt': 'captures/kept/bird/dump.mrt',
    'gobgp.mrt': 'examples/captures/captured_by_frr.mrt',
    'router.bmp': 'captures/monitored/stream.bmp',
}
SECONDS = 3600


def commands(page):
    """The commands of a document: pairs of line number and command."""
    inside, begun = False, None
    for number, line in enumerate(names.read(page).split('\n'), 1):
        words = line.strip()
        if words.startswith('```'):
            inside = not inside and words[3:].split()[:1] == ['sh']
            begun = None
        elif inside and words:
            at, text = begun if begun else (number, '')
            begun = (at, text + words[:-1]) if words.endswith('\\') else None
            if begun is None:
                yield at, text + words


def reason(command, program):
    """Why a command isn't run; None where it is."""
    for pattern, why in NOT_RUN:
        if re.search(pattern, command):
            return why
    return 'no built program was given' if not program and NEEDS_PROGRAM.search(command) else None


def made_clone(folder, program):
    """A fresh clone with the samples, and the environment in which commands run there."""
    clone = os.path.join(folder, 'clone')
    subprocess.run(['git', 'clone', '-q', TOP, clone], check=True)
    for name, source in SAMPLES.items():
        with open(os.path.join(clone, source), 'rb') as file:
            data = file.read()
        with open(os.path.join(clone, name), 'wb') as file:
            file.write(bz2.compress(data) if name.endswith('.bz2') else data)
    if program:
        os.makedirs(os.path.dirname(os.path.join(clone, BUILT)))
        shutil.copy(program, os.path.join(clone, BUILT))
        os.makedirs(os.path.join(folder, 'bin'))
        os.symlink(os.path.join(clone, BUILT), os.path.join(folder, 'bin', 'replay'))
    return clone, {**os.environ, 'HOME': folder, 'PATH': os.path.join(folder, 'bin') + ':' + os.environ['PATH']}


def run(command, clone, env):
    """The status of a command, how many lines it printed, and its time."""
    start = time.time()
    try:
        done = subprocess.run(['bash', '-c', 'set -o pipefail\n' + command], cwd=clone, env=env, timeout=SECONDS,
                              stdin=subprocess.DEVNULL, stdout=subprocess.PIPE, stderr=subprocess.STDOUT)
        status, printed = done.returncode, done.stdout.decode(errors='replace')
    except subprocess.TimeoutExpired:
        status, printed = 'none after %d s' % SECONDS, ''
    return status, printed, time.time() - start


def main(words):
    program, listing, pages = None, False, []
    while words:
        word = words.pop(0)
        if word == '--program':
            program = os.path.abspath(words.pop(0))
        elif word == '--list':
            listing = True
        else:
            pages.append(word)
    missing = [it for it in pages + ([program] if program else []) if not os.path.isfile(os.path.join(TOP, it))]
    mute = [it for it in pages if not missing and not any(True for _ in commands(it))]
    if missing or mute:
        print('commands.py: %s' % ('there is no %s' % missing[0] if missing else '%s has no command' % mute[0]), file=sys.stderr)
        return 2
    ran = failed = left = 0
    with tempfile.TemporaryDirectory(prefix='commands-') as folder:
        clone, env = (None, None) if listing else made_clone(folder, program)
        for page in pages or names.pages():
            for number, command in commands(page):
                why = 'listed' if listing else reason(command, program)
                if why:
                    left += 1
                    print('%s:%d: not run (%s): %s' % (page, number, why, command), flush=True)
                    continue
                status, printed, took = run(command, clone, env)
                ran += 1
                failed += status != 0
                print('%s:%d: status %s, %d lines, %.1f s: %s'
                      % (page, number, status, printed.count('\n'), took, command), flush=True)
                if status != 0:
                    print('    ' + '\n    '.join(printed.split('\n')[-6:]), flush=True)
    print('%d ran, %d failed, %d not run' % (ran, failed, left))
    return 1 if failed else 0


if __name__ == '__main__':
    sys.exit(main(sys.argv[1:]))
