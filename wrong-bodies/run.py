#!/usr/bin/env python3
"""Tries the wrong bodies that the gate leaves out: the prover must refuse each.

The edits are tried by `rt must-fail` on a copy of what is committed, in a folder that goes in the end. What stands below a crate is
built first, and then the crate itself is proved: where it isn't, a refusal would show nothing, so its edits count as not tried. Each
edit takes some 20 seconds of a processor, all of them several hours; --jobs of a crate are tried at a time, each in the memory of a
check, 1 to 4 GB. What was tried on this machine of the very same sources isn't tried again; what it came to is told.

What each came to goes into tried.tsv beside this script (tried.py has its columns), as soon as it is known, with the commit and what
refused it; docs/PROOFS.md says how many were tried when, by `wrong-bodies/tried.py --write`. With --missing only those are tried
whose row is of no run of this script, or of sources that are others by now: the crate's own, those of a crate that it stands on, or
the edit's text.

The last line counts what the edits came to. The status is 0 where each was refused.
"""
import argparse
import collections
import datetime
import os
import re
import shutil
import subprocess
import sys
import tempfile

HERE = os.path.dirname(os.path.realpath(__file__))
ROOT = os.path.dirname(HERE)
sys.dont_write_bytecode = True
sys.path.insert(0, os.path.join(ROOT, 'docs'))
import crate_table
import tried

OUTCOME = 'refused, as it must be|NOT REFUSED|BAD EDIT|NOT TRIED'
TOLD = re.compile(r'rt: must-fail \w+/(\S+)\.edit: (%s)(?: \(([^)]*)\))?(?:: (.*))?' % OUTCOME)
CAME = {'refused, as it must be': 'refused', 'NOT REFUSED': 'proved', 'BAD EDIT': 'bad'}
ONLY = {'only because a proof file names': 'a proof names what it takes away', 'only by a limit': 'a limit of the prover'}
LONGEST = 160


def git(*words):
    return subprocess.run(['git', *words], cwd=ROOT, stdout=subprocess.PIPE, stderr=subprocess.DEVNULL, text=True)


def below(crate):
    """A crate and all that it stands on."""
    deps, found = crate_table.dependencies(), [crate]
    for it in found:
        found += [other for other in deps[it] if other not in found]
    return found


def is_same(row):
    """Whether the row of an edit is of a run of this script, on the sources that are committed."""
    if row is None or row.how != 'run.py':
        return False
    paths = ['crates/%s/%s' % (it, room) for it in below(row.crate) for room in ('src', 'specs', 'proofs')]
    paths.append('wrong-bodies/%s/%s.edit' % (row.crate, row.edit))
    return git('diff', '--quiet', row.commit, 'HEAD', '--', *paths).returncode == 0


def asked():
    """What is to be tried, by crate the names of its edits, and how many at a time."""
    has = sorted({crate for crate, _ in tried.edits()})
    parser = argparse.ArgumentParser(description=__doc__.split('\n')[0])
    parser.add_argument('--jobs', type=int, default=1, metavar='N', help='try so many edits of a crate at a time (1)')
    parser.add_argument('--crate', action='append', choices=has, metavar='NAME', help='only those of this crate (and of others)')
    parser.add_argument('--missing', action='store_true', help='only those that were not tried on these sources')
    parser.add_argument('--list', action='store_true', help='say which would be tried, and try none')
    given = parser.parse_args()
    if given.jobs < 1:
        parser.error('--jobs takes a number from 1 on')
    rows, names = tried.rows(), {}
    for crate, edit in tried.edits():
        if crate in (given.crate or has) and not (given.missing and is_same(rows.get((crate, edit)))):
            names.setdefault(crate, []).append(edit)
    return names, given


def fill(copy, names):
    """Puts what is committed into a folder, and into each of these crates these edits, as they stand here, in place of the gate's."""
    files = subprocess.run(['git', 'archive', 'HEAD'], cwd=ROOT, stdout=subprocess.PIPE, check=True)
    subprocess.run(['tar', 'x'], cwd=copy, input=files.stdout, check=True)
    for crate, edits in names.items():
        to = '%s/crates/%s/must-fail' % (copy, crate)
        shutil.rmtree(to, ignore_errors=True)
        os.mkdir(to)
        for edit in edits:
            shutil.copy('%s/%s/%s.edit' % (HERE, crate, edit), to)


def row_of(crate, told, commit):
    """The row of what rt said of an edit; None where it wasn't tried."""
    edit, came, only, why = told.groups()
    if came not in CAME:
        return None
    by = next((words for start, words in ONLY.items() if (only or '').startswith(start)), None)
    by = by or ' '.join((why or '-').split())[:LONGEST]
    return tried.Row(crate, edit, datetime.date.today().isoformat(), commit, 'run.py', CAME[came], by)


def outcomes(copy, crate, commit, jobs):
    """The rows of the edits of a crate that were tried; all that rt says is printed."""
    if subprocess.run(['rt', 'check', '--jobs', str(jobs)], cwd='%s/crates/%s' % (copy, crate)).returncode:
        print('%s is not proved as it stands, so a refusal of its edits would show nothing' % crate, flush=True)
        return
    how = {'cwd': copy, 'env': {**os.environ, 'RT_JOBS': str(jobs)}, 'stdout': subprocess.PIPE, 'text': True}
    with subprocess.Popen(['rt', 'must-fail', crate], **how) as running:
        for line in running.stdout:
            print(line, end='', flush=True)
            found = TOLD.match(line)
            row = found and row_of(crate, found, commit)
            if row:
                yield row


def main():
    names, given = asked()
    whole = sum(len(it) for it in names.values())
    if given.list:
        for crate, edits in names.items():
            print('%s: %s' % (crate, ' '.join(edits)))
        print('%d wrong bodies' % whole)
        return 0
    commit, came, only = git('rev-parse', '--short=8', 'HEAD').stdout.strip(), collections.Counter(), collections.Counter()
    with tempfile.TemporaryDirectory(prefix='wrong-bodies-') as copy:
        fill(copy, names)
        for crate in names:
            for row in outcomes(copy, crate, commit, given.jobs):
                # (the table is read again, since somebody may have written it meanwhile)
                tried.write({**tried.rows(), (row.crate, row.edit): row})
                came[row.came] += 1
                only[row.by] += 1
    left = whole - sum(came.values())
    by_names, by_a_limit = (only[it] for it in ONLY.values())
    print('%d wrong bodies: %d refused (%d only because a proof names what they take away, %d only by a limit of the prover), %d proved, '
          '%d bad, %d not tried' % (whole, came['refused'], by_names, by_a_limit, came['proved'], came['bad'], left))
    return 0 if came['refused'] == whole else 1


if __name__ == '__main__':
    sys.exit(main())
