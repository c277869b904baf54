#!/usr/bin/env python3
"""Faults that are put into daemons, and hunted: planted.py --cache FOLDER [--daemons bird,frr,openbgpd] [--only WORD] [--minutes 10]

Each `planted/DAEMON/NAME.patch` is one fault of a line or two in Debian's source of the daemon, and its first line says what it is. For
each the patched daemon is built in the folder `--cache` (sources come by `apt-get source`; what was built stays there), and hunted by
hunt.py, until a scenario is found that the daemon without the patch doesn't show. That scenario goes to `planted/DAEMON/NAME.events`, and
its line to `planted/results.txt`.

  --build      builds alone
  --minutes M  for so long each fault is hunted at most
  --jobs N     of hunt.py
  --seeds A    the first seed of each hunt
  --missing    those alone that have no line in planted/results.txt
  --write      writes the table of docs/HUNT.md, out of planted/results.txt, and its list of topics, and does nothing else

Needs root; `apt-get build-dep`'s packages have to be there (docs/HUNT.md). Status 1 where a fault wasn't found.
"""
import argparse
import os
import re
import shutil
import signal
import subprocess
import sys
import time

sys.path.insert(0, os.path.join(os.path.dirname(os.path.abspath(__file__)), '..', 'python'))
from bgp import program
from hunting import topics
from routers import ROUTERS

HERE = os.path.dirname(os.path.abspath(__file__))
PLANTED = os.path.join(HERE, 'planted')
RESULTS = os.path.join(PLANTED, 'results.txt')
DOCUMENT = os.path.join(HERE, '..', 'docs', 'HUNT.md')
MIRROR = 'deb-src http://deb.debian.org/debian bookworm main\ndeb-src http://deb.debian.org/debian-security bookworm-security main\n'
OTHERS = ('ripd', 'ripngd', 'ospfd', 'ospf6d', 'ldpd', 'nhrpd', 'eigrpd', 'babeld', 'watchfrr', 'isisd', 'pimd', 'pim6d', 'pbrd', 'sharpd',
          'fabricd', 'vrrpd', 'pathd', 'bfdd', 'staticd')  # FRR's other daemons
# how each daemon is built: its source package, what configures it, the targets of `make`, and where the programs then are
BUILDS = {
    'bird': ('bird2', ['env', 'bird_cv_c_lto=no', './configure', '--disable-client'], ['all'], ('bird',)),
    'frr': ('frr', ['sh', '-c', './bootstrap.sh && ./configure --localstatedir=/var/run/frr --sysconfdir=/etc/frr --enable-shared '
                    '--enable-static --enable-static-bin --disable-doc ' + ' '.join('--disable-' + one for one in OTHERS)],
            ['lib/gitversion.h', 'lib/route_types.h', 'bgpd/bgpd'], ('bgpd/bgpd',)),
    'openbgpd': ('openbgpd', ['./configure', '--prefix=/usr', '--sysconfdir=/etc', '--runstatedir=/run/openbgpd',
                              '--with-privsep-user=_openbgpd'], ['all'], ('src/bgpd/bgpd', 'src/bgpctl/bgpctl')),
}
FOUND = re.compile(r'^found (\S+) after ([0-9.]+) minutes and (\d+) files: (\d+) event lines$', re.M)
MARK = '<!-- planted.py --write: %s -->\n'


def faults(daemons, only):
    """The faults: daemon, name, and path of the patch."""
    for daemon in daemons:
        for name in sorted(os.listdir(os.path.join(PLANTED, daemon))):
            if name.endswith('.patch') and only in name:
                yield daemon, name[:-len('.patch')], os.path.join(PLANTED, daemon, name)


def told(path):
    """What a patch does: its first line."""
    with open(path, encoding='utf-8') as file:
        return file.readline().strip()


# ---- sources and builds


def run(words, folder, **more):
    """A command, of which nothing is printed unless it fails."""
    ran = subprocess.run(words, cwd=folder, stdin=subprocess.DEVNULL, stdout=subprocess.PIPE, stderr=subprocess.STDOUT, check=False, **more)
    if ran.returncode:
        raise OSError('%s: status %d: %s' % (' '.join(words), ran.returncode, ran.stdout.decode(errors='replace')[-600:]))
    return ran.stdout.decode(errors='replace')


def apt(folder, *words):
    """`apt-get` with lists of sources of its own, in a folder."""
    lists = os.path.join(folder, 'lists')
    os.makedirs(os.path.join(lists, 'partial'), exist_ok=True)
    with open(os.path.join(folder, 'sources.list'), 'w', encoding='ascii') as file:
        file.write(MIRROR)
    options = {'Dir::Etc::SourceList': os.path.join(folder, 'sources.list'), 'Dir::Etc::SourceParts': '-', 'Dir::State::Lists': lists,
               'APT::Sandbox::User': 'root', 'Dir::Cache::pkgcache': '', 'Dir::Cache::srcpkgcache': ''}
    return run(['apt-get', '-qq'] + ['-o%s=%s' % one for one in options.items()] + list(words), folder)


def source(daemon, cache):
    """The folder of the daemon's source, of the version that is installed; fetched and built if it isn't there."""
    package, configure, targets, programs = BUILDS[daemon]
    folder = os.path.join(cache, daemon)
    made = os.path.join(folder, 'source')
    if not os.path.exists(os.path.join(folder, 'built')):
        shutil.rmtree(made, ignore_errors=True)
        os.makedirs(folder, exist_ok=True)
        if not os.path.exists(os.path.join(cache, 'lists', 'lock')):
            apt(cache, 'update')
        version = ROUTERS[daemon].version()
        apt(cache, 'source', '--download-only', '%s=%s' % (package, version))
        name = '%s_%s.dsc' % (package, version.partition(':')[2] or version)
        run(['dpkg-source', '-x', os.path.join(cache, name), made], folder)
        run(configure, made)
        run(['make', '-j1'] + targets, made)
        copy(made, programs, os.path.join(folder, 'built'))
    return made


def copy(made, programs, folder):
    """The programs that were built, in a folder."""
    shutil.rmtree(folder, ignore_errors=True)
    os.makedirs(folder)
    for one in programs:
        shutil.copy(os.path.join(made, one), folder)


def build(daemon, name, patch, cache):
    """The folder with the programs that have the fault."""
    folder = os.path.join(cache, daemon, name)
    if os.path.exists(os.path.join(folder, 'patch')) and same(patch, os.path.join(folder, 'patch')):
        return folder
    made = source(daemon, cache)
    run(['patch', '-p1', '--no-backup-if-mismatch', '-i', patch], made)
    try:
        run(['make', '-j1'] + BUILDS[daemon][2], made)
        copy(made, BUILDS[daemon][3], folder)
    finally:
        run(['patch', '-R', '-p1', '--no-backup-if-mismatch', '-i', patch], made)
    shutil.copy(patch, os.path.join(folder, 'patch'))
    return folder


def same(one, other):
    with open(one, 'rb') as first, open(other, 'rb') as second:
        return first.read() == second.read()


# ---- hunts


def shows(daemon, path, asked):
    """Whether the daemon without the fault, built alike, shows something unexplained in a scenario, or can't run it."""
    command = [sys.executable, os.path.join(HERE, 'run.py'), path, '--daemon', daemon, '--program', asked.program, '--programs',
               os.path.join(asked.cache, daemon, 'built')]
    ran = subprocess.run(command, stdin=subprocess.DEVNULL, stdout=subprocess.PIPE, stderr=subprocess.STDOUT, check=False)
    return ran.returncode != 0


def printed(command):
    """What a command prints, which is printed at once, too."""
    said = ''
    with subprocess.Popen(command, stdin=subprocess.DEVNULL, stdout=subprocess.PIPE, stderr=subprocess.STDOUT, text=True) as ran:
        try:
            for line in ran.stdout:
                print(line, end='', flush=True)
                said += line
        except KeyboardInterrupt:
            ran.terminate()  # it takes its namespaces away
            ran.wait()
            raise
    return said


def hunt(daemon, name, programs, asked):
    """Hunts a fault; minutes, files, event lines and the path of the scenario, or None where it wasn't found in time."""
    into, begun, files = os.path.join(asked.cache, 'found', daemon, name), time.monotonic(), 0
    shutil.rmtree(into, ignore_errors=True)
    os.makedirs(into)
    seed = asked.seeds
    while (time.monotonic() - begun) / 60 < asked.minutes:
        left = asked.minutes - (time.monotonic() - begun) / 60
        said = printed(
            [sys.executable, os.path.join(HERE, 'hunt.py'), '--daemon', daemon, '--programs', programs, '--minutes', '%.2f' % left, '--groups',
             '1', '--jobs', str(asked.jobs), '--into', into, '--known', into, '--seeds', '%d..' % seed, '--program', asked.program])
        found = FOUND.search(said)
        if not found:
            return None
        files += int(found.group(3))
        seed += int(found.group(3)) + asked.jobs
        path = os.path.join(into, found.group(1))
        if not shows(daemon, path, asked):
            return (time.monotonic() - begun) / 60, files, int(found.group(4)), path
        print('%s: the daemon without the fault shows it too' % found.group(1), flush=True)
    return None


def results():
    """The lines of planted/results.txt, by daemon and name."""
    if not os.path.exists(RESULTS):
        return {}
    with open(RESULTS, encoding='ascii') as file:
        return {tuple(line.split()[:2]): line.split()[2:] for line in file}


def keep(daemon, name, line):
    found = results()
    found[daemon, name] = line
    with open(RESULTS, 'w', encoding='ascii') as file:
        for key, words in sorted(found.items()):
            file.write(' '.join(list(key) + words) + '\n')


def table():
    """The table of docs/HUNT.md."""
    yield '| Fault | Daemon | Minutes | Files | Lines | Jobs |'
    yield '|---|---|---|---|---|---|'
    found = results()
    for daemon, name, patch in faults(sorted(BUILDS), ''):
        words = found.get((daemon, name), ['not hunted', '', '', ''])
        yield '| %s | %s | %s |' % (told(patch), daemon, ' | '.join(words))


def write():
    """Writes what docs/HUNT.md has of this script: the text between two equal marks is replaced."""
    with open(DOCUMENT, encoding='utf-8') as file:
        text = file.read()
    for name, lines in (('faults', table()), ('topics', topics.told(ROUTERS.values()))):
        before, _, rest = text.partition(MARK % name)
        text = before + MARK % name + '\n'.join(lines) + '\n' + MARK % name + rest.partition(MARK % name)[2]
    with open(DOCUMENT, 'w', encoding='utf-8') as file:
        file.write(text)


def one(daemon, name, patch, asked):
    """Builds and hunts a fault; whether it was found."""
    print('%s: %s' % (daemon, told(patch)), flush=True)
    programs = build(daemon, name, patch, asked.cache)
    if asked.build:
        return True
    found = hunt(daemon, name, programs, asked)
    if found:
        shutil.copy(found[3], os.path.join(PLANTED, daemon, name + '.events'))
    keep(daemon, name, ['%.1f' % found[0], str(found[1]), str(found[2]), str(asked.jobs)] if found else ['-', '-', '-', str(asked.jobs)])
    return found is not None


def main():
    words = argparse.ArgumentParser(description=__doc__, formatter_class=argparse.RawDescriptionHelpFormatter)
    words.add_argument('--cache', metavar='FOLDER')
    words.add_argument('--daemons', default='bird,frr,openbgpd')
    words.add_argument('--only', default='')
    words.add_argument('--minutes', type=float, default=10)
    words.add_argument('--jobs', type=int, default=4)
    words.add_argument('--seeds', type=int, default=1)
    words.add_argument('--build', action='store_true')
    words.add_argument('--missing', action='store_true')
    words.add_argument('--write', action='store_true')
    words.add_argument('--program', default=program.BUILT)
    asked = words.parse_args()
    if asked.write:
        write()
        return 0
    if not asked.cache:
        words.error('--cache says where sources and builds go')
    asked.cache = os.path.abspath(asked.cache)
    for sign in (signal.SIGINT, signal.SIGTERM):
        signal.signal(sign, signal.default_int_handler)
    try:
        wanted = [fault for fault in faults(asked.daemons.split(','), asked.only) if not asked.missing or fault[:2] not in results()]
        found = [one(*fault, asked) for fault in wanted]
    except KeyboardInterrupt:
        return 130
    except OSError as error:
        print('planted.py: %s' % error, file=sys.stderr)
        return 2
    return 0 if all(found) else 1


if __name__ == '__main__':
    sys.exit(main())
