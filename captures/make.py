#!/usr/bin/env python3
"""Captures of real routers, and whether the program's tables are theirs: make.py [--daemons bird,frr,openbgpd,gobgp] [--routes 1000] [--program WORDS]

Each daemon runs in a network namespace of its own, in a second one its eight peers (eight.py): with AS numbers of two and of four octets, path
identifiers, messages of more than 4,096 octets, a second connection, a session over IPv6, sessions that end and come back. It writes a capture, and
in the middle of it a table dump. Of the whole capture, and of the dump with what was written behind it,

  1. prepare.py makes a capture of it that `mrt --as4` reads whole, `mrt` an event file, and `run` the tables
  2. the rows of each peer's `filt.K`, and of its stand-ins, are compared with the routes that the daemon shows at the end

How many differ is said of each peer, and the first of them; at the end of all a table in Markdown (bench/README.md). Where a router records no change
of state (GoBGP), a capture lacks the ends of sessions, and the peers whose sessions ended may differ. Then two captures more are compared, in which
nothing may: `told`, the whole one with a change of state put in where each session ended, and `later`, a table dump written at the end.

`--kept` writes captures/kept/ anew, with the stories in examples/captures/: small captures with the daemon's own table, so
that captures/check.py compares without a daemon. `--keep FOLDER` keeps all files.

Statuses: 0; 1 where something differs; 2 where nothing could be compared. Needs root, `ip netns`, and Debian's `bird2`, `frr`, `openbgpd`, `gobgpd`;
what isn't installed is left out.
"""
import argparse
import contextlib
import io
import os
import signal
import socket
import subprocess
import sys
import tempfile
import time

sys.dont_write_bytecode = True
sys.path.insert(0, os.path.join(os.path.dirname(os.path.abspath(__file__)), '..', 'python'))
import check
import eight
import router
import shown
from bgp import mrt, namespaces, program, session
from recorders import RECORDERS, Station

SMALL = 12  # routes of each peer of a story
QUIET = .3  # seconds
SPECIAL = {4: 'long messages', 5: 'several paths of a prefix', 8: 'IPv4 over IPv6'}  # of peers
HEAD = '''| Router | Prefixes | Whole | Dump | BMP | Lacks | Not taken by the router |
|---|---|---|---|---|---|---|'''


class Bench:
    """The daemon's namespace and that of the peers, with one link between them."""

    def __init__(self):
        self.router, self.peers = ('captures-%d-%s' % (os.getpid(), name) for name in ('router', 'peers'))

    def make(self):
        namespaces.make(self.router)
        namespaces.make(self.peers)
        namespaces.link(self.router, 'eth0', self.peers, 'peers0')
        namespaces.ip('-n %s addr add %s/24 dev eth0' % (self.router, eight.ROUTER))
        namespaces.ip('-n %s addr add %s/64 dev eth0 nodad' % (self.router, eight.ROUTER6))
        for number in eight.ASES:
            length = '64 dev peers0 nodad' if number == 8 else '24 dev peers0'
            namespaces.ip('-n %s addr add %s/%s' % (self.peers, eight.address(number), length))

    def delete(self):
        for name in (self.router, self.peers):
            namespaces.delete(name)


@contextlib.contextmanager
def inside(namespace):
    """This process in a namespace, for a while."""
    with open('/proc/self/ns/net', encoding='ascii') as own:
        namespaces.enter(namespace)
        try:
            yield
        finally:
            namespaces.set_to(own)


def rest_of(recorder):
    """What waits until a daemon takes hardly any CPU."""
    def rest():
        last, since = recorder.used(), time.monotonic()
        while time.monotonic() - since < QUIET:
            time.sleep(.1)
            used = recorder.used()
            if used - last > .003:
                last, since = used, time.monotonic()
        time.sleep(QUIET)
    return rest


def recorded(recorder, station, routes):
    """The captures of a daemon by file, what it shows at the end, the peers of which it doesn't take what is special, and those of which the
    capture lacks the ends of sessions."""
    ends = []
    peers = eight.Eight(routes, rest_of(recorder), lambda number: ends.append((number, len(recorder.capture()))), recorder.hold)
    try:
        peers.announce()
        peers.connect_twice()
        dump, size = recorder.dump(), len(recorder.capture())
        peers.change()
        whole, shows = recorder.capture(), recorder.shows()
        files = {'all.mrt': whole, 'dump.mrt': dump, 'behind.mrt': whole[size:], **({'stream.bmp': station.octets} if station else {})}
        is_told = has_states(whole)
        if not is_told:
            files.update({'told.mrt': with_ends(whole, ends), 'later.mrt': recorder.dump()})
    finally:
        peers.close()
    return files, shows, peers.left_out, set() if is_told else {number for number, _ in ends}


def has_states(octets):
    """Whether a capture has a change of state."""
    return any(kind in (mrt.BGP4MP, mrt.BGP4MP_ET) and subtype in (mrt.STATE_CHANGE, mrt.STATE_CHANGE_AS4)
               for _, kind, subtype, _ in mrt.records(io.BytesIO(octets)))


def with_ends(octets, ends):
    """A capture with a change of state at each of these places."""
    found, at = [], 0
    for number, place in ends:
        found += octets[at:place], mrt.made_states(True, mrt.ESTABLISHED, 1, peer_as=eight.ASES[number], peer=socket.inet_aton(eight.address(number)))
        at = place
    return b''.join(found) + octets[at:]


def write(folder, files, shows):
    """Writes the files into a folder; into that of the stories, those of which one is made."""
    os.makedirs(folder, exist_ok=True)
    wanted = check.FILES['all'] + check.FILES['dump'] if os.path.dirname(folder) == check.KEPT else files
    for name, octets in ((name, files[name]) for name in wanted):
        with open(os.path.join(folder, name), 'wb') as file:
            file.write(octets)
    with open(os.path.join(folder, 'table.json'), 'w', encoding='ascii') as file:
        file.write(shown.stored(shows))


def compared(folder, words):
    """Compares the program's tables with those that the daemon shows, and prints what differs; of each capture the prefixes, and how many
    of them differ, by peer."""
    found = {}
    for name, paths in check.captures(folder):
        octets, stand_ins = check.prepared(paths)
        events = subprocess.run(words + ['mrt', '--as4'], input=octets, stdout=subprocess.PIPE, check=True).stdout
        ran = subprocess.Popen(words + ['run'], stdin=subprocess.PIPE, stdout=subprocess.PIPE)
        output = ran.communicate(events)[0].decode('ascii').split('\n')[:-1]
        print('  %s: %d octets, %d lines of events, %d of output' % (name, len(octets), events.count(b'\n'), len(output)))
        found[name] = list(check.told(folder, events.decode('ascii').split('\n'), output, stand_ins))
    return found


class Row:
    """A daemon's row of the table."""

    def __init__(self, name, found, left_out, untold):
        self.name, self.found, self.left_out, self.untold = name, found, left_out, untold

    def excused(self, capture):
        """The peers that may differ in a capture, since it lacks the ends of their sessions."""
        return self.untold if capture in ('all', 'dump') else set()

    def wrong(self):
        """How many prefixes differ, but for what the capture lacks."""
        return sum(differing for capture, peers in self.found.items() for number, _, differing in peers if number not in self.excused(capture))

    def cell(self, capture):
        """How many differ in a capture, and of which peers."""
        peers = self.found.get(capture, [])
        differing = [(number, count) for number, _, count in peers if count]
        return '' if not peers else '0' if not differing else ', '.join('%s of peer %d' % (format(count, ','), number) for number, count in differing)

    def lacks(self):
        if not self.untold:
            return ''
        return 'the ends of sessions of peer %s: with them %s, by a later dump %s' % (
            ', '.join(map(str, sorted(self.untold))), self.cell('told'), self.cell('later'))

    def words(self):
        prefixes = sum(count for _, count, _ in self.found['told' if 'told' in self.found else 'all'])
        return '| %s | %s | %s | %s | %s | %s | %s |' % (
            self.name, format(prefixes, ','), self.cell('all'), self.cell('dump'), self.cell('bmp'), self.lacks(), '; '.join(SPECIAL[number] for number in self.left_out))


def made(name, routes, words, folder):
    """One daemon's captures in a folder, compared: its row of the table."""
    bench, recorder, station = Bench(), None, None
    with tempfile.TemporaryDirectory(prefix='captures-') as home:
        os.chmod(home, 0o755)
        try:
            bench.make()
            recorder = RECORDERS[name](home, bench.router)
            if recorder.speaks_bmp:
                with inside(bench.router):
                    station = Station()
            recorder.start()
            with inside(bench.peers):
                files, shows, left_out, untold = recorded(recorder, station, routes)
        finally:
            if recorder:
                recorder.stop()
            if station:
                station.close()
            bench.delete()
    write(folder, files, shows)
    print('%s %s: %s%s' % (name, recorder.version(), ', '.join('%s of %d octets' % (one, len(files[one])) for one in files),
                           '; it does not take what is special of peer %s' % ', '.join(map(str, left_out)) if left_out else ''))
    if untold:
        print('  it records no change of state: the ends of sessions of peer %s aren\'t in `all` and `dump`' % ', '.join(map(str, sorted(untold))))
    return Row('%s %s' % (name, recorder.version()), compared(folder, words), left_out, untold)


def stories(name, folder, words):
    """Keeps small captures, with the stories that they are."""
    for capture, paths in check.captures(folder):
        octets, _ = check.prepared(paths)
        events = subprocess.run(words + ['mrt', '--as4'], input=octets, stdout=subprocess.PIPE, check=True).stdout
        output = subprocess.run(words + ['run'], input=events, stdout=subprocess.PIPE, check=True).stdout
        for suffix, content in (('.mrt', octets), ('.events', events), ('.out', output)):
            with open(os.path.join(check.EXAMPLES, check.story(name, capture) + suffix), 'wb') as file:
                file.write(content)


def words():
    asked = argparse.ArgumentParser(description=__doc__, formatter_class=argparse.RawDescriptionHelpFormatter)
    asked.add_argument('--daemons', help='all of them; of those that are kept, all that record changes of state')
    asked.add_argument('--routes', type=int, default=1000)
    asked.add_argument('--program', default=program.BUILT)
    asked.add_argument('--keep', metavar='FOLDER')
    asked.add_argument('--kept', action='store_true')
    return asked


def main():
    parser = words()
    asked = parser.parse_args()
    wanted = asked.daemons.split(',') if asked.daemons else [name for name in RECORDERS if name != 'gobgp' or not asked.kept]
    if set(wanted) - set(RECORDERS):
        parser.error('no such daemon: ' + ', '.join(sorted(set(wanted) - set(RECORDERS))))
    there = [name for name in wanted if RECORDERS[name].installed()]
    if os.geteuid() or not there:
        print('make.py: %s' % ('none of these is installed' if there == [] else 'network namespaces need root'), file=sys.stderr)
        return 2
    for sign in (signal.SIGINT, signal.SIGTERM):
        signal.signal(sign, signal.default_int_handler)
    rows, failed = [], 0
    with tempfile.TemporaryDirectory(prefix='captures-') as made_folder:
        for name in there:
            folder = os.path.join(check.KEPT if asked.kept else asked.keep or made_folder, name)
            try:
                rows.append(made(name, SMALL if asked.kept else asked.routes, asked.program.split(' '), folder))
                if asked.kept:
                    stories(name, folder, asked.program.split(' '))
            except (OSError, EOFError, router.Failed, session.Refused, subprocess.SubprocessError) as error:
                failed += 1
                print('%s: no capture: %s' % (name, error))
            except KeyboardInterrupt:
                return 130
    print('\n'.join([HEAD] + [row.words() for row in rows]))
    return 1 if any(row.wrong() for row in rows) else 2 if failed else 0


if __name__ == '__main__':
    sys.exit(main())
