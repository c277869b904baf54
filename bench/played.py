"""An event file of events.py on a real daemon, for all.py: CPU seconds and peak memory of all that the daemon does.

The daemon plays the local speaker, and each peer of the file is a small speaker of this script (daemons.py) that sends the file's
messages as they are. What stands before the first message becomes the daemon's configuration; after the first `idle` a rule or an
interior route becomes a changed one, `lost` stops a protocol, `down` closes a connection, and a ROUTE-REFRESH is sent. BIRD plays each
kind of file but the one that asks questions; FRR and OpenBGPD a table and its loss.

CPU is user and system time of all the daemon's processes, from its start until the peer of the greatest number has been sent all that
the file makes of it and the daemon is quiet; memory is the sum of their peak resident sets. A daemon packs prefixes of equal
attributes into one UPDATE.

BIRD keeps its defaults, which spare it work, but where a row is about something else: it passes the next hop of a shared subnet on,
takes the peer's own subnet for the way to a next hop (`gateway direct`), and compares routes two by two. Only over interior routes
it looks next hops up (`gateway recursive`), and it keeps what it received (`import table`) only where an incoming filter changes.
"""
import os
import re
import socket
import subprocess
import sys
import tempfile
import threading

sys.path.insert(0, os.path.join(os.path.dirname(os.path.abspath(__file__)), '..', 'beside'))
import bird
import daemons
import events
from bgp import eventfile, namespaces, wire

MOST_PEERS = 65
PAUSE = 3.6  # seconds: BIRD may leave work until it next wakes up, which takes three
INTERFACES = ['eth%d' % place for place in range(4)]  # those that interior routes name
KINDS = {'bird': [kind for kind in events.KINDS if kind != 'asked'], 'frr': ['table', 'loss'], 'openbgpd': ['table', 'loss']}

HEAD = '''router id %s;
protocol device { }
protocol direct { ipv4; }
ipv4 table interior;
'''
HEAD6 = '''protocol direct { ipv6; }
ipv6 table interior6;
'''
STATIC = '''protocol static from_%s { ipv4 { %s};
%s}
'''
PEER = '''protocol bgp peer%d { local %s as %d; neighbor %s as %d; passive on; hold time 0;
  ipv4 { %simport %s; export %s; };%s }
'''
PEER6 = '''
  ipv6 { next hop address %s; import %s; export %s; };'''
REJECTED = '      if true then { reject; }\n      accept;\n'  # the filter that a rule makes which rejects all


class File(eventfile.Wanted):
    """What an event file makes of a daemon, and its events from the first message or `idle` on. Of those that are taken, an edit
    changes it."""

    def __init__(self, file):
        super().__init__()
        file.seek(0)
        self.up, self.events, self.senders, self.announced = set(), [], [], 0
        for line in file:
            words = line.decode('ascii').split()
            if self.events or words[0] in ('bgp', 'idle', 'work'):
                self.events.append(self.parsed(words))
            elif words[0] == 'up':
                self.up.add(int(words[1]))
            elif words[0] == 'down':
                self.up.discard(int(words[1]))
            else:
                self.take(words)
        said = [words[:2] for words in self.events]
        self.keeps = ['filter', 'in'] in said
        self.refreshes = any(words[0] == 'refresh' for words in self.events)

    def parsed(self, words):
        """An event; of a message its octets, and how many prefixes its peer has announced with it."""
        if words[0] != 'bgp':
            return words
        number, octets = int(words[1]), bytes.fromhex(words[2])
        if wire.asks_again(octets):
            return ['refresh', number, octets]
        if number not in self.senders:
            self.senders.append(number)
            self.announced = 0
        self.announced += len(daemons.prefixes(octets[19:])[1])
        return ['bgp', number, octets, self.announced]

    def interior_routes(self):
        return sum(len(table) for protocol, table in self.interior.items() if protocol not in self.redistributed | {'connected'})


def statics(wanted):
    """The interior routes, in a table for next hops; those that are redistributed in the main table, which is sent."""
    for protocol, table in wanted.interior.items():
        if protocol == 'connected' or not table:
            continue
        place = '' if protocol in wanted.redistributed else 'table interior; preference %d; ' % (250 - eventfile.DISTANCES[protocol])
        yield STATIC % (protocol, place, ''.join(
            "  route %s via %s%%'%s' onlink { igp_metric = %d; };\n" % (prefix, way.gateway, way.interface, way.metric)
            for prefix, way in table.items()))


def imported(wanted, number):
    """The filter of what comes from a peer."""
    if number not in wanted.senders:
        return 'none'
    rules = wanted.filters['in'].get(number)
    return 'filter {\n%s  }' % ''.join(bird.filtered(rules, '')) if rules else 'all'


def exported(wanted, number):
    """The filter of what is sent to a peer. Who announces, and would be sent nothing, needs none."""
    rules = wanted.filters['out'].get(number)
    said = ''.join(bird.filtered(rules, '')) if rules else ''
    if number in wanted.senders and (said == REJECTED or wanted.senders == [number] and not wanted.own()):
        return 'none'
    return 'filter {\n%s  }' % said if rules else 'all'


def of_bird(wanted):
    """BIRD's configuration."""
    far = 'gateway recursive; igp table interior; ' if wanted.interior_routes() else ''
    kept = 'import table on; ' if wanted.keeps else ''
    return HEAD % wanted.identifier + HEAD6 * (wanted.second is not None) + ''.join(statics(wanted)) + ''.join(
        PEER % (number, wanted.address, wanted.asn, peer.address, peer.asn, kept + far, imported(wanted, number), exported(wanted, number),
                channel6(wanted, number)) for number, peer in wanted.peers.items())


def channel6(wanted, number):
    """What is done with the routes of IPv6 that a peer sends and is sent: as with those of IPv4, without rules."""
    if not wanted.second:
        return ''
    is_sender = number in wanted.senders
    return PEER6 % (wanted.second.address, 'all' if is_sender else 'none', 'none' if wanted.senders == [number] else 'all')


class Played:
    """A daemon and its peers' speakers, event by event."""

    def __init__(self, name, folder, start, config, wanted):
        self.name, self.control, self.wanted, self.config = name, folder + '/ctl', wanted, folder + '/conf'
        self.daemon = daemons.Daemon(name, folder, start, config)
        self.speakers, self.last, self.before = {}, None, 0
        for number in sorted(wanted.up, reverse=True):
            peer = wanted.peers[number]
            made = self.speakers[number] = daemons.Speaker(peer.address, peer.asn, wanted.wide, wanted.refreshes, wanted.second is not None)
            threading.Thread(target=made.listen, daemon=True).start()
        # who is sent all, if anybody is: the peer of the greatest number
        told = wanted.up and exported(wanted, max(wanted.up)) == 'all'
        self.observer = self.speakers[max(wanted.up)] if told else None
        self.more = wanted.announced + len(wanted.own())  # how many announcements the observer waits for
        self.done = (lambda: self.is_told(self.more)) if self.observer else None

    def is_told(self, count):
        """Whether the observer was told so many routes since the last `idle`."""
        return self.observer.told - self.before >= count

    def take(self, words):
        getattr(self, 'take_' + words[0])(*words[1:])

    def take_bgp(self, number, octets, _):
        if self.last not in (None, number):
            self.taken()
        self.last = number
        self.speakers[number].socket.sendall(octets)

    def taken(self):
        """Waits until the last sender's octets are all taken."""
        if self.last and not namespaces.until(self.speakers[self.last].all_taken, 60, .01):
            raise TimeoutError('the daemon takes no more messages')

    def take_work(self, *_):
        """After a message: until the observer has all that it announced."""
        announced = self.wanted.events[self.place][3] if self.wanted.events[self.place][0] == 'bgp' else None
        if announced and not namespaces.until(lambda: self.is_told(announced), 60, .0002):
            raise TimeoutError('the observer is not told a message')

    def take_idle(self):
        """Waits until what the last event has to bring about is seen; where nothing is to be seen, longer than BIRD pauses."""
        self.taken()
        daemons.wait(self.done or (lambda: True), self.daemon, 600, .2 if self.done else PAUSE)
        self.before, self.done = self.observer.told if self.observer else 0, None

    def take_refresh(self, number, octets):
        self.speakers[number].socket.sendall(octets)
        self.done = lambda: self.is_told(self.more)

    def take_down(self, number):
        """Another route comes in the place of each, or a withdrawal."""
        left = len(self.observer.announced) - self.wanted.announced
        self.speakers[int(number)].socket.shutdown(socket.SHUT_RDWR)
        self.last = None
        others = len(self.wanted.senders) > 1
        self.done = lambda: self.is_told(self.more) if others else len(self.observer.announced) <= left

    def take_filter(self, *words):
        """New rules: all is sent again."""
        self.reconfigure(['filter'] + list(words))
        self.done = lambda: self.is_told(self.more)

    def take_route(self, *words):
        self.reconfigure(['route'] + list(words))

    def take_lost(self, protocol):
        self.wanted.take(['lost', protocol])
        self.tell('disable from_' + protocol, 'disabled')

    def reconfigure(self, words):
        self.wanted.take(words)
        with open(self.config, 'w', encoding='ascii') as file:
            file.write(of_bird(self.wanted))
        self.tell('configure', 'Reconfigur')

    def tell(self, words, answer=''):
        """What BIRD answers to a command."""
        said = subprocess.run(['birdc', '-s', self.control] + words.split(), stdin=subprocess.DEVNULL, stdout=subprocess.PIPE,
                              stderr=subprocess.STDOUT, timeout=60, check=False).stdout.decode(errors='replace')
        if answer not in said:
            raise OSError('birdc %s: %s' % (words, said.strip()[-300:]))
        return said

    def check(self):
        """Where nobody was sent anything, the daemon has to have the routes itself."""
        if self.observer is None:
            table, count = ('master4', self.wanted.announced) if self.wanted.peers else ('interior', self.wanted.interior_routes())
            found = re.search(r' for (\d+) networks', self.tell('show route table %s count' % table))
            if found is None or int(found.group(1)) < count:
                raise OSError('%s has %s of %d routes' % (self.name, found and found.group(1), count))

    def stop(self):
        self.daemon.stop()
        for made in self.speakers.values():
            made.close()


def place():
    """Makes the namespaces, with all that a file may name: the addresses of its peers, and interfaces."""
    daemons.namespaces()
    for number in range(3, MOST_PEERS + 1):
        namespaces.ip('-n bench-peers addr add 192.0.2.%d/24 dev bench1' % number)
    for name in INTERFACES:
        namespaces.link('bench-daemon', name, 'bench-peers', name)


def measure(name, start, config, file):
    """CPU seconds and peak MiB of an event file. Runs in the speakers' namespace."""
    wanted = File(file)
    with tempfile.TemporaryDirectory(prefix='bench-') as folder:
        played = Played(name, folder, start, of_bird(wanted) if name == 'bird' else config, wanted)
        try:
            for played.place, words in enumerate(wanted.events, -1):
                played.take(words)
            seconds, memory = played.daemon.used()
            played.check()
            return {'seconds': seconds, 'mib': memory}
        finally:
            played.stop()
