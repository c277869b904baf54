"""Real routers that write captures (docs/CAPTURES.md, "Who writes what"): how each is told to, how it dumps its table, and which routes it shows.

What a router shows is one table a peer: of each prefix the routes, each as a Route. Fields that it doesn't show are None.
"""
import collections
import json
import os
import re
import socket
import sys
import threading
import time

HERE = os.path.dirname(os.path.abspath(__file__))
sys.path.insert(0, os.path.join(HERE, '..', 'beside'))
import eight
from bgp import namespaces
import router

BMP_PORT = 11019
Route = collections.namedtuple('Route', 'path origin hop med aggregator')

BIRD = '''router id 192.0.2.254;
mrtdump "FOLDER/all.mrt";
mrtdump protocols all;
protocol device { }
'''
BIRD_PEER = '''protocol bgp peer%(number)d {
  local %(local)s as 65000; neighbor %(address)s as %(asn)d; passive; hold time 0;
  enable extended messages yes; error wait time 1, 1; error forget time 1; connect delay time 1;
  ipv4 { import all; export none; add paths rx; extended next hop on; };
}
'''
FRR = '''dump bgp all FOLDER/all.mrt
router bgp 65000
 bgp router-id 192.0.2.254
 no bgp ebgp-requires-policy
 no bgp network import-check
 timers bgp 0 0
'''
FRR_PEER = ''' neighbor %(address)s remote-as %(asn)d
 neighbor %(address)s passive
 neighbor %(address)s disable-connected-check
'''
FRR_FAMILY = '''  neighbor %(address)s activate
  neighbor %(address)s route-map nothing out
'''
OPENBGPD = '''AS 65000
router-id 192.0.2.254
listen on 192.0.2.254
listen on 2001:db8::fe
fib-update no
holdtime 180
socket "FOLDER/ctl"
dump all in "FOLDER/all.mrt"
dump rib Adj-RIB-In table-v2 "FOLDER/dump.mrt" 2
'''
OPENBGPD_PEER = '''neighbor %(address)s {
  remote-as %(asn)d
  passive
  enforce neighbor-as no
  announce add-path recv yes
%(family)s}
'''
GOBGP = '''[global.config]
  as = 65000
  router-id = "192.0.2.254"
  local-address-list = ["192.0.2.254", "2001:db8::fe"]
[global.apply-policy.config]
  default-export-policy = "reject-route"
[[mrt-dump]]
  [mrt-dump.config]
    dump-type = "updates"
    file-name = "all.mrt"
[[mrt-dump]]
  [mrt-dump.config]
    dump-type = "table"
    file-name = "dumps.mrt"
    dump-interval = 60
[[bmp-servers]]
  [bmp-servers.config]
    address = "127.0.0.1"
    port = 11019
'''
GOBGP_PEER = '''[[neighbors]]
  [neighbors.config]
    neighbor-address = "%(address)s"
    peer-as = %(asn)d
  [neighbors.transport.config]
    passive-mode = true
    local-address = "%(local)s"
  [neighbors.timers.config]
    hold-time = 240.0
    idle-hold-time-after-reset = 1.0
  [[neighbors.afi-safis]]
    [neighbors.afi-safis.config]
      afi-safi-name = "ipv4-unicast"
    [neighbors.afi-safis.add-paths.config]
      receive = true
'''


def of_each(form, numbers, **more):
    """A text for each peer."""
    return ''.join(form % {'number': number, 'address': eight.address(number), 'asn': eight.ASES[number],
                           'local': eight.ROUTER6 if number == 8 else eight.ROUTER, **{name: made(number) for name, made in more.items()}}
                   for number in numbers)


def origin(word):
    return {'igp': 'IGP', 'i': 'IGP', '0': 'IGP', 'egp': 'EGP', 'e': 'EGP', '1': 'EGP'}.get(str(word).lower(), 'INCOMPLETE')


class Recorder(router.Router):
    """A router that writes a capture into a folder. Not for other folders' `wanted`: it has the eight peers."""

    hold = 0
    speaks_bmp = False  # to a station at BMP_PORT of 127.0.0.1 in its namespace
    limit = 300  # a whole table takes a while

    def __init__(self, folder, namespace):
        super().__init__(folder, namespace, None)
        self.numbers_of = {eight.address(number): number for number in eight.ASES}

    def configuration(self):
        raise NotImplementedError

    def conf(self):
        return self.write('conf', self.configuration().replace('FOLDER', self.folder))

    def capture(self):
        """The capture as it is now."""
        with open(self.path('all.mrt'), 'rb') as file:
            return file.read()

    def dump(self):
        """A table dump."""
        raise NotImplementedError

    def shows(self):
        """The routes of each peer: by its number, then by prefix."""
        raise NotImplementedError

    def dumped(self, name, behind=0, seconds=90):
        """The octets of a dump, which begins at that place of a file, once it is written and grows no more."""
        def size():
            return os.path.getsize(self.path(name)) if os.path.exists(self.path(name)) else 0

        def is_whole():
            before = size()
            time.sleep(.5)
            return behind < before == size()
        if not namespaces.until(is_whole, seconds):
            raise router.Failed('%s writes no table dump' % self.name)
        with open(self.path(name), 'rb') as file:
            file.seek(behind)
            return file.read()


class Station:
    """A monitoring station: keeps what is sent to it. Made in the namespace of the router."""

    def __init__(self):
        self.octets, self.listening = b'', socket.create_server(('127.0.0.1', BMP_PORT))
        threading.Thread(target=self.listen, daemon=True).start()

    def listen(self):
        try:
            while True:
                with self.listening.accept()[0] as made:
                    while more := made.recv(1 << 16):
                        self.octets += more
        except OSError:
            pass

    def close(self):
        self.listening.close()


class Bird(Recorder):
    name, package, programs = 'bird', 'bird2', ('bird', 'birdc')

    def configuration(self):
        return BIRD + of_each(BIRD_PEER, eight.ASES)

    def birdc(self, words, may_fail=False):
        return self.command(['birdc', '-s', self.path('ctl')] + words.split(), may_fail)

    def start(self):
        self.run(['bird', '-f', '-c', self.conf(), '-s', self.path('ctl')])
        self.wait(lambda: 'Daemon is up' in self.birdc('show status', True))

    def dump(self):
        self.birdc('mrt dump table "master4" to "%s"' % self.path('dump.mrt'))
        return self.dumped('dump.mrt')

    def shows(self):
        found, prefix, route = collections.defaultdict(lambda: collections.defaultdict(list)), None, None
        for line in self.birdc('show route all').split('\n'):
            begun = re.match(r'(\S*)\s+\w+ .*?\[peer(\d+) ', line)
            if begun:
                prefix = begun[1] or prefix
                route = {}
                found[int(begun[2])][prefix].append(route)
            said = re.match(r'\tBGP\.(\w+): ?(.*)', line)
            if said:
                route[said[1]] = said[2].strip()
        return {number: {prefix: [self.told(route) for route in routes] for prefix, routes in rows.items()} for number, rows in found.items()}

    @staticmethod
    def told(route):
        aggregator = re.match(r'(\S+) AS(\d+)', route.get('aggregator', ''))
        return Route(route.get('as_path', ''), origin(route['origin']), route['next_hop'].split(' ')[0], route.get('med', '0'),
                     '%s/%s' % (aggregator[2], aggregator[1]) if aggregator else '')


class Frr(Recorder):
    name, package, programs = 'frr', 'frr', ('/usr/lib/frr/bgpd', 'vtysh')
    run_folder = 'frr'

    def configuration(self):
        family = of_each(FRR_FAMILY, eight.ASES)
        return (FRR + of_each(FRR_PEER, eight.ASES) + ' neighbor 2001:db8::8 capability extended-nexthop\n address-family ipv4 unicast\n'
                + family + ' exit-address-family\nexit\nroute-map nothing deny 10\n')

    def vtysh(self, *commands, may_fail=False):
        return self.command(['vtysh', '--vty_socket', self.folder, '-d', 'bgpd'] + [word for one in commands for word in ('-c', one)], may_fail)

    def start(self):
        self.run([self.programs[0], '-f', self.conf(), '-i', self.path('pid'), '-z', self.path('none'), '--vty_socket', self.folder, '-P', '0',
                  '-S', '-n', '-Z', '-l', eight.ROUTER, '-l', eight.ROUTER6])
        self.wait(lambda: '192.0.2.254' in self.vtysh('show bgp summary', may_fail=True))

    def dump(self):
        self.vtysh('configure terminal', 'dump bgp routes-mrt %s 1' % self.path('dump.mrt'))
        found = self.dumped('dump.mrt')
        self.vtysh('configure terminal', 'no dump bgp routes-mrt %s 1' % self.path('dump.mrt'), may_fail=True)
        return found

    def shows(self):
        found = collections.defaultdict(lambda: collections.defaultdict(list))
        for prefix, paths in json.loads(self.vtysh('show bgp ipv4 unicast json'))['routes'].items():
            for one in paths:
                hop = next((hop['ip'] for hop in one['nexthops'] if hop.get('scope') != 'link-local'), None)
                found[self.numbers_of[one['peerId']]][prefix].append(Route(one['path'], origin(one['origin']), hop, str(one.get('metric', 0)), None))
        return found


class OpenBgpd(Recorder):
    name, package, programs = 'openbgpd', 'openbgpd', ('bgpd', 'bgpctl')
    run_folder = 'openbgpd'

    def configuration(self):
        # it sends no OPEN with the capability of IPv4 over IPv6 by itself
        return OPENBGPD + of_each(OPENBGPD_PEER, eight.ASES, family=lambda number: '  announce IPv4 unicast\n' if number == 8 else '') + 'allow from any\n'

    def bgpctl(self, words, may_fail=False):
        return self.command(['bgpctl', '-s', self.path('ctl')] + words.split(), may_fail)

    def start(self):
        self.run(['bgpd', '-d', '-f', self.conf()])
        self.wait(lambda: 'Neighbor' in self.bgpctl('show', True))

    def dump(self):
        time.sleep(3)  # it writes one every two seconds
        return self.dumped('dump.mrt')

    def shows(self):
        found = collections.defaultdict(lambda: collections.defaultdict(list))
        for one in json.loads(self.bgpctl('-j show rib in'))['rib']:
            found[self.numbers_of[one['neighbor']['remote_addr']]][one['prefix']].append(
                Route(one['aspath'], origin(one['origin']), None, str(one.get('metric', 0)), None))
        return found


class GoBgp(Recorder):
    name, package, programs = 'gobgp', 'gobgpd', ('gobgpd', 'gobgp')
    hold = 240  # where it is 0, it gives itself no time to write a message
    speaks_bmp = True

    def configuration(self):
        return GOBGP + of_each(GOBGP_PEER, eight.ASES)

    def gobgp(self, words, may_fail=False):
        return self.command(['gobgp'] + words.split(), may_fail)

    def start(self):
        # it takes the name of a file for a form of the time, so digits of a folder become those of the day: no folder stands in it
        self.run(['sh', '-c', 'cd "$0" && exec "$@"', self.folder, 'gobgpd', '-f', self.conf(), '-t', 'toml'])
        self.wait(lambda: 'AS' in self.gobgp('global', True))

    def dump(self):
        """The next one: it writes one a minute, behind the others."""
        behind = os.path.getsize(self.path('dumps.mrt'))
        return self.dumped('dumps.mrt', behind)

    def shows(self):
        found = collections.defaultdict(lambda: collections.defaultdict(list))
        for number in eight.ASES:
            said = self.gobgp('neighbor %s adj-in -a ipv4 -j' % eight.address(number), True).strip()
            rows = json.loads(said) if said.startswith('{') else {}
            for prefix, paths in () if 'error' in rows else rows.items():  # of a peer that is down it says so
                found[number][prefix] = [self.told({one['type']: one for one in path['attrs']}) for path in paths]
        return found

    @staticmethod
    def told(said):
        path = ' '.join(('{%s}' if one['segment_type'] == 1 else '%s') % (',' if one['segment_type'] == 1 else ' ').join(map(str, one['asns']))
                        for one in said[2].get('as_paths') or [])
        hop = said[3]['nexthop'] if 3 in said else said[14]['nexthop']
        aggregator = '%d/%s' % (said[7]['as'], said[7]['address']) if 7 in said else ''
        return Route(path, origin(said[1]['value']), hop, str(said[4]['metric']) if 4 in said else '0', aggregator)


RECORDERS = {one.name: one for one in (Bird, Frr, OpenBgpd, GoBgp)}
