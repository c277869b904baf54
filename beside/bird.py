"""BIRD beside `replay` (Debian's `bird2`): interior routes are static ones in a table of their own, which next hops are looked up in."""
import re

from bgp import wire
from bgp.eventfile import DISTANCES, Wanted, masked, plain
from bgp.program import Best
from router import Failed, Router, bounds, flat, origin

ORIGINS = ('ORIGIN_IGP', 'ORIGIN_EGP', 'ORIGIN_INCOMPLETE')
SETS = {'pref': 'bgp_local_pref = %d;', 'med': 'bgp_med = %d;', 'nomed': 'unset(bgp_med);', 'prepend': 'prepends = %d;'}
SHOWN = 400  # `birdc` cuts longer paths
NAMES = {wire.IPV4: {'family': 'ipv4', 'six': '', 'main': 'master4'}, wire.IPV6: {'family': 'ipv6', 'six': '6', 'main': 'master6'}}

# `prepends` counts how often more than once the own AS goes in front of the path, without a longer path in the decision
HEAD = '''router id %(identifier)s;
attribute int prepends;
protocol device { }
function prepended() {
%(prepends)s}
'''
# of each family; the names of IPv6 end with a 6
TABLES = '''%(family)s table interior%(six)s;
protocol static own%(six)s { %(family)s { preference 254; };
%(own)s}
'''
INTERIOR = '''protocol static from%(six)s_%(protocol)s { %(family)s { table interior%(six)s; preference %(preference)d; };
%(routes)s}
'''
PEER = '''protocol bgp peer%(number)d {
  local %(local)s as %(own)d; neighbor %(address)s as %(asn)d;
  passive on; hold time 0; connect delay time 1; connect retry time 1; error wait time 1, 1; error forget time 1;
  deterministic med on;%(reflected)s
%(channels)s}
'''
CHANNEL = '''  %(family)s { import table on; gateway recursive; igp table interior%(six)s; %(self)s
    import filter {
%(in)s    };
    export filter {
      if dest = RTD_UNREACHABLE then reject;
      if source != RTS_BGP then { bgp_origin = ORIGIN_INCOMPLETE; bgp_next_hop = %(local)s; }
%(out)s    };
  };
'''


def condition(words):
    if words[0] == 'path':
        return 'bgp_path ~ [= * %s * =]' % words[1]
    if words[0] == 'origin':
        return 'bgp_origin = %s' % ORIGINS[int(words[1])] if int(words[1]) < 3 else 'false'
    if words[0] == 'any':
        return 'true'
    found = bounds(words)
    return 'net ~ [ %s{%d,%d} ]' % ((masked(found[0]),) + found[1:]) if found else 'false'


def filtered(rules, last):
    """The lines of a filter; `last` stands before each `accept`."""
    for rule in rules:
        done = ''.join(' ' + (SETS[word] % number if number is not None else SETS[word]) for word, number in rule.actions)
        end = {'accept': ' %saccept;' % last, 'reject': ' reject;', 'next': ''}[rule.verdict]
        yield '      if %s then {%s%s }\n' % (condition(rule.condition), done if rule.verdict != 'reject' else '', end)
    yield '      %saccept;\n' % last


class Bird(Router):
    name, package, programs, keeps = 'bird', 'bird2', ('bird', 'birdc'), True

    def config(self):
        wanted = self.wanted
        prepends = ''.join('  if prepends >= %d then bgp_path.prepend(%d);\n' % (number, wanted.asn) for number in range(1, 17))
        said = HEAD % {'identifier': wanted.identifier, 'prepends': '  if defined(prepends) then {\n%s  }\n' % prepends}
        for network in wanted.networks():
            said += TABLES % {'own': ''.join('  route %s blackhole;\n' % prefix for prefix in network.own()), **NAMES[network.family]}
            said += ''.join(self.interior(network, protocol) for protocol in network.interior)
        return said + ''.join(self.of_peer(peer) for peer in wanted.peers.values())

    @staticmethod
    def interior(network, protocol):
        routes = ''.join('  route %s via %s { igp_metric = %d; };\n' % (
            prefix, "%s%%'%s' onlink" % (way.gateway, way.interface) if way.gateway else '"%s"' % way.interface, way.metric)
            for prefix, way in sorted(network.interior[protocol].items()))
        return INTERIOR % {'protocol': protocol, 'preference': 250 - DISTANCES[protocol], 'routes': routes, **NAMES[network.family]}

    def of_peer(self, peer):
        wanted = self.wanted
        is_reflected = wanted.is_internal(peer) and wanted.reflects
        return PEER % {
            'number': peer.number, 'local': wanted.address, 'own': wanted.asn, 'address': peer.address, 'asn': peer.asn,
            'reflected': ' rr cluster id %s;%s' % (wanted.identifier, ' rr client;' * peer.client) if is_reflected else '',
            'channels': ''.join(self.channel(peer, network) for network in wanted.networks())}

    def channel(self, peer, network):
        """What is done with the routes of a family that a peer sends and is sent. Over a session of IPv4 a next hop of IPv6 has to be named."""
        inner = self.wanted.is_internal(peer)
        own = 'next hop address %s; ' % network.address if network.family == wire.IPV6 else ''
        return CHANNEL % {
            'local': network.address, 'self': own + ('' if inner else 'next hop self;'),
            'in': ''.join(filtered(network.filters['in'].get(peer.number, []), '')),
            'out': ''.join(filtered(network.filters['out'].get(peer.number, []), '' if inner else 'prepended(); ')), **NAMES[network.family]}

    def control(self, words, may_fail=False):
        return self.command(['birdc', '-s', self.path('ctl')] + words.split(), may_fail)

    def start(self):
        self.run(['bird', '-f', '-c', self.write('conf', self.config()), '-s', self.path('ctl')])
        self.wait(lambda: 'Daemon is up' in self.control('show status', True))

    def apply(self, before, wanted):
        self.wanted = wanted
        self.write('conf', self.config())
        said = self.control('configure')
        if 'Reconfigured' not in said and 'in progress' not in said:
            raise Failed('birdc configure: ' + said.strip())

    def renew(self, wanted):
        """First without any peer and route, so that no protocol goes on."""
        empty = Wanted()
        empty.asn, empty.identifier, empty.address = wanted.asn, wanted.identifier, wanted.address
        for one in (empty, wanted):
            self.apply(self.wanted, one)
            self.wait(lambda: 'Daemon is up' in self.control('show status', True))

    def best(self):
        found, route = {}, {}
        numbers = {'peer%d' % number: number for number in self.wanted.peers}
        for family in self.wanted.families():
            for line in self.control('show route primary all table %s' % NAMES[family]['main']).split('\n'):
                begun = re.match(r'(\S+/\d+)\s+(\w+) .*?\[(\w+)', line)
                if begun:
                    prefix, kind, protocol = begun.groups()
                    route = {'peer': numbers.get(protocol, 0)}
                    if kind != 'unreachable':
                        found[masked(prefix)] = route
                said = re.match(r'\tBGP\.(\w+): ?(.*)', line)
                if said:
                    route[said.group(1)] = said.group(2).strip()
        return {prefix: self.told(route) for prefix, route in found.items()}

    @staticmethod
    def told(route):
        if not route['peer']:
            return Best(0, None, None, None, None, None)
        path = flat(route['as_path']) if len(route['as_path']) < SHOWN else None
        preference = int(route['local_pref']) if 'local_pref' in route else None  # it isn't shown where one came from an external peer
        hop = '+'.join(map(plain, route['next_hop'].split()))
        return Best(route['peer'], preference, int(route.get('med', 0)), path, origin(route['origin']), hop)
