"""OpenBGPD beside `replay` (Debian's `openbgpd`). On Linux it sees no routes of the kernel: each next hop is taken to be reachable."""
import json

from bgp import eventfile, namespaces, wire
from bgp.eventfile import masked, plain
from bgp.program import Best
import faults
from router import Failed, Router, adds_up, bounds, flat, origin

HEAD = '''AS %(asn)d
router-id %(identifier)s
listen on %(address)s
socket "%(socket)s"
fib-update no
holdtime 180
rde med compare strict
rde route-age ignore
'''
PEER = '''neighbor %(address)s {
  remote-as %(asn)d
  passive
  enforce neighbor-as no
%(families)s%(reflected)s}
'''
FAMILIES = '  announce IPv4 unicast\n  announce IPv6 unicast\n'
INET = {wire.IPV4: ' inet', wire.IPV6: ' inet6'}


def condition(words, inet):
    if words[0] == 'any':
        return inet
    if words[0] == 'path':
        return '%s AS %s' % (inet, words[1])
    network, least, most = bounds(words)
    return ' prefix %s prefixlen %d - %d' % (masked(network), least, most)


def rule_lines(way, address, rules, inet=''):
    """The lines of a peer's filter, of one family where there are two; the first rule that decides is `quick`."""
    for rule in rules:
        if rule.condition[0] not in ('any', 'path', 'origin') and not bounds(rule.condition):
            continue
        sets = ' '.join({'pref': 'localpref %d', 'med': 'med %d', 'prepend': 'prepend-self %d'}[word] % number
                        for word, number in rule.actions if number or word != 'prepend')
        verb = {'accept': 'allow quick', 'reject': 'deny quick', 'next': 'match'}[rule.verdict]
        if rule.verdict == 'next' and not sets:
            continue
        said = ' set { %s }' % sets if sets and rule.verdict != 'reject' else ''
        yield '%s %s %s%s%s\n' % (verb, way, address, condition(rule.condition, inet), said)


class OpenBgpd(Router):
    name, package, programs = 'openbgpd', 'openbgpd', ('bgpd', 'bgpctl')
    run_folder = 'openbgpd'
    leaves_out = {'next hops': 'on Linux it sees no interior routes: each next hop is taken to be reachable',
                  'refresh': 'it sends nothing again'}

    @classmethod
    def lacks(cls, events):
        for words in events:
            is_filter = words[0] in eventfile.FILTERS
            if is_filter and words[1] == 'in' and 'prepend' in words:
                return 'an incoming `prepend-self` makes the path of the decision longer'
            if is_filter and ('nomed' in words or 'origin' in words):
                return 'its filters have neither `nomed` nor a condition on ORIGIN'
            if is_filter and adds_up(eventfile.rules(words[3:])):
                return 'the `prepend-self` of two rules add up'
            if words[0] == 'bgp' and faults.is_cut_of_both(bytes.fromhex(words[2])):
                return 'UPDATEs of both families that lack a well-known attribute are not sent there'
        return None

    def config(self):
        wanted = self.wanted
        said = HEAD % {'asn': wanted.asn, 'identifier': wanted.identifier, 'address': wanted.address, 'socket': self.path('ctl')}
        for peer in wanted.peers.values():
            reflected = '  route-reflector %s\n' % wanted.identifier if peer.client else ''
            said += PEER % {'address': peer.address, 'asn': peer.asn, 'reflected': reflected, 'families': FAMILIES if wanted.second else ''}
        said += ''.join('network %s set origin incomplete\n' % prefix for network in wanted.networks() for prefix in network.own())
        said += 'allow from any\nallow to any\n'
        for peer in wanted.peers.values():
            said += '' if wanted.is_internal(peer) else 'match to %s set nexthop self\n' % peer.address
            for network in wanted.networks():
                inet = INET[network.family] if wanted.second else ''
                for way, word in (('in', 'from'), ('out', 'to')):
                    said += ''.join(rule_lines(word, peer.address, network.filters[way].get(peer.number, []), inet))
        return said

    def control(self, words, may_fail=False):
        return self.command(['bgpctl', '-s', self.path('ctl')] + words.split(), may_fail)

    def start(self):
        if self.wanted.second:
            # over a session of IPv4 its next hop of IPv6 is the first one of `lo`, ::1; where that has none it ends by its first route
            namespaces.ip('-n %s addr add %s/128 dev lo nodad' % (self.namespace, self.wanted.second.address))
            namespaces.ip('-n %s addr del ::1/128 dev lo' % self.namespace)
        self.run(['bgpd', '-d', '-f', self.write('conf', self.config())])
        self.wait(lambda: 'Neighbor' in self.control('show', True))
        # its parts read the configuration each in its own time; it takes no other one before all have
        self.wait(lambda: 'processed' in self.control('reload', True))

    def apply(self, before, wanted):
        self.wanted = wanted
        self.write('conf', self.config())
        said = ['']

        def is_over():
            """Whether it has taken the configuration, or won't: it refuses while it is still at the one before."""
            said.append(self.control('reload', True))
            return 'still running' not in said[-1]

        namespaces.until(is_over, self.limit, .05)
        if 'processed' not in said[-1]:
            raise Failed('bgpctl reload: ' + said[-1].strip())

    def revive(self, peer):
        self.control('neighbor %s up' % peer.address, True)

    def best(self):
        numbers, found = self.numbers(), {}
        for one in json.loads(self.control('-j show rib best')).get('rib', []):
            number, hop = numbers.get(one['neighbor']['remote_addr'], 0), one.get('exit_nexthop')
            found[masked(one['prefix'])] = Best(number, one['localpref'], one['metric'], flat(one['aspath']), origin(one['origin']),
                                                hop and plain(hop)) if number else Best(0, None, None, None, None, None)
        return found
