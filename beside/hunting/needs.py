"""What a file needs to show its difference: the words of the event language, attributes, and faults of messages that are left in it."""
import re

from bgp import eventfile, wire
from faults import OF_THE_SECOND, faults, second
from hunting.routes import SHARED_SECOND

NAMES = {wire.ORIGIN: 'ORIGIN', wire.MED: 'MULTI_EXIT_DISC', wire.LOCAL_PREF: 'LOCAL_PREF', wire.ATOMIC_AGGREGATE: 'ATOMIC_AGGREGATE',
         wire.AGGREGATOR: 'AGGREGATOR', wire.ORIGINATOR_ID: 'ORIGINATOR_ID', wire.CLUSTER_LIST: 'CLUSTER_LIST'}
SHARED = [('route', 'add', 'connected', prefix) for prefix in ('192.0.2.0/24', SHARED_SECOND + '/64')]
KINDS = {wire.OPEN: 'OPEN', wire.NOTIFICATION: 'NOTIFICATION', wire.KEEPALIVE: 'KEEPALIVE', wire.ROUTE_REFRESH: 'ROUTE-REFRESH'}


class Needs:
    """What is said by the lines of a file, one after the other."""

    def __init__(self, lines):
        self.wanted, self.found = eventfile.Wanted(), set()
        for line in lines:
            words = line.split()
            if not words or words[0].startswith('#'):
                continue
            self.wanted.take(words)
            told = getattr(self, 'of_' + words[0], None)
            self.found.update(told(words) if told else ())

    def of_as4(self, _):
        yield 'as4'

    def of_revised(self, _):
        yield 'revised'

    def of_reflect(self, _):
        yield 'reflect'

    def of_local6(self, _):
        yield 'both families'

    def of_peer(self, words):
        yield from ['client'] if words[-1] == 'client' else []

    def of_filter(self, words):
        yield 'filter %s' % words[1]

    def of_route(self, words):
        yield from ['interior routes'] if tuple(words[:4]) not in SHARED else []

    def of_lost(self, _):
        yield 'interior routes'

    def of_redist(self, _):
        yield 'redistribution'

    of_filter6, of_lost6, of_redist6 = of_filter, of_lost, of_redist

    def of_down(self, _):
        yield 'a lost session'

    def of_bgp(self, words):
        octets = bytes.fromhex(words[2])
        if len(octets) < 19 or octets[18] != wire.UPDATE:
            yield KINDS.get(octets[18] if octets[18:] else 0, 'a type of message')
            return
        try:
            yield from self.of_update(octets, self.wanted.peers[int(words[1])])
        except ValueError:
            yield 'prefixes that can\'t be read'

    def of_update(self, octets, peer):
        gone, said, came = wire.fields(octets[19:])
        width = 4 if self.wanted.wide else 2
        prefixes, withdrawn = [wire.prefix(one) for one in wire.split(came)], [wire.prefix(one) for one in wire.split(gone)]
        if self.wanted.second:
            withdrawn, prefixes = (own + more for own, more in zip((withdrawn, prefixes), second(said)))
        if withdrawn:
            yield 'a withdrawal beside an announcement' if prefixes else 'a withdrawal'
        found = faults(said, bool(came), width, self.wanted.second is not None)
        yield from ('fault: %s' % one for one in found)
        if found:
            return
        for one in wire.attributes(said):
            if self.wanted.second and one.kind in OF_THE_SECOND:
                continue
            if one.kind in NAMES and (one.kind != wire.ORIGIN or one.value != b'\0'):
                yield NAMES[one.kind]
            elif one.kind > wire.AGGREGATOR and one.kind not in NAMES:
                yield 'an unrecognized attribute'
        yield from self.of_values(wire.by_type(said), prefixes, peer, width)

    def of_values(self, said, prefixes, peer, width):
        if wire.AS_PATH in said:
            numbers = re.findall('[0-9]+', wire.path(said[wire.AS_PATH][1], width))
            yield from ['the own AS in a path'] if str(self.wanted.asn) in numbers else []
            yield from ['an AS_SET'] if '{' in wire.path(said[wire.AS_PATH][1], width) else []
            yield from ['a long path'] if len(numbers) > 100 else []
        if wire.NEXT_HOP in said:
            hop = wire.address(said[wire.NEXT_HOP][1])
            if hop == self.wanted.address:
                yield 'the local address as NEXT_HOP'
            elif hop != peer.address and hop in [one.address for one in self.wanted.peers.values()]:
                yield "another peer's address as NEXT_HOP"
        if len(prefixes) > 1:
            yield 'several prefixes'
        if len({wire.family(one) for one in prefixes}) > 1:
            yield 'prefixes of both families'


def needs(lines):
    return Needs(lines).found
