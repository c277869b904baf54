"""What happened to the routes of an event file, event by event: which took the place of which, and whose next hops have changed since they
came. The reasons of `explained.py` that are about earlier events ask for it; nothing here knows the program.
"""
import collections
import ipaddress
import re

from bgp import eventfile, wire
from faults import faults, second

# a peer's route at a prefix: the AS that its path begins with, by which BIRD puts routes into groups; its next hop; the interior route
# that held this when it came, as `match` says it; and its attributes
Route = collections.namedtuple('Route', 'neighbour hop match attributes')
Match = collections.namedtuple('Match', 'protocol prefix way')


class Happened:
    def __init__(self):
        self.wanted = eventfile.Wanted()  # behind the events up to now
        self.routes = collections.defaultdict(dict)  # by prefix, then by peer
        # peers and prefixes: their last change was a replacement by a route of another neighbour AS, beside no other one of the first AS;
        # and those that were gone over again, by an edit of the incoming filter, with a next hop that isn't what it was when they came
        self.crossed, self.stale = set(), set()
        self.later = set()  # peers and prefixes: their route came where one of `crossed` stood, or one that came so

    def take(self, step):
        words = step.words
        if step.ignored or words[0] == 'idle':
            return
        before = self.matches() if words[0] in ('route', 'lost', 'lost6') else None
        self.wanted.take(words)
        if before is not None and before != self.matches():
            changed = next(hop for hop, match in self.matches().items() if before[hop] != match)
            # BIRD goes over all routes of the family
            self.stale = {one for one in self.stale if wire.family(one[1]) != wire.family(changed)}
        elif words[0] in ('up', 'down'):
            for prefix in list(self.routes):
                self.gone(int(words[1]), prefix)
        elif words[0] in eventfile.FILTERS and words[1] == 'in':
            self.edited(int(words[2]), wire.FAMILIES[eventfile.FILTERS.index(words[0])])
        elif words[0] == 'bgp':
            self.message(int(words[1]), bytes.fromhex(words[2]))

    # ---- interior routes

    def match(self, hop):
        """The interior route that holds an address: the longest, of those the one of the least distance; None where none does."""
        held, address, interior = [], ipaddress.ip_address(hop), self.wanted.of(hop).interior
        for place, protocol in enumerate(eventfile.PROTOCOLS):
            for prefix, way in interior[protocol].items():
                network = ipaddress.ip_network(prefix)
                if address in network:
                    held.append((-network.prefixlen, place, Match(protocol, prefix, way)))
        return min(held, key=lambda one: one[:2])[2] if held else None

    def matches(self):
        hops = {route.hop for peers in self.routes.values() for route in peers.values()}
        return {hop: self.match(hop) for hop in hops}

    def edited(self, number, family):
        """A peer's routes of a family are taken as they came, with the next hops of that time."""
        for prefix, peers in self.routes.items():
            if wire.family(prefix) == family and number in peers and reached(peers[number].match) != reached(self.match(peers[number].hop)):
                self.stale.add((number, prefix))

    # ---- messages

    def message(self, number, octets):
        if len(octets) < 23 or octets[18] != wire.UPDATE:
            return
        try:
            gone, attributes, came = wire.fields(octets[19:])
            gone, announced = ({wire.prefix(one) for one in wire.split(field)} for field in (gone, came))
        except ValueError:
            return
        width, has_second = 4 if self.wanted.wide else 2, self.wanted.second is not None
        if has_second:
            gone, announced = (set(own).union(more) for own, more in zip((gone, announced), second(attributes)))
        if faults(attributes, bool(came), width, has_second):
            for prefix in gone | announced:
                self.gone(number, prefix)
            return
        for prefix in gone - announced:
            self.gone(number, prefix)
        for prefix in announced:
            self.came(number, prefix, wire.by_type(attributes), attributes)

    def gone(self, number, prefix):
        self.routes[prefix].pop(number, None)
        for kept in (self.crossed, self.later, self.stale):
            kept.discard((number, prefix))

    def came(self, number, prefix, kinds, attributes):
        family = wire.family(prefix)
        hop = wire.address(wire.of_family(kinds, family)[wire.NEXT_HOP][1][:family.size])
        route = Route(self.neighbour(kinds[wire.AS_PATH][1]), hop, self.match(hop), attributes)
        old = self.routes[prefix].get(number)
        if old and old.attributes == attributes:
            return
        self.gone(number, prefix)
        if old and old.neighbour != route.neighbour and not self.is_beside(prefix, old.neighbour):
            self.crossed.add((number, prefix))
        if any(other != number and at == prefix for other, at in self.crossed | self.later):
            self.later.add((number, prefix))
        self.routes[prefix][number] = route

    def neighbour(self, octets):
        """The first AS of a path; the own one where it has none or begins with a set."""
        found = re.match(r'\((\d+)', wire.path(octets, 4 if self.wanted.wide else 2))
        return int(found.group(1)) if found else self.wanted.asn

    def is_beside(self, prefix, neighbour):
        """Whether a peer whose incoming filter rejects nothing has a route of that AS."""
        filters = self.wanted.of(prefix).filters['in']
        return any(route.neighbour == neighbour and not any(rule.verdict == 'reject' for rule in filters.get(number, ()))
                   for number, route in self.routes[prefix].items())

    # ---- what the reasons ask

    def is_useless(self, number, prefix):
        """Whether a peer's route there has the local address as its next hop, or one that nothing holds."""
        route = self.routes[prefix].get(number)
        return route is not None and (route.hop == self.wanted.of(prefix).address or self.match(route.hop) is None)

    def is_own_over_a_gateway(self, number, prefix):
        """Whether its next hop is the local address, and what holds that is no network of this speaker's."""
        route = self.routes[prefix].get(number)
        if route is None or route.hop != self.wanted.of(prefix).address:
            return False
        match = self.match(route.hop)
        return match is not None and (match.way.gateway is not None or match.way.interface != self.wanted.shared()[1])


def reached(match):
    """What BIRD keeps of a match: whether there is one, and its metric."""
    return None if match is None else match.way.metric
