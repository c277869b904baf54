"""Announcements at random: few prefixes, and attributes that are alike up to some step of the decision."""
import ipaddress

from bgp import wire
from hunting import parts

PREFIXES = ('10.1.0.0/16', '10.1.0.0/16', '10.1.0.0/16', '10.2.0.0/16', '10.1.1.0/24', '10.1.128.0/17', '10.0.0.0/8', '10.1.1.1/32', '0.0.0.0/0')
SECOND = ('2001:db8:1::/48', '2001:db8:1::/48', '2001:db8:1::/48', '2001:db8:2::/48', '2001:db8:1:1::/64', '2001:db8:1:8000::/49', '2001:db8::/32',
          '2001:db8:1:1::1/128', '::/0')
# where next hops of IPv6 are, beside those of IPv4: on the shared network, where a peer has the last number of its address, and elsewhere
SHARED_SECOND, LOCAL_SECOND = '3fff:0:60::', '3fff:0:60::254'
PLACES = {'172.16.0.9': '3fff:a::9', '172.16.1.9': '3fff:a:1::9', '172.17.0.9': '3fff:b::9'}
NEAR = ('192.0.2.60', '192.0.2.61', '192.0.2.200')  # next hops on the shared network that are nobody's
FAR = ('172.16.0.9', '172.16.1.9', '172.17.0.9')  # next hops that interior routes resolve
NEIGHBOURS = (65001, 65002)
BEHIND = (65101, 65102, 65103)
WIDE = (70000, 4200000001)
CHOICES = {'pref': (100, 100, 200, 50), 'length': (0, 1, 1, 2), 'origin': (0, 0, 1, 2), 'med': (None, None, 0, 5, 10), 'hop': (0, 1)}
UNKNOWN = (99, 100, 200)  # types that no standard has


class Routes:
    """What the routes of one file are like. `random` is the file's."""

    def __init__(self, random, local, wide, reflects, far, both):
        self.random, self.local, self.wide, self.reflects, self.far, self.both = random, local, wide, reflects, far, both
        self.width = 4 if wide else 2
        # one value in the whole file for those before some step of the decision, and for some behind it
        depth = len(CHOICES) - 1 if far and self.chance(.7) else random.randrange(len(CHOICES) + 1)
        self.fixed = {name: random.choice(values) if place < depth or self.chance(.3) else None
                      for place, (name, values) in enumerate(CHOICES.items())}
        self.odd = random.choice((.02, .05, .15))  # how often an attribute is one that few routes have

    def chance(self, probability):
        return self.random.random() < probability

    def pick(self, name):
        """A value that is the same in the whole file, or drawn anew."""
        return self.random.choice(CHOICES[name]) if self.fixed[name] is None else self.fixed[name]

    def prefix(self, is_second=None):
        """A prefix, of IPv6 or not, or of either."""
        if is_second is None:
            is_second = self.both and self.chance(.5)
        return self.random.choice(SECOND if is_second else PREFIXES)

    def prefixes(self, most):
        return sorted({self.prefix() for _ in range(self.random.randint(1, most))})

    def numbers(self):
        return BEHIND + WIDE if self.wide else BEHIND

    # ---- attributes

    def path(self, peer):
        """The segments of a path; an external peer's begins with its AS."""
        length = self.pick('length')
        behind = [self.random.choice(self.numbers()) for _ in range(length)]
        if self.chance(self.odd):
            behind.append(self.local.asn)
        if self.chance(self.odd / 4):
            behind += [self.random.choice(self.numbers())] * (254 - len(behind))
        first = [peer.asn] if peer.asn != self.local.asn else [] if self.chance(.15) else [self.random.choice(NEIGHBOURS)]
        said = [(2, first + behind)] if first or behind else []
        if self.chance(self.odd * 2):
            said.append((1, sorted(self.random.sample(self.numbers(), 2))))
        return said

    def hop(self, peer):
        if self.chance(self.odd):
            return self.random.choice((self.local.address, '192.0.2.1', '192.0.2.2', '192.0.2.3'))
        if self.far and self.chance(.7):
            return self.random.choice(FAR)
        return self.random.choice(NEAR) if self.pick('hop') else peer.address

    def attributes(self, peer):
        """Those of one route, by type."""
        origin = bytes([self.pick('origin')])
        hop = bytes(int(octet) for octet in self.hop(peer).split('.'))
        said = [(0x40, wire.ORIGIN, origin), (0x40, wire.AS_PATH, wire.path_octets(self.path(peer), self.width)), (0x40, wire.NEXT_HOP, hop)]
        med = self.pick('med')
        if med is not None:
            said.append((0x80, wire.MED, med.to_bytes(4, 'big')))
        if peer.asn == self.local.asn or self.chance(self.odd / 2):
            said.append((0x40, wire.LOCAL_PREF, self.pick('pref').to_bytes(4, 'big')))
        said += self.rare()
        if self.reflects and peer.asn == self.local.asn:
            said += self.reflected()
        said = [wire.Attribute(*one) for one in said]
        return said if self.chance(.95) else self.random.sample(said, len(said))

    def rare(self):
        """ATOMIC_AGGREGATE, AGGREGATOR and unrecognized ones."""
        if self.chance(self.odd * 2):
            yield 0x40, wire.ATOMIC_AGGREGATE, b''
        if self.chance(self.odd * 2):
            yield 0xc0, wire.AGGREGATOR, self.random.choice(self.numbers()).to_bytes(self.width, 'big') + bytes([10, 9, 9, 9])
        for kind in UNKNOWN:
            if self.chance(self.odd):
                yield self.random.choice((0xc0, 0xc0, 0xe0, 0x80)), kind, bytes(self.random.choice((0, 1, 4, 8)))

    def reflected(self):
        """What other reflectors added; now and then this speaker itself is among it."""
        if self.chance(.5):
            yield 0x80, wire.ORIGINATOR_ID, self.identifier(('192.0.2.1', '192.0.2.3', '192.0.2.70', '192.0.2.71'))
        if self.chance(.4):
            names = ('192.0.2.80', '192.0.2.81', '192.0.2.82')
            yield 0x80, wire.CLUSTER_LIST, b''.join(self.identifier(names) for _ in range(self.random.randint(1, 3)))

    def identifier(self, others):
        name = self.local.identifier if self.chance(self.odd) else self.random.choice(others)
        return bytes(int(octet) for octet in name.split('.'))

    # ---- messages

    def tied(self, peer, prefix, hop):
        """An announcement by a next hop."""
        return self.announcement(peer, announced=[prefix], hop=hop)

    def announcement(self, peer, most=1, withdrawn=(), announced=(), hop=None):
        """An UPDATE that announces some prefixes, drawn unless they are given, and withdraws others."""
        came = [[self.octets(one) for one in found] for found in split(announced or self.prefixes(most))]
        gone = [[wire.prefix_octets(one) for one in found] for found in split(sorted(set(withdrawn)))]
        said = self.attributes(peer)
        if hop:
            said = [one._replace(value=bytes(int(octet) for octet in hop.split('.'))) if one.kind == wire.NEXT_HOP else one for one in said]
        said = with_second(said, *([one for one in gone[1] if one not in came[1]], came[1]), bool(came[0]))
        return parts.Parts([one for one in gone[0] if one not in came[0]], said, came[0])

    def octets(self, prefix):
        """A prefix; now and then with bits beyond its length."""
        said = wire.prefix_octets(prefix)
        return said[:-1] + bytes([said[-1] | 1]) if said[0] % 8 and self.chance(self.odd) else said

    def withdrawal(self, prefixes):
        gone, gone_too = ([wire.prefix_octets(one) for one in found] for found in split(prefixes))
        return parts.Parts(gone, [wire.unreaching(gone_too)] if gone_too else [], [])


def split(prefixes):
    """The prefixes of IPv4, and those of IPv6."""
    return ([one for one in prefixes if wire.family(one) == family] for family in wire.FAMILIES)


def with_second(said, gone, came, has_first):
    """Attributes, with the routes of IPv6 that they withdraw and announce. NEXT_HOP is for those of IPv4, and says where the other next hop is."""
    if not gone and not came:
        return said
    place = next(wire.address(one.value) for one in said if one.kind == wire.NEXT_HOP)
    hop = ipaddress.ip_address(PLACES.get(place) or SHARED_SECOND + place.rpartition('.')[2]).packed
    found = [one for one in said if has_first or one.kind != wire.NEXT_HOP]
    return found + [wire.unreaching(gone)] * bool(gone) + [wire.reaching(hop, came)] * bool(came)
