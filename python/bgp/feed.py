"""UPDATEs that announce many prefixes, as one peer's table has them; the same in every run.

Prefixes have lengths as in a real table: of IPv4 some 60 % have 24 bits and few less than 16, of IPv6 all have 32 to 48, and nearly
half of them 48. AS paths have 2 to 6 numbers and begin with
the peer's AS; one route in ten has a MED, one in fifty an AGGREGATOR, one in three an unrecognized attribute. Each prefix is
announced once, some five in an UPDATE.
"""
import itertools
import random

from bgp import wire
from bgp.wire import Attribute

SECOND_FRONTS = (0x2400, 0x2600, 0x2800, 0x2a00, 0x2c00)  # of each registry
SECOND_LENGTHS = [48] * 48 + [32] * 14 + [44] * 10 + [40] * 9 + [36] * 4 + [46] * 4 + [47] * 2 + [45] * 2 + [42] * 2 + [33, 34, 35, 38, 39]
LENGTHS = [24] * 60 + [23] * 9 + [22] * 11 + [21] * 5 + [20] * 4 + [19] * 3 + [18] * 2 + [17] + [16] * 4 + [15, 14, 13]
NEAR = bytes([192, 0, 2, 1])  # the next hop, where none is asked for
SECOND_NEAR = bytes.fromhex('20010db8000000000000000000000001')
# what is added to AS numbers, so that they don't go into two octets
ABOVE = 1 << 17


def prefixes(count, rand):
    """So many different prefixes: first address and length."""
    seen = set()
    while len(seen) < count:
        length = rand.choice(LENGTHS)
        first = rand.randrange(1, 223)
        if first in (10, 127, 192):
            continue
        bits = (first << 24 | rand.getrandbits(24)) >> (32 - length) << (32 - length)
        if (bits, length) not in seen:
            seen.add((bits, length))
            yield bits, length


def second_prefixes(count, rand):
    """So many different prefixes of IPv6, of those that registries give out: first address and length."""
    seen = set()
    while len(seen) < count:
        length, address = rand.choice(SECOND_LENGTHS), rand.choice(SECOND_FRONTS) << 112 | rand.getrandbits(120)
        bits = address >> 128 - length << 128 - length
        if (bits, length) not in seen:
            seen.add((bits, length))
            yield bits, length


def attributes(rand, transit, hop, via, width, asn=65001):
    """The octets of the attributes of one route: a path over these ASes, and over some of those for transit."""
    return b''.join(map(wire.attribute, drawn(rand, transit, hop, via, width, asn)))


def drawn(rand, transit, hop, via, width, asn):
    """The attributes themselves."""
    path = via + [asn] + [rand.choice(transit) for _ in range(rand.randrange(5))] + [rand.randrange(1, 64000)]
    if width == 4:
        path = path[:1] + [ABOVE + asn for asn in path[1:]]
    said = [Attribute(0x40, wire.ORIGIN, bytes([0 if rand.random() < .9 else 2])),
            Attribute(0x40, wire.AS_PATH, wire.path_octets([(wire.AS_SEQUENCE, path)], width)), Attribute(0x40, wire.NEXT_HOP, hop)]
    if rand.random() < .1:
        said.append(Attribute(0x80, wire.MED, rand.randrange(200).to_bytes(4, 'big')))
    if rand.random() < .02:
        said.append(Attribute(0xc0, wire.AGGREGATOR, path[-1].to_bytes(width, 'big') + bytes([10, 0, 0, rand.randrange(1, 255)])))
    if rand.random() < .33:
        length = 4 * rand.randrange(1, 6)
        said.append(Attribute(0xc0, 99, bytes(rand.randrange(256) for _ in range(length))))
    return said


def updates(count, hops=(NEAR,), via=(), width=2, asn=65001):
    """UPDATEs that announce so many prefixes in all; the next hops take turns; paths begin with these numbers and this AS, each
    number of so many octets."""
    rand = random.Random(1)
    turns = itertools.cycle(hops)
    for said, announced in routes(count, rand, prefixes, lambda transit: drawn(rand, transit, next(turns), list(via), width, asn), 4):
        yield wire.made_update(b'', b''.join(map(wire.attribute, said)), b''.join(announced))


def second_updates(count, hop=SECOND_NEAR, asn=65001):
    """The same of IPv6 by one next hop: what is announced stands in type 14, among the other attributes by type."""
    rand = random.Random(1)
    for said, announced in routes(count, rand, second_prefixes, lambda transit: drawn(rand, transit, NEAR, [], 2, asn), 16):
        said = [one for one in said if one.kind != wire.NEXT_HOP] + [wire.reaching(hop, announced)]
        yield wire.made_update(b'', b''.join(map(wire.attribute, sorted(said, key=lambda one: one.kind))), b'')


def routes(count, rand, of_family, made, size):
    """The attributes and prefixes of each UPDATE: so many in all, whose addresses have so many octets."""
    transit = [rand.randrange(1, 64000) for _ in range(40)]
    left, coming = count, of_family(count, rand)
    while left:
        here = 1
        while here < min(left, 60) and rand.random() < .8:
            here += 1
        left -= here
        said = made(transit)
        yield said, [bytes([length]) + bits.to_bytes(size, 'big')[:(length + 7) // 8] for bits, length in itertools.islice(coming, here)]
