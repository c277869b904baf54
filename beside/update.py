#!/usr/bin/env python3
"""Writes one UPDATE in hex, for a line `bgp K HEX` of an event file:

update.py [--origin 0] [--path '65001 {65002 65003}'] [--hop 192.0.2.1] [--hop6 2001:db8::1 [fe80::1]] [--med N] [--pref N] [--atomic]
          [--aggregator AS/ADDR] [--more TYPE:FLAGS:HEX ..] [--withdraw PREFIX ..] [--as4] [PREFIX ..]

Attributes stand by type, those of `--more` (its flags in hex) among them, where one of the same type is taken in place of the other; without
a prefix to announce there are none. Prefixes of IPv6 are announced by type 14, with the next hop of `--hop6`, and withdrawn by type 15
(RFC 4760). Octets go out as they are asked for: also what no speaker may say.
"""
import argparse
import ipaddress
import os
import re
import struct
import sys

sys.path.insert(0, os.path.join(os.path.dirname(os.path.abspath(__file__)), '..', 'python'))
from bgp import wire


def segments(text):
    """The segments of an AS_PATH: sequences of at most 255 numbers, and sets in {}."""
    for one, other in re.findall(r'\{([^}]*)\}|([0-9 ]*[0-9])', text):
        numbers = list(map(int, (one or other).split()))
        for at in range(0, len(numbers), 255):
            yield wire.AS_SET if one else wire.AS_SEQUENCE, numbers[at:at + 255]


def split(prefixes):
    """The octets of prefixes: of those of IPv4, and of those of IPv6."""
    return ([wire.prefix_octets(one) for one in prefixes if wire.family(one) == family] for family in wire.FAMILIES)


def update(announced=(), withdrawn=(), origin=0, as_path='', hop=None, med=None, pref=None, atomic=False, aggregator=None, more=(), width=2, hop6=()):
    """The octets of an UPDATE. `more` are (type, flags, value)."""
    said = {}
    (come, come_too), (gone, gone_too) = split(announced), split(withdrawn)
    if come_too:
        one = wire.reaching(b''.join(ipaddress.ip_address(part).packed for part in hop6), come_too)
        said[one.kind] = one.flags, one.value
    if gone_too:
        one = wire.unreaching(gone_too)
        said[one.kind] = one.flags, one.value
    if announced:
        said[wire.ORIGIN] = 0x40, bytes([origin])
        said[wire.AS_PATH] = 0x40, wire.path_octets(segments(as_path), width)
        if hop:
            said[wire.NEXT_HOP] = 0x40, ipaddress.ip_address(hop).packed
    if med is not None:
        said[wire.MED] = 0x80, med.to_bytes(4, 'big')
    if pref is not None:
        said[wire.LOCAL_PREF] = 0x40, pref.to_bytes(4, 'big')
    if atomic:
        said[wire.ATOMIC_AGGREGATE] = 0x40, b''
    if aggregator:
        asn, _, address = aggregator.partition('/')
        said[wire.AGGREGATOR] = 0xc0, int(asn).to_bytes(width, 'big') + ipaddress.ip_address(address).packed
    for kind, flags, value in more:
        said[kind] = flags, value
    whole = b''.join(wire.attribute(wire.Attribute(said[kind][0], kind, said[kind][1])) for kind in sorted(said))
    return wire.made_update(b''.join(gone), whole, b''.join(come))


def main():
    words = argparse.ArgumentParser(description=__doc__, formatter_class=argparse.RawDescriptionHelpFormatter)
    words.add_argument('announced', nargs='*', metavar='PREFIX')
    words.add_argument('--origin', type=int, default=0)
    words.add_argument('--path', default='')
    words.add_argument('--hop')
    words.add_argument('--hop6', nargs='*', default=[])
    words.add_argument('--med', type=int)
    words.add_argument('--pref', type=int)
    words.add_argument('--atomic', action='store_true')
    words.add_argument('--aggregator')
    words.add_argument('--more', nargs='*', default=[])
    words.add_argument('--withdraw', nargs='*', default=[])
    words.add_argument('--as4', action='store_true')
    asked = words.parse_args()
    more = [(int(kind), int(flags, 16), bytes.fromhex(value)) for kind, flags, value in (one.split(':') for one in asked.more)]
    try:
        print(update(asked.announced, asked.withdraw, asked.origin, asked.path, asked.hop, asked.med, asked.pref, asked.atomic,
                     asked.aggregator, more, 4 if asked.as4 else 2, asked.hop6).hex())
    except (ValueError, OverflowError, struct.error) as error:
        print('update.py: %s' % error, file=sys.stderr)
        return 2
    return 0


if __name__ == '__main__':
    sys.exit(main())
