"""Table dumps (RFC 6396, sections 4.2 and 4.3; RFC 8050): whose routes they have, and the attributes of each."""
import collections
import struct

from bgp import messages, mrt, wire

# AS number and address of a peer, as its octets; a route of the router's own has none
Peer = collections.namedtuple('Peer', 'asn address')
# one route of a dump: the peer's place in the index, or its Peer; the path identifier, None where there is none; the attributes' octets
Entry = collections.namedtuple('Entry', 'peer path attributes')
# one prefix of a dump, with its length in front, and its routes; the width of the AS numbers in them
Prefix = collections.namedtuple('Prefix', 'octets family width entries')


def index(body):
    """The collector's identifier and the peers of a PEER_INDEX_TABLE. ValueError where its fields don't fit."""
    at = 6 + int.from_bytes(wire.part(body, 4, 2), 'big')
    count, at, found = int.from_bytes(wire.part(body, at, 2), 'big'), at + 2, []
    for _ in range(count):
        kind, at = wire.part(body, at, 5)[0], at + 5
        size, width = 16 if kind & 1 else 4, 4 if kind & 2 else 2
        found.append(Peer(int.from_bytes(wire.part(body, at + size, width), 'big'), wire.part(body, at, size)))
        at += size + width
    return wire.part(body, 0, 4), found


def rib(subtype, body):
    """The prefix of a record of TABLE_DUMP_V2."""
    with_paths = subtype in (mrt.RIB_IPV4_ADDPATH, mrt.RIB_IPV6_ADDPATH)
    family = 6 if subtype in (mrt.RIB_IPV6, mrt.RIB_IPV6_ADDPATH) else 4
    octets = wire.part(body, 4, 1 + (wire.part(body, 4, 1)[0] + 7) // 8)
    at = 4 + len(octets)
    count, at, found = int.from_bytes(wire.part(body, at, 2), 'big'), at + 2, []
    for _ in range(count):
        place, path = int.from_bytes(wire.part(body, at, 2), 'big'), None
        if with_paths:
            path = int.from_bytes(wire.part(body, at + 6, 4), 'big')
        at += 10 if with_paths else 6
        size = int.from_bytes(wire.part(body, at, 2), 'big')
        found.append(Entry(place, path, wire.part(body, at + 2, size)))
        at += 2 + size
    return Prefix(octets, family, 4, numbered(found))


def numbered(entries):
    """Where several routes of one peer have no path identifier (FRR leaves them out), their order stands for it."""
    seen = collections.Counter()
    for entry in entries:
        if entry.path is None:
            yield entry._replace(path=seen[entry.peer])
            seen[entry.peer] += 1
        else:
            yield entry


def old_rib(subtype, body):
    """The prefix of a record of TABLE_DUMP, with its one route; AS numbers have two octets."""
    size = 16 if subtype == 2 else 4
    length = wire.part(body, 4 + size, 1)[0]
    octets = bytes([length]) + wire.part(body, 4, (length + 7) // 8)
    at = 4 + size + 6
    peer = Peer(int.from_bytes(wire.part(body, at + size, 2), 'big'), wire.part(body, at, size))
    count = int.from_bytes(wire.part(body, at + size + 2, 2), 'big')
    return Prefix(octets, 6 if subtype == 2 else 4, 2, [Entry(peer, 0, wire.part(body, at + size + 4, count))])


def mended(octets, width):
    """The attributes of a route with AS numbers of four octets, flags as their standards have them (BIRD leaves some 00), and type 14 with
    the next hop alone (RFC 6396, section 4.3.4) or whole (as FRR and others write it); and the next hop of type 14, or None."""
    said, hop = [], None
    for one in wire.attributes(octets):
        if one.kind in messages.FLAGS:
            one = one._replace(flags=messages.FLAGS[one.kind] | one.flags & 0x30)
        if one.kind == messages.MP_REACH:
            hop = dumped_hop(one.value)
        elif one.kind != messages.MP_UNREACH:
            said.append(one)
    return messages.widened(said) if width == 2 else said, hop


def dumped_hop(value):
    """The next hop of a type 14 of a dump."""
    if value and value[0] == len(value) - 1:
        return messages.first_hop(value[1:])
    return messages.reached(value)[1]


def made_index(peers, identifier=(192, 0, 2, 254), when=0):
    """A PEER_INDEX_TABLE of these peers."""
    body = bytes(identifier) + b'\0\0' + struct.pack('>H', len(peers))
    for peer in peers:
        body += bytes([2 | (len(peer.address) == 16)]) + bytes(4) + peer.address + struct.pack('>I', peer.asn)
    return mrt.record(mrt.TABLE_DUMP_V2, mrt.PEER_INDEX_TABLE, body, when)


def made_rib(subtype, prefix, entries, when=0):
    """A record of TABLE_DUMP_V2: a prefix with its routes."""
    body = bytes(4) + prefix + struct.pack('>H', len(entries))
    for entry in entries:
        path = b'' if entry.path is None else struct.pack('>I', entry.path)
        body += struct.pack('>HI', entry.peer, when) + path + struct.pack('>H', len(entry.attributes)) + entry.attributes
    return mrt.record(mrt.TABLE_DUMP_V2, subtype, body, when)
