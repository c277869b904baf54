"""Streams of BMP (RFC 7854), as a router sends them to a monitoring station, told as the records of an MRT file that says the same: sessions that
begin and end, and the messages that came in before any policy.

What a router sent or made of it (post-policy, Adj-RIB-Out, Loc-RIB), and routes of other tables than the global one, give records of type BMP, which
nobody takes.
"""
import collections
import struct

from bgp import mrt, wire

VERSION = 3
HEAD = struct.Struct('>BIB')  # version, length, type (section 4.1)
PEER = struct.Struct('>BB8s16sI4sII')  # type, flags, distinguisher, address, AS, identifier, seconds, microseconds (section 4.2)
ROUTE_MONITORING, PEER_DOWN, PEER_UP = 0, 2, 3
GLOBAL = 0  # the type of a peer of the global table
IPV6, POST_POLICY, TWO_OCTETS, SENT = 0x80, 0x40, 0x20, 0x10  # flags of a peer; the last one of RFC 8671

# a session: the fields of its records, and whether the peer's routes have path identifiers
Session = collections.namedtuple('Session', 'sides with_paths')


def is_one(head):
    """Whether a file begins as a stream of BMP does: with version 3 and a length of less than 65,536 octets, which as the time of an MRT file
    would be one of 1971."""
    return head[:3] == bytes([VERSION, 0, 0])


def records(file):
    """Time, type, subtype and body of each record, as `mrt.records` has them. mrt.Wrong where the stream ends within a message."""
    sessions, rest, number, last = {}, b'', 0, 0
    while True:
        block = mrt.block(file, number)
        octets, at = rest + block, 0
        while at + HEAD.size <= len(octets):
            version, size, kind = HEAD.unpack_from(octets, at)
            if version != VERSION or not HEAD.size <= size <= mrt.MOST:
                raise mrt.Wrong('message %d has version %d and a length of %d octets: none of BMP' % (number + 1, version, size))
            if at + size > len(octets):
                break
            number += 1
            try:
                for one in told(sessions, kind, octets[at + HEAD.size:at + size], last):
                    last = one[0]
                    yield one
            except (ValueError, IndexError, struct.error):
                yield last, mrt.BGP4MP, mrt.MESSAGE_AS4, b''  # a record that can't be read
            at += size
        rest = octets[at:]
        if not block:
            break
    if rest:
        raise mrt.Wrong('it ends within message %d of BMP: it was cut, or is still being written' % (number + 1))


def told(sessions, kind, body, last):
    """The records of one message; of use are those of the global table before any policy. Messages without a time get that of the last one."""
    if kind not in (ROUTE_MONITORING, PEER_DOWN, PEER_UP):
        yield last, mrt.BMP, kind, b''
        return
    whose, flags, _, octets, asn, _, when, _ = PEER.unpack_from(body)
    key, rest = octets if flags & IPV6 else octets[12:], body[PEER.size:]
    if whose != GLOBAL or flags & (POST_POLICY | SENT) or kind != PEER_UP and key not in sessions:
        yield when, mrt.BMP, kind, b''
    elif kind == ROUTE_MONITORING:
        yield message(sessions[key], when, flags, rest)
    else:
        # where the station was connected to anew, a session that goes on is told to begin once more, with all its routes
        if key in sessions:
            yield when, mrt.BGP4MP, mrt.STATE_CHANGE_AS4, mrt.sides_octets(True, sessions.pop(key).sides) + bytes([0, mrt.ESTABLISHED, 0, 1])
        if kind == PEER_UP:
            sessions[key] = session(asn, key, rest)
            yield when, mrt.BGP4MP, mrt.STATE_CHANGE_AS4, mrt.sides_octets(True, sessions[key].sides) + bytes([0, 5, 0, mrt.ESTABLISHED])


def message(known, when, flags, octets):
    """The record of a message of a session."""
    is_wide = not flags & TWO_OCTETS
    subtype = {(True, False): mrt.MESSAGE_AS4, (False, False): mrt.MESSAGE, (True, True): mrt.MESSAGE_AS4_ADDPATH, (False, True): mrt.MESSAGE_ADDPATH}
    return when, mrt.BGP4MP, subtype[is_wide, known.with_paths], mrt.sides_octets(is_wide, known.sides) + octets


def session(asn, peer, rest):
    """The session that a Peer Up tells: the local address, two ports, the OPEN that was sent and the one that was received (section 4.10)."""
    sent = rest[20:20 + int.from_bytes(rest[36:38], 'big')]
    received = rest[20 + len(sent):]
    ours, theirs = wire.capabilities(sent[19:]), wire.capabilities(received[19:])
    local_as = int.from_bytes(ours[wire.WIDE] if wire.WIDE in ours else sent[20:22], 'big')
    return Session(mrt.Sides(asn, local_as, 2 if len(peer) == 16 else 1, peer, rest[:16][-len(peer):], b''),
                   bool(offers(ours) & 1 and offers(theirs) & 2))


def offers(found):
    """What an OPEN says of path identifiers of IPv4 unicast (RFC 7911, section 4): 1 to receive them, 2 to send them."""
    said = found.get(wire.PATHS, b'')
    return next((said[at + 3] for at in range(0, len(said) - 3, 4) if said[at:at + 3] == wire.IPV4_UNICAST), 0)
