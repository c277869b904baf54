"""BGP messages in octets, read and written by RFC 4271, section 4, RFC 4760 and RFC 6793 alone: nothing here knows the program.

What a route says is told as one word, in the form of docs/OUTPUT.md ("Values"), so that it compares with a row. `width` is
the number of octets of an AS number: 2, or 4 where both speakers announced the capability 65. Routes of both families stand in one
table: the text of a prefix tells its family.
"""
import collections
import ipaddress
import socket
import struct

MARKER = b'\xff' * 16
OPEN, UPDATE, NOTIFICATION, KEEPALIVE, ROUTE_REFRESH = 1, 2, 3, 4, 5
MOST = 4096  # octets of a message without RFC 8654
AS_TRANS = 23456  # stands for a number of four octets (RFC 6793)
ORIGIN, AS_PATH, NEXT_HOP, MED, LOCAL_PREF, ATOMIC_AGGREGATE, AGGREGATOR = range(1, 8)
ORIGINATOR_ID, CLUSTER_LIST = 9, 10  # RFC 4456, section 8
MP_REACH, MP_UNREACH = 14, 15  # RFC 4760, sections 3 and 4
EXTENDED = 0x10  # the flag of a length of two octets
AS_SET, AS_SEQUENCE = 1, 2
IPV4_UNICAST, IPV6_UNICAST = b'\0\1\1', b'\0\2\1'  # AFI and SAFI
# capabilities: families, ROUTE-REFRESH, AS numbers of four octets, path identifiers
MULTIPROTOCOL, REFRESHES, WIDE, PATHS = 1, 2, 65, 69
NAMES = {OPEN: 'OPEN', UPDATE: 'UPDATE', NOTIFICATION: 'NOTIFICATION', KEEPALIVE: 'KEEPALIVE', ROUTE_REFRESH: 'ROUTE-REFRESH'}

Attribute = collections.namedtuple('Attribute', 'flags kind value')
Update = collections.namedtuple('Update', 'withdrawn attributes announced')
# a family of unicast addresses: AFI and SAFI, how many octets an address has, and what stands in front of the names of its links
Family = collections.namedtuple('Family', 'code size tag')
IPV4, IPV6 = FAMILIES = Family(IPV4_UNICAST, 4, ''), Family(IPV6_UNICAST, 16, '6.')


# ---- messages

def message(kind, body=b''):
    return MARKER + struct.pack('>HB', 19 + len(body), kind) + body


def size(octets, at=0):
    """The length that the header of a message has, which stands there whole."""
    return struct.unpack_from('>H', octets, at + 16)[0]


def short(asn):
    """An AS number in two octets."""
    return asn if asn < 65536 else AS_TRANS


def capability(code, value=b''):
    """A capability (RFC 5492), as a parameter of its own."""
    return bytes([2, 2 + len(value), code, len(value)]) + value


OF_IPV4, OF_IPV6 = (capability(MULTIPROTOCOL, one.code[:2] + b'\0' + one.code[2:]) for one in FAMILIES)  # RFC 4760, section 8
OF_REFRESHES = capability(REFRESHES)  # RFC 2918
# asks for all routes of IPv4 unicast again (RFC 2918, section 3)
REFRESH = message(ROUTE_REFRESH, b'\0\1\0\1')


def opening(asn, identifier, hold=0, wide=False, families=OF_IPV4):
    """An OPEN (section 4.2) with these capabilities, and that of AS numbers of four octets if `wide`."""
    said = families + (capability(WIDE, struct.pack('>I', asn)) if wide else b'')
    return message(OPEN, struct.pack('>BHH4sB', 4, short(asn), hold, socket.inet_aton(identifier), len(said)) + said)


def each_capability(body):
    """Code and value of each capability of an OPEN (RFC 5492)."""
    at = 10
    while at + 2 <= len(body):
        kind, value = body[at], body[at + 2:at + 2 + body[at + 1]]
        at += 2 + len(value)
        while kind == 2 and len(value) >= 2:
            yield value[0], value[2:2 + value[1]]
            value = value[2 + value[1]:]


def capabilities(body):
    """The capabilities of an OPEN by their codes, of each the last one."""
    return dict(each_capability(body))


def families(body):
    """The families that an OPEN says (RFC 4760, section 8); IPv4 alone, where it says none."""
    said = [value[:2] + value[3:] for code, value in each_capability(body) if code == MULTIPROTOCOL and len(value) == 4]
    return [one for one in FAMILIES if one.code in (said or [IPV4.code])]


def asks_again(octets):
    """The family of which a message asks for all routes again; None where it does so of neither."""
    if len(octets) != 23 or octets[18] != ROUTE_REFRESH:
        return None
    return next((one for one in FAMILIES if octets[19:21] + octets[22:] == one.code), None)


def told(kind, body):
    """What a message is, for a reader of reports."""
    name = NAMES.get(kind, 'type %d' % kind)
    if kind == NOTIFICATION and len(body) >= 2:
        return '%s %d/%d %s' % (name, body[0], body[1], body[2:].hex())
    if kind == OPEN and len(body) >= 10:
        return '%s AS %d, hold time %d, identifier %s' % (name, *struct.unpack('>HH', body[1:5]), address(body[5:9]))
    return name


# ---- fields

def part(octets, at, length):
    """So many octets from a place on."""
    if at + length > len(octets):
        raise ValueError('a field runs beyond its end')
    return octets[at:at + length]


def address(octets):
    """The text of an address: its octets, or of IPv6 eight groups without leading zeros; a link-local one that stands behind it (RFC 2545,
    section 3) follows a plus."""
    if len(octets) == 2 * IPV6.size:
        return '%s+%s' % (address(octets[:IPV6.size]), address(octets[IPV6.size:]))
    if len(octets) == IPV6.size:
        return ':'.join('%x' % group for group in struct.unpack('>8H', octets))
    return '.'.join(str(octet) for octet in octets)


def family(text):
    """The family of an address or a prefix."""
    return IPV6 if ':' in text else IPV4


def prefixes(octets, with_paths=False, most=32):
    """The prefixes of a field, one after the other: the path identifier (RFC 7911), 0 where there are none, and the octets, length in front.
    ValueError at the first that doesn't fit."""
    at, end, path, front = 0, len(octets), 0, 4 if with_paths else 0
    while at + front < end:
        length = octets[at + front]
        behind = at + front + 1 + (length + 7 >> 3)
        if length > most or behind > end:
            raise ValueError('a prefix of length %d, or that runs beyond its end' % length)
        if with_paths:
            path = int.from_bytes(octets[at:at + 4], 'big')
        yield path, octets[at + front:behind]
        at = behind
    if at < end:
        raise ValueError('a path identifier without a prefix')


def split(octets, of=IPV4):
    """The octets of the prefixes of a field, in the same way."""
    return (one for _, one in prefixes(octets, most=8 * of.size))


def prefix(octets, of=IPV4):
    """The text of a prefix; bits beyond its length are masked away."""
    length, whole = octets[0], int.from_bytes(octets[1:] + bytes(of.size + 1 - len(octets)), 'big')
    free = 8 * of.size - length
    return '%s/%d' % (address((whole >> free << free).to_bytes(of.size, 'big')), length)


def prefix_octets(text):
    """The octets of a prefix: its length, and so many of the address."""
    network, _, length = text.partition('/')
    return bytes([int(length)]) + ipaddress.ip_address(network).packed[:(int(length) + 7) // 8]


def attributes(octets):
    """The attributes, one after the other. ValueError at the first that runs beyond the end."""
    at, end = 0, len(octets)
    while at + 3 <= end:
        flags, front, length = octets[at], 3, octets[at + 2]
        if flags & EXTENDED:
            front, length = 4, length << 8 | (octets[at + 3] if at + 4 <= end else end)
        behind = at + front + length
        if behind > end:
            break
        yield Attribute(flags, octets[at + 1], octets[at + front:behind])
        at = behind
    if at < end:
        raise ValueError('an attribute runs beyond its end')


def by_type(octets):
    """Each attribute by its type: the three flags that mean something, and the value."""
    return {one.kind: (one.flags & 0xe0, one.value) for one in attributes(octets)}


def attribute(one):
    """The octets of an attribute, with a length of two octets where it needs that, or its flag says so."""
    if len(one.value) > 255 or one.flags & EXTENDED:
        return struct.pack('>BBH', one.flags | EXTENDED, one.kind, len(one.value)) + one.value
    return bytes([one.flags, one.kind, len(one.value)]) + one.value


def segments(octets, width):
    """The segments of a path: type and numbers. ValueError where they aren't whole."""
    found, at = [], 0
    while at < len(octets):
        kind, count = part(octets, at, 2)
        numbers = struct.unpack('>%d%s' % (count, 'H' if width == 2 else 'I'), part(octets, at + 2, width * count))
        found.append((kind, list(numbers)))
        at += 2 + width * count
    return found


def path_octets(found, width=4):
    """The octets of a path of these segments."""
    form = 'H' if width == 2 else 'I'
    return b''.join(bytes([kind, len(numbers)]) + struct.pack('>%d%s' % (len(numbers), form), *numbers) for kind, numbers in found)


def path(octets, width=2):
    """The text of an AS_PATH: sequences in (), sets in {}."""
    said = ''
    for kind, numbers in segments(octets, width):
        if kind not in (AS_SET, AS_SEQUENCE):
            raise ValueError('a segment of type %d' % kind)
        said += ('(%s)' if kind == AS_SEQUENCE else '{%s}') % '.'.join(str(number) for number in numbers)
    return said


# ---- UPDATEs

def fields(body):
    """The octets of an UPDATE's withdrawn prefixes, attributes and announced prefixes (section 4.3). ValueError where its lengths don't
    fit."""
    gone = part(body, 2, int.from_bytes(part(body, 0, 2), 'big'))
    behind = 2 + len(gone)
    said = part(body, behind + 2, int.from_bytes(part(body, behind, 2), 'big'))
    return gone, said, body[behind + 2 + len(said):]


def made_update(gone, said, come):
    """The UPDATE that has these three fields, each as octets."""
    return message(UPDATE, struct.pack('>H', len(gone)) + gone + struct.pack('>H', len(said)) + said + come)


def update(body):
    """The parts of an UPDATE: its prefixes of IPv4, and behind them those of IPv6."""
    gone, said, come = fields(body)
    kinds = by_type(said)
    gone_too, come_too = unreached(kinds), reached(kinds)[1]
    return Update([prefix(one) for one in split(gone)] + gone_too, kinds, [prefix(one) for one in split(come)] + come_too)


def reach(value):
    """Family, next hop and prefixes, as octets, of an attribute of type 14 (RFC 4760, section 3). ValueError where they don't fit."""
    behind = 4 + part(value, 3, 1)[0]
    part(value, behind, 1)
    return value[:3], part(value, 4, behind - 4), value[behind + 1:]


def reached(kinds):
    """The next hop, as octets, and the prefixes of IPv6 that attributes announce."""
    value = kinds.get(MP_REACH, (0, b''))[1]
    if not value.startswith(IPV6.code):
        return b'', []
    _, hop, field = reach(value)
    return hop, [prefix(one, IPV6) for one in split(field, IPV6)]


def unreached(kinds):
    """The prefixes of IPv6 that attributes withdraw (section 4)."""
    value = kinds.get(MP_UNREACH, (0, b''))[1]
    return [prefix(one, IPV6) for one in split(value[3:], IPV6)] if value.startswith(IPV6.code) else []


def reaching(hop, octets):
    """The attribute that announces prefixes of IPv6, each as octets, by a next hop."""
    return Attribute(0x80, MP_REACH, IPV6.code + bytes([len(hop)]) + hop + b'\0' + b''.join(octets))


def unreaching(octets):
    """The attribute that withdraws prefixes of IPv6."""
    return Attribute(0x80, MP_UNREACH, IPV6.code + b''.join(octets))


def of_family(kinds, of):
    """The attributes of an UPDATE's routes of a family: those of IPv6 have the next hop of type 14 in the place of NEXT_HOP."""
    said = {kind: one for kind, one in kinds.items() if kind not in (MP_REACH, MP_UNREACH)}
    if of == IPV6:
        said[NEXT_HOP] = 0x40, reached(kinds)[0]
    return said


def take(held, body):
    """An Adj-RIB-In, attributes by prefix, after one more UPDATE."""
    said, of = update(body), {}
    for gone in said.withdrawn:
        held.pop(gone, None)
    for came in said.announced:
        here = family(came)
        of[here] = of.get(here) or of_family(said.attributes, here)
        held[came] = of[here]


def take_each(tables, body):
    """The same of a table for each of some families."""
    for table in tables.values():
        take(table, body)


def joined(tables):
    """The routes of each of these families, in one table."""
    return {one: said for of, table in tables.items() for one, said in list(table.items()) if family(one) == of}


# ---- what a route says

def reflected(said):
    """The words of what route reflectors add, by type: where it isn't transitive and has a length that it may have."""
    words = {}
    if said.get(ORIGINATOR_ID, (0x40, b''))[0] & 0x40 == 0 and len(said[ORIGINATOR_ID][1]) == 4:
        words[ORIGINATOR_ID] = 'r' + address(said[ORIGINATOR_ID][1])
    if said.get(CLUSTER_LIST, (0x40, b''))[0] & 0x40 == 0 and said[CLUSTER_LIST][1] and len(said[CLUSTER_LIST][1]) % 4 == 0:
        octets = said[CLUSTER_LIST][1]
        words[CLUSTER_LIST] = 'c' + ';'.join(address(octets[at:at + 4]) for at in range(0, len(octets), 4))
    return words


def text(said, width=2):
    """The word that tells these attributes, which stand by type."""
    words = ['o%d' % said[ORIGIN][1][0], 'p' + path(said[AS_PATH][1], width), 'n' + address(said[NEXT_HOP][1])]
    if MED in said:
        words.append('m%d' % int.from_bytes(said[MED][1], 'big'))
    if LOCAL_PREF in said:
        words.append('l%d' % int.from_bytes(said[LOCAL_PREF][1], 'big'))
    if ATOMIC_AGGREGATE in said:
        words.append('a')
    if AGGREGATOR in said:
        flags, value = said[AGGREGATOR]
        words.append('g%d/%s%s' % (int.from_bytes(value[:-4], 'big'), address(value[-4:]), '!' if flags & 0x20 else ''))
    added = reflected(said)
    words += [added[kind] for kind in sorted(added)]
    for kind in sorted(set(said) - set(range(1, 8)) - set(added)):
        words.append('x%d:%s' % (kind, said[kind][1].hex()))
    return ','.join(words)


def texts(held, width=2):
    """The words of a table."""
    return {prefix: text(said, width) for prefix, said in list(held.items())}
