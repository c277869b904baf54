"""UPDATEs taken apart and put together again, so that a session of IPv4 unicast with AS numbers of four octets says the same
(RFC 4271, section 4.3; RFC 4760; RFC 5065; RFC 6793; RFC 7911; RFC 8654; RFC 8950).
"""
import collections

from bgp import wire
from bgp.wire import AS_SEQUENCE, AS_SET, IPV4_UNICAST, MP_REACH, MP_UNREACH, Attribute, path_octets, segments

AS4_PATH, AS4_AGGREGATOR = 17, 18
CONFEDERATION = (3, 4)  # types of segments (RFC 5065, section 3)
OF_A_CONFEDERATION = tuple(bytes([kind]) for kind in CONFEDERATION)  # how such a path begins
# the flags of attributes whose standard leaves no choice but the partial bit
FLAGS = {1: 0x40, 2: 0x40, 3: 0x40, 4: 0x80, 5: 0x40, 6: 0x40, 7: 0xc0, 8: 0xc0, 9: 0x80, 10: 0x80, 14: 0x80, 15: 0x80, 16: 0xc0, 32: 0xc0}

# withdrawn and announced prefixes, each with its path identifier (0 where there are none), and the attributes between them
Said = collections.namedtuple('Said', 'gone attributes come')


def read(octets, with_paths=False):
    """What an UPDATE says, by its own fields. ValueError where they don't fit."""
    gone, said, come = wire.fields(octets[19:])
    return Said(list(wire.prefixes(gone, with_paths)), list(wire.attributes(said)), list(wire.prefixes(come, with_paths)))


# ---- AS numbers of four octets

def length(path):
    """How long a path is for RFC 6793, section 4.2.3: an AS_SET counts 1, what is of a confederation nothing."""
    return sum({AS_SET: 1, AS_SEQUENCE: len(numbers)}.get(kind, 0) for kind, numbers in path)


def front(path, count):
    """The front of a path that is so long."""
    found = []
    for kind, numbers in path:
        if count <= 0:
            break
        taken = numbers[:count] if kind == AS_SEQUENCE else numbers
        found.append((kind, taken))
        count -= length([(kind, taken)])
    return found


def merged(path, wide):
    """AS_PATH of two octets and AS4_PATH as one path (RFC 6793, section 4.2.3)."""
    wide = [segment for segment in wide if segment[0] in (AS_SET, AS_SEQUENCE)]
    if length(path) < length(wide):
        return path
    found = front(path, length(path) - length(wide))
    for kind, numbers in wide:
        if found and found[-1][0] == kind == AS_SEQUENCE and len(found[-1][1]) + len(numbers) < 256:
            found[-1] = (kind, found[-1][1] + numbers)
        else:
            found.append((kind, numbers))
    return found


def value_of(said, kind, size=None):
    """The value of the first attribute of a type, and of that length; None where there is none."""
    return next((one.value for one in said if one.kind == kind and size in (None, len(one.value))), None)


def as4_path(said):
    """AS4_PATH, where it can be read; else None: it is discarded (RFC 6793, section 6)."""
    try:
        found = segments(value_of(said, AS4_PATH) or b'', 4)
    except ValueError:
        return None
    return found if found and all(numbers for _, numbers in found) else None


def widened(said):
    """The attributes of a session of two octets as one of four octets has them. ValueError where AS_PATH can't be read."""
    aggregator, wide_aggregator = value_of(said, wire.AGGREGATOR, 6), value_of(said, AS4_AGGREGATOR, 8)
    is_trans = aggregator is not None and int.from_bytes(aggregator[:2], 'big') == wire.AS_TRANS
    # an AGGREGATOR of another AS was written behind the last speaker of four octets: neither of its two attributes counts then
    discarded = aggregator is not None and wide_aggregator is not None and not is_trans
    wide, found = None if discarded else as4_path(said), []
    for one in said:
        if one.kind == wire.AS_PATH:
            path = segments(one.value, 2)
            one = one._replace(value=path_octets(merged(path, wide) if wide else path))
        elif one.kind == wire.AGGREGATOR and len(one.value) == 6:
            one = one._replace(value=wide_aggregator if is_trans and wide_aggregator else b'\0\0' + one.value)
        if one.kind not in (AS4_PATH, AS4_AGGREGATOR):
            found.append(one)
    return found


def outside(said):
    """The attributes with the path that a confederation tells outside: without its segments, which stand in front (RFC 5065, section 4.1), and
    which count nothing in a path's length (section 5.3). ValueError where such a path can't be read."""
    found = []
    for one in said:
        if one.kind == wire.AS_PATH and one.value[:1] in OF_A_CONFEDERATION:
            one = one._replace(value=path_octets([segment for segment in segments(one.value, 4) if segment[0] not in CONFEDERATION]))
        found.append(one)
    return found


# ---- IPv4 in types 14 and 15

def reached(value):
    """Next hop and prefixes of an attribute of type 14, and its family. ValueError where they don't fit."""
    family, hop, field = wire.reach(value)
    return family, first_hop(hop), field


def first_hop(octets):
    """The next hop, of the two that type 14 may have the global one, unless it is ::."""
    if len(octets) not in (4, 16, 32):
        raise ValueError('a next hop of %d octets' % len(octets))
    return octets[:16] if any(octets[:16]) else octets[16:]


def with_own_fields(said, with_paths):
    """What an UPDATE says of IPv4, each part in an UPDATE's own fields: one Said, and another one where type 14 has IPv4 prefixes."""
    others, hop, gone, come = [], None, [], []
    for one in said.attributes:
        if one.kind == MP_REACH and one.value.startswith(IPV4_UNICAST):
            _, hop, field = reached(one.value)
            come += wire.prefixes(field, with_paths)
        elif one.kind == MP_UNREACH and one.value.startswith(IPV4_UNICAST):
            gone += wire.prefixes(one.value[3:], with_paths)
        else:
            others.append(one)
    yield said._replace(gone=said.gone + gone, attributes=others)
    if come:
        yield Said([], with_hop(others, hop), come)


def with_hop(said, hop):
    """The attributes with this NEXT_HOP in the place of theirs, behind AS_PATH."""
    found = [one for one in said if one.kind != wire.NEXT_HOP]
    place = next((place + 1 for place, one in enumerate(found) if one.kind == wire.AS_PATH), len(found))
    return found[:place] + [Attribute(0x40, wire.NEXT_HOP, hop)] + found[place:]


def has_ipv4(said):
    """Whether there are routes of IPv4 unicast in types 14 and 15."""
    return any(one.kind in (MP_REACH, MP_UNREACH) and one.value.startswith(IPV4_UNICAST) for one in said)


def of_other_families(said):
    """Whether there are routes of a family other than IPv4 unicast."""
    return any(one.kind in (MP_REACH, MP_UNREACH) and not one.value.startswith(IPV4_UNICAST) for one in said)


# ---- writing

def taken(octets, room):
    """So many of the first pieces as there is room for, joined; the others stay."""
    size, count = 0, 0
    while count < len(octets) and size + len(octets[count]) <= room:
        size += len(octets[count])
        count += 1
    part = b''.join(octets[:count])
    del octets[:count]
    return part


def written(gone, said, come):
    """UPDATEs of at most 4,096 octets that say this. ValueError where the attributes alone leave no room for a prefix."""
    said, gone, come = b''.join(map(wire.attribute, said)), list(gone), list(come)
    room = wire.MOST - 23
    if come and len(said) + max(map(len, come)) > room:
        raise ValueError('the attributes alone are too long')
    while gone and sum(map(len, gone)) + len(said) + sum(map(len, come)) > room:
        yield wire.made_update(taken(gone, room), b'', b'')
    if not come:
        yield wire.made_update(b''.join(gone), said, b'')
    while come:
        first, gone = b''.join(gone), []
        yield wire.made_update(first, said, taken(come, room - len(said) - len(first)))
