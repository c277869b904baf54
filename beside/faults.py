"""The faults of an UPDATE's attributes, read by RFC 4271, section 6.3, and RFC 4760, section 7, alone: nothing here knows the program."""
from bgp import wire

LENGTHS = {wire.ORIGIN: 1, wire.NEXT_HOP: 4, wire.MED: 4, wire.LOCAL_PREF: 4, wire.ATOMIC_AGGREGATE: 0,
           wire.ORIGINATOR_ID: 4}
FLAGS = {wire.ORIGIN: 0x40, wire.AS_PATH: 0x40, wire.NEXT_HOP: 0x40, wire.MED: 0x80, wire.LOCAL_PREF: 0x40, wire.ATOMIC_AGGREGATE: 0x40,
         wire.AGGREGATOR: 0xc0, wire.ORIGINATOR_ID: 0x80, wire.CLUSTER_LIST: 0x80}

OF_THE_SECOND = (wire.MP_REACH, wire.MP_UNREACH)
UNUSABLE = (bytes(16), bytes(15) + b'\1')  # :: and ::1 are no next hops


def faults(octets, announces, width, second=False):
    """The faults of attributes, from left to right (docs/BGP.md, "Faults"): type and `flags`, `length` or `value`; or `twice`, `unknown`,
    `missing`, `run out`. With `second` types 14 and 15 are read, whose repetition is `14 twice` or `15 twice`."""
    found, seen = set(), set()
    needed = {wire.ORIGIN, wire.AS_PATH, wire.NEXT_HOP} if announces else set()
    try:
        for one in wire.attributes(octets):
            is_second = second and one.kind in OF_THE_SECOND
            if one.kind in seen:
                found.add('%d twice' % one.kind if is_second else 'twice')
                continue
            seen.add(one.kind)
            what_is_wrong = of_the_second(*one) if is_second else of_one(*one, width)
            found |= {'%d %s' % (one.kind, what) if what != 'unknown' else what for what in what_is_wrong}
            if is_second and prefixes(one)[1]:
                needed |= {wire.ORIGIN, wire.AS_PATH}
    except ValueError:
        return found | {'run out'}
    return found if needed <= seen else found | {'missing'}


def of_the_second(flags, kind, value):
    """The faults of an attribute of type 14 or 15; one of another family isn't looked at."""
    if flags & 0xc0 != 0x80:
        yield 'flags'
    elif len(value) < 3:
        yield 'value'
    elif value.startswith(wire.IPV6.code):
        try:
            hop = wire.reached({kind: (flags, value)})[0] if kind == wire.MP_REACH else None
            wire.unreached({kind: (flags, value)})
        except ValueError:
            yield 'value'
            return
        if hop is not None and (len(hop) not in (16, 32) or hop[0] == 0xff or hop[:16] in UNUSABLE):
            yield 'value'


def prefixes(one):
    """The prefixes of IPv6 that an attribute withdraws and announces; none where they can't be read."""
    kinds = {one.kind: (one.flags, one.value)}
    try:
        return wire.unreached(kinds), wire.reached(kinds)[1]
    except ValueError:
        return [], []


def second(octets):
    """The prefixes of IPv6 that attributes withdraw and announce, up to where they can be read; of each type the first attribute counts."""
    gone, came, seen = [], [], set()
    try:
        for one in wire.attributes(octets):
            if one.kind not in seen:
                seen.add(one.kind)
                found = prefixes(one)
                gone, came = gone + found[0], came + found[1]
    except ValueError:
        pass
    return gone, came


def behind(octets, width):
    """What stands behind the first attribute with a fault of its flags, length or value, of those types whose faults withdraw (RFC 7606,
    section 7); None where there is no such attribute."""
    at = 0
    try:
        for one in wire.attributes(octets):
            at += len(one.value) + (4 if one.flags & 0x10 else 3)
            found = set(of_one(*one, width)) - ({'value'} if one.kind == wire.NEXT_HOP else set())
            if found and one.kind in FLAGS and one.kind not in (wire.ATOMIC_AGGREGATE, wire.AGGREGATOR):
                return octets[at:]
    except ValueError:
        pass
    return None


def of_one(flags, kind, value, width):
    """The faults of one attribute."""
    if kind not in FLAGS:
        if not flags & 0x80:
            yield 'unknown'
        return
    if flags & 0xc0 != FLAGS[kind]:
        yield 'flags'
    if len(value) != LENGTHS.get(kind, 4 + width if kind == wire.AGGREGATOR else len(value)):
        yield 'length'
    elif kind == wire.CLUSTER_LIST and (not value or len(value) % 4):
        yield 'length'
    elif kind == wire.ORIGIN and value[0] > 2 or kind == wire.NEXT_HOP and (value[0] in (0, 127) or value[0] >= 224):
        yield 'value'
    elif kind == wire.AS_PATH and not is_path(value, width):
        yield 'value'


def is_path(octets, width):
    try:
        wire.path(octets, width)
    except ValueError:
        return False
    return '()' not in wire.path(octets, width) and '{}' not in wire.path(octets, width)


def is_cut_of_both(octets):
    """Whether a message announces routes of both families, and lacks an attribute that each route of IPv4 has."""
    try:
        _, said, came = wire.fields(octets[19:])
        kinds = wire.by_type(said)
    except ValueError:
        return False
    needed = {wire.ORIGIN, wire.AS_PATH, wire.NEXT_HOP}
    return octets[18:19] == bytes([wire.UPDATE]) and bool(came) and wire.MP_REACH in kinds and not needed <= set(kinds)
