"""Messages with one fault, as docs/BGP.md names them ("Faults"): made of a sound UPDATE."""
from bgp import wire
from faults import OF_THE_SECOND
from hunting import parts

# attributes with a fault of flags, length or value, by what the fault is
FAULTY = (
    (0x40, wire.ORIGIN, b'\3'), (0x40, wire.ORIGIN, b'\0\0'), (0xc0, wire.ORIGIN, b'\0'), (0x40, wire.ORIGIN, b''),
    (0x40, wire.AS_PATH, b'\5\1\xfd\xe9'), (0x40, wire.AS_PATH, b'\2\0'), (0x40, wire.AS_PATH, b'\2\2\xfd\xe9'), (0xc0, wire.AS_PATH, b''),
    (0x40, wire.NEXT_HOP, bytes(4)), (0x40, wire.NEXT_HOP, bytes([224, 0, 0, 1])), (0x40, wire.NEXT_HOP, bytes([192, 0, 2])),
    (0x80, wire.NEXT_HOP, bytes([192, 0, 2, 60])), (0x80, wire.MED, bytes(3)), (0x40, wire.MED, bytes(4)), (0xc0, wire.MED, bytes(4)),
    (0x40, wire.LOCAL_PREF, bytes(3)), (0x80, wire.LOCAL_PREF, bytes(4)), (0x40, wire.ATOMIC_AGGREGATE, b'\0'),
    (0xc0, wire.ATOMIC_AGGREGATE, b''), (0xc0, wire.AGGREGATOR, bytes(5)), (0x40, wire.AGGREGATOR, bytes(6)),
)
REFLECTED = ((0x80, wire.ORIGINATOR_ID, bytes(3)), (0x80, wire.CLUSTER_LIST, bytes(3)), (0x80, wire.CLUSTER_LIST, b''))
HOP = bytes.fromhex('3fff0000006000000000000000000060')
# of type 14 the flags, the length of the next hop, the next hop, a prefix that is too long, or cut short, and too few octets; so of type 15
OF_IPV6 = (
    (0xc0, wire.MP_REACH, b'\0\2\1\x10' + HOP + b'\0\x20\x20\1\r\xb8'), (0x80, wire.MP_REACH, b'\0\2\1\4' + HOP[:4] + b'\0\x20\x20\1\r\xb8'),
    (0x80, wire.MP_REACH, b'\0\2\1\x10' + b'\xff\2' + HOP[2:] + b'\0'), (0x80, wire.MP_REACH, b'\0\2\1\x10' + HOP + b'\0\x81' + bytes(17)),
    (0x80, wire.MP_REACH, b'\0\2\1\x10' + HOP + b'\0\x20\x20\1'), (0x80, wire.MP_REACH, b'\0\2'), (0x40, wire.MP_UNREACH, b'\0\2\1'),
    (0x80, wire.MP_UNREACH, b'\0\2\1\x81' + bytes(17)), (0x80, wire.MP_UNREACH, b'\0\2\1\x20\x20'), (0x80, wire.MP_UNREACH, b''))
UNKNOWN = (0x40, 98, b'\0')
READ = set(range(1, 8)) | {98, 99, 100, 200}  # types that a changed octet may make: daemons know others that the program doesn't


def faulty(random, sound, reflects, second=False):
    """A sound UPDATE with one fault put into it, as octets."""
    made = random.choice((attribute, attribute, attribute, twice, missing, unknown, run_out, prefix, lengths))
    return made(random, sound, FAULTY + REFLECTED * reflects + OF_IPV6 * second)


def attribute(random, sound, faults):
    one = wire.Attribute(*random.choice(faults))
    kept = [other for other in sound.attributes if other.kind != one.kind]
    return parts.written(sound._replace(attributes=sorted(kept + [one], key=lambda other: other.kind)))


def twice(random, sound, _):
    return parts.written(sound._replace(attributes=sound.attributes + [random.choice(sound.attributes)]))


def missing(random, sound, _):
    gone = random.choice((wire.ORIGIN, wire.AS_PATH, wire.NEXT_HOP))
    return parts.written(sound._replace(attributes=[one for one in sound.attributes if one.kind != gone]))


def unknown(_, sound, __):
    return parts.written(sound._replace(attributes=sound.attributes + [wire.Attribute(*UNKNOWN)]))


def run_out(random, sound, _):
    """The last attribute says to be longer than it is."""
    octets, last = parts.written(sound), sound.attributes[-1]
    at = len(octets) - sum(len(one) for one in sound.announced) - len(last.value) - 1
    return octets[:at] + bytes([(octets[at] + random.randint(1, 9)) % 256]) + octets[at + 1:]


def prefix(random, sound, _):
    """A prefix that is too long, or cut short."""
    one = random.choice((bytes([33, 10, 1, 0, 0, 0]), bytes([24, 10])))
    return parts.written(sound._replace(announced=sound.announced + [one]))


def lengths(random, sound, _):
    """The length of the withdrawn prefixes is more than there is."""
    octets = parts.written(sound)
    return octets[:19] + random.choice((b'\xff\xff', b'\1\0')) + octets[21:]


def changed(random, sound, second=False):
    """A sound UPDATE with one bit changed behind its header; none of the types that only the daemons know."""
    octets = parts.written(sound)
    while True:
        at = random.randrange(19, len(octets))
        found = octets[:at] + bytes([octets[at] ^ 1 << random.randrange(8)]) + octets[at + 1:]
        if is_known(found, READ | set(OF_THE_SECOND) if second else READ):
            return found


def is_known(octets, read):
    """Whether no attribute is of a type that the daemons know, and the program doesn't."""
    try:
        said = wire.fields(octets[19:])[1]
    except ValueError:
        return True
    at = 0
    while at + 2 < len(said):
        if said[at + 1] not in read:
            return False
        wide = 2 if said[at] & 0x10 else 1
        at += 2 + wide + int.from_bytes(said[at + 2:at + 2 + wide], 'big')
    return True


def other(random):
    """A message that is no UPDATE: sound ones, and such with a fault in the header."""
    return random.choice((
        wire.message(wire.KEEPALIVE), wire.message(wire.KEEPALIVE), wire.message(wire.NOTIFICATION, b'\6\2'),
        wire.message(9), bytes(16) + wire.message(wire.KEEPALIVE)[16:], wire.message(wire.KEEPALIVE, b'\0')))
