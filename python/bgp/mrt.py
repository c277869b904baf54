"""MRT files (RFC 6396, RFC 8050): their records, read one by one or made."""
import collections
import lzma
import socket
import struct
import zlib

from bgp.wire import short

TABLE_DUMP, TABLE_DUMP_V2, BGP4MP, BGP4MP_ET = 12, 13, 16, 17
BMP = 1 << 16  # no type of a record: what bmp.py has no use for
STATE_CHANGE, MESSAGE, MESSAGE_AS4, STATE_CHANGE_AS4 = 0, 1, 4, 5
MESSAGE_ADDPATH, MESSAGE_AS4_ADDPATH = 8, 9
LOCAL_MESSAGES = (6, 7, 10, 11)  # what the router itself said
PEER_INDEX_TABLE = 1
RIB_IPV4, RIB_IPV6, RIB_IPV4_ADDPATH, RIB_IPV6_ADDPATH = 2, 4, 8, 10
ESTABLISHED = 6

TYPES = {11: 'OSPFv2', 12: 'TABLE_DUMP', 13: 'TABLE_DUMP_V2', 16: 'BGP4MP', 17: 'BGP4MP_ET', 32: 'ISIS', 33: 'ISIS_ET', 48: 'OSPFv3', 49: 'OSPFv3_ET', BMP: 'BMP'}
SUBTYPES = {
    TABLE_DUMP: {1: 'AFI_IPv4', 2: 'AFI_IPv6'},
    TABLE_DUMP_V2: {1: 'PEER_INDEX_TABLE', 2: 'RIB_IPV4_UNICAST', 3: 'RIB_IPV4_MULTICAST', 4: 'RIB_IPV6_UNICAST', 5: 'RIB_IPV6_MULTICAST',
                    6: 'RIB_GENERIC', 7: 'GEO_PEER_TABLE', 8: 'RIB_IPV4_UNICAST_ADDPATH', 9: 'RIB_IPV4_MULTICAST_ADDPATH',
                    10: 'RIB_IPV6_UNICAST_ADDPATH', 11: 'RIB_IPV6_MULTICAST_ADDPATH', 12: 'RIB_GENERIC_ADDPATH'},
    BGP4MP: {0: 'STATE_CHANGE', 1: 'MESSAGE', 4: 'MESSAGE_AS4', 5: 'STATE_CHANGE_AS4', 6: 'MESSAGE_LOCAL', 7: 'MESSAGE_AS4_LOCAL',
             8: 'MESSAGE_ADDPATH', 9: 'MESSAGE_AS4_ADDPATH', 10: 'MESSAGE_LOCAL_ADDPATH', 11: 'MESSAGE_AS4_LOCAL_ADDPATH'},
}
SUBTYPES[BMP] = {0: 'Route Monitoring', 1: 'Statistics Report', 2: 'Peer Down', 3: 'Peer Up', 4: 'Initiation', 5: 'Termination', 6: 'Route Mirroring'}
SUBTYPES[BGP4MP_ET] = SUBTYPES[BGP4MP]
WITH_WIDE_NUMBERS = (4, 5, 7, 9, 11)  # subtypes of BGP4MP whose AS numbers have four octets

HEAD = struct.Struct('>IHHI')
BLOCK = 1 << 20
MOST = 1 << 24  # octets of a record: no router or collector writes one that is longer

Sides = collections.namedtuple('Sides', 'peer_as local_as family peer local rest')


class Wrong(Exception):
    """Why a file is none of MRT, or can't be read on."""


def block(file, number):
    """The next octets of a file. Wrong where it is packed and can't be unpacked on, behind so many records."""
    try:
        return file.read(BLOCK)
    except (EOFError, OSError, zlib.error, lzma.LZMAError) as error:
        raise Wrong('it is packed and cut or damaged behind record %d: %s' % (number, error)) from error


def records(file):
    """Time, type, subtype and body of each record. Wrong where the file ends within one, or one can't be."""
    rest, number = b'', 0
    while True:
        more = block(file, number)
        octets, at = rest + more, 0
        end = len(octets)
        while at + 12 <= end:
            when, kind, subtype, size = HEAD.unpack_from(octets, at)
            if size > MOST or number == 0 and kind not in TYPES:
                raise Wrong('record %d has type %d, subtype %d and a length of %d octets: none of an MRT file' % (number + 1, kind, subtype, size))
            if at + 12 + size > end:
                break
            number += 1
            yield when, kind, subtype, octets[at + 12:at + 12 + size]
            at += 12 + size
        rest = octets[at:]
        if not more:
            break
    if rest:
        raise Wrong('it ends within the %s of record %d: it was cut, or is still being written' % ('header' if len(rest) < 12 else 'body', number + 1))


def sides(subtype, body):
    """AS numbers, family and addresses of a record of BGP4MP, without microseconds, and what is behind them. ValueError where they don't
    fit."""
    width = 4 if subtype in WITH_WIDE_NUMBERS else 2
    family = int.from_bytes(body[2 * width + 2:2 * width + 4], 'big')
    at, size = 2 * width + 4, 16 if family == 2 else 4
    if len(body) < at + 2 * size:
        raise ValueError('the fields of the record run beyond its length')
    return Sides(int.from_bytes(body[:width], 'big'), int.from_bytes(body[width:2 * width], 'big'), family,
                 body[at:at + size], body[at + size:at + 2 * size], body[at + 2 * size:])


def sides_octets(is_wide, told):
    """The fields of a record of BGP4MP, as `sides` reads them."""
    numbers = (told.peer_as, told.local_as) if is_wide else (short(told.peer_as), short(told.local_as))
    return made_sides(is_wide, told.peer, told.local, told.family, *numbers)


def shown(address):
    return socket.inet_ntop(socket.AF_INET6 if len(address) == 16 else socket.AF_INET, address)


def type_name(kind, subtype):
    """The standard's name of a record's type and subtype."""
    return '%s %s' % (TYPES.get(kind, 'type %d' % kind), SUBTYPES.get(kind, {}).get(subtype, 'subtype %d' % subtype))


# ---- records that are made

LOCAL = (192, 0, 2, 254)


def record(kind, subtype, body, when=0):
    return HEAD.pack(when, kind, subtype, len(body)) + body


def made_sides(as4, peer=(192, 0, 2, 1), local=LOCAL, family=1, peer_as=65001, local_as=65000, interface=0):
    """The front of a record of BGP4MP."""
    return struct.pack('>IIHH' if as4 else '>HHHH', peer_as, local_as, interface, family) + bytes(peer) + bytes(local)


def made_states(as4, old, new, kind=BGP4MP, when=0, **where):
    body = made_sides(as4, **where) + struct.pack('>HH', old, new)
    return record(kind, STATE_CHANGE_AS4 if as4 else STATE_CHANGE, (b'\0\0\0\7' if kind == BGP4MP_ET else b'') + body, when)


def made_message(as4, octets, kind=BGP4MP, subtype=None, when=0, **where):
    subtype = subtype if subtype is not None else MESSAGE_AS4 if as4 else MESSAGE
    return record(kind, subtype, (b'\0\0\0\7' if kind == BGP4MP_ET else b'') + made_sides(as4, **where) + octets, when)
