"""Files that have what a router or a collector wrote: MRT, or a stream of BMP, also packed by gzip, bzip2 or xz; and what else a file may be."""
import bz2
import contextlib
import gzip
import lzma
import sys
import zlib

from bgp import bmp, mrt, wire

FORMS = {'MRT': mrt.records, 'BMP': bmp.records}
# what else a file may be, by its first octets
PACKED = {b'\x1f\x8b': ('gzip', gzip.open), b'BZh': ('bzip2', bz2.open), b'\xfd7zXZ': ('xz', lzma.open)}
FOREIGN = {
    b'\x28\xb5\x2f\xfd': 'it is packed by zstd: unpack it first (zstd -d)',
    b'PK\3\4': 'it is a zip archive: unpack it first (unzip)',
    b'\xd4\xc3\xb2\xa1': 'it is a packet capture (pcap, as tcpdump writes it): a router or collector has to write the MRT file',
    b'\xa1\xb2\xc3\xd4': 'it is a packet capture (pcap, as tcpdump writes it): a router or collector has to write the MRT file',
    b'\x4d\x3c\xb2\xa1': 'it is a packet capture (pcap, as tcpdump writes it): a router or collector has to write the MRT file',
    b'\x0a\x0d\x0d\x0a': 'it is a packet capture (pcapng, as Wireshark writes it): a router or collector has to write the MRT file',
    wire.MARKER: 'it has bare BGP messages, without the records of an MRT file around them',
}


def foreign(head):
    """What a file is by its first octets, where it is no MRT file and no stream of BMP; None where it may be one."""
    for magic, told in FOREIGN.items():
        if head.startswith(magic):
            return told
    if head and all(octet in b'\t\n\r' or 32 <= octet < 127 for octet in head):
        return 'it is a text, which begins with %s' % ascii(head[:24].decode('ascii'))
    return None


@contextlib.contextmanager
def opened(path):
    """The octets of a file as one can read them, how it is packed, and its form, MRT or BMP; `-` is standard input. mrt.Wrong where it is neither
    by its first octets."""
    with contextlib.ExitStack() as stack:
        file, packing = sys.stdin.buffer if path == '-' else stack.enter_context(open(path, 'rb')), None
        head = file.peek(64)[:64]
        for magic, (name, unpack) in PACKED.items():
            if head.startswith(magic):
                file, packing = stack.enter_context(unpack(file)), name
                head = peeked(file)
        told = foreign(head)
        if told:
            raise mrt.Wrong(told)
        yield file, packing, 'BMP' if bmp.is_one(head) else 'MRT'


def read(path):
    """The records of a file, as `mrt.records` has them."""
    with opened(path) as (file, _, form):
        yield from FORMS[form](file)


def peeked(file):
    """The first octets of a packed file."""
    try:
        return file.peek(64)[:64]
    except (EOFError, OSError, zlib.error, lzma.LZMAError) as error:
        raise mrt.Wrong('it is packed and damaged: %s' % error) from error
