"""An UPDATE in its parts, so that it can be written with one of them changed or gone."""
import collections

from bgp import wire
import faults

Parts = collections.namedtuple('Parts', 'withdrawn attributes announced')  # prefixes as octets, length in front


def read(octets):
    """The parts of an UPDATE; ValueError where it is another message, or can't be parted."""
    if len(octets) < 19 or octets[18] != wire.UPDATE:
        raise ValueError('no UPDATE')
    gone, said, came = wire.fields(octets[19:])
    return Parts(list(wire.split(gone)), list(wire.attributes(said)), list(wire.split(came)))


def texts(parts):
    """The prefixes of both families that an UPDATE withdraws and announces."""
    gone, came = faults.second(b''.join(map(wire.attribute, parts.attributes)))
    return [wire.prefix(one) for one in parts.withdrawn] + gone, [wire.prefix(one) for one in parts.announced] + came


def written(parts):
    """The octets of an UPDATE with these parts. An attribute keeps a length of two octets where its flag says so."""
    return wire.made_update(b''.join(parts.withdrawn), b''.join(map(wire.attribute, parts.attributes)), b''.join(parts.announced))
