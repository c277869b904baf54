"""The speakers of a capture as `replay mrt` takes them: IPv4 addresses that a host can have, 64 peers, one route of a peer at a prefix."""
import socket
import struct

from bgp import mrt, wire

PEERS = 64  # that one router has (docs/LANGUAGE.md, "Refusals", E6)
# where stand-ins come from: networks for tests between routers, which nobody routes (RFC 2544)
PATHS, ADDRESSES = 0xc6120000, 0xc6130000  # 198.18.0.0 and 198.19.0.0
RESERVED = 65535  # the local AS where nothing tells it: it stands in no path (RFC 7300)
NAMELESS = bytes([192, 0, 2, 254])  # and the local address


def usable(address):
    """Whether `mrt` takes an address."""
    return len(address) == 4 and 0 < address[0] < 224 and address[0] != 127


class Addresses:
    """For an address that `mrt` doesn't take another one stands, the same each time; and for each further path of a peer."""

    def __init__(self):
        self.instead, self.counts = {}, {PATHS: 0, ADDRESSES: 0}

    def of(self, address, place=0):
        if not place and usable(address):
            return address
        found = self.instead.get((address, place))
        if found is None:
            network = PATHS if place else ADDRESSES
            self.counts[network] += 1
            if self.counts[network] > 0xffff:
                raise mrt.Wrong('more than 65,535 addresses would have to stand for others')
            found = self.instead[address, place] = struct.pack('>I', network + self.counts[network])
        return found

    def told(self):
        """Which address stands for which."""
        for (address, place), instead in self.instead.items():
            yield '%s stands for %s%s' % (mrt.shown(instead), mrt.shown(address), ', path %d' % (place + 1) if place else '')


class Choice:
    """Which peers are wanted, by number in order of their first record, or by address: `1-64`, `65-`, `192.0.2.1`, several with commas."""

    def __init__(self, text):
        self.ranges, self.addresses, self.text = [], set(), text
        for word in text.split(','):
            if '.' in word or ':' in word:
                self.addresses.add(socket.inet_pton(socket.AF_INET6 if ':' in word else socket.AF_INET, word))
            else:
                first, dash, last = word.partition('-')
                self.ranges.append((int(first), int(last) if last else 1 << 32 if dash else int(first)))

    def has(self, number, address):
        return address in self.addresses or any(first <= number <= last for first, last in self.ranges)


class Local:
    """The router: the first local side of which AS and address can be a speaker's, until a record was written with it. AS numbers of
    four octets count more than those of two."""

    def __init__(self, known):
        self.asn, self.address = known or (None, None)
        self.is_fixed, self.is_wide = known is not None, False

    def learn(self, asn, address, is_wide):
        if not self.is_fixed and asn and (self.asn in (None, RESERVED) or is_wide and not self.is_wide):
            self.asn, self.address, self.is_wide = asn, address, is_wide

    def told(self):
        """AS and address, from now on the same."""
        self.is_fixed = True
        if not self.asn:
            self.asn, self.address = RESERVED, self.address or NAMELESS
        return self.asn, self.address


class Peer:
    """A peer of the capture, and its session. The first route of a prefix has place 0 and is the peer's own; further ones (RFC 7911) have
    places of stand-ins."""

    def __init__(self, address):
        self.address = address
        self.asn, self.is_wide = None, False
        self.is_up = self.tells_states = self.has_spoken = False
        self.is_told_up = False  # whether a change of state began the session, and no message
        self.paths = {}  # of each prefix the place of each path identifier
        self.heads = {}  # of each place the front of a record; None where it isn't wanted
        self.plain = set()  # fronts of records that are passed on as they stand

    def learn(self, asn, is_wide):
        """The AS number of a record. One of four octets counts more than one of two, which may be cut or 23456; the first of a kind stays,
        since `mrt` takes one AS for an address. Whether it is another one now."""
        if self.asn in (None, wire.AS_TRANS) or is_wide and not self.is_wide:
            is_other = self.asn not in (None, asn)
            self.asn, self.is_wide = asn, is_wide
            return is_other
        return False

    def place(self, path, prefix):
        """The place of a path of a prefix; a new one gets the first that is free."""
        places = self.paths.get(prefix)
        if places is None:
            self.paths[prefix] = {path: 0}
            return 0
        if path not in places:
            places[path] = next(place for place in range(len(places) + 1) if place not in places.values())
        return places[path]

    def leave(self, path, prefix):
        """The place that a path had, which is free then; None where it had none."""
        places = self.paths.get(prefix, {})
        found = places.pop(path, None)
        if not places:
            self.paths.pop(prefix, None)
        return found
