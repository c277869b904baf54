"""Eight peers of a router, each of which says its routes in another way; what they do while the router writes a capture (make.py).

  1 plain        AS numbers of four octets
  2 wide         the same, of an AS that has no two octets; at the end its connection is closed for good
  3 narrow       AS numbers of two octets, with AS4_PATH and AS4_AGGREGATOR (RFC 6793)
  4 long         UPDATEs of more than 4,096 octets (RFC 8654), where the router takes them
  5 paths        two routes for each prefix (RFC 7911), where the router takes them
  6 comes, goes  its session ends by a closed connection and by a NOTIFICATION, and comes back
  7 twice        opens a second connection while its session is up
  8 over IPv6    IPv4 routes in type 14 (RFC 4760), with a next hop of IPv6 (RFC 8950), where the router takes them
"""
import ipaddress
import struct
import threading
import time

from bgp import feed, messages, session, wire

ROUTER, ROUTER6, ROUTER_AS = '192.0.2.254', '2001:db8::fe', 65000
ASES = {1: 65001, 2: 4200000002, 3: 65003, 4: 65004, 5: 65005, 6: 65006, 7: 65007, 8: 65008}
EXTENDED_MESSAGES, EXTENDED_NEXT_HOP = 6, 5  # capabilities
CEASE = wire.message(wire.NOTIFICATION, bytes([6, 4]))
OPENED_WITHIN = 60  # seconds


def address(number):
    return '2001:db8::8' if number == 8 else '192.0.2.%d' % number


def families(number):
    """The capabilities of a peer's OPEN."""
    more = {4: wire.capability(EXTENDED_MESSAGES), 5: wire.capability(wire.PATHS, wire.IPV4_UNICAST + b'\2'),
            8: wire.capability(EXTENDED_NEXT_HOP, b'\0\1\0\1\0\2')}
    return wire.OF_IPV4 + more.get(number, b'')


# ---- what they say

def said_by(number, count):
    """UPDATEs that announce so many prefixes, with AS numbers of four octets: those of `feed`, a path of its own for each peer."""
    hop = ipaddress.ip_address('192.0.2.%d' % number).packed
    return [messages.read(octets) for octets in feed.updates(count, [hop], [ASES[number]] if number > 1 else [], 4)]


def prefixes(found):
    return [octets for _, octets in found]


def octets_of(said, attributes=None):
    return wire.made_update(b''.join(prefixes(said.gone)), b''.join(map(wire.attribute, said.attributes if attributes is None else attributes)),
                           b''.join(prefixes(said.come)))


def withdrawal(said):
    """The UPDATE that takes its announcements back."""
    return wire.made_update(b''.join(prefixes(said.come)), b'', b'')


def narrow(said):
    """An UPDATE as a speaker of four octets says it to one of two (RFC 6793, section 4.2.2)."""
    found, more = [], []
    for one in said.attributes:
        if one.kind == wire.AS_PATH:
            path = [(kind, list(map(wire.short, numbers))) for kind, numbers in wire.segments(one.value, 4)]
            more.append(wire.Attribute(0xc0, messages.AS4_PATH, one.value))
            one = one._replace(value=wire.path_octets(path, 2))
        elif one.kind == wire.AGGREGATOR:
            more.append(wire.Attribute(0xc0, messages.AS4_AGGREGATOR, one.value))
            one = one._replace(value=struct.pack('>H', wire.short(int.from_bytes(one.value[:4], 'big'))) + one.value[4:])
        found.append(one)
    return octets_of(said, sorted(found + more, key=lambda one: one.kind))


def long(said, spare=1100):
    """An UPDATE of more than 4,096 octets: it also withdraws prefixes that nobody announced."""
    gone = b''.join(bytes([24, 11, place // 256, place % 256]) for place in range(spare))
    return wire.made_update(gone, b''.join(map(wire.attribute, said.attributes)), b''.join(prefixes(said.come)))


def with_paths(said, second):
    """An UPDATE with a path identifier before each prefix: 7 for the first routes, 9 for the second ones."""
    identifier = struct.pack('>I', 9 if second else 7)
    attributes = said.attributes + ([wire.Attribute(0x80, wire.MED, struct.pack('>I', 77))] if second else [])
    if second:
        attributes = [one for one in said.attributes if one.kind != wire.MED] + attributes[-1:]
    return wire.made_update(b'', b''.join(map(wire.attribute, sorted(attributes, key=lambda one: one.kind))),
                           b''.join(identifier + octets for octets in prefixes(said.come)))


def without_paths(said, identifier):
    return wire.made_update(b''.join(struct.pack('>I', identifier) + octets for octets in prefixes(said.come)), b'', b'')


def over_ipv6(said):
    """An UPDATE whose prefixes stand in type 14, with a next hop of IPv6."""
    hop = ipaddress.ip_address(address(8)).packed
    value = wire.IPV4_UNICAST + bytes([len(hop)]) + hop + b'\0' + b''.join(prefixes(said.come))
    attributes = [one for one in said.attributes if one.kind != wire.NEXT_HOP] + [wire.Attribute(0x80, messages.MP_REACH, value)]
    return wire.made_update(b'', b''.join(map(wire.attribute, sorted(attributes, key=lambda one: one.kind))), b'')


# ---- their sessions

class Peer(session.Connection):
    """A session with the router."""

    def __init__(self, number, hold):
        self.number, self.hold, self.heard = number, hold, None  # the last NOTIFICATION
        super().__init__(session.connect(address(number), (ROUTER6 if number == 8 else ROUTER, 179), OPENED_WITHIN))
        self.theirs = wire.capabilities(self.open(self.ours(), OPENED_WITHIN))
        threading.Thread(target=self.listen, daemon=True).start()

    def ours(self):
        return wire.opening(ASES[self.number], '192.0.2.%d' % self.number, self.hold, self.number != 3, families(self.number))

    def listen(self):
        try:
            while True:
                kind, body = self.read()
                self.heard = wire.told(kind, body) if kind == wire.NOTIFICATION else self.heard
        except (OSError, EOFError):
            pass

    def say(self, octets):
        try:
            self.socket.sendall(octets)
        except OSError as error:
            raise session.Refused('peer %d: %s; the router said %s' % (self.number, error.strerror, self.heard)) from error

    def takes(self):
        """Whether the router takes what is special of this peer."""
        if self.number == 5:
            found = self.theirs.get(wire.PATHS, b'')
            return any(found[at:at + 3] == wire.IPV4_UNICAST and found[at + 3] & 1 for at in range(0, len(found), 4))
        return {4: EXTENDED_MESSAGES, 8: EXTENDED_NEXT_HOP}.get(self.number, 0) in self.theirs or self.number not in (4, 8)


class Eight:
    """All of them, with a hold time that is 0 or longer than the story. `rest` waits until the router has done what it has to do; `ended`
    is told the number of a peer whose session has ended."""

    def __init__(self, count, rest, ended, hold=0):
        self.rest, self.ended, self.hold = rest, ended, hold
        self.peers = {number: Peer(number, hold) for number in ASES}
        self.said = {number: said_by(number, count) for number in self.peers}
        self.left_out = [number for number, peer in self.peers.items() if not peer.takes()]

    def announce(self):
        """What each of them says first."""
        for number, peer in self.peers.items():
            if number in (1, 2, 4, 6, 7):
                for said in self.said[number]:
                    peer.say(octets_of(said))
        for said in self.said[3]:
            self.peers[3].say(narrow(said))
        self.say_paths()
        if 8 not in self.left_out:
            for said in self.said[8]:
                self.peers[8].say(over_ipv6(said))
        self.rest()

    def say_paths(self):
        """Two routes for each prefix; then the first ones of a third of them go, and the second ones of another third."""
        if 5 in self.left_out:
            for said in self.said[5]:
                self.peers[5].say(octets_of(said))
            return
        for second in (False, True):
            for said in self.said[5]:
                self.peers[5].say(with_paths(said, second))
        for said in self.said[5][::3]:
            self.peers[5].say(without_paths(said, 7))
        for said in self.said[5][1::3]:
            self.peers[5].say(without_paths(said, 9))

    def connect_twice(self):
        """A second connection of peer 7, which says OPEN and a NOTIFICATION; then the first goes on."""
        try:
            other = session.connect(address(7), (ROUTER, 179), 2)
            other.settimeout(2)
            other.sendall(self.peers[7].ours())
            time.sleep(.5)
            other.sendall(wire.message(wire.NOTIFICATION, bytes([6, 7])))
            other.close()
        except OSError:
            pass
        self.rest()
        for said in self.said[7][::5]:
            self.peers[7].say(withdrawal(said))
        self.rest()

    def change(self):
        """What happens behind the table dump: withdrawals, long UPDATEs, sessions that end and come back."""
        for said in self.said[1][::3]:
            self.peers[1].say(withdrawal(said))
        for said in self.said[3][::4]:
            self.peers[3].say(withdrawal(said))
        if 4 not in self.left_out:
            for said in self.said[4][::7]:
                self.peers[4].say(long(said._replace(attributes=[one for one in said.attributes if one.kind != wire.MED])))
        self.rest()
        half = len(self.said[6]) // 2
        for is_notified, again in ((False, self.said[6][:half]), (True, self.said[6][half:])):
            self.end(6, is_notified)
            self.peers[6] = self.back(6)
            for said in again:
                self.peers[6].say(octets_of(said))
            self.rest()
        self.end(2, False)

    def end(self, number, is_notified):
        if is_notified:
            self.peers[number].say(CEASE)
        self.peers[number].close()
        self.rest()
        time.sleep(1)
        self.ended(number)

    def back(self, number):
        """A session anew; a router may refuse it for a while after the end of the last one."""
        end = time.monotonic() + OPENED_WITHIN
        while True:
            try:
                return Peer(number, self.hold)
            except session.Refused:
                if time.monotonic() > end:
                    raise
                time.sleep(1)

    def close(self):
        for peer in self.peers.values():
            peer.close()
