"""The records of captures as those that `replay mrt --as4` reads: what prepare.py says, record by record."""
import collections
import re
import struct

from bgp import dumps, files, messages, mrt, wire
import speakers
from report import Report, counted

AHEAD = 1000  # records of each file that are looked at for the local side before a dump is told
FLUSHED = 1 << 20  # octets
KEPT = 1 << 16  # attributes of dumps of which what they became is kept
# what an UPDATE may have among its attributes that isn't passed on as it stands: types 14 and 15, a NEXT_HOP that no host has, and a path that
# begins with a segment of a confederation
ODD = re.compile(rb'[\x80-\xff][\x0e\x0f]|\x03\x00?\x04[\x00\x7f\xe0-\xff]|[\x40\x60]\x02.[\x03\x04]|[\x50\x70]\x02..[\x03\x04]', re.DOTALL)
REFRESH_OCTETS = 23
IDLE, OPEN_CONFIRM = 1, 5
NO_STATES = 'no change of state: the routes of a session that fell stay, until a NOTIFICATION, an OPEN or a table dump tells its end'
DUMPED = (mrt.RIB_IPV4, mrt.RIB_IPV6, mrt.RIB_IPV4_ADDPATH, mrt.RIB_IPV6_ADDPATH)


class Preparation:
    """Takes records, and writes others. `asked` has what the command line says (prepare.py)."""

    def __init__(self, asked, write):
        self.asked, self.write, self.report = asked, write, Report()
        self.addresses, self.local = speakers.Addresses(), speakers.Local(asked.local)
        self.peers, self.locals, self.numbers = {}, set(), {}
        self.plain = {}  # the front of a record of MESSAGE_AS4, where its message may be passed on as it stands
        self.index, self.dumped = [], {}
        self.out, self.size = [], 0

    # ---- files and records

    def take_file(self, path):
        """All records of a file."""
        self.report.files += 1
        begin, until, plain, out, is_plain = self.asked.begin, self.asked.until, self.plain, self.out, self.is_plain
        for when, kind, subtype, body in files.read(path):
            self.report.records += 1
            if subtype == mrt.MESSAGE_AS4 and kind == mrt.BGP4MP and body[:20] in plain and begin <= when <= until and is_plain(body):
                out += mrt.HEAD.pack(when, kind, subtype, len(body)), body
                self.size += len(body)
            else:
                self.take(when, kind, subtype, body)
            if self.size > FLUSHED:
                self.flush()

    @staticmethod
    def is_plain(body):
        """Whether a record's UPDATE is passed on as it stands: it is whole, fits, has attributes with prefixes alone, and none that is odd."""
        size = len(body)
        if not 43 <= size <= 20 + wire.MOST or body[38] != wire.UPDATE or size - 20 != body[36] << 8 | body[37]:
            return False
        at = 43 + (body[39] << 8 | body[40])
        if at > size:
            return False
        behind = at + (body[at - 2] << 8 | body[at - 1])
        return at == behind or behind < size and not ODD.search(body, at, behind)

    def flush(self):
        self.write(b''.join(self.out))
        self.out.clear()
        self.size = 0

    def take(self, when, kind, subtype, body):
        before, is_index = len(self.out), False
        if self.asked.begin <= when <= self.asked.until:
            try:
                is_index = self.take_record(when, kind, subtype, body)
            except (ValueError, IndexError, struct.error):
                self.report.skip('fields')
        else:
            self.report.skip('time')
        self.report.end_of_record(is_index or len(self.out) > before)

    def take_record(self, when, kind, subtype, body):
        """Any record; whether it is one of which others tell later."""
        if kind == mrt.TABLE_DUMP_V2 and subtype == mrt.PEER_INDEX_TABLE:
            self.take_index(when, body)
            return True
        if kind == mrt.TABLE_DUMP_V2 and subtype in DUMPED:
            self.take_prefix(when, dumps.rib(subtype, body), subtype in (mrt.RIB_IPV4_ADDPATH, mrt.RIB_IPV6_ADDPATH))
        elif kind == mrt.TABLE_DUMP and subtype in (1, 2):
            self.take_prefix(when, dumps.old_rib(subtype, body), False)
        elif kind not in (mrt.BGP4MP, mrt.BGP4MP_ET) or subtype not in mrt.SUBTYPES[mrt.BGP4MP]:
            self.report.skip('bmp' if kind == mrt.BMP else 'kind')
        elif subtype in mrt.LOCAL_MESSAGES:
            self.report.skip('local')
        else:
            self.take_session(when, kind, subtype, body[4:] if kind == mrt.BGP4MP_ET else body)
        return False

    def take_session(self, when, kind, subtype, body):
        """A message or a change of state."""
        told, is_state, is_wide = mrt.sides(subtype, body), subtype in (mrt.STATE_CHANGE, mrt.STATE_CHANGE_AS4), subtype in mrt.WITH_WIDE_NUMBERS
        if is_state and self.is_exchanged(told):
            self.report.change('ends')
            told = told._replace(peer_as=told.local_as, local_as=told.peer_as, peer=told.local, local=told.peer)
        states = struct.unpack('>HH', told.rest[:4]) if is_state else None
        if is_state and told.family == 1 and not any(told.peer) and states[0] == mrt.ESTABLISHED:
            self.take_nameless(when, told.peer_as, *states)
            return
        if told.family not in (1, 2) or not any(told.peer) or not told.peer_as:
            self.report.skip('kind' if told.family not in (1, 2) else 'state' if is_state else 'as')
            return
        peer = self.peer(told.peer, told.peer_as, is_wide)
        if is_state:
            self.learn_local(told, is_wide, told.local in self.locals or self.local.asn is None and mrt.ESTABLISHED in states)
            self.take_state(when, peer, *states)
            return
        self.learn_local(told, is_wide, True)
        peer.has_spoken = True
        self.locals.add(told.local)
        self.take_message(when, peer, told.rest, is_wide, subtype in (mrt.MESSAGE_ADDPATH, mrt.MESSAGE_AS4_ADDPATH))
        if kind == mrt.BGP4MP and subtype == mrt.MESSAGE_AS4 and self.may_be_plain(peer, told):
            self.plain[body[:20]] = peer
            peer.plain.add(body[:20])

    def learn_local(self, told, is_wide, is_sure):
        if is_sure and any(told.local):
            self.local.learn(told.local_as, self.addresses.of(told.local), is_wide)

    @staticmethod
    def may_be_plain(peer, told):
        """Whether `mrt` takes records with these sides as records of the peer."""
        return (peer.is_up and peer.heads.get(0) and peer.asn == told.peer_as and told.local_as and told.family == 1
                and speakers.usable(told.peer) and speakers.usable(told.local))

    def is_exchanged(self, told):
        """Whether the peer of a change of state is the router: as it was said, or since messages name it as the local side alone."""
        if self.asked.router:
            return told.peer == self.asked.router
        return told.peer in self.locals and not (told.peer in self.peers and self.peers[told.peer].has_spoken)

    # ---- peers

    def peer(self, address, asn, is_wide):
        """The peer of this address, which has this AS."""
        found = self.peers.get(address)
        if found is None:
            found = self.peers[address] = speakers.Peer(address)
        if found.learn(asn, is_wide):
            for place in found.heads:
                found.heads[place] = self.head(found, place)
            self.look_again(found)
        return found

    def look_again(self, peer):
        """From now on no message of the peer is passed on unseen."""
        for front in peer.plain:
            del self.plain[front]
        peer.plain.clear()

    def head(self, peer, place):
        """The front of a record of a peer or of a stand-in; None where --peers leaves it out. They are numbered as they come."""
        number = self.numbers.setdefault((peer.address, place), len(self.numbers) + 1)
        if not self.asked.peers.has(number, peer.address):
            return None
        asn, address = self.local.told()
        return struct.pack('>IIHH', peer.asn, asn, 0, 1) + self.addresses.of(peer.address, place) + address

    def record(self, when, subtype, peer, place, octets):
        if place not in peer.heads:
            peer.heads[place] = self.head(peer, place)
        front = peer.heads[place]
        if front is None:
            self.report.skip('peers')
            return
        self.out += mrt.HEAD.pack(when, mrt.BGP4MP, subtype, len(front) + len(octets)), front, octets
        self.size += len(front) + len(octets)

    # ---- sessions

    def take_state(self, when, peer, old, new):
        peer.tells_states = True
        if mrt.ESTABLISHED not in (old, new):
            self.report.skip('state')
        elif new == mrt.ESTABLISHED or peer.is_up:
            if new == mrt.ESTABLISHED and peer.is_told_up:
                # it comes from another state, so the session before is over (RFC 4271, section 8.2.2)
                self.report.change('again')
                self.state(when, peer, IDLE)
            self.state(when, peer, new)
            peer.is_told_up = peer.is_up
        else:
            self.report.skip('nothing')

    def take_nameless(self, when, asn, old, new):
        """The end of a session whose connection was closed has no address in BIRD's captures: it is that of the one peer with this AS that is up."""
        found = [peer for peer in self.peers.values() if peer.is_up and peer.asn == asn]
        if len(found) == 1:
            self.report.change('nameless')
            self.take_state(when, found[0], old, new)
        else:
            self.report.skip('nameless')

    def state(self, when, peer, new):
        """The session of a peer begins, or ends with those of its stand-ins."""
        peer.is_up, peer.is_told_up = new == mrt.ESTABLISHED, False
        change = struct.pack('>HH', OPEN_CONFIRM if peer.is_up else mrt.ESTABLISHED, new)
        for place in [0] if peer.is_up else sorted(peer.heads):
            self.record(when, mrt.STATE_CHANGE_AS4, peer, place, change)
        peer.paths.clear()
        self.look_again(peer)

    def end(self, when, peer):
        """The session of a peer ends, and no change of state tells it."""
        if peer.is_up:
            self.report.change('ended')
            self.state(when, peer, IDLE)

    def say(self, when, peer, place, octets):
        """A message of a peer or a stand-in, whose session is up with it."""
        peer.is_up = True
        self.record(when, mrt.MESSAGE_AS4, peer, place, octets)

    # ---- messages

    def take_message(self, when, peer, octets, is_wide, with_paths):
        kind = octets[18] if len(octets) >= 19 else None
        if peer.heads.get(0, b'') is None and not with_paths:
            self.report.skip('peers')
        elif kind and len(octets) != octets[16] << 8 | octets[17]:
            self.report.skip('fields')
        elif kind == wire.UPDATE:
            self.take_update(when, peer, octets, is_wide, with_paths)
        elif kind == wire.OPEN:
            if not peer.tells_states:
                self.end(when, peer)
            self.report.skip('open')
        elif kind == wire.NOTIFICATION:
            self.take_notification(when, peer, octets)
        elif kind == wire.KEEPALIVE and (peer.is_up or not peer.tells_states):
            self.say(when, peer, 0, octets)
        elif kind == wire.ROUTE_REFRESH and len(octets) == REFRESH_OCTETS and octets[21] == 0:
            self.say(when, peer, 0, octets)
        else:
            self.report.skip({wire.KEEPALIVE: 'keepalive', wire.ROUTE_REFRESH: 'refresh'}.get(kind, 'type'))

    def take_notification(self, when, peer, octets):
        """Where changes of state are told, one of them ends the session, and a NOTIFICATION may be that of a refused second connection."""
        if peer.tells_states:
            self.report.skip('note')
        elif peer.is_up:
            self.say(when, peer, 0, octets[:wire.MOST])
            self.end(when, peer)
        else:
            self.report.skip('nothing')

    def take_update(self, when, peer, octets, is_wide, with_paths):
        try:
            said = messages.read(octets, with_paths)
            if not is_wide:
                said = said._replace(attributes=messages.widened(said.attributes))
                self.report.change('two')
            said = said._replace(attributes=self.outside(said.attributes))
            parts = list(self.parts(said, with_paths))
        except ValueError:
            self.take_unreadable(when, peer, octets, is_wide and not with_paths)
            return
        if len(octets) > wire.MOST:
            self.report.change('long')
        if with_paths:
            self.report.change('paths')
        for part in parts:
            self.say_part(when, peer, part, with_paths)
        if not parts:
            self.report.skip('family')

    def outside(self, said):
        """The attributes with the path that a confederation tells outside."""
        found = messages.outside(said)
        if found != said:
            self.report.change('confederation')
        return found

    def take_unreadable(self, when, peer, octets, is_in_form):
        """An UPDATE that can't be read: the program answers it as it stands, if its form is that of the session."""
        if is_in_form and len(octets) <= wire.MOST:
            self.say(when, peer, 0, octets)
        else:
            self.report.skip('fields')

    def parts(self, said, with_paths):
        """What an UPDATE says of IPv4 unicast, in its own fields; with --ipv6 also what it says of IPv6."""
        has_families = any(one.kind in (messages.MP_REACH, messages.MP_UNREACH) for one in said.attributes)
        if has_families and messages.has_ipv4(said.attributes):
            self.report.change('own')
        for part in messages.with_own_fields(said, with_paths) if has_families else [said]:
            if not has_families or part.gone or part.come or self.asked.ipv6 and messages.of_other_families(part.attributes):
                yield part._replace(attributes=list(self.with_good_hops(part)))

    def with_good_hops(self, said):
        """The attributes with a NEXT_HOP that a host can have, or none where nothing is announced by it (RFC 4760, section 3)."""
        for one in said.attributes:
            if one.kind == wire.NEXT_HOP and not said.come:
                self.report.change('no hop')
            elif one.kind == wire.NEXT_HOP and len(one.value) in (4, 16) and not speakers.usable(one.value):
                self.report.change('hop')
                yield one._replace(value=self.addresses.of(one.value))
            else:
                yield one

    def say_part(self, when, peer, said, with_paths):
        """The UPDATEs of a peer, or of it and its stand-ins."""
        places = self.placed(peer, said) if with_paths else [(0, [octets for _, octets in said.gone], [octets for _, octets in said.come])]
        for place, gone, come in places:
            try:
                for octets in messages.written(gone, said.attributes if come or not with_paths or not gone else [], come):
                    self.say(when, peer, place, octets)
            except ValueError:
                self.report.skip('attributes')

    @staticmethod
    def placed(peer, said):
        """The prefixes of each place: what is withdrawn and what is announced there."""
        found = collections.defaultdict(lambda: ([], []))
        for path, octets in said.gone:
            place = peer.leave(path, octets)
            if place is not None:
                found[place][0].append(octets)
        for path, octets in said.come:
            found[peer.place(path, octets)][1].append(octets)
        if not said.gone and not said.come:
            return [(0, [], [])]
        return [(place, *found[place]) for place in sorted(found)]

    # ---- table dumps

    def take_index(self, when, body):
        """The peers of a dump, which stands in the place of all that they said before."""
        identifier, self.index = dumps.index(body)
        if not self.local.address:
            self.local.learn(speakers.RESERVED, identifier if speakers.usable(identifier) else speakers.NAMELESS, False)
        for one in self.index:
            if one.address in self.peers and self.peers[one.address].is_up:
                self.state(when, self.peers[one.address], IDLE)

    def take_prefix(self, when, prefix, with_paths):
        """All routes of one prefix of a dump."""
        if prefix.family == 6 and not self.asked.ipv6:
            self.report.skip('dump6')
            return
        if prefix.octets[0] > (32 if prefix.family == 4 else 128):
            raise ValueError('a prefix of length %d' % prefix.octets[0])
        for entry in prefix.entries:
            told = entry.peer if isinstance(entry.peer, dumps.Peer) else self.index[entry.peer] if entry.peer < len(self.index) else None
            if told is None:
                self.report.skip('index')
            elif not told.asn or not any(told.address):
                self.report.skip('own')
            else:
                self.take_route(when, told, prefix, entry, with_paths)

    def take_route(self, when, told, prefix, entry, with_paths):
        """One route of a dump: the peer's session begins with its first one."""
        peer = self.peer(told.address, told.asn, prefix.width == 4)
        if not peer.is_up:
            self.state(when, peer, mrt.ESTABLISHED)
        if prefix.family == 4:
            place = peer.place(entry.path, prefix.octets) if with_paths else entry.path
            made = wire.made_update(b'', self.attributes_of(told, entry.attributes, prefix.width), prefix.octets)
        else:
            place, made = 0, wire.made_update(b'', self.attributes_of_ipv6(entry.attributes, prefix), b'')
        if len(made) > wire.MOST:
            self.report.skip('attributes')
            return
        self.report.change('dump')
        self.say(when, peer, place, made)

    def attributes_of(self, told, octets, width):
        """The octets of a dumped route's attributes, with a NEXT_HOP that a host can have: its own, that of type 14, or where it has none the
        peer's address. Many routes have the same, so what they became is kept for a while."""
        key = told.address, octets, width
        if key not in self.dumped:
            if len(self.dumped) >= KEPT:
                self.dumped.clear()
            said, other = dumps.mended(octets, width)
            said = self.outside(said)
            hop = messages.value_of(said, wire.NEXT_HOP, 4)
            hop = hop if hop and any(hop) else other or told.address
            self.dumped[key] = b''.join(map(wire.attribute, messages.with_hop(said, self.addresses.of(hop))))
        return self.dumped[key]

    @staticmethod
    def attributes_of_ipv6(octets, prefix):
        """The octets of the attributes with a whole type 14."""
        said, hop = dumps.mended(octets, prefix.width)
        value = wire.IPV6_UNICAST + bytes([len(hop or b'')]) + (hop or b'') + b'\0' + prefix.octets
        return b''.join(map(wire.attribute, said + [wire.Attribute(0x80, messages.MP_REACH, value)]))

    # ---- the end

    def has_states(self):
        """Whether any change of state was told."""
        return any(peer.tells_states for peer in self.peers.values())

    def lines(self):
        """What became of all, and who is who."""
        yield from self.report.lines()
        if any(peer.has_spoken for peer in self.peers.values()) and not self.has_states():
            yield NO_STATES
        yield from self.addresses.told()
        taken = sum(self.asked.peers.has(number, address) for (address, _), number in self.numbers.items())
        yield '%s%s' % (counted(len(self.numbers), 'peer'), '' if taken == len(self.numbers) else ', of which --peers %s takes %d' % (self.asked.peers.text, taken))
        if len(self.numbers) > speakers.PEERS and not self.asked.peers.addresses:
            yield 'a run has at most %d peers: --peers 65-128 takes the next ones, and so on' % speakers.PEERS


def local_side(paths):
    """The first local side of a session in some files: AS and address, or None. A dump doesn't tell the router's AS."""
    for path in paths:
        try:
            for (_, kind, subtype, body), _ in zip(files.read(path), range(AHEAD)):
                if kind in (mrt.BGP4MP, mrt.BGP4MP_ET) and subtype in (mrt.MESSAGE, mrt.MESSAGE_AS4, mrt.MESSAGE_AS4_ADDPATH):
                    told = mrt.sides(subtype, body[4:] if kind == mrt.BGP4MP_ET else body)
                    if told.local_as and speakers.usable(told.local):
                        return told.local_as, told.local
        except (OSError, ValueError, mrt.Wrong):
            continue
    return None
