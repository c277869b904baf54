#!/usr/bin/env python3
"""Tests of prepare.py and what stands beside it, on records that are made here: captures/test.py. No program and no daemon is needed.

Each wants records that were written down by hand from the standards: what a record has to become, not what the scripts made of it. What is
kept of real routers is compared by captures/check.py.
"""
import bz2
import gzip
import io
import os
import struct
import sys
import tempfile
import unittest

sys.dont_write_bytecode = True
sys.path.insert(0, os.path.join(os.path.dirname(os.path.abspath(__file__)), '..', 'python'))
import by_peer
import idle
import prepare
import preparation
import what
from bgp import dumps, files, messages, mrt, wire

HERE = os.path.dirname(os.path.abspath(__file__))
EIGHT = bytes([8, 10])  # 10.0.0.0/8
ORIGIN, HOP = b'\x40\1\1\0', b'\x40\3\4' + bytes([192, 0, 2, 1])
PATH = b'\x40\2\6\2\1' + struct.pack('>I', 65001)
PATH_OF_TWO = b'\x40\2\4\2\1' + struct.pack('>H', 65001)
WIDE = ORIGIN + PATH + HOP
IPV6 = bytes.fromhex('20010db8000000000000000000000001')
FIRST, SECOND = (192, 0, 2, 1), (192, 0, 2, 2)
UP = mrt.made_states(True, 5, 6)
KEEPALIVE = wire.message(wire.KEEPALIVE)


def update(gone=b'', said=b'', come=b''):
    return wire.made_update(gone, said, come)


SAID = update(b'', WIDE, EIGHT)


def prepared(octets, *options, suffix='.mrt'):
    """What prepare.py writes of a file with these octets, and its report."""
    with tempfile.TemporaryDirectory(prefix='captures-') as folder:
        path = os.path.join(folder, 'one' + suffix)
        with open(path, 'wb') as file:
            file.write(octets)
        made = io.BytesIO()
        told, wrong = prepare.prepare(prepare.words([path, *options]), made.write)
    return made.getvalue(), told + [line[len(path) + 2:] for line in wrong]


def looked_at(octets):
    """What --what says is wrong with a file of these octets."""
    with tempfile.TemporaryDirectory(prefix='captures-') as folder:
        path = os.path.join(folder, 'one.mrt')
        with open(path, 'wb') as file:
            file.write(octets)
        return what.look_at(prepare.words([path, '--what']), path)[1]


def message(octets, **where):
    return mrt.made_message(True, octets, **where)


class Sessions(unittest.TestCase):
    """Changes of state, and what ends a session without one."""

    def test_what_fits_stays(self):
        capture = UP + message(SAID) + message(KEEPALIVE) + mrt.made_states(True, 6, 1)
        self.assertEqual(prepared(capture)[0], capture)

    def test_a_second_connection_ends_nothing(self):
        second = mrt.made_states(True, 1, 4) + message(wire.opening(65001, '192.0.2.1')) + mrt.made_states(True, 4, 1) + message(
            wire.message(wire.NOTIFICATION, b'\6\7'))
        written, told = prepared(UP + message(SAID) + second + message(KEEPALIVE))
        self.assertEqual(written, UP + message(SAID) + message(KEEPALIVE))
        self.assertIn('skipped 2: changes of state apart from Established', told)
        self.assertIn('skipped 1: NOTIFICATIONs, whose ends changes of state tell', told)

    def test_without_changes_of_state_messages_tell_the_end(self):
        note = message(wire.message(wire.NOTIFICATION, b'\6\2'))
        written, told = prepared(message(SAID) + note + message(SAID) + message(wire.opening(65001, '192.0.2.1')) + message(SAID))
        end = mrt.made_states(True, 6, 1)
        self.assertIn(preparation.NO_STATES, told)
        self.assertEqual(written, message(SAID) + note + end + message(SAID) + end + message(SAID))

    def test_established_twice(self):
        """RFC 4271, section 8.2.2: a session becomes Established from another state alone, so its end wasn't recorded."""
        written, told = prepared(UP + message(SAID) + UP + message(SAID))
        self.assertEqual(written, UP + message(SAID) + mrt.made_states(True, 6, 1) + UP + message(SAID))
        self.assertIn('changed 1: changes of state to Established of sessions that had begun by one, which end before it', told)
        self.assertEqual(prepared(message(KEEPALIVE) + UP + message(SAID))[0], message(KEEPALIVE) + UP + message(SAID))

    def test_an_end_without_an_address(self):
        """As BIRD writes it where the connection was closed: AS numbers and no addresses. Of several peers of that AS it may be any."""
        nameless = mrt.made_states(True, 6, 1, peer=(0, 0, 0, 0), local=(0, 0, 0, 0))
        other = dict(peer=SECOND, peer_as=65002)
        capture = UP + mrt.made_states(True, 5, 6, **other) + nameless + message(SAID, **other)
        self.assertEqual(prepared(capture)[0], UP + mrt.made_states(True, 5, 6, **other) + mrt.made_states(True, 6, 1) + message(SAID, **other))
        written, told = prepared(UP + mrt.made_states(True, 5, 6, peer=SECOND) + nameless + UP)
        self.assertEqual(written, UP + mrt.made_states(True, 5, 6, peer=SECOND) + mrt.made_states(True, 6, 1) + UP)
        self.assertIn('skipped 1: ends of sessions that name no address, of none or several peers with that AS that were up', told)

    def test_ends_that_are_exchanged(self):
        exchanged = dict(peer=mrt.LOCAL, local=FIRST, peer_as=65000, local_as=65001)
        written, told = prepared(message(wire.opening(65001, '192.0.2.1')) + mrt.made_states(True, 5, 6, **exchanged) + message(SAID)
                                 + mrt.made_states(True, 6, 1, **exchanged))
        self.assertEqual(written, UP + message(SAID) + mrt.made_states(True, 6, 1))
        self.assertIn('changed 2: changes of state whose two ends were exchanged', told)

    def test_exchanged_ends_that_are_named(self):
        exchanged = dict(peer=mrt.LOCAL, local=FIRST, peer_as=65000, local_as=65001)
        self.assertEqual(prepared(mrt.made_states(True, 5, 6, **exchanged), '--router', '192.0.2.254')[0], UP)

    def test_an_end_of_what_was_not_up(self):
        self.assertEqual(prepared(mrt.made_states(True, 6, 1) + UP)[0], UP)

    def test_messages_that_a_run_would_take_for_faults(self):
        refresh = wire.message(wire.ROUTE_REFRESH, b'\0\1\0\1')
        odd = [wire.message(wire.ROUTE_REFRESH, b'\0\1\1\1'), wire.message(wire.ROUTE_REFRESH, b'\0\1\0\1\1\x80\0\0'), wire.message(6, b'\0')]
        self.assertEqual(prepared(UP + message(refresh) + b''.join(map(message, odd)))[0], UP + message(refresh))

    def test_a_message_that_is_cut(self):
        self.assertEqual(prepared(UP + message(SAID[:-1]) + message(SAID))[0], UP + message(SAID))


class Numbers(unittest.TestCase):
    """AS numbers of two octets."""

    def test_both_widths(self):
        narrow = update(b'', ORIGIN + PATH_OF_TWO + HOP, EIGHT)
        self.assertEqual(prepared(mrt.made_states(False, 5, 6) + mrt.made_message(False, narrow))[0], UP + message(SAID))

    def test_path_and_aggregator_are_merged(self):
        path = b'\x40\2\x08\2\3' + struct.pack('>3H', 65001, 23456, 23456)
        wide_path = b'\xc0\x11\x0a\2\2' + struct.pack('>2I', 70000, 80000)
        aggregator = b'\xc0\7\6' + struct.pack('>H', 23456) + bytes(FIRST)
        wide_aggregator = b'\xc0\x12\x08' + struct.pack('>I', 70000) + bytes(FIRST)
        narrow = update(b'', ORIGIN + path + HOP + aggregator + wide_path + wide_aggregator, EIGHT)
        wanted = ORIGIN + b'\x40\2\x0e\2\3' + struct.pack('>3I', 65001, 70000, 80000) + HOP + b'\xc0\7\x08' + struct.pack('>I', 70000) + bytes(FIRST)
        self.assertEqual(prepared(mrt.made_message(False, narrow))[0], message(update(b'', wanted, EIGHT)))

    def test_an_aggregator_of_another_as_discards_both(self):
        path = b'\x40\2\6\2\2' + struct.pack('>2H', 65001, 23456)
        wide_path = b'\xc0\x11\6\2\1' + struct.pack('>I', 70000)
        aggregator = b'\xc0\7\6' + struct.pack('>H', 65001) + bytes(FIRST)
        wide_aggregator = b'\xc0\x12\x08' + struct.pack('>I', 70000) + bytes(FIRST)
        narrow = update(b'', ORIGIN + path + HOP + aggregator + wide_path + wide_aggregator, EIGHT)
        wanted = ORIGIN + b'\x40\2\x0a\2\2' + struct.pack('>2I', 65001, 23456) + HOP + b'\xc0\7\x08' + struct.pack('>I', 65001) + bytes(FIRST)
        self.assertEqual(prepared(mrt.made_message(False, narrow))[0], message(update(b'', wanted, EIGHT)))

    def test_paths(self):
        """RFC 6793, section 4.2.3: the exceeding front of AS_PATH goes before AS4_PATH; a longer AS4_PATH is ignored; an AS_SET counts 1."""
        sequence, a_set = wire.AS_SEQUENCE, wire.AS_SET
        self.assertEqual(messages.merged([(sequence, [1, 23456, 3])], [(sequence, [70000, 3])]), [(sequence, [1, 70000, 3])])
        self.assertEqual(messages.merged([(sequence, [1])], [(sequence, [70000, 3])]), [(sequence, [1])])
        self.assertEqual(messages.merged([(sequence, [1, 2]), (a_set, [3, 4])], [(a_set, [70000, 4])]), [(sequence, [1, 2]), (a_set, [70000, 4])])
        self.assertEqual(messages.merged([(sequence, [1, 2])], [(3, [9]), (sequence, [70000])]), [(sequence, [1, 70000])])

    def test_segments_of_a_confederation(self):
        """RFC 5065, section 4.1: outside the path has none of them; what can't be read stays."""
        path, wide = struct.pack('>BBIBBIBBI', 3, 1, 65101, 4, 1, 65102, 2, 1, 65001), struct.pack('>BBI', 2, 1, 65001)
        for front in b'\x40\2\x12', b'\x50\2\0\x12':
            written, told = prepared(UP + message(SAID) + message(update(b'', ORIGIN + front + path + HOP, EIGHT)))
            self.assertEqual(written, UP + message(SAID) + message(update(b'', ORIGIN + front[:-1] + b'\6' + wide + HOP, EIGHT)))
            self.assertIn('changed 1: paths with segments of a confederation (RFC 5065), without them now', told)
        narrow = struct.pack('>BBHBBH', 3, 1, 65101, 2, 1, 65001)
        self.assertEqual(prepared(mrt.made_message(False, update(b'', ORIGIN + b'\x40\2\x08' + narrow + HOP, EIGHT)))[0], message(SAID))
        cut = message(update(b'', ORIGIN + b'\x40\2\5\3\1\0\0\xfe' + HOP, EIGHT))
        self.assertEqual(prepared(cut)[0], cut)

    def test_the_wider_number_of_a_peer_is_its_number(self):
        narrow = update(b'', ORIGIN + PATH_OF_TWO + HOP, EIGHT)
        capture = mrt.made_message(False, wire.opening(65001, '192.0.2.1'), peer_as=23456) + mrt.made_states(True, 5, 6, peer_as=70000)
        written, _ = prepared(capture + mrt.made_message(False, narrow, peer_as=23456))
        self.assertEqual(written, mrt.made_states(True, 5, 6, peer_as=70000) + message(SAID, peer_as=70000))


class Addresses(unittest.TestCase):
    """Peers and next hops that no event file can name."""

    def test_a_peer_over_ipv6(self):
        written, told = prepared(mrt.made_states(True, 5, 6, peer=IPV6, local=IPV6, family=2) + message(SAID, peer=IPV6, local=IPV6, family=2))
        stands = dict(peer=(198, 19, 0, 1), local=(198, 19, 0, 1))
        self.assertEqual(written, mrt.made_states(True, 5, 6, **stands) + message(SAID, **stands))
        self.assertIn('198.19.0.1 stands for 2001:db8::1', told)

    def test_a_peer_of_the_loopback_network(self):
        written, told = prepared(message(update(b'', ORIGIN + PATH + b'\x40\3\4\x7f\0\0\2', EIGHT), peer=(127, 0, 0, 2)))
        hop = b'\x40\3\4' + bytes((198, 19, 0, 1))
        self.assertEqual(written, message(update(b'', ORIGIN + PATH + hop, EIGHT), peer=(198, 19, 0, 1)))
        self.assertIn('198.19.0.1 stands for 127.0.0.2', told)

    def test_ipv4_in_types_14_and_15(self):
        reach = b'\x90\x0e' + struct.pack('>H', 5 + 16 + 2) + b'\0\1\1\x10' + IPV6 + b'\0' + EIGHT
        unreach = b'\x80\x0f\5\0\1\1\x08\x0b'
        written, _ = prepared(message(update(b'', ORIGIN + PATH + reach + unreach)))
        hop = b'\x40\3\4' + bytes((198, 19, 0, 1))
        gone, come = update(b'\x08\x0b', ORIGIN + PATH, b''), update(b'', ORIGIN + PATH + hop, EIGHT)
        self.assertEqual(written, message(gone) + message(come))

    def test_a_next_hop_without_prefixes(self):
        """RFC 4760, section 3: it is ignored there."""
        reach = b'\x80\x0e\x1e\0\2\1\x10' + IPV6 + b'\0' + b'\x40' + IPV6[:8]
        hop = b'\x40\3\4\0\0\0\0'
        capture = message(update(b'', ORIGIN + PATH + hop + reach))
        self.assertEqual(prepared(UP + capture)[0], UP)
        self.assertEqual(prepared(capture, '--ipv6')[0], message(update(b'', ORIGIN + PATH + reach)))
        self.assertEqual(prepared(message(update(EIGHT, ORIGIN + PATH + hop)))[0], message(update(EIGHT, ORIGIN + PATH)))


class Paths(unittest.TestCase):
    """Path identifiers (RFC 7911), and messages of more than 4,096 octets (RFC 8654)."""

    @staticmethod
    def with_path(octets):
        return mrt.made_message(True, octets, subtype=mrt.MESSAGE_AS4_ADDPATH)

    def test_the_second_route_is_a_stand_ins(self):
        one, two = struct.pack('>I', 7) + EIGHT, struct.pack('>I', 9) + EIGHT
        written, told = prepared(self.with_path(update(b'', WIDE, one + two)) + self.with_path(update(one)) + self.with_path(update(b'', WIDE, one)))
        other = dict(peer=(198, 18, 0, 1))
        self.assertEqual(written, message(SAID) + message(SAID, **other) + message(update(EIGHT)) + message(SAID))
        self.assertIn('198.18.0.1 stands for 192.0.2.1, path 2', told)

    def test_an_end_is_that_of_all_paths(self):
        two = struct.pack('>I', 7) + EIGHT + struct.pack('>I', 9) + EIGHT
        written, _ = prepared(self.with_path(update(b'', WIDE, two)) + mrt.made_states(True, 6, 1))
        other = dict(peer=(198, 18, 0, 1))
        self.assertEqual(written, message(SAID) + message(SAID, **other) + mrt.made_states(True, 6, 1) + mrt.made_states(True, 6, 1, **other))

    def test_a_long_update(self):
        many = [bytes([24, 10, place // 256, place % 256]) for place in range(2000)]
        capture = message(update(b'', WIDE, b''.join(many)))
        written = [body[20:] for _, _, _, body in mrt.records(io.BytesIO(prepared(capture)[0]))]
        self.assertTrue(all(len(octets) <= 4096 for octets in written) and len(written) == 2)
        said = [messages.read(octets) for octets in written]
        self.assertEqual([octets for one in said for _, octets in one.come], many)
        self.assertEqual({tuple(one.attributes) for one in said}, {tuple(wire.attributes(WIDE))})

    def test_a_long_withdrawal(self):
        many = [bytes([24, 10, place // 256, place % 256]) for place in range(2000)]
        written = [messages.read(body[20:]) for _, _, _, body in mrt.records(io.BytesIO(prepared(message(update(b''.join(many), WIDE, EIGHT)))[0]))]
        self.assertEqual([octets for one in written for _, octets in one.gone], many)
        self.assertEqual([octets for one in written for _, octets in one.come], [EIGHT])

    def test_attributes_that_are_too_long(self):
        long = WIDE + b'\xd0\x63' + struct.pack('>H', 4100) + bytes(4100)
        self.assertIn('skipped 1: UPDATEs whose attributes leave no room for a prefix in 4,096 octets', prepared(message(update(b'', long, EIGHT)))[1])


class Dumps(unittest.TestCase):
    """Table dumps, and updates behind them."""

    INDEX = dumps.made_index([dumps.Peer(65001, bytes(FIRST)), dumps.Peer(65002, bytes(SECOND)), dumps.Peer(0, bytes(4))])
    RESERVED = dict(local_as=65535)

    def test_a_dump_is_said_by_its_peers(self):
        rib = dumps.made_rib(mrt.RIB_IPV4, EIGHT, [dumps.Entry(0, None, WIDE), dumps.Entry(1, None, WIDE), dumps.Entry(2, None, WIDE)])
        written, told = prepared(self.INDEX + rib)
        second = dict(peer=SECOND, peer_as=65002, **self.RESERVED)
        self.assertEqual(written, mrt.made_states(True, 5, 6, **self.RESERVED) + message(SAID, **self.RESERVED)
                         + mrt.made_states(True, 5, 6, **second) + message(SAID, **second))
        self.assertIn('skipped 1: routes of table dumps that are the router\'s own', told)

    def test_updates_behind_a_dump_tell_the_local_as(self):
        rib = dumps.made_rib(mrt.RIB_IPV4, EIGHT, [dumps.Entry(0, None, WIDE)])
        self.assertEqual(prepared(self.INDEX + rib + message(update(EIGHT)))[0], UP + message(SAID) + message(update(EIGHT)))

    def test_a_later_dump_takes_the_place_of_the_first(self):
        rib = dumps.made_rib(mrt.RIB_IPV4, EIGHT, [dumps.Entry(0, None, WIDE)])
        states = [mrt.made_states(True, *pair, **self.RESERVED) for pair in ((5, 6), (6, 1))]
        said = message(SAID, **self.RESERVED)
        self.assertEqual(prepared((self.INDEX + rib) * 2)[0], states[0] + said + states[1] + states[0] + said)

    def test_path_identifiers(self):
        entries = [dumps.Entry(0, 7, WIDE), dumps.Entry(0, 9, WIDE)]
        written, _ = prepared(self.INDEX + dumps.made_rib(mrt.RIB_IPV4_ADDPATH, EIGHT, entries))
        other = dict(peer=(198, 18, 0, 1), **self.RESERVED)
        wanted = mrt.made_states(True, 5, 6, **self.RESERVED) + message(SAID, **self.RESERVED) + message(SAID, **other)
        self.assertEqual(written, wanted)
        without = dumps.made_rib(mrt.RIB_IPV4, EIGHT, [entry._replace(path=None) for entry in entries])
        self.assertEqual(prepared(self.INDEX + without)[0], wanted)

    def test_flags_and_next_hops(self):
        bare = b'\0\1\1\0\0\2\6\2\1' + struct.pack('>I', 65001) + b'\0\3\4' + bytes(FIRST)
        self.assertEqual(prepared(self.INDEX + dumps.made_rib(mrt.RIB_IPV4, EIGHT, [dumps.Entry(0, None, bare)]))[0],
                         mrt.made_states(True, 5, 6, **self.RESERVED) + message(SAID, **self.RESERVED))
        short = ORIGIN + PATH + b'\x80\x0e\x11\x10' + IPV6
        hop = b'\x40\3\4' + bytes((198, 19, 0, 1))
        self.assertEqual(prepared(self.INDEX + dumps.made_rib(mrt.RIB_IPV4, EIGHT, [dumps.Entry(0, None, short)]))[0],
                         mrt.made_states(True, 5, 6, **self.RESERVED) + message(update(b'', ORIGIN + PATH + hop, EIGHT), **self.RESERVED))

    def test_ipv6_routes(self):
        prefix = b'\x20' + IPV6[:4]
        short = ORIGIN + PATH + b'\x80\x0e\x11\x10' + IPV6
        capture = self.INDEX + dumps.made_rib(mrt.RIB_IPV6, prefix, [dumps.Entry(0, None, short)])
        self.assertEqual(prepared(capture)[0], b'')
        whole = b'\x80\x0e\x1a\0\2\1\x10' + IPV6 + b'\0' + prefix
        self.assertEqual(prepared(capture, '--ipv6')[0],
                         mrt.made_states(True, 5, 6, **self.RESERVED) + message(update(b'', ORIGIN + PATH + whole), **self.RESERVED))

    def test_the_old_dump(self):
        """TABLE_DUMP: view, sequence, prefix, length, status, time, peer, AS, attributes (RFC 6396, section 4.2)."""
        said = ORIGIN + PATH_OF_TWO + HOP
        body = bytes(4) + bytes([10, 0, 0, 0, 8, 1]) + bytes(4) + bytes(FIRST) + struct.pack('>HH', 65001, len(said)) + said
        self.assertEqual(prepared(mrt.record(mrt.TABLE_DUMP, 1, body))[0],
                         mrt.made_states(True, 5, 6, **self.RESERVED) + message(SAID, **self.RESERVED))


class Monitored(unittest.TestCase):
    """Streams of BMP (RFC 7854)."""

    START = bytes.fromhex('030000000a0400000000')  # Initiation

    @staticmethod
    def sent(kind, octets=b'', flags=0, whose=0, peer=FIRST, when=0):
        """A message with a peer's header (section 4.2): type and flags of the peer, a distinguisher, address, AS, identifier, time."""
        address = bytes(12) + bytes(peer) if len(peer) == 4 else bytes(peer)
        body = bytes([whose, flags]) + bytes(8) + address + struct.pack('>I', 65001) + bytes(FIRST) + struct.pack('>II', when, 5) + octets
        return struct.pack('>BIB', 3, 6 + len(body), kind) + body

    @staticmethod
    def opened(ours=b'', theirs=b'', local=bytes(12) + bytes(mrt.LOCAL)):
        """What a Peer Up has behind the header: the local address, two ports, both OPENs (section 4.10)."""
        return local + struct.pack('>HH', 179, 4000) + wire.opening(65000, '192.0.2.254', families=ours) + wire.opening(65001, '192.0.2.1', families=theirs)

    def test_a_session_and_its_routes(self):
        stream = self.START + self.sent(3, self.opened()) + self.sent(0, SAID) + self.sent(1, bytes(4)) + self.sent(2, b'\4')
        self.assertEqual(prepared(stream)[0], UP + message(SAID) + mrt.made_states(True, 6, 1))

    def test_a_stream_of_its_own_behind_another(self):
        once = self.START + self.sent(3, self.opened()) + self.sent(0, SAID)
        with tempfile.TemporaryDirectory(prefix='captures-') as folder:
            path, written = os.path.join(folder, 'one.bmp'), io.BytesIO()
            with open(path, 'wb') as file:
                file.write(once)
            prepare.prepare(prepare.words([path, path]), written.write)
        self.assertEqual(written.getvalue(), UP + message(SAID) + mrt.made_states(True, 6, 1) + UP + message(SAID))

    def test_what_is_of_no_use(self):
        """Messages behind policy, those that were sent (RFC 8671), those of other tables and of no session."""
        other = [self.sent(0, SAID, flags=0x40), self.sent(0, SAID, flags=0x10), self.sent(0, SAID, whose=1), self.sent(3, self.opened(), whose=3),
                 self.sent(0, SAID, peer=SECOND), self.sent(2, b'\4', peer=SECOND)]
        written, told = prepared(self.START + self.sent(3, self.opened()) + b''.join(other) + self.sent(0, SAID))
        self.assertEqual(written, UP + message(SAID))
        self.assertIn('skipped 7: messages of BMP that tell no session of the global table and no route before policy', told)

    def test_a_station_that_was_connected_to_anew(self):
        once = self.START + self.sent(3, self.opened()) + self.sent(0, SAID)
        self.assertEqual(prepared(once * 2)[0], UP + message(SAID) + mrt.made_states(True, 6, 1) + UP + message(SAID))

    def test_two_octets(self):
        narrow = update(b'', ORIGIN + PATH_OF_TWO + HOP, EIGHT)
        self.assertEqual(prepared(self.sent(3, self.opened()) + self.sent(0, narrow, flags=0x20))[0], UP + message(SAID))

    def test_path_identifiers_where_both_said_so(self):
        two = update(b'', WIDE, struct.pack('>I', 7) + EIGHT + struct.pack('>I', 9) + EIGHT)
        to_receive, to_send = b'\2\6\x45\4\0\1\1\1', b'\2\6\x45\4\0\1\1\2'
        written, told = prepared(self.sent(3, self.opened(to_receive, to_send)) + self.sent(0, two))
        self.assertEqual(written, UP + message(SAID) + message(SAID, peer=(198, 18, 0, 1)))
        self.assertIn('198.18.0.1 stands for 192.0.2.1, path 2', told)
        self.assertEqual(prepared(self.sent(3, self.opened(to_send, to_receive)) + self.sent(0, SAID))[0], UP + message(SAID))

    def test_a_peer_over_ipv6(self):
        written, told = prepared(self.sent(3, self.opened(local=IPV6), flags=0x80, peer=IPV6) + self.sent(0, SAID, flags=0x80, peer=IPV6))
        stands = dict(peer=(198, 19, 0, 1), local=(198, 19, 0, 1))
        self.assertEqual(written, mrt.made_states(True, 5, 6, **stands) + message(SAID, **stands))
        self.assertIn('198.19.0.1 stands for 2001:db8::1', told)

    def test_a_router_that_does_both(self):
        """A stream and a capture of one run of GoBGP (make.py --daemons gobgp --routes 12 --keep FOLDER): each peer over IPv4 says the same in
        both, and where its session ends."""
        said = []
        for name in ('stream.bmp', 'told.mrt'):
            written = io.BytesIO()
            prepare.prepare(prepare.words([os.path.join(HERE, 'monitored', name)]), written.write)
            written.seek(0)
            by_peer = {}
            for _, _, subtype, body in mrt.records(written):
                if body[20:] != b'\0\5\0\6' and body[:4] != struct.pack('>I', 65008):
                    by_peer.setdefault(body[:20], []).append((subtype, body[20:]))
            said.append(by_peer)
        self.assertEqual(said[0], said[1])
        self.assertEqual((len(said[0]), sum(map(len, said[0].values()))), (8, 59 + 3 - 5))  # messages, ends, and the five of peer 8

    def test_times(self):
        stream = self.START + self.sent(3, self.opened(), when=1000) + self.sent(0, SAID, when=1001) + self.sent(0, SAID, when=1002)
        self.assertEqual(prepared(stream, '--until', '1970-01-01T00:16:41Z')[0], mrt.made_states(True, 5, 6, when=1000) + message(SAID, when=1001))


class Choices(unittest.TestCase):
    """What the command line chooses."""

    MANY = b''.join(message(SAID, peer=(10, 0, 0, place)) for place in range(1, 71))

    def test_peers(self):
        written, told = prepared(self.MANY)
        self.assertEqual(len(list(mrt.records(io.BytesIO(written)))), 64)
        self.assertIn('70 peers, of which --peers 1-64 takes 64', told)
        rest = b''.join(message(SAID, peer=(10, 0, 0, place)) for place in range(65, 71))
        self.assertEqual(prepared(self.MANY, '--peers', '65-128')[0], rest)
        self.assertEqual(prepared(self.MANY, '--peers', '10.0.0.7')[0], message(SAID, peer=(10, 0, 0, 7)))

    def test_times(self):
        capture = b''.join(message(SAID, when=when) for when in (1000, 1001, 1002))
        self.assertEqual(prepared(capture, '--from', '1970-01-01T00:16:41Z', '--until', '1970-01-01T00:16:41')[0], message(SAID, when=1001))

    def test_microseconds_are_cut_off(self):
        self.assertEqual(prepared(mrt.made_message(True, SAID, kind=mrt.BGP4MP_ET))[0], message(SAID))

    def test_packed(self):
        for pack in gzip.compress, bz2.compress:
            self.assertEqual(prepared(pack(UP + message(SAID)))[0], UP + message(SAID))

    def test_what_was_sent(self):
        self.assertEqual(prepared(mrt.made_message(True, SAID, subtype=7))[0], b'')


class Wrong(unittest.TestCase):
    """Files of which nothing, or not all, comes: what --what says is wrong with them."""

    CAUSES = {
        'an empty file': (b'', 'it is empty'),
        'an event file': (b'local 65000 192.0.2.254 192.0.2.254\nup 1\n', 'it is a text, which begins with \'local 65000 192.0.2.254 \''),
        'what bgpdump printed': (b'BGP4MP|1700000000|A|192.0.2.1|65001|10.0.0.0/8|65001|IGP', 'it is a text, which begins with \'BGP4MP|1700000000|A|192.\''),
        'packets': (bytes.fromhex('d4c3b2a1020004000000000000000000ffff000001000000'),
                    'it is a packet capture (pcap, as tcpdump writes it): a router or collector has to write the MRT file'),
        'packets by Wireshark': (bytes.fromhex('0a0d0d0a1c0000004d3c2b1a01000000'),
                                 'it is a packet capture (pcapng, as Wireshark writes it): a router or collector has to write the MRT file'),
        'a BMP stream without sessions': (
            bytes.fromhex('030000000a0400000000'),
            'nothing of it is of use: of 1, messages of BMP that tell no session of the global table and no route before policy'),
        'a BMP stream that is cut': (bytes.fromhex('030000000a04000000000300000030'), 'it ends within message 2 of BMP: it was cut, or is still being written'),
        'a BMP stream with another version': (bytes.fromhex('030000000a04000000000200000030ff'),
                                              'message 2 has version 2 and a length of 48 octets: none of BMP'),
        'bare messages': (SAID, 'it has bare BGP messages, without the records of an MRT file around them'),
        'packed by zstd': (bytes.fromhex('28b52ffd2000'), 'it is packed by zstd: unpack it first (zstd -d)'),
        'a zip archive': (b'PK\3\4' + bytes(26), 'it is a zip archive: unpack it first (unzip)'),
        'packed and cut': (gzip.compress(UP + message(SAID), mtime=0)[:-9],
                           'it is packed and cut or damaged behind record 0: Compressed file ended before the end-of-stream marker was reached'),
        'something else': (bytes(range(7, 90)), 'record 1 has type 2828, subtype 3342 and a length of 252711186 octets: none of an MRT file'),
        'cut in a body': (UP + message(SAID)[:-1], 'it ends within the body of record 2: it was cut, or is still being written'),
        'cut in a header': (UP + message(SAID)[:7], 'it ends within the header of record 2: it was cut, or is still being written'),
        'a length that is wrong': (UP + UP[:8] + b'\xff\xff\xff\xff' + UP[12:],
                                   'record 2 has type 16, subtype 5 and a length of 4294967295 octets: none of an MRT file'),
        'what the router sent': (mrt.made_message(True, SAID, subtype=7), 'nothing of it is of use: of 1, messages that the router sent (MESSAGE_LOCAL)'),
        'no session': (mrt.made_states(True, 1, 2) * 3, 'nothing of it is of use: of 3, changes of state apart from Established'),
        'fields that run beyond': (mrt.record(mrt.BGP4MP, 4, bytes(7)), 'nothing of it is of use: of 1, records whose fields can\'t be read'),
        'an index alone': (Dumps.INDEX, 'it has the index of a table dump and no routes'),
        'a dump without its index': (dumps.made_rib(mrt.RIB_IPV4, EIGHT, [dumps.Entry(0, None, WIDE)]),
                                     'nothing of it is of use: of 1, routes of table dumps whose peer no index names'),
        'IPv6 alone': (message(update(b'', ORIGIN + PATH + b'\x80\x0e\x1a\0\2\1\x10' + IPV6 + b'\0\x20' + IPV6[:4])),
                       'nothing of it is of use: of 1, UPDATEs of other families than IPv4 unicast'),
        'of OSPF': (mrt.record(11, 0, bytes(40)) * 2, 'nothing of it is of use: of 2, records of other types, subtypes and families'),
    }

    def test_causes(self):
        for name, (octets, cause) in self.CAUSES.items():
            with self.subTest(name):
                self.assertEqual(looked_at(octets), cause)

    def test_what_stands_before_is_written(self):
        written, told = prepared(UP + message(SAID)[:-1])
        self.assertEqual(written, UP)
        self.assertIn('it ends within the body of record 2: it was cut, or is still being written', told)

    def test_nothing_is_wrong(self):
        self.assertIsNone(looked_at(UP + message(SAID)))


class Beside(unittest.TestCase):
    """The scripts beside prepare.py."""

    def test_by_peer(self):
        with tempfile.TemporaryDirectory(prefix='captures-') as folder:
            path = os.path.join(folder, 'all.mrt')
            with open(path, 'wb') as file:
                file.write(UP + message(SAID, peer=SECOND) + message(SAID) + mrt.made_states(True, 5, 6, peer=IPV6, local=IPV6, family=2))
            parts = by_peer.Parts(folder)
            for when, kind, subtype, body in files.read(path):
                parts.take(by_peer.peer_of(kind, subtype, body), mrt.record(kind, subtype, body, when))
            parts.flush()
            with open(os.path.join(folder, '192.0.2.1.mrt'), 'rb') as file:
                self.assertEqual(file.read(), UP + message(SAID))
            self.assertEqual(sorted(os.listdir(folder)), ['192.0.2.1.mrt', '192.0.2.2.mrt', '2001:db8::1.mrt', 'all.mrt'])

    def test_idle(self):
        lines = [b'as4\n', b'local 1 1.1.1.1 1.1.1.1\n', b'bgp 1 00\n', b'up 2\n', b'bgp 2 00\n', b'bgp 1 00\n', b'idle\n']
        made = list(idle.with_lines(lines, 2, ['route add static 0.0.0.0/0 direct eth0 1'], ['in.1']))
        self.assertEqual(made, lines[:2] + [b'route add static 0.0.0.0/0 direct eth0 1\n'] + lines[2:5] + [b'idle\n'] + lines[5:] + [b'show in.1\n'])

    def test_the_local_side_of_later_files(self):
        with tempfile.TemporaryDirectory(prefix='captures-') as folder:
            paths = [os.path.join(folder, name) for name in ('rib', 'updates')]
            for path, octets in zip(paths, (Dumps.INDEX, message(SAID))):
                with open(path, 'wb') as file:
                    file.write(octets)
            self.assertEqual(preparation.local_side(paths), (65000, bytes(mrt.LOCAL)))


if __name__ == '__main__':
    unittest.main()
