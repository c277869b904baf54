#!/usr/bin/env python3
"""Tests of python/bgp: python3 python/test.py. Octets are written out by hand, from RFC 4271, section 4.3, and RFC 4760, sections 3 to 5."""
import os
import sys
import tempfile
import unittest

sys.dont_write_bytecode = True
sys.path.insert(0, os.path.dirname(os.path.abspath(__file__)))
from bgp import eventfile, messages, program, wire

HOP, LINK_LOCAL = bytes.fromhex('20010db8000000000000000000000001'), bytes.fromhex('fe800000000000000000000000000009')
# ORIGIN, and AS_PATH of 65001
FRONT = '40010100' + '4002040201fde9'
REACHES = '800e1c0002011020010db8000000000000000000000001003020010db80001'
UNREACHES = '800f0a0002013020010db80001'


def body(attributes, gone='', come=''):
    said = bytes.fromhex(attributes)
    return b''.join(len(part).to_bytes(2, 'big') + part for part in (bytes.fromhex(gone), said)) + bytes.fromhex(come)


class Texts(unittest.TestCase):
    def test_an_address_has_eight_groups_in_lower_case_without_leading_zeros(self):
        self.assertEqual(wire.address(bytes.fromhex('20010DB80000000000080800200C417A')), '2001:db8:0:0:8:800:200c:417a')
        self.assertEqual(wire.address(bytes(16)), '0:0:0:0:0:0:0:0')
        self.assertEqual(wire.address(bytes([192, 0, 2, 1])), '192.0.2.1')

    def test_a_next_hop_of_two_addresses(self):
        self.assertEqual(wire.address(HOP + LINK_LOCAL), '2001:db8:0:0:0:0:0:1+fe80:0:0:0:0:0:0:9')

    def test_bits_beyond_the_length_are_masked(self):
        self.assertEqual(wire.prefix(bytes.fromhex('2d20010db8000f'), wire.IPV6), '2001:db8:8:0:0:0:0:0/45')
        self.assertEqual(wire.prefix(b'\0', wire.IPV6), '0:0:0:0:0:0:0:0/0')
        self.assertEqual(wire.prefix(b'\x80' + HOP, wire.IPV6), '2001:db8:0:0:0:0:0:1/128')

    def test_a_prefix_is_read_back(self):
        for text in ('2001:db8:1:0:0:0:0:0/48', '0:0:0:0:0:0:0:0/0', '2000:0:0:0:0:0:0:0/3', 'fe80:0:0:0:0:0:0:9/128', '10.1.0.0/16'):
            self.assertEqual(wire.prefix(wire.prefix_octets(text), wire.family(text)), text)

    def test_a_prefix_that_does_not_fit(self):
        for octets in (b'\x81' + bytes(17), b'\x30\x20\x01'):
            with self.assertRaises(ValueError):
                list(wire.split(octets, wire.IPV6))


class Updates(unittest.TestCase):
    def test_type_14_announces_by_its_own_next_hop(self):
        held = {}
        wire.take(held, body(FRONT + REACHES))
        self.assertEqual(wire.texts(held), {'2001:db8:1:0:0:0:0:0/48': 'o0,p(65001),n2001:db8:0:0:0:0:0:1'})

    def test_type_15_withdraws(self):
        held = {}
        for said in (FRONT + REACHES, UNREACHES):
            wire.take(held, body(said))
        self.assertEqual(held, {})

    def test_each_family_has_its_next_hop(self):
        held = {}
        wire.take(held, body(FRONT + '400304c0000201' + REACHES, come='100a01'))
        self.assertEqual(wire.texts(held), {'10.1.0.0/16': 'o0,p(65001),n192.0.2.1', '2001:db8:1:0:0:0:0:0/48': 'o0,p(65001),n2001:db8:0:0:0:0:0:1'})

    def test_a_prefix_of_both_types_is_announced(self):
        found = wire.update(body(FRONT + REACHES + UNREACHES))
        self.assertEqual((found.withdrawn, found.announced), (['2001:db8:1:0:0:0:0:0/48'],) * 2)
        held = {}
        wire.take(held, body(FRONT + REACHES + UNREACHES))
        self.assertEqual(list(held), ['2001:db8:1:0:0:0:0:0/48'])

    def test_another_family_says_nothing(self):
        found = wire.update(body(FRONT + REACHES.replace('000201', '000202', 1)))
        self.assertEqual((found.withdrawn, found.announced), ([], []))

    def test_what_is_written(self):
        self.assertEqual(wire.attribute(wire.reaching(HOP, [bytes.fromhex('3020010db80001')])).hex(), REACHES)
        self.assertEqual(wire.attribute(wire.unreaching([bytes.fromhex('3020010db80001')])).hex(), UNREACHES)

    def test_a_value_that_ends_early(self):
        for value in ('000201', '00020110' + HOP.hex(), '000201102001'):
            with self.assertRaises(ValueError):
                wire.reached({wire.MP_REACH: (0x80, bytes.fromhex(value))})

    def test_of_two_next_hops_the_global_one_counts_where_a_capture_is_prepared(self):
        value = b'\0\2\1' + bytes([32]) + HOP + LINK_LOCAL + b'\0'
        self.assertEqual(messages.reached(value), (b'\0\2\1', HOP, b''))


class Sessions(unittest.TestCase):
    def test_both_families_are_said(self):
        said = wire.opening(65001, '192.0.2.1', families=wire.OF_IPV4 + wire.OF_IPV6)
        self.assertEqual(said[29:].hex(), '0206010400010001' + '0206010400020001')

    def test_which_family_is_asked_for_again(self):
        for octets, family in (('00010001', wire.IPV4), ('00020001', wire.IPV6), ('00020002', None), ('0002000100', None)):
            self.assertEqual(wire.asks_again(wire.message(wire.ROUTE_REFRESH, bytes.fromhex(octets))), family)


class Files(unittest.TestCase):
    def wanted(self, *lines):
        found = eventfile.Wanted()
        for line in ('local 65000 192.0.2.254 192.0.2.254', 'local6 2001:DB8::fe') + lines:
            self.assertTrue(found.take(line.split()))
        return found

    def test_each_network_has_its_own(self):
        found = self.wanted('route add static 10.1.0.0/16 via 192.0.2.9 eth0 1', 'route add static 2001:db8:1::/48 via 2001:db8::9 eth0 2',
                            'filter in 1 any reject', 'filter6 in 1 2001:db8::/32 ge 40 le 48 pref 7 accept', 'redist6 static on')
        self.assertEqual([network.address for network in found.networks()], ['192.0.2.254', '2001:db8:0:0:0:0:0:fe'])
        self.assertEqual(found.second.interior['static'], {'2001:db8:1:0:0:0:0:0/48': eventfile.Way('2001:db8:0:0:0:0:0:9', 'eth0', 2)})
        self.assertEqual([found.own(), found.second.own()], [[], ['2001:db8:1:0:0:0:0:0/48']])
        self.assertEqual(found.filters['in'][1][0].verdict, 'reject')
        self.assertEqual(found.second.filters['in'][1][0].condition, ['2001:db8::/32', 'ge', '40', 'le', '48'])

    def test_a_protocol_is_lost_in_one(self):
        ways = 'route add ospf 10.1.0.0/16 direct eth0 1', 'route add ospf 2001:db8:1::/48 direct eth0 1'
        self.assertEqual([bool(network.interior['ospf']) for network in self.wanted(*ways, 'lost6 ospf').networks()], [True, False])
        self.assertEqual([bool(network.interior['ospf']) for network in self.wanted(*ways, 'lost ospf').networks()], [False, True])

    def test_the_network_that_the_address_is_in(self):
        self.assertEqual(self.wanted().second.attached(), '2001:db8:0:0:0:0:0:fe/128')
        self.assertEqual(self.wanted('route add connected 2001:db8::/64 direct eth0 0').second.attached(), '2001:db8:0:0:0:0:0:0/64')

    def test_rows_of_both_networks_stand_in_one_table(self):
        tables = {'adv.2.1': {'10.1.0.0/16': 'x'}, '6.adv.2.1': {'2001:db8:1:0:0:0:0:0/48': 'y'}, 'best': {}, '6.best': {'2001:db8:1:0:0:0:0:0/48': 'z'},
                  'filt.1': {}, 'res.1': {}, '6.filt.1': {'2001:db8:2:0:0:0:0:0/48': 'v'}, '6.res.1': {}}
        found = program.at(tables, [], {}, 2)
        self.assertEqual(found.sent, {2: {'10.1.0.0/16': 'x', '2001:db8:1:0:0:0:0:0/48': 'y'}})
        self.assertEqual((found.best, found.unresolved), ({'2001:db8:1:0:0:0:0:0/48': 'z'}, {'2001:db8:2:0:0:0:0:0/48'}))

    def test_a_best_row_of_ipv6(self):
        row = '1:100:-:0:5:o0,p(65001),n2001:db8:0:0:0:0:0:1,m10'
        self.assertEqual(program.best_of_the_row(row), program.Best(1, 100, 0, '(65001)', 0, '2001:db8:0:0:0:0:0:1'))


class Again(unittest.TestCase):
    """What is compared of a peer that asks for all routes again, by an output that is written out here."""
    UP = ('up 2', 'b adv.2.1', 'b 6.adv.2.1')
    OF_IPV4, OF_IPV6 = ('bgp 2 ' + wire.message(wire.ROUTE_REFRESH, bytes.fromhex(octets)).hex() for octets in ('00010001', '00020001'))
    SENT = ('idle', 'out 2 ' + wire.made_update(b'', bytes.fromhex(FRONT + '400304c0000201'), bytes.fromhex('100a01')).hex(),
            'out 2 ' + wire.made_update(b'', bytes.fromhex(FRONT + REACHES), b'').hex())

    def again(self, *events):
        """Of each event the words, and the lines that the program prints of it; which prefixes are compared at the last one."""
        front = ('local 65000 192.0.2.254 192.0.2.254', 'b best'), ('local6 2001:db8::fe', 'b 6.best'), ('peer 2 65002 192.0.2.2 192.0.2.2',)
        with tempfile.TemporaryDirectory() as folder:
            files = [os.path.join(folder, name) for name in ('events', 'printed')]
            blocks = [list(event[1:]) + [program.MARK + ' yes'] for event in front + events]
            for path, lines in zip(files, ([event[0] for event in front + events], sum(blocks, []))):
                with open(path, 'w', encoding='ascii') as file:
                    file.write('\n'.join(lines) + '\n')
            found = program.steps([], *files)[-1].moment.again
        return {peer: sorted(rows) for peer, rows in found.items()}

    def test_of_each_family_that_was_asked_for(self):
        first, second = '10.1.0.0/16', '2001:db8:1:0:0:0:0:0/48'
        self.assertEqual(self.again(self.UP, (self.OF_IPV6,), self.SENT), {2: [second]})
        self.assertEqual(self.again(self.UP, (self.OF_IPV4,), self.SENT), {2: [first]})
        self.assertEqual(self.again(self.UP, (self.OF_IPV6,), (self.OF_IPV4,), self.SENT), {2: [first, second]})
        self.assertEqual(self.again(self.UP, self.SENT), {})

    def test_a_new_session_has_not_asked(self):
        lost = 'down 2', 'e adv.2.1', 'e 6.adv.2.1'
        self.assertEqual(self.again(self.UP, (self.OF_IPV6,), lost, ('up 2', 'b adv.2.2', 'b 6.adv.2.2'), self.SENT), {})


if __name__ == '__main__':
    unittest.main()
