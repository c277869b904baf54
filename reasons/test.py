#!/usr/bin/env python3
"""Tests of the scripts here, on stories of examples/ whose outputs the gate compares with the program's: reasons/test.py. No program is needed.

What is wanted was worked by hand: the steps at which fourteen routes lose, what each line of a file does, the column at which each faulty line
departs from the language.
"""
import collections
import contextlib
import glob
import io
import os
import re
import subprocess
import sys
import unittest

sys.dont_write_bytecode = True
sys.path.insert(0, os.path.join(os.path.dirname(os.path.abspath(__file__)), '..', 'python'))
import grammar
import refused
import table
import tables
import told
import values
import why
from bgp import wire

HERE = os.path.dirname(os.path.abspath(__file__))
EXAMPLES = os.path.join(HERE, '..', 'examples')


def example(name):
    """The path of a story's file, which stands in the folder of its topic."""
    [path] = glob.glob(os.path.join(EXAMPLES, '*', name))
    return path


def stories():
    """The names of all stories that are event files."""
    return sorted(os.path.basename(path)[:-len('.events')] for path in glob.glob(os.path.join(EXAMPLES, '*', '*.events')))


def run(script, *words, text=''):
    """What a script prints on its standard output, and its status."""
    ran = subprocess.run([sys.executable, os.path.join(HERE, script), *words], input=text.encode(), stdout=subprocess.PIPE, stderr=subprocess.DEVNULL,
                         check=False)
    return ran.stdout.decode(), ran.returncode


class Why(unittest.TestCase):
    """Each route of `why_best.events` was made to lose for one reason."""

    FIRST = '''10.1.0.0/16: not settled: fin.10 has work there (docs/LANGUAGE.md, "Settled prefixes")
peer 1 (AS 65001, 192.0.2.1, external): o0,p(65001.65100),n192.0.2.1,m5
  best after step 9, the lowest peer address (RFC 4271, 9.1.2.2 g): 192.0.2.1
peer 2 (AS 65002, 192.0.2.2, external): o0,p(65002),n192.0.2.2
  loses at step 1, the highest degree of preference (RFC 4271, 9.1.2): 50 beside 100 of peer 1
peer 3 (AS 65003, 192.0.2.3, external): o0,p(65003.65100.65101),n192.0.2.3
  loses at step 2, the fewest AS numbers in the path (RFC 4271, 9.1.2.2 a): 3 beside 2 of peer 1
peer 4 (AS 65004, 192.0.2.4, external): o1,p(65004.65100),n192.0.2.4
  loses at step 3, the lowest ORIGIN (RFC 4271, 9.1.2.2 b): EGP beside IGP of peer 1
peer 5 (AS 65001, 192.0.2.5, external): o0,p(65001.65100),n192.0.2.5,m10
  loses at step 4, no lower MULTI_EXIT_DISC of the same neighbour AS (RFC 4271, 9.1.2.2 c): MED 10 of AS 65001 beside MED 5 of AS 65001 of peer 1
peer 6 (AS 65000, 192.0.2.6, internal): o0,p(65006.65100),n192.0.2.6,m0,l100
  loses at step 5, an external peer (RFC 4271, 9.1.2.2 d): internal beside external of peer 1
peer 7 (AS 65007, 192.0.2.7, external): o0,p(65007.65100),n198.51.100.7
  loses at step 6, the lowest interior metric (RFC 4271, 9.1.2.2 e): 20 beside 1 of peer 1
peer 8 (AS 65008, 192.0.2.8, external): o0,p(65008.65100),n192.0.2.8
  loses at step 7, the lowest originator or identifier (RFC 4271, 9.1.2.2 f; RFC 4456, 9): 192.0.2.8 beside 192.0.2.1 of peer 1
peer 9 (AS 65009, 192.0.2.9, external): o0,p(65009.65100),n192.0.2.9
  loses at step 9, the lowest peer address (RFC 4271, 9.1.2.2 g): 192.0.2.9 beside 192.0.2.1 of peer 1
peer 10 (AS 65010, 192.0.2.10, external): o0,p(65010.65066),n192.0.2.10
  rejected by the incoming filter: rule 1, `any reject`
peer 11 (AS 65011, 192.0.2.11, external): o0,p(65011.65000),n192.0.2.11
  rejected by the incoming filter: the AS path has the local AS 65000 (RFC 4271, 9.1.2)
peer 12 (AS 65012, 192.0.2.12, external): o0,p(65012.65100),n203.0.113.12
  the next hop 203.0.113.12 isn't resolved: no interior route holds it
peer 13 (AS 65013, 192.0.2.13, external): o0,p(65013.65100),n192.0.2.254
  rejected by the incoming filter: the next hop is the local address (RFC 4271, 5.1.3)
no route there: peers 14, 15
'''
    SECOND = '''10.2.0.0/16: settled
peer 6 (AS 65000, 192.0.2.6, internal): o0,p,n192.0.2.6,l100,r192.0.2.77,c192.0.2.78
  best after step 8, the shortest CLUSTER_LIST (RFC 4456, 9): 1
peer 15 (AS 65000, 192.0.2.15, internal, client): o0,p,n192.0.2.15,l100,r192.0.2.77,c192.0.2.79;192.0.2.80
  loses at step 8, the shortest CLUSTER_LIST (RFC 4456, 9): 2 beside 1 of peer 6
no route there: peers 1, 2, 3, 4, 5, 7, 8, 9, 10, 11, 12, 13, 14
'''
    THIRD = '''10.3.0.0/16: settled
own route: best, since the router originates it (docs/BGP.md, "The decision"); made of static:192.0.2.200:eth0:5
  0:100:-:0:0:o2,p,n192.0.2.254
peer 1 (AS 65001, 192.0.2.1, external): o0,p(65001),n192.0.2.1
  loses to the own route
no route there: peers 2, 3, 4, 5, 6, 7, 8, 9, 10, 11, 12, 13, 14, 15
'''

    def asked(self, *words, name='why_best'):
        return run('why.py', example(name + '.events'), *words, '--printed', example(name + '.out'))

    def test_each_reason(self):
        for prefix, wanted in (('10.1.0.0/16', self.FIRST), ('10.2.0.0/16', self.SECOND), ('10.3.0.0/16', self.THIRD)):
            self.assertEqual(self.asked(prefix), (wanted, 0))

    def test_an_address_is_looked_up(self):
        self.assertEqual(self.asked('10.2.3.4'), (self.SECOND, 0))
        self.assertEqual(self.asked('11.0.0.1'), ('no route holds 11.0.0.1\n', 1))

    def test_statuses(self):
        self.assertEqual(self.asked('10.9.0.0/16')[1], 1)
        self.assertEqual(self.asked('10.9.0.0/99')[1], 2)
        self.assertEqual(self.asked('10.9.0.0/16', name='path_65536')[1], 3)

    def test_the_steps_give_what_stands_on_best(self):
        prefixes = collections.Counter()
        for name in stories():
            with open(example(name + '.out'), encoding='ascii') as file:
                found = tables.Tables().take_all(line.rstrip('\n') for line in file)
            if found.refusal or 'best' not in found.links:
                continue
            wanted = why.declared(tables.lines_of(example(name + '.events')))
            for prefix in why.prefixes(found, wanted):
                ours, theirs, _ = why.decided_at(found, wanted, prefix)
                self.assertEqual(ours, theirs, name)
                prefixes['6' if values.mark(prefix) else '4'] += 1
        self.assertGreater(prefixes['4'], 150)
        self.assertGreater(prefixes['6'], 70)

    def test_each_step_in_ipv6(self):
        found = tables.Tables().take_all(tables.printed([], [], example('each_step_in_ipv6.out')))
        wanted = why.declared(tables.lines_of(example('each_step_in_ipv6.events')))
        steps = [why.decided_at(found, wanted, values.masked('2001:db8:%s::/48' % group))[2] for group in 'a b c d e f 10 11'.split()]
        self.assertEqual(steps, [1, 2, 3, 4, 5, 6, 7, 9])

    def test_the_local_address_of_ipv6(self):
        lines = '''2001:db8:1:0:0:0:0:0/48: whether it is settled wasn't asked
peer 1 (AS 65001, 192.0.2.1, external): o0,p(65001),n2001:db8:0:0:0:0:0:fe
  rejected by the incoming filter: the next hop is the local address (RFC 4271, 5.1.3)
no route is the best one
'''
        self.assertEqual(self.asked('2001:db8:1::/48', name='own_next_hops_of_ipv6'), (lines, 0))
        self.assertEqual(self.asked('2001:db8:1::', name='own_next_hops_of_ipv6'), (lines, 0))
        self.assertEqual(self.asked('2001:db8:1::/129', name='own_next_hops_of_ipv6')[1], 2)


class Told(unittest.TestCase):
    """What each line does."""

    LINES = '''10: bgp 1 UPDATE +10.0.0.0/8 o0,p(65001),n192.0.2.1
    + in.1 10.0.0.0/8 o0,p(65001),n192.0.2.1
    + filt.1 10.0.0.0/8 1:100:-:0:-:o0,p(65001),n192.0.2.1
    + res.1 10.0.0.0/8 1:100:-:0:1:o0,p(65001),n192.0.2.1
    + best 10.0.0.0/8 1:100:-:0:1:o0,p(65001),n192.0.2.1
14: work del.1.1 1
    - in.1 10.0.0.0/8 o0,p(65001),n192.0.2.1
    - filt.1 10.0.0.0/8 1:100:-:0:-:o0,p(65001),n192.0.2.1
    - res.1 10.0.0.0/8 1:100:-:0:1:o0,p(65001),n192.0.2.1
    - best 10.0.0.0/8 1:100:-:0:1:o0,p(65001),n192.0.2.1
'''
    DOWN = '12: down 1\n    e adv.1.1\n'

    def asked(self, *words):
        return run('told.py', example('told_line_by_line.events'), *words, '--printed', example('told_line_by_line.out'))

    def test_a_prefix(self):
        self.assertEqual(self.asked('10.0.0.0/8'), (self.LINES, 0))

    def test_a_link_and_a_kind_of_line(self):
        self.assertEqual(self.asked('e', 'adv'), (self.DOWN, 0))
        self.assertEqual(self.asked('10.9.0.0/16'), ('', 1))

    def test_messages_of_ipv6_in_words(self):
        reach = b'\x80\x0e\x1c' + bytes.fromhex('000201' + '10' + '20010db8000000000000000000000001' + '00' + '30' + '20010db80001')
        unreach = b'\x80\x0f\x06' + bytes.fromhex('000201' + '11' + '2001')
        attributes = bytes.fromhex('40010100' + '4002040201fde9') + reach
        octets = wire.made_update(bytes.fromhex('080a'), attributes, b'')
        said = 'UPDATE -10.0.0.0/8 +2001:db8:1:0:0:0:0:0/48 o0,p(65001),n2001:db8:0:0:0:0:0:1'
        self.assertEqual(told.message(octets, 2), said)
        self.assertEqual(told.message(wire.made_update(b'', unreach, b''), 2), 'UPDATE that can\'t be read')
        unreach = b'\x80\x0f\x07' + bytes.fromhex('000201' + '11' + '200180')
        self.assertEqual(told.message(wire.made_update(b'', unreach, b''), 2), 'UPDATE -2001:8000:0:0:0:0:0:0/17')
        self.assertEqual([told.as_printed(word) for word in ('2001:db8::1/32', '::', '10.0.0.0/8', '6.best', '::g')],
                         ['2001:db8:0:0:0:0:0:0/32', '0:0:0:0:0:0:0:0', '10.0.0.0/8', '6.best', '::g'])

    def test_messages_in_words(self):
        withdrawal = bytes.fromhex('ff' * 16 + '0019' + '02' + '0002' + '080a' + '0000')
        self.assertEqual(told.message(withdrawal, 2), 'UPDATE -10.0.0.0/8')
        self.assertEqual(told.message(bytes.fromhex('ff' * 16 + '001504' + '0000'), 2), 'KEEPALIVE')
        self.assertEqual(told.message(bytes.fromhex('ff' * 16 + '001902' + '00ff' + '080a' + '0000'), 2), 'UPDATE that can\'t be read')


class Table(unittest.TestCase):
    """Rows by name."""

    CSV = '''link,prefix,peer,preference,med_that_counts,prepends,interior_metric,as_path,next_hop,origin,med,local_pref
best,10.1.0.0/16,1,100,9,0,1,65001,192.0.2.1,IGP,9,
best,10.3.0.0/16,3,300,4,0,1,65007,192.0.2.3,IGP,4,300
best,10.4.0.0/16,4,50,,0,1,,192.0.2.4,IGP,,50
'''
    JSON = '{"link": "adv.2.1", "prefix": "10.3.0.0/16", "origin": "IGP", "as_path": "65000 65007", "next_hop": "192.0.2.254", "name": "192.0.2.2"}\n'
    COUNT = 'best: 3 rows (1 of peer 1, 1 of peer 3, 1 of peer 4)\n'

    def asked(self, *words):
        with open(example('never_sent.out'), encoding='ascii') as file:
            return run('table.py', *words, text=file.read())

    def test_forms(self):
        self.assertEqual(self.asked('--csv', '--link', 'best'), (self.CSV, 0))
        self.assertEqual(self.asked('--json', '--link', 'adv.2.1', '--last', '--names', example('never_sent.events')), (self.JSON, 0))
        self.assertEqual(self.asked('--count', '--link', 'best'), (self.COUNT, 0))

    def test_the_longest_prefix_that_holds_an_address(self):
        rows = [('10.0.0.0/8', 'a'), ('10.1.0.0/16', 'b'), ('10.1.2.0/24', 'c')]
        self.assertEqual(table.longest(rows, values.address('10.1.3.1')), [('10.1.0.0/16', 'b')])
        self.assertEqual(table.longest(rows, values.address('11.1.3.1')), [])
        self.assertEqual(self.asked('--for', '10.9.0.1')[1], 1)
        self.assertEqual(self.asked('--for', '10.9.0')[1], 2)

    def test_rows_of_ipv6(self):
        hop, direct = '2001:db8:0:0:0:0:0:1', {'protocol': 'rip', 'gateway': 'direct', 'interface': 'eth0', 'metric': '5'}
        self.assertEqual(values.named('6.int', 'rip:direct:eth0:5'), direct)
        self.assertEqual(values.named('6.org.rip.1', 'rip:%s:eth0:5' % hop), {**direct, 'gateway': hop})
        self.assertEqual(values.named('6.fib', 'ebgp:%s:eth0' % hop), {'protocol': 'ebgp', 'gateway': hop, 'interface': 'eth0'})
        self.assertEqual(values.named('6.ext', 'ibgp:%s' % hop), {'kind': 'ibgp', 'next_hop': hop})
        self.assertEqual(table.fields('6.in.3', '2001:db8:0:0:0:0:0:0/32', 'o0,p,n' + hop, {'3': 'third'}),
                         {'link': '6.in.3', 'prefix': '2001:db8:0:0:0:0:0:0/32', 'name': 'third', 'origin': 'IGP', 'as_path': '', 'next_hop': hop})
        rows = [('0.0.0.0/0', 'a'), ('0:0:0:0:0:0:0:0/0', 'b'), ('2001:db8:0:0:0:0:0:0/32', 'c')]
        self.assertEqual(table.longest(rows, values.address('2001:db9::1')), [('0:0:0:0:0:0:0:0/0', 'b')])
        self.assertEqual(table.longest(rows, values.address('2001:db8:ffff::')), [('2001:db8:0:0:0:0:0:0/32', 'c')])
        self.assertEqual(table.longest(rows, values.address('0.0.0.1')), [('0.0.0.0/0', 'a')])

    def test_addresses(self):
        for text in ('10.0.0', '10.0.0.256', '10.0.0.01', '1:2:3:4:5:6:7', '::1::', ':::', '::ffff:10.0.0.1', '12345::', '::%eth0', ''):
            self.assertRaises(ValueError, values.address, text)
        self.assertEqual(values.masked('2001:DB8:ffff:1::1/47'), '2001:db8:fffe:0:0:0:0:0/47')
        self.assertEqual((values.masked('::1'), values.masked('10.1.2.3')), ('0:0:0:0:0:0:0:1/128', '10.1.2.3/32'))
        self.assertEqual(sorted(['::/0', '10.0.0.0/9', '255.0.0.0/8', '10.0.0.0/8'], key=values.prefix_key),
                         ['10.0.0.0/8', '10.0.0.0/9', '255.0.0.0/8', '::/0'])

    def test_an_output_that_was_refused(self):
        self.assertEqual(run('table.py', text='rows best 0\nrefused 3 E2\n')[1], 3)


class Refused(unittest.TestCase):
    """Of each story of a faulty line: the column, and words that have to be said."""

    FAULTS = {
        'as4_after_local': (1, '`local` stands in line 2'), 'as4_then_no_local': (1, 'the file has no line `local AS ID ADDR`'),
        'as4_twice': (1, '`as4` stands in line 1'), 'as4_with_a_word': (5, 'wanted there: the end of the line'),
        'as_0': (8, 'AS is 1 to 65535, with `as4` 1 to 4294967295'), 'as_0_of_four': (8, 'wanted there: AS'),
        'as_4294967295': (19, 'wanted there: a number of an AS'), 'client_65_of_another_as': (9, 'the local AS is 65000 (line 3)'),
        'client_and_a_word': (41, 'wanted there: the end of the line'), 'client_of_a_used_number': (6, 'peer 1 is declared in line 4'),
        'client_of_another_as': (8, 'the local AS is 65000 (line 3)'), 'client_without_reflect': (None, '`client` may stand only behind a line `reflect`'),
        'line_too_long_at_the_end': (16385, '16385 bytes'), 'local_4294967296': (7, 'wanted there: AS'), 'local_4294967296_of_two': (7, 'wanted there: AS'),
        'local_65536': (7, 'wanted there: AS'), 'local_twice': (1, '`local` stands in line 2'), 'longest_lines': (16385, '16385 bytes'),
        'no_event': (6, 'A number is `0`, or digits without a leading zero, below 2^32; K is one from 1'), 'path_65536': (18, 'wanted there: a number of an AS'),
        'peer_65': (6, 'a router has at most 64 peers'), 'peer_65_of_a_used_address': (25, '192.0.2.64 is the address of line 3: peer 64 65001 192.0.2.1 192.0.2.64'),
        'peer_70000': (8, 'wanted there: AS'), 'peer_not_declared_out': (12, 'peer 2 isn\'t declared before this line; these are: 1'),
        'redist_before_local': (1, 'the file has no line `local AS ID ADDR`'), 'reflect_after_local': (1, '`local` stands in line 2'),
        'reflect_twice': (1, '`reflect` stands in line 2'), 'reflect_with_a_word': (9, 'wanted there: the end of the line'),
        'refresh_of_no_peer': (6, 'peer 2 isn\'t declared before this line; these are: 1'), 'refresh_without_a_number': (6, 'wanted there: TASK'),
        'revised_after_local': (1, '`local` stands in line 1'), 'revised_twice': (1, '`revised` stands in line 2'),
        'revised_with_a_word': (9, 'wanted there: the end of the line'), 'rules_65': (13, 'a filter has at most 64 rules; this one has 65'),
        'rules_65_of_no_peer': (11, 'peer 2 isn\'t declared before this line; these are: 1'), 'rules_65_out': (14, 'a filter has at most 64 rules; this one has 65'),
        'settled_33_bits': (9, 'wanted there: PREFIX'), 'settled_before_local': (1, 'the file has no line `local AS ID ADDR`'),
        'settled_no_prefix': (9, 'wanted there: PREFIX'), 'settled_two_prefixes': (21, 'wanted there: the end of the line'),
        'undeclared': (4, 'peer 2 isn\'t declared before this line; these are: 1'), 'unprintable_byte': (3, 'byte 0x09: a tab'),
        'unprintable_byte_in_a_comment': (6, 'byte 0xc3'),
        'mistake_as_with_letters': (8, 'wanted there: AS'), 'mistake_bounds': (24, 'wanted there: `ge`'),
        'mistake_byte_order_mark': (1, 'byte 0xef: the file begins with a byte order mark'), 'mistake_capital': (1, '`Up` begins no event; most like it: `up K`'),
        'mistake_comma': (4, 'wanted there: K'), 'mistake_direction': (8, 'or: `filter out K RULES`'),
        'mistake_gateway': (33, 'the form: `route add PROTO PREFIX via GATEWAY IF METRIC`'), 'mistake_half_an_octet': (7, 'wanted there: HEX'),
        'mistake_interface': (41, 'IF, the name of an interface, is 1 to 15 of `a-z 0-9 . - _`'), 'mistake_ipv6': (18, 'the file has no line `local6 ADDR6`'),
        'mistake_link': (6, 'wanted there: LINK'), 'mistake_link_of_nobody': (6, 'peer 2 isn\'t declared before this line; these are: 1'),
        'mistake_loopback': (24, 'wanted there: ADDR'), 'mistake_no_length': (18, 'wanted there: PREFIX'), 'mistake_no_metric': (41, 'wanted there: METRIC'),
        'mistake_no_prefix': (10, 'wanted there: PREFIX'), 'mistake_prepend_17': (26, 'wanted there: a number from 0 to 16'),
        'mistake_protocol': (11, 'PROTO is `connected`, `static`, `ospf` or `rip`'), 'mistake_task': (6, 'wanted there: TASK'),
        'mistake_verdict': (24, 'wanted there: an action (`pref`, `med`, `nomed`, `prepend`) or a verdict (`accept`, `reject`, `next`)'),
        'mistake_word': (1, '`neighbor` begins no event; these do: as4 ask bgp cover down filter filter6 idle local local6 lost lost6 peer redist '
                            'redist6 reflect revised route settled show up work'),
        'mistake_zero_in_front': (24, 'wanted there: ADDR'),
    }
    TEXT = 'an address of IPv6 is eight groups of one to four hex digits with colons between them, or fewer with one `::`'
    HOST = 'ADDR6 is an address of IPv6 that a host may have: not within ff00::/8, and neither `::` nor `::1`'
    OF_IPV4 = 'this speaker and its peers are known by addresses of IPv4'
    RULES_OF = '`filter` has prefixes of IPv4, `filter6` those of IPv6'
    NO_LOCAL6 = 'the file has no line `local6 ADDR6`'
    UNDECLARED = 'peer 2 isn\'t declared before this line; these are: 1'
    FAULTS |= {
        'ipv6_nine_groups': (7, TEXT), 'ipv6_seven_groups': (7, TEXT), 'ipv6_five_digits': (7, TEXT), 'ipv6_no_hex_digit': (7, TEXT),
        'ipv6_sign_in_a_group': (7, TEXT), 'ipv6_dotted_tail': (7, TEXT), 'ipv6_two_double_colons': (7, TEXT), 'ipv6_three_colons': (7, TEXT),
        'ipv6_double_colon_beside_eight': (7, TEXT), 'ipv6_double_colon_behind_eight': (7, TEXT), 'ipv6_colon_at_the_front': (7, TEXT),
        'ipv6_colon_at_the_end': (7, TEXT), 'ipv6_colon_behind_double_colon': (7, TEXT), 'ipv6_zone_of_an_address': (7, TEXT),
        'ipv6_address_in_brackets': (7, TEXT), 'ipv6_prefix_for_an_address': (7, 'GATEWAY, and ADDR of `cover`, is any address'),
        'cover_of_a_word': (7, 'GATEWAY, and ADDR of `cover`, is any address'), 'ipv6_129_bits': (9, 'wanted there: PREFIX'),
        'ipv6_no_length': (9, 'wanted there: PREFIX'), 'ipv6_zero_in_front_of_a_length': (9, 'wanted there: PREFIX'),
        'ipv6_two_lengths': (9, 'wanted there: PREFIX'),
        'ask_ipv6_on_ipv4s_link': (10, '`in.1` is of IPv4 and `2001:db8::/32` is of IPv6'),
        'ask_ipv4_on_ipv6s_link': (12, '`6.in.1` is of IPv6 and `10.0.0.0/8` is of IPv4'),
        'gateway_of_ipv4': (38, '`2001:db8:1::/48` is of IPv6 and `192.0.2.9` is of IPv4'),
        'gateway_of_ipv6': (34, '`10.1.0.0/16` is of IPv4 and `2001:db8::9` is of IPv6'),
        'filter_with_ipv6': (13, RULES_OF), 'filter6_with_ipv4': (14, RULES_OF), 'filter6_ge_129': (31, 'wanted there: a number from 0 to 128'),
        'filter6_le_129': (36, 'wanted there: a number from 0 to 128'), 'filter6_of_neither_side': (9, 'or: `filter6 out K RULES`'),
        'peer_of_ipv6': (24, OF_IPV4), 'local_of_ipv6': (25, OF_IPV4), 'link_marked_twice': (6, 'wanted there: LINK'),
        'link_of_ipv4_marked': (6, 'wanted there: LINK'), 'mark_alone': (6, 'wanted there: LINK'), 'task_marked_twice': (6, 'wanted there: TASK'),
        'event_marked': (1, '`6.redist` begins no event; most like it: `redist PROTO on`; `redist PROTO off`'),
        'lost6_of_a_prefix': (11, 'wanted there: the end of the line'), 'redist6_without_a_switch': (13, 'or: `redist6 PROTO off`'),
        'local6_twice': (1, '`local6` stands in line 3'), 'local6_before_local': (1, '`local` stands in line 3'),
        'local6_behind_a_peer': (1, '`peer` stands in line 3'), 'local6_twice_behind_a_peer': (1, '`local6` stands in line 3'),
        'local6_unspecified': (8, HOST), 'local6_loopback': (8, HOST), 'local6_multicast': (8, HOST), 'local6_first_of_multicast': (8, HOST),
        'local6_of_ipv4': (8, '`local6` has an address of IPv6'), 'local6_with_an_as': (8, 'wanted there: ADDR6'),
        'local6_without_a_word': (8, 'wanted there: ADDR6'), 'local6_of_a_prefix': (8, 'wanted there: ADDR6'),
        'wrong_local6_before_local': (8, HOST), 'wrong_local6_behind_a_peer': (8, HOST), 'local_behind_local6': (1, '`local` stands in line 2'),
        'revised_behind_local6': (1, '`local` stands in line 2'), 'unspoken_route_add': (18, NO_LOCAL6), 'unspoken_route_via': (18, NO_LOCAL6),
        'unspoken_route_del': (18, NO_LOCAL6), 'unspoken_filter6': (1, NO_LOCAL6), 'unspoken_filter6_out': (1, NO_LOCAL6),
        'unspoken_lost6': (1, NO_LOCAL6), 'unspoken_redist6': (1, NO_LOCAL6), 'unspoken_cover': (7, NO_LOCAL6), 'unspoken_settled': (9, NO_LOCAL6),
        'unspoken_ask': (5, NO_LOCAL6), 'unspoken_show': (6, NO_LOCAL6), 'unspoken_work': (6, NO_LOCAL6),
        'unspoken_before_local': (1, 'the file has no line `local AS ID ADDR`'), 'filter6_before_local': (1, '`local` stands in line 3'),
        'unspoken_and_no_rule': (14, RULES_OF), 'unspoken_and_no_link': (6, 'wanted there: LINK'), 'unspoken_and_no_task': (6, 'wanted there: TASK'),
        'unspoken_and_no_text': (9, 'wanted there: PREFIX'),
        'unspoken_ask_of_two_families': (12, '`6.in.1` is of IPv6 and `10.0.0.0/8` is of IPv4'),
        'unspoken_route_of_two_families': (36, '`2001:db8::/32` is of IPv6 and `192.0.2.9` is of IPv4'),
        'unspoken_and_undeclared': (6, NO_LOCAL6), 'unspoken_filter6_of_nobody': (1, NO_LOCAL6), 'unspoken_task_of_nobody': (6, NO_LOCAL6),
        'unspoken_65_rules': (1, NO_LOCAL6), 'undeclared_link6': (6, UNDECLARED), 'undeclared_task6': (6, UNDECLARED),
        'undeclared_adv6': (5, UNDECLARED), 'undeclared_filter6': (12, UNDECLARED), 'rules6_65': (15, 'a filter has at most 64 rules; this one has 65'),
        'rules6_65_of_no_peer': (12, UNDECLARED), 'sixty_four_peers_in_both': (6, 'a router has at most 64 peers'),
    }

    def report(self, name):
        with open(example(name + '.out'), encoding='ascii') as file:
            _, number, code = file.read().split('\n')[-2].split(' ')
        return list(refused.Refusal(tables.lines_of(example(name + '.events')), int(number), code).report())

    def test_each_fault(self):
        for name, (column, said) in self.FAULTS.items():
            with self.subTest(name):
                lines = self.report(name)
                self.assertIn('  ' + said, lines)
                told = re.search(r'(?m)^  \| *\^ column ([0-9]+)$', '\n'.join(lines))
                self.assertEqual(column, told and int(told[1]))

    def test_all_refused_stories_are_there(self):
        found = set()
        for name in stories():
            with open(example(name + '.out'), encoding='ascii') as file:
                last = file.read().rstrip('\n').split('\n')[-1]
            if last.startswith('refused '):
                found.add(name)
        self.assertEqual(found, set(self.FAULTS))

    def test_nothing_is_refused(self):
        with contextlib.redirect_stdout(io.StringIO()) as said:
            status = refused.explain(type('Asked', (), {'program': '', 'printed': example('loss.out')}), tables.lines_of(example('loss.events')))
        self.assertEqual((said.getvalue(), status), ('no line is refused\n', 0))

    def test_the_grammar_is_that_of_the_page(self):
        text = grammar.page()
        self.assertEqual(sorted(grammar.forms(text)), sorted(
            'as4 revised reflect local local6 peer up down bgp filter filter6 route lost lost6 redist redist6 cover work idle ask show settled'.split()))
        self.assertEqual(sorted(grammar.codes(text)), ['E%d' % number for number in range(1, 10)])
        words = {word for listed in grammar.forms(text).values() for form in listed for word in form.split(' ') if word.isupper()}
        self.assertTrue(all(grammar.sentence(text, word) for word in words))
        self.assertEqual(words - {'RULES'} - set(grammar.word_tests(True)), set())

    def test_lines_of_stories_are_in_the_grammar(self):
        """Each line of each story that isn't refused."""
        known = grammar.forms(grammar.page())
        for name in stories():
            if name not in self.FAULTS:
                lines = [line.split() for line in tables.lines_of(example(name + '.events'))]
                for words in lines:
                    if words and not words[0].startswith('#'):
                        self.assertIsNone(grammar.fault(words, known, ['as4'] in lines), '%s: %s' % (name, ' '.join(words)[:80]))


if __name__ == '__main__':
    unittest.main()
