#!/usr/bin/env python3
"""Whether a real speaker and the program tell a table alike: alike.py [--routes 20000] [--second] [--program WORDS]. No test: it needs root
and Debian's `bird2`.

BIRD gets the table of `events.py` from one peer, decides, and sends it to another, whose octets are kept. With --second it is the table of
IPv6 (`table6`), over the same sessions, and the links are those of the second network. Then three sets of routes are read out of octets, by
a decoder that knows nothing of the program (python/bgp/wire.py), and compared:

  in    BIRD's UPDATEs are given to the program, as those of a peer: the rows of its `in.1` are the routes in BIRD's octets
  out   the program gets the same table as BIRD did: what it sends peer 2, in octets, are the same prefixes with the same
        ORIGIN, AS_PATH, NEXT_HOP, ATOMIC_AGGREGATE, AGGREGATOR and unrecognized attributes as BIRD sends
  rows  the rows of `adv.2.1` are what these octets say

Left to itself BIRD passes on the next hop of a third party on a shared subnet, which RFC 4271, section 5.1.3 allows; here it is told
`next hop self`. MULTI_EXIT_DISC is counted apart: neither sends one on to another AS (section 5.1.4).
"""
import argparse
import os
import subprocess
import sys
import tempfile
import threading

sys.path.insert(0, os.path.join(os.path.dirname(os.path.abspath(__file__)), '..', 'python'))
import daemons
import events
from bgp import feed, namespaces, program, wire

RECEIVER = ['local 65002 192.0.2.2 192.0.2.2', 'peer 1 65000 192.0.2.254 192.0.2.254', 'up 1']
RECEIVER6 = RECEIVER[:1] + ['local6 2001:db8::2'] + RECEIVER[1:]
BIRD6 = 'ipv6 { next hop address %s; next hop self; ' % daemons.DAEMON6


class Keeper(daemons.Speaker):
    """A speaker that keeps the bodies of the UPDATEs that it is sent."""

    def __init__(self, address, asn, second):
        self.kept = []
        super().__init__(address, asn, second=second)

    def count(self, body):
        self.kept.append(body)
        super().count(body)


def routes(bodies):
    """The set that these UPDATEs lead to: attributes by prefix."""
    held = {}
    for body in bodies:
        wire.take(held, body)
    return held


def of_the_program(words, lines, link):
    """The rows of a link at the end, and the octets of `out 2`."""
    given = '\n'.join(lines + ['idle', 'show ' + link]) + '\n'
    ran = subprocess.run(words + ['run', '--quiet'], input=given.encode(), stdout=subprocess.PIPE, check=True).stdout.decode()
    rows, bodies = {}, []
    for line in ran.split('\n'):
        words = line.split(' ')
        if words[0] == 'row':
            rows[words[2]] = words[3]
        elif words[:2] == ['out', '2']:
            bodies.append(bytes.fromhex(words[2])[19:])
    return rows, bodies


def of_the_daemon(messages, count, second):
    """The bodies of the UPDATEs that BIRD sends for a table. Runs in the speakers' namespace."""
    name, start, config = [known for known in daemons.commands() if known[0] == 'bird'][0]
    if second:
        config = config.replace('ipv4 { ', BIRD6).replace('direct { ipv4; }', 'direct { ipv6; }')
    config = config.replace('export all;', 'export all; next hop self;')
    with tempfile.TemporaryDirectory(prefix='bench-') as folder:
        daemon = daemons.Daemon(name, folder, start, config)
        try:
            receiver = Keeper(daemons.RECEIVER, 65002, second)
            threading.Thread(target=receiver.listen, daemon=True).start()
            sender = daemons.Speaker(daemons.SENDER, 65001, second=second)
            threading.Thread(target=sender.listen, daemon=True).start()
            for sent in messages:
                sender.socket.sendall(sent)
            daemons.wait(lambda: len(receiver.announced) >= count, daemon)
            return list(receiver.kept)
        finally:
            daemon.stop()


def differ(name, ours, theirs):
    """Says how many rows there are, and the first that differ; the number of those."""
    wrong = sorted(key for key in set(ours) | set(theirs) if ours.get(key) != theirs.get(key))
    print('%-4s %d rows, %d differ' % (name, len(ours), len(wrong)))
    for key in wrong[:5]:
        print('  ', key, ours.get(key), theirs.get(key))
    return len(wrong)


def without_med(said):
    return {kind: value for kind, value in said.items() if kind != wire.MED}


def compare(count, second, words):
    tag, messages = ('6.', list(feed.second_updates(count))) if second else ('', list(feed.updates(count)))
    front = [events.LOCAL] + [events.LOCAL6] * second + events.PEERS + [events.ATTACHED6] * second
    theirs = of_the_daemon(messages, count, second)
    # the network that it shares with its peers is the daemon's own
    heard = routes(theirs)
    lines = ['bgp 1 ' + wire.message(wire.UPDATE, body).hex() for body in theirs]
    rows, _ = of_the_program(words, (RECEIVER6 if second else RECEIVER) + lines, tag + 'in.1')
    wrong = differ('in', rows, {key: wire.text(said) for key, said in heard.items()})
    rows, ours = of_the_program(words, front + ['bgp 1 ' + sent.hex() for sent in messages], tag + 'adv.2.1')
    sent = routes(ours)
    wrong += differ('rows', rows, {key: wire.text(said) for key, said in sent.items()})
    own = set(heard) - set(sent)
    print('     of BIRD alone: %s' % (', '.join(sorted(own)[:5]) or 'none'))
    wrong += differ('out', {key: wire.text(without_med(said)) for key, said in sent.items()},
                    {key: wire.text(without_med(said)) for key, said in heard.items() if key not in own})
    print('     with a MED: %d of ours, %d of BIRD' % (sum(wire.MED in said for said in sent.values()), sum(wire.MED in said for said in heard.values())))
    return wrong


def main():
    words = argparse.ArgumentParser(description=__doc__, formatter_class=argparse.RawDescriptionHelpFormatter)
    words.add_argument('--routes', type=int, default=20000)
    words.add_argument('--second', action='store_true', help='the table is one of IPv6')
    words.add_argument('--program', default=program.BUILT, help='the words of another program than the built one')
    asked = words.parse_args()
    daemons.no_namespaces()
    daemons.namespaces()
    try:
        namespaces.enter('bench-peers')
        return 1 if compare(asked.routes, asked.second, asked.program.split(' ')) else 0
    finally:
        daemons.no_namespaces()


if __name__ == '__main__':
    sys.exit(main())
