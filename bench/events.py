#!/usr/bin/env python3
"""Writes an event file: events.py KIND [--routes 200000] [--peers 8] > FILE

Kinds:
  table     peer 1 announces so many different prefixes, about five an UPDATE; then `idle`, and peer 2 is sent them
  table6    the same of IPv6: prefixes of 32 to 48 bits, in a file with `local6`
  table_local6  the same as table in a file with `local6`, of which nothing else is said: the second network is idle
  as4       the same with AS numbers of four octets, most of them above 65535, in the file's messages and in what is sent
  alone     the same as table, but peer 2 is down: nothing is sent
  rejected  the same as table, but a rule rejects every route that peer 2 would be sent
  paced     the same as table, but behind each message all that it causes is read and sent: nobody falls behind
  edit      the same, then a rule for peer 1's incoming filter that changes every route, and `idle`
  loss      the same as table, then peer 1's session is lost, and `idle` deletes every route, also from peer 2
  rules     the same as table, then a rule for peer 2's outgoing filter that changes every route, and `idle`
  refresh   the same as table, then peer 2 asks for all routes again (RFC 2918), and `idle` sends them
  interior  `route add` of so many different prefixes, half of them static and half of ospf; then `idle`
  lost      the same, then ospf is lost, and `idle` deletes its routes
  hops      the same as table over 1,000 next hops, each with an ospf route of its own
  kept      the same, then the route to one next hop goes over another interface, and `idle`: no answer changes
  moved     the same as hops, then the route to one next hop has another metric, and `idle`: a walk over every route
  peers     so many peers announce the same prefixes, peer 1 by the shorter path; then `idle`
  best_lost the same, then peer 1's session is lost, and `idle`: another route becomes the best at every prefix
  senders   so many peers announce the same prefixes as in `peers`, and a rule keeps all from each of them; one more is sent all
  many      so many peers announce the same prefixes, each by its own AS and next hop and with paths of one length, so their identifiers
            decide; they are sent the best routes, too, and one more that announces nothing
  exits     so many peers are up, peer 1 announces the prefixes, and `idle` sends them to all others
  asked     peer 1 announces half so many prefixes, and nobody reads them; then in turn it announces another one and what peer 2's
            reader has there is asked, a twentieth so many times: at 200,000 a change and `ask` 10,000 times, over 100,000 unread ones
  own       the same as table, and 1,000 static routes are redistributed: they go to peer 2, too, and stand in the forwarding table

But for `hops` and what begins as it, the one next hop is in a connected network.

What is announced is as in a real table, and the same in every run (python/bgp/feed.py); next hops alone differ by kind.
"""
import argparse
import os
import random
import sys

sys.path.insert(0, os.path.join(os.path.dirname(os.path.abspath(__file__)), '..', 'python'))
from bgp.feed import NEAR, attributes, prefixes, second_updates, updates
from bgp.wire import REFRESH, address, made_update

LOCAL, LOCAL6 = 'local 65000 192.0.2.254 192.0.2.254', 'local6 2001:db8::fe'
ATTACHED6 = 'route add connected 2001:db8::/64 direct eth0 1'
PEERS = ['peer 1 65001 192.0.2.1 192.0.2.1', 'peer 2 65002 192.0.2.2 192.0.2.2',
         'route add connected 192.0.2.0/24 direct eth0 1', 'up 1', 'up 2']
KINDS = ('table', 'as4', 'alone', 'rejected', 'paced', 'edit', 'rules', 'refresh', 'loss', 'interior', 'lost', 'hops', 'kept', 'moved',
         'peers', 'best_lost', 'senders', 'many', 'exits', 'own', 'asked', 'table6', 'table_local6')
OF_BOTH = ('table6', 'table_local6')  # kinds of files with `local6`
READ = ['work rd.rib 99', 'work out.1 99', 'work out.2 99']
# an event that looks at nothing but the register, and the line that it gives: how far the program has come
LOOK, LOOKED = b'cover 192.0.2.1\n', b'cover 192.0.2.1 192.0.2.0/24 192.0.2.0/24\n'
HOPS = [bytes([172, 16, place // 250, 1 + place % 250]) for place in range(1000)]


def asked(count):
    """The events that leave half so many changes unread, and a twentieth so many times change a prefix and ask for it."""
    yield from ('bgp 1 ' + message.hex() for message in updates(count // 2))
    said = attributes(random.Random(1), [64000], NEAR, [], 2)
    for place in range(count // 20):
        network = bytes([10, place // 250, place % 250])
        yield 'bgp 1 ' + made_update(b'', said, bytes([24]) + network).hex()
        yield 'ask read.2.1 %s.0/24' % address(network)


def routes(count):
    """`route add` events of so many prefixes."""
    rand = random.Random(1)
    for place, (bits, length) in enumerate(prefixes(count, rand)):
        yield 'route add %s %s/%d via 192.0.2.%d eth%d %d' % (
            'static' if place % 2 else 'ospf', address(bits.to_bytes(4, 'big')), length,
            rand.randrange(1, 17), rand.randrange(4), rand.randrange(1000))


def way(hop, iface, metric):
    """The event that sets the route to a next hop."""
    return 'route add ospf %s/32 via 192.0.2.9 %s %d' % (address(hop), iface, metric)


def own(count):
    """The events that redistribute so many static routes."""
    yield 'redist static on'
    yield from ('route add static 10.%d.%d.0/24 via 192.0.2.9 eth0 1' % (place // 250, place % 250) for place in range(count))


def declared(number, untold=0):
    """The events that bring so many peers up, of which the first ones, so many, are sent nothing."""
    yield 'route add connected 192.0.2.0/24 direct eth0 1'
    for k in range(1, number + 1):
        yield 'peer %d %d 192.0.2.%d 192.0.2.%d' % (k, 65000 + k, k, k)
        if k <= untold:
            yield 'filter out %d any reject' % k
        yield 'up %d' % k


def peers(number, count, senders, is_told=True):
    """The events of so many peers, of which some announce the same prefixes; those are sent what the others announce, or nothing."""
    yield from declared(number, 0 if is_told else senders)
    for k in range(1, senders + 1):
        via = [] if k == 1 else [65000 + k]
        yield from ('bgp %d %s' % (k, message.hex()) for message in updates(count, via=via))


def many(count, senders):
    """The events of so many peers that announce the same prefixes, each by its own AS and next hop, and of one more."""
    yield from declared(senders + 1)
    for k in range(1, senders + 1):
        said = updates(count, [bytes([192, 0, 2, k])], asn=65000 + k)
        yield from ('bgp %d %s' % (k, message.hex()) for message in said)


def events(kind, count, number=8):
    """The lines of an event file."""
    if kind == 'as4':
        yield 'as4'
    yield LOCAL
    if kind in OF_BOTH:
        yield LOCAL6
    if kind in ('interior', 'lost'):
        yield from routes(count)
    elif kind in ('peers', 'best_lost'):
        yield from peers(number, count, number)
    elif kind == 'senders':
        yield from peers(number + 1, count, number, False)
    elif kind == 'many':
        yield from many(count, number)
    elif kind == 'exits':
        yield from peers(number, count, 1)
    elif kind == 'asked':
        yield from PEERS
        yield from asked(count)
        return
    else:
        far = kind in ('hops', 'kept', 'moved')
        yield from PEERS
        yield from {'alone': ['down 2'], 'rejected': ['down 2', 'filter out 2 any reject', 'up 2']}.get(kind, [])
        yield from (way(hop, 'eth0', 10) for hop in HOPS if far)
        yield from own(1000) if kind == 'own' else ()
        yield from [ATTACHED6] if kind == 'table6' else []
        said = second_updates(count) if kind == 'table6' else updates(count, HOPS if far else [NEAR], width=4 if kind == 'as4' else 2)
        for message in said:
            yield 'bgp 1 ' + message.hex()
            yield from READ if kind == 'paced' else ()
    yield 'idle'
    yield from {'edit': ['filter in 1 any pref 200 accept', 'idle'], 'rules': ['filter out 2 any med 7 accept', 'idle'],
                'refresh': ['bgp 2 ' + REFRESH.hex(), 'idle'],
                'loss': ['down 1', 'idle'], 'best_lost': ['down 1', 'idle'],
                'lost': ['lost ospf', 'idle'], 'kept': [way(HOPS[7], 'eth1', 10), 'idle'],
                'moved': [way(HOPS[7], 'eth0', 11), 'idle']}.get(kind, [])


def write(kind, count, file, number=8):
    """Writes the event file."""
    for line in events(kind, count, number):
        file.write(line.encode() + b'\n')
    file.flush()


def main():
    words = argparse.ArgumentParser(description=__doc__, formatter_class=argparse.RawDescriptionHelpFormatter)
    words.add_argument('kind', choices=KINDS)
    words.add_argument('--routes', type=int, default=200000)
    words.add_argument('--peers', type=int, default=8, choices=range(1, 65), metavar='1..64')
    asked = words.parse_args()
    write(asked.kind, asked.routes, sys.stdout.buffer, asked.peers)


if __name__ == '__main__':
    main()
