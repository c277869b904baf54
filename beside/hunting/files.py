"""Event files at random, by seed: what a daemon can be asked, and nothing that it can't do (docs/HUNT.md)."""
import random

from bgp import eventfile, wire
from hunting import broken, parts, topics
from hunting.routes import FAR, LOCAL_SECOND, NEIGHBOURS, SHARED_SECOND, WIDE, Routes

LOCAL = 'local 65000 192.0.2.254 192.0.2.254'
SHARED = 'route add connected 192.0.2.0/24 direct eth0 0'
INTERFACES = ('eth0', 'eth1', 'eth2')
HELD = ('172.16.0.0/16', '172.16.0.0/15', '172.16.1.0/24', '172.16.1.9/32', '172.17.0.0/16', '0.0.0.0/0', '192.0.2.60/32', '192.0.2.128/25')
APART = ('172.16.0.0/16', '172.16.1.0/24', '172.17.0.0/16')  # each holds one of the far next hops and not all
METRICS = (0, 1, 5, 10, 20)
ATTACHED = ('172.16.0.0/16', '172.16.1.0/24', '172.17.0.0/16')
OWN = ('10.1.0.0/16', '10.2.0.0/16', '10.9.0.0/16', '10.1.1.0/24')
# what stands for these in files of both families
IN_THE_SECOND = {
    '172.16.0.0/16': '3fff:a::/32', '172.16.0.0/15': '3fff:a::/31', '172.16.1.0/24': '3fff:a:1::/48', '172.16.1.9/32': '3fff:a:1::9/128',
    '172.17.0.0/16': '3fff:b::/32', '0.0.0.0/0': '::/0', '192.0.2.60/32': '3fff:0:60::60/128', '192.0.2.128/25': '3fff:0:60::200/120',
    '10.1.0.0/16': '2001:db8:1::/48', '10.2.0.0/16': '2001:db8:2::/48', '10.9.0.0/16': '2001:db8:9::/48', '10.1.1.0/24': '2001:db8:1:1::/64'}
REFRESHES = (bytes([0, 1, 0, 1]),) * 4 + (bytes([0, 1, 7, 1]), bytes([0, 2, 0, 1]), bytes([0, 1, 0, 2]))
ANY, MOST = 4, 40  # how often more often `any` stands in a rule than another condition; how often a line is drawn anew


class Maker:
    """One file."""

    def __init__(self, seed, router_class):
        self.random, self.router_class = random.Random('%s %s' % (router_class.name, seed)), router_class
        self.topics, self.steps = topics.drawn(self.random, router_class)
        self.wide, self.reflects, self.both_families = (name in self.topics for name in ('four octets', 'reflection', 'both families'))
        self.local = eventfile.Peer(0, 65000, '192.0.2.254', '192.0.2.254', False)
        self.routes = Routes(self.random, self.local, self.wide, self.reflects, 'next hops' in self.topics, self.both_families)
        self.peers, self.up = {}, set()
        self.ways = {}  # by protocol and prefix: how it is reached, without the metric, and the metric
        self.said, self.announced = {}, {}  # by peer: its messages in hex, and the prefixes in them

    def chance(self, probability):
        return self.random.random() < probability

    # ---- the file

    def lines(self):
        words = ['as4'] * self.wide + ['revised'] * ('revised' in self.topics) + ['reflect'] * self.reflects
        yield from words
        yield LOCAL
        yield from ['local6 ' + LOCAL_SECOND] * self.both_families
        self.draw_peers()
        yield from (self.declared(peer) for peer in self.peers.values())
        yield SHARED
        yield from ['route add connected %s/64 direct eth0 0' % SHARED_SECOND] * self.both_families
        if 'next hops' in self.topics:
            if self.chance(.8):
                yield from self.apart()
            yield from self.many(self.interior, self.random.randint(1, 3))
        for number in self.peers:
            if self.chance(.9):
                yield from self.begun(number)
        often = self.random.choice((.2, .4, .7))
        for place in reversed(range(self.random.randint(6, 16))):
            yield from self.step()
            if not place or self.chance(often):
                yield 'idle'

    def draw_peers(self):
        count = self.random.choice((2, 3, 3, 4, 4, 5) if self.reflects else (2, 2, 3, 3, 4))
        places = list(range(1, count + 1))
        addresses = self.random.sample(places, count) if self.chance(.3) else places
        identifiers = [self.random.choice(places)] * count if self.chance(.1) else self.random.sample(places, count)
        inner = .75 if self.reflects else .35
        for number, address, identifier in zip(places, addresses, identifiers):
            internal = self.chance(inner)
            asn = 65000 if internal else self.random.choice(NEIGHBOURS + NEIGHBOURS + (65003,) + WIDE * self.wide)
            self.peers[number] = eventfile.Peer(number, asn, '192.0.2.%d' % identifier, '192.0.2.%d' % address,
                                                internal and self.reflects and self.chance(.5))
        if self.reflects and not any(peer.client for peer in self.peers.values()):
            self.peers[1] = self.peers[1]._replace(asn=65000, client=True)  # OpenBGPD is a reflector only beside a client

    @staticmethod
    def declared(peer):
        return 'peer %d %d %s %s' % peer[:4] + ' client' * peer.client

    def many(self, made, count):
        for _ in range(count):
            yield from made()

    def step(self):
        """The lines of one step; drawn anew where the daemon can't be told them."""
        for _ in range(MOST):
            name = self.random.choices(list(self.steps), list(self.steps.values()))[0]
            lines = list(getattr(self, name)())
            if not self.router_class.lacks([line.split() for line in lines]):
                return lines
        return []

    # ---- steps: messages

    def some_peer(self, up=True):
        """A peer, mostly one that is up; None where there is none."""
        names = sorted(self.up) if up else sorted(self.peers)
        return self.peers[self.random.choice(names)] if names else None

    def update(self, peer, made):
        text = parts.written(made).hex()
        self.said.setdefault(peer.number, []).append(text)
        self.announced.setdefault(peer.number, set()).update(parts.texts(made)[1])
        yield 'bgp %d %s' % (peer.number, text)

    def sound(self, made):
        """A message without a fault."""
        peer = self.some_peer()
        if peer:
            yield from self.update(peer, made(peer))

    def announce(self):
        yield from self.sound(self.routes.announcement)

    def spread(self):
        """Several peers announce one prefix, in any order."""
        numbers, prefix = sorted(self.up), self.routes.prefix()
        for number in self.random.sample(numbers, self.random.randint(min(2, len(numbers)), len(numbers))):
            peer = self.peers[number]
            yield from self.update(peer, self.routes.announcement(peer, announced=[prefix]))

    def tie(self):
        """External peers, or internal ones, announce one prefix by next hops that lie apart."""
        prefix, kinds = self.routes.prefix(), ([], [])
        for number in sorted(self.up):
            kinds[self.peers[number].asn == self.local.asn].append(number)
        numbers = self.random.choice([kind for kind in kinds if len(kind) > 1] or [[]])
        for number, hop in zip(self.random.sample(numbers, len(numbers)), self.random.sample(FAR, len(FAR))):
            yield from self.update(self.peers[number], self.routes.tied(self.peers[number], prefix, hop))

    def many_prefixes(self, peer):
        return self.routes.announcement(peer, 5)

    def many_at_once(self):
        yield from self.sound(self.many_prefixes)

    def both(self):
        yield from self.sound(lambda peer: self.routes.announcement(peer, 2, self.told(peer) + self.routes.prefixes(2)))

    def withdraw(self):
        yield from self.sound(lambda peer: self.routes.withdrawal(self.told(peer)))

    def repeat(self):
        """An earlier message of the peer once more."""
        peer = self.some_peer()
        if peer and self.said.get(peer.number):
            yield 'bgp %d %s' % (peer.number, self.random.choice(self.said[peer.number][-4:]))

    def refresh(self):
        peer = self.some_peer()
        if peer:
            yield 'bgp %d %s' % (peer.number, wire.message(wire.ROUTE_REFRESH, self.random.choice(REFRESHES)).hex())

    # ---- steps: messages with faults

    def told(self, peer):
        """Prefixes, mostly such as the peer has announced."""
        known = sorted(self.announced.get(peer.number, ()))
        return [self.random.choice(known)] if known and self.chance(.6) else self.routes.prefixes(2)

    def fault(self):
        peer = self.some_peer()
        if peer:
            sound = self.routes.announcement(peer, announced=self.told(peer))
            yield from self.ends(peer, broken.faulty(self.random, sound, self.reflects, self.both_families))

    def octet(self):
        peer = self.some_peer()
        if peer:
            gone = self.routes.prefixes(2) if self.chance(.3) else ()
            sound = self.routes.announcement(peer, withdrawn=gone, announced=self.told(peer))
            yield from self.ends(peer, broken.changed(self.random, sound, self.both_families))

    def other(self):
        peer = self.some_peer()
        if peer:
            yield from self.ends(peer, broken.other(self.random))

    def ends(self, peer, octets):
        """A message that may end the session; mostly the peer then comes back."""
        yield 'bgp %d %s' % (peer.number, octets.hex())
        if self.chance(.5):
            yield 'idle'
        if self.chance(.7):
            yield 'up %d' % peer.number

    # ---- steps: sessions

    def begun(self, number):
        self.up.add(number)
        yield 'up %d' % number

    def lose(self):
        peer = self.some_peer()
        if peer:
            self.up.discard(peer.number)
            yield 'down %d' % peer.number

    def back(self):
        down = sorted(set(self.peers) - self.up)
        if down:
            yield from self.begun(self.random.choice(down))

    def flap(self):
        """A session that ends and begins, and what the peer said before or something else."""
        peer = self.some_peer()
        if peer:
            yield 'down %d' % peer.number
            yield 'up %d' % peer.number
            said = self.said.get(peer.number, [])
            if said and self.chance(.5):
                yield 'bgp %d %s' % (peer.number, said[-1])
            else:
                yield from self.update(peer, self.routes.announcement(peer, 2))

    # ---- steps: filters

    def filter_in(self):
        yield from self.filtered('in')

    def filter_out(self):
        yield from self.filtered('out')

    def filtered(self, way):
        peer = self.some_peer(up=False)
        for _ in range(self.random.choice((1, 1, 1, 2))):
            word = eventfile.FILTERS[self.is_second()]
            rules = [self.rule(way, peer, word == 'filter6') for _ in range(self.random.choice((0, 1, 1, 2, 3)))]
            yield ' '.join([word, way, str(peer.number)] + rules)

    def rule(self, way, peer, is_second):
        actions = [self.action(way, peer) for _ in range(self.random.choice((0, 1, 1, 2)))]
        verdict = self.random.choice(('accept', 'accept', 'reject', 'reject', 'next'))
        return ' '.join([self.condition(is_second)] + sorted({one.split()[0]: one for one in actions}.values()) + [verdict])

    def condition(self, is_second):
        lengths = (0, 32, 48, 64, 128) if is_second else (0, 8, 16, 24, 32)
        prefix, least = self.routes.prefix(is_second), self.random.choice(lengths[:4])
        return self.random.choice(('any',) * ANY + (
            'path %d' % self.random.choice(self.routes.numbers() + NEIGHBOURS), 'origin %d' % self.random.randint(0, 2),
            '%s ge %d le %d' % (prefix, least, self.random.choice((least,) + lengths[2:]))))

    def action(self, way, peer):
        said = ['pref %d' % self.random.choice((50, 100, 200)), 'med %d' % self.random.choice((0, 5, 20))]
        if way == 'in' or peer.asn != self.local.asn:
            said += ['nomed', 'prepend %d' % self.random.choice((0, 1, 2))]
        return self.random.choice(said)

    # ---- steps: interior routes and redistribution

    def interior(self):
        """A route that may hold next hops comes or goes, or all of a protocol go."""
        if self.ways and self.chance(.6):
            yield self.changed(*self.random.choice(sorted(self.ways)))
        elif self.chance(.08):
            protocol, family = self.random.choice(eventfile.PROTOCOLS[1:]), wire.FAMILIES[self.is_second()]
            self.ways = {way: reached for way, reached in self.ways.items() if (way[0], wire.family(way[1])) != (protocol, family)}
            yield 'lost%s %s' % ('6' if family == wire.IPV6 else '', protocol)
        elif self.chance(.15):
            yield self.way('connected', self.of_either(self.random.choice(ATTACHED)), 'direct %s' % self.random.choice(INTERFACES[1:]), 0)
        else:
            yield self.way(self.random.choice(eventfile.PROTOCOLS[1:]), self.of_either(self.random.choice(HELD)), *self.reached())

    def apart(self):
        """Routes that hold one next hop each, of different metrics."""
        for prefix, metric in zip(APART, self.random.sample(METRICS, len(APART))):
            yield self.way(self.random.choice(eventfile.PROTOCOLS[1:]), prefix, self.over(), metric)
        for prefix, metric in zip(APART, self.random.sample(METRICS, len(APART)) if self.both_families else ()):
            yield self.way(self.random.choice(eventfile.PROTOCOLS[1:]), IN_THE_SECOND[prefix], self.over(), metric)

    def metric(self):
        """The metric of a route changes, and nothing else."""
        own, apart = (names + tuple(IN_THE_SECOND[name] for name in names) for names in (OWN, APART))
        ways = sorted(way for way in self.ways if way[0] != 'connected' and way[1] not in own)
        near = [way for way in ways if way[1] in apart]
        if ways:
            way = self.random.choice(near if near and self.chance(.7) else ways)
            reached, metric = self.ways[way]
            yield self.way(*way, reached, self.random.choice([one for one in METRICS if one != metric]))

    def changed(self, protocol, prefix):
        """One that is there goes, or is reached otherwise."""
        if protocol == 'connected' or self.chance(.5):
            self.ways.pop((protocol, prefix), None)
            return 'route del %s %s' % (protocol, prefix)
        return self.way(protocol, prefix, *self.reached())

    def way(self, protocol, prefix, reached, metric):
        self.ways[protocol, prefix] = reached, metric
        if wire.family(prefix) == wire.IPV6:
            reached = reached.replace('192.0.2.', SHARED_SECOND)
        return 'route add %s %s %s %d' % (protocol, prefix, reached, metric)

    def is_second(self):
        """Whether what comes next is of IPv6."""
        return self.both_families and self.chance(.5)

    def of_either(self, prefix):
        """A prefix, or what stands for it in the second network."""
        return IN_THE_SECOND[prefix] if self.is_second() else prefix

    def reached(self):
        return self.over(), self.random.choice(METRICS)

    def over(self):
        return '%s %s' % (self.random.choice(('direct', 'via 192.0.2.98', 'via 192.0.2.99')), self.random.choice(INTERFACES))

    def own(self):
        """A route that may be redistributed comes or goes."""
        protocol, prefix = self.random.choice(eventfile.PROTOCOLS[1:]), self.of_either(self.random.choice(OWN))
        if (protocol, prefix) in self.ways and self.chance(.6):
            self.ways.pop((protocol, prefix), None)
            yield 'route del %s %s' % (protocol, prefix)
        else:
            yield self.way(protocol, prefix, 'via 192.0.2.99 eth0', self.random.choice((1, 5)))

    def redistribute(self):
        word = 'redist6' if self.is_second() else 'redist'
        yield '%s %s %s' % (word, self.random.choice(eventfile.PROTOCOLS[1:]), self.random.choice(('on', 'on', 'off')))


def made(seed, router_class):
    """The file of a seed for a daemon: its topics and its lines."""
    maker = Maker(seed, router_class)
    return maker.topics, list(maker.lines())
