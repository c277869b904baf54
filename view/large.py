"""Writes a large journal, in the form of docs/OUTPUT.md, of a router that the program here isn't asked about: four peers
announce prefixes, some of them lose their sessions, and what is left of that is done in the background, bit by bit."""
import random

PEERS = (1, 2, 3, 4)


class Router:
    """The rows of each link; each change is written as it happens."""

    def __init__(self, file, seed=3):
        self.file, self.random, self.count, self.links = file, random.Random(seed), 0, {}
        self.session = dict.fromkeys(PEERS, 0)
        self.stages = {peer: [] for peer in PEERS}          # the sessions whose deletion stages stand, the latest first
        self.live = {peer: {} for peer in PEERS}
        self.lost = {}
        self.unread = {}                                    # of each reader the changes of best that it hasn't read

    def line(self, *words):
        self.file.write(' '.join(words) + '\n')
        self.count += 1

    def begin(self, link):
        self.links[link] = {}
        self.line('b', link)

    def change(self, link, prefix, new):
        """Changes a row; whether it is another one."""
        old = self.links[link].get(prefix)
        if old == new:
            return False
        if new is None:
            self.line('-', link, prefix, old)
            del self.links[link][prefix]
        else:
            self.line(*(['+', link, prefix, new] if old is None else ['=', link, prefix, old, new]))
            self.links[link][prefix] = new
        return True

    def start(self):
        for link in 'org.connected org.static org.ospf org.rip low dyn int red best'.split():
            self.begin(link)
        self.line('i', 'read.rib', 'best')
        self.links['read.rib'], self.unread['read.rib'] = {}, []
        for link in 'ebgp ibgp ext fib'.split():
            self.begin(link)
        for peer in PEERS:
            for family in ('in', 'filt', 'res'):
                self.begin('%s.%d' % (family, peer))
        for link, value in (('org.connected', 'connected:direct:eth0:1'), ('low', 'connected:direct:eth0:1'),
                            ('int', 'connected:direct:eth0:1'), ('fib', 'connected:direct:eth0')):
            self.change(link, '192.0.2.0/24', value)
        for peer in PEERS:
            self.up(peer)

    def up(self, peer):
        self.session[peer] += 1
        end = '%d.%d' % (peer, self.session[peer])
        self.line('i', 'read.' + end, 'best')
        self.links['read.' + end], self.unread['read.' + end] = dict(self.links['best']), []
        self.begin('outf.' + end)
        self.begin('adv.' + end)

    def down(self, peer):
        end = '%d.%d' % (peer, self.session[peer])
        del self.unread['read.' + end]
        for family in ('read.', 'outf.', 'adv.'):
            self.line('e', family + end)
            del self.links[family + end]
        if self.live[peer] and len(self.stages[peer]) < 3:
            self.lost[end], self.live[peer] = self.live[peer], {}
            self.stages[peer].insert(0, self.session[peer])
            self.begin('peer.' + end)

    def below(self, peer, stage=None):
        """The links of a peer's chain from its live routes, or from a stage, down to in.K."""
        stages = self.stages[peer]
        links = ['peer.%d.%d' % (peer, session) for session in (stages if stage is None else stages[stages.index(stage) + 1:])]
        return links + ['in.%d' % peer]

    def fall(self, peer, links, prefix, value):
        for link in links:
            if not self.change(link, prefix, value):
                return
        for family, metric in (('filt', '-'), ('res', '1')):
            told = None if value is None else '%d:100:-:0:%s:%s' % (peer, metric, value)
            if not self.change('%s.%d' % (family, peer), prefix, told):
                return
        routes = [self.links['res.%d' % other].get(prefix) for other in PEERS]
        best = next(filter(None, routes), None)
        if self.change('best', prefix, best):
            for changes in self.unread.values():
                changes.append((prefix, best))

    def announce(self, peer, prefix, value):
        for session in self.stages[peer]:
            end = '%d.%d' % (peer, session)
            if prefix in self.lost[end]:
                # The lost row below is the old one of the links above: it moves up, then changes.
                old = self.lost[end].pop(prefix)
                links = self.below(peer)
                for link in links[:links.index('peer.' + end) + 1]:
                    self.change(link, prefix, value)
                self.live[peer][prefix] = value
                if old != value:
                    self.fall(peer, self.below(peer, session), prefix, value)
                return self.weld(peer, session)
        if value is None:
            self.live[peer].pop(prefix, None)
        else:
            self.live[peer][prefix] = value
        return self.fall(peer, self.below(peer), prefix, value)

    def weld(self, peer, session):
        end = '%d.%d' % (peer, session)
        if self.lost[end]:
            return
        lower = self.below(peer, session)[0]
        self.line('w', 'peer.' + end, lower)
        del self.links['peer.' + end], self.lost[end]
        self.stages[peer].remove(session)

    def delete(self, peer):
        if not self.stages[peer]:
            return
        session = self.stages[peer][-1]
        lost = self.lost['%d.%d' % (peer, session)]
        prefix = min(lost)
        del lost[prefix]
        self.fall(peer, self.below(peer, session), prefix, None)
        self.weld(peer, session)

    def read(self, reader):
        if not self.unread[reader]:
            return
        prefix, best = self.unread[reader].pop(0)
        self.change(reader, prefix, best)
        hop = best and best.split(',n')[1]
        if reader == 'read.rib':
            told = best and 'ebgp:' + hop
            if self.change('ebgp', prefix, told):
                self.change('ext', prefix, told)
                self.change('fib', prefix, told and told + ':eth0')
            return
        peer, session = map(int, reader.split('.')[1:])
        told = best and 'o0,p(65000.%s),n192.0.2.254' % best.split('p(')[1].split(')')[0]
        if best and best.startswith('%d:' % peer):
            told = None
        for family in ('outf', 'adv'):
            self.change('%s.%d.%d' % (family, peer, session), prefix, told)


def write(file, lines):
    """Writes a journal of so many lines, and a few more."""
    router = Router(file)
    router.start()
    while router.count < lines:
        number = router.random.randrange(100)
        peer = router.random.choice(PEERS)
        if number < 45:
            prefix = '10.%d.%d.0/24' % (router.random.randrange(16), router.random.randrange(256))
            path = '.'.join(str(65001 + router.random.randrange(40)) for _ in range(router.random.randrange(1, 4)))
            value = None if number < 8 else 'o0,p(%s),n192.0.2.%d' % (path, peer)
            if value is None and prefix not in router.live[peer]:
                continue
            router.announce(peer, prefix, value)
        elif number < 98:
            router.read(router.random.choice(list(router.unread)))
        elif number < 99:
            for _ in range(20):
                router.delete(peer)
        elif router.random.randrange(20) == 0:
            router.down(peer)
            router.up(peer)
    router.line('idle', '0')
