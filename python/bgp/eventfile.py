"""An event file (docs/LANGUAGE.md) as what a router is to be: its peers, filters, interior routes and redistribution, event by event.

A file is read here only after `replay run` has taken it, so nothing is refused here.
"""
import collections
import ipaddress

from bgp import wire
from bgp.wire import IPV4, IPV6

PROTOCOLS = ('connected', 'static', 'ospf', 'rip')  # by administrative distance, the least first
DISTANCES = {'connected': 0, 'static': 1, 'ospf': 110, 'rip': 120}

DECLARATIONS = ('as4', 'revised', 'reflect', 'local', 'local6', 'peer')

FILTERS = ('filter', 'filter6')

Peer = collections.namedtuple('Peer', 'number asn identifier address client')
Rule = collections.namedtuple('Rule', 'condition actions verdict')  # words; (word, number or None) pairs; a word
Way = collections.namedtuple('Way', 'gateway interface metric')  # of an interior route; no gateway where it is direct


def rules(words):
    """The rules of a filter."""
    found, at = [], 0
    while at < len(words):
        size = {'any': 1, 'path': 2, 'origin': 2}.get(words[at], 5)
        condition, actions, at = words[at:at + size], [], at + size
        while words[at] not in ('accept', 'reject', 'next'):
            plain = words[at] == 'nomed'
            actions.append((words[at], None if plain else int(words[at + 1])))
            at += 1 if plain else 2
        found.append(Rule(condition, actions, words[at]))
        at += 1
    return found


def masked(prefix):
    """A prefix as the program tells it, without the bits beyond its length."""
    network = ipaddress.ip_network(prefix, strict=False)
    return '%s/%d' % (wire.address(network.network_address.packed), network.prefixlen)


def plain(address):
    """An address as the program tells it."""
    return wire.address(ipaddress.ip_address(address).packed)


class Network:
    """What one family's network is to be: this speaker's address, the rules of each filter, interior routes and redistribution."""

    def __init__(self, family):
        self.family, self.address = family, None
        self.filters = {'in': {}, 'out': {}}
        self.interior = {protocol: {} for protocol in PROTOCOLS}
        self.redistributed = set()

    def own(self):
        """The prefixes that are redistributed: those whose interior route of the least distance is of such a protocol."""
        seen, found = set(), []
        for protocol in PROTOCOLS:
            for prefix in self.interior[protocol]:
                if prefix not in seen and protocol in self.redistributed:
                    found.append(prefix)
                seen.add(prefix)
        return sorted(found)

    def attached(self):
        """The connected route that holds this speaker's address; its own prefix, where there is none."""
        held = [prefix for prefix in self.interior['connected'] if ipaddress.ip_address(self.address) in ipaddress.ip_network(prefix)]
        return max(held, key=lambda prefix: int(prefix.partition('/')[2])) if held else '%s/%d' % (self.address, 8 * self.family.size)


class Wanted(Network):
    """What a router is to be behind some events: the first network is its own, `second` that of IPv6 where the file says `local6`."""

    def __init__(self):
        super().__init__(IPV4)
        self.asn = self.identifier = self.second = None
        self.wide = self.revised = self.reflects = False
        self.peers = {}

    def networks(self):
        return [self] + [self.second] * (self.second is not None)

    def families(self):
        return [network.family for network in self.networks()]

    def of(self, text):
        """The network of an address or a prefix."""
        return self.second if wire.family(text) == IPV6 else self

    def take(self, words):
        """One event; whether the router has to be told of it (sessions and messages come from peers)."""
        told = getattr(self, 'take_' + words[0], None)
        if told:
            told(words[1:])
        return told is not None

    def take_as4(self, _):
        self.wide = True

    def take_revised(self, _):
        self.revised = True

    def take_reflect(self, _):
        self.reflects = True

    def take_local(self, words):
        self.asn, self.identifier, self.address = int(words[0]), words[1], words[2]

    def take_local6(self, words):
        self.second = Network(IPV6)
        self.second.address = plain(words[0])

    def take_peer(self, words):
        self.peers[int(words[0])] = Peer(int(words[0]), int(words[1]), words[2], words[3], words[4:] == ['client'])

    def take_filter(self, words):
        set_filter(self, words)

    def take_filter6(self, words):
        set_filter(self.second, words)

    def take_route(self, words):
        prefix = masked(words[2])
        table = self.of(prefix).interior[words[1]]
        if words[0] == 'del':
            table.pop(prefix, None)
        else:
            gateway = plain(words[4]) if words[3] == 'via' else None
            interface, metric = words[-2:]
            table[prefix] = Way(gateway, interface, int(metric))

    def take_lost(self, words):
        self.interior[words[0]].clear()

    def take_lost6(self, words):
        self.second.interior[words[0]].clear()

    def take_redist(self, words):
        redistribute(self, words)

    def take_redist6(self, words):
        redistribute(self.second, words)

    def is_internal(self, peer):
        return peer.asn == self.asn

    def shared(self):
        """The network that the router shares with its peers: the connected one of its address, else the least that holds all."""
        all_of_them = [ipaddress.ip_address(self.address)] + [ipaddress.ip_address(peer.address) for peer in self.peers.values()]
        for prefix in self.interior['connected']:
            if all(address in ipaddress.ip_network(prefix) for address in all_of_them):
                return prefix, self.interior['connected'][prefix].interface
        network = ipaddress.ip_network(self.address)
        while network.prefixlen > 29 or not all(address in network for address in all_of_them):
            network = network.supernet()
        return str(network), 'peers0'


def set_filter(network, words):
    network.filters[words[0]][int(words[1])] = rules(words[2:])


def redistribute(network, words):
    (network.redistributed.add if words[1] == 'on' else network.redistributed.discard)(words[0])


def lines(path):
    """Number and words of each event."""
    with open(path, 'rb') as file:
        for number, line in enumerate(file.read().decode('ascii').split('\n'), 1):
            words = line.rstrip('\r').split()
            if words and not words[0].startswith('#'):
                yield number, words
