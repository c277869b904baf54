"""GoBGP beside `replay` (Debian's `gobgpd`). It sees no interior routes: each next hop is taken to be reachable. Where the hold time is 0 it
gives itself no time to write a message, so it has another one. A filter is a policy of all peers, each statement of which names its peer; a new
one is read from the configuration at SIGHUP, under a name of its own.
"""
import json
import os
import re
import signal

from bgp.eventfile import masked
from bgp.program import Best
from router import Router, bounds, flat

HEAD = '''[global.config]
  as = %(asn)d
  router-id = "%(identifier)s"
  local-address-list = ["%(address)s"]
[global.route-selection-options.config]
  external-compare-router-id = true
[global.apply-policy.config]
  import-policy-list = [%(in)s]
  default-import-policy = "accept-route"
  export-policy-list = [%(out)s]
  default-export-policy = "accept-route"
'''
PEER = '''[[neighbors]]
  [neighbors.config]
    neighbor-address = "%(address)s"
    peer-as = %(asn)d
  [neighbors.transport.config]
    passive-mode = true
    local-address = "%(local)s"
  [neighbors.timers.config]
    hold-time = 240.0
    connect-retry = 1.0
    idle-hold-time-after-reset = 1.0
  [neighbors.error-handling.config]
    treat-as-withdraw = %(revised)s
%(reflected)s  [[neighbors.afi-safis]]
    [neighbors.afi-safis.config]
      afi-safi-name = "ipv4-unicast"
'''
REFLECTOR = '''  [neighbors.route-reflector.config]
    route-reflector-client = %s
    route-reflector-cluster-id = "%s"
'''
NEIGHBORS = '''[[defined-sets.neighbor-sets]]
  neighbor-set-name = "%s"
  neighbor-info-list = ["%s"]
'''
PREFIXES = '''[[defined-sets.prefix-sets]]
  prefix-set-name = "%s"
  [[defined-sets.prefix-sets.prefix-list]]
    ip-prefix = "%s"
    masklength-range = "%d..%d"
'''
# a number between `_` alone is looked for in sequences only, and not in sets
PATHS = '''[[defined-sets.bgp-defined-sets.as-path-sets]]
  as-path-set-name = "%s"
  as-path-list = ["(_%s_)"]
'''
STATEMENT = '''  [[policy-definitions.statements]]
    name = "%s"
    [policy-definitions.statements.conditions.match-neighbor-set]
      neighbor-set = "%s"
      match-set-options = "any"
'''
CONDITIONS = {
    PREFIXES: '    [policy-definitions.statements.conditions.match-prefix-set]\n      prefix-set = "%s"\n      match-set-options = "any"\n',
    PATHS: '    [policy-definitions.statements.conditions.bgp-conditions.match-as-path-set]\n      as-path-set = "%s"\n      match-set-options = "any"\n',
}
VERDICTS = {'accept': 'accept-route', 'reject': 'reject-route', 'next': 'none'}
AS_SET = 1


def path(segments):
    """A path as docs/OUTPUT.md tells it."""
    return ''.join(('{%s}' if one['segment_type'] == AS_SET else '(%s)') % '.'.join(map(str, one['asns'])) for one in segments)


def condition(name, words):
    """The set that a rule's condition needs, and the condition: texts, both empty where any route is meant; None where none is."""
    if words[0] == 'any':
        return '', ''
    if words[0] == 'path':
        return PATHS % (name, words[1]), CONDITIONS[PATHS] % name
    found = bounds(words)
    return found and (PREFIXES % (name, masked(found[0]), found[1], found[2]), CONDITIONS[PREFIXES] % name)


def actions(rule, asn):
    """What a statement does to a route, and its verdict."""
    told, paths = '', ''
    for word, number in rule.actions if rule.verdict != 'reject' else ():
        if word == 'prepend' and number:
            paths = ('    [policy-definitions.statements.actions.bgp-actions.set-as-path-prepend]\n      as = "%d"\n      repeat-n = %d\n' % (asn, number))
        elif word in ('pref', 'med'):
            told += '      set-local-pref = %d\n' % number if word == 'pref' else '      set-med = "%d"\n' % number
    return ('    [policy-definitions.statements.actions]\n      route-disposition = "%s"\n' % VERDICTS[rule.verdict]
            + ('    [policy-definitions.statements.actions.bgp-actions]\n' + told if told else '') + paths)


def policy(name, peer, rules, asn):
    """A filter: the sets that it needs, and the policy."""
    sets, said = '', '[[policy-definitions]]\n  name = "%s"\n' % name
    for place, rule in enumerate(rules, 1):
        own = '%s_%d' % (name, place)
        found = condition(own, rule.condition)
        if found:
            sets += found[0]
            said += STATEMENT % (own, peer) + found[1] + actions(rule, asn)
    return sets, said


class GoBgp(Router):
    name, package, programs = 'gobgp', 'gobgpd', ('gobgpd', 'gobgp')
    hold, tries = 240, 20  # it refuses a peer for a while after the end of a session
    leaves_out = {'both families': "IPv6 isn't set up there"}
    edits = 0  # how often filters have got new rules

    @classmethod
    def lacks(cls, events):
        for words in events:
            if words[0] == 'local6':
                return 'IPv6 is not set up there'
            if words[:2] == ['filter', 'in'] and 'prepend' in words:
                return 'an incoming `set-as-path-prepend` makes the path of the decision longer'
            if words[0] == 'filter' and ('nomed' in words or 'origin' in words):
                return 'its policies have neither `nomed` nor a condition on ORIGIN'
            if words[0] == 'bgp' and len(words[2]) >= 38 and not 1 <= int(words[2][36:38], 16) <= 5:
                return 'a message of a type that is none ends the daemon itself'
            if words[0] == 'filter' and ('pref', '0') in zip(words, words[1:]):
                return 'a `set-local-pref` of 0 sets nothing'
        return None

    def policies(self):
        """All filters: the names of their policies by direction, the sets, and the policies."""
        names, sets, said = {'in': [], 'out': []}, '', ''
        for number, peer in self.wanted.peers.items():
            sets += NEIGHBORS % ('peer%d' % number, peer.address)
            for way in names:
                rules = self.wanted.filters[way].get(number, [])
                if rules:
                    names[way].append('%s%d_%d' % (way, number, self.edits))
                    found = policy(names[way][-1], 'peer%d' % number, rules, self.wanted.asn)
                    sets, said = sets + found[0], said + found[1]
        return names, sets, said

    def config(self):
        wanted = self.wanted
        names, sets, said = self.policies()
        head = HEAD % {'asn': wanted.asn, 'identifier': wanted.identifier, 'address': wanted.address,
                       **{way: ', '.join('"%s"' % name for name in names[way]) for way in names}}
        for peer in wanted.peers.values():
            is_reflected = wanted.reflects and wanted.is_internal(peer)
            head += PEER % {'address': peer.address, 'asn': peer.asn, 'local': wanted.address, 'revised': str(wanted.revised).lower(),
                            'reflected': REFLECTOR % (str(peer.client).lower(), wanted.identifier) if is_reflected else ''}
        return head + sets + said

    def control(self, words, may_fail=False):
        return self.command(['gobgp'] + words.split(), may_fail)

    def start(self):
        self.run(['gobgpd', '-f', self.write('conf', self.config()), '-t', 'toml', '--disable-stdlog'])
        self.wait(lambda: 'AS' in self.control('global', True))
        self.networks([], self.wanted.own())

    def apply(self, before, wanted):
        self.wanted = wanted
        self.networks(before.own(), wanted.own())
        if before.filters != wanted.filters:
            self.refilter(before)

    def refilter(self, before):
        """All filters anew. What goes out is sent again by the new ones; what came in is gone over again at SIGHUP."""
        self.edits += 1
        self.write('conf', self.config())
        for pid in self.started[0].processes():
            with open('/proc/%d/comm' % pid, encoding='ascii') as file:
                if file.read() == 'gobgpd\n':
                    os.kill(pid, signal.SIGHUP)
        wanted = self.policies()[0]
        for way, word in (('in', 'import'), ('out', 'export')):
            self.wait(lambda: re.findall(r'^Name (\S+):', self.control('global policy ' + word, True), re.M) == wanted[way])
        for number, peer in self.wanted.peers.items():
            if before.filters['out'].get(number) != self.wanted.filters['out'].get(number):
                self.control('neighbor %s softresetout' % peer.address, True)

    def networks(self, old, new):
        for prefix in sorted(set(old) - set(new)):
            self.control('global rib del %s -a ipv4' % prefix)
        for prefix in sorted(set(new) - set(old)):
            self.control('global rib add %s origin incomplete -a ipv4' % prefix)

    def best(self):
        numbers, said = self.numbers(), self.control('global rib -a ipv4 -j').strip()
        found = {}
        for prefix, paths in (json.loads(said) if said.startswith('{') else {}).items():
            one = next((one for one in paths if one.get('best')), None)
            if one:
                number = numbers.get(one.get('neighbor-ip'), 0)
                found[prefix] = self.told(number, {attr['type']: attr for attr in one['attrs']})
        return found

    @staticmethod
    def told(number, attrs):
        if not number:
            return Best(0, None, None, None, None, None)
        return Best(number, attrs[5]['value'] if 5 in attrs else 100, attrs[4]['metric'] if 4 in attrs else 0,
                    flat(path(attrs[2].get('as_paths') or [])), attrs[1]['value'], attrs[3]['nexthop'])
