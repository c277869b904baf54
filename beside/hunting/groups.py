"""When two differences are one: what is different, of whose row, and what the file needs. And the sentence that a group is told by."""
import collections
import re

from explained import LESS, MORE, OTHER, shape

FIELDS = {'o': 'ORIGIN', 'p': 'AS_PATH', 'n': 'NEXT_HOP', 'm': 'MULTI_EXIT_DISC', 'l': 'LOCAL_PREF', 'a': 'ATOMIC_AGGREGATE', 'g': 'AGGREGATOR',
          'r': 'ORIGINATOR_ID', 'c': 'CLUSTER_LIST'}
# which difference is told of a file, where one follows from the other
ORDER = ('crash', 'trouble', 'session', 'notification', 'best', 'adv', 'again')

# what stays the same while a file is made small: the kind, whose row it is, what the daemon has (more, less, other), and of a row that is
# another one, each field with the daemon's answer
Key = collections.namedtuple('Key', 'kind peer_kind shape fields')


def key(found):
    one = found.difference
    if one.kind in ('crash', 'trouble'):
        return Key(one.kind, None, re.sub('[0-9]+', 'N', one.theirs.split('`')[1].split()[0] if '`' in one.theirs else ''), ())
    return Key(one.kind, found.peer_kind, shape(one), tuple(answers(one)))


def answers(one):
    """Of each field that differs: that the daemon `lacks` it, `adds` it, or has an `other` value."""
    if one.kind == 'notification':
        return [code(one.ours), code(one.theirs)]
    if one.kind == 'session' or one.ours is None or one.theirs is None:
        return []
    if one.kind == 'best' and one.ours.peer != one.theirs.peer:
        return ['peer other']
    ours, theirs = values(one.ours), values(one.theirs)
    return ['%s %s' % (name, 'lacks' if name not in theirs else 'adds' if name not in ours else 'other')
            for name in sorted(set(ours) | set(theirs)) if ours.get(name) != theirs.get(name)]


def values(row):
    """The fields of a row by their names; what isn't told isn't there."""
    if not isinstance(row, str):
        return {name: value for name, value in row._asdict().items() if value is not None}
    found = {}
    for word in re.split(r',(?=[a-z])', row):
        name = FIELDS.get(word[0]) or 'attribute %s' % word[1:].partition(':')[0]
        found[name] = word[1:]
    return found


def code(octets):
    if octets is None:
        return 'none'
    return '%d/%d' % tuple(bytes.fromhex(octets)[19:21]) if re.fullmatch('([0-9a-f]{2}){21,}', octets) else 'unreadable'


def roots(found):
    """Of what differs in a file each key once, in the order in which they are looked at: nothing that follows from another one at the same
    `idle` and prefix."""
    told, causes = {}, set()
    for one in sorted(found, key=lambda one: (one.place, ORDER.index(one.difference.kind))):
        at = one.place, one.difference.prefix
        if one.difference.kind in ('adv', 'again') and (at in causes or (one.place, None) in causes):
            continue
        causes.add(at)
        told.setdefault(key(one), one)
    return list(told.values())


# ---- the sentence

# kind, field, need: the rule, and where docs/BGP.md has it; the first line that fits
RULES = (
    ('crash', None, None, 'RFC 4271, section 6: whatever a peer says, the speaker goes on', 'Faults'),
    ('trouble', None, None, 'RFC 4271, section 8: a peer can come back, and the speaker can be told other rules', 'What a message does'),
    ('session', None, 'revised', 'RFC 7606, section 2: the session stays, and the routes are treated as withdrawn', 'Revised errors'),
    ('session', None, None, 'RFC 4271, section 6: a session ends by a fault or a NOTIFICATION, and by nothing else', 'Faults'),
    ('notification', None, None, 'RFC 4271, section 6: each fault is answered by its code, subcode and data', 'Faults'),
    ('again', None, None, 'RFC 2918, section 4: all that is to be sent to the peer is sent again', 'Route refresh'),
    ('best', 'peer', 'interior routes', 'RFC 4271, section 9.1.2.2, e: the least interior cost to the NEXT_HOP wins', 'The decision'),
    ('best', 'peer', 'CLUSTER_LIST', 'RFC 4456, section 9: the shortest CLUSTER_LIST wins', 'The decision'),
    ('best', 'peer', 'ORIGINATOR_ID', 'RFC 4456, section 9: ORIGINATOR_ID stands for the identifier', 'The decision'),
    ('best', 'peer', 'MULTI_EXIT_DISC', 'RFC 4271, section 9.1.2.2, c: the lowest MULTI_EXIT_DISC wins, among routes of one neighbour AS alone',
     'The decision'),
    ('best', None, 'the own AS in a path', 'RFC 4271, section 9.1.2: a route with the own AS in its path is no candidate', 'The decision'),
    ('best', None, 'interior routes', 'RFC 4271, section 9.1.2.1: a route counts exactly where its NEXT_HOP is resolved', 'Next hops'),
    ('best', None, 'filter in', 'RFC 4271, section 9.1.1: the rules in force give the degree of preference, and which routes count',
     'What a message does'),
    ('best', None, 'revised', 'RFC 7606, section 2: an UPDATE with a fault of its attributes withdraws its routes', 'Revised errors'),
    ('best', None, 'redistribution', 'RFC 4271, section 9.4: a route of this speaker\'s own stands while its interior route does',
     "Routes of this speaker's own"),
    ('best', None, 'a lost session', 'RFC 4271, section 6: with the session all its routes go', 'What a message does'),
    ('best', None, 'a withdrawal beside an announcement', 'RFC 4271, section 4.3: one UPDATE withdraws and announces', 'What a message does'),
    ('best', None, 'a withdrawal', 'RFC 4271, section 3.1: a route that is withdrawn is gone', 'What a message does'),
    ('best', None, None, 'RFC 4271, section 9.1.2: the best one of the routes that stand is chosen', 'The decision'),
    ('adv', 'AS_PATH', 'as4', 'RFC 6793, section 4.1: among speakers of four octets the whole numbers are sent', 'AS numbers of four octets'),
    ('adv', 'AS_PATH', None, 'RFC 4271, section 5.1.2: the local AS goes in front to external peers, and nothing else changes', 'In which form'),
    ('adv', 'CLUSTER_LIST', None, 'RFC 4456, section 8: the own CLUSTER_ID goes in front of the CLUSTER_LIST', 'Route reflection'),
    ('adv', 'ORIGINATOR_ID', None, 'RFC 4456, section 8: ORIGINATOR_ID is that of the speaker who brought the route in', 'Route reflection'),
    ('adv', 'LOCAL_PREF', None, 'RFC 4271, section 5.1.5: LOCAL_PREF goes to internal peers, and to no external ones', 'In which form'),
    ('adv', 'MULTI_EXIT_DISC', None, 'RFC 4271, section 5.1.4: the MULTI_EXIT_DISC of a neighbour isn\'t sent to other ones', 'In which form'),
    ('adv', 'NEXT_HOP', None, 'RFC 4271, section 5.1.3: the NEXT_HOP that the peer can use', 'In which form'),
    ('adv', 'ORIGIN', None, 'RFC 4271, section 5.1.1: ORIGIN isn\'t changed', 'In which form'),
    ('adv', 'ATOMIC_AGGREGATE', None, 'RFC 4271, section 5.1.6: ATOMIC_AGGREGATE isn\'t taken away', 'In which form'),
    ('adv', 'AGGREGATOR', None, 'RFC 4271, section 5.1.7: AGGREGATOR is passed on', 'In which form'),
    ('adv', 'attribute', None, 'RFC 4271, section 5: unrecognized optional transitive attributes are passed on, partial', 'In which form'),
    ('adv', None, 'filter out', 'RFC 4271, section 9.1.3: what the rules in force let out is advertised, and what they don\'t is withdrawn',
     'To whom'),
    ('adv', None, 'reflect', 'RFC 4456, section 6: which internal peer\'s routes are reflected to which', 'Route reflection'),
    ('adv', None, None, 'RFC 4271, sections 9.1.3 and 9.2: to whom the best route is sent', 'To whom'),
)


def rule(one, needed):
    """The rule that a difference is against, and its heading in docs/BGP.md. `one` is a Key."""
    for kind, field, need, said, heading in RULES:
        if kind == one.kind and (need is None or need in needed) and (field is None or any(name.startswith(field) for name in one.fields)):
            return said, heading
    return None, None


WHOSE = {'best': 'the best route', 'adv': 'what %s peer is sent', 'again': 'what %s peer is sent again', 'session': 'the session of %s peer',
         'notification': 'what %s peer is answered', 'crash': 'the daemon', 'trouble': 'the daemon'}
ARTICLES = {'external': 'an external', 'internal': 'an internal', 'client': 'a client', None: 'a'}
HAS = {MORE: 'there is one, and none is due', LESS: 'it is missing', 'crash': 'it ended', 'trouble': "it doesn't do what it is told",
       'kept': 'it stays, and has to end', 'ended': 'it ended, and has to stay', 'said': 'there is a NOTIFICATION, and none is due',
       'unsaid': 'the NOTIFICATION is missing', 'otherwise': 'another NOTIFICATION'}


def sentence(one, needed):
    """What differs, in a sentence."""
    what = WHOSE[one.kind] % ((ARTICLES[one.peer_kind],) if '%s' in WHOSE[one.kind] else ())
    has = 'another one is chosen' if one.fields == ('peer other',) else ', '.join(one.fields) if one.shape == OTHER else \
        HAS.get(one.kind) or HAS.get(one.shape, one.shape)
    asked, heading = rule(one, needed)
    return '%s: %s. %s (docs/BGP.md, "%s").' % (what[0].upper() + what[1:], has, asked, heading)


def group(one, needed):
    """The word by which a group is known: `--known` compares it."""
    return '; '.join([one.kind, one.peer_kind or '-', one.shape, ', '.join(one.fields) or '-', ', '.join(sorted(needed)) or '-'])
