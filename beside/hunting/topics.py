"""What the files of a hunt are about: each topic with its weight, the steps that it adds to a file, and what it can't hold.

A file has the steps of `ALWAYS` and those of one to three topics. The numbers are weights: how often a step comes beside the others.
"""
import collections
import textwrap

Topic = collections.namedtuple('Topic', 'weight steps made left_out')

ALWAYS = {'announce': 6, 'withdraw': 1, 'repeat': .5}

TOPICS = {
    'decision': Topic(
        5, {'spread': 5, 'announce': 2, 'withdraw': 1},
        'routes of several peers at one prefix that are alike up to any step: preference, path length, ORIGIN, MULTI_EXIT_DISC within and '
        'between neighbour ASes, kind of peer, identifier (also equal ones), address; AS_SETs, empty paths',
        "a first AS in an external peer's path that isn't the peer's; an internal peer's route without LOCAL_PREF; AS 0"),
    'passing on': Topic(
        4, {'announce': 3, 'withdraw': 2, 'both': 3, 'many_at_once': 2},
        'replacing, withdrawing, both in one message, many prefixes in one message; unrecognized attributes, AGGREGATOR, '
        'ATOMIC_AGGREGATE, long paths; the own AS in the path, the own or the receiver\'s address as NEXT_HOP',
        'communities, which daemons act on; more than 4,096 octets; a prefix that one message withdraws and announces; prefixes for special '
        'use and such without hosts'),
    'sessions': Topic(
        3, {'lose': 3, 'back': 4, 'flap': 3, 'announce': 2},
        'sessions lost and begun again, also with routes said anew before anything was deleted; a NOTIFICATION received',
        'hold times, a second OPEN, more than five peers'),
    'filters': Topic(
        5, {'filter_in': 4, 'filter_out': 4},
        'rules of both filters edited while routes stand, also twice between two `idle`; all conditions, actions and verdicts',
        'an outgoing `prepend` or `nomed` for an internal peer; more than three rules of a peer'),
    'next hops': Topic(
        4, {'interior': 3, 'metric': 6, 'tie': 6, 'spread': 1},
        'interior routes that come, go and change, nested, of four protocols, also in their metric alone, and a whole protocol lost; next '
        'hops that are resolved, not resolved, or over another one; routes that tie up to the cost',
        'an interior route over which the sessions themselves go'),
    'own routes': Topic(
        2, {'own': 4, 'redistribute': 3},
        'redistribution on and off of three protocols, beside routes of peers at the same prefixes',
        'connected routes'),
    'refresh': Topic(
        2, {'refresh': 4},
        'ROUTE-REFRESH of IPv4 unicast and of another family, between other events',
        'other lengths than 23 octets'),
    'reflection': Topic(
        4, {'spread': 3, 'announce': 2, 'withdraw': 1},
        '`reflect`, clients and non-clients, ORIGINATOR_ID and CLUSTER_LIST that tie and that name this speaker',
        'lists of 64 entries, `reflect` without a client; ORIGINATOR_ID and CLUSTER_LIST of an external peer, or without `reflect`'),
    'four octets': Topic(
        2, {'announce': 2},
        '`as4`: AS numbers above 65535 of peers, in paths, in AGGREGATOR, in rules',
        'types 17 and 18, AS 23456'),
    'faults': Topic(
        2, {'fault': 4, 'octet': 3, 'other': 1, 'back': 2},
        'each fault of attributes and prefixes that docs/BGP.md names, an octet of a sound message changed; by RFC 4271',
        "a length field that isn't the message's; lengths that are wrong for the type, but for a KEEPALIVE of 20 octets"),
    'revised': Topic(
        3, {'fault': 5, 'octet': 3, 'back': 1},
        'the same with `revised`',
        'the same'),
    'both families': Topic(
        4, {'announce': 2, 'spread': 2, 'withdraw': 1, 'both': 1, 'refresh': .5},
        '`local6`: half of the routes, rules, interior routes and refreshes are of IPv6, beside any other topic; UPDATEs of both families, '
        'faults of types 14 and 15',
        'next hops of 32 octets, link-local ones; a NEXT_HOP without a fault beside type 14 alone'),
}


def possible(router_class):
    """The topics that are made for a daemon."""
    return [name for name in TOPICS if name not in router_class.leaves_out]


def drawn(random, router_class):
    """The topics of one file, and its steps with their weights."""
    names = possible(router_class)
    chosen = set(random.choices(names, [TOPICS[name].weight for name in names], k=random.choice((1, 2, 2, 3)))) | set(router_class.topics)
    steps = collections.Counter(ALWAYS)
    for name in sorted(chosen):
        steps.update(TOPICS[name].steps)
    return sorted(chosen), steps


def told(router_classes):
    """The lines of docs/HUNT.md: each topic, what is made of it, and what isn't; then what isn't made for a daemon."""
    for name, topic in TOPICS.items():
        yield from wrapped('**%s** (%d): %s. Not made: %s.' % (name[0].upper() + name[1:], topic.weight, topic.made, topic.left_out))
    for router_class in router_classes:
        for name, reason in router_class.leaves_out.items():
            yield from wrapped('Not for %s: %s, since %s.' % (router_class.name, name, reason))


def wrapped(text):
    """An item of a list."""
    return textwrap.wrap(text, 100, initial_indent='- ', subsequent_indent='  ', break_long_words=False, break_on_hyphens=False)
