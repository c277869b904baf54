"""The decision of docs/BGP.md, "The decision", over the routes at one prefix: step by step, written from RFC 4271, section 9.1.2, and RFC
4456, section 9, alone.
"""
import collections

import values

# a route with what the steps compare of its peer
Candidate = collections.namedtuple('Candidate', 'peer route identifier address is_external neighbour')
# a step: number, what it keeps, the section, and of a candidate the value that is told
Step = collections.namedtuple('Step', 'number keeps section told rest')


def least(value):
    """A step that keeps those of the least value."""
    def rest(candidates):
        bound = min(map(value, candidates))
        return [one for one in candidates if value(one) == bound]
    return rest


def without_worse_med(candidates):
    """Those beside which there is no other one of the same neighbour AS and a lower MULTI_EXIT_DISC."""
    return [one for one in candidates if not any(
        other.neighbour == one.neighbour and other.route.med < one.route.med for other in candidates)]


def identifier(one):
    """ORIGINATOR_ID, or where there is none the peer's identifier."""
    return one.route.attributes.get('r', one.identifier)


def clusters(one):
    return len(one.route.attributes['c'].split(';')) if 'c' in one.route.attributes else 0


def of_address(function):
    return lambda one: values.address(function(one))


STEPS = [
    Step(1, 'the highest degree of preference', 'RFC 4271, 9.1.2', lambda one: one.route.preference, least(lambda one: -one.route.preference)),
    Step(2, 'the fewest AS numbers in the path', 'RFC 4271, 9.1.2.2 a', lambda one: values.path_length(one.route.attributes['p']),
         least(lambda one: values.path_length(one.route.attributes['p']))),
    Step(3, 'the lowest ORIGIN', 'RFC 4271, 9.1.2.2 b', lambda one: values.ORIGINS[int(one.route.attributes['o'])],
         least(lambda one: int(one.route.attributes['o']))),
    Step(4, 'no lower MULTI_EXIT_DISC of the same neighbour AS', 'RFC 4271, 9.1.2.2 c',
         lambda one: 'MED %d of AS %d' % (one.route.med, one.neighbour), without_worse_med),
    Step(5, 'an external peer', 'RFC 4271, 9.1.2.2 d', lambda one: 'external' if one.is_external else 'internal', least(lambda one: not one.is_external)),
    Step(6, 'the lowest interior metric', 'RFC 4271, 9.1.2.2 e', lambda one: one.route.metric, least(lambda one: one.route.metric)),
    Step(7, 'the lowest originator or identifier', 'RFC 4271, 9.1.2.2 f; RFC 4456, 9', identifier, least(of_address(identifier))),
    Step(8, 'the shortest CLUSTER_LIST', 'RFC 4456, 9', clusters, least(clusters)),
    Step(9, 'the lowest peer address', 'RFC 4271, 9.1.2.2 g', lambda one: one.address, least(of_address(lambda one: one.address))),
]


def candidate(wanted, number, value):
    """A row of `res.K` as a candidate; `wanted` has the declarations (python/bgp/eventfile.py)."""
    peer, route = wanted.peers[number], values.route(value)
    is_external = not wanted.is_internal(peer)
    path = values.segments(route.attributes['p'])
    first = path[0][1][0] if path and not path[0][0] else wanted.asn
    return Candidate(number, route, peer.identifier, peer.address, is_external, peer.asn if is_external else first)


def decided(candidates):
    """The one that is left, and of each other one the step at which it loses and who was left there. There is at least one."""
    lost = {}
    for step in STEPS:
        rest = step.rest(candidates)
        for one in candidates:
            if one not in rest:
                lost[one.peer] = step, rest
        candidates = rest
    (winner,) = candidates
    return winner, lost
