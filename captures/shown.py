"""What a router shows of a capture beside what the program's tables have, peer by peer."""
import collections
import json
import os
import sys

HERE = os.path.dirname(os.path.abspath(__file__))
sys.path.insert(0, os.path.join(HERE, '..', 'reasons'))
import eight
import values
from recorders import Route


def of_row(attributes):
    """The route that the attributes of a row tell."""
    said = values.words_of(attributes)
    return Route(values.path_text(said['p']), values.ORIGINS[int(said['o'])], said['n'], said.get('m', '0'), said.get('g', '').rstrip('!'))


def of_tables(links, peers, stand_ins):
    """The routes on the links `filt.K`, by number of the eight and by prefix. `peers` has the address of each K, `stand_ins` what an address
    of a record stands for."""
    numbers, found = {eight.address(number): number for number in eight.ASES}, collections.defaultdict(lambda: collections.defaultdict(list))
    for link, rows in links.items():
        if link.startswith('filt.'):
            address = peers[link[len('filt.'):]]
            number = numbers[stand_ins.get(address, address)]
            for prefix, value in rows.items():
                found[number][prefix].append(of_row(value.split(':', 5)[5]))
    return found


def with_real_hops(found, stand_ins):
    """The same with the next hops that stand-ins stand for."""
    return {number: {prefix: [route._replace(hop=stand_ins.get(route.hop, route.hop)) for route in routes] for prefix, routes in rows.items()}
            for number, rows in found.items()}


def alike(ours, theirs):
    """Whether two lists of routes are the same but for their order; what is None isn't told."""
    left = list(ours)
    for route in theirs:
        match = next((one for one in left if all(a == b for a, b in zip(one, route) if b is not None)), None)
        if match is None:
            return False
        left.remove(match)
    return not left


def apart(ours, theirs):
    """Of each peer how many prefixes there are, how many differ, and the first of them."""
    for number in sorted(set(ours) | set(theirs)):
        a, b = ours.get(number, {}), theirs.get(number, {})
        keys = sorted(set(a) | set(b), key=values.prefix_key)
        differing = [key for key in keys if not alike(a.get(key, []), b.get(key, []))]
        yield number, len(keys), differing


def stored(shows):
    """A table as a text to keep: a line for each route."""
    rows = [[number, prefix, *route] for number, table in sorted(shows.items()) for prefix, routes in sorted(
        table.items(), key=lambda pair: values.prefix_key(pair[0])) for route in sorted(routes, key=str)]
    return ''.join(json.dumps(row) + '\n' for row in rows)


def loaded(text):
    """The same, read again."""
    found = collections.defaultdict(lambda: collections.defaultdict(list))
    for number, prefix, *route in map(json.loads, text.split('\n')[:-1]):
        found[number][prefix].append(Route(*route))
    return found
