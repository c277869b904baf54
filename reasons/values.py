"""Rows and values of the output as named fields (docs/OUTPUT.md, "Values"), and the prefixes that they stand at."""
import collections
import re
import socket

Route = collections.namedtuple('Route', 'peer preference med prepends metric attributes')

NAMES = {'o': 'origin', 'p': 'as_path', 'n': 'next_hop', 'm': 'med', 'l': 'local_pref', 'g': 'aggregator', 'r': 'originator_id',
         'c': 'cluster_list'}
ORIGINS = ('IGP', 'EGP', 'INCOMPLETE')
WITH_ROUTES = ('filt', 'res', 'red', 'best', 'read')
WITH_ATTRIBUTES = ('in', 'peer', 'outf', 'adv')
OTHERS = {'fib': ('protocol', 'gateway', 'interface'), 'ebgp': ('kind', 'next_hop'), 'ibgp': ('kind', 'next_hop'), 'ext': ('kind', 'next_hop')}
INTERIOR = ('protocol', 'gateway', 'interface', 'metric')
ADDRESSES = ('gateway', 'next_hop')
FIELDS = ('peer', 'preference', 'med_that_counts', 'prepends', 'interior_metric')
OF_IPV6 = '6.'  # stands in front of the links and tasks of its network

Address = collections.namedtuple('Address', 'bits number')
Prefix = collections.namedtuple('Prefix', 'address length')


def words_of(text):
    """The attributes of a route by their first letters; of those that are unrecognized, all."""
    found = {}
    for word in re.split(r',(?=[a-z])', text):
        if word[0] == 'x':
            found.setdefault('x', []).append(word[1:])
        else:
            found[word[0]] = word[1:]
    return found


def route(value):
    """A row of `filt.K`, `res.K`, `red`, `best` or what reads it."""
    peer, preference, med, prepends, metric, attributes = value.split(':', 5)
    return Route(int(peer), int(preference), 0 if med == '-' else int(med), int(prepends), None if metric == '-' else int(metric),
                 words_of(attributes))


def segments(path):
    """The segments of a path: whether it is an AS_SET, and its numbers."""
    return [(text[0] == '{', [int(number) for number in text[1:-1].split('.')]) for text in re.findall(r'[({][0-9.]*[)}]', path)]


def path_length(path):
    """How many AS numbers a path has; an AS_SET counts 1 (RFC 4271, section 9.1.2.2, a)."""
    return sum(1 if is_set else len(numbers) for is_set, numbers in segments(path))


def path_numbers(path):
    return [number for _, numbers in segments(path) for number in numbers]


def path_text(path):
    """A path as daemons print it."""
    return ' '.join(('{%s}' if is_set else '%s') % (',' if is_set else ' ').join(map(str, numbers)) for is_set, numbers in segments(path))


def mark(text):
    """What stands in front of links and tasks of the network of an address or prefix."""
    return OF_IPV6 if ':' in text else ''


def words_of_link(link):
    """The kind of a link, and the numbers behind it."""
    return link.removeprefix(OF_IPV6).split('.')


def around_an_address(value, names):
    """The words of a row with colons between them, one for each name: colons of an address stay."""
    words = value.split(':')
    at = next(place for place, name in enumerate(names) if name in ADDRESSES)
    behind = len(words) - (len(names) - at - 1)
    return words[:at] + [':'.join(words[at:behind])] + words[behind:]


def named(link, value):
    """The fields of a row by name, as texts; those that it hasn't are left out."""
    kind, found = words_of_link(link)[0], {}
    if kind in WITH_ROUTES:
        parts = value.split(':', 5)
        found = {name: part for name, part in zip(FIELDS, parts) if part != '-'}
        value = parts[5]
    elif kind not in WITH_ATTRIBUTES:
        names = OTHERS.get(kind, INTERIOR)
        return dict(zip(names, around_an_address(value, names)))
    for letter, rest in words_of(value).items():
        if letter == 'a':
            found['atomic_aggregate'] = 'yes'
        elif letter == 'x':
            found['unrecognized'] = ' '.join(rest)
        else:
            found[NAMES[letter]] = {'o': lambda text: ORIGINS[int(text)], 'p': path_text}.get(letter, str)(rest)
    return found


def address(text):
    """An address, which compares with others of its family; ValueError where it is none."""
    try:
        if not re.fullmatch('[0-9a-fA-F:]+' if ':' in text else r'(0|[1-9][0-9]*)(\.(0|[1-9][0-9]*)){3}', text):
            raise OSError
        octets = socket.inet_pton(socket.AF_INET6 if ':' in text else socket.AF_INET, text)
    except OSError:
        raise ValueError('%s is no address' % text) from None
    return Address(8 * len(octets), int.from_bytes(octets, 'big'))


def prefix_key(text):
    """A prefix as address and length, by which rows are in order, those of IPv4 first; ValueError where it is none."""
    front, slash, length = text.partition('/')
    found = address(front)
    if not slash or not re.fullmatch('0|[1-9][0-9]{0,2}', length) or int(length) > found.bits:
        raise ValueError('%s is no prefix' % text)
    return Prefix(found, int(length))


def address_text(found):
    """An address as the output has it."""
    octets = found.number.to_bytes(found.bits // 8, 'big')
    if found.bits == 32:
        return '.'.join(map(str, octets))
    return ':'.join('%x' % (octets[at] << 8 | octets[at + 1]) for at in range(0, 16, 2))


def masked(text):
    """A prefix as the output has it; that of an address has all its bits."""
    found, length = prefix_key(text if '/' in text else '%s/%d' % (text, address(text).bits))
    without = found.bits - length
    return '%s/%d' % (address_text(found._replace(number=found.number >> without << without)), length)


def holds(prefix, one):
    """Whether a prefix holds an address."""
    found, length = prefix_key(prefix)
    return found.bits == one.bits and found.number >> found.bits - length == one.number >> found.bits - length
