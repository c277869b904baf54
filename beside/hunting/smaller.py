"""A file made as small as it gets while it still shows its difference: by lines, then by what its messages and rules hold.

`shows(lines)` says whether a file still shows it; each call runs the daemon.
"""
import re

from bgp import eventfile, wire
from faults import OF_THE_SECOND
from hunting import parts
from hunting.routes import SHARED_SECOND

# without them there is no file, and no NEXT_HOP is resolved; the second network goes as a whole
STAYS = re.compile('local6? |route add connected (192.0.2.0/24|%s/64) ' % SHARED_SECOND)


def smaller(lines, shows):
    """The smallest file that was found, with no line that can go alone."""
    for way in (without_second, without_peers, without_idles):
        lines = way(lines, shows)
    while True:
        before = lines
        lines = by_lines(lines, shows)
        lines = by_place(lines, shows)
        lines = by_content(lines, shows)
        if lines == before:
            return lines


def cut(lines, number):
    """The file up to a line, without comments; that is where the difference is seen."""
    return [line for line in lines[:number] if line.split() and not line.startswith('#')]


def without_second(lines, shows):
    """Without the second network, where there is one, and what messages say of it."""
    left = [first_alone(line) for line in lines if not re.match('(local6|filter6|lost6|redist6) |route .*:', line)]
    return left if len(left) < len(lines) and shows(left) else lines


def first_alone(line):
    """A message without types 14 and 15, where it can be read."""
    words = line.split()
    try:
        found = parts.read(bytes.fromhex(words[2])) if words[0] == 'bgp' else None
    except ValueError:
        found = None
    if found is None:
        return line
    kept = [one for one in found.attributes if one.kind not in OF_THE_SECOND]
    return ' '.join(words[:2] + [parts.written(found._replace(attributes=kept)).hex()]) if len(kept) < len(found.attributes) else line


def without_peers(lines, shows):
    """Without all lines of a peer, peer by peer."""
    for number in sorted({line.split()[1] for line in lines if line.startswith('peer ')}, reverse=True):
        left = [line for line in lines if not is_of(line.split(), number)]
        if len(left) < len(lines) and shows(left):
            lines = left
    return lines


def is_of(words, number):
    """Whether an event is of a peer."""
    is_filter = words[0] in eventfile.FILTERS
    return words[2 if is_filter else 1:][:1] == [number] and (is_filter or words[0] in ('peer', 'up', 'down', 'bgp'))


def without_idles(lines, shows):
    """With the last `idle` alone."""
    left = [line for line in lines[:-1] if line != 'idle'] + lines[-1:]
    return left if len(left) < len(lines) and shows(left) else lines


def by_lines(lines, shows):
    """Without ever smaller pieces of it, from the end on, until no single line can go; the last line stays."""
    size = max(1, len(lines) // 3)
    while True:
        at, gone = len(lines) - 1, False
        while at > 0:
            begin = max(0, at - size)
            left = lines[:begin] + [line for line in lines[begin:at] if STAYS.match(line)] + lines[at:]
            if len(left) < len(lines) and shows(left):
                lines, gone = left, True
            at = begin
        if size == 1 and not gone:
            return lines
        size = max(1, size // 2)


def by_place(lines, shows):
    """With a later message of a peer in the place of an earlier one of its."""
    for at, line in enumerate(lines):
        for later in range(at + 1, len(lines)):
            if line.startswith('bgp ') and lines[later].split()[:2] == line.split()[:2]:
                left = lines[:at] + [lines[later]] + lines[at + 1:later] + lines[later + 1:]
                if shows(left):
                    return left
    return lines


def by_content(lines, shows):
    """With less in each message and in each rule."""
    width = 4 if 'as4' in lines else 2
    for at in range(len(lines)):
        again = True
        while again:
            again = False
            for line in less(lines[at], width):
                left = lines[:at] + [line] + lines[at + 1:]
                if line != lines[at] and shows(left):
                    lines, again = left, True
                    break
    return lines


def less(line, width):
    """Lines that say a little less than this one."""
    words = line.split()
    if words[0] in eventfile.FILTERS:
        yield from (' '.join(words[:3] + rest) for rest in less_rules(words[3:]))
    elif words[0] == 'bgp':
        try:
            found = parts.read(bytes.fromhex(words[2]))
        except ValueError:
            return
        for one in less_update(found, width):
            yield 'bgp %s %s' % (words[1], parts.written(one).hex())


def less_rules(words):
    rules = eventfile.rules(words)
    for place, rule in enumerate(rules):
        yield said(rules[:place] + rules[place + 1:])
        for action in rule.actions:
            yield said(rules[:place] + [rule._replace(actions=[one for one in rule.actions if one is not action])] + rules[place + 1:])


def said(rules):
    """The words of rules."""
    words = []
    for rule in rules:
        words += rule.condition
        for word, number in rule.actions:
            words += [word] if number is None else [word, str(number)]
        words.append(rule.verdict)
    return words


def without(items):
    """The list without each of its items, by turns."""
    return (items[:at] + items[at + 1:] for at in range(len(items)))


def less_update(one, width):
    """UPDATEs with one thing less; one prefix at least is announced, if any is."""
    for left in without(one.withdrawn):
        yield one._replace(withdrawn=left)
    if len(one.announced) > 1:
        for left in without(one.announced):
            yield one._replace(announced=left)
    for left in without(one.attributes):
        yield one._replace(attributes=left)
    for at, attribute in enumerate(one.attributes):
        for value in less_value(attribute, width):
            yield one._replace(attributes=one.attributes[:at] + [attribute._replace(value=value)] + one.attributes[at + 1:])
    if not one.announced and one.attributes:
        yield one._replace(attributes=[])


def less_value(attribute, width):
    """Shorter values: a path without one of its segments or numbers, a list without one of its entries, types 14 and 15 without one of their
    prefixes, an unrecognized one without any octet."""
    if attribute.kind in OF_THE_SECOND:
        yield from less_prefixes(attribute)
    elif attribute.kind == wire.AS_PATH:
        try:
            found = wire.segments(attribute.value, width)
        except ValueError:
            return
        yield from (wire.path_octets(left, width) for left in less_path(found))
    elif attribute.kind == wire.CLUSTER_LIST and len(attribute.value) > 4:
        entries = [attribute.value[at:at + 4] for at in range(0, len(attribute.value), 4)]
        yield from (b''.join(left) for left in without(entries))
    elif attribute.kind > wire.CLUSTER_LIST and attribute.value:
        yield b''
    elif attribute.kind == wire.ORIGIN and attribute.value != b'\0' and len(attribute.value) == 1:
        yield b'\0'


def less_prefixes(attribute):
    """Values of types 14 and 15 with a prefix less, of those of which they have several."""
    try:
        front = len(attribute.value) - len(wire.reach(attribute.value)[2]) if attribute.kind == wire.MP_REACH else 3
        found = list(wire.split(attribute.value[front:], wire.IPV6))
    except ValueError:
        return
    if len(found) > 1:
        yield from (attribute.value[:front] + b''.join(left) for left in without(found))


def less_path(found):
    """A path without a segment, half of one, or one number."""
    if len(found) > 1:
        yield from without(found)
    for at, (kind, numbers) in enumerate(found):
        if len(numbers) > 8:
            yield found[:at] + [(kind, numbers[:len(numbers) // 2])] + found[at + 1:]
        elif len(numbers) > 1:
            for left in without(numbers):
                yield found[:at] + [(kind, left)] + found[at + 1:]
