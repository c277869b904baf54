"""What `replay run` makes of an event file: the tables at each `idle`, which sessions are up, and the NOTIFICATIONs in between."""
import collections
import os
import re
import subprocess

from bgp import wire

TOP = os.path.dirname(os.path.dirname(os.path.dirname(os.path.abspath(__file__))))
BUILT = os.path.join(TOP, 'crates', 'replay_main', 'out', 'replay_main')
LIMIT = 300  # seconds
# a question that changes nothing (docs/LANGUAGE.md) stands behind each event: its answer ends the event's lines of the output
MARK = 'settled 255.255.255.255/32'

# `sent` has a table for each peer that is up, `best` the rows of that link, `candidates` those of all `res.K`, `unresolved` the prefixes of
# routes that no interior route resolves, `notes` the NOTIFICATIONs since the `idle` before: peer and octets; `again`, for each peer that
# asked for all again since then in its present session, what it was sent since it did, of the families that it asked for. The rows of both
# networks stand in one table
Moment = collections.namedtuple('Moment', 'sent best candidates unresolved notes again')
Step = collections.namedtuple('Step', 'number words ignored moment')  # `moment` behind an `idle` alone
Best = collections.namedtuple('Best', 'peer preference med path origin hop')


class Refused(Exception):
    """The program didn't take the file: its line."""


def marked(text):
    """The file with the question behind each event; each event with its line's number and whether it has the question behind it; and
    the number that each line of the new file has in the file."""
    lines, events, numbers, begun = [], [], [], False
    for number, line in enumerate(text.split('\n'), 1):
        words = line.rstrip('\r').split()
        if ' '.join(words) == MARK:
            line, words = '', []
        lines.append(line)
        numbers.append(number)
        if words and not words[0].startswith('#'):
            begun = begun or words[0] == 'local'
            events.append((number, words, begun))
            if begun:
                lines.append(MARK)
                numbers.append(number)
    return '\n'.join(lines), events, numbers


def output(program, text):
    """The lines that the program prints of a text, and its status."""
    try:
        ran = subprocess.run(program + ['run'], input=text.encode(), stdout=subprocess.PIPE, stderr=subprocess.PIPE, timeout=LIMIT, check=False)
    except OSError as error:
        raise Refused('%s: %s (README.md says how the program is built)' % (program[0], error.strerror)) from error
    except subprocess.TimeoutExpired as error:
        raise Refused('the program takes more than %d s' % LIMIT) from error
    return ran.stdout.decode('ascii', 'replace').split('\n')[:-1], ran.returncode


def read(path):
    """The marked file, its events, and the numbers of its lines."""
    with open(path, encoding='latin-1', newline='\n') as file:
        return marked(file.read())


def printed(path):
    """The same as `output` of what was printed before; the status is known by a line `refused` alone."""
    with open(path, encoding='ascii') as file:
        lines = file.read().split('\n')[:-1]
    return lines, 3 if lines and lines[-1].startswith('refused') else 0


def steps(program, path, before=None):
    """What each event of a file does. With `before` the program isn't run: that file has what it printed of the marked one."""
    text, events, numbers = read(path)
    lines, status = printed(before) if before else output(program, text)
    if status:
        raise Refused(refusal(lines, numbers) or 'the program ended with status %d' % status)
    lines, told, tables, notes, again = iter(lines), [], {}, [], {}
    families = wire.FAMILIES if any(words[0] == 'local6' for _, words, _ in events) else wire.FAMILIES[:1]
    for number, words, is_marked in events:
        block = until_the_mark(lines) if is_marked else []
        asked = wire.asks_again(bytes.fromhex(words[2])) if words[0] == 'bgp' and 'ignored' not in block else None
        if asked in families:
            again.setdefault(int(words[1]), {})[asked] = {}
        for line in block:
            said = line.split(' ')
            if said[0] == 'note':
                notes.append((int(said[1]), said[2]))
            elif said[0] == 'out':
                wire.take_each(again.get(int(said[1]), {}), bytes.fromhex(said[2])[19:])
            elif said[0] in ('b', 'i', 'e', '+', '=', '-'):
                change(tables, said)
                if said[0] == 'e' and said[1].startswith('adv.'):
                    again.pop(int(said[1].split('.')[1]), None)  # who asked was another session
        moment = None
        if words[0] == 'idle':
            moment, notes, again = at(tables, notes, again, 4 if ['as4'] in (event[1] for event in events) else 2), [], {}
        told.append(Step(number, words, 'ignored' in block, moment))
    return told


def refusal(lines, numbers):
    """The line `refused`, with the number that the line has in the file."""
    words = lines[-1].split(' ') if lines else []
    if words[:1] != ['refused']:
        return None
    place = int(words[1])
    return 'refused %d %s' % (numbers[place - 1] if place <= len(numbers) else place, words[2])


def until_the_mark(lines):
    block = []
    for line in lines:
        if line.startswith(MARK):
            return block
        block.append(line)
    raise Refused('the program ended early')


def change(tables, words):
    """A line of the journal, done to the tables."""
    if words[0] == 'e':
        del tables[words[1]]
    elif words[0] == 'b':
        tables[words[1]] = {}
    elif words[0] == 'i':
        tables[words[1]] = dict(tables[words[2]])
    elif words[0] == '-':
        del tables[words[1]][words[2]]
    else:
        tables[words[1]][words[2]] = words[-1]


def at(tables, notes, again, width):
    sent, best, candidates = collections.defaultdict(dict), {}, collections.defaultdict(list)
    for link, rows in tables.items():
        name = link.removeprefix(wire.IPV6.tag).split('.')
        if name[0] == 'adv':
            sent[int(name[1])].update(rows)
        elif name[0] == 'best':
            best.update(rows)
        elif name[0] == 'res':
            for prefix, value in rows.items():
                candidates[prefix].append(value)
    said = {peer: wire.texts(wire.joined(rows), width) for peer, rows in again.items() if peer in sent}
    return Moment(dict(sent), best, candidates, unresolved(tables), notes, said)


def unresolved(tables):
    """The prefixes at which some peer's route has a next hop that isn't resolved."""
    found = set()
    for link, rows in tables.items():
        if 'filt.' in link:
            found |= set(rows) - set(tables[link.replace('filt.', 'res.')])
    return found


def best_of_the_row(value):
    """A row of `best`, as far as daemons tell theirs: no MED is MED 0, which is as good. Of an own route the peer, 0, alone."""
    peer, preference, med, _, _, attributes = value.split(':', 5)
    if peer == '0':
        return Best(0, None, None, None, None, None)
    said = {word[0]: word[1:] for word in re.split(r',(?=[a-z])', attributes) if word[0] in 'opn'}
    return Best(int(peer), int(preference), 0 if med == '-' else int(med), said['p'], int(said['o']), said['n'])
