#!/usr/bin/env python3
"""Why a route is the best one: why.py FILE PREFIX [--line N] [--program WORDS | --printed OUTPUT]

FILE is an event file (`-`: standard input). Of each peer is said what it announces at PREFIX, and what becomes of it at the end of the file, or
with --line N behind line N: which rule of the incoming filter rejects it, or which next hop isn't resolved, or at which step of the decision
(docs/BGP.md) it loses, with the values that are compared. In front of them stands whether the prefix is settled, or else which work is in the
way. An address in the place of PREFIX is looked up: the longest prefix that holds it and has a best route, else one that has any route.

`replay run` is run on the file and a question behind it; with --printed nothing is run: OUTPUT is what `run`, not `--quiet`, printed of FILE.
With --all in the place of PREFIX it is said at how many prefixes the steps give the row of `best`, and where they don't.

Statuses: 0; 1 where no peer has a route there, or with --all some prefix differs; 2 where the words are wrong or the program isn't there; 3
where a line of the file is refused.
"""
import argparse
import os
import sys

sys.dont_write_bytecode = True
sys.path.insert(0, os.path.join(os.path.dirname(os.path.abspath(__file__)), '..', 'python'))
import decision
import tables
import values

from bgp import eventfile, program

SHOWN = 160  # characters of a value


class Reasons:
    """What stands at one prefix, and why."""

    def __init__(self, found, wanted, prefix):
        self.found, self.wanted, self.prefix, self.mark = found, wanted, prefix, values.mark(prefix)

    def row(self, link):
        return self.found.row(self.mark + link, self.prefix)

    def lines(self):
        yield '%s: %s' % (self.prefix, self.settled())
        own, numbers = self.row('red'), sorted(self.wanted.peers)
        candidates = [decision.candidate(self.wanted, number, self.row('res.%d' % number)) for number in numbers if self.row('res.%d' % number)]
        winner, lost = decision.decided(candidates) if candidates else (None, {})
        if own:
            yield from self.own(own)
        for number in numbers:
            yield from self.of_peer(number, winner, lost, own is not None)
        silent = [number for number in numbers if not self.row('in.%d' % number)]
        if silent:
            yield 'no route there: peer%s %s' % ('s' * (len(silent) > 1), ', '.join(map(str, silent)))
        if not own and not candidates:
            yield 'no route is the best one'

    def settled(self):
        """Whether work is left there."""
        told = self.found.settled.get(self.prefix)
        if told is None:
            return 'whether it is settled wasn\'t asked'
        return 'settled' if told == ['yes'] else 'not settled: %s has work there (docs/LANGUAGE.md, "Settled prefixes")' % told[1]

    def own(self, row):
        route = self.row('int')
        yield 'own route: best, since the router originates it (docs/BGP.md, "The decision"); made of %s' % (route or 'an interior route that went')
        yield '  ' + shortened(row)

    def of_peer(self, number, winner, lost, is_own):
        """One peer's route, and what becomes of it."""
        heard = self.row('in.%d' % number)
        if not heard:
            return
        yield self.name(number) + ': ' + shortened(heard)
        filtered, resolved = self.row('filt.%d' % number), self.row('res.%d' % number)
        if not filtered:
            yield '  rejected by the incoming filter: ' + self.rejecting(number, heard)
        elif not resolved:
            yield '  the next hop %s isn\'t resolved: %s' % (values.route(filtered).attributes['n'], self.unresolved(filtered))
        elif is_own:
            yield '  loses to the own route'
        elif winner.peer == number:
            yield '  best' + self.won(winner, lost)
        else:
            yield '  loses at ' + self.lost(number, *lost[number])

    def name(self, number):
        peer = self.wanted.peers[number]
        kind = 'internal' if self.wanted.is_internal(peer) else 'external'
        return 'peer %d (AS %d, %s, %s)' % (number, peer.asn, peer.address, kind + (', client' if peer.client else ''))

    def won(self, winner, lost):
        """The last step at which another one lost."""
        if not lost:
            return ': no other route is a candidate'
        step = max((step for step, _ in lost.values()), key=lambda one: one.number)
        return ' after step %d, %s (%s): %s' % (step.number, step.keeps, step.section, step.told(winner))

    def lost(self, number, step, rest):
        mine = decision.candidate(self.wanted, number, self.row('res.%d' % number))
        others = [one for one in rest if step.number != 4 or one.neighbour == mine.neighbour] or rest
        return 'step %d, %s (%s): %s beside %s of peer %d' % (
            step.number, step.keeps, step.section, step.told(mine), step.told(others[0]), others[0].peer)

    def rejecting(self, number, heard):
        """What of the incoming filter rejects a route (docs/LANGUAGE.md, "Rules of a filter")."""
        said = values.words_of(heard)
        if self.wanted.asn in values.path_numbers(said['p']):
            return 'the AS path has the local AS %d (RFC 4271, 9.1.2)' % self.wanted.asn
        if values.address(said['n']) == values.address(self.wanted.of(self.prefix).address):
            return 'the next hop is the local address (RFC 4271, 5.1.3)'
        for place, rule in enumerate(self.wanted.of(self.prefix).filters['in'].get(number, []), 1):
            if rule.verdict != 'next' and self.applies(rule.condition, said):
                if rule.verdict == 'reject':
                    return 'rule %d, `%s reject`' % (place, ' '.join(rule.condition))
                break
        return 'by rules that were in force before the last edit: %sfin.%d has work' % (self.mark, number)

    def applies(self, condition, said):
        """Whether a rule's condition holds of the route."""
        if condition[0] == 'path':
            return int(condition[1]) in values.path_numbers(said['p'])
        if condition[0] == 'origin':
            return said['o'] == condition[1]
        if condition[0] == 'any':
            return True
        network, ours = values.masked(condition[0]), values.prefix_key(self.prefix)
        return (values.prefix_key(network).length <= ours.length and int(condition[2]) <= ours.length <= int(condition[4])
                and values.holds(network, ours.address))

    def unresolved(self, filtered):
        """Why a next hop isn't: by the interior routes that are there now."""
        hop = values.address(values.route(filtered).attributes['n'])
        found = [prefix for prefix in self.found.links.get(self.mark + 'int', {}) if values.holds(prefix, hop)]
        if not found:
            return 'no interior route holds it'
        return '%s holds it, but %snh.%s has yet to bring that into force' % (max(found, key=values.prefix_key), self.mark, filtered.partition(':')[0])


def shortened(value):
    return value if len(value) <= SHOWN else value[:SHOWN] + '..'


def declared(lines):
    """What the router is to be behind these lines."""
    wanted = eventfile.Wanted()
    for words in map(str.split, lines):
        if words and not words[0].startswith('#'):
            wanted.take(words)
    return wanted


def looked_up(found, address):
    """The longest prefix that holds an address and has a best route, else one with a route of a peer; None where there is none."""
    for kind in ('best', 'in'):
        links = [link for link in found.links if values.words_of_link(link)[0] == kind]
        holding = {prefix for link in links for prefix in found.links.get(link, {}) if values.holds(prefix, address)}
        if holding:
            return max(holding, key=lambda prefix: values.prefix_key(prefix).length)
    return None


def tables_of(asked, lines, question, wanted):
    """The rows that are wanted, at the end of the file and a question behind it."""
    made = tables.Tables(wanted)
    made.take_all(tables.printed(asked.program.split(' '), lines + question, asked.printed))
    if made.refusal:
        print('why.py: %s: refused.py says more' % made.refusal, file=sys.stderr)
        sys.exit(3)
    return made


def answer(asked, lines):
    """Prints why; the status."""
    is_address = '/' not in asked.prefix
    prefix = None if is_address else values.masked(asked.prefix)
    if is_address:
        address = values.address(asked.prefix)
        prefix = looked_up(tables_of(asked, lines, [], lambda link, one: values.holds(one, address)), address)
        if prefix is None:
            print('no route holds %s' % asked.prefix)
            return 1
    interior = values.mark(prefix) + 'int'
    found = tables_of(asked, lines, ['settled ' + prefix, ''], lambda link, one: one == prefix or link == interior)
    made = Reasons(found, declared(lines), prefix)
    print('\n'.join(made.lines()))
    return 0 if any(made.row('in.%d' % number) for number in found.peers()) or made.row('red') else 1


def decided_at(found, wanted, prefix):
    """The row that the steps give at a prefix, the one on `best`, and the number of the last step at which a route lost; 0 where there is one
    alone, or an own one. Rows are None where there is no route."""
    mark = values.mark(prefix)
    own, best = found.row(mark + 'red', prefix), found.row(mark + 'best', prefix)
    rows = {number: found.row('%sres.%d' % (mark, number), prefix) for number in wanted.peers}
    candidates = [decision.candidate(wanted, number, row) for number, row in rows.items() if row]
    if own or not candidates:
        return own, best, 0
    winner, lost = decision.decided(candidates)
    return rows[winner.peer], best, max((step.number for step, _ in lost.values()), default=0)


def prefixes(found, wanted):
    """All prefixes with a route that may be the best one, or with one that is."""
    links = ['best', 'red'] + ['res.%d' % number for number in wanted.peers]
    return sorted(set().union(*(found.links.get(mark + link, ()) for mark in ('', values.OF_IPV6) for link in links)), key=values.prefix_key)


def agree(asked, lines):
    """Prints at how many prefixes the decision gives the row of `best`; the status."""
    found, wanted, count, wrong = tables_of(asked, lines, [], lambda link, one: True), declared(lines), 0, 0
    for prefix in prefixes(found, wanted):
        count += 1
        ours, theirs, _ = decided_at(found, wanted, prefix)
        if ours != theirs:
            wrong += 1
            print('%s: by the steps %s, on `best` %s' % (prefix, ours, theirs))
    print('%d prefixes, %d differ' % (count, wrong))
    return 1 if wrong else 0


def main():
    words = argparse.ArgumentParser(description=__doc__, formatter_class=argparse.RawDescriptionHelpFormatter)
    words.add_argument('file', metavar='FILE')
    words.add_argument('prefix', metavar='PREFIX', nargs='?')
    words.add_argument('--all', action='store_true')
    words.add_argument('--line', type=int, metavar='N')
    words.add_argument('--program', default=program.BUILT, help='the words of another program than the built one')
    words.add_argument('--printed', metavar='OUTPUT')
    asked = words.parse_args()
    if asked.all == bool(asked.prefix):
        words.error('a PREFIX, or --all')
    try:
        values.masked(asked.prefix or '0.0.0.0/0')
        lines = tables.lines_of(asked.file)[:asked.line]
        return agree(asked, lines) if asked.all else answer(asked, lines)
    except ValueError as error:
        words.error(str(error))
    except (OSError, tables.Refused) as error:
        print('why.py: %s' % (error if not getattr(error, 'filename', None) else '%s: %s' % (error.filename, error.strerror)), file=sys.stderr)
        return 2
    except BrokenPipeError:
        os.dup2(os.open(os.devnull, os.O_WRONLY), 1)
        return 2


if __name__ == '__main__':
    sys.exit(main())
