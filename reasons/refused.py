#!/usr/bin/env python3
"""Why a line is refused: refused.py FILE [--program WORDS | --printed OUTPUT]

FILE is an event file (`-`: standard input). Of the line that `replay run` refuses stand its number, its text with a mark below the column that is
wrong, its code in words, and the grammar of its first word, or the word that is most like it; of one that comes too late or twice the line
before it that is in the way. All of it is read out of docs/LANGUAGE.md. With --printed the program isn't run: OUTPUT is what it printed. An
output alone (`-` with --printed `-`) isn't enough: the file is needed, too.

Statuses: 0 where no line is refused; 2 where the words are wrong or the program isn't there; 3 where a line is refused, as of the program.
"""
import argparse
import os
import re
import sys

sys.dont_write_bytecode = True
sys.path.insert(0, os.path.join(os.path.dirname(os.path.abspath(__file__)), '..', 'python'))
import grammar
import tables

from bgp import program

SHOWN = 100  # characters of a line
MOST = 16384  # bytes of a line
PEERS, RULES, SESSIONS = 64, 64, 65535


class Refusal:
    """A refused line: what stands there, and before it."""

    def __init__(self, lines, number, code):
        self.lines, self.number, self.code = lines, number, code
        self.whole = lines[number - 1] if number <= len(lines) else ''
        self.line = self.whole[:-1] if self.whole.endswith('\r') and number < len(lines) else self.whole
        self.words = [word for word in self.line.split(' ') if word]
        self.text = grammar.page()
        self.is_wide = any(line.split() == ['as4'] for line in lines[:number])

    def report(self):
        """The lines that are printed."""
        yield 'line %d: %s: %s' % (self.number, self.code, self.means())
        column, reasons = getattr(self, 'of_' + self.code.lower(), lambda: (None, []))()
        begin = max(0, (column or 0) - SHOWN // 2) if len(self.line) > SHOWN else 0
        yield '  | ' + ('..' if begin else '') + ''.join(letter if ' ' <= letter <= '~' else '?' for letter in self.line[begin:begin + SHOWN])
        if column:
            yield '  | ' + ' ' * (column - 1 - begin + 2 * bool(begin)) + '^ column %d' % column
        yield from ('  ' + reason for reason in reasons)

    def means(self):
        told = grammar.codes(self.text)[self.code].split(';' if self.code in ('E2', 'E5', 'E9') else '\n')[0]
        return told.replace('grammar above', 'grammar (docs/LANGUAGE.md)')

    def column(self, place):
        """The column of a word, from 1; that of the end of the line where there are no more words."""
        starts = [found.start() + 1 for found in re.finditer('[^ ]+', self.line)]
        return starts[place] if place < len(starts) else len(self.line.rstrip(' ')) + 2

    def earlier(self, *fronts):
        """The numbers of earlier lines with one of these first words, and their words."""
        for number, line in enumerate(self.lines[:self.number - 1], 1):
            words = line.split()
            if words and words[0] in fronts:
                yield number, words

    # ---- of each code the column, and what is to be said besides

    def of_e1(self):
        odd = next((place for place, letter in enumerate(self.line) if not ' ' <= letter <= '~'), None)
        if odd is not None and odd < MOST:
            told = {'\t': 'a tab', '\r': 'a CR that no LF follows', '\xa0': 'a space that doesn\'t break'}.get(self.line[odd])
            if self.line.startswith('\xef\xbb\xbf'):
                told = 'the file begins with a byte order mark'
            return odd + 1, ['byte 0x%02x%s' % (ord(self.line[odd]), ': %s' % told if told else '')]
        return MOST + 1, ['%d bytes' % len(self.line)]

    def of_e2(self):
        known = grammar.forms(self.text)
        found = grammar.fault(self.words, known, self.is_wide)
        if found is None:
            return None, ['such lines are: ' + '; '.join('`%s`' % form for form in known[self.words[0]])] + list(self.hints())
        if not found.form:
            near = grammar.nearest(self.words[0].lower(), known)
            return 1 + len(self.line) - len(self.line.lstrip(' ')), [
                '`%s` begins no event; ' % self.words[0][:SHOWN]
                + ('most like it: %s' % '; '.join('`%s`' % form for form in known[near]) if near else 'these do: ' + ' '.join(sorted(known)))]
        reasons = ['wanted there: %s' % found.wanted, 'the form: `%s`' % found.form]
        if found.wanted.isupper():
            # ADDR of `cover` is any address
            reasons.append(grammar.sentence(self.text, 'GATEWAY' if found.form == 'cover ADDR' else found.wanted))
            reasons += self.of_family(found)
        elif found.form.endswith('RULES') and found.place >= 3:
            reasons += self.of_family(found) + [grammar.sentence(self.text, 'RULES')]
        others = [form for form in known[self.words[0]] if form != found.form and len(form.split(' ')) > found.place
                  and form.split(' ')[:found.place] == found.form.split(' ')[:found.place]]
        return self.column(found.place), reasons + (['or: ' + '; '.join('`%s`' % form for form in others)] if others else [])

    def of_family(self, found):
        """What a word has to do with the family of addresses of its line, if that is what is wrong."""
        word = ''.join(self.words[found.place:found.place + 1])
        if found.wanted in ('ADDR', 'ID') and self.words[0] in ('peer', 'local') and grammar.is_address6(word):
            return ['this speaker and its peers are known by addresses of IPv4']
        if found.wanted == 'ADDR6' and grammar.is_address(word):
            return ['`local6` has an address of IPv6']
        if self.words[0] in ('filter', 'filter6') and grammar.is_any_prefix(word):
            return ['`filter` has prefixes of IPv4, `filter6` those of IPv6']
        if ':' in word and not grammar.is_address6(word.partition('/')[0]):
            return ['an address of IPv6 is eight groups of one to four hex digits with colons between them, or fewer with one `::`']
        fits = {'PREFIX': grammar.is_any_prefix, 'GATEWAY': grammar.is_any_address}.get(found.wanted, lambda word: False)
        if self.words[0] in ('ask', 'route') and fits(word):
            both = self.words[1 if self.words[0] == 'ask' else 3], word
            return [' and '.join('`%s` is of IPv%d' % (one, 6 if grammar.is_of_ipv6(one) else 4) for one in both)]
        return []

    def hints(self):
        """What is outside the grammar by lines before."""
        if self.words[-1] == 'client':
            yield '`client` may stand only behind a line `reflect`'

    def of_e3(self):
        if self.words[0] == 'local':
            return 1, ['`local` stands in line %d' % next(number for number, _ in self.earlier('local'))]
        for number, words in self.earlier('peer', 'local'):
            if words[0] == 'peer' and words[1] == self.words[1]:
                return self.column(1), ['peer %s is declared in line %d' % (self.words[1], number)]
            if words[4 if words[0] == 'peer' else 3] == self.words[4]:
                return self.column(4), ['%s is the address of line %d: %s' % (self.words[4], number, ' '.join(words))]
        return None, []

    def of_e4(self):
        later = [number for number, line in enumerate(self.lines, 1) if line.split()[:1] == ['local']]
        return 1, ['`local` stands in line %d' % later[0] if later else 'the file has no line `local AS ID ADDR`']

    def of_e5(self):
        declared = {words[1] for _, words in self.earlier('peer')}
        for place, word in enumerate(self.words):
            number = self.number_of(place, word)
            if number and number not in declared:
                return self.column(place), ['peer %s isn\'t declared before this line; %s' % (
                    number, 'these are: ' + ' '.join(sorted(declared, key=int)) if declared else 'no peer is')]
        return None, []

    def number_of(self, place, word):
        """The number of the peer that a word names, if it names one."""
        if self.words[0] in ('up', 'down', 'bgp') and place == 1 or self.words[0] in ('filter', 'filter6') and place == 2:
            return word
        named = re.fullmatch(r'(?:6\.)?(?:in|peer|filt|res|read|outf|adv|del|fin|nh|out|ref)\.([0-9]+)(?:\.[0-9]+)?', word)
        return named[1] if named and self.words[0] in ('show', 'ask', 'work') and place == 1 else None

    def of_e6(self):
        if self.words[:1] == ['peer']:
            return self.column(1), ['a router has at most %d peers' % PEERS]
        if self.words[:1] in (['filter'], ['filter6']):
            return self.column(3), ['a filter has at most %d rules; this one has %d' % (
                RULES, sum(word in grammar.ENDS for word in self.words))]
        if self.words[:1] == ['up']:
            return self.column(1), ['peer %s has had %d sessions' % (self.words[1], SESSIONS)]
        return None, []

    def of_e7(self):
        before = list(self.earlier('peer' if self.words[0] == 'local6' else 'local', self.words[0]))
        number, words = before[0]
        return 1, ['`%s` stands in line %d' % (words[0], number)]

    def of_e8(self):
        number, words = next(self.earlier('local'))
        return self.column(2), ['the local AS is %s (line %d)' % (words[1], number)]

    def of_e9(self):
        later = [number for number, line in enumerate(self.lines, 1) if line.split()[:1] == ['local6']]
        place = next((place for place, word in enumerate(self.words) if grammar.is_of_ipv6(word)), 0)
        return self.column(place), ['`local6` stands in line %d' % later[0] if later else 'the file has no line `local6 ADDR6`']


def explain(asked, lines):
    """Prints what is refused; the status."""
    last = ''
    for line in tables.printed(asked.program.split(' '), lines, asked.printed):
        last = line
    words = last.split(' ')
    if words[0] != 'refused' or len(words) != 3:
        print('no line is refused')
        return 0
    print('\n'.join(Refusal(lines, int(words[1]), words[2]).report()))
    return 3


def main():
    words = argparse.ArgumentParser(description=__doc__, formatter_class=argparse.RawDescriptionHelpFormatter)
    words.add_argument('file', metavar='FILE')
    words.add_argument('--program', default=program.BUILT, help='the words of another program than the built one')
    words.add_argument('--printed', metavar='OUTPUT')
    asked = words.parse_args()
    try:
        return explain(asked, tables.lines_of(asked.file))
    except BrokenPipeError:
        os.dup2(os.open(os.devnull, os.O_WRONLY), 1)
        return 2
    except (OSError, tables.Refused) as error:
        print('refused.py: %s' % (error if not getattr(error, 'filename', None) else '%s: %s' % (error.filename, error.strerror)), file=sys.stderr)
        return 2


if __name__ == '__main__':
    sys.exit(main())
