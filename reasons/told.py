#!/usr/bin/env python3
"""What each line of an event file does: told.py FILE [WORD..] [--program WORDS | --printed OUTPUT]

FILE is an event file (`-`: standard input). Of each event stand the number and the text of its line, and below it the lines that the program
prints of it: what changed on which link, what was sent. Messages are told in words. With WORDs, as a prefix (10.0.0.0/8), a link (best, 6.in.1,
adv for all of a kind) or the first word of a line (out, settled), the lines that have all of them are told alone, and the events that have such
lines.

`replay run` is run on the file with a question behind each event, `settled 255.255.255.255/32`; with --printed nothing is run: OUTPUT is what
`run` printed of such a file.

Statuses: 0; 1 where WORDs are given and no line has them; 2 where the words are wrong or the program isn't there; 3 where a line of the file is
refused (what was before it is told).
"""
import argparse
import os
import sys

sys.dont_write_bytecode = True
sys.path.insert(0, os.path.join(os.path.dirname(os.path.abspath(__file__)), '..', 'python'))
import tables
import values

from bgp import messages, program, wire

SHOWN = 200  # characters of a line


def message(octets, width):
    """A message in words: its type, and of an UPDATE what it withdraws and announces, of each family with its attributes."""
    if len(octets) < 19:
        return 'a message of %d octets' % len(octets)
    said = wire.told(octets[18], octets[19:])
    if octets[18] != wire.UPDATE:
        return said
    try:
        found = wire.update(octets[19:])
        words = ['-' + prefix for prefix in found.withdrawn]
        for family in wire.FAMILIES:
            came = [prefix for prefix in found.announced if wire.family(prefix) == family]
            if came:
                words += ['+' + prefix for prefix in came] + [wire.text(wire.of_family(found.attributes, family), width)]
        return ' '.join([said] + words) if words else said + ' without prefixes'
    except (ValueError, KeyError, IndexError):
        return said + ' that can\'t be read'


def shortened(text):
    return text if len(text) <= SHOWN else text[:SHOWN] + '..'


def told(text, width):
    """A line of an event file or of the output, where it has a message with that in words."""
    words = text.split()
    if len(words) == 3 and words[0] in ('bgp', 'out', 'note'):
        try:
            return shortened('%s %s %s' % (words[0], words[1], message(bytes.fromhex(words[2]), width)))
        except ValueError:
            pass
    return shortened(text)


def as_printed(word):
    """A word that is asked for, as the output has it: an address of IPv6 has eight groups there."""
    try:
        if ':' in word:
            return values.masked(word) if '/' in word else values.address_text(values.address(word))
    except ValueError:
        pass
    return word


def has(line, wanted):
    """Whether a line of the output has all these words."""
    words = line.split(' ')
    return all(word in words or any(link.startswith(word + '.') for link in words[1:3]) for word in wanted)


def blocks(lines, events):
    """Of each event its lines of the output. Ends with the first that isn't whole."""
    for number, words, is_marked in events:
        block = []
        for line in lines if is_marked else ():
            if line.startswith(program.MARK):
                break
            block.append(line)
        else:
            if is_marked:
                yield number, words, block
                return
        yield number, words, block


def tell(asked, text):
    """Prints what each event does; the status."""
    marked, events, numbers = program.marked(text)
    width, source, found = 4 if any(words == ['as4'] for _, words, _ in events) else 2, text.split('\n'), 0
    wanted = list(map(as_printed, asked.words))
    for number, _, block in blocks(tables.printed(asked.program.split(' '), marked.split('\n'), asked.printed), events):
        kept = [line for line in block if has(line, wanted)]
        if kept or not asked.words:
            found += 1
            print('%d: %s' % (number, told(source[number - 1].rstrip('\r'), width)))
        for line in kept:
            print('    ' + told(line if not line.startswith('refused ') else program.refusal([line], numbers), width))
        if block and block[-1].startswith('refused '):
            return 3
    return 0 if found or not asked.words else 1


def main():
    words = argparse.ArgumentParser(description=__doc__, formatter_class=argparse.RawDescriptionHelpFormatter)
    words.add_argument('file', metavar='FILE')
    words.add_argument('words', metavar='WORD', nargs='*')
    words.add_argument('--program', default=program.BUILT, help='the words of another program than the built one')
    words.add_argument('--printed', metavar='OUTPUT')
    asked = words.parse_args()
    try:
        return tell(asked, '\n'.join(tables.lines_of(asked.file)))
    except BrokenPipeError:
        os.dup2(os.open(os.devnull, os.O_WRONLY), 1)
        return 2
    except (OSError, tables.Refused) as error:
        print('told.py: %s' % (error if not getattr(error, 'filename', None) else '%s: %s' % (error.filename, error.strerror)), file=sys.stderr)
        return 2


if __name__ == '__main__':
    sys.exit(main())
