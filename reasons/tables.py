"""The tables that an output tells, line by line: of each live link its rows (docs/OUTPUT.md, "The rules")."""
import re
import subprocess
import sys
import threading

from bgp import program

Refused = program.Refused


def lines_of(path):
    """The lines of an event file; `-` is standard input."""
    if path == '-':
        return sys.stdin.buffer.read().decode('latin-1').split('\n')
    with open(path, encoding='latin-1', newline='\n') as file:
        return file.read().split('\n')


def printed(words, lines, before=None):
    """The lines that the program prints of an event file, one by one. With `before` it isn't run: that file has what it printed."""
    if before:
        with open(before, encoding='ascii') as file:
            yield from (line.rstrip('\n') for line in file)
        return
    try:
        ran = subprocess.Popen(words + ['run'], stdin=subprocess.PIPE, stdout=subprocess.PIPE)
    except OSError as error:
        raise Refused('%s: %s (README.md says how the program is built)' % (words[0], error.strerror)) from error
    with ran:
        feeder = program_input(ran, '\n'.join(lines).encode('latin-1'))
        yield from (line.decode('ascii').rstrip('\n') for line in ran.stdout)
        feeder.join()
    if ran.returncode not in (0, 3):
        raise Refused('the program ended with status %d' % ran.returncode)


def program_input(ran, text):
    """Writes a text to a program beside the reading of what it prints."""
    def write():
        try:
            ran.stdin.write(text)
            ran.stdin.close()
        except BrokenPipeError:
            pass
    made = threading.Thread(target=write, daemon=True)
    made.start()
    return made


class Tables:
    """The rows of all live links that are wanted, by link and prefix."""

    def __init__(self, wanted=lambda link, prefix: True):
        self.wanted, self.links, self.settled, self.refusal = wanted, {}, {}, None

    def take(self, line):
        words = line.split(' ')
        kind = words[0]
        if kind in ('+', '='):
            if self.wanted(words[1], words[2]):
                self.links[words[1]][words[2]] = words[-1]
        elif kind == '-':
            self.links[words[1]].pop(words[2], None)
        elif kind == 'b':
            self.links[words[1]] = {}
        elif kind == 'i':
            self.links[words[1]] = dict(self.links[words[2]])
        elif kind in ('w', 'e'):
            del self.links[words[1]]
        elif kind == 'settled':
            self.settled[words[1]] = words[2:]
        elif kind == 'refused':
            self.refusal = line

    def take_all(self, lines):
        for line in lines:
            self.take(line)
        return self

    def row(self, link, prefix):
        return self.links.get(link, {}).get(prefix)

    def peers(self):
        """The numbers of all peers that are declared."""
        return sorted(int(link.split('.')[1]) for link in self.links if re.fullmatch(r'in\.\d+', link))
