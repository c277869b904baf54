#!/usr/bin/env python3
"""`replay` between real routers: speaker.py SETUP [--hold 90] [--port 179] [--program WORDS]

Speaks BGP over TCP, and nothing else: it answers the OPENs of the peers that SETUP declares, says KEEPALIVE, and watches the hold timer
(RFC 4271, sections 4.2, 4.4 and 6). What a message means it doesn't know: each one of a session that is up goes as a line `bgp K HEX` into one
`replay run`, and each line `out K HEX` or `note K HEX` that comes back goes to the peer as the message. A session that comes up is the line
`up K`; one that ends by the connection or by the hold timer is `down K`. Behind the messages of each read stands `idle`.

SETUP is the front of an event file (docs/LANGUAGE.md): `as4`, `revised`, `reflect`, `local`, `local6`, `peer`, and `filter`, `route` and `redist` of both
networks. Lines of these kinds, and `show`, `ask`, `settled`, `lost` and `lost6`, may come on standard input at any time; what the program answers goes to
standard output. Each is first given to another run of the program, behind SETUP: where that refuses it, it is told why, and nothing else happens by it.
What becomes of sessions is said on standard error, each with the seconds since the begin. It runs until it gets SIGINT or SIGTERM.

It isn't a router's session layer: it waits for connections and makes none, a second connection of a peer is refused, in place of collision
detection (RFC 4271, section 6.8), and the only capabilities are IPv4 unicast (RFC 4760) and, where SETUP has `local6`, IPv6 unicast, where it has `as4`, AS
numbers of four octets. All sessions are of IPv4.
Statuses: 0, 2 where SETUP can't be taken, the address isn't there or is in use, or the program ends.
"""
import argparse
import os
import queue
import selectors
import signal
import socket
import struct
import subprocess
import sys
import threading
import time

for folder in ('reasons', 'python'):
    sys.path.insert(0, os.path.join(os.path.dirname(os.path.abspath(__file__)), '..', folder))
import refused
from bgp import eventfile, program, wire

ONCE = ('as4', 'revised', 'reflect', 'local', 'local6')
TAKEN = ONCE + ('peer', 'filter', 'filter6', 'route', 'redist', 'redist6')
LOST, ASKED = ('lost', 'lost6'), ('show', 'ask', 'settled')
OPEN_SENT, OPEN_CONFIRM, ESTABLISHED, ENDED = 'OpenSent', 'OpenConfirm', 'Established', 'ended'
OPENED_WITHIN = 10  # seconds
READ = 1 << 16
CEASE, HOLD_TIMER = (6, 2), (4, 0)  # codes and subcodes of NOTIFICATIONs


class Refused(Exception):
    """The program, or this script, doesn't take a line."""


def refusal(words, lines):
    """Why the program refuses some lines: what refused.py says of the first that it refuses; None where it takes all."""
    try:
        ran = subprocess.run(words + ['run', '--quiet'], input='\n'.join(lines).encode('latin-1') + b'\n', stdout=subprocess.PIPE, check=False)
    except OSError as error:
        raise Refused('%s: %s (README.md says how the program is built)' % (words[0], error.strerror)) from error
    last = ran.stdout.decode('ascii').rstrip('\n').rpartition('\n')[2].split(' ')
    return list(refused.Refusal(lines, int(last[1]), last[2]).report()) if last[0] == 'refused' else None


class Program:
    """One `replay run`. A thread puts the lines that it prints into a queue, so that neither side waits for the other."""

    def __init__(self, words, wake):
        try:
            self.words = words
            self.process = subprocess.Popen(words + ['run', '--quiet'], stdin=subprocess.PIPE, stdout=subprocess.PIPE, start_new_session=True)
        except OSError as error:
            raise Refused('%s: %s (README.md says how the program is built)' % (words[0], error.strerror)) from error
        self.lines, self.wake = queue.SimpleQueue(), wake
        threading.Thread(target=self.listen, daemon=True).start()

    def listen(self):
        for line in self.process.stdout:
            self.lines.put(line.decode('ascii').rstrip('\n'))
            self.wake()
        self.lines.put(None)
        self.wake()

    def write(self, lines):
        try:
            self.process.stdin.write(''.join(line + '\n' for line in lines).encode('latin-1'))
            self.process.stdin.flush()
        except BrokenPipeError:
            pass  # why stands in its output

    def stop(self):
        try:
            self.process.stdin.close()
            self.process.wait(5)
        except (OSError, subprocess.TimeoutExpired):
            self.process.kill()
            self.process.wait()


class Session:
    """One connection of a peer. `number` counts the sessions of that peer that came up, as the program does."""

    def __init__(self, made, peer, hold):
        made.setblocking(False)
        self.socket, self.peer, self.hold, self.number = made, peer, hold, 0
        self.state, self.buffer, self.waiting = OPEN_SENT, b'', b''
        self.heard = self.said = time.monotonic()

    def send(self, octets):
        self.waiting += octets
        self.said = time.monotonic()
        self.flush()

    def notify(self, code, data=b''):
        self.send(wire.message(wire.NOTIFICATION, bytes(code) + data))

    def flush(self):
        try:
            while self.waiting:
                self.waiting = self.waiting[self.socket.send(self.waiting[:READ]):]
        except (BlockingIOError, OSError):
            pass  # a connection that broke is found by reading

    def messages(self):
        """The whole messages of one read. Where a length can't be right, the header stands for the message, and all else is dropped."""
        try:
            more = self.socket.recv(READ)
        except BlockingIOError:
            return
        if not more:
            raise EOFError
        self.heard = time.monotonic()
        self.buffer += more
        while len(self.buffer) >= 19:
            size = wire.size(self.buffer)
            if not 19 <= size <= wire.MOST:
                size = len(self.buffer)
                yield self.buffer[:19]
            elif len(self.buffer) < size:
                return
            else:
                yield self.buffer[:size]
            self.buffer = self.buffer[size:]

    def pace(self):
        """Seconds between KEEPALIVEs; None without a hold time."""
        return self.hold / 3 if self.hold else None


class Speaker:
    def __init__(self, lines, asked):
        self.begun, self.asked, self.setup = time.monotonic(), asked, lines
        self.wanted = eventfile.Wanted()
        for words in filter(None, map(str.split, lines)):
            self.wanted.take(words)
        self.peers = {peer.address: peer for peer in self.wanted.peers.values()}
        self.listener = listening(self.wanted.address, asked.port)
        self.sessions, self.current, self.counts = {}, {}, {}
        self.selector = selectors.PollSelector()
        self.woken, self.waker = socket.socketpair()
        self.waker.setblocking(False)
        self.selector.register(self.woken, selectors.EVENT_READ, 'program')
        self.input = b''
        self.program = Program(asked.program.split(' '), self.wake)
        self.program.write(lines + ['cover 0.0.0.0'])
        while not self.program_line(self.program.lines.get()):
            pass
        self.selector.register(self.listener, selectors.EVENT_READ, 'listener')
        self.selector.register(sys.stdin, selectors.EVENT_READ, 'input')
        self.say('waits on %s port %d' % (self.wanted.address, asked.port))

    def say(self, text):
        print('%8.3f %s' % (time.monotonic() - self.begun, text), file=sys.stderr, flush=True)

    def wake(self):
        """The program has printed something. Called by another thread."""
        try:
            self.waker.send(b'.')
        except BlockingIOError:
            pass  # it will wake anyhow

    # ---- the program's lines

    def program_line(self, line):
        """One line that the program printed; whether it is the one behind SETUP."""
        words = line.split(' ') if line is not None else ['end']
        if words[0] in ('out', 'note'):
            self.to_peer(int(words[1]), bytes.fromhex(words[2]), words[0])
        elif words[0] == 'cover' and words[1].startswith('0.'):
            return self.marked(words[1])
        elif words[0] in ('refused', 'end'):
            raise Refused('the program says: %s' % (line or 'nothing more'))
        elif words[0] not in ('bound', 'idle'):
            print(line, flush=True)
        return False

    def marked(self, address):
        """From this line on what goes to the peer belongs to this session of it."""
        number, session = int(address.split('.')[1]), int(address.split('.')[2]) << 8 | int(address.split('.')[3])
        if number:
            self.current[number] = session
        return number == 0

    def to_peer(self, number, octets, kind):
        session = self.sessions.get(number)
        if session is None or session.state != ESTABLISHED or session.number != self.current.get(number):
            return  # the session that it belongs to has ended
        session.send(octets)
        if kind == 'note':
            self.end(session, 'the program ended it: ' + wire.told(octets[18], octets[19:]), False)

    # ---- sessions

    def accept(self):
        made, (address, _) = self.listener.accept()
        peer = self.peers.get(address)
        if peer is None or peer.number in self.sessions:
            made.close()
            return
        session = self.sessions[peer.number] = Session(made, peer, self.asked.hold)
        self.selector.register(made, selectors.EVENT_READ, session)
        families = wire.OF_IPV4 + wire.OF_IPV6 * (self.wanted.second is not None)
        session.send(wire.opening(self.wanted.asn, self.wanted.identifier, self.asked.hold, self.wanted.wide, families))

    def end(self, session, why, tell_the_program):
        if session.state == ENDED:
            return
        if session.state == ESTABLISHED and tell_the_program:
            self.program.write(['down %d' % session.peer.number, 'idle'])
        self.say('peer %d: %s, %s' % (session.peer.number, 'down' if session.state == ESTABLISHED else 'not up', why))
        session.state = ENDED
        session.flush()
        self.selector.unregister(session.socket)
        session.socket.close()
        del self.sessions[session.peer.number]

    def read(self, session):
        lines, ended = [], None
        try:
            for octets in session.messages():
                if session.state == ESTABLISHED:
                    lines.append('bgp %d %s' % (session.peer.number, octets.hex()))
                    if octets[18] == wire.NOTIFICATION and len(octets) > 20:
                        ended = 'they said ' + wire.told(octets[18], octets[19:])
                        break
                else:
                    lines += self.opening(session, octets[18], octets[19:])
        except (OSError, EOFError):
            self.program.write(lines)
            self.end(session, 'the connection ended', True)
            return
        if lines:
            self.program.write(lines + ['idle'])
        if ended:
            self.end(session, ended, False)  # the program has read it, too

    def opening(self, session, kind, body):
        """A message before the session is up; the lines that it makes for the program."""
        if session.state == OPEN_SENT and kind == wire.OPEN:
            fault = self.fault(session, body)
            if fault:
                session.notify(fault)
                self.end(session, 'OPEN refused with %d/%d: %s' % (*fault, wire.told(kind, body)), False)
                return []
            session.state, theirs = OPEN_CONFIRM, struct.unpack('>H', body[3:5])[0]
            session.hold = min(session.hold, theirs)
            session.send(wire.message(wire.KEEPALIVE))
        elif session.state == OPEN_CONFIRM and kind == wire.KEEPALIVE:
            session.state, number = ESTABLISHED, session.peer.number
            session.number = self.counts[number] = self.counts.get(number, 0) + 1
            self.say('peer %d: up, session %d, hold time %d' % (number, session.number, session.hold))
            return ['cover 0.%d.%d.%d' % (number, session.number >> 8, session.number & 255), 'up %d' % number]
        elif session.state != ENDED:
            session.notify((5, 0))
            self.end(session, 'in %s they said %s' % (session.state, wire.told(kind, body)), False)
        return []

    def fault(self, session, body):
        """What is wrong with an OPEN (RFC 4271, section 6.2): code and subcode."""
        if len(body) < 10:
            return 1, 2
        version, asn, hold = struct.unpack('>BHH', body[:5])
        if version != 4:
            return 2, 1
        if asn != wire.short(session.peer.asn):
            return 2, 2
        if hold in (1, 2):
            return 2, 6
        if body[5:9] == bytes(4):
            return 2, 3
        lacks_width = self.wanted.wide and wire.WIDE not in wire.capabilities(body)
        return (2, 7) if lacks_width or self.wanted.second and wire.IPV6 not in wire.families(body) else None

    def timers(self):
        now = time.monotonic()
        for session in list(self.sessions.values()):
            limit = session.hold if session.state == ESTABLISHED else OPENED_WITHIN
            if limit and now - session.heard > limit:
                session.notify(HOLD_TIMER)
                self.end(session, 'nothing came for %d s (in %s)' % (limit, session.state), True)
            elif session.state == ESTABLISHED and session.hold and now - session.said > session.pace():
                session.send(wire.message(wire.KEEPALIVE))
            elif session.waiting:
                session.flush()

    # ---- standard input

    def read_input(self):
        more = os.read(sys.stdin.fileno(), READ)
        if not more:
            self.selector.unregister(sys.stdin)
        whole, _, self.input = (self.input + more).rpartition(b'\n')
        for line in whole.decode('latin-1').split('\n'):
            if line.strip():
                self.take_input(line)

    def take_input(self, line):
        """One line of standard input: taken where the program takes it behind SETUP, which is tried first."""
        words = line.split()
        if words[0] not in TAKEN + ASKED + LOST:
            self.say('not taken: %s: it comes from the network, or isn\'t one of %s' % (ascii(line)[1:-1], ' '.join(TAKEN[len(ONCE):] + ASKED + LOST)))
            return
        why = refusal(self.program.words, self.setup + [line])
        if why:
            self.say('not taken: ' + '\n'.join(['refused: ' + why[0].split(': ', 1)[1]] + why[1:]))
            return
        self.program.write([line] + ([] if words[0] in ASKED else ['idle']))
        if words[0] == 'peer':
            self.setup.append(line)
        self.wanted.take(words)
        self.peers = {peer.address: peer for peer in self.wanted.peers.values()}

    # ---- all of it

    def turn(self):
        """Whatever has come, within half a second."""
        for key, _ in self.selector.select(.05 if any(one.waiting for one in self.sessions.values()) else .5):
            if key.data == 'listener':
                self.accept()
            elif key.data == 'input':
                self.read_input()
            elif key.data == 'program':
                self.woken.recv(READ)
            elif key.data.state != ENDED:
                self.read(key.data)
        while not self.program.lines.empty():
            self.program_line(self.program.lines.get())
        self.timers()

    def stop(self):
        for session in list(self.sessions.values()):
            session.notify(CEASE)
            self.end(session, 'this speaker ends', True)
        self.program.stop()


def listening(address, port):
    """A socket on which the peers' connections come."""
    made = socket.socket()
    made.setsockopt(socket.SOL_SOCKET, socket.SO_REUSEADDR, 1)
    try:
        made.bind((address, port))
        made.listen(64)
    except OSError as error:
        made.close()
        raise Refused('%s port %d: %s' % (address, port, error.strerror)) from error
    return made


def setup(path, words):
    """The lines of SETUP, which the program takes."""
    try:
        with open(path, encoding='latin-1') as file:
            lines = file.read().rstrip('\n').split('\n')
    except OSError as error:
        raise Refused('%s: %s' % (path, error.strerror)) from error
    for number, line in enumerate(lines, 1):
        first = line.split()[:1]
        if first and not first[0].startswith('#') and first[0] not in TAKEN:
            raise Refused('%s: line %d: `%s` comes from the network, not from SETUP' % (path, number, first[0]))
    why = refusal(words, lines)
    if why:
        raise Refused('%s: %s' % (path, '\n'.join(why)))
    if not any(line.split()[:1] == ['local'] for line in lines):
        raise Refused('%s: it has no line `local AS ID ADDR`' % path)
    return lines


def main():
    words = argparse.ArgumentParser(description=__doc__, formatter_class=argparse.RawDescriptionHelpFormatter)
    words.add_argument('setup', metavar='SETUP')
    words.add_argument('--hold', type=int, default=90, help='hold time in seconds, 0 or at least 3')
    words.add_argument('--port', type=int, default=179)
    words.add_argument('--program', default=program.BUILT, help='the words of another program than the built one')
    asked = words.parse_args()
    for sign in (signal.SIGINT, signal.SIGTERM):
        signal.signal(sign, signal.default_int_handler)
    speaker = None
    try:
        speaker = Speaker(setup(asked.setup, asked.program.split(' ')), asked)
        while True:
            speaker.turn()
    except KeyboardInterrupt:
        return 0
    except (OSError, Refused) as error:
        print('speaker.py: %s' % error, file=sys.stderr)
        return 2
    finally:
        if speaker:
            speaker.stop()


if __name__ == '__main__':
    sys.exit(main())
