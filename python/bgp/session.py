"""One end of a BGP session over TCP: whole messages, and the exchange that opens it (RFC 4271, sections 4 and 8)."""
import fcntl
import socket
import struct
import time

from bgp import wire

SIOCOUTQ = 0x5411  # linux/sockios.h


class Refused(Exception):
    """The session didn't come up: what both sides said."""


def connect(address, to, seconds, pause=.2):
    """A connection from an address to another one, for which is asked again and again for so long."""
    end = time.monotonic() + seconds
    while True:
        made = socket.socket(socket.AF_INET6 if ':' in address else socket.AF_INET)
        made.settimeout(max(1, end - time.monotonic()))
        try:
            made.bind((address, 0))
            made.connect(to)
            made.settimeout(None)
            return made
        except OSError as error:
            made.close()
            if time.monotonic() > end:
                raise TimeoutError('no connection from %s to %s within %d s: %s' % (address, to[0], seconds, error)) from error
            time.sleep(pause)


class Connection:
    """Whole messages over a connection."""

    def __init__(self, made):
        self.socket, self.buffer, self.at = made, b'', 0  # octets that came, and where the next message begins among them
        self.dialogue = []  # what both sides said until the session was up

    def send(self, octets):
        self.dialogue.append('we said ' + wire.told(octets[18], octets[19:]))
        self.socket.sendall(octets)

    def read(self):
        """The next message: type and body."""
        while len(self.buffer) - self.at < self.size():
            more = self.socket.recv(1 << 18)
            if not more:
                raise EOFError('the other side closed the session')
            self.buffer, self.at = self.buffer[self.at:] + more, 0
        begin, self.at = self.at, self.at + self.size()
        kind, body = self.buffer[begin + 18], self.buffer[begin + 19:self.at]
        return kind, body

    def size(self):
        """How many octets the next message has; those of a header, where no whole one has come yet."""
        if len(self.buffer) - self.at < 19:
            return 19
        return max(19, wire.size(self.buffer, self.at))

    def all_taken(self):
        """Whether the other side has acknowledged all that was sent; also where the connection is closed."""
        try:
            return not struct.unpack('i', fcntl.ioctl(self.socket.fileno(), SIOCOUTQ, bytes(4)))[0]
        except (OSError, ValueError):
            return True

    def open(self, ours, seconds=10):
        """Says our OPEN and waits until both sides have said OPEN and KEEPALIVE; the body of the other one's OPEN."""
        self.socket.settimeout(seconds)
        try:
            self.send(ours)
            theirs = self.expect(wire.OPEN)
            self.send(wire.message(wire.KEEPALIVE))
            self.expect(wire.KEEPALIVE)
        except (OSError, EOFError) as error:
            raise Refused('%s (%s)' % ('; '.join(self.dialogue), error)) from error
        self.socket.settimeout(None)
        return theirs

    def expect(self, wanted):
        kind, body = self.read()
        self.dialogue.append('they said ' + wire.told(kind, body))
        if kind != wanted:
            raise Refused('; '.join(self.dialogue))
        return body

    def close(self):
        try:
            self.socket.shutdown(socket.SHUT_RDWR)
        except OSError:
            pass
        self.socket.close()
