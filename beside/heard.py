"""A peer's side of a session with a router: what it was sent, and what it holds of it (its Adj-RIB-In, RFC 4271, section 3.2)."""
import threading
import time

from bgp import session, wire

OPENED_WITHIN = 15  # seconds


class Heard(session.Connection):
    """A peer's side of a session: what it holds of what the router sent it."""

    def __init__(self, made, width):
        super().__init__(made)
        self.width, self.held, self.notes, self.is_up, self.last = width, {}, [], False, time.monotonic()
        self.again = {}  # by each family of which it asked for all again, what it was sent since it did

    def begin(self, peer, hold=0, capabilities=wire.OF_IPV4):
        self.open(wire.opening(peer.asn, peer.identifier, hold, self.width == 4, capabilities), OPENED_WITHIN)
        self.is_up = True
        threading.Thread(target=self.listen, daemon=True).start()

    def listen(self):
        try:
            while True:
                kind, body = self.read()
                self.last = time.monotonic()
                if kind == wire.UPDATE:
                    wire.take(self.held, body)
                    wire.take_each(dict(self.again), body)
                elif kind == wire.NOTIFICATION:
                    self.notes.append(wire.message(kind, body).hex())
        except (OSError, EOFError):
            pass
        except ValueError as error:
            self.notes.append('malformed: %s' % error)  # what the router sent can't be read: a difference at the next `idle`
        self.is_up = False
        self.last = time.monotonic()

    def rows(self):
        """What it holds, as rows; nothing once the session has ended."""
        return self.texts(self.held)

    def rows_again(self):
        """What it was sent again."""
        return self.texts(wire.joined(dict(self.again)))

    def texts(self, held):
        return wire.texts(held, self.width) if self.is_up else {}
