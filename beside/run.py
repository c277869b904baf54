#!/usr/bin/env python3
"""An event file on a real router, beside `replay`: run.py EVENTS --daemon bird|frr|openbgpd|gobgp [--program WORDS]

The daemon plays the local speaker of the file, in a network namespace of its own; in a second one each peer of the file is a small
speaker of this script, which sends the file's messages as they are. `up` and `down` open and close sessions; filters, interior routes
and redistribution become the daemon's configuration, where it can express them. At each `idle` it waits until the daemon is quiet,
and compares

  sessions       of each peer: whether its session is up
  adv            what each peer holds of what it was sent, read out of octets (wire.py), with `adv.J.S` of `replay run` on the file
  again          of each peer that asked for all routes again since the last `idle`, and is up: what it was sent since it did
  best           the daemon's best routes, as it shows them, with `best`: the peer, preference, MED, path, ORIGIN and next hop
  notifications  that a peer was sent since the last `idle`, with the lines `note`

Where the file says `local6` the daemon has routes of both families over the same sessions, and all of this is done for both.

Each difference is printed with the words of docs/BGP.md that explain it (explained.py), or as `unexplained`. `work`, `ask`, `show`,
`cover` and `settled` do nothing here. Statuses: 0, 1 where a difference is unexplained, 2 where nothing was compared: also of a file without
`idle`, and of one that isn't for the daemon.

Needs root, Linux' network namespaces (`ip`), and Debian's `bird2`, `frr`, `openbgpd` or `gobgpd`.
"""
import argparse
import copy
import os
import signal
import sys
import tempfile
import time

sys.path.insert(0, os.path.join(os.path.dirname(os.path.abspath(__file__)), '..', 'python'))
import explained
import router
from bgp import eventfile, namespaces, program, session, wire
from compare import Counts, Difference, notes_apart, rows_apart
from heard import Heard
from routers import ROUTERS

CONNECTED_WITHIN, ENDED_WITHIN = 40, 1  # seconds
QUIET, LONG_QUIET, AT_MOST = .5, 3.0, 30.0  # seconds without an UPDATE, where all is equal, and where it isn't; and in all
SHOWN = 120  # characters of a value in a report


class Run:
    """The daemon and the peers, event by event."""

    pause, hardly = .06, .004  # seconds between two looks at what CPU the daemon has taken, and how many of them are hardly any

    def __init__(self, router_class, folder, names, steps):
        self.steps, self.names = steps, names
        self.wanted = eventfile.Wanted()
        self.sessions, self.sender, self.started = {}, None, False
        for step in steps:
            if step.words[0] in eventfile.DECLARATIONS:
                self.wanted.take(step.words)
        # the capability is said where some peer asks for all routes again: a daemon needs it, and else may ask itself
        refreshes = any(step.words[0] == 'bgp' and step.words[2][36:38] == '05' for step in steps)
        self.capabilities = wire.OF_IPV4 + wire.OF_IPV6 * (self.wanted.second is not None) + wire.OF_REFRESHES * refreshes
        self.router_class, self.folder, self.router = router_class, folder, None

    def place(self):
        """Makes the namespaces: the router's, and that of the peers, with one link between them, and one for each other interface."""
        router_name, peers_name = self.names
        first = self.before_sessions()
        shared, interface = first.shared()
        length = shared.partition('/')[2]
        namespaces.make(router_name)
        namespaces.make(peers_name)
        namespaces.link(router_name, interface, peers_name, 'peers0')
        namespaces.ip('-n %s addr add %s/%s dev %s' % (router_name, self.wanted.address, length, interface))
        if self.wanted.second:
            namespaces.attach(router_name, interface, self.wanted.second.address, first.second.attached())
        for peer in self.wanted.peers.values():
            namespaces.ip('-n %s addr add %s/%s dev peers0' % (peers_name, peer.address, length))
        # what the router says to its peers goes over their link, whatever interior routes it has
        namespaces.ip('-n %s rule add from %s lookup 100' % (router_name, self.wanted.address))
        namespaces.ip('-n %s route add %s dev %s table 100' % (router_name, shared, interface))
        others = {step.words[-2] for step in self.steps if step.words[:2] == ['route', 'add']} - {interface, 'lo'}
        for place, name in enumerate(sorted(others)):
            namespaces.link(router_name, name, peers_name, 'other%d' % place)
        namespaces.enter(peers_name)

    def before_sessions(self):
        """What is wanted behind the events before the first session."""
        first = copy.deepcopy(self.wanted)
        for step in self.steps:
            if step.words[0] == 'up':
                break
            if step.words[0] == 'route':
                first.take(step.words)
        return first

    def take(self, step):
        words = step.words
        if words[0] in ('up', 'down', 'bgp', 'idle') and not self.started:
            self.begin()
            self.started = True
        if words[0] in eventfile.DECLARATIONS or step.ignored and words[0] in ('up', 'down', 'route'):
            return
        if words[0] in ('up', 'down', 'bgp'):
            getattr(self, words[0])(int(words[1]), *words[2:])
            return
        before = copy.deepcopy(self.wanted)
        if self.wanted.take(words) and self.started:
            self.rest()
            self.router.apply(before, self.wanted)
            self.rest()

    def begin(self):
        self.router = self.router_class(self.folder, self.names[0], self.wanted)
        self.router.start()

    def up(self, number):
        peer, notes = self.wanted.peers[number], []
        if number in self.sessions:
            self.rest()
            # by the file the session is over: it was closed, or the daemon is about to end it
            namespaces.until(lambda: not self.sessions[number].is_up, ENDED_WITHIN, .02)
            notes = self.sessions[number].notes
            self.sessions[number].close()
            self.rest()
            self.router.revive(peer)
        for left in reversed(range(self.router.tries)):
            made = session.connect(peer.address, (self.wanted.address, 179), CONNECTED_WITHIN)
            heard = self.sessions[number] = Heard(made, 4 if self.wanted.wide else 2)
            heard.notes += notes
            try:
                heard.begin(peer, self.router.hold, self.capabilities)
                return
            except session.Refused:
                heard.close()
                if not left:
                    raise
                time.sleep(1)

    def down(self, number):
        if number in self.sessions:
            self.sessions[number].close()
            self.rest()

    def bgp(self, number, octets):
        """Sends a message. Where another peer was the last one, the daemon gets time to read what that one sent; and in front of what is no
        UPDATE, too, since OpenBGPD reads UPDATEs in another process than all else."""
        heard = self.sessions.get(number)
        if heard is None or not heard.is_up:
            return
        if self.sender not in (None, number) or bytes.fromhex(octets)[18:19] != bytes([wire.UPDATE]):
            self.rest()
        self.sender = number
        asked = wire.asks_again(bytes.fromhex(octets))
        if asked in self.wanted.families():
            self.rest()
            heard.again[asked] = {}
        try:
            heard.socket.sendall(bytes.fromhex(octets))
        except OSError:
            pass  # the daemon ended the session: compared at the next `idle`

    def rest(self):
        """Until the daemon has taken all that was sent and takes hardly any CPU."""
        namespaces.until(lambda: all(heard.all_taken() for heard in self.sessions.values()), 5, .01)
        last = self.router.used()
        for _ in range(20):
            time.sleep(self.pause)
            used = self.router.used()
            if used - last < self.hardly:
                return
            last = used

    def settle(self, moment):
        """Until nothing has come for a while, a longer one where something differs; the differences that are left."""
        begun = time.monotonic()
        for quiet in (QUIET, LONG_QUIET):
            self.rest()
            since = time.monotonic()
            namespaces.until(lambda: self.is_quiet(since, quiet), AT_MOST)
            found, counts = self.differences(moment)
            if not found or time.monotonic() - begun > AT_MOST:
                break
        return found, counts

    def is_quiet(self, since, seconds):
        return time.monotonic() - max([heard.last for heard in self.sessions.values()] + [since]) > seconds

    def differences(self, moment):
        """What differs, and how much was compared."""
        found, counts = [], Counts()
        for number in self.wanted.peers:
            heard = self.sessions.get(number)
            is_up, counts['sessions'] = heard is not None and heard.is_up, counts['sessions'] + 1
            if is_up != (number in moment.sent):
                found.append(Difference('session', number, None, 'up' if number in moment.sent else 'down', 'up' if is_up else 'down'))
            elif is_up:
                found += rows_apart('adv', number, moment.sent[number], heard.rows(), counts)
                if number in moment.again:
                    found += rows_apart('again', number, moment.again[number], heard.rows_again(), counts)
            said = [octets for peer, octets in moment.notes if peer == number]
            found += notes_apart(number, said, heard.notes if heard else [], counts)
        ours = {prefix: program.best_of_the_row(value) for prefix, value in moment.best.items()}
        ours = {prefix: one._replace(path=one.path and router.flat(one.path)) for prefix, one in ours.items()}
        found += rows_apart('best', 0, ours, self.router.best(), counts)
        return found, counts

    def end_of_moment(self):
        for heard in self.sessions.values():
            heard.notes.clear()
            heard.again = {}

    def stop(self):
        """Takes everything away again, whatever signals come."""
        for sign in (signal.SIGINT, signal.SIGTERM):
            signal.signal(sign, signal.SIG_IGN)
        for heard in self.sessions.values():
            heard.close()
        if self.router:
            self.router.stop()
        for name in self.names:
            namespaces.delete(name)


def told(value):
    if value is None:
        return '-'
    if isinstance(value, program.Best):
        value = 'peer %d' % value.peer + ''.join(
            ', %s %s' % (name, part) for name, part in zip(value._fields[1:], value[1:]) if part not in (None, ''))
    return value if len(value) <= SHOWN else value[:SHOWN] + '..'


def report(name, place, step, found, counts, explain):
    """Prints what was compared at an `idle`; how many differences are unexplained."""
    print('idle %d (line %d): %s; %d %s' % (
        place, step.number, ', '.join('%s %d' % (kind, count) for kind, count in sorted(counts.items())), len(found),
        'differs' if len(found) == 1 else 'differ'))
    unexplained = 0
    for one in found:
        key = explain(one)
        unexplained += key is None
        where = {'adv': 'adv.%d %s', 'again': 'again.%d %s', 'best': 'best%.0s %s', 'session': 'session %d%.0s', 'notification': 'notification %d%.0s'}[one.kind]
        where = (wire.family(one.prefix).tag if one.prefix else '') + where
        print('  %s: replay %s; %s %s; %s' % (where % (one.peer, one.prefix or ''), told(one.ours), name, told(one.theirs),
                                              'unexplained' if key is None else key))
    return unexplained


def beside(asked, steps):
    """Runs the file; the status."""
    router_class = ROUTERS[asked.daemon]
    reason = router_class.lacks([step.words for step in steps])
    if reason:
        print('not for %s: %s' % (asked.daemon, reason))
        return 2
    if not any(step.moment for step in steps):
        raise OSError('nothing is compared: the file has no `idle`')
    names = ['beside-%d-%s' % (os.getpid(), name) for name in ('router', 'peers')]
    with tempfile.TemporaryDirectory(prefix='beside-') as folder:
        os.chmod(folder, 0o755)
        run = Run(router_class, folder, names, steps)
        total, differ, unexplained, place = Counts(), 0, 0, 0
        try:
            run.place()
            for step in steps:
                run.take(step)
                if step.moment:
                    place += 1
                    found, counts = run.settle(step.moment)
                    explain = explained.Explainer(asked.daemon, run.wanted, steps[:steps.index(step) + 1], step.moment, found)
                    unexplained += report(asked.daemon, place, step, found, counts, explain)
                    total, differ = total + counts, differ + len(found)
                    run.end_of_moment()
            print('comparisons %d, differences %d, unexplained %d' % (sum(total.values()), differ, unexplained))
            return 1 if unexplained else 0
        finally:
            run.stop()


def main():
    words = argparse.ArgumentParser(description=__doc__, formatter_class=argparse.RawDescriptionHelpFormatter)
    words.add_argument('events', metavar='EVENTS')
    words.add_argument('--daemon', choices=sorted(ROUTERS), required=True)
    words.add_argument('--program', default=program.BUILT, help='the words of another program than the built one')
    words.add_argument('--programs', metavar='FOLDER', help="the daemon's programs are there, and not where Debian has them")
    words.add_argument('--printed', metavar='FILE', help='what the program printed of the file that it is given (all.py --try)')
    asked = words.parse_args()
    for sign in (signal.SIGINT, signal.SIGTERM):
        signal.signal(sign, signal.default_int_handler)
    try:
        if asked.programs:
            ROUTERS[asked.daemon].place(asked.programs)
        if not ROUTERS[asked.daemon].installed():
            raise OSError("%s isn't installed (Debian's package %s)" % (asked.daemon, ROUTERS[asked.daemon].package))
        if os.geteuid():
            raise OSError('network namespaces need root')
        steps = program.steps(asked.program.split(' '), asked.events, asked.printed)
        return beside(asked, steps)
    except KeyboardInterrupt:
        return 130
    except (OSError, EOFError, program.Refused, session.Refused, router.Failed) as error:
        print('%s: %s' % (asked.events, getattr(error, 'strerror', None) or error), file=sys.stderr)
        return 2


if __name__ == '__main__':
    sys.exit(main())
