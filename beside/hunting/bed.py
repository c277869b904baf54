"""Two namespaces and a daemon in one of them, on which one event file after the other is run."""
import collections
import json
import os
import shutil
import subprocess
import tempfile
import time

import explained
from bgp import namespaces, program, session
import router
from compare import Difference
from hunting.routes import SHARED_SECOND
from run import Run

LENGTH, INTERFACES, ADDRESSES = 24, ('eth0', 'eth1', 'eth2'), tuple('192.0.2.%d' % last for last in range(1, 9))
LOCAL, SHARED = '192.0.2.254', '192.0.2.0/24'
SHORT, LONG, POLL = .08, 2.5, .15  # seconds without an UPDATE, where nothing is unexplained, and where something is; between two looks
TROUBLES = (router.Failed, session.Refused, OSError, EOFError, json.JSONDecodeError, subprocess.SubprocessError)

# a difference that nothing explains: the number of the `idle`, its line, the peer's kind (`internal`, `client`, `external`, or None of a
# difference of no peer), and the difference
Found = collections.namedtuple('Found', 'place line peer_kind difference')


class Kept(Run):
    """A file on the daemon of a bed."""

    pause, hardly = .04, .003

    def __init__(self, bed, steps):
        super().__init__(bed.router_class, bed.folder, bed.names, steps)
        self.bed = bed
        self.apart, self.now_apart = set(), set()  # peers whose session was up on one side alone at the last `idle`, and at this one

    def begin(self):
        self.router = self.bed.lend(self.wanted)

    def settle(self, step, seconds):
        """Until nothing unexplained is left, or nothing has come for so many seconds; what is unexplained."""
        begun = time.monotonic()
        while True:
            self.rest()
            since = time.monotonic()
            namespaces.until(lambda: self.is_quiet(since, SHORT), LONG, .02)
            self.bed.look_after()
            left = self.unexplained(step)
            if not left or self.is_quiet(begun, seconds):
                return left
            time.sleep(POLL)

    def unexplained(self, step):
        found, _ = self.differences(step.moment)
        before = self.steps[:self.steps.index(step) + 1]
        explain = explained.Explainer(self.router_class.name, self.wanted, before, step.moment, found) if found else None
        self.now_apart = {one.peer for one in found if one.kind == 'session'}
        left = [one for one in found if explain(one) is None]
        elsewhere = {one.prefix for one in found if one.kind == 'best' and one not in left}
        return [one for one in left if not self.follows(one, elsewhere)]

    def follows(self, one, elsewhere):
        """Whether a difference comes of one that is explained: a session that was apart, another best route at the prefix."""
        if one.kind == 'notification':
            return one.peer in self.apart
        return one.kind in ('adv', 'again') and one.prefix in elsewhere

    def end_of_moment(self):
        super().end_of_moment()
        self.apart = self.now_apart

    def kind(self, number):
        peer = self.wanted.peers.get(number)
        return None if peer is None else 'client' if peer.client else 'internal' if self.wanted.is_internal(peer) else 'external'

    def leave(self):
        """Ends all sessions; the daemon stays."""
        for heard in self.sessions.values():
            heard.close()


class Crashed(Exception):
    """The daemon is no longer there: what it said at last."""


class Bed:
    """Where files are run. `name` is the beginning of the names of its namespaces and its folder."""

    def __init__(self, router_class, name, words):
        self.router_class, self.name, self.words = router_class, name, words
        self.names = ['%s-%s' % (name, part) for part in ('router', 'peers')]
        self.folder = self.router = None
        self.is_open = self.is_attached = False

    # ---- the place

    def open(self):
        """Makes it: the router's namespace and that of the peers, with all interfaces and addresses that a file may name."""
        self.is_open = True
        self.folder = tempfile.mkdtemp(prefix=self.name + '-')
        os.chmod(self.folder, 0o755)
        ours, theirs = self.names
        for name in self.names:
            namespaces.make(name)
        for place, interface in enumerate(INTERFACES):
            namespaces.link(ours, interface, theirs, 'peers%d' % place)
        namespaces.ip('-n %s addr add %s/%d dev eth0' % (ours, LOCAL, LENGTH))
        for address in ADDRESSES:
            namespaces.ip('-n %s addr add %s/%d dev peers0' % (theirs, address, LENGTH))
        namespaces.ip('-n %s rule add from %s lookup 100' % (ours, LOCAL))
        namespaces.ip('-n %s route add %s dev eth0 table 100' % (ours, SHARED))
        namespaces.enter(theirs)

    def close(self):
        """Takes all of it away."""
        if self.router:
            self.router.stop()
            self.router = None
        for name in self.names if self.is_open else ():
            namespaces.delete(name)
        if self.folder:
            shutil.rmtree(self.folder, ignore_errors=True)
        self.folder, self.is_open, self.is_attached = None, False, False

    def lend(self, wanted):
        """The daemon, with what a file wants of it: the one that is there, else a new one."""
        if wanted.second and not self.is_attached:
            namespaces.attach(self.names[0], INTERFACES[0], wanted.second.address, SHARED_SECOND + '/64')
            self.is_attached = True
        if self.router:
            self.router.renew(wanted)
        else:
            self.router = self.router_class(self.folder, self.names[0], wanted)
            self.router.start()
        return self.router

    def look_after(self):
        """Whether the daemon is still there."""
        for one in self.router.started if self.router else ():
            if one.process.poll() is not None:
                raise Crashed('status %d; %s' % (one.process.returncode, self.last_words()))

    def last_words(self):
        try:
            with open(self.router.path('said'), encoding='utf-8', errors='replace') as file:
                return ' '.join(file.read().split())[-200:]
        except OSError:
            return ''

    # ---- a file

    def run(self, lines, fresh=False, until=None, seconds=LONG):
        """Runs a file; what is unexplained. With `fresh` on a new daemon. `until(found)` ends it early. A daemon that ended, or that
        doesn't do what it has to, is a difference of the kind `crash` or `trouble`. None where the program refuses the file."""
        steps = self.steps(lines)
        if steps is None:
            return None
        if fresh or not self.is_open or not self.router_class.keeps:
            self.close()
            self.open()
        kept, found = Kept(self, steps), []
        try:
            self.events(kept, found, until, seconds)
        except Crashed as error:
            found.append(self.fault('crash', steps, kept, error))
        except TROUBLES as error:
            found.append(self.trouble(steps, kept, error))
        finally:
            kept.leave()
        if found and found[-1].difference.kind in ('crash', 'trouble'):
            self.close()
        return found

    def steps(self, lines):
        path = os.path.join(tempfile.gettempdir(), '%s.events' % self.name)
        try:
            with open(path, 'w', encoding='ascii') as file:
                file.write('\n'.join(lines) + '\n')
            return program.steps(self.words, path)
        except program.Refused:
            return None
        finally:
            os.unlink(path)

    def events(self, kept, found, until, seconds):
        place = 0
        for step in kept.steps:
            kept.at = step
            kept.take(step)
            if step.moment:
                place += 1
                for one in kept.settle(step, seconds):
                    found.append(Found(place, step.number, kept.kind(one.peer), one))
                kept.end_of_moment()
                if until and until(found):
                    return

    def trouble(self, steps, kept, error):
        time.sleep(.3)
        try:
            self.look_after()
        except Crashed as crash:
            return self.fault('crash', steps, kept, crash)
        return self.fault('trouble', steps, kept, error)

    @staticmethod
    def fault(kind, steps, kept, error):
        step = getattr(kept, 'at', steps[0])
        said = '%s at `%s`: %s' % (type(error).__name__, ' '.join(step.words)[:40], str(error)[:200])
        return Found(0, step.number, None, Difference(kind, 0, None, 'runs', said))
