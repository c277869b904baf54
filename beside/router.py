"""What a router beside `replay` has to be able to do: a class for each daemon, under this one.

To plug another daemon in, make a class with these methods, and name it in `routers.py` (docs/BESIDE.md):

  installed  whether the daemon is there
  lacks      why an event file isn't for it, or None
  start      makes its configuration and starts it
  apply      brings a change of filters, interior routes or redistribution into force
  revive     whatever it needs so that a peer whose session ended can come back at once
  best       its best routes

and for `hunt.py` (docs/HUNT.md)

  renew      brings another file into force, where `keeps` says that it can: nothing is left of the one before
  leaves_out the topics that aren't made for it, each with its reason
"""
import os
import re
import shutil
import subprocess

from bgp import namespaces

LIMIT = 20  # seconds until a daemon answers
# `ip netns exec` has made a mount namespace before
PRIVATE = 'mount -t tmpfs none /run && mkdir -m 777 "/run/$0" && %sexec "$@"'
LOGS = '/var/tmp'  # where FRR makes a folder for each of its processes, which stays where that is killed


class Failed(Exception):
    """The daemon didn't start, or didn't take what it was told."""


class Router:
    name = package = None
    programs = ()  # what has to be there for it to run
    hold = 0  # seconds, of its sessions
    tries = 2  # how often a session is begun, a second apart, before it is given up
    run_folder = None  # its own place in /run, which its service makes
    limit = LIMIT  # seconds that one command to it may take
    keeps, leaves_out = False, {}
    topics = ()  # those that each file of a hunt has

    def __init__(self, folder, namespace, wanted):
        self.folder, self.namespace, self.wanted, self.started, self.pids = folder, namespace, wanted, [], set()

    @classmethod
    def installed(cls):
        return all(shutil.which(program) or os.path.exists(program) for program in cls.programs)

    @classmethod
    def place(cls, folder):
        """The programs are those of a folder: a build of one's own."""
        os.environ['PATH'] = os.path.abspath(folder) + os.pathsep + os.environ['PATH']

    @classmethod
    def version(cls):
        said = subprocess.run(['dpkg-query', '-W', '-f', '${Version}', cls.package],
                              stdout=subprocess.PIPE, stderr=subprocess.DEVNULL, check=False)
        return said.stdout.decode() or 'unknown'

    @classmethod
    def lacks(cls, events):
        """Why these events, lists of words, aren't for this daemon; None where they are."""
        return None

    def start(self):
        raise NotImplementedError

    def apply(self, before, wanted):
        """What is wanted has changed."""
        raise NotImplementedError

    def revive(self, peer):
        """A peer whose session ended is about to come back."""

    def renew(self, wanted):
        """Another file begins, and no session is up; the local speaker is the same."""
        raise NotImplementedError

    def best(self):
        """The best route of each prefix, as `Best`; what isn't told is None, and the peer of an own route is 0."""
        raise NotImplementedError

    def used(self):
        """CPU seconds up to now, of the processes that were there when the daemon had started."""
        return namespaces.seconds(self.pids)

    def stop(self):
        for one in reversed(self.started):
            one.stop()

    # what the classes share

    def path(self, name):
        return os.path.join(self.folder, name)

    def write(self, name, content):
        with open(self.path(name), 'w', encoding='ascii') as file:
            file.write(content)
        os.chmod(self.path(name), 0o600)
        return self.path(name)

    def run(self, words):
        """Starts a program. What it writes to /run and /var/tmp is seen by it alone, and gone with it."""
        logs = '' if self.folder.startswith(LOGS + '/') else 'mount -t tmpfs none %s && ' % LOGS
        private = ['sh', '-c', PRIVATE % logs, self.run_folder] if self.run_folder else []
        self.started.append(namespaces.Started(self.namespace, private + words, self.path('said')))

    def command(self, words, may_fail=False):
        """What a command to the daemon prints."""
        try:
            ran = subprocess.run(['ip', 'netns', 'exec', self.namespace] + words, stdin=subprocess.DEVNULL, stdout=subprocess.PIPE,
                                 stderr=subprocess.STDOUT, timeout=self.limit, check=False)
        except subprocess.TimeoutExpired as error:
            raise Failed('%s: no answer within %d s' % (' '.join(words), self.limit)) from error
        said = ran.stdout.decode(errors='replace')
        if ran.returncode and not may_fail:
            raise Failed('%s: %s' % (' '.join(words), said.strip()[-300:]))
        return said

    def wait(self, ready):
        """Until the daemon answers."""
        if not namespaces.until(lambda: all(one.process.poll() is None for one in self.started) and ready(), LIMIT, .1):
            with open(self.path('said'), encoding='ascii', errors='replace') as file:
                raise Failed('%s does not start: %s' % (self.name, file.read().strip()[-300:] or 'no answer within %d s' % LIMIT))
        self.pids = set().union(*(one.processes() for one in self.started))

    def numbers(self):
        """The number of each peer, by its address."""
        return {peer.address: number for number, peer in self.wanted.peers.items()}


def flat(path):
    """A path, as docs/OUTPUT.md or a daemon tells it, as words; a set is one word, with its numbers in order."""
    words = []
    for one, other in re.findall(r'\{([^}]*)\}|([0-9]+)', path):
        words.append('{%s}' % ','.join(sorted(re.findall('[0-9]+', one), key=int)) if one else other)
    return ' '.join(words)


def origin(word):
    return {'igp': 0, 'egp': 1, 'i': 0, 'e': 1}.get(word.lower(), 2)


def bounds(condition):
    """Network, least and greatest length of a rule's condition on the prefix; None where none can be."""
    network, _, least, _, most = condition
    least, most = max(int(least), int(network.partition('/')[2])), int(most)
    return (network, least, most) if least <= most else None


def changed(before, now):
    """What differs between two tables: keys that went, and those that came or changed."""
    return sorted(set(before) - set(now)), sorted(key for key in now if before.get(key) != now[key])



def adds_up(rules):
    """Whether two rules of a filter that may both apply prepend: daemons then prepend for each, and the file means the last one."""
    places = [place for place, rule in enumerate(rules) if any(word == 'prepend' for word, _ in rule.actions) and rule.verdict != 'reject']
    return any(rules[place].verdict == 'next' for place in places[:-1])
