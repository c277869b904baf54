"""Real BGP daemons, where they are installed: how they are started, fed and looked at.

A daemon runs in a network namespace of its own, with one interface and no routes of the kernel; beside it two speakers of this
script: AS 65001 sends a table, AS 65002 receives it (played.py makes more of them, and measures). Needs root and `ip netns`.
"""
import os
import shutil
import subprocess
import time

from bgp import namespaces as spaces, session, wire

DAEMON, SENDER, RECEIVER = '192.0.2.254', '192.0.2.1', '192.0.2.2'
DAEMON6, SHARED6 = '2001:db8::fe', '2001:db8::/64'  # what it says as its next hop of IPv6 over sessions of IPv4

BIRD = '''
router id 192.0.2.254;
protocol device { }
protocol direct { ipv4; }
protocol bgp sender { local 192.0.2.254 as 65000; neighbor 192.0.2.1 as 65001; hold time 0;
  ipv4 { import all; export none; }; }
protocol bgp receiver { local 192.0.2.254 as 65000; neighbor 192.0.2.2 as 65002; hold time 0;
  ipv4 { import none; export all; }; }
'''

OPENBGPD = '''
AS 65000
router-id 192.0.2.254
listen on 192.0.2.254
fib-update no
holdtime 180
neighbor 192.0.2.1 { remote-as 65001 }
neighbor 192.0.2.2 { remote-as 65002 }
allow from any
allow to any
'''

FRR = '''
router bgp 65000
 bgp router-id 192.0.2.254
 no bgp ebgp-requires-policy
 no bgp network import-check
 timers bgp 0 0
 neighbor 192.0.2.1 remote-as 65001
 neighbor 192.0.2.2 remote-as 65002
'''


class Speaker(session.Connection):
    """A session with the daemon, with AS numbers of four octets, the capability of RFC 2918 and routes of IPv6 if asked for; counts the
    prefixes that it was sent and that were withdrawn."""

    def __init__(self, address, asn, wide=False, refreshes=False, second=False):
        self.announced, self.told, self.withdrawn, self.failed = set(), 0, 0, None
        super().__init__(session.connect(address, (DAEMON, 179), 20))
        self.open(wire.opening(asn, address, 0, wide, wire.OF_IPV4 + wire.OF_IPV6 * second + wire.OF_REFRESHES * refreshes), 60)

    def listen(self):
        """Reads until the daemon closes the session."""
        try:
            while True:
                kind, body = self.read()
                if kind == wire.UPDATE:
                    self.count(body)
                elif kind == wire.NOTIFICATION:
                    self.failed = body.hex()
        except (OSError, EOFError):
            pass

    def count(self, body):
        withdrawn, came = prefixes(body)
        self.announced.difference_update(withdrawn)
        self.announced.update(came)
        self.withdrawn += len(withdrawn)
        self.told += len(came)


def prefixes(body):
    """What an UPDATE withdraws and announces: prefixes of IPv4 as octets, and those of IPv6 as texts."""
    gone, said, come = wire.fields(body)
    found = list(wire.split(gone)), list(wire.split(come))
    if come or gone or not said:
        return found
    kinds = wire.by_type(said)
    return wire.unreached(kinds), wire.reached(kinds)[1]


class Daemon(spaces.Started):
    """A daemon in its own network namespace, and the processes that belong to it."""

    def __init__(self, name, folder, start, config):
        self.name, self.folder = name, folder
        path = os.path.join(folder, 'conf')
        with open(path, 'w', encoding='ascii') as file:
            file.write(config)
        os.chmod(folder, 0o755)
        os.chmod(path, 0o600)
        super().__init__('bench-daemon', start(folder, path))


def commands():
    """The daemons that are installed: name, how it is started, its configuration, and its version."""
    frr = '/usr/lib/frr/bgpd'
    known = [
        ('bird', shutil.which('bird'), lambda folder, path: ['bird', '-f', '-c', path, '-s', folder + '/ctl'], BIRD),
        ('frr', frr if os.path.exists(frr) else None,
         lambda folder, path: [frr, '-f', path, '-i', folder + '/pid', '-z', folder + '/none', '--vty_socket', folder, '-P', '0',
                               '-S', '-n', '-Z', '-l', DAEMON], FRR),
        ('openbgpd', shutil.which('bgpd'), lambda folder, path: ['bgpd', '-d', '-f', path], OPENBGPD),
    ]
    return [(name, start, config) for name, program, start, config in known if program]


def version(package):
    said = subprocess.run(['dpkg-query', '-W', '-f', '${Version}', package], stdout=subprocess.PIPE, stderr=subprocess.DEVNULL, check=False)
    return said.stdout.decode() or 'unknown'


def namespaces():
    """Makes two namespaces with one link between them: the daemon's, and that of the speakers."""
    os.makedirs('/run/openbgpd', exist_ok=True)  # OpenBGPD's own place, which its service makes
    spaces.make('bench-daemon')
    spaces.make('bench-peers')
    spaces.link('bench-daemon', 'bench0', 'bench-peers', 'bench1')
    for name, address, interface in (('daemon', DAEMON, 'bench0'), ('peers', SENDER, 'bench1'), ('peers', RECEIVER, 'bench1')):
        spaces.ip('-n bench-%s addr add %s/24 dev %s' % (name, address, interface))
    spaces.attach('bench-daemon', 'bench0', DAEMON6, SHARED6)


def no_namespaces():
    for name in ('bench-daemon', 'bench-peers'):
        spaces.delete(name)


def wait(done, daemon, seconds=120, quiet=.2):
    """Waits until that holds and the daemon has taken hardly any CPU for so long."""
    last, since = 0, 0
    for _ in range(seconds * 5):
        time.sleep(.2)
        used = daemon.used()[0]
        since = since + .2 if done() and used - last < .002 else 0
        if since >= quiet:
            return
        last = used
    raise TimeoutError('the daemon is not done')
