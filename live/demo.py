#!/usr/bin/env python3
"""Two real routers with `replay` between them: demo.py [--routes 5000] [--hold 9] [--program WORDS]

Three network namespaces in a row: a BIRD (AS 65001) that announces so many routes, speaker.py with the program (AS 65000), and a second BIRD
(AS 65002). What is done, and of each how many seconds it took until the second BIRD had the last route of it, or had lost it:

  converge   all three start
  lose       the link to the first BIRD goes down: its routes go when the hold timer has run out
  return     the link is back, and the session with it
  filter     an edited filter of the program rejects the half of what comes from the first BIRD
  tables     `show` of what the second BIRD was sent, beside what `birdc` shows there

Needs root, `ip netns` and Debian's `bird2`. Statuses: 0, 1 where the tables differ, 2 where it can't be done.
"""
import argparse
import os
import re
import shutil
import signal
import subprocess
import sys
import tempfile
import threading
import time

HERE = os.path.dirname(os.path.abspath(__file__))
for folder in ('beside', 'python'):
    sys.path.insert(0, os.path.join(HERE, '..', folder))
import router
from bgp import namespaces, program

LIMIT = 60  # seconds that one step may take
CONFIG = '''router id 192.0.2.%(host)d;
protocol device { scan time 1; }
protocol static { ipv4;
%(routes)s}
protocol bgp middle {
  local 192.0.2.%(host)d as %(asn)d; neighbor 192.0.2.254 as 65000; hold time %(hold)d;
  connect delay time 1; connect retry time 1; error wait time 1, 2;
  ipv4 { import all; export where source = RTS_STATIC; };
}
'''
SETUP = '''# a router between two others
as4
local 65000 192.0.2.254 192.0.2.254
peer 1 65001 192.0.2.1 192.0.2.1
peer 2 65002 192.0.2.2 192.0.2.2
route add connected 192.0.2.0/24 direct eth0 0
'''
# rejects the prefixes of this one length
FILTER = 'filter in 1 10.0.0.0/8 ge 25 le 25 reject'


def prefixes(count):
    """So many prefixes, one half /24 and the other /25."""
    return ['10.%d.%d.0/%d' % (place // 200, place % 200, 24 + place % 2) for place in range(count)]


class Bird:
    """A BIRD in a namespace of its own."""

    def __init__(self, folder, namespace, host, asn, routes, hold):
        self.control, path = os.path.join(folder, namespace + '.ctl'), os.path.join(folder, namespace + '.conf')
        with open(path, 'w', encoding='ascii') as file:
            file.write(CONFIG % {'host': host, 'asn': asn, 'hold': hold, 'routes': ''.join('  route %s blackhole;\n' % one for one in routes)})
        self.started = namespaces.Started(namespace, ['bird', '-f', '-c', path, '-s', self.control], os.path.join(folder, namespace + '.said'))

    def says(self, words):
        ran = subprocess.run(['birdc', '-s', self.control] + words.split(), stdout=subprocess.PIPE, stderr=subprocess.STDOUT, timeout=30, check=False)
        return ran.stdout.decode(errors='replace')

    def count(self):
        """How many routes came from the middle."""
        found = re.search(r'^(\d+) of \d+ routes', self.says('show route count protocol middle'), re.M)
        return int(found.group(1)) if found else -1

    def routes(self):
        """Origin, path and next hop of each prefix that came from the middle."""
        found, prefix = {}, None
        for line in self.says('show route all protocol middle').split('\n'):
            begun = re.match(r'(\S+/\d+)\s', line)
            prefix = begun.group(1) if begun else prefix
            said = re.match(r'\tBGP\.(origin|as_path|next_hop): ?(.*)', line)
            if said:
                found.setdefault(prefix, {})[said.group(1)] = said.group(2).strip()
        return {prefix: (router.origin(one['origin']), one['as_path'], one['next_hop']) for prefix, one in found.items()}


class Middle:
    """speaker.py in a namespace: what it says of sessions is printed as it comes, and what it answers is kept."""

    def __init__(self, namespace, setup, hold, words):
        self.process = subprocess.Popen(
            ['setpriv', '--pdeathsig', 'TERM', 'ip', 'netns', 'exec', namespace, sys.executable, os.path.join(HERE, 'speaker.py'), setup,
             '--hold', str(hold), '--program', words], stdin=subprocess.PIPE, stdout=subprocess.PIPE, stderr=subprocess.PIPE, start_new_session=True)
        self.answers, self.said, self.sessions = [], [], {}
        for stream, take in ((self.process.stdout, self.answers.append), (self.process.stderr, self.note)):
            threading.Thread(target=self.listen, args=(stream, take), daemon=True).start()

    @staticmethod
    def listen(stream, take):
        for line in stream:
            take(line.decode('ascii', 'replace').rstrip('\n'))

    def note(self, line):
        print('  speaker: ' + line.strip(), flush=True)
        self.said.append(line)
        up = re.search(r'peer (\d+): up, session (\d+)', line)
        if up:
            self.sessions[up.group(1)] = up.group(2)

    def tell(self, line):
        self.process.stdin.write(line.encode() + b'\n')
        self.process.stdin.flush()

    def rows(self, link):
        """The rows of a link, by `show`."""
        begun = len(self.answers)
        self.tell('show ' + link)
        if not namespaces.until(lambda: any(line.startswith('rows %s ' % link) for line in self.answers[begun:]), LIMIT):
            raise TimeoutError('no answer to `show %s`' % link)
        rows = [line.split(' ') for line in self.answers[begun:] if line.startswith('row %s ' % link)]
        return {words[2]: words[3] for words in rows}

    def stop(self):
        self.process.terminate()
        try:
            self.process.wait(10)
        except subprocess.TimeoutExpired:
            self.process.kill()
            self.process.wait()


def place(names):
    """The namespaces, in a row. The middle has its one address on both links."""
    for name in names:
        namespaces.make(name)
    left, middle, right = names
    for name, host, interface in ((left, 1, 'left0'), (right, 2, 'right0')):
        namespaces.link(name, 'eth0', middle, interface)
        namespaces.ip('-n %s addr add 192.0.2.%d/24 dev eth0' % (name, host))
        namespaces.ip('-n %s addr add 192.0.2.254/32 dev %s' % (middle, interface))
        namespaces.ip('-n %s route add 192.0.2.%d/32 dev %s' % (middle, host, interface))


def step(name, bird, count, middle, begun=None):
    """Waits until a BIRD has so many routes, and prints how long that took."""
    begun = begun or time.monotonic()
    done = namespaces.until(lambda: middle.process.poll() is not None or bird.count() == count, LIMIT, .02)
    if not done or middle.process.poll() is not None:
        raise TimeoutError('%s: the second BIRD has %d routes, and not %d, after %.0f s; what it says of the session:\n%s' % (
            name, bird.count(), count, time.monotonic() - begun, bird.says('show protocols all middle')))
    print('%s: %d routes after %.2f s' % (name, count, time.monotonic() - begun), flush=True)


def compare(middle, bird):
    """How many rows of what the second BIRD was sent differ from what it has."""
    ours = {}
    for prefix, value in middle.rows('adv.2.' + middle.sessions['2']).items():
        said = {word[0]: word[1:] for word in value.split(',')}
        ours[prefix] = (int(said['o']), router.flat(said['p']), said['n'])
    theirs = bird.routes()
    apart = [prefix for prefix in sorted(set(ours) | set(theirs)) if ours.get(prefix) != theirs.get(prefix)]
    print('tables: %d rows of `show adv.2.%s`, %d routes of `birdc`, %d differ' % (len(ours), middle.sessions['2'], len(theirs), len(apart)))
    for prefix in apart[:5]:
        print('  %s: replay %s; bird %s' % (prefix, ours.get(prefix), theirs.get(prefix)))
    return len(apart)


def demonstrate(asked, folder, names, running):
    os.chmod(folder, 0o755)
    setup, announced = os.path.join(folder, 'setup.events'), prefixes(asked.routes)
    with open(setup, 'w', encoding='ascii') as file:
        file.write(SETUP)
    place(names)
    middle = Middle(names[1], setup, asked.hold, asked.program)
    running.append(middle)
    if not namespaces.until(lambda: middle.process.poll() is not None or any('waits on' in line for line in middle.said), LIMIT) \
            or middle.process.poll() is not None:
        raise OSError('the speaker does not run: %s' % ' '.join(middle.said))
    begun = time.monotonic()
    second = Bird(folder, names[2], 2, 65002, ['172.16.0.0/16'], asked.hold)
    running.append(second.started)
    first = Bird(folder, names[0], 1, 65001, announced, asked.hold)
    running.append(first.started)
    step('converge', second, len(announced), middle, begun)
    namespaces.ip('-n %s link set left0 down' % names[1])
    step('lose', second, 0, middle)
    namespaces.ip('-n %s link set left0 up' % names[1])
    namespaces.ip('-n %s route replace 192.0.2.1/32 dev left0' % names[1])
    step('return', second, len(announced), middle)
    middle.tell(FILTER)
    step('filter', second, sum(one.endswith('/24') for one in announced), middle)
    return compare(middle, second)


def main():
    words = argparse.ArgumentParser(description=__doc__, formatter_class=argparse.RawDescriptionHelpFormatter)
    words.add_argument('--routes', type=int, default=5000, choices=range(1, 50001), metavar='1..50000')
    words.add_argument('--hold', type=int, default=9)
    words.add_argument('--program', default=program.BUILT)
    asked = words.parse_args()
    for sign in (signal.SIGINT, signal.SIGTERM):
        signal.signal(sign, signal.default_int_handler)
    if os.geteuid() or not shutil.which('bird'):
        print('demo.py: %s' % ('network namespaces need root' if os.geteuid() else "bird isn't installed (Debian's package bird2)"), file=sys.stderr)
        return 2
    names, running = ['live-%d-%s' % (os.getpid(), name) for name in ('left', 'middle', 'right')], []
    with tempfile.TemporaryDirectory(prefix='live-') as folder:
        try:
            return 1 if demonstrate(asked, folder, names, running) else 0
        except KeyboardInterrupt:
            return 130
        except (OSError, TimeoutError) as error:
            print('demo.py: %s' % error, file=sys.stderr)
            return 2
        finally:
            for sign in (signal.SIGINT, signal.SIGTERM):
                signal.signal(sign, signal.SIG_IGN)
            for one in reversed(running):
                one.stop()
            for name in names:
                namespaces.delete(name)


if __name__ == '__main__':
    sys.exit(main())
