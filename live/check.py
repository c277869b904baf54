#!/usr/bin/env python3
"""Whether docs/LIVE.md is right: check.py [--both] [--program WORDS]

The speaker runs with setup.events between a BIRD with bird.conf and an FRR with frr.conf, each in a network namespace, until each of the two has the
other's route; with --both these are the files of both/, and each has to have the other's routes of both families. Then lines come on its standard
input that the program would refuse: each has to be told, and no session may end by it. At last a filter that it takes, of each family. Before that,
what a SETUP that can't be taken is told is compared.

Needs root, `ip netns` and Debian's `bird2` and `frr`. Statuses: 0; 1 where something isn't as it should be; 2 where it can't be done.
"""
import argparse
import os
import shutil
import subprocess
import sys
import tempfile

sys.dont_write_bytecode = True
sys.path.insert(0, os.path.join(os.path.dirname(os.path.abspath(__file__)), '..', 'python'))
import demo
from bgp import eventfile, namespaces, program

HERE = os.path.dirname(os.path.abspath(__file__))
FRR = '/usr/lib/frr/bgpd'
LIMIT = 40  # seconds
SECOND = '2001:db8::1', '2001:db8::2'  # the addresses of IPv6 of the two
ROUTES = ('10.2.0.0/16', '10.1.0.0/16'), ('2001:db8:2::/48', '2001:db8:1::/48')  # of each family FRR's route, and BIRD's
REFUSED = [
    (b'filter in 1 any maybe', '^ column 17'), (b'peer 3 65003 192.0.2.3 192.0.2.2', '192.0.2.2 is the address of line'),
    (b'local 65000 192.0.2.254 192.0.2.254', 'stands in line 4'), (b'route add static 10.0.0.0 direct eth0 1', 'wanted there: PREFIX'),
    (b'show in.9', 'peer 9 isn\'t declared'), (b'ask best', 'wanted there: PREFIX'), (b'filter in 1 any\xc3\xa4', 'byte 0xc3'),
    (b'show ' + b'x' * 17000, '17005 bytes'), (b'up 1', 'it comes from the network'), (b'as4', 'stands in line 2'),
]
SETUPS = [
    ('', 'it has no line `local AS ID ADDR`'), ('local 65000 192.0.2.254\n', 'line 1: E2'), ('up 1\n', 'line 1: `up` comes from the network'),
    ('local 65000 192.0.2.254 192.0.2.253\n', '192.0.2.253 port 179: Cannot assign requested address'),
]


def wrong(what, wanted, said):
    print('%s: wanted %s in:\n%s' % (what, wanted, said))
    return 1


def of_setups(folder, words):
    """Compares what SETUPs are told that can't be taken; how many are told otherwise."""
    count, missing = 0, os.path.join(folder, 'missing')
    for text, wanted in SETUPS + [(None, '%s: No such file or directory' % missing)]:
        path = missing if text is None else os.path.join(folder, 'wrong.events')
        if text is not None:
            with open(path, 'w', encoding='ascii') as file:
                file.write(text)
        ran = subprocess.run([sys.executable, os.path.join(HERE, 'speaker.py'), path, '--program', words], stdin=subprocess.DEVNULL,
                             stdout=subprocess.PIPE, stderr=subprocess.STDOUT, timeout=LIMIT, check=False)
        said = ran.stdout.decode()
        if ran.returncode != 2 or wanted not in said or path not in said and 'port' not in said:
            count += wrong('SETUP %s' % ascii(text), wanted, said)
    print('setups: %d that can\'t be taken' % (len(SETUPS) + 1))
    return count


class Routers:
    """BIRD and FRR in their namespaces, with the configurations of a folder."""

    def __init__(self, folder, left, right, configs):
        self.control, self.sockets, self.right = os.path.join(folder, 'bird.ctl'), os.path.join(folder, 'frr'), right
        os.mkdir(self.sockets)
        said = os.path.join(folder, 'said')
        self.started = [
            namespaces.Started(left, ['bird', '-f', '-c', os.path.join(configs, 'bird.conf'), '-s', self.control], said),
            namespaces.Started(right, [FRR, '-f', os.path.join(configs, 'frr.conf'), '-i', os.path.join(folder, 'pid'), '-z', os.path.join(folder, 'none'),
                                       '--vty_socket', self.sockets, '-P', '0', '-S', '-n', '-Z', '-l', '192.0.2.2'], said)]

    @staticmethod
    def says(words):
        return subprocess.run(words, stdout=subprocess.PIPE, stderr=subprocess.STDOUT, timeout=LIMIT, check=False).stdout.decode(errors='replace')

    def bird_has(self, prefix):
        return prefix in self.says(['birdc', '-s', self.control, 'show route protocol replay'])

    def frr_has(self, prefix):
        family = 'ipv6' if ':' in prefix else 'ipv4'
        return '65000 65001' in self.says(['vtysh', '--vty_socket', self.sockets, '-d', 'bgpd', '-c', 'show bgp %s unicast %s' % (family, prefix)])

    def have(self, prefixes):
        """Whether each has all of the other one's routes: pairs of FRR's and BIRD's."""
        return all(self.bird_has(theirs) and self.frr_has(ours) for theirs, ours in prefixes)


def of_lines(middle):
    """Gives the speaker lines that the program refuses; how many aren't told, or end something."""
    count = 0
    for line, wanted in REFUSED:
        begun = len(middle.said)
        middle.process.stdin.write(line + b'\n')
        middle.process.stdin.flush()
        namespaces.until(lambda: any(wanted in said for said in middle.said[begun:]), 10)
        said = '\n'.join(middle.said[begun:])
        if wanted not in said or 'not taken' not in said or middle.process.poll() is not None:
            count += wrong(ascii(line[:60]), wanted, said)
    if any(': down' in said for said in middle.said):
        count += wrong('sessions', 'none that is down', '\n'.join(middle.said))
    print('lines: %d that the program refuses' % len(REFUSED))
    return count


def checked(asked, folder, names, running):
    count, configs = of_setups(folder, asked.program), os.path.join(HERE, 'both') if asked.both else HERE
    demo.place(names)
    for name, address in zip((names[0], names[2]), SECOND if asked.both else ()):
        namespaces.attach(name, 'eth0', address, '2001:db8::/64')
    middle = demo.Middle(names[1], os.path.join(configs, 'setup.events'), 90, asked.program)
    running.append(middle)
    if not namespaces.until(lambda: any('waits on' in line for line in middle.said), LIMIT):
        return count + wrong('speaker', 'waits on', '\n'.join(middle.said))
    routers = Routers(folder, names[0], names[2], configs)
    running += routers.started
    if not namespaces.until(lambda: routers.have(ROUTES[:1 + asked.both]), LIMIT, .3):
        return count + wrong('routes', 'each router with the other one\'s', '\n'.join(middle.said))
    print('routes: each of the two routers has the other one\'s')
    count += of_lines(middle)
    for word, (_, ours) in list(zip(eventfile.FILTERS, ROUTES))[:1 + asked.both]:
        middle.tell('%s in 1 any reject' % word)
        if not namespaces.until(lambda: not routers.frr_has(ours), LIMIT, .3):
            count += wrong(word, 'no route %s of BIRD at FRR' % ours, '\n'.join(middle.said))
    return count


def main():
    words = argparse.ArgumentParser(description=__doc__, formatter_class=argparse.RawDescriptionHelpFormatter)
    words.add_argument('--both', action='store_true')
    words.add_argument('--program', default=program.BUILT)
    asked = words.parse_args()
    missing = [name for name in ('bird', FRR, 'vtysh') if not shutil.which(name)]
    if os.geteuid() or missing:
        print('check.py: %s' % ('network namespaces need root' if os.geteuid() else "%s isn't installed (Debian's bird2 and frr)" % missing[0]), file=sys.stderr)
        return 2
    names, running = ['live-%d-%s' % (os.getpid(), name) for name in ('left', 'middle', 'right')], []
    with tempfile.TemporaryDirectory(prefix='live-') as folder:
        os.chmod(folder, 0o755)
        try:
            count = checked(asked, folder, names, running)
        except (OSError, TimeoutError) as error:
            print('check.py: %s' % error, file=sys.stderr)
            return 2
        finally:
            for one in reversed(running):
                one.stop()
            for name in names:
                namespaces.delete(name)
    print('%d wrong' % count)
    return 1 if count else 0


if __name__ == '__main__':
    sys.exit(main())
