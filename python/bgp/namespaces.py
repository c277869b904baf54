"""Network namespaces, and processes in them, which this project's scripts make and take away again. Needs root and `ip netns`."""
import ctypes
import os
import signal
import subprocess
import time

CLONE_NEWNET = 0x40000000


def ip(words, check=True):
    """Runs `ip` with these words; what it says against them goes with the error."""
    ran = subprocess.run(['ip'] + words.split(), stdout=subprocess.PIPE, stderr=subprocess.PIPE, check=False)
    if check and ran.returncode:
        raise OSError(ran.returncode, 'ip %s: %s' % (words, ran.stderr.decode(errors='replace').strip()))
    return ran.stdout.decode(errors='replace')


def make(name):
    """A namespace, whose loopback interface is up."""
    ip('netns add ' + name)
    ip('-n %s link set lo up' % name)


def link(name, interface, other, other_interface):
    """A link between two namespaces, up at both ends."""
    ip('link add %s netns %s type veth peer name %s netns %s' % (interface, name, other_interface, other))
    ip('-n %s link set %s up' % (name, interface))
    ip('-n %s link set %s up' % (other, other_interface))


def attach(name, interface, address, network):
    """An address of IPv6 on an interface of a namespace, in a network that it is attached to. It has no link-local address beside it."""
    for setting in ('addr_gen_mode=1', 'accept_dad=0', 'accept_ra=0'):
        ip('netns exec %s sysctl -qw net.ipv6.conf.%s.%s' % (name, interface, setting))
    for scope in ip('-n %s -o -6 addr show dev %s scope link' % (name, interface)).split('\n')[:-1]:
        ip('-n %s addr del %s dev %s' % (name, scope.split()[3], interface))
    ip('-n %s addr add %s/%s dev %s nodad' % (name, address, network.partition('/')[2], interface))


def delete(name):
    ip('netns del ' + name, check=False)


def empty(name):
    """Ends all processes that are in a namespace."""
    for pid in ip('netns pids ' + name, check=False).split():
        try:
            os.kill(int(pid), signal.SIGKILL)
        except OSError:
            pass


def enter(name):
    """This process goes into a namespace."""
    with open('/run/netns/' + name, encoding='ascii') as file:
        set_to(file)


def set_to(file):
    """This process goes into the namespace of an open file, as one of /proc/self/ns."""
    if ctypes.CDLL(None, use_errno=True).setns(file.fileno(), CLONE_NEWNET):
        raise OSError(ctypes.get_errno(), 'setns')


def seconds(pids):
    """CPU seconds of processes up to now."""
    found = 0
    for pid in pids:
        try:
            for task in os.listdir('/proc/%d/task' % pid):
                with open('/proc/%d/task/%s/schedstat' % (pid, task), encoding='ascii') as file:
                    found += int(file.read().split()[0]) / 1e9
        except OSError:
            continue
    return found


class Started:
    """A program that was started in a namespace, and the processes that belong to it. What it says goes to a file. It gets SIGKILL when
    this process ends, however that ends, unless it has changed its user since, as FRR's daemons do."""

    def __init__(self, namespace, words, said=os.devnull):
        with open(said, 'ab') as file:
            self.process = subprocess.Popen(
                ['setpriv', '--pdeathsig', 'KILL', 'ip', 'netns', 'exec', namespace] + words,
                stdin=subprocess.DEVNULL, stdout=file, stderr=subprocess.STDOUT, start_new_session=True)

    def processes(self):
        """The program's process and all that it started."""
        parents = {}
        for pid in filter(str.isdigit, os.listdir('/proc')):
            try:
                with open('/proc/%s/stat' % pid, encoding='ascii', errors='replace') as file:
                    parents[int(pid)] = int(file.read().rpartition(')')[2].split()[1])
            except OSError:
                pass
        found, fresh = set(), {self.process.pid}
        while fresh:
            found |= fresh
            fresh = {pid for pid, parent in parents.items() if parent in fresh}
        return found

    def used(self):
        """CPU seconds and peak MiB up to now."""
        pids, memory = self.processes(), 0
        for pid in pids:
            try:
                with open('/proc/%d/status' % pid, encoding='ascii', errors='replace') as file:
                    peak = [line.split()[1] for line in file if line.startswith('VmHWM')]
            except OSError:
                continue
            memory += int(peak[0]) / 1024 if peak else 0
        return seconds(pids), memory

    def stop(self):
        for pid in sorted(self.processes(), reverse=True):
            try:
                os.kill(pid, signal.SIGKILL)
            except OSError:
                pass
        self.process.wait()


def until(done, seconds, pause=.05):
    """Waits until that holds, at most so many seconds; whether it did."""
    end = time.monotonic() + seconds
    while not done():
        if time.monotonic() > end:
            return False
        time.sleep(pause)
    return True
