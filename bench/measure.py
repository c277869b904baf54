"""CPU seconds and memory of a command."""
import os
import statistics
import subprocess
import sys
import threading
import time

# Peak memory counts what a process had before it became the command, so a small one starts it.
STARTER = """
import os, sys
pid = os.fork()
if pid == 0:
    os.dup2(os.open(sys.argv[1], os.O_WRONLY | os.O_CREAT | os.O_TRUNC), 1)
    os.execvp(sys.argv[2], sys.argv[2:])
_, status, used = os.wait4(pid, 0)
print(used.ru_utime + used.ru_stime, used.ru_maxrss / 1024, os.waitstatus_to_exitcode(status))
"""


def once(file, command, output=os.devnull):
    """User and system seconds, peak resident MiB and status of one run."""
    file.seek(0)
    starter = [sys.executable, '-S', '-E', '-I', '-c', STARTER, output]
    said = subprocess.run(starter + command, stdin=file, stdout=subprocess.PIPE, check=True).stdout.split()
    return float(said[0]), float(said[1]), int(said[2])


def checked(file, command):
    """Seconds and peak resident MiB of one run, which has to end with status 0."""
    seconds, mib, status = once(file, command)
    if status:
        raise RuntimeError('%s: status %d' % (' '.join(command), status))
    return {'seconds': seconds, 'mib': mib}


def middle(seen):
    """Of some runs the least and the median of the seconds, and the most memory."""
    seconds = [one['seconds'] for one in seen]
    return {'least': min(seconds), 'seconds': statistics.median(seconds), 'mib': max(one['mib'] for one in seen)}


def median(file, command, runs):
    """The same of so many runs of a command."""
    return middle([checked(file, command) for _ in range(runs)])


def seconds_of(pid):
    """User and system seconds of a process so far: its CPU clock (linux/posix-timers.h), which is finer than ticks."""
    return time.clock_gettime(~pid << 3 | 2)


def resident(pid):
    """Resident MiB of a process now."""
    with open('/proc/%d/statm' % pid, encoding='ascii') as file:
        return int(file.read().split()[1]) * os.sysconf('SC_PAGE_SIZE') / 2 ** 20


def stops(parts, command, mark):
    """Of each part of a text, as `once` would run it whole: seconds and resident MiB when the line `mark` was printed that its last
    event gives. Between two parts the command waits for its input."""
    with subprocess.Popen(command, stdin=subprocess.PIPE, stdout=subprocess.PIPE) as ran:
        for part in parts:
            writer = threading.Thread(target=feed, args=(ran.stdin, part))
            writer.start()
            for line in ran.stdout:
                if line == mark:
                    break
            else:
                raise EOFError('%s ended early' % ' '.join(command))
            writer.join()
            yield {'seconds': seconds_of(ran.pid), 'mib': resident(ran.pid)}
        ran.stdin.close()
        ran.stdout.read()
    if ran.returncode:
        raise RuntimeError('%s: status %d' % (' '.join(command), ran.returncode))


def feed(stdin, part):
    for line in part:
        stdin.write(line)
    stdin.flush()
