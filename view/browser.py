"""Drives a headless Chromium by its DevTools protocol over a pipe: messages in JSON, each with a zero byte behind it."""
import base64
import json
import os
import select
import shutil
import subprocess
import tempfile
import time

NAMES = ('chromium', 'chromium-browser', 'google-chrome')


class Failure(Exception):
    """The browser gave an error, or no answer in time."""


def find():
    """The path of an installed Chromium, or None."""
    return next(filter(None, map(shutil.which, NAMES)), None)


class Browser:
    """One page in one Chromium, which ends with the `with` block."""

    def __init__(self, program, width=1280, height=800, dark=False, scale=1):
        self.program, self.width, self.height, self.dark, self.scale = program, width, height, dark, scale

    def __enter__(self):
        self.folder = tempfile.mkdtemp(prefix='view-')
        ours, theirs = os.pipe(), os.pipe()
        os.set_inheritable(ours[0], True)
        os.set_inheritable(theirs[1], True)
        words = [self.program, '--headless=new', '--remote-debugging-pipe', '--disable-gpu', '--no-first-run',
                 '--disable-extensions', '--disable-background-networking', '--user-data-dir=' + self.folder,
                 '--window-size=%d,%d' % (self.width, self.height)]
        if os.geteuid() == 0:
            words.append('--no-sandbox')
        # Chromium reads at descriptor 3 and writes at descriptor 4.
        shell = 'exec 3<&%d 4>&%d; exec "$@"' % (ours[0], theirs[1])
        self.process = subprocess.Popen(['/bin/bash', '-c', shell, 'browser'] + words + ['about:blank'], close_fds=False,
                                        stdin=subprocess.DEVNULL, stdout=subprocess.DEVNULL, stderr=subprocess.DEVNULL)
        os.close(ours[0])
        os.close(theirs[1])
        self.out, self.read, self.rest, self.count, self.session = ours[1], theirs[0], b'', 0, None
        self.at = None                      # the file that is open as the page
        self.failures = []                  # what the page threw and didn't catch
        target = next(told for told in self.call('Target.getTargets')['targetInfos'] if told['type'] == 'page')
        self.session = self.call('Target.attachToTarget', targetId=target['targetId'], flatten=True)['sessionId']
        self.call('Page.enable')
        self.call('Runtime.enable')
        self.call('Emulation.setDeviceMetricsOverride', width=self.width, height=self.height, deviceScaleFactor=self.scale, mobile=False)
        self.call('Emulation.setEmulatedMedia',
                  features=[{'name': 'prefers-color-scheme', 'value': 'dark' if self.dark else 'light'}])
        return self

    def __exit__(self, *_):
        try:
            self.session = None
            self.call('Browser.close')
            self.process.wait(10)
        except (Failure, OSError, subprocess.TimeoutExpired):
            self.process.kill()
            self.process.wait()
        os.close(self.out)
        os.close(self.read)
        shutil.rmtree(self.folder, ignore_errors=True)

    def message(self, until):
        """The next message, by a moment of the clock."""
        while b'\0' not in self.rest:
            if not select.select([self.read], [], [], max(0, until - time.monotonic()))[0]:
                raise Failure('no answer in time')
            piece = os.read(self.read, 1 << 20)
            if not piece:
                raise Failure('the browser ended')
            self.rest += piece
        told, self.rest = self.rest.split(b'\0', 1)
        return json.loads(told)

    def call(self, method, seconds=120, **parameters):
        """Calls a method of the protocol and waits for its answer."""
        self.count += 1
        told = {'id': self.count, 'method': method, 'params': parameters}
        if self.session:
            told['sessionId'] = self.session
        os.write(self.out, json.dumps(told).encode() + b'\0')
        until = time.monotonic() + seconds
        while True:
            answer = self.message(until)
            if answer.get('method') == 'Runtime.exceptionThrown':
                told = answer['params']['exceptionDetails']
                self.failures.append(told.get('exception', {}).get('description', told['text']))
            if answer.get('id') == self.count:
                if 'error' in answer:
                    raise Failure('%s: %s' % (method, answer['error']['message']))
                return answer['result']

    def open(self, path):
        """Opens a file of the disk as the page."""
        self.at = path
        self.call('Page.navigate', url='file://' + os.path.abspath(path))
        self.wait('document.readyState === "complete" && typeof view === "object"')

    def ask(self, text):
        """The value of an expression in the page."""
        told = self.call('Runtime.evaluate', expression=text, returnByValue=True, awaitPromise=True)
        if 'exceptionDetails' in told:
            raise Failure('%s: %s' % (text[:200], told['exceptionDetails'].get('exception', {}).get('description', told)))
        return told['result'].get('value')

    def wait(self, text, seconds=60):
        """Waits until an expression is true."""
        until = time.monotonic() + seconds
        while not self.ask(text):
            if time.monotonic() > until:
                raise Failure('not in %d s: %s' % (seconds, text))
            time.sleep(0.02)

    def choose(self, path):
        """Gives the page a file by its button."""
        root = self.call('DOM.getDocument')['root']['nodeId']
        node = self.call('DOM.querySelector', nodeId=root, selector='#choose')['nodeId']
        self.call('DOM.setFileInputFiles', nodeId=node, files=[os.path.abspath(path)])

    def drop(self, path):
        """Drops a file on the middle of the page."""
        data = {'items': [], 'files': [os.path.abspath(path)], 'dragOperationsMask': 1}
        for kind in ('dragEnter', 'dragOver', 'drop'):
            self.call('Input.dispatchDragEvent', type=kind, x=self.width // 2, y=self.height // 2, data=data)

    def seconds(self):
        """Seconds of CPU that the browser and its processes have taken; 0 where the system doesn't tell."""
        below, found = {}, 0
        for name in filter(str.isdigit, os.listdir('/proc') if os.path.isdir('/proc') else []):
            try:
                with open('/proc/%s/stat' % name, encoding='latin-1') as file:
                    words = file.read().rsplit(')', 1)[1].split()
            except OSError:
                continue
            below.setdefault(int(words[1]), []).append((int(name), int(words[11]) + int(words[12])))
        left = [self.process.pid]
        while left:
            for process, ticks in below.get(left.pop(), []):
                found += ticks
                left.append(process)
        return found / os.sysconf('SC_CLK_TCK')

    @staticmethod
    def now():
        """Seconds of the clock."""
        return time.monotonic()

    def focused(self):
        """The name of the element that has the focus."""
        return self.ask('document.activeElement.id')

    def press(self, key, text=''):
        """Presses a key and lets it go."""
        more = {'text': text} if text else {}
        self.call('Input.dispatchKeyEvent', type='keyDown', key=key, **more)
        self.call('Input.dispatchKeyEvent', type='keyUp', key=key)

    def picture(self, path):
        """Writes what the page looks like."""
        data = self.call('Page.captureScreenshot', format='png')['data']
        with open(path, 'wb') as file:
            file.write(base64.b64decode(data))
