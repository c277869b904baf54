"""Drives a headless Firefox by its Marionette protocol over TCP: messages in JSON, each with its length and a colon in front. The same surface as
browser.py, but that a file can be chosen alone, and not dropped.
"""
import base64
import json
import os
import shutil
import socket
import subprocess
import tempfile
import time

from browser import Failure

NAMES = ('firefox-esr', 'firefox')
KEYS = {'ArrowRight': '\ue014', 'ArrowLeft': '\ue012', 'ArrowUp': '\ue013', 'ArrowDown': '\ue015', 'PageDown': '\ue00f', 'PageUp': '\ue00e',
        'Home': '\ue011', 'End': '\ue010', 'Tab': '\ue004', 'Enter': '\ue007', 'Escape': '\ue00c'}
PREFERENCES = {'marionette.port': 0, 'ui.systemUsesDarkTheme': 0, 'browser.shell.checkDefaultBrowser': False, 'datareporting.policy.dataSubmissionEnabled': False,
               'browser.startup.homepage_override.mstone': 'ignore', 'widget.gtk.overlay-scrollbars.enabled': False, 'app.update.enabled': False,
               'toolkit.telemetry.enabled': False, 'toolkit.legacyUserProfileCustomizations.stylesheets': True}
CHROME = ':root, body, #navigator-toolbox { min-width: 0 !important; }'  # else no window is narrower than 500 pixels
# an expression is evaluated by the page itself, and what it promises is waited for
ASK = """const done = arguments[arguments.length - 1];
const told = new window.wrappedJSObject.Promise(take => take(window.wrappedJSObject.eval(arguments[0])));
told.then(value => done(JSON.stringify(value === undefined ? null : value)), error => done({failure: String(error)}));"""
LISTEN = 'var thrown = []; window.addEventListener("error", event => thrown.push(String(event.error || event.message)))'


def find():
    """The path of an installed Firefox, or None."""
    return next(filter(None, map(shutil.which, NAMES)), None)


class Firefox:
    """One page in one Firefox, which ends with the `with` block."""

    def __init__(self, program, width=1280, height=800, dark=False, scale=1):
        self.program, self.width, self.height, self.scale = program, width, height, scale
        self.preferences = {**PREFERENCES, 'ui.systemUsesDarkTheme': int(dark), 'layout.css.devPixelsPerPx': str(scale)}

    def __enter__(self):
        self.folder = tempfile.mkdtemp(prefix='view-')
        with open(os.path.join(self.folder, 'user.js'), 'w', encoding='ascii') as file:
            file.writelines('user_pref("%s", %s);\n' % (name, json.dumps(value)) for name, value in self.preferences.items())
        os.mkdir(os.path.join(self.folder, 'chrome'))
        with open(os.path.join(self.folder, 'chrome', 'userChrome.css'), 'w', encoding='ascii') as file:
            file.write(CHROME)
        # in its kiosk the page is as large as the screen, which may be narrower than a window
        screen = {'MOZ_HEADLESS_WIDTH': str(self.width * self.scale), 'MOZ_HEADLESS_HEIGHT': str(self.height * self.scale)}
        self.process = subprocess.Popen([self.program, '--headless', '--kiosk', '--marionette', '--profile', self.folder, '--no-remote'],
                                        stdin=subprocess.DEVNULL, stdout=subprocess.DEVNULL, stderr=subprocess.DEVNULL,
                                        env={**os.environ, 'HOME': self.folder, **screen})
        self.socket, self.rest, self.count, self.at, self.failures = self.connected(), b'', 0, None, []
        self.message()
        self.call('WebDriver:NewSession', capabilities={'alwaysMatch': {'moz:firefoxOptions': {}}})
        self.call('WebDriver:SetTimeouts', script=120000, pageLoad=120000)
        return self

    def __exit__(self, *_):
        try:
            self.call('Marionette:Quit', flags=['eForceQuit'])
            self.process.wait(15)
        except (Failure, OSError, subprocess.TimeoutExpired):
            self.process.kill()
            self.process.wait()
        self.socket.close()
        shutil.rmtree(self.folder, ignore_errors=True)

    def connected(self, seconds=60):
        """A connection to the port that Firefox writes into its profile."""
        path, until = os.path.join(self.folder, 'MarionetteActivePort'), time.monotonic() + seconds
        while time.monotonic() < until:
            try:
                with open(path, encoding='ascii') as file:
                    return socket.create_connection(('127.0.0.1', int(file.read())), 10)
            except (OSError, ValueError):
                time.sleep(.1)
        raise Failure('Firefox does not listen')

    def message(self):
        self.socket.settimeout(180)
        while b':' not in self.rest or len(self.rest) < int(self.rest.partition(b':')[0]) + len(self.rest.partition(b':')[0]) + 1:
            piece = self.socket.recv(1 << 20)
            if not piece:
                raise Failure('the browser ended')
            self.rest += piece
        size, _, rest = self.rest.partition(b':')
        self.rest = rest[int(size):]
        return json.loads(rest[:int(size)])

    def call(self, method, **parameters):
        """Calls a method of the protocol and waits for its answer."""
        self.count += 1
        octets = json.dumps([0, self.count, method, parameters]).encode()
        self.socket.sendall(b'%d:%s' % (len(octets), octets))
        _, _, error, answer = self.message()
        if error:
            raise Failure('%s: %s' % (method, error['message']))
        return answer

    def open(self, path):
        """Opens a file of the disk as the page."""
        self.at = path
        self.call('WebDriver:Navigate', url='file://' + os.path.abspath(path))
        self.ask(LISTEN)
        self.wait('document.readyState === "complete" && typeof view === "object"')

    def ask(self, text):
        """The value of an expression in the page."""
        told = self.call('WebDriver:ExecuteAsyncScript', script=ASK, args=[text], sandbox='default')['value']
        if isinstance(told, dict):
            raise Failure('%s: %s' % (text[:200], told.get('failure')))
        if text != LISTEN and self.at and not text.startswith('typeof'):
            self.failures += json.loads(self.call('WebDriver:ExecuteAsyncScript', script=ASK, args=['var taken = typeof thrown === "object" ? thrown.splice(0) : []; taken'],
                                                  sandbox='default')['value'])
        return json.loads(told)

    def wait(self, text, seconds=60):
        """Waits until an expression is true."""
        until = time.monotonic() + seconds
        while not self.ask(text):
            if time.monotonic() > until:
                raise Failure('not in %d s: %s' % (seconds, text))
            time.sleep(.02)

    def choose(self, path):
        """Gives the page a file by its button."""
        found = self.call('WebDriver:FindElement', using='css selector', value='#choose')['value']
        self.call('WebDriver:ElementSendKeys', id=next(iter(found.values())), text=os.path.abspath(path))

    drop = choose

    def seconds(self):
        """Seconds of CPU aren't told here."""
        return 0

    now = staticmethod(time.monotonic)

    def focused(self):
        """The name of the element that has the focus."""
        return self.ask('document.activeElement.id')

    def press(self, key, text=''):
        """Presses a key and lets it go."""
        value = KEYS.get(key, text or key)
        self.call('WebDriver:PerformActions', actions=[{'type': 'key', 'id': 'keys', 'actions': [
            {'type': 'keyDown', 'value': value}, {'type': 'keyUp', 'value': value}]}])

    def picture(self, path):
        """Writes what the page looks like."""
        data = self.call('WebDriver:TakeScreenshot', full=False)['value']
        with open(path, 'wb') as file:
            file.write(base64.b64decode(data))
