# A headless Chromium (Debian's package chromium) that is told what to do over its debugging protocol.
import base64
import json
import os
import shutil
import subprocess
import tempfile
import time
import urllib.request

from client import Client

WORDS = ['chromium', '--headless', '--disable-gpu', '--hide-scrollbars', '--no-first-run', '--remote-debugging-port=0',
         *(['--no-sandbox'] if os.getuid() == 0 else [])]


class Browser:
    """One page in a browser of its own."""

    def __init__(self):
        self.folder = tempfile.mkdtemp(prefix='chromium-')
        self.process = subprocess.Popen([*WORDS, f'--user-data-dir={self.folder}', 'about:blank'],
                                        stdout=subprocess.DEVNULL, stderr=subprocess.DEVNULL)
        port = self.port()
        with urllib.request.urlopen(f'http://127.0.0.1:{port}/json/list') as pages:
            page = next(page for page in json.load(pages) if page['type'] == 'page')
        self.talk = Client(port, '/' + page['webSocketDebuggerUrl'].split('/', 3)[3], timeout=60)
        self.asked, self.errors, self.requests = 0, [], set()
        for domain in ('Page', 'Runtime', 'Network'):
            self.ask(f'{domain}.enable')
        self.ask('Performance.enable', timeDomain='threadTicks')

    def port(self):
        """The port that the browser writes down once it listens."""
        for _ in range(600):
            try:
                with open(f'{self.folder}/DevToolsActivePort') as lines:
                    return int(lines.readline())
            except (OSError, ValueError):
                time.sleep(0.1)
        raise TimeoutError('the browser does not start')

    def ask(self, method, **values):
        self.asked += 1
        self.talk.send(json.dumps({'id': self.asked, 'method': method, 'params': values}))
        while (said := self.talk.receive()).get('id') != self.asked:
            self.note(said)
        assert 'result' in said, said
        return said['result']

    def note(self, said):
        """Keeps what the page asked for, and what went wrong in it."""
        if said['method'] == 'Runtime.exceptionThrown':
            self.errors.append(said['params']['exceptionDetails'])
        elif said['method'] == 'Network.requestWillBeSent':
            self.requests.add(said['params']['request']['url'])

    def evaluate(self, expression):
        """What the expression gives in the page."""
        found = self.ask('Runtime.evaluate', expression=expression, returnByValue=True, awaitPromise=True)
        assert 'exceptionDetails' not in found, found
        return found['result'].get('value')

    def open(self, url):
        self.ask('Page.navigate', url=url)

    def before(self, script):
        """The script runs before those of each page that is opened from now on."""
        self.ask('Page.addScriptToEvaluateOnNewDocument', source=script)

    def resize(self, width, height, dark=False, phone=False):
        """The size of the window, and the colours that its user likes."""
        self.ask('Emulation.setDeviceMetricsOverride', width=width, height=height, deviceScaleFactor=1, mobile=phone)
        self.ask('Emulation.setEmulatedMedia', features=[{'name': 'prefers-color-scheme', 'value': 'dark' if dark else 'light'}])

    def picture(self, path):
        """A picture of what is in the window."""
        with open(path, 'wb') as file:
            file.write(base64.b64decode(self.ask('Page.captureScreenshot', format='png', optimizeForSpeed=False)['data']))

    def worked(self):
        """For how many seconds the page has kept the processor busy."""
        return next(one['value'] for one in self.ask('Performance.getMetrics')['metrics'] if one['name'] == 'TaskDuration')

    def close(self):
        self.process.terminate()
        self.process.wait()
        shutil.rmtree(self.folder, ignore_errors=True)
