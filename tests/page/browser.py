"""Headless Chromium, spoken to over a pipe in the protocol of its developer tools."""
import base64
import fcntl
import json
import os
import select
import shutil
import subprocess
import tempfile

# How long an answer may take, in seconds.
PATIENCE = 120

NAMES = ['chromium', 'chromium-browser', 'google-chrome', 'google-chrome-stable']


def installed():
    """Chromium's program, if there is one."""
    return next(filter(None, map(shutil.which, NAMES)), None)


class Browser:
    """One tab. `faults` has what the page did wrong: exceptions, refused or failed loads; `asked` the addresses it loaded."""

    def __init__(self, program):
        self.folder = tempfile.TemporaryDirectory()
        to_browser, self.out = (high(fd) for fd in os.pipe())
        self.back, from_browser = (high(fd) for fd in os.pipe())

        def at_3_and_4():
            os.dup2(to_browser, 3)
            os.dup2(from_browser, 4)

        self.process = subprocess.Popen(
            [program, '--headless', '--no-sandbox', '--disable-gpu', '--disable-dev-shm-usage', '--no-first-run',
             '--disable-extensions', '--disable-background-networking', '--hide-scrollbars',
             f'--user-data-dir={self.folder.name}', '--remote-debugging-pipe'],
            preexec_fn=at_3_and_4, pass_fds=(3, 4), stdin=subprocess.DEVNULL, stdout=subprocess.DEVNULL,
            stderr=subprocess.DEVNULL)
        os.close(to_browser)
        os.close(from_browser)
        self.read, self.count, self.session = b'', 0, None
        self.faults, self.asked, self.events = [], [], []
        target = self.call('Target.createTarget', url='about:blank')['targetId']
        self.session = self.call('Target.attachToTarget', targetId=target, flatten=True)['sessionId']
        for part in ['Page', 'Runtime', 'Log', 'Network', 'Accessibility']:
            self.call(f'{part}.enable')

    def close(self):
        self.process.terminate()
        self.process.wait()
        self.folder.cleanup()

    def message(self):
        pieces = [self.read]
        while b'\0' not in pieces[-1]:
            if not select.select([self.back], [], [], PATIENCE)[0]:
                raise RuntimeError('Chromium says nothing')
            pieces.append(os.read(self.back, 1 << 16))
            if not pieces[-1]:
                raise RuntimeError('Chromium ended')
        last, self.read = pieces[-1].split(b'\0', 1)
        return json.loads(b''.join([*pieces[:-1], last]))

    def noted(self, event):
        method, about = event.get('method'), event.get('params', {})
        self.events.append(method)
        if method == 'Runtime.exceptionThrown':
            self.faults.append(json.dumps(about['exceptionDetails']))
        if method == 'Log.entryAdded':
            self.faults.append(about['entry']['text'])
        if method == 'Network.requestWillBeSent':
            self.asked.append(about['request']['url'])

    def call(self, method, **parameters):
        self.count += 1
        call = {'id': self.count, 'method': method, 'params': parameters}
        if self.session:
            call['sessionId'] = self.session
        os.write(self.out, json.dumps(call).encode() + b'\0')
        while True:
            message = self.message()
            if message.get('id') != self.count:
                self.noted(message)
            elif 'error' in message:
                raise RuntimeError(f'{method}: {message["error"]}')
            else:
                return message['result']

    def wait(self, method):
        while method not in self.events:
            self.noted(self.message())

    def open(self, address):
        """Loads a page from nothing."""
        for step in ['about:blank', address]:
            self.events.clear()
            self.call('Page.navigate', url=step)
            self.wait('Page.loadEventFired')

    def value(self, expression):
        """What an expression is in the page; a promise is waited for."""
        answer = self.call('Runtime.evaluate', expression=expression, returnByValue=True, awaitPromise=True)
        if 'exceptionDetails' in answer:
            raise RuntimeError(f'{expression}: {answer["exceptionDetails"]}')
        return answer['result'].get('value')

    def script(self, on):
        self.call('Emulation.setScriptExecutionDisabled', value=not on)

    def document(self):
        root = self.call('DOM.getDocument')['root']['nodeId']
        return self.call('DOM.getOuterHTML', nodeId=root)['outerHTML']

    def look(self, width, scheme='light', media=''):
        """How the page is seen from now on."""
        self.call('Emulation.setDeviceMetricsOverride', width=width, height=900, deviceScaleFactor=1, mobile=False)
        self.call('Emulation.setEmulatedMedia', media=media,
                  features=[{'name': 'prefers-color-scheme', 'value': scheme}])

    def picture(self):
        return base64.b64decode(self.call('Page.captureScreenshot', format='png', captureBeyondViewport=True)['data'])

    def paper(self):
        answer = self.call('Page.printToPDF', preferCSSPageSize=True, paperWidth=8.27, paperHeight=11.69)
        return base64.b64decode(answer['data'])

    def click(self, selector):
        """Presses the mouse at the middle of an element."""
        place = self.value(f'''(() => {{ const element = document.querySelector({json.dumps(selector)});
            element.scrollIntoView({{ block: 'center', inline: 'center' }});
            const {{ x, y, width, height }} = element.getBoundingClientRect();
            return {{ x: x + width / 2, y: y + height / 2 }}; }})()''')
        for kind in ['mousePressed', 'mouseReleased']:
            self.call('Input.dispatchMouseEvent', type=kind, button='left', clickCount=1, **place)

    def key(self, name, code=0, text=''):
        self.call('Input.dispatchKeyEvent', type='keyDown', key=name, code=name, windowsVirtualKeyCode=code, text=text)
        self.call('Input.dispatchKeyEvent', type='keyUp', key=name, code=name, windowsVirtualKeyCode=code)

    def type(self, text):
        self.call('Input.insertText', text=text)

    def roles(self):
        """The role and the name of each node that a screen reader meets."""
        nodes = self.call('Accessibility.getFullAXTree')['nodes']
        met = (node for node in nodes if not node['ignored'])
        return [(node['role']['value'], node.get('name', {}).get('value', '')) for node in met]


def high(fd):
    """The same file, away from the numbers that Chromium takes for its pipe."""
    moved = fcntl.fcntl(fd, fcntl.F_DUPFD_CLOEXEC, 10)
    os.close(fd)
    return moved
