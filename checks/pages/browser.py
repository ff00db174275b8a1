"""A browser without a window, over the pipe of its own protocol: what a page loads, what stands in it, and how it looks."""
import base64, json, os, shutil, subprocess, tempfile

NAMES = ['chromium', 'chromium-browser', 'google-chrome']


def program():
    """The browser's path. Where none is there, Debian's chromium is installed."""
    for name in NAMES:
        if shutil.which(name):
            return shutil.which(name)
    install = ['apt-get', 'install', '-y', '--no-install-recommends', 'chromium']
    if subprocess.run(install, stdout=subprocess.DEVNULL).returncode != 0:
        subprocess.run(['apt-get', 'update'], check=True, stdout=subprocess.DEVNULL)
        subprocess.run(install, check=True, stdout=subprocess.DEVNULL)
    return shutil.which('chromium')


class Browser:
    def __init__(self):
        self.profile = tempfile.mkdtemp(prefix='pages-')
        to_browser, self.writer = os.pipe()
        self.reader, from_browser = os.pipe()

        def pipes():
            # The browser reads from its descriptor 3 and writes to its 4.
            os.dup2(to_browser, 13)
            os.dup2(from_browser, 14)
            os.dup2(13, 3)
            os.dup2(14, 4)

        self.process = subprocess.Popen(
            [program(), '--headless', '--no-sandbox', '--disable-gpu', '--hide-scrollbars', '--no-first-run',
             '--user-data-dir=' + self.profile, '--remote-debugging-pipe', 'about:blank'],
            preexec_fn=pipes, close_fds=False, stdout=subprocess.DEVNULL, stderr=subprocess.DEVNULL)
        os.close(to_browser)
        os.close(from_browser)
        self.number = 0
        self.held = b''
        self.events = []
        self.session = None
        target = self.ask('Target.createTarget', url='about:blank')['targetId']
        self.session = self.ask('Target.attachToTarget', targetId=target, flatten=True)['sessionId']
        for domain in ['Page', 'Network', 'Runtime', 'Log']:
            self.ask(domain + '.enable')

    def receive(self):
        while b'\0' not in self.held:
            more = os.read(self.reader, 1 << 20)
            if not more:
                raise SystemExit('the browser has ended')
            self.held += more
        line, self.held = self.held.split(b'\0', 1)
        return json.loads(line)

    def ask(self, method, **params):
        """What the browser answers to a call of its protocol; the events that come meanwhile are kept."""
        self.number += 1
        call = {'id': self.number, 'method': method, 'params': params}
        if self.session:
            call['sessionId'] = self.session
        os.write(self.writer, json.dumps(call).encode() + b'\0')
        while True:
            message = self.receive()
            if message.get('id') == self.number:
                if 'error' in message:
                    raise SystemExit(f'{method}: {message["error"]}')
                return message['result']
            self.events.append(message)

    def open(self, path, scheme, width=1280):
        """Opens a file as one sees it who prefers this scheme, and gives the addresses that were asked for and the complaints."""
        self.ask('Emulation.setDeviceMetricsOverride', width=width, height=900, deviceScaleFactor=1, mobile=False)
        self.ask('Emulation.setEmulatedMedia', features=[{'name': 'prefers-color-scheme', 'value': scheme}])
        self.events = []
        self.ask('Page.navigate', url='file://' + os.path.abspath(path))
        while not any(e.get('method') == 'Page.loadEventFired' for e in self.events):
            self.events.append(self.receive())
        self.ask('Page.getLayoutMetrics')
        asked = [e['params']['request']['url'] for e in self.events if e.get('method') == 'Network.requestWillBeSent']
        complaints = [e['params'] for e in self.events if e.get('method') in ('Log.entryAdded', 'Runtime.exceptionThrown')]
        return asked, complaints

    def value(self, expression):
        """The value of an expression in the page that is open."""
        answer = self.ask('Runtime.evaluate', expression=expression, returnByValue=True)
        if 'exceptionDetails' in answer:
            raise SystemExit(f'{expression}: {answer["exceptionDetails"]}')
        return answer['result'].get('value')

    def picture(self, path):
        """Writes a picture of the whole page."""
        size = self.ask('Page.getLayoutMetrics')['cssContentSize']
        clip = {'x': 0, 'y': 0, 'width': size['width'], 'height': size['height'], 'scale': 1}
        shot = self.ask('Page.captureScreenshot', format='png', clip=clip, captureBeyondViewport=True)
        with open(path, 'wb') as out:
            out.write(base64.b64decode(shot['data']))

    def print(self, path):
        """Writes the page as it is printed, and gives the number of its sheets."""
        pdf = base64.b64decode(self.ask('Page.printToPDF', printBackground=False, preferCSSPageSize=True)['data'])
        with open(path, 'wb') as out:
            out.write(pdf)
        return pdf.count(b'/Type /Page\n') or pdf.count(b'/Type /Page ')

    def close(self):
        self.session = None
        self.ask('Browser.close')
        self.process.wait()
        os.close(self.writer)
        os.close(self.reader)
        shutil.rmtree(self.profile, ignore_errors=True)
