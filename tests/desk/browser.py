"""A headless chromium, spoken to over its pipe by the DevTools protocol: enough to open a page, ask it, move the mouse and take a picture."""
import base64
import json
import os
import shutil
import subprocess
import time


class Browser:
    def __init__(self, folder):
        to_browser, from_browser = os.pipe(), os.pipe()
        self.send, self.receive, self.last, self.rest, self.heard = to_browser[1], from_browser[0], 0, b'', []
        self.process = subprocess.Popen(
            ['sh', '-c', f'exec "$0" "$@" 3<&{to_browser[0]} 4>&{from_browser[1]}', shutil.which('chromium'), '--headless', '--no-sandbox', '--disable-gpu', '--disable-dev-shm-usage',
             '--remote-debugging-pipe', '--no-first-run', '--disable-background-networking', '--window-size=1100,1500', f'--user-data-dir={folder}'],
            pass_fds=(to_browser[0], from_browser[1]), stdout=subprocess.DEVNULL, stderr=subprocess.DEVNULL)
        os.close(to_browser[0])
        os.close(from_browser[1])
        target = self.ask('Target.createTarget', url='about:blank')['targetId']
        self.session = self.ask('Target.attachToTarget', targetId=target, flatten=True)['sessionId']
        for domain in ('Page', 'Runtime', 'Network'):
            self.ask(domain + '.enable')

    session = None

    def message(self, until):
        """The next message, or None when the time is over."""
        os.set_blocking(self.receive, False)
        while b'\0' not in self.rest:
            if time.time() > until:
                return None
            try:
                piece = os.read(self.receive, 1 << 20)
            except BlockingIOError:
                time.sleep(0.01)
                continue
            if not piece:
                raise RuntimeError('the browser is gone')
            self.rest += piece
        one, self.rest = self.rest.split(b'\0', 1)
        return json.loads(one)

    def ask(self, method, **parameters):
        self.last += 1
        asked = {'id': self.last, 'method': method, 'params': parameters}
        if self.session:
            asked['sessionId'] = self.session
        os.write(self.send, json.dumps(asked).encode() + b'\0')
        until = time.time() + 60
        while True:
            answer = self.message(until)
            if answer is None:
                raise RuntimeError(f'no answer to {method}')
            if answer.get('id') == self.last:
                if 'error' in answer:
                    raise RuntimeError(f'{method}: {answer["error"]}')
                return answer['result']
            self.heard.append(answer)

    def wait(self, event):
        until = time.time() + 60
        while not any(one.get('method') == event for one in self.heard):
            one = self.message(until)
            if one is None:
                raise RuntimeError(f'no {event}')
            self.heard.append(one)

    def open(self, path):
        """Opens a file and waits until it is loaded; what is heard from then on is kept."""
        self.heard = []
        self.ask('Page.navigate', url='file://' + path)
        self.wait('Page.loadEventFired')

    def tell(self, script):
        answer = self.ask('Runtime.evaluate', expression=script, returnByValue=True)
        if 'exceptionDetails' in answer:
            raise RuntimeError(json.dumps(answer['exceptionDetails'])[:500])
        return answer['result'].get('value')

    def mouse(self, kind, x, y, **more):
        self.ask('Input.dispatchMouseEvent', type=kind, x=x, y=y, **more)

    def drag(self, start, end):
        self.mouse('mouseMoved', *start)
        self.mouse('mousePressed', *start, button='left', buttons=1, clickCount=1)
        for share in (0.3, 0.7, 1):
            self.mouse('mouseMoved', start[0] + share * (end[0] - start[0]), start[1] + share * (end[1] - start[1]), button='left', buttons=1)
        self.mouse('mouseReleased', *end, button='left', buttons=0, clickCount=1)

    def requested(self):
        """What the page asked for, by its addresses."""
        return [one['params']['request']['url'] for one in self.heard if one.get('method') == 'Network.requestWillBeSent']

    def problems(self):
        """Errors that the page's scripts met."""
        return [one for one in self.heard if one.get('method') == 'Runtime.exceptionThrown' or one.get('method') == 'Runtime.consoleAPICalled' and one['params']['type'] == 'error']

    def picture(self, path):
        with open(path, 'wb') as file:
            file.write(base64.b64decode(self.ask('Page.captureScreenshot', captureBeyondViewport=True)['data']))

    def close(self):
        os.close(self.send)
        os.close(self.receive)
        self.process.terminate()
        self.process.wait()
