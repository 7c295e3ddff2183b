"""Chromium without a window, asked by its DevTools protocol through two pipes."""
import json
import os
import shutil
import signal
import subprocess
import tempfile

SECONDS = 300


def path():
    return shutil.which("chromium")


class Browser:
    """A browser with one page. What it asks of the network is kept."""

    def __init__(self, chromium):
        # Lets processes that the browser began write a little longer than it lives.
        self.folder = tempfile.TemporaryDirectory(ignore_cleanup_errors=True)
        (theirs_in, ours_out), (ours_in, theirs_out) = os.pipe(), os.pipe()
        # The browser takes its questions from descriptor 3, and answers on 4.
        words = [chromium, "--headless=new", "--no-sandbox", "--disable-gpu", "--remote-debugging-pipe",
                 f"--user-data-dir={self.folder.name}"]
        command = ["/bin/sh", "-c", f'exec "$@" 3<&{theirs_in} 4>&{theirs_out}', "sh", *words]
        self.process = subprocess.Popen(command, pass_fds=(theirs_in, theirs_out), stdout=subprocess.DEVNULL,
                                        stderr=subprocess.DEVNULL, start_new_session=True)
        os.close(theirs_in)
        os.close(theirs_out)
        self.questions, self.answers = os.fdopen(ours_out, "wb"), os.fdopen(ours_in, "rb")
        self.number, self.session, self.requests, self.rest = 0, None, [], b""

    def __enter__(self):
        return self

    def __exit__(self, *_):
        os.killpg(self.process.pid, signal.SIGKILL)
        self.process.wait()
        self.questions.close()
        self.answers.close()
        self.folder.cleanup()

    def message(self):
        while b"\0" not in self.rest:
            piece = self.answers.read1(1 << 16)
            if not piece:
                raise OSError("the browser has ended")
            self.rest += piece
        said, _, self.rest = self.rest.partition(b"\0")
        return json.loads(said)

    def ask(self, method, **words):
        self.number += 1
        question = {"id": self.number, "method": method, "params": words}
        if self.session:
            question["sessionId"] = self.session
        self.questions.write(json.dumps(question).encode() + b"\0")
        self.questions.flush()
        while True:
            said = self.message()
            if said.get("method") == "Network.requestWillBeSent":
                self.requests.append(said["params"]["request"]["url"])
            if said.get("id") == self.number:
                if "error" in said:
                    raise OSError(f"{method}: {said['error']['message']}")
                return said["result"]

    def open(self, address):
        target = self.ask("Target.createTarget", url="about:blank")["targetId"]
        self.session = self.ask("Target.attachToTarget", targetId=target, flatten=True)["sessionId"]
        self.ask("Network.enable")
        self.ask("Page.enable")
        self.ask("Page.navigate", url=address)

    def value(self, expression):
        """The value of an expression of JavaScript, which may be a promise."""
        said = self.ask("Runtime.evaluate", expression=expression, awaitPromise=True, returnByValue=True)
        if "exceptionDetails" in said:
            raise OSError(f"{expression}: {said['result'].get('description')}")
        return said["result"].get("value")

    def wait(self, condition):
        """Waits until the condition is true, in the page itself."""
        self.value("new Promise((done, failed) => { const end = Date.now() + %d, look = () => (%s) ? done() : Date.now() > end "
                   "? failed(new Error('it waits in vain')) : setTimeout(look, 50); look(); })" % (1000 * SECONDS, condition))

    def center(self, selector):
        return self.value("(() => { const it = document.querySelector(%s); it.scrollIntoView(); const box = it.getBoundingClientRect();"
                          " return { x: box.x + box.width / 2, y: box.y + box.height / 2 }; })()" % json.dumps(selector))

    def drop(self, selector, files):
        """Drops these files on an element, as a hand does."""
        data = {"items": [], "files": [str(file) for file in files], "dragOperationsMask": 1}
        for kind in ("dragEnter", "dragOver", "drop"):
            self.ask("Input.dispatchDragEvent", type=kind, data=data, **self.center(selector))
