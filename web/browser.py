"""A headless Chromium over a pipe, by the DevTools protocol: no server, no library."""
import base64, json, os, shutil, subprocess, tempfile, time

NAMES = ("chromium", "chromium-browser", "google-chrome")


def found():
    return next(filter(None, map(shutil.which, NAMES)), None)


class Browser:
    def __enter__(self):
        self.folder = tempfile.TemporaryDirectory()
        # Chromium reads its descriptor 3 and writes its descriptor 4.
        ours_in, its_out = os.pipe()
        its_in, ours_out = os.pipe()
        def place():
            a, b = os.dup(its_in), os.dup(its_out)
            os.dup2(a, 3)
            os.dup2(b, 4)
        words = [found(), "--headless=new", "--remote-debugging-pipe", f"--user-data-dir={self.folder.name}"]
        words += ["--disable-gpu", "--disable-dev-shm-usage", "--no-first-run"]
        words += ["--no-sandbox"] * (os.geteuid() == 0)
        quiet = dict.fromkeys(("stdin", "stdout", "stderr"), subprocess.DEVNULL)
        self.ran = subprocess.Popen(words, preexec_fn=place, close_fds=False, **quiet)
        os.close(its_in)
        os.close(its_out)
        self.input, self.output = os.fdopen(ours_in, "rb"), os.fdopen(ours_out, "wb")
        self.count, self.rest, self.session = 0, b"", None
        target = self.ask("Target.createTarget", url="about:blank")["targetId"]
        self.session = self.ask("Target.attachToTarget", targetId=target, flatten=True)["sessionId"]
        for domain in ("Page", "Runtime", "Log"):
            self.ask(f"{domain}.enable")
        return self

    def __exit__(self, *_):
        self.ran.terminate()
        self.ran.wait()
        self.folder.cleanup()

    def read(self):
        while b"\0" not in self.rest:
            self.rest += os.read(self.input.fileno(), 1 << 20) or self.ended()
        said, _, self.rest = self.rest.partition(b"\0")
        return json.loads(said)

    def ended(self):
        raise RuntimeError("the browser ended")

    def ask(self, method, **params):
        self.count += 1
        call = {"id": self.count, "method": method, "params": params}
        if self.session:
            call["sessionId"] = self.session
        self.output.write(json.dumps(call).encode() + b"\0")
        self.output.flush()
        while True:
            said = self.read()
            self.note(said)
            if said.get("id") == self.count:
                if "error" in said:
                    raise RuntimeError(f"{method}: {said['error']}")
                return said["result"]

    def note(self, said):
        """Prints what went wrong on the page."""
        if said.get("method") == "Runtime.exceptionThrown":
            print("page:", said["params"]["exceptionDetails"].get("exception", {}).get("description", said["params"]))
        if said.get("method") == "Log.entryAdded":
            print("page:", said["params"]["entry"]["text"])

    def value(self, expression):
        said = self.ask("Runtime.evaluate", expression=expression, awaitPromise=True, returnByValue=True)
        if "exceptionDetails" in said:
            raise RuntimeError(said["exceptionDetails"]["exception"].get("description"))
        return said["result"].get("value")

    def open(self, url):
        # A change of the fragment alone loads nothing.
        self.ask("Page.navigate", url="about:blank")
        self.ask("Page.navigate", url=url)
        self.settled()

    def settled(self):
        """Waits until the run of the story on the page is done."""
        for _ in range(3000):
            if self.value("document.documentElement?.dataset.state") in ("done", "failed"):
                return
            time.sleep(0.02)
        raise RuntimeError("the page does not settle")

    def picture(self, file, width, height, dark=False, scale=1):
        self.ask("Emulation.setDeviceMetricsOverride", width=width, height=height, deviceScaleFactor=scale, mobile=width < 600)
        self.ask("Emulation.setEmulatedMedia", features=[{"name": "prefers-color-scheme", "value": "dark" if dark else "light"}])
        self.value("new Promise((done) => requestAnimationFrame(() => requestAnimationFrame(done)))")
        with open(file, "wb") as it:
            it.write(base64.b64decode(self.ask("Page.captureScreenshot")["data"]))
