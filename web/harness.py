"""A browser without a window that is controlled through two pipes, and functions that the tests of the page share.
"""
import base64
import json
import os
import pathlib
import random
import shutil
import subprocess
import sys
import tempfile
import time

WEB = pathlib.Path(__file__).resolve().parent
TOP = WEB.parent
PAGE = WEB / "index.html"
CHROMIUM = os.environ.get("CHROMIUM") or next(
    (it for it in ("chromium", "chromium-browser", "google-chrome") if shutil.which(it)), None
)
# a mutant can stop the page
PATIENCE = 20 if os.environ.get("FIRST") else 120
# the values of the filter's fields in a new page
FILTER = ["", True, "all", False, ""]
KEYS = {
    "Tab": 9,
    "Enter": 13,
    "PageUp": 33,
    "PageDown": 34,
    "End": 35,
    "Home": 36,
    "ArrowLeft": 37,
    "ArrowUp": 38,
    "ArrowRight": 39,
    "ArrowDown": 40,
}


class Browser:
    """A browser without a window, and one page in it."""

    def __init__(self, *flags, before=""):
        self.room = tempfile.mkdtemp(prefix="dcc-web-")
        self.requests, self.complaints, self.number = [], [], 0
        to_read, self.to = os.pipe()
        self.source, to_write = os.pipe()
        words = [
            CHROMIUM,
            "--headless=new",
            "--remote-debugging-pipe",
            "--no-first-run",
            "--disable-gpu",
            "--disable-dev-shm-usage",
        ]
        words += ["--no-sandbox"] * (os.geteuid() == 0) + [
            f"--user-data-dir={self.room}",
            "--window-size=1280,1000",
            *flags,
        ]

        def lay_pipes():
            # the browser reads 3 and writes 4
            a, b = os.dup(to_read), os.dup(to_write)
            os.dup2(a, 3)
            os.dup2(b, 4)

        none = subprocess.DEVNULL
        self.run = subprocess.Popen(words, stdin=none, stdout=none, stderr=none, preexec_fn=lay_pipes, pass_fds=(3, 4))
        os.close(to_read)
        os.close(to_write)
        self.rest = b""
        target = self.ask("Target.createTarget", url="about:blank")["targetId"]
        self.session = self.ask("Target.attachToTarget", targetId=target, flatten=True)["sessionId"]
        for it in ("Page", "Network", "Runtime", "Log", "DOM"):
            self.ask(f"{it}.enable")
        if before:
            self.ask("Page.addScriptToEvaluateOnNewDocument", source=before)
        self.ask("Page.navigate", url=PAGE.as_uri())
        self.wait(
            "document.readyState === 'complete' && "
            "(document.body.dataset.read > 0 || !document.getElementById('fault').hidden)"
        )

    def take(self):
        while b"\0" not in self.rest:
            more = os.read(self.source, 1 << 20)
            if not more:
                raise RuntimeError("the browser has gone")
            self.rest += more
        told, self.rest = self.rest.split(b"\0", 1)
        return json.loads(told)

    def ask(self, method, **words):
        self.number += 1
        question = {"id": self.number, "method": method, "params": words}
        if hasattr(self, "session"):
            question["sessionId"] = self.session
        data = json.dumps(question).encode() + b"\0"
        while data:
            data = data[os.write(self.to, data) :]
        while True:
            told = self.take()
            if told.get("id") == self.number:
                if "error" in told:
                    raise RuntimeError(f"{method}: {told['error']}")
                return told["result"]
            self.note(told)

    def note(self, told):
        words = told.get("params", {})
        if told.get("method") == "Network.requestWillBeSent":
            self.requests.append(words["request"]["url"][:100])
        elif told.get("method") == "Runtime.exceptionThrown":
            self.complaints.append(str(words["exceptionDetails"].get("exception", {}).get("description", words))[:300])
        elif told.get("method") == "Log.entryAdded" and words["entry"]["level"] == "error":
            self.complaints.append(words["entry"]["text"][:300])

    def js(self, text):
        told = self.ask("Runtime.evaluate", expression=text, returnByValue=True, awaitPromise=True)
        if "exceptionDetails" in told:
            raise RuntimeError(told["exceptionDetails"].get("exception", {}).get("description", str(told)))
        return told["result"].get("value")

    def wait(self, condition):
        end = time.monotonic() + PATIENCE
        while not self.js(condition):
            if time.monotonic() > end:
                raise RuntimeError(f"not within {PATIENCE} seconds: {condition}")
            time.sleep(0.02)

    def paste(self, text):
        """Puts a text into the field as a reader does who pastes it, and waits until the page has read it."""
        was = self.reads()
        self.js("document.getElementById('text').select()")
        self.js(
            f"(() => {{ const it = document.getElementById('text'); it.value = {json.dumps(text)};"
            " it.dispatchEvent(new InputEvent('input', { bubbles: true, inputType: 'insertFromPaste' })); })()"
        )
        self.wait(f"Number(document.body.dataset.read) > {was}")

    def open(self, path):
        was = self.reads()
        root = self.ask("DOM.getDocument")["root"]["nodeId"]
        field = self.ask("DOM.querySelector", nodeId=root, selector="#file")["nodeId"]
        self.ask("DOM.setFileInputFiles", files=[str(path)], nodeId=field)
        self.wait(f"Number(document.body.dataset.read) > {was}")

    def press(self, key, text=""):
        words = {"key": key, "code": key, "windowsVirtualKeyCode": KEYS[key]}
        self.ask("Input.dispatchKeyEvent", type="keyDown", **words, **({"text": text} if text else {}))
        self.ask("Input.dispatchKeyEvent", type="keyUp", **words)

    def listing(self):
        """The list as text: what its field has, and where that is not all, the file that the page saves."""
        self.js("document.getElementById('listing').open = true; page.writeListing()")
        shown = self.js("document.getElementById('lines').value")
        if not self.text("#lines-shown"):
            return shown
        whole = self.saved()
        if not whole.startswith(shown):
            raise RuntimeError("the field of the list has not the first lines of its file")
        return whole

    def saved(self):
        """What the page saves of the list."""
        file = pathlib.Path(self.room) / "packets.txt"
        file.unlink(missing_ok=True)
        self.ask("Browser.setDownloadBehavior", behavior="allow", downloadPath=self.room)
        self.js("document.getElementById('save').click()")
        end = time.monotonic() + PATIENCE
        while not file.exists():
            if time.monotonic() > end:
                raise RuntimeError(f"no file within {PATIENCE} seconds")
            self.js("0")
            time.sleep(0.02)
        return file.read_text()

    def halves(self):
        """The half-bits that the page has read, a line each."""
        return self.js("page.halves.slice(0, page.halves.count).map((it) => `${it}\\n`).join('')")

    def choose(self, channel):
        """Chooses a channel by its name or its end, or by its id, which stands in brackets behind it."""
        was = self.reads()
        self.js(
            """((channel) => {
            const menu = document.getElementById('channel');
            const ends = (it) => [` (${channel})`, channel].some((end) => it.text.endsWith(end));
            const fits = (it) => ends(it) || it.text.startsWith(`${channel} (`);
            const byNumber = (it) => it.text.replace(/ \\(.*/, '').endsWith(channel);
            menu.value = ([...menu.options].find(fits) ?? [...menu.options].find(byNumber)).value;
            menu.dispatchEvent(new Event('change'));
        })(%s)"""
            % json.dumps(channel)
        )
        self.wait(f"Number(document.body.dataset.read) > {was}")

    def drop_garbage(self):
        self.ask("HeapProfiler.collectGarbage")

    def filter(self):
        fields = ("who", "own", "kind", "fold", "find")
        return self.js(
            "%s.map((it) => document.getElementById(it)).map((it) => (it.type === 'checkbox' ? it.checked : it.value))"
            % json.dumps(fields)
        )

    def text(self, what):
        return self.js(f"document.querySelector({json.dumps(what)}).textContent")

    def is_seen(self, what):
        return self.js(f"document.querySelector({json.dumps(what)}).checkVisibility()")

    def rows(self):
        """The rows of the table, as `number words`."""
        return self.js(
            "[...document.querySelectorAll('#rows tr')].filter((it) => it.querySelector('.words'))"
            ".map((it) => ['.at', '.words'].map((part) => it.querySelector(part).textContent).join(' '))"
            ".map((it) => it + '\\n').join('')"
        )

    def texts(self, what):
        """The texts of all such elements."""
        return self.js(f"[...document.querySelectorAll({json.dumps(what)})].map((it) => it.textContent)")

    def pulses(self, what):
        """The pulses of each such drawing from the left: where each begins and ends, and its top."""
        return self.js(
            """[...document.querySelectorAll(%s)].map((svg) => [...svg.querySelectorAll('.pulse')]
            .flatMap((it) => [...it.getAttribute('d').matchAll(/M([\\d.]+) ([\\d.]+)H([\\d.]+)/g)])
            .map(([, from, top, end]) => [from, end, top].map(Number))
            .sort((a, b) => a[0] - b[0]))"""
            % json.dumps(what)
        )

    def hover(self, what, x, y):
        """Moves the mouse to a place of an element, in pixels from its left and top."""
        left, top = self.js(
            "(() => { const it = document.querySelector(%s);"
            "(it.closest('tr') ?? it).scrollIntoView({ block: 'center' });"
            " const { left, top } = it.getBoundingClientRect(); return [left, top]; })()" % json.dumps(what)
        )
        self.ask("Input.dispatchMouseEvent", type="mouseMoved", x=left + x, y=top + y)

    def touch(self, x, y):
        self.ask("Input.dispatchTouchEvent", type="touchStart", touchPoints=[{"x": x, "y": y}])
        self.ask("Input.dispatchTouchEvent", type="touchEnd", touchPoints=[])

    def unfold(self, is_open):
        """Opens all that can be opened, or shuts it."""
        self.js(f"for (const it of document.querySelectorAll('details')) it.open = {json.dumps(is_open)}")

    def fault(self):
        return self.js("document.getElementById('fault').hidden ? '' : document.getElementById('fault').innerText")

    def sees(self, what):
        return self.js(f"document.querySelectorAll({json.dumps(what)}).length")

    def pick(self, name, value):
        """Chooses in a menu, writes into a field or moves a slider, as a reader does."""
        self.js(
            """(([id, value]) => {
            const it = document.getElementById(id);
            it.value = value;
            for (const kind of ['input', 'change']) it.dispatchEvent(new Event(kind, { bubbles: true }));
        })(%s)"""
            % json.dumps([name, value])
        )
        self.rest_of_work()

    def reads(self):
        """How many texts and files the page has read, when it reads none any more."""
        self.rest_of_work()
        return self.js("Number(document.body.dataset.read)")

    def rest_of_work(self):
        """Waits until no worker of the page has anything to do."""
        self.wait("page.work.running.size === 0")

    def look(self, width=1280, scheme="light", height=1000):
        """Makes the window so wide, and chooses a colour scheme."""
        self.ask("Emulation.setEmulatedMedia", features=[{"name": "prefers-color-scheme", "value": scheme}])
        self.ask(
            "Emulation.setDeviceMetricsOverride", width=width, height=height, deviceScaleFactor=1, mobile=width < 600
        )
        self.js("page?.scale()")

    def picture(self, path, width=1280, scheme="light"):
        self.look(width, scheme)
        self.look(width, scheme, self.js("document.documentElement.scrollHeight"))
        pathlib.Path(path).write_bytes(base64.b64decode(self.ask("Page.captureScreenshot", format="png")["data"]))

    def close(self):
        try:
            self.ask("Browser.close")
        except (RuntimeError, OSError):
            self.run.kill()
        self.run.wait()
        os.close(self.to)
        os.close(self.source)
        shutil.rmtree(self.room, ignore_errors=True)


passed = failed = 0
# the name of the part that runs
part_now = ""


def check(name, holds, more=""):
    global passed, failed
    if holds:
        passed += 1
    else:
        failed += 1
        # tools/package-mutants reads the part, and needs only the first failure
        is_mutant = "FIRST" in os.environ
        print(f"failed: {f'{part_now}: ' if is_mutant else ''}{name}{f': {more}' if more else ''}")
        if is_mutant:
            sys.exit(1)


def attempt(part, *words):
    """Runs a part of the tests. A part leaves the filter of the page as it found it."""
    global part_now
    part_now = part.__name__
    try:
        part(*words)
        if words and isinstance(words[0], Browser):
            same(f"{part.__name__} leaves the filter as it was", words[0].filter(), FILTER)
    except (RuntimeError, OSError) as error:
        check(part.__name__, False, error)


def same(name, is_, wanted):
    check(name, is_ == wanted, "" if is_ == wanted else f"{str(is_)[:300]!r} and not {str(wanted)[:300]!r}")


def show(program, capture):
    ran = subprocess.run([program, "show", "--words"], input=capture.encode(), capture_output=True)
    return ran.stdout.decode(), ran.stderr.decode().strip()


def jittered(halves, *flags):
    words = ["awk", *flags, "-f", str(TOP / "tools" / "jitter.awk")]
    return subprocess.run(words, input=halves, capture_output=True, check=True).stdout.decode()


def to_capture(data, channel=""):
    """The capture that tools/to-capture makes of a file, and its sentence."""
    ran = subprocess.run([TOP / "tools" / "to-capture", "-c", channel], input=data, capture_output=True)
    check(
        "to-capture ends with status 1 where it has a sentence, else with 0",
        ran.returncode == (1 if ran.stderr else 0),
        ran.stderr,
    )
    return ran.stdout.decode(), ran.stderr.decode().strip()


def by_hand(browser, text):
    """Types or pastes a text into the field, by the browser's own input."""
    was = browser.reads()
    browser.js("document.getElementById('text').focus(); document.getElementById('text').select()")
    browser.ask("Input.insertText", text=text)
    browser.wait(f"Number(document.body.dataset.read) > {was}")


def against_program(browser, program, name, text, capture=None):
    """The page's list and fault for a text are those of `dcc show --words` for its capture."""
    lines, fault = show(program, text if capture is None else capture)
    browser.paste(text)
    same(f"{name}: the list", browser.listing(), lines)
    same(f"{name}: the fault", browser.text("#fault-code"), fault)
    return lines


def body(packet, preamble=14):
    """Half-bits of bytes, after a preamble."""
    bits = [1] * preamble
    for byte in packet:
        bits += [0, *(byte >> place & 1 for place in range(7, -1, -1))]
    return [us for bit in [*bits, 1] for us in ([58, 58] if bit else [100, 100])]


def some_noise(packets):
    """Packets of all lengths with some halves spoilt, so that each refusal is there; the same from run to run."""
    dice = random.Random(20261123)
    halves = []
    for _ in range(packets):
        packet = [dice.randrange(256) for _ in range(dice.choice([1, 2, 2, 3, 3, 4, 5, 6]))]
        if len(packet) > 2 and dice.randrange(5):
            packet[-1] = 0
            for it in packet[:-1]:
                packet[-1] ^= it
        one = body(packet if dice.randrange(20) else [0] * 7, dice.choice([14, 14, 14, 10, 9, 20, 17]))
        if not dice.randrange(4):
            one[dice.randrange(len(one))] = dice.choice([0, 20, 51, 52, 64, 65, 89, 90, 5000, 10000, 10001, 70000])
        halves += one[dice.randrange(3) :]
    return " ".join(map(str, halves)) + "\n"
