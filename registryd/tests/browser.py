"""Runs Chromium without a window: once, for the document of a page, or step by step by the DevTools protocol, over two pipes."""
import base64, contextlib, fcntl, json, os, select, subprocess, tempfile, time

from playing import until

FLAGS = ["chromium", "--headless", "--no-sandbox", "--disable-gpu", "--disable-dev-shm-usage", "--no-first-run", "--hide-scrollbars",
         "--disable-background-networking"]

# Time for one step, also on a loaded machine.
PATIENCE = 120

# The codes of keys that are not letters.
KEYS = {"Tab": (9, None), "Enter": (13, "\r"), " ": (32, " "), "Escape": (27, None)}

# Returns the texts whose contrast with their background is less than that of level AA (WCAG 2.1, 1.4.3), whatever their size.
CONTRASTS = """(() => {
    const channel = value => (value /= 255) <= 0.04045 ? value / 12.92 : ((value + 0.055) / 1.055) ** 2.4;
    const light = ([r, g, b]) => 0.2126 * channel(r) + 0.7152 * channel(g) + 0.0722 * channel(b);
    const parse = text => text.match(/[\\d.]+/g).map(Number);
    const behind = element => {
        for (; element; element = element.parentElement) {
            const color = parse(getComputedStyle(element).backgroundColor);
            if (color.length < 4 || color[3] === 1) return color;
            if (color[3] > 0) throw new Error("a background that is not opaque");
        }
        return matchMedia("(prefers-color-scheme: dark)").matches ? [18, 18, 18] : [255, 255, 255];
    };
    const found = [], seen = new Set();
    const check = (element, text) => {
        const style = getComputedStyle(element);
        if (!text.trim() || style.visibility !== "visible" || !element.getClientRects().length) return;
        const [one, two] = [light(parse(style.color)), light(behind(element))].sort((a, b) => b - a);
        const ratio = (one + 0.05) / (two + 0.05);
        seen.add(text.trim());
        if (ratio < 4.5 || style.opacity !== "1") found.push(`${text.trim().slice(0, 40)}: ${ratio.toFixed(2)}`);
    };
    const texts = document.createTreeWalker(document.body, NodeFilter.SHOW_TEXT);
    while (texts.nextNode()) check(texts.currentNode.parentElement, texts.currentNode.data);
    for (const field of document.querySelectorAll("input")) check(field, field.value);
    if (!seen.size) found.push("no text");
    return found;
})()"""

# Returns the parts that are wider than the window, if the page can be moved to the side.
TOO_WIDE = """(() => {
    const most = document.documentElement.clientWidth;
    if (document.documentElement.scrollWidth <= most) return [];
    const wide = [...document.querySelectorAll("body *")].filter(part => part.getBoundingClientRect().right > most + 0.5);
    return [`${document.documentElement.scrollWidth} > ${most}`, ...wide.slice(0, 5).map(part => part.outerHTML.slice(0, 120))];
})()"""

# The roles of what a person can use, which need a name (WCAG 2.1, 4.1.2).
CONTROLS = {"button", "link", "textbox", "searchbox", "checkbox", "combobox", "radio", "switch", "slider"}


def chromium(address, *words, path="/"):
    """Runs a browser on a page, and returns what it prints. The page's clock runs ahead of the machine's."""
    with tempfile.TemporaryDirectory() as profile:
        command = [*FLAGS, f"--user-data-dir={profile}", "--virtual-time-budget=8000", *words, f"http://{address}{path}"]
        return subprocess.run(command, stdout=subprocess.PIPE, stderr=subprocess.DEVNULL, text=True, timeout=PATIENCE, check=True).stdout


class Gone(Exception):
    """The page of a call was left."""


class Browser:
    """A browser with one page. `visit` opens a page by its path, and what loads another page waits for it."""

    def __init__(self, address, folder):
        self.base, self.number, self.events, self.rest = f"http://{address}", 0, [], b""
        # The pipes of the protocol are the files 3 and 4 of the browser.
        (command, self.commands), (self.replies, reply) = ([self.high(end) for end in os.pipe()] for _ in range(2))
        words = [*FLAGS, "--remote-debugging-pipe", f"--user-data-dir={folder}/profile", "about:blank"]
        self.process = subprocess.Popen(words, stdout=subprocess.DEVNULL, stderr=subprocess.DEVNULL, close_fds=False,
                                        preexec_fn=lambda: (os.dup2(command, 3), os.dup2(reply, 4)))
        os.close(command)
        os.close(reply)
        self.session = None
        target = self.call("Target.createTarget", url="about:blank")["targetId"]
        self.session = self.call("Target.attachToTarget", targetId=target, flatten=True)["sessionId"]
        for domain in ("Page", "Runtime", "Network", "Accessibility", "Log"):
            self.call(f"{domain}.enable")
        self.window(1280, 900)

    @staticmethod
    def high(number):
        """Returns a copy of an open file whose number is no smaller than 20, and closes the other."""
        copy = fcntl.fcntl(number, fcntl.F_DUPFD_CLOEXEC, 20)
        os.close(number)
        return copy

    def receive(self, end):
        """Returns the next message."""
        while b"\0" not in self.rest:
            assert select.select([self.replies], [], [], max(0, end - time.time()))[0], "the browser does not reply"
            more = os.read(self.replies, 1 << 20)
            assert more, "the browser has ended"
            self.rest += more
        message, _, self.rest = self.rest.partition(b"\0")
        return json.loads(message)

    def call(self, method, **given):
        """Makes a call of the protocol, and returns its result. Events that come meanwhile are kept."""
        self.number += 1
        message = {"id": self.number, "method": method, "params": given, **({"sessionId": self.session} if self.session else {})}
        data = json.dumps(message).encode() + b"\0"
        while data:
            data = data[os.write(self.commands, data):]
        end = time.time() + PATIENCE
        while True:
            reply = self.receive(end)
            if reply.get("id") == self.number:
                if "error" in reply:
                    raise Gone(f"{method}: {reply['error']}")
                return reply["result"]
            if "method" in reply:
                self.events.append(reply)

    def value(self, script):
        """Returns the value of an expression in the page."""
        result = self.call("Runtime.evaluate", expression=script, returnByValue=True, awaitPromise=True)
        if "exceptionDetails" in result:
            raise Gone(f"{script[:200]}: {result['exceptionDetails'].get('exception', {}).get('description')}")
        return result["result"].get("value")

    def waits(self, script):
        """Waits until an expression is true."""
        def holds():
            with contextlib.suppress(Gone):
                return self.value(script)
        assert until(holds, PATIENCE), (script, self.path(), self.text()[:500])

    def loads(self, act):
        """Does something that leads to another page, and waits until that is loaded."""
        self.value("window.before = true")
        act()
        self.waits("!window.before && document.readyState === 'complete' && location.protocol === 'http:'")

    def visit(self, path):
        self.loads(lambda: self.call("Page.navigate", url=self.base + path))

    def path(self):
        return self.value("location.pathname + location.search")

    def text(self):
        """Returns the words that the page shows."""
        return " ".join(self.value("document.body.innerText").split())

    def click(self, name):
        """Clicks the link or the button with a name, which leads to another page."""
        script = f"[...document.querySelectorAll('a, button')].find(part => part.textContent.trim() === {json.dumps(name)}).click()"
        self.loads(lambda: self.value(script))

    def write(self, field, text):
        """Writes a text into the field with an id, as a keyboard does."""
        self.value(f"document.getElementById({json.dumps(field)}).focus()")
        self.call("Input.insertText", text=text)

    def key(self, key):
        """Presses a key."""
        code, text = KEYS[key]
        given = {"key": key, "code": "Space" if key == " " else key, "windowsVirtualKeyCode": code}
        self.call("Input.dispatchKeyEvent", type="keyDown", **given, **({"text": text} if text else {}))
        self.call("Input.dispatchKeyEvent", type="keyUp", **given)

    def focus(self):
        """Returns the name of the part that has the focus."""
        return self.value("(part => part.labels?.length ? part.labels[0].textContent : (part.getAttribute('aria-label') || part.textContent).trim())"
                          "(document.activeElement)")

    def tab_to(self, name):
        """Goes by the key Tab to the part with a name."""
        for _ in range(200):
            self.key("Tab")
            if self.focus() == name:
                return
        raise AssertionError(f"the keyboard does not reach {name} in {self.path()}")

    def window(self, width, height):
        self.call("Emulation.setDeviceMetricsOverride", width=width, height=height, deviceScaleFactor=1, mobile=width < 600)

    def scheme(self, name):
        """Chooses light or dark."""
        self.call("Emulation.setEmulatedMedia", features=[{"name": "prefers-color-scheme", "value": name}])

    def nameless(self):
        """Returns the controls that have no name for a person who does not see the page."""
        nodes = [node for node in self.call("Accessibility.getFullAXTree")["nodes"] if not node.get("ignored")]
        controls = [node for node in nodes if node.get("role", {}).get("value") in CONTROLS]
        assert controls, "no controls"
        return [node["role"]["value"] for node in controls if not node.get("name", {}).get("value", "").strip()]

    def faults(self):
        """Returns what the browser reported since the last call: errors of scripts, what the policy refused, what did not load."""
        self.value("1")
        found = [event["params"] for event in self.events if event["method"] in ("Log.entryAdded", "Runtime.exceptionThrown")]
        self.events.clear()
        return [text for text in map(str, found) if "'level': 'error'" in text or "exceptionDetails" in text]

    def picture(self, file):
        data = self.call("Page.captureScreenshot", format="png")["data"]
        with open(file, "wb") as out:
            out.write(base64.b64decode(data))

    def end(self):
        os.close(self.commands)
        try:
            self.process.wait(timeout=30)
        except subprocess.TimeoutExpired:
            self.process.kill()
            self.process.wait()
        os.close(self.replies)


@contextlib.contextmanager
def browsing(address):
    """Starts a browser for the pages of a server."""
    with tempfile.TemporaryDirectory(ignore_cleanup_errors=True) as folder:
        browser = Browser(address, folder)
        try:
            yield browser
        finally:
            browser.end()
