"""A browser without a window, for bench/pages."""

import json, os, subprocess, sys, tempfile, time


# What stays in sight while one scrolls takes at most a fifth of the height, and covers no control and no text that one scrolls to.
CROWDING = """
(() => {
    const wrong = [];
    const stays = [...document.body.querySelectorAll('*')].filter((node) =>
        ['fixed', 'sticky'].includes(getComputedStyle(node).position) && node.id !== 'thread' &&
        node.getBoundingClientRect().height > 0);
    const heights = stays.map((node) => node.getBoundingClientRect().height);
    const sum = heights.reduce((one, other) => one + other, 0);
    if (!stays.length) wrong.push('no control stays in sight');
    if (sum > innerHeight / 5) wrong.push(stays.map((node) => node.id) + ' take ' + sum + ' of ' + innerHeight);
    if (document.documentElement.scrollWidth > innerWidth) wrong.push('the page is ' + document.documentElement.scrollWidth + ' wide');
    document.querySelectorAll('details').forEach((part) => { part.open = true; });
    for (const node of document.querySelectorAll('button, select, input, textarea, summary, h1, h2, p')) {
        const isEmpty = /^[HP]/.test(node.tagName) && node.textContent === '';
        if (isEmpty || node.closest('[hidden], noscript')) continue;
        node.scrollIntoView({block: 'nearest', inline: 'nearest'});
        const box = node.getBoundingClientRect();
        const over = document.elementFromPoint(box.x + box.width / 2, box.y + Math.min(box.height, innerHeight / 2) / 2);
        const isSeen = over && (node.contains(over) || over.contains(node));
        if (!isSeen) wrong.push('what covers ' + (node.id || node.textContent.slice(0, 20)) + ': ' + (over ? over.id || over.tagName : 'nothing'));
    }
    return wrong;
})()
"""


class Browser:
    """A browser that is told what to do by messages over two pipes."""

    def __init__(self, browser, folder):
        self.folder = folder
        down, self.to = os.pipe()
        self.back, up = os.pipe()
        # The browser reads from 3 and writes to 4.
        words = f'exec 3<&{down} 4>&{up}; exec "$@"'
        flags = ["--headless", "--no-sandbox", "--disable-gpu", "--disable-dev-shm-usage", "--no-first-run"]
        # (a click in the page writes to the history; one here comes faster than a browser lets a person's)
        flags += ["--disable-ipc-flooding-protection"]
        flags += ["--remote-debugging-pipe", f"--user-data-dir={tempfile.mkdtemp(dir=folder)}", "about:blank"]
        quiet = {"stdin": subprocess.DEVNULL, "stdout": subprocess.DEVNULL, "stderr": subprocess.DEVNULL}
        call = ["bash", "-c", words, "bash", browser, *flags]
        self.process = subprocess.Popen(call, pass_fds=(down, up), **quiet)
        os.close(down)
        os.close(up)
        self.buffer, self.count, self.events, self.session = b"", 0, [], None
        tabs = self.call("Target.getTargets")["targetInfos"]
        tab = next(one["targetId"] for one in tabs if one["type"] == "page")
        self.session = self.call("Target.attachToTarget", targetId=tab, flatten=True)["sessionId"]
        for part in ("Page", "Runtime", "Log", "Network"):
            self.call(part + ".enable")
        self.size(1600, 900)

    def read(self):
        while b"\0" not in self.buffer:
            more = os.read(self.back, 1 << 20)
            if not more:
                sys.exit("FAILED  the browser has ended")
            self.buffer += more
        message, self.buffer = self.buffer.split(b"\0", 1)
        return json.loads(message)

    def call(self, method, **params):
        self.count += 1
        message = {"id": self.count, "method": method, "params": params}
        if self.session:
            message["sessionId"] = self.session
        data = json.dumps(message).encode() + b"\0"
        while data:
            data = data[os.write(self.to, data) :]
        while True:
            answer = self.read()
            if answer.get("id") == self.count:
                if "error" in answer:
                    sys.exit(f"FAILED  {method}: {answer['error']}")
                return answer["result"]
            self.events.append(answer)

    def wait(self, method):
        while not any(event.get("method") == method for event in self.events):
            self.events.append(self.read())

    def do(self, text):
        """The value of an expression in the page."""
        answer = self.call("Runtime.evaluate", expression=text, returnByValue=True, awaitPromise=True)
        if "exceptionDetails" in answer:
            sys.exit(f"FAILED  {text[:200]}: {json.dumps(answer['exceptionDetails'])[:500]}")
        return answer["result"].get("value")

    def open(self, path):
        self.events = []
        self.call("Page.navigate", url="about:blank")
        self.wait("Page.loadEventFired")
        self.events = []
        before = time.monotonic()
        self.call("Page.navigate", url="file://" + path)
        self.wait("Page.loadEventFired")
        self.do("new Promise((done) => requestAnimationFrame(() => requestAnimationFrame(done)))")
        return time.monotonic() - before

    def key(self, key):
        codes = {"ArrowLeft": 37, "ArrowRight": 39, "Home": 36, "End": 35, "PageUp": 33, "PageDown": 34}
        codes |= {"Enter": 13, "Tab": 9, " ": 32, "ArrowDown": 40, "ArrowUp": 38}
        code = codes.get(key) or ord(key.upper())
        text = {"text": key} if len(key) == 1 else {}
        self.call("Input.dispatchKeyEvent", type="keyDown", key=key, windowsVirtualKeyCode=code, **text)
        self.call("Input.dispatchKeyEvent", type="keyUp", key=key, windowsVirtualKeyCode=code)

    def click(self, choice):
        """A press of the mouse in the middle of what a selector chooses."""
        place = self.do(
            f"(() => {{ const node = document.querySelector({json.dumps(choice)});"
            " node.scrollIntoView({block: 'nearest'}); const box = node.getBoundingClientRect();"
            " return [box.x + box.width / 2, box.y + box.height / 2]; })()"
        )
        for kind in ("mousePressed", "mouseReleased"):
            what = {"x": place[0], "y": place[1], "button": "left", "clickCount": 1}
            self.call("Input.dispatchMouseEvent", type=kind, **what)

    def size(self, width, height):
        """Another size of the window, as of a phone where it is narrow. What it lays out anew is there when this returns."""
        self.call("Emulation.setDeviceMetricsOverride", width=width, height=height, deviceScaleFactor=1, mobile=width < 500)
        self.do("new Promise((done) => requestAnimationFrame(() => requestAnimationFrame(done)))")

    def complaints(self):
        """What the console says, and what is asked for that is no file of ours."""
        self.do("0")
        said = []
        for event in self.events:
            method = event.get("method", "")
            if method in ("Runtime.exceptionThrown", "Runtime.consoleAPICalled", "Log.entryAdded"):
                said.append(json.dumps(event["params"])[:300])
            if method == "Network.requestWillBeSent":
                url = event["params"]["request"]["url"]
                if not url.startswith((f"file://{self.folder}/", "data:", "about:")):
                    said.append("asks for " + url)
        return said

    def crowding(self):
        """What is wrong with how much room the controls of a narrow page take, as one line each."""
        return self.do(CROWDING)

    def end(self):
        self.call("Browser.close")
        self.process.wait(timeout=20)
