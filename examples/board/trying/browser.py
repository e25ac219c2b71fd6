"""Chromium without a window, by the DevTools protocol over its pipe, and a page in it that is used by keys."""

import base64
import json
import os
import re
import shutil
import subprocess
import sys
import threading
import time

from trying.common import expect, wait_for

CODES = {"Enter": 13, "Tab": 9, "Escape": 27, "ArrowDown": 40, "ArrowUp": 38, "Home": 36, "End": 35, " ": 32, "/": 191, "?": 191}

# what has to have a name for screen readers
CONTROLS = {"button", "link", "textbox", "searchbox", "combobox", "checkbox", "radio", "DisclosureTriangle", "spinbutton", "ComboBoxSelect"}

# elements that the page itself does not make
MADE_OF_TEXT = "img, i, u, s, script:not([src]), q *, b:not(#strip b, .counted b, .left, #flood-lines b, .title, #broken b, .no-row)"

# the focus, as its id, its name or its text
FOCUS = "((node) => node.id || node.getAttribute('aria-label') || node.textContent.trim() || node.tagName)(document.activeElement)"

# notes each time that what had the keyboard loses it to the page's body, unless by Tab, which goes round by it
LOST_FOCUS = """
    window.lostFocus = [];
    window.countOfFocus = 0;
    let last = null, key = "";
    addEventListener("keydown", (event) => { key = event.key; }, true);
    addEventListener("focusin", () => { window.countOfFocus += 1; }, true);
    setInterval(() => {
        const active = document.activeElement;
        if (active && active !== document.body) {
            last = active.id || active.getAttribute("aria-label") || active.textContent.trim();
        } else if (last !== null) {
            if (key !== "Tab") window.lostFocus.push(`${last} at ${location.hash}`);
            last = null;
        }
    }, 10);
"""

# texts with a contrast below 4.5 to what lies behind them, and marks with one below 3, by the computed colours
LOW_CONTRAST = """(() => {
    const numbers = (colour) => colour.match(/[\\d.]+/g).map(Number);
    const luminance = (colour) => numbers(colour).slice(0, 3).map((part) => part / 255)
        .map((part) => part <= 0.04045 ? part / 12.92 : ((part + 0.055) / 1.055) ** 2.4)
        .reduce((sum, part, place) => sum + part * [0.2126, 0.7152, 0.0722][place], 0);
    const ground = (node) => {
        for (let each = node; each; each = each.parentElement) {
            const colour = getComputedStyle(each).backgroundColor;
            const alpha = numbers(colour)[3] ?? 1;
            if (alpha === 1) return colour;
            if (alpha > 0) return "rgb(0,0,0)";
        }
        return "rgb(255,255,255)";
    };
    const found = [];
    let count = 0;
    const check = (node, colour, text, least = 4.5) => {
        const [one, other] = [luminance(colour), luminance(ground(node))];
        const contrast = (Math.max(one, other) + 0.05) / (Math.min(one, other) + 0.05);
        count += 1;
        if (contrast < least) found.push(`${text.trim().slice(0, 40)}: ${contrast.toFixed(2)}`);
    };
    const walker = document.createTreeWalker(document.body, NodeFilter.SHOW_TEXT);
    while (walker.nextNode()) {
        const node = walker.currentNode.parentElement;
        const isShown = node.getBoundingClientRect().width > 1 && node.checkVisibility({visibilityProperty: true});
        if (walker.currentNode.data.trim() && isShown && node.tagName !== "OPTION") {
            check(node, getComputedStyle(node).color, walker.currentNode.data);
        }
    }
    for (const node of document.querySelectorAll("input, select")) {
        if (node.checkVisibility()) {
            check(node, getComputedStyle(node).color, node.id);
            check(node, getComputedStyle(node, "::placeholder").color, `${node.id} placeholder`);
        }
    }
    for (const node of document.querySelectorAll(".mark .whole")) {
        if (node.checkVisibility()) check(node, getComputedStyle(node).stroke, "the outline of a mark", 3);
    }
    for (const bar of document.querySelectorAll(".flood")) {
        const style = getComputedStyle(bar, "::before");
        const isBordered = parseFloat(style.borderTopWidth) > 0;
        if (bar.checkVisibility()) check(bar.parentElement, isBordered ? style.borderTopColor : style.backgroundColor, "the bar of a flood", 3);
    }
    return [count, found];
})()"""

# what sticks out of the page's width, and texts that overlap in the chart
STICKING_OUT = """(() => {
    const width = document.documentElement.clientWidth;
    const found = document.documentElement.scrollWidth > width ? [`the page is ${document.documentElement.scrollWidth} wide`] : [];
    for (const node of document.querySelectorAll("body *")) {
        const box = node.getBoundingClientRect();
        const isOut = box.width > 1 && (box.right > width + 0.5 || box.left < -0.5);
        if (isOut && node.checkVisibility() && !node.closest(".unseen, #skip")) {
            found.push(`${node.tagName} ${node.id || node.className} ${node.textContent.slice(0, 30)}: ${box.left} to ${box.right}`);
        }
    }
    for (const row of document.querySelectorAll("tr, li, .facts > div, .bar")) {
        if (row.checkVisibility() && row.scrollWidth > row.clientWidth + 1 && row.clientWidth > 0) {
            found.push(`${row.tagName} ${row.textContent.slice(0, 40)}: ${row.scrollWidth} in ${row.clientWidth}`);
        }
        const boxes = [...row.children].filter((node) => node.checkVisibility() && getComputedStyle(node).position === "static")
            .map((node) => node.getBoundingClientRect()).filter((box) => box.width > 1);
        boxes.forEach((one, number) => boxes.slice(number + 1).forEach((other) => {
            const across = Math.min(one.right, other.right) - Math.max(one.left, other.left);
            const down = Math.min(one.bottom, other.bottom) - Math.max(one.top, other.top);
            if (across > 1 && down > 1) found.push(`in ${row.textContent.slice(0, 40)}: parts overlap by ${across} and ${down}`);
        }));
    }
    const texts = document.createTreeWalker(document.body, NodeFilter.SHOW_TEXT);
    while (texts.nextNode()) {
        const text = texts.currentNode.data.trim();
        const node = texts.currentNode.parentElement;
        if (text.length < 4 || !node.checkVisibility() || node.getBoundingClientRect().width <= 1 || node.closest(".unseen, option, #skip")) continue;
        const range = document.createRange();
        range.selectNodeContents(texts.currentNode);
        const lines = new Set([...range.getClientRects()].map((box) => Math.round(box.top))).size;
        if (lines > 2 && text.length / lines < 2.5) found.push(`letters one below the other: ${text.slice(0, 30)}`);
    }
    for (const link of document.querySelectorAll(".tag a")) {
        if (link.getClientRects().length > 3) found.push(`${link.textContent} takes ${link.getClientRects().length} lines`);
    }
    const hours = [...document.querySelectorAll(".tick span")].filter((node) => node.checkVisibility())
        .map((node) => node.getBoundingClientRect()).sort((one, other) => one.left - other.left);
    hours.slice(1).forEach((box, number) => {
        if (box.left < hours[number].right + 4) found.push(`hours overlap at ${box.left}`);
    });
    return found;
})()"""


class Browser:
    def __init__(self, folder):
        to_browser, self.write_end = os.pipe()
        self.read_end, from_browser = os.pipe()

        def connect():
            # 3 is read by the browser, and 4 written
            ends = [os.dup2(end, 20 + place) for place, end in enumerate([to_browser, from_browser])]
            for place, end in enumerate(ends):
                os.dup2(end, 3 + place)

        command = [shutil.which("chromium"), "--headless", "--remote-debugging-pipe", f"--user-data-dir={folder}/chromium"]
        command += ["--disable-gpu", "--disable-dev-shm-usage", "--no-first-run", "--hide-scrollbars", "--disable-lcd-text"]
        command += ["--disable-background-networking"] + (["--no-sandbox"] if os.getuid() == 0 else [])
        self.process = subprocess.Popen(
            command, preexec_fn=connect, close_fds=False, stdout=subprocess.DEVNULL, stderr=open(folder / "chromium.log", "w")
        )
        os.close(to_browser)
        os.close(from_browser)
        self.answers, self.events, self.count = {}, [], 0
        self.news = threading.Condition()
        threading.Thread(target=self.read, daemon=True).start()

    def read(self):
        buffer = b""
        while piece := os.read(self.read_end, 65536):
            *messages, buffer = (buffer + piece).split(b"\0")
            with self.news:
                for message in map(json.loads, messages):
                    if "id" in message:
                        self.answers[message["id"]] = message
                    else:
                        self.events.append(message)
                self.news.notify_all()

    def send(self, method, session=None, **params):
        self.count += 1
        number = self.count
        message = {"id": number, "method": method, "params": params} | ({"sessionId": session} if session else {})
        rest = json.dumps(message).encode() + b"\0"
        while rest:
            rest = rest[os.write(self.write_end, rest) :]
        with self.news:
            if not self.news.wait_for(lambda: number in self.answers, 60):
                sys.exit(f"Chromium does not answer {method}")
            answer = self.answers.pop(number)
        if "error" in answer:
            sys.exit(f"Chromium: {method}: {answer['error']}")
        return answer["result"]

    def stop(self):
        if self.process.poll() is None:
            self.process.terminate()
            self.process.wait()


class Page:
    """A page of its own profile, so that each signs on anew."""

    def __init__(self, browser, address, width=1280, height=1240, is_empty=False):
        self.browser = browser
        context = browser.send("Target.createBrowserContext")["browserContextId"]
        target = browser.send("Target.createTarget", url="about:blank", browserContextId=context)
        self.target = target["targetId"]
        self.session = browser.send("Target.attachToTarget", targetId=self.target, flatten=True)["sessionId"]
        for domain in ["Page", "Runtime", "Network", "Log", "DOM"]:
            self.send(f"{domain}.enable")
        self.resize(width, height)
        self.send("Emulation.setFocusEmulationEnabled", enabled=True)
        self.send("Page.addScriptToEvaluateOnNewDocument", source=LOST_FOCUS)
        self.send("Page.navigate", url=address)
        if is_empty:
            wait_for("the page", lambda: self.value("document.readyState === 'complete'"))
            return
        wait_for("the alarms", lambda: self.value("document.querySelectorAll('#alarm-table tbody').length > 0"), 30)

    def send(self, method, **params):
        return self.browser.send(method, self.session, **params)

    def resize(self, width, height):
        self.width = width
        self.send("Emulation.setDeviceMetricsOverride", width=width, height=height, deviceScaleFactor=1, mobile=False)

    def value(self, expression):
        answer = self.send("Runtime.evaluate", expression=expression, returnByValue=True)
        if "exceptionDetails" in answer:
            sys.exit(f"the page: {expression}: {answer['exceptionDetails']}")
        return answer["result"].get("value")

    def text(self, selector):
        return self.value(f"document.querySelector({json.dumps(selector)})?.innerText ?? ''")

    def texts(self, selector):
        """The texts of the elements that are shown."""
        shown = f"[...document.querySelectorAll({json.dumps(selector)})].filter((node) => node.checkVisibility())"
        return self.value(f"{shown}.map((node) => node.innerText)")

    def is_shown(self, selector):
        return self.value(f"document.querySelector({json.dumps(selector)})?.checkVisibility() ?? false")

    def facts(self, selector):
        """A list of facts as a dict."""
        return self.value(
            f"Object.fromEntries([...document.querySelectorAll({json.dumps(selector + ' > div')})].filter((fact) => fact.checkVisibility())"
            ".map((fact) => [...fact.children].map((part) => part.textContent)))"
        )

    def go(self, rest):
        self.value(f"location.hash = {json.dumps(rest)}")

    def await_text(self, selector, wanted, seconds=15, moves=None):
        """Waits until the text of an element is, or matches."""
        shown = lambda: self.text(selector)
        is_wanted = wanted.fullmatch if isinstance(wanted, re.Pattern) else wanted.__eq__
        try:
            wait_for(selector, lambda: is_wanted(shown()) not in (None, False), seconds, moves)
        except SystemExit as error:
            said = [text for text in self.texts(".answer, #trouble, #notice") if text]
            sys.exit(f"{error}\n  expected {wanted}\n  but got  {shown()}\n  focus {self.focus()}, said {said}")

    # ---- keys

    def key(self, name, shift=False):
        text = {"Enter": "\r"}.get(name, name if len(name) == 1 else None)
        params = {"key": name, "windowsVirtualKeyCode": CODES.get(name, ord(name[0].upper())), "modifiers": 8 if shift else 0}
        self.send("Input.dispatchKeyEvent", type="keyDown", **params, **({"text": text} if text else {}))
        self.send("Input.dispatchKeyEvent", type="keyUp", **params)

    def type(self, text):
        """Types a text over what the field has."""
        self.value("document.activeElement.select?.()")
        self.send("Input.insertText", text=text)

    def focus(self):
        return self.value(FOCUS)

    def await_focus(self, wanted, what):
        wait_for(f"{what}: {wanted}, not {self.focus()}", lambda: self.focus() == wanted, 5)

    def tab_to(self, wanted, most=60, back=False):
        """Presses Tab until the control has the keyboard: by its id, its name or its text."""
        passed = []
        for _ in range(most):
            self.key("Tab", shift=back)
            passed.append(self.focus())
            if passed[-1] == wanted:
                return
        sys.exit(f"Tab does not reach {wanted}, but {passed}")

    def choose(self, wanted):
        """Chooses in the list that has the keyboard, by the arrows."""
        self.key("Home")
        for _ in range(12):
            if self.value("document.activeElement.value") == wanted:
                return
            self.key("ArrowDown")
        sys.exit(f"the list has no {wanted}")

    def press(self, wanted, most=60):
        self.tab_to(wanted, most)
        self.key("Enter")

    def write(self, field, text):
        self.tab_to(field)
        self.type(text)

    def check_focus(self, what):
        """No action has left the keyboard on the page's body. How often the keyboard has moved."""
        expect(self.value("window.lostFocus"), [], f"{what}: what lost the keyboard")
        return self.value("window.countOfFocus")

    # ---- what holds of each view

    def check_looks(self, what):
        """Contrasts, the names of controls for screen readers, and nothing made of the texts of the office."""
        count, low = self.value(LOW_CONTRAST)
        expect(low, [], f"{what}: a contrast of at least 4.5")
        nodes = self.send("Accessibility.getFullAXTree")["nodes"]
        controls = [node for node in nodes if not node["ignored"] and node.get("role", {}).get("value") in CONTROLS]
        nameless = [node.get("role") for node in controls if not node.get("name", {}).get("value", "").strip()]
        expect(nameless, [], f"{what}: controls without a name")
        if not controls:
            sys.exit(f"{what}: no controls in the tree for screen readers")
        self.check_plain(what)
        return count, len(controls)

    def check_plain(self, what):
        made = self.value(f"[...document.querySelectorAll({json.dumps(MADE_OF_TEXT)})].map((node) => node.outerHTML)")
        expect(made, [], f"{what}: elements made of texts")
        expect(self.value("document.title === '1'"), False, f"{what}: a text was run")

    def check_narrow(self, what):
        """At narrow widths nothing sticks out or overlaps, and no letters stand one below the other."""
        before = self.width
        for width in [480, 390, 320]:
            self.resize(width, 1000)
            found = self.value(STICKING_OUT)
            self.resize(before, 1240)
            expect(found, [], f"{what} at {width} pixels")

    def picture(self, file, highest=1240):
        """A picture of the page, or of its upper part, while its marks are bright, with few colours."""
        parts = "[...document.querySelectorAll('section, .panel')].filter((part) => part.checkVisibility())"
        height = min(highest, self.value(f"Math.ceil(Math.max(...{parts}.map((part) => part.getBoundingClientRect().bottom)) + 24)"))
        self.resize(self.width, height)
        clip = {"x": 0, "y": 0, "width": self.width, "height": height, "scale": 1}
        is_dark = lambda: self.value("document.body.classList.contains('dark-phase')")
        for _ in range(10):
            wait_for("the dark phase", is_dark, 5)
            wait_for("the bright phase", lambda: not is_dark(), 5)
            begin = time.monotonic()
            picture = self.send("Page.captureScreenshot", format="png", clip=clip, captureBeyondViewport=True)
            if time.monotonic() - begin < 0.4:
                break
        file.write_bytes(base64.b64decode(picture["data"]))
        subprocess.run(["pngquant", "--force", "--strip", "--output", file, "128", file], check=True)
        if file.stat().st_size >= 200_000:
            sys.exit(f"{file} has {file.stat().st_size} bytes")
        self.resize(self.width, 1240)

    # ---- what was asked

    def events(self):
        with self.browser.news:
            return [event for event in self.browser.events if event.get("sessionId") == self.session]

    def requests(self):
        """The requests to the office, each begun after the one before had ended."""
        under_way, requests = set(), []
        # a question that the page gives up is under way until then, but its end may be noted late
        given_up = {event["params"]["requestId"] for event in self.events() if event["params"].get("canceled")}
        for event in self.events():
            params = event["params"]
            if event["method"] == "Network.requestWillBeSent" and re.search(r":\d+/(units|shelves)", params["request"]["url"]):
                if under_way and params["requestId"] not in under_way:
                    sys.exit(f"two requests at a time: {params['request']['url']}")
                under_way |= {params["requestId"]} - given_up
                requests.append((params["request"]["method"], re.sub(r".*?:\d+/", "/", params["request"]["url"])))
            elif event["method"] == "Page.frameNavigated":
                under_way.clear()  # the page was loaded anew
            elif event["method"] in ("Network.loadingFinished", "Network.loadingFailed"):
                under_way.discard(params["requestId"])
        return requests

    def errors(self):
        return [
            event for event in self.events()
            if event["method"] == "Runtime.exceptionThrown"
            or (event["method"] == "Log.entryAdded" and event["params"]["entry"]["source"] != "network")
        ]  # fmt: skip

    def close(self):
        expect(self.errors(), [], "errors in the page")
        self.check_focus("the whole visit")
        self.browser.send("Target.closeTarget", targetId=self.target)
