"""Opens a report in Chromium, takes pictures of it and prints it, and checks sorting, search, filters, the pages, how
long it is and how long it takes to open.

    python3 -m collection.look REPORT PICTURES

It stands outside the merge gate, and wants the command chromium. The browser is led by the DevTools protocol over a
pipe: messages of JSON, each ended by a zero byte. It exits with 1 where a check fails, and tells which."""

import base64
import json
import os
import re
import subprocess
import sys
import tempfile
import time
from pathlib import Path

WIDE, NARROW = (1280, 900), (390, 844)
A4 = (8.27, 11.69)
"""A sheet, in inches."""
SHEET = re.compile(rb"/Type\s*/Page\b")
LONGEST_PICTURE, MOST_PICTURES = 12000, 6
MOST_BYTES, MOST_SECONDS, OPENINGS = 4 * 10**6, 0.5, 5
"""How long the page may be, and how many seconds it may take to open, with three hundred designs; the least of so many
openings counts."""
WORDS = (
    "exec chromium --headless --no-sandbox --disable-gpu --hide-scrollbars --remote-debugging-pipe --user-data-dir={} "
    "3<&{} 4>&{}"
)


class Browser:
    """A page in a browser without a window."""

    def __init__(self, folder):
        reads, self.writes = os.pipe()
        self.reads, writes = os.pipe()
        command = WORDS.format(folder, reads, writes)
        self.process = subprocess.Popen(["bash", "-c", command], pass_fds=[reads, writes], stderr=subprocess.DEVNULL)
        os.close(reads)
        os.close(writes)
        self.number, self.rest, self.session, self.events = 0, b"", None, []
        target = self.ask("Target.createTarget", url="about:blank")["targetId"]
        self.session = self.ask("Target.attachToTarget", targetId=target, flatten=True)["sessionId"]
        self.ask("Page.enable")
        self.ask("Page.setLifecycleEventsEnabled", enabled=True)

    def message(self):
        while b"\0" not in self.rest:
            block = os.read(self.reads, 1 << 20)
            if not block:
                raise SystemExit("the browser has ended")
            self.rest += block
        text, _, self.rest = self.rest.partition(b"\0")
        return json.loads(text)

    def ask(self, method, **params):
        self.number += 1
        asked = {"id": self.number, "method": method, "params": params}
        if self.session:
            asked["sessionId"] = self.session
        text = json.dumps(asked).encode() + b"\0"
        while text:
            text = text[os.write(self.writes, text) :]
        while (told := self.message()).get("id") != self.number:
            self.events.append(told)
        if "error" in told:
            raise SystemExit(f"{method}: {told['error']['message']}")
        return told["result"]

    @staticmethod
    def is_load(event, loader):
        """Whether a message tells that what this loader loads is loaded."""
        told = event.get("params", {})
        return event.get("method") == "Page.lifecycleEvent" and (told["name"], told["loaderId"]) == ("load", loader)

    def open(self, address):
        """Opens a page, and waits until it is loaded."""
        for url in ("about:blank", address):
            self.events.clear()
            loader = self.ask("Page.navigate", url=url)["loaderId"]
            while not any(self.is_load(it, loader) for it in self.events):
                self.events.append(self.message())

    def value(self, script):
        """What a script gives; where that is a promise, what it is kept by."""
        told = self.ask("Runtime.evaluate", expression=script, returnByValue=True, awaitPromise=True)
        if "exceptionDetails" in told:
            raise SystemExit(f"{script}: {told['exceptionDetails']['text']}")
        return told["result"].get("value")

    def size(self, width, height, narrow=False):
        screen = {"width": width, "height": height, "deviceScaleFactor": 2 if narrow else 1, "mobile": narrow}
        self.ask("Emulation.setDeviceMetricsOverride", **screen)

    def theme(self, name, media=""):
        self.ask("Emulation.setEmulatedMedia", media=media, features=[{"name": "prefers-color-scheme", "value": name}])

    def show(self, name):
        """Goes to a page of the report, and waits until it is drawn."""
        self.value(f"location.hash = '{name}'")
        kept = f"document.getElementById('{name}').dataset.kept !== undefined"
        undrawn = f"{kept} || !document.querySelector('.page:target h2')"
        end = time.monotonic() + 60
        while name != "all" and self.value(undrawn) and time.monotonic() < end:
            time.sleep(0.02)

    def sheets(self, path=None):
        """How many sheets of A4 a page is printed on, written as a PDF where a path is given."""
        told = self.ask("Page.printToPDF", printBackground=True, paperWidth=A4[0], paperHeight=A4[1])["data"]
        data = base64.b64decode(told)
        if path:
            Path(path).write_bytes(data)
        return len(SHEET.findall(data))

    def picture(self, path, most=LONGEST_PICTURE):
        """Takes a picture of the whole page, of so many pixels of the style in height at most."""
        height = min(most, self.value("document.documentElement.scrollHeight"))
        width = self.value("document.documentElement.clientWidth")
        clip = {"x": 0, "y": 0, "width": width, "height": height, "scale": 1}
        data = self.ask("Page.captureScreenshot", clip=clip, captureBeyondViewport=True)["data"]
        Path(path).write_bytes(base64.b64decode(data))


DRAWN = "new Promise((draw) => requestAnimationFrame(() => requestAnimationFrame(draw)))"
"""Kept once what a page shows is drawn."""


def wrong_steps(browser):
    """What is wrong with the ways from one design's page to the next, which follow the order and the filters, and with
    the titles of these pages."""
    browser.value("document.querySelector('#designs thead button').click()")
    verdict = "document.querySelector('#filters [name=verdicts]')"
    browser.value(f"{verdict}.selectedIndex = 1; {verdict}.dispatchEvent(new Event('change'))")
    shown = browser.value(
        "[...document.querySelectorAll('tr[data-page]')].filter((it) => !it.hidden).map((it) => it.dataset.page)"
    )
    shown = list(dict.fromkeys(shown))
    for before, name, after in zip([None, *shown], shown, [*shown[1:], None]):
        browser.show(name)
        browser.value(DRAWN)
        told = browser.value(
            "[...document.querySelectorAll('.page:target nav span a')].map((it) => it.textContent + it.hash)"
        )
        wanted = [f"previous#{before}"] * bool(before) + [f"next#{after}"] * bool(after)
        if told != wanted:
            yield f"the ways from {name} are {told}, and not {wanted}"
        if not browser.value("document.title.startsWith(document.querySelector('.page:target h2').textContent)"):
            yield f"the title of {name} is another one"
    browser.show("all")
    browser.value(f"{verdict}.selectedIndex = 0; {verdict}.dispatchEvent(new Event('change'))")


def checks(browser, address):
    """What is wrong with the page's sorting, search and layout, in words."""
    browser.size(*WIDE)
    browser.open(address)
    rows = "[...document.querySelectorAll('#designs tbody tr')]"
    number = browser.value(
        "[...document.querySelectorAll('#designs thead th')].findIndex((it) => it.innerText.startsWith('splitters'))"
    )
    column = f"{rows}.map((it) => Number(it.cells[{number}].dataset.sort))"
    button = f"document.querySelectorAll('#designs thead button')[{number}]"
    for way, down in (("upwards", False), ("downwards", True)):
        browser.value(f"{button}.click()")
        if browser.value(column) != sorted(browser.value(column), reverse=down):
            yield f"the splitters aren't sorted {way}"
    if browser.value("document.querySelectorAll('[aria-sort]').length") != 1:
        yield "the sorted column isn't told"
    all_rows = browser.value(f"{rows}.length")
    ends = browser.value(f"{rows}.map((it) => it.dataset.ends)[0]")
    of_ends = browser.value(f"{rows}.filter((it) => it.dataset.ends === '{ends}').length")
    for sign in (" to ", "-", " → ", ":"):
        browser.value(f"document.getElementById('words').value = '{ends}'.replace('-', '{sign}')")
        browser.value("document.getElementById('words').dispatchEvent(new Event('input'))")
        first = f"{rows}.filter((it) => !it.hidden).slice(0, {of_ends}).every((it) => it.dataset.ends === '{ends}')"
        if not browser.value(first):
            yield f"designs of ends {ends} aren't the first that are found with {sign!r} between"
    for words in ("unlimited:no", "no such words anywhere", ""):
        browser.value(f"document.getElementById('words').value = '{words}'")
        browser.value("document.getElementById('words').dispatchEvent(new Event('input'))")
        left = browser.value(f"{rows}.filter((it) => it.getClientRects().length).length")
        has = f"'{words}'.split(' ').every((word) => `${{it.dataset.words}} ${{it.dataset.around}}`.includes(word))"
        expected = browser.value(f"{rows}.filter((it) => {has}).length")
        if left != expected or (words == "" and left != all_rows):
            yield f"the search for {words!r} leaves {left} rows, and not {expected}"
    for name in browser.value("[...document.querySelectorAll('#filters select')].map((it) => it.name)"):
        select = f"document.querySelector('#filters [name={name}]')"
        browser.value(f"{select}.selectedIndex = 1; {select}.dispatchEvent(new Event('change'))")
        told = browser.value(f"{select}.value")
        kept = f"{rows}.filter((it) => it.dataset.{name}.split(' ').includes('{told}')).length"
        if browser.value(f"{rows}.filter((it) => !it.hidden).length") != browser.value(kept):
            yield f"the filter {told} leaves other designs"
        browser.value(f"{select}.selectedIndex = 0; {select}.dispatchEvent(new Event('change'))")
    yield from wrong_steps(browser)
    if browser.value("performance.getEntriesByType('resource').length"):
        yield "the page loads something"
    for width in (320, NARROW[0], WIDE[0]):
        browser.size(width, 800)
        for name in ["all", *browser.value("[...document.querySelectorAll('.page')].map((it) => it.id)")]:
            browser.show(name)
            if browser.value("document.documentElement.scrollWidth") > width:
                yield f"{name} is wider than a screen of {width}"
    browser.ask("Emulation.setScriptExecutionDisabled", value=True)
    browser.open(address)
    browser.ask("Emulation.setScriptExecutionDisabled", value=False)
    if not browser.value(f"{rows}.length === {all_rows} && document.getElementById('words').closest('p').hidden"):
        yield "without scripts the table isn't whole"


def seconds_to_open(browser, address):
    """How long it takes to open a page, load it whole and draw what it shows."""
    browser.size(*WIDE)
    begin = time.monotonic()
    browser.open(address)
    browser.value(DRAWN)
    return time.monotonic() - begin


def wrong_in_print(browser, address, folder):
    """What is wrong with the report in print: the table alone, and with all designs, a sheet each."""
    browser.size(*WIDE)
    browser.open(address)
    table = browser.sheets(Path(folder, "table.pdf"))
    browser.value("new Promise((done) => { window.print = done; document.getElementById('every').click(); })")
    # The button's own script takes the mark away where the printing has ended.
    browser.value("document.body.classList.add('every')")
    browser.value(DRAWN)
    designs, sheets = browser.value("document.querySelectorAll('.page').length"), browser.sheets(
        Path(folder, "all.pdf")
    )
    if browser.value("document.querySelectorAll('.page[data-kept]').length"):
        yield "not all designs are drawn before they are printed"
    if sheets != table + designs:
        yield f"{designs} designs are printed on {sheets - table} sheets"


def main(report, pictures):
    address, length = Path(report, "index.html").resolve().as_uri(), Path(report, "index.html").stat().st_size
    Path(pictures).mkdir(parents=True, exist_ok=True)
    with tempfile.TemporaryDirectory(ignore_cleanup_errors=True) as folder:
        browser = Browser(folder)
        try:
            seconds = min(seconds_to_open(browser, address) for _ in range(OPENINGS))
            wrong = [*wrong_in_print(browser, address, pictures), *checks(browser, address)]
            for theme in ("light", "dark"):
                browser.theme(theme)
                for word, size in (("wide", WIDE), ("narrow", NARROW)):
                    browser.size(*size, word == "narrow")
                    browser.open(address)
                    names = browser.value("[...document.querySelectorAll('.page')].map((it) => it.id)")[:MOST_PICTURES]
                    browser.picture(Path(pictures, f"all-{word}-{theme}.png"))
                    for name in names:
                        browser.show(name)
                        browser.picture(Path(pictures, f"{name}-{word}-{theme}.png"))
        finally:
            browser.process.terminate()
            browser.process.wait()
    wrong += [f"it has {length} bytes"] if length > MOST_BYTES else []
    wrong += [f"it takes {seconds:.2f} s to open"] if seconds > MOST_SECONDS else []
    print("\n".join(wrong) or "sorting, search, filters and widths are right")
    print(f"it has {length} bytes, and opens in {seconds:.2f} s")
    return bool(wrong)


if __name__ == "__main__":
    sys.exit(main(*sys.argv[1:]))
