"""Opens the page in Chromium, uses it as one who looks at it does, and takes pictures of it.

    python3 -m page.look PAGE PICTURES

It stands outside the merge gate, and wants the command chromium. It exits with 1 where a check fails, and tells
which."""

import json
import subprocess
import sys
import tempfile
import time
from pathlib import Path

from collection.built import KINDS, Balancer
from collection.files import slug
from collection.look import NARROW, WIDE, Browser
from collection.strings import deflate, inflate
from collection.words import PROPERTIES

from .sheet import EXAMPLES, TOP

OWN = ("blob:", "data:")
"""How the addresses begin that load nothing."""

WAITED = 120
"""Seconds for the longest run."""


class Page(Browser):
    """The page in a browser: what it asks for and what goes wrong in it is kept."""

    def __init__(self, folder):
        self.asked, self.wrong = [], []
        super().__init__(folder)
        for domain in ("Runtime", "Log", "Network"):
            self.ask(f"{domain}.enable")
        self.folder = Path(folder, "saved")
        self.ask("Browser.setDownloadBehavior", behavior="allow", downloadPath=str(self.folder))

    def message(self):
        told = super().message()
        params = told.get("params", {})
        if told.get("method") == "Network.requestWillBeSent":
            self.asked.append(params["request"]["url"])
        if told.get("method") in ("Runtime.exceptionThrown", "Log.entryAdded"):
            self.wrong.append(json.dumps(params)[:400])
        return told

    def wait(self, script, seconds=WAITED):
        """Waits until a script's value is true, and gives it; None where it doesn't come."""
        end = time.monotonic() + seconds
        while time.monotonic() < end:
            if found := self.value(script):
                return found
            time.sleep(0.02)
        return None

    def give(self, text):
        """Opens a text as if it had been written into the field."""
        self.value(
            f"document.getElementById('text').value = {json.dumps(text)}; document.getElementById('open').click()"
        )

    def click(self, label, where="document"):
        """Clicks the button with this label; whether there is one."""
        found = f"[...{where}.querySelectorAll('button')].find((it) => it.textContent.startsWith({json.dumps(label)}))"
        return self.value(f"(() => {{ const it = {found}; it?.click(); return Boolean(it); }})()")

    def verdicts(self):
        """The verdicts, once all are there."""
        cards = f"[...document.querySelectorAll('ol.verdicts .verdict')].slice(0, {len(PROPERTIES)})"
        told = f"{cards}.map((it) => it.textContent)"
        is_told = "all.every((it) => it !== 'not yet' && it !== 'deciding…') && document.getElementById('work').hidden"
        done = f"(() => {{ const all = {told}; return all.length === {len(PROPERTIES)} && {is_told} ? all : null; }})()"
        return self.wait(done)

    def saved(self, name):
        """A file that was saved, once it is there."""
        end = time.monotonic() + 10
        while time.monotonic() < end:
            if (self.folder / name).is_file():
                return (self.folder / name).read_bytes()
            time.sleep(0.05)
        return b""

    def text(self, selector):
        return self.value(f"document.querySelector({json.dumps(selector)})?.textContent ?? ''")


def part(title):
    """The part of the page below this title."""
    begins = f"it.firstChild.textContent.startsWith({json.dumps(title)})"
    return f"[...document.querySelectorAll('details')].find((it) => {begins})"


def transferred(given, target, event):
    """An expression that puts what is `given` into a DataTransfer, `data`, and has the target told of this event."""
    return f"(() => {{ const data = new DataTransfer(); {given}; {target}.dispatchEvent({event}); }})()"


def pasted(text, target):
    """An expression that pastes a text there."""
    event = "new ClipboardEvent('paste', { clipboardData: data, bubbles: true, cancelable: true })"
    return transferred(f"data.setData('text/plain', {json.dumps(text)})", target, event)


def dropped(text, name):
    """An expression that drops a file of this name anywhere."""
    event = "new DragEvent('drop', { dataTransfer: data, bubbles: true, cancelable: true })"
    return transferred(f"data.items.add(new File([{json.dumps(text)}], {json.dumps(name)}))", "window", event)


def opened(name):
    """A condition: the design that is open has the name that this expression has."""
    return f"document.querySelector('#name')?.textContent === {name}"


def program(*words, data):
    found = subprocess.run([TOP / "tools" / "program"], stdout=subprocess.PIPE, text=True, check=True).stdout.strip()
    return subprocess.run([found, *words], input=data, stdout=subprocess.PIPE, check=False)


def first_looks(page, address):
    """One design: how long the first verdict takes, its verdicts, its state, and what is saved of it."""
    page.size(*WIDE)
    page.open(address)
    if page.wait("document.querySelectorAll('#examples option').length > 5") is None:
        yield "the examples aren't there"
    text = (EXAMPLES / "balancer-4-to-4.json").read_bytes()
    page.give(deflate(text))
    began = time.monotonic()
    page.wait("document.querySelector('.verdict.yes, .verdict.no') !== null")
    print(f"the first verdict of a 4 to 4 balancer came after {time.monotonic() - began:.2f} s")
    told = page.verdicts()
    if told != ["✓ yes", "✓ yes", "✕ no", "✓ yes", "✕ no", "✕ no"]:
        yield f"the balancer's verdicts are {told}"
    if page.value("document.querySelectorAll('.plane .badge').length") != 8:
        yield "its ends aren't drawn"
    if not page.click("See it") or page.value("document.querySelectorAll('.plane .flow').length") < 12:
        yield "its breaking state isn't drawn"
    page.value(
        "document.getElementById('state').value = 0; document.getElementById('state').dispatchEvent(new Event('input'))"
    )
    if page.value("document.querySelectorAll('.plane .flow').length"):
        yield "the slider doesn't take the state away"
    for verdict, prop in (("yes", "balanced"), ("not", "unlimited")):
        card = f"document.querySelector('[data-property={prop}]')"
        page.click("Save", card)
        expected = program("decide", prop, data=text).stdout
        if page.saved(f"pasted-design.{verdict}-{prop}") != expected:
            yield f"what is saved of {prop} isn't what the program writes"
        page.click("Check it", card)
        if page.wait(
            f"{card}.textContent.includes('check accepts the {'certificate' if verdict == 'yes' else 'state'}')"
        ) is None:
            yield f"the check of {prop} doesn't accept it"


def ways(page):
    """What is pasted anywhere, pasted into the field though it is long, dropped, and chosen among the examples."""
    tree = deflate((EXAMPLES / "tree-1-to-4.json").read_bytes())
    is_tree = "document.querySelector('#design .facts').textContent.includes('1 → 4')"
    page.value(pasted(tree, "document.body"))
    if page.wait(f"{opened('`Pasted design`')} && {is_tree}") is None:
        yield "what is pasted beside the field isn't opened"
    many = "\n\n".join([tree] * (200_000 // len(tree)))
    page.value(pasted(many, "document.getElementById('text')"))
    count = many.count("\n\n") + 1
    if page.wait(f"document.querySelectorAll('#designs button').length === {count}") is None or page.value(
        "document.getElementById('text').value.length"
    ) > 5000:
        yield "a long text isn't opened, or is written out"
    page.click("Open")
    if page.wait(
        f"document.querySelectorAll('#designs button').length === {count} && document.getElementById('work').hidden"
    ) is None:
        yield "a long text isn't opened again"
    page.value(dropped(tree, "my tree.txt"))
    if page.wait(f"{opened('`my tree`')} && {is_tree}") is None:
        yield "what is dropped isn't opened"
    examples = "document.getElementById('examples')"
    page.value(f"{examples}.value = 1; {examples}.dispatchEvent(new Event('change'))")
    if page.wait(opened(f"{examples}.selectedOptions[0].textContent")) is None:
        yield "an example isn't opened"
    if page.verdicts() is None:
        yield "an example isn't decided"


def more_looks(page):
    """A smaller layout, a saved certificate, another design, and a link."""
    text = (EXAMPLES / "balancer-4-to-4.json").read_bytes()
    smaller = part("A smaller")
    page.value(f"{smaller}.open = true")
    page.value(f"{smaller}.querySelectorAll('select')[1].value = 10")
    page.click("Look for one", smaller)
    if page.wait(
        f"!{smaller}.querySelector('button.main').disabled && {smaller}.querySelector('.found').textContent"
    ) is None:
        yield "looking for a smaller layout doesn't end"
    checks = part("Check a saved")
    page.value(f"{checks}.open = true")
    certificate = program("decide", "full", data=text).stdout.decode()
    for changed, words in (
        (certificate, "yes full"),
        (certificate.replace("r ", "r 1 ", 1), "not accepted"),
        ("maybe", "Its first line has to be"),
    ):
        page.value(f"{checks}.querySelector('textarea').value = {json.dumps(changed)}")
        page.click("Check", f"{checks}.querySelector('div')")
        if page.wait(f"{checks}.textContent.includes({json.dumps(words)})") is None:
            yield f"the check of a saved certificate doesn't say {words!r}"
    pair = part("Compare")
    page.value(f"{pair}.open = true")
    others = ((EXAMPLES / "butterfly-4-to-4.net").read_text(), "✓ the same"), (
        (EXAMPLES / "balancer-twice-4-to-4.pair").read_text().partition("end\n")[2], "✕ they differ"
    )
    for other, words in others:
        page.value(f"{pair}.querySelector('textarea').value = {json.dumps(other)}")
        page.click("Compare", pair)
        if page.wait(f"{pair}.textContent.includes({json.dumps(words)})") is None:
            yield f"the comparison doesn't say {words!r}"
    if page.wait(f"{pair}.querySelector('.pair') !== null", 20) is None:
        yield "the states that show a difference aren't told"
    other = others[0][0]
    certificate = program("same", data=text + b"\n" + other.encode()).stdout.decode()
    page.value(f"{pair}.querySelector('textarea').value = {json.dumps(other)}")
    for saved, words in ((certificate, "shows that they behave the same"), ("same\nend\n", "not accepted")):
        page.value(
            f"(() => {{ const input = {pair}.querySelector('input'); const given = new DataTransfer();"
            f" given.items.add(new File([{json.dumps(saved)}], 'saved')); input.files = given.files;"
            " input.dispatchEvent(new Event('change')); })()"
        )
        if page.wait(f"{pair}.textContent.includes({json.dumps(words)})") is None:
            yield f"the check of a saved comparison doesn't say {words!r}"


def books(page):
    """A book's list, its search, its keys, and labels that hold markup."""
    blueprint = json.loads((EXAMPLES / "splitter-2-to-2.json").read_text())["blueprint"]
    names = ["<img src=x onerror=alert(1)>", "‮backwards", "plain 2 to 2"]
    whole = {
        "blueprint_book": {"label": "<b>", "blueprints": [{"blueprint": {**blueprint, "label": it}} for it in names]}
    }
    page.give(deflate(json.dumps(whole).encode()))
    if page.wait("document.querySelectorAll('#designs button').length === 3") is None:
        yield "the book's designs aren't listed"
    if page.value("document.querySelectorAll('#designs img, #design img').length") or "<img" not in page.text("#name"):
        yield "a label is taken for markup"
    page.value("document.querySelector('#designs button').focus()")
    for kind in ("keyDown", "keyUp"):
        page.ask("Input.dispatchKeyEvent", type=kind, key="ArrowDown", code="ArrowDown", windowsVirtualKeyCode=40)
    if page.value("document.activeElement === document.querySelectorAll('#designs button')[1]") is not True:
        yield "the arrow keys don't move in the list"
    field = "document.getElementById('filter')"
    page.value(f"{field}.value = 'plain'; {field}.dispatchEvent(new Event('input'))")
    if page.value("[...document.querySelectorAll('#designs tr')].filter((it) => !it.hidden).length") != 1:
        yield "the search leaves another number of designs"
    page.give((EXAMPLES / "collection" / "book.txt").read_text())
    page.wait("document.querySelectorAll('#designs button').length > 5")
    page.verdicts()
    large = {"blueprint_book": {"blueprints": [json.loads((EXAMPLES / "tree-1-to-4.json").read_text())] * 1900}}
    page.value(f"document.getElementById('text').value = {json.dumps(deflate(json.dumps(large).encode()))}")
    began = time.monotonic()
    page.value("document.getElementById('open').click()")
    if page.wait("document.querySelectorAll('#designs button').length === 1900", 30) is None:
        yield "a book of 1,900 designs isn't listed"
    print(f"a book of 1,900 designs was listed after {time.monotonic() - began:.2f} s")
    page.value("document.getElementById('stop').click()")


def refused(page):
    """What is no design, and what the program refuses, in words and marked; bare halves; a run that is stopped."""
    page.give("what is this")
    if page.wait("document.getElementById('design').textContent.includes('no blueprint string')") is None:
        yield "what is no design isn't told"
    splitters = json.loads((EXAMPLES / "balancer-4-to-4.json").read_text())
    entities = splitters["blueprint"]["entities"]
    facing = {
        "entity_number": 99,
        "name": "transport-belt",
        "position": {"x": entities[0]["position"]["x"], "y": -30.5},
        "direction": 4,
    }
    for it in ({"x": 0.5, "y": -30.5}, {"x": 1.5, "y": -30.5}):
        entities.append({**facing, "position": it, "direction": 2 if it["x"] < 1 else 6})
    page.give(json.dumps(splitters))
    if page.wait("document.querySelector('.trouble')?.textContent.includes('head-on')") is None or not page.value(
        "document.querySelectorAll('.frame').length"
    ):
        yield "a refusal isn't told with its tiles"
    trimmed = json.loads((EXAMPLES / "balancer-4-to-4.json").read_text())
    inside = [
        it
        for it in trimmed["blueprint"]["entities"] if "splitter" in it["name"]
        or it["position"]["y"] not in (-0.5, 7.5, 0.5)
    ]
    trimmed["blueprint"]["entities"] = inside
    page.give(json.dumps(trimmed))
    page.wait("document.querySelector('.tools select') !== null")
    if not page.value("document.querySelector('.tools select') !== null"):
        yield "there is no choice of bare halves"
    page.give((EXAMPLES / "balancer-16-to-16.json").read_text())
    page.wait("document.getElementById('what').textContent.startsWith('Deciding')")
    page.value("document.getElementById('stop').click()")
    if page.wait("document.querySelector('#design').textContent.includes('it was stopped')", 10) is None:
        yield "a stop isn't told"
    if not page.value("[...document.querySelectorAll('#design button')].some((it) => it.textContent === 'Decide it')"):
        yield "what wasn't decided can't be asked for"


def links(page, address):
    """A link with a design behind its #, and one with a network text."""
    text = (EXAMPLES / "tree-1-to-4.json").read_bytes()
    page.open(f"{address}#{deflate(text)}")
    if page.verdicts() != ["✓ yes", "✓ yes", "✓ yes", "✓ yes", "✕ no", "✓ yes"]:
        yield "a link with a design doesn't open it"
    page.value("location.hash = 'net 1 1 0%0Aedge i0 o0%0Aend%0A'")
    if page.wait("document.querySelector('#design').textContent.includes('1 → 1')") is None:
        yield "a link with a network text doesn't open it"
    if json.loads(inflate(deflate(text))) != json.loads(text):
        yield "a string isn't what it was"


def wished(page, address):
    """Balancers that are built: their certificates are those of the networks that the command builds."""
    page.open(address)
    if page.wait("!document.getElementById('wish').hidden") is None:
        yield "no balancer can be wished for"
        return
    page.value("document.getElementById('wish').open = true")
    for kind, inputs, outputs in (("balanced", 3, 5), ("unlimited", 4, 4), ("universal", 2, 2)):
        name = Balancer(kind, inputs, outputs).name
        wish(page, kind, inputs, outputs)
        if page.wait(opened(json.dumps(name))) is None or page.verdicts() is None:
            yield f"{name} isn't opened and decided: {page.text('#wish-told')}"
            continue
        properties = KINDS[kind]["properties"]
        text = program("build", ",".join(properties), str(inputs), str(outputs), data=b"").stdout
        for prop in properties:
            page.click("Save", f"document.querySelector('[data-property={prop}]')")
            if page.saved(f"{slug(name)}.yes-{prop}") != program("decide", prop, data=text).stdout:
                yield f"what is saved of {prop} of {name} isn't of the network that the command builds"
    wish(page, "universal", 33, 33)
    page.wait("document.getElementById('what').textContent.startsWith('Building')")
    page.value("document.getElementById('stop').click()")
    if page.wait("document.getElementById('wish-told').textContent.includes('before it was stopped')", 10) is None:
        yield f"that building was stopped isn't told: {page.text('#wish-told')}"


def wish(page, kind, inputs, outputs):
    """Wishes for a balancer."""
    for of, value in (("kind", kind), ("inputs", inputs), ("outputs", outputs)):
        page.value(f"document.getElementById('wish-{of}').value = {json.dumps(value)}")
    page.value("document.getElementById('wish-build').click()")


def pictures(page, address, folder):
    """Pictures of both themes and both widths; and where the page is wider than the screen."""
    folder.mkdir(parents=True, exist_ok=True)
    for theme in ("light", "dark"):
        page.theme(theme)
        for word, size in (("wide", WIDE), ("narrow", NARROW)):
            page.size(*size, word == "narrow")
            page.open(address)
            page.wait("document.querySelectorAll('#examples option').length > 5")
            page.picture(folder / f"front-{word}-{theme}.png")
            for name in ("balancer-4-to-4", "balancer-8-to-8", "express-tap-1-to-3"):
                page.give((EXAMPLES / f"{name}.json").read_text())
                page.verdicts()
                page.picture(folder / f"{name}-{word}-{theme}.png")
                page.click("See it")
                page.picture(folder / f"{name}-state-{word}-{theme}.png")
            page.give((EXAMPLES / "collection" / "book.txt").read_text())
            page.verdicts()
            page.picture(folder / f"book-{word}-{theme}.png")
            for width in (320, size[0]):
                page.size(width, size[1], word == "narrow")
                if page.value("document.documentElement.scrollWidth") > width:
                    yield f"the page is wider than a screen of {width}"


def main(path, folder):
    address = Path(path).resolve().as_uri()
    with tempfile.TemporaryDirectory(ignore_cleanup_errors=True) as room:
        page = Page(room)
        try:
            looks = [
                first_looks(page, address),
                more_looks(page),
                ways(page),
                refused(page),
                books(page),
                links(page, address),
                wished(page, address),
            ]
            looks.append(pictures(page, address, Path(folder)))
            wrong = []
            for it in looks:
                print(f"{it.__name__} ..", flush=True)
                wrong += it
        finally:
            page.process.terminate()
            page.process.wait()
    loaded = {it.partition("#")[0] for it in page.asked if not it.startswith(OWN)} - {address, "about:blank"}
    wrong += [f"it loads {it}" for it in loaded]
    wrong += [f"the browser says: {it}" for it in page.wrong]
    print("\n".join(wrong) or "all that was tried is right, and nothing was loaded")
    return bool(wrong)


if __name__ == "__main__":
    sys.exit(main(*sys.argv[1:]))
