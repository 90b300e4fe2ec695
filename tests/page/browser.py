"""Uses the page from its file: in Chromium by real events of mouse, fingers and keys, in Firefox by a page that tests itself."""

import base64
import functools
import hashlib
import http.server
import re
import shutil
import subprocess
import threading
import time

import needs
import pytest

needs.libraries("selenium")
from selenium.webdriver.common.action_chains import ActionChains
from selenium.webdriver.common.by import By
from selenium.webdriver.common.keys import Keys
from tab import FILE, Page

pytestmark = pytest.mark.alone
SOLID = [0x78, 0x82, 0x8C]
KNOWN = 'gas = "fhp1"\nchirality = "left"\ncells = ["01........##", "..09......##", "......04..##", "..........##"]\n'
QUICK = "#scene=flow past a disc&size=256 x 128&radius=14&gas=fhp1&pace=10"


def close(*pages):
    """What is closed asked nothing of other hosts, and has no error."""
    assert [page.close() for page in pages] == [([], [])] * len(pages)


@pytest.fixture
def tab(tool, tmp_path):
    """Opens the page in a tab."""
    tool("chromium"), tool("chromedriver")
    pages = []
    yield lambda *words, **more: pages.append(Page(tmp_path, *words, **more)) or pages[-1]
    close(*pages)


class Silent(http.server.SimpleHTTPRequestHandler):
    def log_message(self, *_):
        pass


@pytest.fixture(scope="module")
def served():
    """The address of the page from a server on this machine."""
    handler = functools.partial(Silent, directory=FILE.parent)
    with http.server.ThreadingHTTPServer(("localhost", 0), handler) as server:
        threading.Thread(target=server.serve_forever).start()
        yield f"http://localhost:{server.server_port}/{FILE.name}"
        server.shutdown()


@pytest.fixture(scope="module")
def page(tool, tmp_path_factory):
    """A window on a desk."""
    tool("chromium"), tool("chromedriver")
    yield (page := Page(tmp_path_factory.mktemp("room")))
    close(page)


def test_begins(page):
    """What is seen first."""
    page.wait("head.generation > 20")
    page.js(
        "window.sent = shown.painted + shown.queue.length;"
        "fhpgas.worker.addEventListener('message', ({ data }) => { sent += data.name === 'frames'; })"
    )
    moved = page.now("performance.getEntriesByName('moved')[0]")
    assert moved["detail"] <= 2, "one of the first two pictures has moved"
    print(f"first motion after {moved['startTime']:.0f} ms")
    wanted = "The proved" if (FILE.parent / "engine.js").exists() else "The kernel"
    # the kernel is the one that is there, and the page says which
    assert page.wait(f"said.engine.startsWith('{wanted}')")
    look = "[...view.getContext('2d').getImageData(0, 0, view.width, 300).data].reduce((a, b, i) => (a * 31 + b * (i % 7)) | 0, 0)"
    first = page.now(look)
    page.wait(f"head.generation > {page.now('head.generation') + 20}")
    assert page.now(look) != first, "the picture moves"
    # each frame of the worker is painted or waits
    assert page.now("sent === shown.painted + shown.queue.length")
    assert abs(page.now("head.u") - 0.28) < 0.02, "the wind is kept"
    found = page.now("[chosen.tool, $('sentence').textContent.slice(0, 12), notes.length]")
    assert found == ["draw", "Draw into it", 0], "one draws into it, and nothing else is said"
    page.click("turn")
    page.wait("head.direction < 0 || head.found !== null")
    found = page.wait("head.found !== null && [head.found, head.generation]")
    assert found == [0, 0], "the first screen goes back to its start"
    page.click("bare")
    # the picture without controls fills the window
    assert page.now("view.clientWidth === innerWidth && view.clientHeight === innerHeight")
    page.key("q")
    assert page.now("view.clientHeight < innerHeight"), "a key shows the controls again"
    page.driver.find_element(By.CSS_SELECTOR, "#numbers div:nth-child(3)").click()
    # a tap on the number says what is meant by "too fast"
    assert "is no incompressible fluid" in page.now("notes.at(-1)")
    reynolds = "const [, box] = $('numbers').children; return Number(box.firstChild.textContent)"
    found = [page.js(reynolds), page.choose("change", length="44"), page.js(reynolds)]
    assert abs(found[2] / found[0] - 0.5) < 0.01, "a shorter length changes Reynolds at once"
    untold = "controls.filter((e) => !e.title).map((e) => e.id)"
    assert not page.now(untold), "every control says what it does"
    for close in lambda: page.key(Keys.ESCAPE), lambda: page.click("close"):
        page.key("?")
        told = page.now("$('help').innerText")
        assert "fhp-rest (FHP-II) has six and particles at rest" in told, "and a list too"
        close()
        assert page.now("$('help').hidden && $('close').hidden"), "which is closed"
    page.key("=")
    assert "force per fluid cell" in page.now("$('all').textContent"), "a key opens all numbers"
    page.key("=")


def edited(page):
    """Obstacles are drawn, erased, undone and cleared. Returns the generation of a pause, the scene of then, and an address with
    the number of solid cells that were there."""
    page.choose("change", keep=False)
    particles, solid = page.wait("head.wind === null && [head.particles, solid]")
    page.wait("head.generation > 100")
    page.drag("draw", (120, 30), (150, 60), (170, 90))
    drawn = page.wait(f"solid > {solid} + 500 && solid")
    # an obstacle is drawn while it runs
    assert "particles were beneath" in page.now("notes.at(-1)")
    # a button says what it undoes
    assert "undo stroke" in page.wait("shown.undoes && $('undo').textContent")
    page.click("undo")
    page.wait(f"solid === {solid}")
    assert page.now("head.particles") == particles, "a stroke is undone"
    assert page.wait("shown.redoes && $('redo').textContent").startswith("redo stroke")
    page.click("redo")
    assert page.wait(f"solid > {solid} + 500 && solid") == drawn, "and drawn again"
    page.drag("erase", (150, 60), (160, 70))
    page.wait(f"solid < {drawn}")
    page.js(
        "window.kept = fhpgas.worker.onmessage, window.held = [], fhpgas.worker.onmessage = (event) => held.push(event)"
    )
    page.drag("draw", (200, 90), waits=False)
    assert page.pixel(200, 90) == SOLID, "a click is shown before the gas has it"
    page.js("fhpgas.worker.onmessage = kept, held.forEach(kept)")
    link, solid = page.wait(
        "!marks.pieces.length && head.lengths && location.hash.endsWith(`&runs=${head.lengths}`)"
        " && [location.hash, solid]"
    )
    page.drag("dense", (200, 40))
    assert particles == page.now("head.particles"), "particles stay as many"
    page.choose("change", chirality="right")
    page.wait("head.chirality === 'right'")
    generation, _ = page.pause()
    # how pairs rotate changes in the same cells
    assert generation > 100 and page.now("head.particles") == particles
    return generation, page.saved("save", ".toml"), link, solid


def test_edits(page, program):
    """The program continues the scene of the edits to the page's cells, and then time is reversed. The address keeps what was drawn."""
    page.go(QUICK)
    first, scene, link, drawn = edited(page)
    page.choose("change", pace="most"), page.click("play")
    page.wait(f"head.generation >= {max(1000, first + 100)}")
    last, found = page.pause()
    told = page.now("$('numbers').textContent")
    assert told.startswith(f"{last:,}generation"), told  # the numbers are of the cells that rest
    words = [program, "run", "--generations", str(last - first)]
    ran = subprocess.run(words, input=scene, stdout=subprocess.PIPE, check=True)
    # the program continues the saved scene to the page's cells
    assert found == hashlib.sha256(ran.stdout).hexdigest(), (first, last)
    assert scene.count(b"##") + scene.count(b"\n") > 500, "the obstacle is in the saved scene"
    page.click("turn")
    found = page.wait("head.found !== null && [head.found, head.generation]")
    assert found == [0, 0], f"{last} generations back, through all edits"
    page.click("play"), page.wait("head.generation >= 500"), page.choose("change", pace="60/s")
    page.click("turn"), page.click("play")
    page.drag("flip", (60, 60)), page.choose("change", pace="most"), page.click("play")
    # with one particle flipped it does not return
    assert page.wait("head.found !== null && head.found") > 100
    page.go(link)
    assert page.now("solid") == drawn


def test_seeded(page):
    """A seeded gas says why it does not go back, and goes on with left from the same cells. Another gas, or a new start."""
    page.go(QUICK + "&chirality=seeded")
    page.wait("head.generation > 50 && head.chirality === 'seeded'")
    page.click("turn")
    # a seeded gas does not go back, and says why
    assert "random bits only run forwards" in page.now("notes.at(-1)")
    page.click("offer")
    generation = page.wait("head.chirality === 'left' && head.generation")
    assert generation > 50, "it goes on with left from these cells"
    page.choose("change", gas="fhp-rest")
    # a gas changes in the same cells
    assert page.wait("head.gas === 'fhp-rest' && head.generation") >= generation
    particles = page.now("head.particles")
    page.choose("change", gas="hpp")
    page.wait("head.gas === 'hpp'")
    # what cannot be a gas's cells is a new start, and the page says so
    assert "new start" in page.wait("notes.at(-1)")
    page.click("undo")
    # a new start is undone
    assert page.wait("head.gas === 'fhp-rest' && head.particles") == particles
    assert page.now("$('gas').value") == "fhp-rest", "the controls too"


def test_cells(page):
    """Single cells, and half steps. A scene that is refused. Files."""
    page.open(KNOWN)
    page.wait("head.width === 6 && head.cells && !motion.isOn && !shown.queue.length")
    alone, meets, fluid = (
        page.pixel(-0.28, 0),
        page.pixel(1.5 + 0.28, 0.866),
        page.pixel(3.5 - 0.28, 0.866),
    )
    # single cells show their particles
    assert alone == page.pixel(3 + 0.15, 2 * 0.866 + 0.25) == [11, 60, 102]
    # colliding ones are orange, empty cells are empty
    assert meets == [209, 72, 15] and min(fluid) > 200, (meets, fluid)
    # solid cells are drawn where they are
    assert page.pixel(5, 0) == page.pixel(5.5, 0.866) == SOLID
    page.click("half"), page.wait("motion.phase === 1 && !screen.isScheduled")
    assert page.pixel(1.5 + 0.15, 0.866 - 0.25) == meets, "half a step shows the pair rotated"
    page.click("link")
    # no link has a scene
    assert page.now("location.hash") == "#opened" or page.wait("location.hash === '#opened'")
    assert page.now("notes.at(-1)").startswith("No link has"), "and the page says so"
    notes = page.now("notes.length")
    page.open(KNOWN.replace("01", "41"))
    note = page.wait(f"notes.length > {notes} && notes.at(-1)")
    assert note == "this page does not read cell 0 of row 0", "a scene that is refused"
    paste = "const data = new DataTransfer(); data.setData('text', arguments[0]);"
    page.js(
        paste + "document.dispatchEvent(new ClipboardEvent('paste', { clipboardData: data }))",
        'gas = "hpp"\nwidth = 9\nheight = 8\nrate = 100\n',
    )
    assert page.wait("head.width === 9 && head.gas") == "hpp", "a scene is pasted"
    page.js(paste + "document.dispatchEvent(new DragEvent('drop', { dataTransfer: data }))", KNOWN)
    assert page.wait("head.width === 6 && head.gas") == "fhp1", "a scene is dropped"
    assert page.saved("picture", ".png")[:8] == b"\x89PNG\r\n\x1a\n", "a picture"
    page.click("film"), page.click("play"), page.wait("head.generation > 3000")
    assert page.saved("film", ".webm")[:4] == b"\x1aE\xdf\xa3", "a film"
    scene = "$('scene').selectedOptions[0].text"
    found = [page.now(scene), page.click("start"), page.wait("head.width > 6"), page.now(scene)]
    assert found[::3] == ["an opened scene", "flow past a disc"], "the list says what is shown"


def test_words(page):
    """What is said in one moment is seen together, and words change with the picture."""
    page.go("#scene=one particle turned, and its cone&size=256 x 128")
    page.js(
        "window.seen = [], new MutationObserver(() => seen.push($('note').innerText)).observe($('note'), { childList: true })"
    )
    page.drag("draw", (60, 30), (80, 50))
    page.wait("notes.some((text) => text.includes('cells are solid now'))")
    both = (
        "seen.some((text) => text.includes('cells are solid now') && text.includes('begins anew'))"
    )
    assert page.now(both), ("a stroke, and that the cone begins anew", page.now("seen"))
    page.go(QUICK)
    page.js(  # the clock stands still, so that words change only because the picture does
        "window.told = [], window.kept = requestAnimationFrame, window.requestAnimationFrame = (paint) => kept(() => {"
        " paint(1e9); told.push([fhpgas.head().direction, $('numbers').firstChild.className]); })"
    )
    page.wait("told.length > 2"), page.click("turn")
    told = page.wait("told.some(([direction]) => direction < 0) && told")
    # no picture of the way back without the word
    assert all((way < 0) == (kind == "back") for way, kind in told), told


def test_probe(page):
    """The words of the probe stand beside its chart, whole."""
    page.go(QUICK)
    page.click("probe")
    x, y = page.at(100, 60)
    size = page.view.size
    place = round(x - size["width"] / 2), round(y - size["height"] / 2)
    ActionChains(page.driver).move_to_element_with_offset(page.view, *place).click().perform()
    page.wait("marks.samples.length > 5 && $('found').textContent.includes('no period yet')")
    samples = page.saved("samples", ".txt").decode().splitlines()
    assert samples[1] == "# generation u v" and len(samples) > 6, samples[:3]
    assert all(len([float(one) for one in row.split()]) == 3 for row in samples[2:])
    edges = page.js(
        "const [chart, words] = $('probed').children, box = words.getBoundingClientRect();"
        "return [chart.getBoundingClientRect().right, box.left, words.scrollWidth - words.clientWidth, box.right, innerWidth]"
    )
    # nothing of them is cut off
    assert edges[0] <= edges[1] and edges[2] == 0 and edges[3] <= edges[4], edges


def test_keyboard(page):
    """Focused controls keep their keys."""
    page.go(QUICK)
    page.js("$('erase').focus()")
    page.key(Keys.SPACE)
    # Space presses the focused button
    assert page.now("chosen.tool === 'erase' && shown.isRunning")
    page.js("$('wind').focus()")
    page.key(Keys.ARROW_RIGHT)
    # arrows move the focused slider, and it keeps the focus
    assert page.now("[$('wind').value, document.activeElement.id]") == ["0.16", "wind"]
    # it says its value
    assert page.now("$('smooth').getAttribute('aria-valuetext')").endswith("cells")
    serial = page.now("shown.serial")
    page.js("$('scene').focus()")
    page.key("v")
    # a letter in a list is the list's
    assert page.now("$('scene').value === 'vortex street' && $('film').textContent === 'filmv'")
    page.wait(f"shown.serial > {serial}")
    time.sleep(1.1)  # longer than one types on
    page.key("e")
    assert page.now("chosen.tool") == "erase", "and once it has changed, keys are the page's again"
    page.go(QUICK), page.js("view.focus()")
    solid = page.wait("head.generation > 5 && solid")
    page.key("d", Keys.ARROW_UP, Keys.SPACE)
    page.wait(f"solid > {solid} + 300")
    assert page.now("shown.isRunning && marks.cursor"), "keys draw on the focused picture"
    page.key(Keys.F4, "e")
    assert page.now("chosen.tool") == "draw", "letters are no keys if one wants"
    page.js("document.activeElement.blur()"), page.key(Keys.F4)
    page.go(QUICK)
    serial = page.now("shown.serial")
    page.key(*"uuuuuu")
    page.wait(f"shown.serial >= {serial} + 6")
    assert page.now("$('radius').value") == "26", "each of some quick presses counts"


def test_address(page):
    """The address keeps the state. Controls have names and keys of their own. A page that nobody sees rests."""
    asked = "field=__proto__", "seed=1e22", "at=5", "probe=1", "wind=9", "runs=hello world"
    page.go(f"#{'&'.join(asked)}")
    told = page.now("notes.at(-1)")
    assert all(one in told for one in asked), told  # wrong addresses end in the default with a word
    edges = "['note', 'view'].map((id) => $(id).getBoundingClientRect()).flatMap(({ top, bottom }) => [top, bottom])"
    top, bottom, first, last = page.now(edges)
    while top == bottom:  # a slow machine looked after the note had gone
        page.go(f"#{'&'.join(asked)}")
        top, bottom, first, last = page.now(edges)
    assert (first + last) / 2 < top < bottom < last, "which lies below the picture's middle"
    page.go("#scene=empty channel&wind=0.1"), page.wait("notes.length")
    # an address of another drive says so
    assert "its cells were other ones" in page.now("notes[0]")
    page.go("#scene=empty channel&wind=0.1&drive=2"), page.wait("head.generation > 20")
    assert page.now("notes.length") == 0, ("one of this drive says nothing", page.now("notes"))
    page.go("")
    assert page.wait("head.generation > 20 && location.hash.includes('seed=1&')"), "which runs"
    page.go("#at=1e9 1 1"), page.wait("notes.at(-1)?.includes('past the lattice') && look.isWhole")
    page.choose("change", scene="porous medium"), page.wait("head.wind === 0.04")
    page.choose("input", wind="0.06"), page.wait(
        "head.wind === 0.06 && location.hash.includes('wind=0.06')"
    )
    page.driver.refresh()
    page.wait("shown.painted > 2")
    # the address keeps the state
    assert page.now("[head.wind, $('scene').value, head.gas]") == [0.06, "porous medium", "fhp1"]
    bare = "controls.filter((e) => !(e.ariaLabel && e.getAttribute('aria-keyshortcuts'))).map((e) => e.id)"
    assert not (found := page.now(bare)), found  # every control has a name and a key
    keys = page.now(
        "[...document.querySelectorAll('[aria-keyshortcuts]')].map((e) => e.getAttribute('aria-keyshortcuts'))"
    )
    assert len(keys) == len(set(keys)), ("no key is of two controls", sorted(keys))
    page.js(
        "window.kept = requestAnimationFrame, window.requestAnimationFrame = () => 0; fhpgas.screen.isScheduled = false;"
        "kept(() => { window.isPast = true; })"  # after what was asked for before
    )
    page.wait("window.isPast && shown.queue.length === 2")  # as many as the worker sends ahead
    first = page.now("head.generation")
    time.sleep(0.5)
    assert page.now("head.generation") == first, "a page that is not painted rests"


def resize(page, width, height):
    metrics = {"width": width, "height": height, "deviceScaleFactor": 1, "mobile": False}
    page.driver.execute_cdp_cmd("Emulation.setDeviceMetricsOverride", metrics)
    page.wait(f"innerWidth === {width} && view.clientWidth === {width}")
    # What observes sizes was told by the second frame.
    frames = "requestAnimationFrame(() => requestAnimationFrame(arguments[0]))"
    page.driver.execute_async_script(frames)


def test_phone(tab):
    """A phone, held upright."""
    page = tab(size=(390, 844), has_fingers=True)
    # the picture has 90 % of a phone's width
    assert page.now(
        "head.width * look.place.scale >= 0.9 * innerWidth && document.documentElement.scrollWidth <= innerWidth"
    )
    solid = page.now("solid")
    page.touch([(200, 120)], [(220, 130)], [(240, 150)])
    page.wait(f"solid > {solid}")
    scale, solid = page.wait("!marks.pieces.length && [look.place.scale, solid]")
    page.touch([(150, 150), (250, 150)], [(100, 150), (300, 150)])
    assert abs(page.now("look.place.scale") / scale - 2) < 0.05, "two fingers zoom"
    assert page.now("solid") == solid, "and draw nothing"
    page.click("drawer")
    assert page.driver.find_element(By.ID, "gas").is_displayed(), "a drawer opens"
    page.click("drawer")
    assert not page.driver.find_element(By.ID, "gas").is_displayed(), "and closes"


def test_side(tab):
    """A phone on its side."""
    page = tab(size=(844, 390), has_fingers=True)
    wide = page.now("[innerWidth, head.width * look.place.scale / innerWidth]")
    assert wide[0] == 844 and 0.9 <= wide[1] <= 1, wide  # on its side too
    page.click("drawer")
    lost = "controls.filter((e) => !e.hidden && !e.getClientRects().length).map((e) => e.id)"
    assert not page.now(lost), "every control can be reached"
    page.click("drawer"), page.click("bare")
    # alone the picture keeps one control
    assert len(page.now(lost)) > 40 and "bare" not in page.now(lost)
    page.click("bare")
    assert "turn" not in page.now(lost), "which shows the others again"
    page.click("turn")
    assert page.wait("head.direction < 0 || head.found === 0"), "time is reversed"


MESSAGE = "#scene=a message in the noise&size=256 x 128&pace=most"


# the mean of the field in the middle of the lattice, where an I is, less that beside it
CONTRAST = (
    "[[120, 136], [40, 80]].map(([first, last]) => { const { pixels, columns, rows, block } = head;"
    " const found = [...pixels].filter((_, i) => i % columns >= first / block && i % columns < last / block"
    " && Math.abs(Math.floor(i / columns) / rows - 0.5) < 0.25); return found.reduce((a, b) => a + b) / found.length; })"
    ".reduce((a, b) => a - b)"
)


def comes_back(page):
    """Turns all particles of a message, of which nobody sees anything before it has come back."""
    assert page.now("$('text').value === '' && head.generation === 3000 && !shown.isRunning")
    assert abs(page.now(CONTRAST)) < 25, "nothing is seen in the noise"
    page.click("turn")
    found = page.wait("head.found !== null && [head.found, head.generation]")
    assert found == [0, 0], "it comes back"


def test_message(tab):
    """Somebody writes a message, and others open its link in browsers of their own."""
    page = tab(MESSAGE)
    assert page.now("!shown.isRunning && head.generation === 3000"), "it rests, and is noise"
    page.choose("change", text="x" * 300)
    # a long text is refused with a number
    assert "of them fit" in page.now("notes.at(-1)"), page.now("notes")
    page.click("send")
    # and while it is there, there is no link and no file
    assert "of them fit" in page.now("notes.at(-1)") and not page.now("$('pack')")
    serial = page.now("shown.serial")
    page.choose("change", text="i"), page.wait(f"shown.serial > {serial}")
    is_of_one_sign = "/^#text=.{3}&scene/.test(location.hash)"  # two letters are a sum
    link = page.wait(f"{is_of_one_sign} && head.generation === 3000 && location.hash")
    assert "text=i" not in link.lower(), "its address does not show the text"
    page = tab(link)
    comes_back(page)
    assert page.wait(f"{CONTRAST} > 60"), "and can be read"
    told = page.now(
        "[$('numbers').children[1].textContent, $('sentence').textContent, notes.length]"
    )
    assert told[0] == "0of 32,768 cells differ" and told[2] == 0, ("no note lies on it", told)
    assert told[1].startswith("It came back"), told
    curve = page.now("$('found').textContent.match(/[0-9][.][0-9]{4}/g)")
    assert len(curve) == 3 and curve[0] == curve[2] < curve[1], (
        "the entropy fell to its start",
        curve,
    )
    page.click("once")
    assert page.wait("head.found !== null && head.found") > 1000, "with one flipped it does not"
    assert abs(page.now(CONTRAST)) < 25, "and cannot be read"
    assert "does not come back" in page.now("$('sentence').textContent")
    first, turned, last = page.now("$('found').textContent.match(/[0-9][.][0-9]{4}/g)")
    assert float(last) > (float(first) + 3 * float(turned)) / 4, "and the entropy stays up"
    page.js("$('entropy').click()")
    assert page.wait("$('probed').hidden && head.entropy === null"), "its curve can be hidden"
    page.click("again"), page.wait("head.generation === 3000 && head.found === null")
    assert page.now("$('sentence').textContent").startswith("There is a message"), "the noise again"
    page.drag("draw", (60, 60)), page.click("turn")
    solid = page.wait("head.found > 1000 && solid")
    assert solid > 100, "with a wall it does not come back, and the wall stays"
    told = page.now("notes.length")
    page.choose("change", scene="one particle turned, and its cone")
    found = page.wait(
        f"notes.at(-1).startsWith('One of') && head.generation === 0 && notes.slice({told})"
    )
    assert len(found) == 1, "a new start says nothing of the cells before"
    page.go(f"{MESSAGE}&text=HELLO"), page.wait("notes.length")
    # a broken text is the default, and it is said
    assert "text=HELLO" in page.now("notes.at(-1)") and page.now("chosen.text") == "HELLO"
    page.go("#scene=an L that comes back&size=256 x 128&runs=rs.5.3j.5")
    found = page.wait("head.generation === 3000 && [$('scene').value, chosen.text, solid]")
    # an older address of the L opens it, with what was drawn
    assert found == ["a message in the noise", "L", 10]


PASTE = "const data = new DataTransfer(); data.setData('text', arguments[0]); document.dispatchEvent(new ClipboardEvent('paste', { clipboardData: data }))"


def test_sent(tab, tmp_path):
    """From a file a message is sent as a file, which has the page. A link to any page opens if it is pasted."""
    page = tab(MESSAGE)
    page.choose("change", text="iwi"), page.wait(
        "chosen.text === 'IWI' && head.generation === 3000"
    )
    page.click("send")
    assert "no link leads to it" in page.wait("$('pack') && notes.at(-1)")
    sent, link = page.saved("pack", ".html"), page.now("location.hash")
    assert b"iwi" not in sent.lower().split(b'id="kernel"')[0], "nobody reads the text in the file"
    assert abs(len(sent) - FILE.stat().st_size) < 1000, "it is the page"
    file = tmp_path / "sent.html"
    file.write_bytes(sent)
    reader = tab(address=f"file://{file}")
    comes_back(reader)
    assert reader.now("chosen.text") == "IWI"
    reader.click("send")  # a file that was sent sends others
    reader.choose("change", text="l"), reader.wait("chosen.text === 'L'"), reader.click("send")
    file.write_bytes(reader.saved("pack", ".html"))
    again = tab(address=f"file://{file}")
    assert again.now("chosen.text") == "L"
    again.js(PASTE, f"See https://example.org/fhpgas.html{link} tonight")
    assert again.wait("chosen.text === 'IWI' && head.generation === 3000"), "a pasted link opens"


def test_served(tab, served):
    """From the web the page copies its link, and a message has the size of its reader's window."""
    page = tab("#scene=a message in the noise", address=served)
    page.click("send"), page.wait("notes.length")
    assert "link" in page.now("notes.at(-1)") and not page.now("$('pack')"), page.now("notes")
    link = page.wait("location.hash.startsWith('#text=') && location.hash")
    phone = tab(link, (390, 844), has_fingers=True, address=served)
    assert phone.now("[head.width, head.height]") == [256, 384], "of a phone held upright"
    page.choose("change", text="many words " * 9), page.wait("chosen.text.startsWith('MANY')")
    link = page.wait("location.hash.includes('size=512') && location.hash")
    phone.go(link)
    assert phone.now("[head.width, head.height]") == [512, 256], "if it has room for the text"


def test_large(tab):
    page = tab("#scene=sound ring", (1920, 1080))
    # it rests, and a button waits
    assert page.now(
        "!shown.isRunning && head.generation === 0 && $('play').className.includes('waits')"
    )
    page.click("play")
    front = "$('numbers').children[1].textContent.match(/^0[.]7.( [|] 0[.]7.)?speed of the front$/)"
    assert page.wait(front), "the front runs as fast as sound"
    wide = page.now("$('play').clientWidth")
    page.pause()
    assert page.now("$('play').clientWidth") == wide, "buttons keep their width"
    assert page.now("getComputedStyle($('sentence')).fontSize > '22'"), "letters follow the window"
    page.drag("draw", (200, 30), (230, 60))
    page.click("turn")
    # it comes back
    assert page.wait("head.found !== null && [head.found, head.generation]") == [0, 0]
    page.click("undo"), page.wait("notes.at(-1).startsWith('The way back has undone')")
    assert page.now("head.fluid === head.width * head.height"), "undo then draws nothing"
    page.choose("change", scene="HPP's knotted ring beside FHP's"), page.wait(
        "shown.frames.length === 2"
    )
    page.click("play")
    assert page.wait(front), "two gases have both their numbers"


def test_moves(page):
    """Middle button and space move the picture, single cells slow the pace, and give it back."""
    page.go(QUICK)
    solid, x = page.wait("head.generation > 5 && [solid, look.place.x]")
    space = {"type": "keyDown", "key": " ", "code": "Space", "windowsVirtualKeyCode": 32}
    mouse = {"x": 400, "y": 300, "button": "left", "clickCount": 1}
    send = lambda name, **words: page.driver.execute_cdp_cmd(f"Input.dispatch{name}Event", words)
    for button in "middle", "left":
        if button == "left":
            send("Key", **space)
        send("Mouse", **mouse | {"type": "mousePressed", "button": button})
        send("Mouse", **mouse | {"type": "mouseMoved", "x": 450, "button": button})
        send("Mouse", **mouse | {"type": "mouseReleased", "x": 450, "button": button})
        moved = page.wait(f"look.place.x !== {x} && look.place.x")
        assert moved < x, f"{button} button moves the picture"
        x = moved
    send("Key", **space | {"type": "keyUp"})
    assert page.now(f"solid === {solid} && shown.isRunning"), "nothing was drawn, and it still runs"
    page.js("const { take } = screen; screen.take = (next) => take(next, (window.late ??= next))")
    page.wait("window.late"), page.key(Keys.SPACE), page.wait("!shown.isRunning")
    assert page.js("screen.take(late); return !shown.isRunning"), "a late frame runs nothing"
    page.key(Keys.SPACE), page.wait("shown.isRunning")
    page.choose("change", pace="300/s")
    for delta, pace in (-2400, "1 s"), (2400, "300/s"):
        send("Mouse", **mouse | {"type": "mouseWheel", "deltaX": 0, "deltaY": delta})
        assert page.wait(f"$('pace').value === '{pace}'"), f"the wheel sets the pace to {pace}"


WINDOWS = (667, 375), (568, 320), (640, 400), (683, 350), (320, 480), (844, 390), (390, 844)
BOXES = """
const boxes = [...document.querySelectorAll('#scene, #text, #send, #sentence, #numbers div, #transport :is(button, select), main')]
  .filter((e) => e.getClientRects().length).map((e) => [e.id || e.textContent || e.tagName, e.getBoundingClientRect()]);
const out = boxes.filter(([, { left, right, top, bottom }]) => left < 0 || top < 0 || right > innerWidth + 0.5 || bottom > innerHeight + 0.5);
const over = boxes.flatMap(([one, a], k) => boxes.slice(k + 1).filter(([, b]) => a.left < b.right - 0.5 && b.left < a.right - 0.5
  && a.top < b.bottom - 0.5 && b.top < a.bottom - 0.5).map(([other]) => `${one} and ${other}`));
const cut = [...document.querySelectorAll('#sentence, #numbers div')].filter((e) => e.scrollWidth > e.clientWidth + 1 || e.scrollHeight > e.clientHeight + 1);
return [out.map(([name]) => name), over, cut.map((e) => e.textContent), ['scene', 'sentence'].filter((id) => !$(id).getClientRects().length)]
"""


def test_windows(page):
    """Nothing lies on anything else in small windows, and nothing leaves them."""
    for scene in "flow past a plate", "a message in the noise":
        page.go(f"#scene={scene}&size=256 x 128&drive=2"), page.click("drawer")
        for size in WINDOWS:
            resize(page, *size)
            page.wait("!screen.isScheduled || shown.isRunning")
            assert page.js(BOXES) == [[], [], [], []], f"{scene} at {size}"
    resize(page, 1300, 860)


def test_small(page):
    """The windows of small laptops, with the panel folded."""
    page.go(""), page.click("drawer")
    for width, height, least in (1366, 650, 1050), (1024, 700, 960):
        resize(page, width, height)
        wide = page.now("head.width * look.place.scale")
        assert least <= wide <= width, f"the lattice is large at {width} x {height}"
    resize(page, 500, 800)
    page.open('gas = "none"\n')
    page.wait("notes.at(-1) === 'this page does not read the gas none'")
    edges = "[$('note').firstChild, $('numbers'), $('scene')].map((e) => e.getBoundingClientRect()).map((box) => [box.top, box.bottom])"
    (top, _), (_, numbers), (_, scene) = page.now(edges)
    assert top >= max(numbers, scene), "a note lies on no number"


SELF_TEST = """
const until = async (isSo) => { for (let n = 0; n < 20000 && !isSo(); n++) await new Promise((go) => setTimeout(go, 30)); return isSo(); };
(async () => {
  const { $, shown, head, said: words, look } = fhpgas, said = (what, isSo) => dump(`RESULT ${isSo ? 1 : 0} ${what}\\n`);
  const event = (kind, x, y) => $("view").dispatchEvent(new PointerEvent(kind, { clientX: x, clientY: y, pointerId: 1, pointerType: "mouse", bubbles: true }));
  $("view").setPointerCapture = () => 0;
  said("it moves", await until(() => head()?.generation > 50));
  $("draw").click();
  const solid = head().width * head().height - head().fluid, box = $("view").getBoundingClientRect();
  const place = (x, y) => [box.x + (x - look.place.x) * look.place.scale, box.y + (y - look.place.y) * look.place.scale];
  event("pointerdown", ...place(150, 40)), event("pointermove", ...place(170, 70)), event("pointerup", ...place(170, 70));
  said("a stroke is drawn", await until(() => head().width * head().height - head().fluid > solid));
  $("turn").click();
  said("it comes back", await until(() => head().found === 0 && head().generation === 0));
  said("the kernel is the one that is there", await until(() => words.engine.startsWith("@ENGINE@")));
  dump("RESULT end\\n");
})();
"""


def test_firefox(tmp_path):
    """In Firefox a copy of the page tests itself, and dumps what it finds. Its policy allows the test too."""
    program = shutil.which("firefox-esr") or shutil.which("firefox")
    if not program:
        pytest.skip("firefox-esr is missing")
    engine = FILE.parent / "engine.js"
    script = SELF_TEST.replace("@ENGINE@", "The proved" if engine.exists() else "The kernel")
    code = base64.b64encode(hashlib.sha256(script.encode()).digest()).decode()
    text = re.sub("(script-src )", rf"\1'sha256-{code}' ", FILE.read_text("utf-8"), count=1)
    (tmp_path / "page.html").write_text(
        text.replace("</html>", f"<script>{script}</script>\n</html>"), "utf-8"
    )
    if engine.exists():
        shutil.copy(engine, tmp_path)
    (tmp_path / "user.js").write_text(
        'user_pref("browser.dom.window.dump.enabled", true);\nuser_pref("browser.shell.checkDefaultBrowser", false);\n'
    )
    address = f"file://{tmp_path}/page.html{QUICK.replace(' ', '%20')}"
    words = [program, "--headless", "--no-remote", "--profile", str(tmp_path), address]
    found = []
    pipes = {"stdout": subprocess.PIPE, "stderr": subprocess.DEVNULL, "text": True}
    with subprocess.Popen(words, **pipes) as browser:
        try:
            for line in browser.stdout:
                found += re.findall("RESULT (.*)", line)
                if found[-1:] == ["end"]:
                    break
        finally:
            browser.terminate()
    assert len(found) == 5 and all(line[0] == "1" for line in found[:-1]), found
