"""A tab of Chromium with the page, for its tests: real events of mouse, fingers and keys."""

import json

import needs
from selenium import webdriver
from selenium.webdriver.common.action_chains import ActionChains
from selenium.webdriver.common.by import By
from selenium.webdriver.support.wait import WebDriverWait

WORDS = (
    "--headless=new",
    "--no-sandbox",
    "--disable-dev-shm-usage",
    "--disable-gpu",
    "--no-first-run",
    "--disable-background-networking",
    "--disable-component-update",
    "--disable-sync",
)
FILE = needs.ROOT / "page/fhpgas.html"
NAMES = (
    "const { $, chosen, look, marks, motion, notes, said, screen, shown } = fhpgas, head = fhpgas.head(), view = $('view'),"
    " solid = head && head.width * head.height - head.fluid,"
    " controls = [...document.querySelectorAll('button, select, input')].filter((e) => e.id !== 'file');"
)


class Page:
    """A tab of Chromium with the page of an address, in a window of a size, with fingers if it is a phone's."""

    def __init__(
        self, room, after="", size=(1300, 860), has_fingers=False, address=f"file://{FILE}"
    ):
        options = webdriver.ChromeOptions()
        for word in WORDS:
            options.add_argument(word)
        options.add_experimental_option("prefs", {"download.default_directory": str(room)})
        options.set_capability("goog:loggingPrefs", {"browser": "ALL", "performance": "ALL"})
        metrics = {"width": size[0], "height": size[1], "pixelRatio": 2 if has_fingers else 1}
        metrics |= {"touch": has_fingers, "mobile": has_fingers}
        options.add_experimental_option("mobileEmulation", {"deviceMetrics": metrics})
        self.driver = webdriver.Chrome(options=options)
        self.room, self.has_fingers, self.address = room, has_fingers, address
        self.driver.set_script_timeout(needs.PATIENCE)
        self.go(after)

    def go(self, after):
        self.driver.get("about:blank")
        self.driver.get(self.address + after.replace(" ", "%20"))
        self.view = self.driver.find_element(By.ID, "view")
        self.wait("shown.painted")
        if not self.has_fingers:
            self.click("drawer")

    def js(self, text, *values):
        return self.driver.execute_script(NAMES + text, *values)

    def now(self, value):
        return self.js(f"return {value}")

    def wait(self, condition):
        """Waits for what may be true for some frames only, so the page itself looks."""
        return self.driver.execute_async_script(
            f"const [done] = arguments, found = () => {{ {NAMES} return {condition}; }},"
            " look = () => { const it = found(); it ? done(it) : setTimeout(look); }; look();"
        )

    def choose(self, *events, **values):
        """Sets controls, with these events."""
        for name, value in values.items():
            self.js(
                "const e = $(arguments[0]); e[e.type === 'checkbox' ? 'checked' : 'value'] = arguments[1];"
                "for (const event of arguments[2]) e.dispatchEvent(new Event(event))",
                name,
                value,
                events,
            )

    def click(self, name):
        self.driver.find_element(By.ID, name).click()

    def key(self, *keys):
        ActionChains(self.driver).send_keys(*keys).perform()

    def pause(self):
        """Pauses, and opens the list of all numbers for the hash."""
        if self.now("shown.isRunning"):
            self.click("play")
        self.click("numbersAll")
        found = self.wait(
            "shown.hashes.length && !shown.isRunning && [head.generation, shown.hashes[0]]"
        )
        self.click("numbersAll")
        return found

    def at(self, x, y):
        """Where a place of the lattice is in the picture."""
        return self.js(
            "const { place } = look; return [(arguments[0] - place.x) * place.scale, (arguments[1] - place.y) * place.scale]",
            x,
            y,
        )

    def drag(self, tool, *places, waits=True):
        """Draws a line over places of the lattice with a tool, and waits until the page says what came of it."""
        self.click(tool)
        notes = self.now("notes.length")
        width, height = self.now("[view.clientWidth, view.clientHeight]")
        chain = ActionChains(self.driver, duration=50)
        for number, place in enumerate(places):
            x, y = self.at(*place)
            x, y = round(x - width / 2), round(y - height / 2)
            chain.move_to_element_with_offset(self.view, x, y)
            chain = chain if number else chain.click_and_hold()
        chain.release().perform()
        self.wait(f"notes.length > {notes}" if waits else "!screen.isScheduled")

    def touch(self, *moments):
        """Moves fingers over the picture: for each moment their places in it."""
        box = self.js("const { x, y } = view.getBoundingClientRect(); return [x, y]")
        for number, fingers in enumerate((*moments, ())):
            kind = "touchMove" if number else "touchStart"
            points = [
                {"x": x + box[0], "y": y + box[1], "id": n} for n, (x, y) in enumerate(fingers)
            ]
            words = {"type": kind if fingers else "touchEnd", "touchPoints": points}
            self.driver.execute_cdp_cmd("Input.dispatchTouchEvent", words)

    def saved(self, button, suffix):
        """The file that a button saves."""
        old = set(self.room.iterdir())
        self.click(button)
        new = lambda _: {it for it in self.room.glob(f"*{suffix}") if it.stat().st_size} - old
        return WebDriverWait(self.driver, needs.PATIENCE).until(new).pop().read_bytes()

    def open(self, text):
        file = self.room / "given.toml"
        file.write_text(text)
        self.driver.find_element(By.ID, "file").send_keys(str(file))

    def pixel(self, x, y):
        """The colour of a place of the lattice on the screen."""
        return self.js(
            "const r = devicePixelRatio, [x, y] = arguments;"
            "return [...view.getContext('2d').getImageData(x * r, y * r, 1, 1).data].slice(0, 3)",
            *self.at(x, y),
        )

    def close(self):
        """Closes the tab. Returns what was asked of other hosts, and the errors in the console."""
        messages = [
            json.loads(one["message"])["message"] for one in self.driver.get_log("performance")
        ]
        asked = [
            one["params"]["request"]["url"]
            for one in messages
            if one["method"] == "Network.requestWillBeSent"
        ]
        here = "file:", "blob:", "data:", "about:", "http://localhost:"
        strangers = [url for url in asked if not url.startswith(here)]
        errors = [one for one in self.driver.get_log("browser") if one["level"] == "SEVERE"]
        self.driver.quit()
        return strangers, errors
