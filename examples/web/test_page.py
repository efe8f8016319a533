"""Two browsers at one table: the game master and Mara play with mouse and keyboard against the built program,
through the gateway. It needs chromium, chromium-driver, python3-selenium, python3-aiohttp and the program;
without them it is skipped. SHOTS=FOLDER keeps pictures of what was played.

    python3 -m unittest test_page
"""

import json
import os
import pathlib
import re
import statistics
import subprocess
import sys
import tempfile
import time
import unittest

from evenings import EVENING, HERE, KEYS, PROGRAM
from evenings import free_port, lines_to, listens, needs_program, played, wait_for

try:
    import aiohttp
    from selenium import webdriver
    from selenium.webdriver.common.action_chains import ActionChains
    from selenium.webdriver.common.by import By
    from selenium.webdriver.common.keys import Keys
    from selenium.webdriver.support.ui import Select
except ImportError:
    aiohttp = webdriver = None

DRIVER = "/usr/bin/chromedriver"
SHOTS = os.environ.get("SHOTS")
ARGUMENTS = [
    "--headless=new",
    "--no-sandbox",
    "--disable-gpu",
    "--disable-dev-shm-usage",
    "--hide-scrollbars",
]
PLACE = """
const { board } = table;
const { left, top } = board.canvas.getBoundingClientRect();
const [x, y] = board.placeOf(arguments[0]);
return [left + x, top + y];
"""
COLOUR = """
const { painter, ratio } = table.board;
const [x, y] = table.board.placeOf(arguments[0]);
return [...painter.pen.getImageData(x * ratio, y * ratio, 1, 1).data].slice(0, 3);
"""
# Presses and lets go in the middle of a cell; gives the milliseconds until Mara was painted there.
CLICK_TO_PAINT = """
const { board } = table;
const cell = [...arguments];
const { left, top } = board.canvas.getBoundingClientRect();
const [x, y] = board.placeOf([2 * cell[0] + 1, 2 * cell[1] + 1]);
const press = { clientX: left + x, clientY: top + y, pointerId: 1 };
board.canvas.setPointerCapture = () => {}; // no such pointer is down
return new Promise((done) => {
  const begin = performance.now();
  board.painter.paint = (shown) => {
    Object.getPrototypeOf(board.painter).paint.call(board.painter, shown);
    if (table.tokens().get("1:mara").cell.join() === cell.join()) done(performance.now() - begin);
  };
  for (const kind of ["pointerdown", "pointerup"])
    board.canvas.dispatchEvent(new PointerEvent(kind, press));
});
"""


def cleared(text):
    """Keys that put a text in the place of a field's."""
    return Keys.CONTROL + "a" + Keys.NULL + text


class Page:
    """A browser at a seat."""

    def __init__(self, width=1280, height=800):
        options = webdriver.ChromeOptions()
        for word in [*ARGUMENTS, f"--window-size={width},{height}"]:
            options.add_argument(word)
        options.set_capability("goog:loggingPrefs", {"performance": "ALL", "browser": "ALL"})
        service = webdriver.chrome.service.Service(DRIVER)
        self.driver = webdriver.Chrome(service=service, options=options)
        self.resize(width, height)
        self.came, self.went = [], []  # lines, with when

    def resize(self, width, height):
        shape = {"width": width, "height": height, "deviceScaleFactor": 1, "mobile": False}
        self.driver.execute_cdp_cmd("Emulation.setDeviceMetricsOverride", shape)

    def js(self, text, *given):
        """What the page's own script gives, in which `table` is the page's."""
        script = "return import('/main.js').then(({ table }) => (function () {%s}).apply(null, arguments))"
        return self.driver.execute_script(script % text, *given)

    def find(self, selector):
        return self.driver.find_element(By.CSS_SELECTOR, selector)

    def all(self, selector):
        return self.driver.find_elements(By.CSS_SELECTOR, selector)

    def select(self, label, value):
        """Chooses a value where the choice has that label."""
        Select(self.find(f"select[aria-label='{label}']")).select_by_value(value)

    def press(self, words, within="body"):
        """Presses the button of these words."""
        next(it for it in self.all(f"{within} button") if it.text == words).click()

    def sit(self, base, seat, key=None):
        self.driver.get(f"{base}/#seat={seat}&key={key or KEYS[seat]}")
        self.press("Sit down")

    def wait(self, script, *given):
        """Waits until the script gives something."""
        return wait_for(lambda: self.js(f"return {script}", *given))

    def joined(self):
        self.wait("Boolean(table.seat?.joined && table.board.grid)")

    def is_idle(self):
        return self.js("return !table.seat.sent.length && !table.walk.steps.length && !table.walk.goal")

    # ---- the map
    def at(self, point):
        """Where a point lies in the window."""
        return [round(it) for it in self.js(PLACE, point)]

    def mouse(self, *points):
        """Presses at the first point, goes over the others, and lets go at the last one."""
        chain = ActionChains(self.driver, duration=0)
        pointer = chain.w3c_actions.pointer_action
        pointer.move_to_location(*self.at(points[0]))
        pointer.pointer_down()
        for point in points[1:]:
            pointer.move_to_location(*self.at(point))
        pointer.pointer_up()
        chain.perform()

    def click(self, x, y):
        """Clicks in the middle of a cell."""
        self.mouse((2 * x + 1, 2 * y + 1))

    def keys(self, *keys):
        """Keys on the map."""
        self.js("table.board.canvas.focus()")
        ActionChains(self.driver, duration=0).send_keys(*keys).perform()

    def cell_of(self, token):
        return self.js("return table.tokens().get(arguments[0])?.cell ?? null", token)

    def letter(self, x, y):
        return self.js("return table.board.grid.letter([arguments[0], arguments[1]])", x, y)

    def seen(self, x, y):
        script = "const { grid } = table.board; return grid.seen[arguments[1] * grid.w + arguments[0]]"
        return bool(self.js(script, x, y))

    def walls(self, map_name, kind="vbl"):
        script = "return [...table.seat.walls.of(arguments[0])[arguments[1]].keys()].sort().join(' ')"
        return self.js(script, map_name, kind)

    def colour(self, x, y):
        """What is painted in the upper left part of a cell."""
        return self.js(COLOUR, [2 * x + 0.4, 2 * y + 0.4])

    # ---- what was told
    def log(self):
        return self.find("#log").text

    def frames(self):
        """All lines that came over the WebSocket so far, as the browser itself tells it, not the page."""
        kinds = {"Network.webSocketFrameReceived": self.came, "Network.webSocketFrameSent": self.went}
        for entry in self.driver.get_log("performance"):
            message = json.loads(entry["message"])["message"]
            if message["method"] in kinds:
                given = message["params"]
                kinds[message["method"]].append((given["timestamp"], given["response"]["payloadData"]))
        return [line for _, line in self.came]

    def errors(self):
        return [entry for entry in self.driver.get_log("browser") if entry["level"] == "SEVERE"]

    def shot(self, name):
        if SHOTS:
            self.driver.save_screenshot(os.path.join(SHOTS, f"{name}.png"))


@unittest.skipUnless(
    webdriver and aiohttp and os.access(DRIVER, os.X_OK), "selenium, chromium or aiohttp isn't there"
)
@needs_program
class TwoBrowsers(unittest.TestCase):
    @classmethod
    def setUpClass(cls):
        cls.gm, cls.mara = Page(), Page()
        for page in (cls.gm, cls.mara):
            cls.addClassCleanup(page.driver.quit)

    def setUp(self):
        for page in (self.gm, self.mara):
            page.frames()
            page.came, page.went = [], []
        self.port, self.listen = free_port(), free_port()
        self.base = f"http://127.0.0.1:{self.listen}"
        self.left = 8  # connections
        words = [PROGRAM, "serve", str(EVENING), str(self.port), str(self.left), "--end"]
        self.server = self.started(words)
        wait_for(lambda: listens(self.port))
        self.left -= 1
        self.gateway = self.open_page()

    def open_page(self):
        place = ["--table", f"127.0.0.1:{self.port}", "--listen", f"127.0.0.1:{self.listen}"]
        gateway = self.started([sys.executable, str(HERE / "gateway.py"), *place])
        self.assertIn(self.base, gateway.stdout.readline().decode())
        return gateway

    def started(self, words):
        pipes = {"stdin": subprocess.DEVNULL, "stdout": subprocess.PIPE, "stderr": subprocess.DEVNULL}
        process = subprocess.Popen(words, **pipes)
        for each in (process.stdout.close, process.wait, process.kill):
            self.addCleanup(each)
        return process

    def both_sit(self):
        for page, seat in ((self.gm, 0), (self.mara, 1)):
            page.sit(self.base, seat)
            page.joined()
        self.gm.wait("Boolean(table.seat.walls)")

    def both_leave(self):
        """Both leave, without an error on either page."""
        for page in (self.gm, self.mara):
            self.assertEqual(page.errors(), [])
            page.press("Leave")
            wait_for(lambda page=page: "you left the table" in page.log())

    def mara_is_told_what_play_prints(self):
        """The lines that both browsers sent, played as a script: what Mara's browser was sent is in it."""
        for page in (self.gm, self.mara):
            page.frames()
        went = [
            (when, seat, line) for seat, page in enumerate((self.gm, self.mara)) for when, line in page.went
        ]
        script = "".join(f"{seat} {line}\n" for _, seat, line in sorted(went))
        wanted = lines_to(1, played(script))
        words = re.compile(r"\w+")
        self.assertEqual(set(words.findall(str(self.mara.frames()))) - set(words.findall(str(wanted))), set())
        self.assertEqual(self.mara.frames(), wanted)

    def test_an_evening(self):
        self.both_sit()
        self.assertNotIn("key", self.mara.js("return location.href"))
        self.mara_walks()
        self.a_wall_darkens()
        self.a_door_opens()
        self.a_hidden_token_is_shown()
        self.they_talk_and_roll()
        self.they_fight()
        self.properties_and_macros()
        self.night_falls()
        self.both_leave()
        self.mara_is_told_what_play_prints()

    def mara_walks(self):
        gm, mara = self.gm, self.mara
        self.assertEqual(gm.cell_of("1:mara"), [1, 8])
        mara.click(8, 8)
        wait_for(lambda: gm.cell_of("1:mara") == mara.cell_of("1:mara") == [8, 8])
        mara.shot("mara-walked")
        # Faster than answers come.
        mara.js("[[6, 9], [9, 9], [8, 8]].forEach((cell) => table.walk.goTo(cell))")
        wait_for(lambda: gm.cell_of("1:mara") == [8, 8] and mara.is_idle())
        right, left, up, down = Keys.ARROW_RIGHT, Keys.ARROW_LEFT, Keys.ARROW_UP, Keys.ARROW_DOWN
        mara.keys(right, right, left, up, down, left)
        wait_for(lambda: gm.cell_of("1:mara") == [8, 8] and mara.is_idle())

    def a_wall_darkens(self):
        gm, mara = self.gm, self.mara
        self.assertTrue(mara.seen(12, 8))
        before = mara.colour(12, 8)
        gm.press("Wall", "#tools")
        gm.mouse((20, 12), (20, 16), (20.6, 21.5))
        wait_for(lambda: not mara.seen(12, 8))
        after = wait_for(lambda: (colour := mara.colour(12, 8)) != before and colour)
        self.assertLess(sum(after), sum(before) * 0.5)
        self.assertTrue(mara.seen(9, 8))
        self.assertEqual(mara.js("return table.seat.walls"), None)
        gm.shot("gm-wall")
        mara.shot("mara-dark")
        # The game master looks by her eyes: just what the server tells her.
        gm.select("Whose eyes the map is shown by", "1")
        seen = "return table.board.seen.join('')"
        self.assertEqual(gm.js(seen), mara.js(seen))
        gm.shot("gm-eyes")
        gm.select("Whose eyes the map is shown by", "")
        mara.click(11, 8)
        wait_for(lambda: "stopped after 1 of 3 steps" in mara.log())

    def a_door_opens(self):
        gm, mara = self.gm, self.mara
        gm.press("Door", "#tools")
        gm.mouse((20, 16), (20, 17), (20, 18))
        wait_for(lambda: "20,16,20,18" in (walls := gm.walls("yard")) and "20,12,20,22" not in walls)
        self.assertFalse(mara.seen(12, 8))
        gm.mouse((20, 17))
        wait_for(lambda: mara.seen(12, 8))
        gm.shot("gm-door")
        gm.mouse((20, 17))
        wait_for(lambda: not mara.seen(12, 8))
        gm.press("Choose", "#tools")

    def a_hidden_token_is_shown(self):
        """Nothing of it comes to Mara's browser until it is on the layer token."""
        gm, mara = self.gm, self.mara
        gm.click(9, 7)
        wait_for(lambda: gm.js("return table.board.chosen") == "0:goblin")
        self.assertNotIn("goblin", "".join(mara.frames()).lower())
        gm.press("Copy", "#token")
        copied = "const it = table.tokens().get('0:goblin_2');"
        copied += "return it && JSON.stringify([it.cell, it.layer, it.props, it.secret])"
        wanted = '[[10,7],"hidden",[["hp","7"]],[["hit","4"],["will","0"]]]'
        wait_for(lambda: gm.js(copied) == wanted)
        gm.press("Goblin", "#token")
        wait_for(lambda: gm.js("return table.board.chosen") == "0:goblin")
        self.assertNotIn("goblin", "".join(mara.frames()).lower())
        gm.press("Reveal", "#token")
        wait_for(lambda: mara.cell_of("0:goblin") == [9, 7])
        self.assertIn("Goblin is seen at 9,7", mara.log())
        self.assertNotIn("secret", "".join(mara.frames()))

    def they_talk_and_roll(self):
        gm, mara = self.gm, self.mara
        Select(gm.find("#to")).select_by_value("gm")
        gm.find("#text").send_keys("/r 1d20+4")
        gm.press("Say", "#speak")
        wait_for(lambda: "1d20+4 = " in gm.log())
        Select(gm.find("#to")).select_by_value("all")
        gm.find("#text").send_keys("Roll for it!", Keys.ENTER)
        wait_for(lambda: "Roll for it!" in mara.log())
        mara.press("d20", "#dice")
        wait_for(lambda: "1d20 = " in gm.log())
        self.assertNotIn("1d20+4", "".join(mara.frames()))
        told = [json.loads(frame) for frame in mara.frames()]
        self.assertEqual([line["text"] for line in told if line.get("from") == 0], ["Roll for it!"])
        self.assertIn("1d20+4", "".join(gm.frames()))

    def they_fight(self):
        gm, mara = self.gm, self.mara
        mara.find("#token input[type=number]").send_keys(cleared("14"))
        mara.press("Enter", "#token")
        wait_for(lambda: "14 Mara" in gm.find("#fight").text)
        gm.press("Turn", "#fight")
        wait_for(lambda: "round 1: Mara has the turn" in mara.log())
        self.assertEqual(mara.find("#fight [aria-current=true]").text, "14 Mara")
        gm.press("End fight", "#fight")
        wait_for(lambda: not mara.find("#fight").is_displayed())

    def properties_and_macros(self):
        gm, mara = self.gm, self.mara
        props = "return JSON.stringify(table.tokens().get('0:goblin').props)"
        gm.find("#token input[aria-label='public hp']").send_keys(cleared("3"), Keys.ENTER)
        wait_for(lambda: mara.js(props) == '[["hp","3"]]')
        gm.press("hurt", "#macros")
        gm.find("#dialog input").send_keys("0:goblin 2", Keys.ENTER)
        wait_for(lambda: mara.js(props) == '[["hp","1"]]')
        # A player's macros aren't told to the page, which learns of one by its name.
        mara.press("Macros…", "#macros")
        mara.find("#dialog input").send_keys("attack")
        mara.press("Run", "#dialog")
        mara.find("#dialog input").send_keys('"the goblin"', Keys.ENTER)
        wait_for(lambda: "Mara strikes at the goblin: " in gm.log())
        self.assertIn("attack", mara.find("#macros").text)

    def night_falls(self):
        gm, mara = self.gm, self.mara
        gm.select("How the map is lit", "night")
        wait_for(lambda: not mara.seen(3, 8))
        Select(mara.find("#token select")).select_by_value("torch")
        wait_for(lambda: mara.seen(6, 8))
        mara.shot("mara-night")
        gm.shot("gm-night")
        for page, name in ((mara, "mara-small"), (gm, "gm-small")):
            page.resize(390, 844)
            time.sleep(0.3)
            page.shot(name)
            page.resize(1280, 800)

    def test_a_map_from_nothing(self):
        self.both_sit()
        self.a_new_map()
        self.terrain_and_a_room()
        self.tokens_of_each_size()
        self.mara_is_put_there()
        self.cells_are_exposed_and_hidden()
        self.things_are_taken_back()
        self.gm.shot("gm-crypt")
        self.mara.shot("mara-crypt")
        for page in (self.gm, self.mara):
            self.each_control_has_a_name(page)
        self.links_and_types()
        self.both_leave()

    def a_new_map(self):
        gm = self.gm
        gm.press("New map…", "#tools")
        name, width, height = gm.all("#dialog input")
        name.send_keys("The Crypt")
        width.send_keys(cleared("12"))
        height.send_keys(cleared("9"), Keys.ENTER)
        wait_for(lambda: gm.js("return table.mapName()") == "the_crypt")
        self.assertEqual(gm.js("return table.board.grid.title()"), "the_crypt, 12 by 9, day, not shown")

    def terrain_and_a_room(self):
        gm = self.gm
        gm.press("Terrain", "#tools")
        gm.select("Letter", "w")
        gm.mouse((1, 1), (5, 5))
        wait_for(lambda: gm.letter(0, 0) == gm.letter(2, 2) == "w")
        control_z = ActionChains(gm.driver, duration=0).key_down(Keys.CONTROL).send_keys("z")
        control_z.key_up(Keys.CONTROL).perform()
        wait_for(lambda: gm.letter(0, 0) == gm.letter(2, 2) == ".")
        gm.select("Letter", "s")
        gm.mouse((3, 3), (9, 9), (17, 13))
        wait_for(lambda: gm.letter(1, 1) == gm.letter(8, 6) == "s")
        self.assertEqual(gm.letter(9, 7), ".")
        gm.press("Wall", "#tools")
        gm.select("Shape", "room")
        gm.mouse((2, 2), (10, 10), (18, 14))
        wait_for(lambda: gm.walls("the_crypt") == "18,2,18,14 2,14,18,14 2,2,18,2 2,2,2,14")

    def tokens_of_each_size(self):
        gm = self.gm
        for size, cell in (("1", (2, 2)), ("2", (3, 3)), ("3", (6, 3)), ("4", (8, 5))):
            gm.press("Token", "#tools")
            gm.find("#tools input[placeholder=name]").send_keys(cleared("Old Ogre"))
            gm.select("Size", size)
            gm.click(*cell)
            wait_for(gm.is_idle)
        ids = gm.js("return table.seat.view.onMap('the_crypt').map(({ id, size }) => `${id} ${size}`)")
        self.assertEqual(ids, ["0:old_ogre 1", "0:old_ogre_2 2", "0:old_ogre_3 3", "0:old_ogre_4 4"])

    def mara_is_put_there(self):
        """She is chosen on her map, and put on this one, which she is then shown."""
        gm, mara = self.gm, self.mara
        gm.press("yard", "#maps")
        gm.press("Mara", "#token")
        gm.press("the_crypt", "#maps")
        gm.press("Place", "#tools")
        gm.click(2, 4)
        wait_for(lambda: gm.cell_of("1:mara") == [2, 4])
        self.assertEqual(mara.js("return table.seat.view.mapNames()"), ["yard"])
        gm.find("#tools input[type=checkbox]").click()
        wait_for(lambda: mara.js("return table.mapName()") == "the_crypt")
        wait_for(lambda: mara.seen(8, 6))
        self.assertFalse(mara.seen(9, 6))
        self.assertEqual(mara.js("return table.seat.view.onMap('the_crypt').map(({ id }) => id)"), ["1:mara"])

    def cells_are_exposed_and_hidden(self):
        gm, mara = self.gm, self.mara
        gm.press("Expose", "#tools")
        self.assertIn("seat 1, Mara", gm.find("#tools .options").text)
        gm.mouse((21, 15), (23, 17))
        wait_for(lambda: mara.letter(11, 8) == ".")
        gm.press("Hide", "#tools")
        gm.mouse((21, 15), (23, 17))
        wait_for(lambda: mara.letter(11, 8) is None)
        gm.press("Unwall", "#tools")
        gm.mouse((18, 8))
        wait_for(lambda: mara.seen(11, 4))
        gm.press("Choose", "#tools")

    def things_are_taken_back(self):
        gm = self.gm
        gm.click(2, 2)
        wait_for(lambda: gm.js("return table.board.chosen") == "0:old_ogre")
        gm.mouse((5, 5), (9, 7), (11, 3))
        wait_for(lambda: gm.cell_of("0:old_ogre") == [5, 1])
        gm.press("Undo", "#tools")
        wait_for(lambda: gm.cell_of("0:old_ogre") == [2, 2])
        # A room of eight lines is one gesture.
        gm.press("Wall", "#tools")
        gm.mouse((20, 2), (22, 4))
        wait_for(lambda: "22,2,22,4" in gm.walls("the_crypt", "mbl"))
        gm.press("Undo", "#tools")
        wait_for(lambda: gm.walls("the_crypt", "mbl") == "2,14,18,14 2,2,18,2 2,2,2,14")
        gm.press("Choose", "#tools")

    def each_control_has_a_name(self, page):
        """For a screen reader."""
        tree = page.driver.execute_cdp_cmd("Accessibility.getFullAXTree", {})["nodes"]
        roles = {"button", "textbox", "combobox", "checkbox", "radio", "spinbutton", "application", "log"}
        found = [
            node for node in tree if node.get("role", {}).get("value") in roles and not node.get("ignored")
        ]
        self.assertGreater(len(found), 20)
        unnamed = [node for node in found if not node.get("name", {}).get("value")]
        self.assertEqual([(node["role"]["value"], node.get("value")) for node in unnamed], [])

    def links_and_types(self):
        gm, mara = self.gm, self.mara
        gm.press("Links…", "#tools")
        link = wait_for(lambda: gm.js("return document.querySelectorAll('#dialog input')[1]?.value"))
        self.assertEqual(link, f"{self.base}/#seat=2&key=brok-ironfoot")
        gm.press("Cancel", "#dialog")
        wait_for(lambda: not gm.all("#dialog input"))
        gm.press("Types…", "#tools")
        gm.press("A light…", "#dialog")
        gm.find("#dialog input").send_keys("Bonfire", Keys.ENTER)
        mara.wait("table.seat.view.lights.bonfire === 4")

    def test_the_keyboard_alone_draws_and_moves(self):
        gm, mara = self.gm, self.mara
        self.both_sit()
        gm.press("Wall", "#tools")
        right, down = Keys.ARROW_RIGHT, Keys.ARROW_DOWN
        # The cursor begins in the middle of 0,0 and goes by half cells.
        gm.keys("c", *[right] * 19, *[down] * 13, Keys.ENTER, *[down] * 8, Keys.ENTER, Keys.ESCAPE)
        wait_for(lambda: "20,14,20,22" in gm.walls("yard", "mbl"))
        mara.keys("c", *[right] * 4, Keys.ENTER)
        wait_for(lambda: gm.cell_of("1:mara") == [5, 8])
        self.assertIn("5,8", mara.find("#here").text)
        mara.keys(Keys.ESCAPE, Keys.HOME)
        wait_for(lambda: gm.cell_of("1:mara") == [4, 7])
        mara.keys("d")
        wait_for(lambda: "Mara 1:mara at 4,7" in mara.log())
        self.both_leave()

    def test_fingers(self):
        mara = self.mara
        mara.sit(self.base, 1)
        mara.joined()

        def touch(kind, *points):
            given = [{"x": x, "y": y, "id": number} for number, (x, y) in enumerate(points)]
            mara.driver.execute_cdp_cmd("Input.dispatchTouchEvent", {"type": kind, "touchPoints": given})

        scale = mara.js("return table.board.scale")
        x, y = mara.at((20, 12))
        touch("touchStart", (x - 50, y))
        touch("touchStart", (x - 50, y), (x + 50, y))
        touch("touchMove", (x - 100, y), (x + 50, y))
        touch("touchMove", (x - 100, y), (x + 100, y))
        touch("touchEnd", (x - 100, y))
        touch("touchEnd")
        self.assertAlmostEqual(mara.js("return table.board.scale") / scale, 2, places=1)
        self.assertLess(max(abs(one - other) for one, other in zip(mara.at((20, 12)), (x, y))), 3)
        self.assertEqual(mara.cell_of("1:mara"), [1, 8])
        mara.press("Fit")
        touch("touchStart", mara.at((11, 17)))
        touch("touchEnd")
        wait_for(lambda: mara.cell_of("1:mara") == [5, 8])
        left = mara.js("return table.board.left")
        x, y = mara.at((20, 12))
        touch("touchStart", (x, y))
        touch("touchMove", (x - 60, y))
        touch("touchMove", (x - 90, y))
        touch("touchEnd")
        self.assertGreater(mara.js("return table.board.left"), left + 1)
        self.assertEqual(mara.cell_of("1:mara"), [5, 8])

    def test_wrong_keys_wait(self):
        mara = self.mara
        mara.sit(self.base, 1, "wrong")
        wait_for(lambda: "that key doesn't open that seat" in mara.find("#why").text)
        mara.sit(self.base, 1)
        wait_for(lambda: "wrong keys came from your address" in mara.find("#why").text)
        time.sleep(1.2)
        mara.press("Sit down")
        mara.joined()

    def test_a_broken_connection_is_told_and_made_again(self):
        gm, mara = self.gm, self.mara
        self.both_sit()
        mara.click(5, 8)
        wait_for(lambda: gm.cell_of("1:mara") == [5, 8] and mara.is_idle())
        self.gateway.kill()
        self.gateway.wait()
        wait_for(lambda: "the connection broke" in mara.find("#banner").text)
        mara.shot("mara-broken")
        self.open_page()
        mara.press("Sit down again")
        wait_for(lambda: mara.find("#banner").text == "" and mara.js("return table.seat.joined"))
        wait_for(lambda: mara.cell_of("1:mara") == [5, 8])
        mara.click(6, 8)
        wait_for(lambda: mara.cell_of("1:mara") == [6, 8])
        self.server.kill()
        wait_for(lambda: "the table ended the session" in mara.find("#banner").text)
        mara.press("Sit down again")
        wait_for(lambda: "no table is open at the moment" in mara.find("#banner").text)

    def test_what_is_saved_opens_again(self):
        gm, mara = self.gm, self.mara
        with tempfile.TemporaryDirectory() as folder:
            allowed = {"behavior": "allow", "downloadPath": folder}
            gm.driver.execute_cdp_cmd("Browser.setDownloadBehavior", allowed)
            self.both_sit()
            mara.click(5, 8)
            wait_for(lambda: gm.cell_of("1:mara") == [5, 8])
            gm.press("Save", "#tools")
            file = pathlib.Path(folder) / "campaign.json"
            wait_for(file.exists)
            ran = subprocess.run([PROGRAM, "check", str(file)], capture_output=True, text=True, check=False)
            self.assertEqual((ran.returncode, ran.stdout), (0, "ok: 3 seats, 2 maps, 8 tokens\n"))
            # It is the campaign that the server writes at its end, to the byte.
            self.both_leave()
            for _ in range(self.left - 2):
                self.assertTrue(listens(self.port))
            printed = self.server.stdout.read().decode().splitlines()
            self.assertEqual(printed[-1], file.read_text("utf-8"))

    def test_from_a_click_to_its_picture(self):
        self.both_sit()
        took = [self.mara.js(CLICK_TO_PAINT, 2 + step % 2, 8) for step in range(40)]
        median = statistics.median(took)
        if SHOTS:
            ends = f"{min(took):.0f} to {max(took):.0f}"
            print(f"from a click to its picture: {median:.0f} ms at the median, {ends}", file=sys.stderr)
        self.assertLess(median, 100)


if __name__ == "__main__":
    unittest.main()
