"""The page of tools/explore in a browser without a window, and what a reader does there."""

import os
import shutil
import sys
import time

sys.path.append("/usr/lib/python3/dist-packages")  # Debian's, where another Python comes first
from selenium import webdriver
from selenium.common.exceptions import SessionNotCreatedException
from selenium.webdriver.chrome.service import Service
from selenium.webdriver.common.action_chains import ActionChains
from selenium.webdriver.common.actions.action_builder import ActionBuilder
from selenium.webdriver.common.by import By
from selenium.webdriver.common.keys import Keys

TRIES = 3
PATIENCE = float(os.environ.get("CLICK_PATIENCE", "20"))  # seconds
OPTIONS = ("--headless=new", "--no-sandbox", "--window-size=1280,900", "--hide-scrollbars")
# The words that a copy with nothing marked puts down, and a paste of these.
COPY = """const board = new DataTransfer();
document.body.dispatchEvent(new ClipboardEvent("copy", {clipboardData: board, bubbles: true, cancelable: true}));
return board.getData("text/plain");"""
PASTE = """const board = new DataTransfer();
board.setData("text/plain", arguments[0]);
document.body.dispatchEvent(new ClipboardEvent("paste", {clipboardData: board, bubbles: true}));"""
# Each move of the list: its notation, what is said of it, and its marks.
MOVES = """return [...document.querySelectorAll("#moves .move")].map((row) => [".san", ".after", ".mark"].map(
  (kind) => [...row.querySelectorAll(kind)].map((part) => part.innerText.trim()).join(" ")));"""
# The least contrast of a text with its ground, by the formula of WCAG 2, over all texts that are seen.
CONTRAST = """const part = (c) => (c / 255 <= 0.03928 ? c / 255 / 12.92 : ((c / 255 + 0.055) / 1.055) ** 2.4);
const light = (c) => { const [r, g, b] = c.match(/[\\d.]+/g).map(Number);
  return 0.2126 * part(r) + 0.7152 * part(g) + 0.0722 * part(b); };
const ground = light(getComputedStyle(document.body).backgroundColor);
const least = {ratio: 99, text: ""};
for (const e of document.querySelectorAll("h1, h2, p, span, button, summary, pre, li, label")) {
  if (!e.textContent.trim() || !e.checkVisibility() || e.disabled) continue;
  const ink = light(getComputedStyle(e).color);
  const ratio = (Math.max(ink, ground) + 0.05) / (Math.min(ink, ground) + 0.05);
  if (ratio < least.ratio) { least.ratio = ratio; least.text = e.textContent; }
}
return least.ratio;"""


def driver_of(options):
    """A browser that has begun. On a busy machine its driver may lose patience with it, so it is tried again."""
    for _ in range(TRIES - 1):
        try:
            return webdriver.Chrome(service=Service(shutil.which("chromedriver")), options=options)
        except SessionNotCreatedException:
            time.sleep(1)
    return webdriver.Chrome(service=Service(shutil.which("chromedriver")), options=options)


class Page:
    """The page in a browser without a window."""

    def __init__(self, address, folder):
        options = webdriver.ChromeOptions()
        for word in (*OPTIONS, f"--user-data-dir={folder}/browser"):
            options.add_argument(word)
        self.driver = driver_of(options)
        self.driver.get(address)

    def find(self, selector):
        return self.driver.find_elements(By.CSS_SELECTOR, selector)

    def text(self, selector):
        return " | ".join(element.text for element in self.find(selector))

    def wait(self, holds):
        """True as soon as it holds, False where it does not in time."""
        end = time.monotonic() + PATIENCE
        while time.monotonic() < end:
            try:
                if holds():
                    return True
            except Exception:  # the page is drawing anew
                pass
            time.sleep(0.02)
        return False

    def bounds(self):
        return self.text("#bounds .words")

    def has_bounds(self, words):
        return self.wait(lambda: self.bounds() == words)

    def has_bounds_in(self, selector, words):
        return self.wait(lambda: self.text(selector) == words)

    def moves(self):
        """Each move of the list: its notation, what is said of it, and its marks; all read at once,
        since the page may draw the list anew."""
        return [tuple(row) for row in self.driver.execute_script(MOVES)]

    def show(self, fen):
        field = self.find("#fen")[0]
        field.clear()
        field.send_keys(fen + "\n")
        self.driver.execute_script("document.activeElement.blur()")

    def press(self, *keys, held=""):
        chain = ActionChains(self.driver)
        if held:
            chain.key_down(getattr(Keys, held))
        chain.send_keys(*(getattr(Keys, key, key) for key in keys))
        if held:
            chain.key_up(getattr(Keys, held))
        chain.perform()

    def click_move(self, san):
        for button in self.find("#moves .move"):
            if button.text.split()[:1] == [san]:
                button.click()
                return

    def man(self, square):
        return self.find(f'#board .man[data-square="{square}"]')

    def square(self, name):
        return self.find(f'#board rect[data-square="{name}"]')[0]

    def point(self, square):
        """The middle of a square in the window. The board is drawn anew under the hand."""
        found = self.square(square).rect
        return int(found["x"] + found["width"] / 2), int(found["y"] + found["height"] / 2)

    def click_squares(self, *squares):
        for square in squares:
            self.drag(square, square)

    def drag(self, origin, destination):
        actions = ActionBuilder(self.driver)
        hand = actions.pointer_action
        hand.move_to_location(*self.point(origin)).pointer_down()
        hand.move_to_location(*self.point(destination)).pointer_up()
        actions.perform()

    def run(self, script, *words):
        return self.driver.execute_script(script, *words)

    def emulate(self, command, **words):
        self.driver.execute_cdp_cmd(f"Emulation.{command}", words)

    def picture(self, path):
        self.driver.save_screenshot(path)
