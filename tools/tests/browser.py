"""A browser without a window, in which pages are tried: Chromium, by its driver."""

import os
import re
import shutil
import sys
import time
from pathlib import Path

from speedlight_tools import needs


# Set while the tests go on in another Python, so that they do so once.
MARK = "SPEEDLIGHT_TESTS_PYTHON"


def in_a_python_with_selenium():
    """Goes on in a Python that has selenium, where there is one and this one has none."""
    if os.environ.pop(MARK, None) or needs.imports(("selenium",)):
        return
    found = needs.python_with("selenium")
    if found and found != sys.executable:
        os.environ[MARK] = "1"
        os.execv(found, [found, "-B", *sys.argv])


def lack():
    """What is missing for a browser; None where all is there."""
    if not needs.imports(("selenium",)):
        return "no selenium with chromedriver: tools/setup installs them"
    return None if shutil.which("chromium") else "no chromium: tools/setup installs it"


class Browser:
    """An open browser. What a page does is waited for; `errors` are those that the console has told so far."""

    def __init__(self, width=1280, height=800):
        from selenium import webdriver
        from selenium.webdriver.chrome.options import Options
        from selenium.webdriver.chrome.service import Service

        options = Options()
        options.binary_location = shutil.which("chromium")
        for word in ("--headless=new", "--no-sandbox", "--disable-gpu", "--hide-scrollbars", "--disable-dev-shm-usage"):
            options.add_argument(word)
        options.set_capability("goog:loggingPrefs", {"browser": "ALL"})
        self.driver = webdriver.Chrome(options=options, service=Service(shutil.which("chromedriver")))
        self.size(width, height)
        self.errors = []

    def __enter__(self):
        return self

    def __exit__(self, *_):
        self.driver.quit()

    def size(self, width, height):
        metrics = {"width": width, "height": height, "deviceScaleFactor": 1, "mobile": width < 700}
        self.driver.execute_cdp_cmd("Emulation.setDeviceMetricsOverride", metrics)

    def theme(self, name):
        features = [{"name": "prefers-color-scheme", "value": name}]
        self.driver.execute_cdp_cmd("Emulation.setEmulatedMedia", {"features": features})

    def open(self, path, address=""):
        """Opens a page, and how many seconds it takes until it is drawn."""
        begin = time.monotonic()
        self.driver.get("about:blank")
        self.driver.get(f"file://{Path(path).resolve()}{address}")
        self.until("return Boolean(window.speedlight && speedlight.ready)", 120)
        return time.monotonic() - begin

    def until(self, code, seconds=20):
        end = time.monotonic() + seconds
        while not self.run(code):
            if time.monotonic() > end:
                raise AssertionError(f"still not: {code}; the console says: {self.told()}")
            time.sleep(0.02)

    def run(self, code, *given):
        return self.driver.execute_script(code, *given)

    def settled(self):
        """What was asked for is drawn."""
        self.driver.execute_async_script("const done = arguments[0]; requestAnimationFrame(() => requestAnimationFrame(done))")

    def click(self, selector):
        self.driver.find_element("css selector", selector).click()
        self.settled()

    def point(self, selector, x=None, y=None, click=False):
        """Moves the mouse to a place of an element, from its upper left corner, or to its middle; and clicks there."""
        from selenium.webdriver.common.action_chains import ActionChains

        element = self.driver.find_element("css selector", selector)
        box = self.run("const b = arguments[0].getBoundingClientRect(); return [b.width, b.height]", element)
        chain = ActionChains(self.driver).move_to_element_with_offset(element, 0, 0)
        if x is not None:
            chain = ActionChains(self.driver).move_to_element_with_offset(element, round(x - box[0] / 2), round(y - box[1] / 2))
        (chain.click() if click else chain).perform()
        self.settled()

    def key(self, *keys):
        from selenium.webdriver.common.action_chains import ActionChains

        ActionChains(self.driver).send_keys(*keys).perform()
        self.settled()

    def find(self, text):
        """Finds something by the field of the page, and takes the first that it offers."""
        field = self.driver.find_element("css selector", "#search")
        field.clear()
        field.send_keys(text)
        field.send_keys("\ue007")
        self.settled()

    def text(self, selector):
        return re.sub(r"\s+", " ", self.run("return document.querySelector(arguments[0]).textContent", selector)).strip()

    def rows(self, place=0):
        """The cells of a table of the details."""
        code = "const t = document.querySelectorAll('#panel table')[arguments[0]]; return t ? [...t.tBodies[0].rows].map(r => [...r.cells].map(c => c.textContent)) : []"
        return self.run(code, place)

    def told(self):
        """What the console said since this was last asked."""
        return [entry["message"] for entry in self.driver.get_log("browser") if entry["level"] in ("SEVERE", "WARNING")]

    def picture(self):
        return self.driver.get_screenshot_as_png()
