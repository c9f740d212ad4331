"""Headless Chromium on the page, driven as a user would: keys, clicks and what is seen."""
import base64
import os
import shutil
import tempfile
import time

from plain_edition import packages

from selenium import webdriver
from selenium.webdriver.chrome.service import Service
from selenium.webdriver.common.by import By
from selenium.webdriver.common.keys import Keys

__all__ = ["Browser", "Keys"]
PATIENCE = 20
ARGUMENTS = ("--headless=new", "--no-sandbox", "--disable-gpu", "--disable-dev-shm-usage", "--lang=en")


class Browser:
    """A browser at an address. What the page says to the console is kept."""

    def __init__(self, address):
        driver = shutil.which("chromedriver")
        if not driver:
            raise packages.Missing("there is no chromedriver: " + packages.apt_get(["chromium", "chromium-driver"]))
        options = webdriver.ChromeOptions()
        for word in ARGUMENTS:
            options.add_argument(word)
        options.set_capability("goog:loggingPrefs", {"browser": "ALL"})
        self.address, self.room = address, tempfile.mkdtemp()
        self.driver = webdriver.Chrome(service=Service(driver), options=options)
        self.driver.set_script_timeout(120)
        self.driver.execute_cdp_cmd("Browser.setDownloadBehavior", {"behavior": "allow", "downloadPath": self.room})

    def __enter__(self):
        return self

    def __exit__(self, *_):
        self.driver.quit()
        shutil.rmtree(self.room, ignore_errors=True)

    def open(self, more=""):
        """Opens the page anew, with nothing kept of before."""
        self.driver.get("about:blank")
        self.driver.get(self.address + more)
        self.until(lambda: self.script("return document.body.dataset.ready"), "the page is ready")

    def forget(self):
        self.script("localStorage.clear()")

    def size(self, width, height):
        self.driver.execute_cdp_cmd("Emulation.setDeviceMetricsOverride",
                                    {"width": width, "height": height, "deviceScaleFactor": 1, "mobile": False})

    def theme(self, name):
        self.driver.execute_cdp_cmd("Emulation.setEmulatedMedia", {"features": [{"name": "prefers-color-scheme", "value": name}]})

    def script(self, text, *words):
        return self.driver.execute_script(text, *words)

    def until(self, is_so, what):
        """Waits until it is so, and gives what it was."""
        end = time.time() + PATIENCE
        while time.time() < end:
            found = is_so()
            if found:
                return found
            time.sleep(0.02)
        raise TimeoutError(f"not seen in {PATIENCE} s: {what}; the screen: {self.screen()!r}; said: {self.text('said')!r}; "
                           f"the dialog: {self.text('asked-dialog')!r}")

    def text(self, name):
        return self.script("return document.getElementById(arguments[0]).innerText", name)

    def screen(self):
        return self.text("screen")

    def sees(self, name, words):
        return self.until(lambda: words in self.text(name), f"{words!r} in {name}")

    def keys(self, *keys):
        webdriver.ActionChains(self.driver, duration=0).send_keys(*keys).perform()

    def chord(self, modifier, key):
        """A key while another one is held."""
        webdriver.ActionChains(self.driver, duration=0).key_down(modifier).send_keys(key).key_up(modifier).perform()

    def click(self, selector, words=""):
        """Clicks the first thing that is seen of these, with these words."""
        def there():
            for one in self.driver.find_elements(By.CSS_SELECTOR, selector):
                if one.is_displayed() and words in one.text:
                    return one
            return None
        self.until(there, f"{selector} {words!r}").click()

    def type(self, selector, text):
        field = self.driver.find_element(By.CSS_SELECTOR, selector)
        field.clear()
        field.send_keys(text)

    def source(self, text, name="source"):
        """Puts a text into an editor."""
        self.script("window.app[arguments[0]].write(arguments[1]); window.app.isImage = false; window.app.open()", name, text)

    def focus_editor(self, line, column):
        self.script("const e = app.source.editor; e.focus(); e.setCursor(arguments[0], arguments[1])", line, column)

    def saved(self, end):
        """The name and the text of a file that the page has saved."""
        def there():
            return [it for it in os.listdir(self.room) if it.endswith(end)]
        name = self.until(there, f"a file {end}")[0]
        with open(os.path.join(self.room, name), encoding="utf-8") as file:
            return name, file.read()

    def bytes(self, text, data):
        """Runs a script on bytes, which it has as `bytes`."""
        head = "const bytes = Uint8Array.from(atob(arguments[0]), (it) => it.charCodeAt(0));"
        return self.script(head + text, base64.b64encode(data).decode())

    def picture(self, path):
        self.driver.save_screenshot(path)

    def complaints(self):
        """What went wrong since the last time: exceptions, and what could not be loaded."""
        return [it["message"] for it in self.driver.get_log("browser") if it["level"] == "SEVERE"]

    def all(self, selector):
        return [it for it in self.driver.find_elements(By.CSS_SELECTOR, selector) if it.is_displayed()]
