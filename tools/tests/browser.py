"""A page in a real browser, Chromium without a window: what is clicked on, typed and read."""

import shutil
from pathlib import Path
from typing import Any

import pytest

WAIT = 120  # seconds for a page to show what it was asked for, on a machine with other work
STARTS = 5  # of the driver: the port that it was given may be another's by the time that it asks for it


def lacking() -> str | None:
    """The program that this machine lacks for a browser."""
    for name in ("chromium", "chromedriver"):
        if shutil.which(name) is None:
            return f"without {name}"
    return None


def started() -> Any:
    """A driver with its browser; if the start fails, it is tried again."""
    from selenium import webdriver
    from selenium.common.exceptions import WebDriverException
    from selenium.webdriver.chrome.service import Service

    options = webdriver.ChromeOptions()
    options.binary_location = shutil.which("chromium")
    for word in ("--headless=new", "--no-sandbox", "--disable-gpu", "--disable-dev-shm-usage", "--hide-scrollbars"):
        options.add_argument(word)
    for left in reversed(range(STARTS)):
        try:
            return webdriver.Chrome(service=Service(shutil.which("chromedriver")), options=options)
        except WebDriverException:
            if not left:
                raise


class Browser:
    """A browser that opens pages of `ttm-tools page`."""

    def __init__(self) -> None:
        pytest.importorskip("selenium.webdriver")
        pytest.importorskip("jinja2")
        if lacking():
            pytest.skip(str(lacking()))
        self.driver: Any = started()
        self.driver.set_script_timeout(WAIT)
        self.size(1280, 800)

    def close(self) -> None:
        self.driver.quit()

    def size(self, width: int, height: int) -> None:
        how = {"width": width, "height": height, "deviceScaleFactor": 1, "mobile": width < 500}
        self.driver.execute_cdp_cmd("Emulation.setDeviceMetricsOverride", how)

    def run(self, script: str, *values: Any) -> Any:
        """What a script of the page gives."""
        return self.driver.execute_script(script, *values)

    def awaited(self, script: str) -> Any:
        """What a script gives that waits for something."""
        return self.driver.execute_async_script(f"(async () => {{ {script} }})().then(arguments[arguments.length - 1])")

    def open(self, path: Path, arguments: str = "") -> None:
        """Opens a file as a double click does, and waits until it is shown."""
        self.driver.get("about:blank")
        self.driver.get(path.resolve().as_uri() + (f"#{arguments}" if arguments else ""))
        self.settle()

    def visit(self, address: str, arguments: str = "") -> None:
        """Opens an address, and waits until it is shown."""
        self.driver.get("about:blank")
        self.driver.get(address + (f"#{arguments}" if arguments else ""))
        self.settle()

    def settle(self) -> None:
        """Waits until all that was asked for is shown."""
        self.awaited("await begun; await show();")

    def text(self, identifier: str) -> str:
        """The text that an element shows; empty if it is hidden."""
        return str(self.driver.find_element("id", identifier).text)

    def content(self, identifier: str) -> str:
        """The text of an element, also of one that is folded."""
        return str(self.run("return document.getElementById(arguments[0]).textContent", identifier))

    def address(self) -> str:
        """The text after # in the address, once it is written."""
        self.awaited("await new Promise((it) => setTimeout(it, ADDRESS_EVERY + 50));")
        return str(self.run("return location.hash.slice(1)"))

    def lines(self, identifier: str) -> list[list[str]]:
        """A table's cells, as they are shown."""
        rows = "[...document.getElementById(arguments[0]).rows]"
        return list(self.run(f"return {rows}.map((row) => [...row.cells].map((it) => it.innerText))", identifier))

    def key(self) -> dict[str, str]:
        """The classes of the key, with how many places each has."""
        rows = "[...document.querySelectorAll('#key li')]"
        return dict(
            self.run(f"return {rows}.map((it) => [...it.querySelectorAll('span')].map((one) => one.innerText))")
        )

    def choose(self, identifier: str, text: str) -> None:
        """Takes an entry of a list."""
        from selenium.webdriver.support.ui import Select

        Select(self.driver.find_element("id", identifier)).select_by_visible_text(text)
        self.settle()

    def press(self, selector: str) -> None:
        """Clicks on a control."""
        self.driver.find_element("css selector", selector).click()
        self.settle()

    def type(self, identifier: str, *keys: str) -> None:
        self.driver.find_element("id", identifier).send_keys(*keys)
        self.settle()

    def pixel(self, identifier: str) -> tuple[int, int]:
        """The position of a place in the map."""
        script = "const at = page.pixelOf(head.identifiers.indexOf(arguments[0])); return [at.x, at.y].map(Math.round)"
        across, down = self.run(script, identifier)
        return across, down

    def click(self, identifier: str) -> None:
        """Clicks on the map where a place lies."""
        from selenium.webdriver.common.action_chains import ActionChains

        where = self.driver.find_element("id", "map")
        across, down = self.pixel(identifier)
        middle = (where.size["width"] // 2, where.size["height"] // 2)
        ActionChains(self.driver).move_to_element_with_offset(
            where, across - middle[0], down - middle[1]
        ).click().perform()
        self.settle()

    def colour(self, identifier: str, right: int = 0) -> str:
        """The colour drawn at a place, or this number of pixels to the right of it."""
        script = (
            "const canvas = document.querySelector('canvas.places'), box = canvas.getBoundingClientRect();"
            "const map = document.getElementById('map').getBoundingClientRect(), fine = canvas.width / box.width;"
            "const x = (arguments[0] + map.left - box.left) * fine, y = (arguments[1] + map.top - box.top) * fine;"
            "const [red, green, blue] = canvas.getContext('2d').getImageData(Math.round(x), Math.round(y), 1, 1).data;"
            "return '#' + [red, green, blue].map((it) => it.toString(16).padStart(2, '0')).join('')"
        )
        across, down = self.pixel(identifier)
        return str(self.run(script, across + right, down))

    def complaints(self) -> list[str]:
        """What the browser complains of, such as errors of scripts, since it was last asked."""
        return [str(item["message"]) for item in self.driver.get_log("browser") if item["level"] == "SEVERE"]
