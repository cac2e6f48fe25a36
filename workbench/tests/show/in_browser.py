"""A test with a page in Chromium: what it does with it, and what it sees."""
from __future__ import annotations

import contextlib
import os
import unittest
from typing import Any, List

from workbench.show import browser
from workbench.show.command import REPORT

from . import kit

WINDOW = (900, 640)  # small, since each pixel is drawn by the processor


class InBrowser(unittest.TestCase):
    """A test with a browser that all tests of a class share."""

    driver: Any

    @classmethod
    def setUpClass(cls) -> None:
        stack = contextlib.ExitStack()
        cls.addClassCleanup(stack.close)
        cls.driver = stack.enter_context(browser.chromium(size="{},{}".format(*WINDOW)))

    def open(self, name: str) -> None:
        """Opens the page of a product of the gallery."""
        self.open_in(kit.folder(name))

    def open_in(self, folder: str) -> None:
        browser.open_page(self.driver, os.path.join(folder, REPORT))

    def text(self, selector: str) -> str:
        found: str = self.run_script(
            "return document.querySelector(arguments[0]).textContent", selector
        )
        return found

    def run_script(self, script: str, *values: Any) -> Any:
        return self.driver.execute_script(script, *values)

    def keys(self, key: str, selector: str = "#slider") -> None:
        self.driver.find_element("css selector", selector).send_keys(key)

    def press(self, selector: str) -> None:
        self.run_script("document.querySelector(arguments[0]).click()", selector)

    def quiet(self) -> None:
        """No error and no warning stands in the console, and nothing was fetched."""
        told = [
            entry for entry in self.driver.get_log("browser") if "GPU stall" not in entry["message"]
        ]
        self.assertEqual(told, [])
        self.assertEqual(
            self.run_script("return performance.getEntriesByType('resource').length"), 0
        )

    def near(self, found: List[List[float]], wanted: List[Any]) -> None:
        self.assertEqual(len(found), len(wanted))
        size = max(1.0, *(abs(number) for place in wanted for number in place))
        for at, place in zip(found, wanted):
            for one, other in zip(at, place):
                self.assertAlmostEqual(one, other, delta=1e-9 * size)

    def lit(self) -> List[List[int]]:
        """The pieces that are drawn, where no part is."""
        found: List[List[int]] = self.run_script(
            "return report.scene.parts.flatMap((part, p) => part.solid.visible ? [[p, -1]] :"
            "part.pieces.flatMap((mesh, k) => mesh.visible ? [[p, k]] : []))"
        )
        return sorted(found)

    def looks(self) -> List[str]:
        """How each part is drawn."""
        found: List[str] = self.run_script(
            "return report.scene.parts.map(part => part.solid.visible ? 'whole' :"
            "part.faint[1].visible ? 'clear' : 'hidden')"
        )
        return found
