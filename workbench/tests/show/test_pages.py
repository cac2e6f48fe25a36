"""The pages of all products of the gallery in Chromium: each part is where `staat` says, at each step."""
from __future__ import annotations

import os
import tempfile
from dataclasses import replace
from typing import Any, Dict, List

from workbench.show.command import REPORT
from workbench.show.plans import Group, Hold, places
from workbench.show.travel import travels

from . import kit
from .in_browser import InBrowser

LARGEST = 2_000_000  # bytes of a page
PHONE = (375, 720)
DESK = (1280, 900)


class Pages(InBrowser):
    def test_each_part_is_where_staat_says(self) -> None:
        for name in kit.products():
            if kit.said(name).stuck:
                continue
            with self.subTest(name):
                self.open(name)
                self.through(kit.said(name))
                self.quiet()

    def through(self, said: kit.Said) -> None:
        """Moves the slider to each step by its keys, and back."""
        places = said.places()
        self.assertEqual(places[-1], said.shifts)
        self.near(self.run_script("return report.places()"), places[0])
        for number, row in enumerate(places[1:], 1):
            self.keys("\ue014")  # arrow right
            self.near(self.run_script("return report.places()"), row)
            self.marked(number, said.moves[number - 1])
        self.keys("\ue012")  # arrow left
        self.near(self.run_script("return report.places()"), places[-2])
        self.halfway(places)
        self.keys("\ue010")  # end
        self.near(self.run_script("return report.places()"), said.shifts)
        self.keys("\ue011")  # home
        self.near(self.run_script("return report.places()"), places[0])

    def halfway(self, places: List[List[kit.Place]]) -> None:
        """Between two steps the parts are half way."""
        self.run_script(
            "const it = document.getElementById('slider'); it.value = arguments[0];"
            "it.dispatchEvent(new Event('input'))",
            len(places) - 1.5,
        )
        middle = [
            [(a + b) / 2 for a, b in zip(one, other)] for one, other in zip(places[-2], places[-1])
        ]
        self.near(self.run_script("return report.places()"), middle)

    def marked(self, number: int, move: kit.Move) -> None:
        """The step at hand is marked in both lists, its line is in sight, and its words name its parts."""
        row, moved, words, is_seen = self.run_script(
            "const all = s => [...document.querySelectorAll(s)];"
            "const [line, list] = ['#steps [aria-current]', 'aside'].map(s => all(s)[0].getBoundingClientRect());"
            "return [all('#steps button').findIndex(it => it.getAttribute('aria-current')),"
            "all('#parts li').flatMap((it, k) => it.classList.contains('moved') ? [k] : []),"
            "document.getElementById('now').textContent,"
            "line.top >= list.top - 1 && line.bottom <= list.bottom + 1]"
        )
        self.assertEqual((row, moved, is_seen), (number, move.moved, True))
        for part in move.moved:
            self.assertIn(
                self.run_script("return report.data.parts[arguments[0]].name", part), words
            )

    def test_each_line_lights_two_pieces_and_staat_says_who_holds_whom(self) -> None:
        stuck = [name for name in kit.products() if kit.said(name).stuck]
        self.assertTrue(stuck)
        for name in stuck:
            with self.subTest(name):
                self.open(name)
                self.holds(name, kit.said(name).stuck)
                self.quiet()

    def holds(self, name: str, parts: List[int]) -> None:
        (group,) = self.run_script("return report.data.groups")
        self.assertEqual(group["parts"], parts)
        rows = self.driver.find_elements("css selector", "#holds button")
        self.assertEqual(len(rows), len(group["holds"]))
        for row, hold in zip(rows, group["holds"]):
            self.run_script("arguments[0].click()", row)
            lit = [[hold["part"], hold["piece"]], [hold["by"], hold["by_piece"]]]
            self.assertEqual(self.lit(), sorted(lit))
            arcs = self.arcs(name, hold["along"])
            self.assertIn(f"arc {hold['part']} {hold['by']}", arcs)
        held = {part for hold in group["holds"] for part in (hold["part"], hold["by"])}
        self.assertEqual(sorted(held), parts)

    def arcs(self, name: str, along: List[int]) -> List[str]:
        direction = ",".join(map(str, along))
        return kit.staat(
            "graph", f"--along={direction}", f"--manifest={kit.listed(name)}"
        ).splitlines()

    def test_a_page_is_small(self) -> None:
        for name in kit.products():
            with self.subTest(name):
                size = os.path.getsize(os.path.join(kit.folder(name), REPORT))
                self.assertLess(size, LARGEST)


class Handling(InBrowser):
    """What one does with a page."""

    def test_steps_and_groups_that_remain_stand_on_one_page(self) -> None:
        shown = kit.shown("pinned-lid")
        group = Group((0, 1, 4), (Hold((0, 0, 1), 1, 2, 0, 3), Hold((0, 0, 1), 4, 0, 1, 1)))
        plan = replace(shown.plan, steps=shown.plan.steps[:2], groups=(group,))
        rows = places(plan, travels(plan, [part.box for part in shown.parts]), len(shown.parts))
        with tempfile.TemporaryDirectory() as folder:
            kit.write_files(replace(shown, plan=plan, rows=rows), folder)
            self.open_in(folder)
            self.assertEqual(self.looks(), ["whole", "whole", "clear", "clear", "whole"])
            self.keys("\ue014")
            self.assertEqual(self.looks(), ["whole", "whole", "clear", "whole", "whole"])
            self.near(self.run_script("return report.places()"), list(rows[1]))
            self.press("#holds button")
            self.assertEqual(self.lit(), [[0, 3], [1, 2]])
            self.press("#holds button")
            self.assertEqual(self.looks(), ["whole", "whole", "clear", "whole", "whole"])
            self.assertIn("but for", self.text("#answer"))
            self.quiet()

    def test_parts_become_clear_and_hidden_by_name(self) -> None:
        self.open("pencil-box")
        self.press('[aria-label="Clear box"]')
        self.assertEqual(self.looks(), ["clear", "whole", "whole", "whole"])
        self.press('[aria-label="Hide box"]')
        self.press('[aria-label="Clear pin"]')
        self.assertEqual(self.looks(), ["hidden", "whole", "clear", "whole"])
        self.press('[aria-label="Hide box"]')
        self.press('[aria-label="Clear pin"]')
        self.assertEqual(self.looks(), ["whole"] * 4)
        self.quiet()

    def test_a_click_names_the_part(self) -> None:
        self.open("pencil-box")
        found = self.run_script(
            "const box = report.scene.canvas.getBoundingClientRect();"
            "const at = {clientX: box.left + box.width / 2, clientY: box.top + box.height / 2, bubbles: true};"
            "for (const kind of ['mousedown', 'mouseup', 'click'])"
            "report.scene.canvas.dispatchEvent(new MouseEvent(kind, at));"
            "return [...document.querySelectorAll('#parts .name')].flatMap(it =>"
            "it.getAttribute('aria-pressed') === 'true' ? [it.textContent] : [])"
        )
        self.assertEqual(len(found), 1)
        self.assertIn(found[0], ("0box", "1lid"))
        self.assertEqual(self.run_script("return scrollY"), 0)

    def test_it_plays_to_both_ends(self) -> None:
        self.open("dovetail")
        said = kit.said("dovetail")
        for button, row in (("#apart", said.shifts), ("#together", said.places()[0])):
            self.press(button)
            self.assertEqual(
                self.run_script("return document.querySelector(arguments[0]).textContent", button),
                "Stop",
            )
            self.driver.execute_async_script(
                "const done = arguments[0];"
                "const look = () => report.state.running ? setTimeout(look, 30) : done(); look()"
            )
            self.near(self.run_script("return report.places()"), row)

    def test_keys_turn_the_picture_and_move_no_part(self) -> None:
        self.open("dovetail")
        before = self.run_script("return report.scene.camera.position.toArray()")
        self.keys("\ue014", "#view")
        after = self.run_script("return report.scene.camera.position.toArray()")
        self.assertNotEqual(before, after)
        self.assertEqual(self.run_script("return report.state.time"), 0)
        self.press("#whole")
        again = self.run_script("return report.scene.camera.position.toArray()")
        for one, other in zip(before, again):
            self.assertAlmostEqual(one, other)

    def rects(self) -> Dict[str, Any]:
        found: Dict[str, Any] = self.run_script(
            "return Object.fromEntries(['#frame', '#slider', '#now', 'aside', 'footer'].map(it => {"
            "const box = document.querySelector(it).getBoundingClientRect();"
            "return [it, [box.left, box.top, box.width, box.height]]}))"
        )
        return found

    def test_nothing_jumps_and_a_phone_is_wide_enough(self) -> None:
        for width, height in (DESK, PHONE):
            self.narrow(width, height)
            with self.subTest(width=width):
                self.open("drawers")
                first = self.rects()
                for _ in kit.said("drawers").moves:
                    self.press("#after")
                    self.assertEqual(self.rects(), first)
                wide = self.run_script("return document.scrollingElement.scrollWidth")
                self.assertLessEqual(wide, width)
                self.quiet()

    def narrow(self, width: int, height: int) -> None:
        """Lays the page out for a screen of that size, which may be smaller than a window can be."""
        screen = {"width": width, "height": height, "deviceScaleFactor": 1, "mobile": False}
        self.driver.execute_cdp_cmd("Emulation.setDeviceMetricsOverride", screen)
        self.addCleanup(self.driver.execute_cdp_cmd, "Emulation.clearDeviceMetricsOverride", {})

    def test_light_and_dark_have_papers_of_their_own(self) -> None:
        self.open("dovetail")
        found = []
        for scheme in ("light", "dark"):
            feature = {"name": "prefers-color-scheme", "value": scheme}
            self.driver.execute_cdp_cmd("Emulation.setEmulatedMedia", {"features": [feature]})
            found.append(self.run_script("return getComputedStyle(document.body).backgroundColor"))
        self.driver.execute_cdp_cmd("Emulation.setEmulatedMedia", {"features": []})
        self.assertEqual(found, ["rgb(255, 255, 255)", "rgb(21, 24, 28)"])
