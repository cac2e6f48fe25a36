"""Unit tests of the look at links and paths."""

from __future__ import annotations

import tempfile
import unittest
from pathlib import Path

import links

PAGE = """# A page

See [two](#two-words-and-a-code) and [there](other.md), <img src="heap.png" width="2">, [out](https://example.org).
The file docs/TRUST.md, `crates/NAME/src/lib.rt`, tests/*.txt and crates/staat_cli/out/staat_cli.

## Two words, and `a code`
"""


class Tests(unittest.TestCase):
    """What counts as a link or a path, and whether it is there."""

    def test_links(self) -> None:
        wanted = [(3, "#two-words-and-a-code"), (3, "other.md"), (3, "heap.png")]
        self.assertEqual(list(links.links_of(PAGE)), wanted)

    def test_paths(self) -> None:
        self.assertEqual(list(links.paths_of(PAGE)), [(4, "docs/TRUST.md")])

    def test_names(self) -> None:
        text = "Hop 1 is `top` in crates/a/src/b.rt, and `Heap::weigh`\n in crates/a/src/c.rt."
        wanted = [(1, "top", "crates/a/src/b.rt"), (1, "weigh", "crates/a/src/c.rt")]
        self.assertEqual(list(links.names_of(text)), wanted)
        self.assertTrue(links.declares("    pub fn weigh(&self) -> u32", "weigh"))
        self.assertFalse(links.declares("fn weighed() { weigh() }", "weigh"))

    def test_words(self) -> None:
        head = "## Sets (`staat_a`: `Sets`; `staat_b`)\n\n| Word | Meaning |\n"
        text = head + "| `Has s p`, `Lacks s p` | it is there |\n"
        wanted = [(4, "Has", ["staat_a", "staat_b"]), (4, "Lacks", ["staat_a", "staat_b"])]
        self.assertEqual(list(links.words_of(text)), wanted)
        self.assertEqual(list(links.words_of("## Words\n| `Has` | it is there |\n")), [])
        self.assertTrue(links.is_spoken("IsGood", ["staat_model"]))
        self.assertFalse(links.is_spoken("IsGoodAndDry", ["staat_model", "staat_vec"]))

    def test_where_links_lead(self) -> None:
        with tempfile.TemporaryDirectory() as room:
            page = Path(room, "page.md")
            page.write_text(PAGE, encoding="utf-8")
            self.assertTrue(links.is_link_right(page, "#two-words-and-a-code"))
            self.assertTrue(links.is_link_right(page, "page.md#a-page"))
            self.assertFalse(links.is_link_right(page, "#two"))
            self.assertFalse(links.is_link_right(page, "other.md"))


if __name__ == "__main__":
    unittest.main()
