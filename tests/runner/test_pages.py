"""Unit tests of the reading of pages."""

from __future__ import annotations

import unittest

import pages

PAGE = """# A page

Text, and what is no example:

    ./staat plan

An example of two commands, with an empty line in what the second prints:

    $ one \\
        more
    first

      second
    $ two  # status 1

Text.

```sh
$ three
third
```
    not of it
"""


class Tests(unittest.TestCase):
    """What counts as an example, and what it shows."""

    def test_examples(self) -> None:
        found = [(it.line, it.command, it.lines) for it in pages.examples_of(PAGE)]
        wanted = [
            (9, "one \\\n    more", ["first", "", "  second"]),
            (14, "two  # status 1", []),
            (19, "three", ["third"]),
        ]
        self.assertEqual(found, wanted)


if __name__ == "__main__":
    unittest.main()
