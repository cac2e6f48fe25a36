"""Runs the unit tests of folders: units.py FOLDER..

A test that is passed over counts as failed, since nothing ran it.
"""

from __future__ import annotations

import pathlib
import sys
import unittest


def top_of(folder: pathlib.Path) -> pathlib.Path:
    """The folder above the package that the folder is in; the folder itself where it is in none."""
    while (folder / "__init__.py").exists():
        folder = folder.resolve().parent
    return folder


def main(folders: list[str]) -> int:
    """Runs the tests of each folder and prints how many passed and failed."""
    passed = failed = 0
    for folder in folders:
        tests = unittest.defaultTestLoader.discover(
            folder, top_level_dir=str(top_of(pathlib.Path(folder)))
        )
        result = unittest.TextTestRunner(sys.stdout, verbosity=1).run(tests)
        for test, why in result.skipped:
            print(f"not run: {test}: {why}")
        bad = len({test.id() for test, _ in (*result.failures, *result.errors, *result.skipped)})
        passed, failed = passed + result.testsRun - bad, failed + max(bad, 1 - result.testsRun)
    print(f"{passed} passed, {failed} failed")
    return 1 if failed else 0


if __name__ == "__main__":
    sys.exit(main(sys.argv[1:]))
