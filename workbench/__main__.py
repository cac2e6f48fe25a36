"""The command: it says in one line which package of Debian is missing, before anything else is asked."""
from __future__ import annotations

import os
import sys
from typing import List


def start(words: List[str]) -> int:
    """Runs the words of a command; its status."""
    try:
        from workbench.cli import main
    except ImportError as fault:
        package = {"numpy": "python3-numpy", "scipy": "python3-scipy"}.get(
            (fault.name or "").split(".")[0]
        )
        if package is None:
            raise
        print(
            f"staat-cad: {package} is missing; install it by: sudo apt-get install -y {package}",
            file=sys.stderr,
        )
        return 69
    try:
        return main(words)
    except BrokenPipeError:  # who read the output wanted no more of it
        os.dup2(os.open(os.devnull, os.O_WRONLY), sys.stdout.fileno())
        return 0


if __name__ == "__main__":
    sys.exit(start(sys.argv[1:]))
