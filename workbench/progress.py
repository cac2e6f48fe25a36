"""What is shown on standard error of work that takes longer than two seconds, where that is a terminal."""
from __future__ import annotations

import contextlib
import sys
import threading
import time
from types import TracebackType
from typing import Any, Iterator, Optional, Type

DELAY = 2.0  # seconds
TICK = 1.0  # seconds


@contextlib.contextmanager
def waiting(what: str) -> Iterator[None]:
    """Shows what is waited for, and for how long already. The line is gone once it is done."""
    if not sys.stderr.isatty():
        yield
        return
    is_done = threading.Event()
    teller = threading.Thread(target=tell, args=(what, is_done), daemon=True)
    teller.start()
    try:
        yield
    finally:
        is_done.set()
        teller.join()


def tell(what: str, is_done: threading.Event) -> None:
    began = time.monotonic()
    is_told = False
    pause = DELAY
    while not is_done.wait(pause):
        print(f"\r{what}: {time.monotonic() - began:.0f} s", end="", file=sys.stderr, flush=True)
        is_told, pause = True, TICK
    if is_told:
        print("\r\033[K", end="", file=sys.stderr, flush=True)


class Progress:
    """Counts steps of some work. With `python3-tqdm` a bar is shown on a terminal; without it, nothing."""

    def __init__(self, what: str, many: int) -> None:
        self.bar: Any = None
        if many > 1 and sys.stderr.isatty():
            try:
                from tqdm import tqdm
            except ImportError:
                return
            self.bar = tqdm(total=many, desc=what, delay=DELAY, leave=False, file=sys.stderr)

    def step(self) -> None:
        if self.bar is not None:
            self.bar.update()

    def __enter__(self) -> "Progress":
        return self

    def __exit__(
        self,
        kind: Optional[Type[BaseException]],
        fault: Optional[BaseException],
        trace: Optional[TracebackType],
    ) -> None:
        if self.bar is not None:
            self.bar.close()
