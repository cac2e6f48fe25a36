"""Named pipes in the place of files: they tell how often each is opened, and give at each opening what a test says."""

from __future__ import annotations

import os
import threading
from collections.abc import Mapping, Sequence
from pathlib import Path
from types import TracebackType


class Pipes:
    """Files that are pipes.

    folder: where they stand, by their names; contents: of each name the bytes that it gives at its first opening, its
    second and so on, the last of them at each later one; piece: how many bytes are given at a time, at least 1.
    opened: the names in the order in which they were opened, each as often as it was.
    """

    def __init__(self, folder: Path, contents: Mapping[str, Sequence[bytes]], piece: int) -> None:
        self.opened: list[str] = []
        self._folder = folder
        self._contents = contents
        self._piece = piece
        self._ended = threading.Event()
        self._threads = {
            name: threading.Thread(target=self._serve, args=(name,), daemon=True)
            for name in contents
        }

    def __enter__(self) -> Pipes:
        for name, thread in self._threads.items():
            path = self._folder / name
            path.parent.mkdir(parents=True, exist_ok=True)
            os.mkfifo(path)
            thread.start()
        return self

    def __exit__(
        self,
        kind: type[BaseException] | None,
        error: BaseException | None,
        trace: TracebackType | None,
    ) -> None:
        """Ends the threads: each waits for its pipe to be opened."""
        self._ended.set()
        for name, thread in self._threads.items():
            while thread.is_alive():
                end = os.open(self._folder / name, os.O_RDONLY | os.O_NONBLOCK)
                thread.join(0.05)
                os.close(end)

    def _serve(self, name: str) -> None:
        path = self._folder / name
        texts = list(self._contents[name])
        while True:
            end = os.open(path, os.O_WRONLY)
            if self._ended.is_set():
                os.close(end)
                return
            self.opened.append(name)
            os.unlink(path)  # the next opening is that of a new pipe
            os.mkfifo(path)
            text = texts.pop(0) if len(texts) > 1 else texts[0]
            self._give(end, text)

    def _give(self, end: int, text: bytes) -> None:
        """Writes the text in pieces, as far as it is read."""
        try:
            for start in range(0, len(text), self._piece):
                os.write(end, text[start : start + self._piece])
        except BrokenPipeError:
            pass
        finally:
            os.close(end)
