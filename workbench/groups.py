"""Numbers that are joined to groups."""
from __future__ import annotations


class Groups:
    """The numbers from 0 to below `many`, each a group of its own at first."""

    def __init__(self, many: int) -> None:
        self.above = list(range(many))

    def of(self, number: int) -> int:
        while self.above[number] != number:
            self.above[number] = self.above[self.above[number]]
            number = self.above[number]
        return number

    def join(self, one: int, other: int) -> None:
        self.above[self.of(one)] = self.of(other)
