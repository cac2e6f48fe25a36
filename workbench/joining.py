"""Parts that are to stay together, made one part of the product."""
from __future__ import annotations

from typing import Dict, List, Sequence

from .groups import Groups
from .product import Part, Product
from .solid import Refusal


def joined(product: Product, asked: Sequence[Sequence[str]]) -> None:
    """Makes one part of the parts in each of these rows, by name or by number; its name is theirs with `+` between.

    Refusal: there is no such part.
    """
    groups = Groups(len(product.parts))
    for row in asked:
        first, *others = (number_of(name, product) for name in row)
        for other in others:
            groups.join(first, other)
    members: Dict[int, List[Part]] = {}
    for number, part in enumerate(product.parts):
        members.setdefault(groups.of(number), []).append(part)
    product.parts = [one_of(some) for some in members.values()]


def number_of(name: str, product: Product) -> int:
    """The number of the part with a name, or with that number. Refusal: there is none."""
    found = [number for number, part in enumerate(product.parts) if part.name == name]
    if not found and name.isdigit() and int(name) < len(product.parts):
        found = [int(name)]
    if not found:
        raise Refusal(f'no part has the name "{name}", which --join names')
    return found[0]


def one_of(some: Sequence[Part]) -> Part:
    """The parts as one, whose solids are all of theirs."""
    if len(some) == 1:
        return some[0]
    name = "+".join(part.name for part in some)
    solids = [solid for part in some for solid in part.solids]
    for solid in solids:
        solid.name = name
    return Part(name, solids, [str(number) for number in range(len(solids))])
