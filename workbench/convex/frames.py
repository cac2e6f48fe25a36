"""Solids that were drawn along the axes and then turned: they are cut as they were drawn, and turned again."""
from __future__ import annotations

from typing import List, Optional, Sequence

import numpy

from ..solid import GREATEST, Mesh
from ..triangles import newells
from .cells import Cell

ALONG = 1e-5  # how far from 0 the components of a direction along an axis may be
FINER = (1, 2, 4, 8)  # times as fine as the grid may be the one on which a turned solid is cut
TWIN = 0.25  # in steps: coordinates so near each other are one, as they were before the solid was turned
WHOLE = 0.2  # of its steps: so near lie the coordinates of a solid that was drawn on a grid, before it was turned


def directions_of(vectors: numpy.ndarray) -> numpy.ndarray:
    """The directions (k, 3) of faces with these area vectors (n, 3), up to their side; the greatest first."""
    sizes = numpy.linalg.norm(vectors, axis=1)
    vectors, sizes = vectors[sizes > 0], sizes[sizes > 0]
    units = vectors / sizes[:, None]
    leading = numpy.abs(units).argmax(axis=1)
    units *= numpy.sign(units[numpy.arange(len(units)), leading])[:, None]
    keys = numpy.unique(units.round(4), axis=0, return_inverse=True)[1].ravel()
    areas = numpy.bincount(keys, weights=sizes)
    greatest = [
        int(numpy.nonzero(keys == key)[0][sizes[keys == key].argmax()]) for key in range(len(areas))
    ]
    return numpy.asarray(units[greatest][areas.argsort()[::-1]])


def frame_of(meshes: Sequence[Mesh]) -> Optional[numpy.ndarray]:
    """Rows are three directions at right angles along which most of the surfaces lies; nothing if they are the axes."""
    vectors = numpy.vstack(
        [newells(numpy.asarray(mesh.points, float), mesh.faces) for mesh in meshes]
    )
    directions = directions_of(vectors)
    if len(directions) < 3:
        return None
    first = directions[0]
    across = directions[numpy.abs(directions @ first) < ALONG]
    if not len(across):
        return None
    second = across[0] - first * (across[0] @ first)
    second /= numpy.linalg.norm(second)
    frame = numpy.array([first, second, numpy.cross(first, second)])
    return None if is_along_axes(frame) else frame


def is_along_axes(frame: numpy.ndarray) -> bool:
    return bool((numpy.abs(numpy.abs(frame).max(axis=1) - 1) < ALONG**2).all())


def frames_of(mesh: Mesh, of_product: Optional[numpy.ndarray]) -> List[numpy.ndarray]:
    """The frames in which a solid may have been drawn before it was turned: its own, and that of its product."""
    own = frame_of([mesh])
    found = [] if own is None else [own]
    if of_product is not None and (own is None or not is_along_axes(own @ of_product.T)):
        found.append(of_product)
    return found


def clustered(values: numpy.ndarray, twin: float) -> numpy.ndarray:
    """The values (n, 3), where those of one axis that lie no farther apart than `twin` are one."""
    made = values.copy()
    for axis in range(values.shape[1]):
        order = values[:, axis].argsort()
        row = values[order, axis]
        starts = numpy.concatenate([[True], numpy.diff(row) > twin])
        groups = starts.cumsum() - 1
        means = numpy.bincount(groups, weights=row) / numpy.bincount(groups)
        made[order, axis] = means[groups]
    return made


class Turned:
    """A mesh as it was drawn: steps of a finer grid in its own frame, around its middle.

    The least coordinates along the frame are whole there, so all are of a solid that was drawn on such a grid.
    """

    def __init__(
        self, mesh: Mesh, scale: float, frame: numpy.ndarray, finer: int, twin: float
    ) -> None:
        self.frame, self.finer = frame, finer
        steps = numpy.asarray(mesh.points, float) * scale
        along = clustered(steps @ frame.T, twin) * finer
        least, most = along.min(axis=0), along.max(axis=0)
        origin = least + numpy.rint((most - least) / 2)
        self.middle = origin / finer @ frame
        self.mesh = Mesh(along - origin, mesh.faces, mesh.name)
        back = along / finer @ frame
        self.moved = float(numpy.linalg.norm(back - steps, axis=1).max())

    def is_whole(self) -> bool:
        """Whether all coordinates are whole but for what a file of six digits gets wrong."""
        return bool(numpy.abs(self.mesh.points - numpy.rint(self.mesh.points)).max() <= WHOLE)

    def fits(self) -> bool:
        return bool(numpy.abs(self.mesh.points).max() <= GREATEST)

    def back(self, cell: Cell) -> Cell:
        """The cell in steps of the grid, by rounded numbers: it has no exact corners."""
        return cell.turned(self.frame, self.middle, self.finer)


def drawn_mesh(mesh: Mesh, scale: float, frame: numpy.ndarray) -> Optional[Turned]:
    """A mesh as it was drawn in a frame, on the coarsest grid that keeps it, else on the finest; nothing where it is
    too large."""
    found: Optional[Turned] = None
    for finer in FINER:
        turned = Turned(mesh, scale, frame, finer, TWIN)
        if not turned.fits() or turned.moved > 1.0:
            break
        found = turned
        if turned.is_whole():
            break
    return found
