"""From solids to convex pieces on the grid, each with bounds of what it gets wrong."""
from .clearing import clear
from .decomposing import Cut, decompose, placed
from .frames import frame_of

__all__ = ["Cut", "clear", "decompose", "frame_of", "placed"]
