"""Makes freecad.obj, run by FreeCAD in the folder where it is to stand: freecadcmd freecad_obj.py < /dev/null

A plate of 40 by 30 by 8 mm with a square window, and a hexagonal pin beside it.
"""
import FreeCAD
import Mesh

document = FreeCAD.newDocument()
plate = document.addObject("Part::Box", "Solid")
plate.Length, plate.Width, plate.Height = 40, 30, 8
window = document.addObject("Part::Box", "Window")
window.Length, window.Width, window.Height = 10, 10, 8
window.Placement.Base = FreeCAD.Vector(15, 10, 0)
cut = document.addObject("Part::Cut", "Plate")
cut.Base, cut.Tool = plate, window
pin = document.addObject("Part::Prism", "Pin")
pin.Polygon, pin.Circumradius, pin.Height = 6, 4, 20
pin.Placement.Base = FreeCAD.Vector(60, 15, 0)
document.recompute()
Mesh.export([cut, pin], "freecad.obj")
