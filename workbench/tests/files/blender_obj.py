"""Makes blender.obj and blender-old.obj, run by Blender in the folder where they are to stand:

blender --background --factory-startup --python blender_obj.py

A cube with a notch and a cylinder of 16 sides beside it, by the two exporters that Blender 3.4 has.
"""
import numpy

setattr(numpy, "bool", bool)  # the add-on for OBJ of Debian's Blender asks for it

import bpy  # noqa: E402  (it reads the line above)

cube = bpy.data.objects["Cube"]
bpy.ops.mesh.primitive_cube_add(size=1.0, location=(1.0, 0.0, 1.0))
notch = bpy.context.object
change = cube.modifiers.new("notch", "BOOLEAN")
change.object, change.operation = notch, "DIFFERENCE"
bpy.context.view_layer.objects.active = cube
bpy.ops.object.modifier_apply(modifier="notch")
bpy.data.objects.remove(notch)
bpy.ops.mesh.primitive_cylinder_add(vertices=16, radius=0.5, depth=2.0, location=(4.0, 0.0, 0.0))
bpy.context.object.name = "Pin"
bpy.ops.wm.obj_export(filepath="blender.obj", export_selected_objects=False)
bpy.ops.export_scene.obj(filepath="blender-old.obj", use_selection=False)
