"""Run by Blender: prints of each glTF file the key frames of each object that has a mesh, a line for each file."""
import importlib
import json
import sys
from typing import Any, List

import numpy

setattr(
    numpy, "bool", bool
)  # the importer of Debian's Blender asks numpy for a name that it has no more
bpy: Any = importlib.import_module("bpy")


def frames_of(thing: Any) -> List[List[float]]:
    """Where an object is at each of its key frames; none where it does not move."""
    tracks = thing.animation_data.nla_tracks if thing.animation_data else []
    actions = [strip.action for track in tracks for strip in track.strips]
    if thing.animation_data and thing.animation_data.action:
        actions = [thing.animation_data.action]
    curves = [
        curve for action in actions for curve in action.fcurves if curve.data_path == "location"
    ]
    columns = [[key.co[1] for key in curve.keyframe_points] for curve in curves]
    return [list(row) for row in zip(*columns)]


for path in sys.argv[sys.argv.index("--") + 1 :]:
    bpy.ops.wm.read_factory_settings(use_empty=True)
    bpy.ops.import_scene.gltf(filepath=path)
    told = {thing.name: frames_of(thing) for thing in bpy.data.objects if thing.type == "MESH"}
    print("read", json.dumps(told))
