"""The product as one file of glTF 2.0 (.glb): a node with its name for each part, and one animation for all steps."""
from __future__ import annotations

import json
import struct
from dataclasses import dataclass, field
from typing import Any, Dict, List, Sequence

import numpy

from .plans import Vector
from .scene import Part, triangles

FLOAT = 5126
ARRAY_BUFFER = 34962
MAGIC, JSON_CHUNK, BINARY_CHUNK = 0x46546C67, 0x4E4F534A, 0x004E4942
STEP = 1.0  # seconds that a step takes
REST = 0.25  # seconds between two steps
UPRIGHT = [-(0.5**0.5), 0.0, 0.0, 0.5**0.5]  # z upwards becomes y upwards


@dataclass
class Buffer:
    """The binary part of the file, with what is said of it."""

    data: bytearray = field(default_factory=bytearray)
    views: List[Dict[str, Any]] = field(default_factory=list)
    accessors: List[Dict[str, Any]] = field(default_factory=list)

    def add(self, rows: numpy.ndarray, kind: str, target: int = 0, bounded: bool = False) -> int:
        """Adds an array of numbers; the number of its accessor."""
        values = numpy.ascontiguousarray(rows, dtype="<f4")
        view = {
            "buffer": 0,
            "byteOffset": len(self.data),
            "byteLength": values.nbytes,
        }
        self.views.append({**view, "target": target} if target else view)
        self.data += values.tobytes()
        accessor: Dict[str, Any] = {
            "bufferView": len(self.views) - 1,
            "componentType": FLOAT,
            "count": len(values),
            "type": kind,
        }
        if bounded:
            flat = values.reshape(len(values), -1)
            accessor["min"] = flat.min(axis=0).tolist()
            accessor["max"] = flat.max(axis=0).tolist()
        self.accessors.append(accessor)
        return len(self.accessors) - 1


def glb(parts: Sequence[Part], rows: Sequence[Sequence[Vector]], title: str, scale: float) -> bytes:
    """The file.

    rows: where the parts stand before the first step, and after each
    scale: metres in a step of the grid
    """
    buffer = Buffer()
    meshes = [mesh_of(part, number, buffer) for number, part in enumerate(parts)]
    many = len(parts)
    root = {
        "name": title,
        "rotation": UPRIGHT,
        "scale": [scale] * 3,
        "children": list(range(many)),
    }
    animations = animation_of(rows, buffer)
    told: Dict[str, Any] = {
        "asset": {"version": "2.0", "generator": "staat-cad"},
        "scene": 0,
        "scenes": [{"name": title, "nodes": [many]}],
        "nodes": [{"name": part.name, "mesh": k} for k, part in enumerate(parts)] + [root],
        "meshes": meshes,
        "materials": [material_of(part) for part in parts],
        "accessors": buffer.accessors,
        "bufferViews": buffer.views,
        "buffers": [{"byteLength": len(buffer.data)}],
    }
    if animations["channels"]:
        told["animations"] = [animations]
    return packed(json.dumps(told, ensure_ascii=False).encode(), bytes(buffer.data))


def mesh_of(part: Part, number: int, buffer: Buffer) -> Dict[str, Any]:
    """The triangles of a part's surface in the model, else of its pieces, each corner with the normal of its face."""
    corners, normals = triangles(part.drawn or part.surface)
    attributes = {
        "POSITION": buffer.add(corners.reshape(-1, 3), "VEC3", ARRAY_BUFFER, bounded=True),
        "NORMAL": buffer.add(normals.repeat(3, axis=0), "VEC3", ARRAY_BUFFER),
    }
    return {"name": part.name, "primitives": [{"attributes": attributes, "material": number}]}


def material_of(part: Part) -> Dict[str, Any]:
    """The colour of a part, which glTF wants in linear light."""
    channels = [int(part.colour[k : k + 2], 16) / 255 for k in (1, 3, 5)]
    linear = [c / 12.92 if c <= 0.04045 else ((c + 0.055) / 1.055) ** 2.4 for c in channels]
    surface = {"baseColorFactor": [*linear, 1.0], "metallicFactor": 0.0, "roughnessFactor": 0.7}
    return {"name": part.name, "pbrMetallicRoughness": surface}


def times(many: int) -> List[float]:
    """When each of so many steps begins and ends, in seconds."""
    return [
        at for step in range(many) for at in (step * (STEP + REST), step * (STEP + REST) + STEP)
    ]


def animation_of(rows: Sequence[Sequence[Vector]], buffer: Buffer) -> Dict[str, Any]:
    """The key frames of the parts that are moved."""
    samplers: List[Dict[str, Any]] = []
    channels: List[Dict[str, Any]] = []
    many = len(rows) - 1
    for part, last in enumerate(rows[-1]):
        at = [row[part] for row in rows]
        if not any(map(any, at)):
            continue
        if not samplers:
            clock = buffer.add(numpy.array(times(many)), "SCALAR", bounded=True)
        frames = [place for step in range(many) for place in (at[step], at[step + 1])]
        assert frames[-1] == last
        moved = buffer.add(numpy.array(frames, dtype=float), "VEC3")
        samplers.append({"input": clock, "output": moved, "interpolation": "LINEAR"})
        channels.append(
            {"sampler": len(samplers) - 1, "target": {"node": part, "path": "translation"}}
        )
    return {"name": "taken apart", "samplers": samplers, "channels": channels}


def packed(told: bytes, data: bytes) -> bytes:
    """Both chunks behind the header."""
    told += b" " * (-len(told) % 4)
    data += b"\0" * (-len(data) % 4)
    return b"".join(
        (
            struct.pack("<III", MAGIC, 2, 12 + 8 + len(told) + 8 + len(data)),
            struct.pack("<II", len(told), JSON_CHUNK),
            told,
            struct.pack("<II", len(data), BINARY_CHUNK),
            data,
        )
    )
