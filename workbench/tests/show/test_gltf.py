"""The glTF files of all products of the gallery, read by assimp and by Blender: names, places, key frames."""
from __future__ import annotations

import json
import os
import subprocess
import unittest
from typing import Any, Dict, List, Sequence

from workbench.reading.lists import read_list
from workbench.show.command import PRODUCT
from workbench.show.gltf import times

from . import kit

BLENDER = os.path.join(os.path.dirname(os.path.abspath(__file__)), "in_blender.py")


def names(name: str) -> List[str]:
    return [part.name for part in read_list(os.path.join(kit.TOP, kit.listed(name)))]


def frames(name: str) -> Dict[str, List[List[float]]]:
    """For each part that is moved where it is when each step begins and ends."""
    rows = kit.said(name).places() if not kit.said(name).stuck else []
    found = {}
    for part, called in enumerate(names(name)):
        at = [list(map(float, row[part])) for row in rows]
        if any(map(any, at)):
            found[called] = [place for pair in zip(at, at[1:]) for place in pair]
    return found


class Gltf(unittest.TestCase):
    def test_assimp_finds_names_and_key_frames(self) -> None:
        for name in kit.products():
            with self.subTest(name):
                told = kit.by_assimp(os.path.join(kit.folder(name), PRODUCT))
                nodes = told["rootnode"]["children"]
                self.assertEqual(sorted(node["name"] for node in nodes), sorted(names(name)))
                self.assertTrue(all(len(node["meshes"]) == 1 for node in nodes))
                self.keyed(name, told.get("animations", []))

    def keyed(self, name: str, animations: List[Dict[str, Any]]) -> None:
        wanted = frames(name)
        found = {
            channel["name"]: [
                [float(number) for number in key[1]] for key in channel["positionkeys"]
            ]
            for animation in animations
            for channel in animation["channels"]
        }
        self.assertEqual(found, wanted)
        for animation in animations:
            clock = [1000 * at for at in times(len(kit.said(name).moves))]
            for channel in animation["channels"]:
                self.assertEqual([key[0] for key in channel["positionkeys"]], clock)

    def test_blender_finds_names_and_key_frames(self) -> None:
        files = [os.path.join(kit.folder(name), PRODUCT) for name in kit.products()]
        for name, told in zip(kit.products(), self.by_blender(files)):
            with self.subTest(name):
                self.assertEqual(sorted(told), sorted(names(name)))
                wanted = {
                    part: [[x, -z, y] for x, y, z in places]  # Blender's axes
                    for part, places in frames(name).items()
                }
                self.assertEqual({part: rows for part, rows in told.items() if rows}, wanted)

    def by_blender(self, files: Sequence[str]) -> List[Dict[str, Any]]:
        """For each file the key frames of each object that has a mesh, in Blender's axes."""
        words = [
            "blender",
            "-b",
            "--factory-startup",
            "--python-exit-code",
            "3",
            "--python",
            BLENDER,
        ]
        done = subprocess.run([*words, "--", *files], capture_output=True, text=True, check=False)
        self.assertEqual(done.returncode, 0, done.stdout + done.stderr)
        lines = [line for line in done.stdout.splitlines() if line.startswith("read ")]
        self.assertEqual(len(lines), len(files))
        return [json.loads(line.partition(" ")[2]) for line in lines]
