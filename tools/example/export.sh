#!/bin/sh
# Exports each convex piece of the pencil box as a mesh: sh tools/example/export.sh FOLDER [options of openscad]
# A part of several pieces becomes a folder, a part of one piece a file.
set -eu
here=$(CDPATH= cd -- "$(dirname -- "$0")" && pwd)
out=$1
shift
for piece in box/floor box/west-low box/west-high box/south-low box/north-low box/south-high box/north-high \
    box/east-low box/east-inner box/east-outer box/east-south box/east-north \
    lid/west lid/east lid/south lid/north pin/shaft pin/head pencil; do
    mkdir -p "$out/$(dirname "$piece")"
    openscad -q -D "piece=\"$piece\"" "$@" -o "$out/$piece.stl" "$here/pencil-box.scad"
done
