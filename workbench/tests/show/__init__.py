"""Tests of `./staat-cad show`: pages in Chromium, and glTF files in two other programs."""
