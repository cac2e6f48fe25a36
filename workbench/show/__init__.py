"""A plan to be looked at: a page, a glTF file and a strip of pictures, from one scene."""
