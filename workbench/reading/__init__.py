"""Reading models, by formats."""
