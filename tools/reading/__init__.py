"""The parts of tools/reference.py, by subject."""
