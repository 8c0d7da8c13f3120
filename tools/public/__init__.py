"""The parts of tools/publics.py."""
