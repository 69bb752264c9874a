"""The parts of tools/explore."""
