"""The parts of tools/uci."""
