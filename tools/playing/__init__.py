"""The parts of tools/check-uci."""
