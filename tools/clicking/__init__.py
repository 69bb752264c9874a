"""The parts of tools/click-explore."""
