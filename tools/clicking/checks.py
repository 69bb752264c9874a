"""Counts what was seen."""


class Checks:
    """Counts what was seen, and says what was not as it should be."""

    def __init__(self):
        self.passed = self.failed = 0

    def see(self, what, holds):
        self.passed += bool(holds)
        self.failed += not holds
        if not holds:
            print(f"FAILED: {what}", flush=True)

    def same(self, what, given, wanted):
        """That something is as it should be, or else what it is."""
        self.see(what if given == wanted else f"{what}: {given!r}, wanted: {wanted!r}", given == wanted)
