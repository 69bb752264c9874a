"""A call that goes over whole sets and may take minutes: begun and stopped by the page, its lines read as
they come."""

import threading
import time

from .calls import NotBuilt, end

SILENCE = 300  # seconds without a question, after which a course is ended
MOST_BEHIND = 16


class Course:
    """One course: not begun, running, stopped, refused, or done, with what it has said so far. What its
    lines say, and the words that ask for it, are a matter of its kind."""

    def __init__(self, calls, tables):
        self.calls = calls
        self.heads = tables.heads
        self.lock = threading.Lock()
        self.child = None
        self.state = "none"
        self.begun = self.heard = 0
        self.last = ""
        self.clear()

    def can(self):
        """Whether there is a command that tells it."""
        raise NotImplementedError

    def begin(self):
        """The call, which has just been made."""
        raise NotImplementedError

    def clear(self):
        """Drops what was said."""
        raise NotImplementedError

    def hear(self, line):
        """Takes a line of the program."""
        raise NotImplementedError

    def told(self):
        """What the page is told of what was said."""
        raise NotImplementedError

    def start(self):
        with self.lock:
            if not self.can() or self.state in ("running", "done"):
                return
            self.clear()
            self.begun = self.heard = time.monotonic()
            try:
                self.child = self.begin()
            except NotBuilt as why:
                self.state, self.last = "refused", str(why)
                return
            except (OSError, ValueError) as fault:
                self.state, self.last = "refused", f"the program cannot be asked: {fault}"
                return
            self.state, self.last = "running", ""
        for task in (self.read, self.watch):
            threading.Thread(target=task, args=(self.child,), daemon=True).start()

    def stop(self):
        with self.lock:
            if self.state == "running":
                self.state = "stopped"
                end(self.child)

    def read(self, child):
        """Takes the lines of the program as they come, and says how it has ended."""
        for line in child.stdout:
            with self.lock:
                if self.is_of(child):
                    self.last = line.decode("utf-8", "replace").rstrip("\n")
                    self.hear(self.last)
        status = child.wait()
        child.stdout.close()
        self.calls.children.discard(child)
        with self.lock:
            if self.is_of(child):
                self.state = "done" if status == 0 else "refused"

    def is_of(self, child):
        """Whether the course runs by this call, and not by a later one."""
        return self.state == "running" and self.child is child

    def watch(self, child):
        """Ends a course that nobody asks about any more."""
        while child.poll() is None:
            if time.monotonic() - self.heard > SILENCE:
                self.stop()
            time.sleep(1)

    def shown(self):
        """What the page is told: how far it is, its last line, and what it has said so far."""
        with self.lock:
            self.heard = time.monotonic()
            how_far = {
                "can": self.can(),
                "state": self.state,
                "seconds": int(self.heard - self.begun),
                "last": self.last,
            }
            return {**how_far, **self.told()}
