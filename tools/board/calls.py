"""Calls of the programs: words as a list and never through a shell, few at once, each for a bounded
time, and what was answered is kept."""

import collections
import concurrent.futures
import os
import signal
import subprocess
import sys
import threading

AT_ONCE = min(4, os.cpu_count() or 1)
LONGEST = 20  # seconds that one question may take
KEPT = 20_000  # answers
KEPT_TEXT = 20_000_000  # characters of all that are kept
# A call leads a group of processes, so what it has started ends with it.
OWN_GROUP = {"process_group": 0} if sys.version_info >= (3, 11) else {"start_new_session": True}


class NotBuilt(Exception):
    """A program that is not there."""

    def __init__(self, name):
        super().__init__(f"the program {name} is not built; the first call of ./{name} builds it")


class Answer:
    """What a call printed, and its status; None where it was stuck and was ended."""

    def __init__(self, status, text):
        self.status = status
        self.text = text

    @property
    def lines(self):
        return self.text.splitlines()


class Calls:
    """The programs by their names, asked one question a call: the first word names the program."""

    def __init__(self, programs):
        self.programs = programs
        self.pool = concurrent.futures.ThreadPoolExecutor(AT_ONCE)
        self.places = threading.BoundedSemaphore(AT_ONCE)
        self.lock = threading.Lock()
        self.kept = collections.OrderedDict()
        self.length = 0
        self.age = 0
        self.children = set()

    def ask(self, *words, seconds=None):
        """The answer to these words, kept or new, within so many seconds."""
        with self.lock:
            age = self.age
            if words in self.kept:
                self.kept.move_to_end(words)
                return self.kept[words]
        with self.places:
            answer = self.call(words, seconds or LONGEST)
        if answer.status is not None:
            self.keep(words, answer, age)
        return answer

    def ask_all(self, questions):
        """The answers to many questions, some at once."""
        return self.each_of(lambda words: self.ask(*words), questions)

    def each_of(self, task, items):
        """What a task gives for each item, some at once. The task itself does not come back here."""
        return list(self.pool.map(task, items))

    def call(self, words, seconds):
        try:
            child = self.start(*words)
        except NotBuilt as why:
            return Answer(None, str(why))
        except (OSError, ValueError) as fault:
            return Answer(None, f"the program cannot be asked: {fault}")
        try:
            printed = child.communicate(timeout=seconds)[0]
        except subprocess.TimeoutExpired:
            end(child)
            child.communicate()
            return Answer(None, "no answer in time")
        finally:
            self.children.discard(child)
        return Answer(child.returncode, printed.decode("utf-8", "replace"))

    def keep(self, words, answer, age):
        with self.lock:
            if words in self.kept or age != self.age:
                return
            self.kept[words] = answer
            self.length += len(answer.text)
            while len(self.kept) > KEPT or self.length > KEPT_TEXT:
                self.length -= len(self.kept.popitem(last=False)[1].text)

    def forget(self):
        """Drops the answers, as the files that they are about were written anew."""
        with self.lock:
            self.kept.clear()
            self.length = 0
            self.age += 1

    def start(self, *words, files=(), stdin=subprocess.DEVNULL):
        """A call that may take long, for who waits for it or ends it. It has these open files too."""
        try:
            child = subprocess.Popen(
                [self.programs[words[0]], *words[1:]],
                stdin=stdin,
                stdout=subprocess.PIPE,
                stderr=subprocess.DEVNULL,
                pass_fds=files,
                **OWN_GROUP,
            )
        except FileNotFoundError as fault:
            raise NotBuilt(words[0]) from fault
        self.children.add(child)
        return child

    def stop(self):
        """Ends all calls."""
        for child in list(self.children):
            end(child)


def end(child):
    """Ends a call and all that it has started."""
    if child.poll() is None:
        os.killpg(child.pid, signal.SIGKILL)
