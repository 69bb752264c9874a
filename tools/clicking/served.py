"""tools/explore at work for a test: programs that write down their calls, tables, and the server."""

import http.client
import os
import stat
import subprocess
import urllib.parse

from .page import Page

TOOLS = os.path.dirname(os.path.dirname(os.path.abspath(__file__)))
EXAMPLES = os.path.join(os.path.dirname(TOOLS), "examples")
# Writes down its words, waits where it shall be slow, and asks the program.
COUNTED = """#!/bin/sh
echo "$*" >> '{folder}/calls'
[ ! -e '{folder}/slow' ] || case "$1" in report | premises) sleep 100 ;; esac
exec '{program}' "$@"
"""


class Programs:
    """The programs, and those in a folder that write down each call before they answer."""

    def __init__(self, folder, freezer, atlas):
        self.folder = folder
        self.freezer, self.atlas = os.path.abspath(freezer), os.path.abspath(atlas)

    def counted(self, name):
        path = os.path.join(self.folder, name)
        with open(path, "w") as file:
            file.write(COUNTED.format(folder=self.folder, program=getattr(self, name)))
        os.chmod(path, stat.S_IRWXU)
        return path

    def calls(self):
        """The commands of all calls so far."""
        try:
            with open(os.path.join(self.folder, "calls")) as file:
                return [line.split()[0] for line in file]
        except FileNotFoundError:
            return []

    def forget_calls(self):
        open(os.path.join(self.folder, "calls"), "w").close()

    def be_slow(self, slow):
        path = os.path.join(self.folder, "slow")
        if slow:
            open(path, "w").close()
        else:
            os.remove(path)

    def text(self, name, text):
        """A rules text of its own in the folder."""
        with open(os.path.join(self.folder, name), "w") as file:
            file.write(text)
        return os.path.join(self.folder, name)

    def build(self, program, text, *backs):
        """A table of a text, or of one of examples/, over others by `atlas`."""
        table = os.path.join(self.folder, os.path.basename(text).removeprefix("corner_") + ".t")
        self.run(program, "build", os.path.join(EXAMPLES, text), table, *backs)
        return table

    def run(self, *words):
        subprocess.run(words, check=True, stdout=subprocess.DEVNULL)


class Served:
    """The page of some tables, served and open in a browser."""

    def __init__(self, programs, *tables):
        self.programs = programs
        words = [os.path.join(TOOLS, "explore"), *tables, "--no-browser",
                 "--program", programs.counted("freezer"), "--atlas", programs.counted("atlas")]
        self.server = subprocess.Popen(words, stdout=subprocess.PIPE, text=True)
        self.address = self.server.stdout.readline().strip()
        self.page = None

    def __enter__(self):
        try:
            self.page = Page(self.address, self.programs.folder)
        except Exception:
            self.end()
            raise
        return self.page

    def __exit__(self, *_):
        self.page.driver.quit()
        self.end()

    def end(self):
        self.server.terminate()
        self.server.wait()

    def status(self, question="position?fen=x", host=None, token=None, method="GET"):
        """The status that a stranger's question gets."""
        parts = urllib.parse.urlsplit(self.address)
        connection = http.client.HTTPConnection(parts.hostname, parts.port)
        path = parts.path if token is None else f"/{token}/"
        connection.request(method, path + question, headers={"Host": host} if host else {})
        return connection.getresponse().status
