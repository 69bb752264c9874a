"""The page and its answers, served to this machine alone."""

import hmac
import http.server
import json
import os
import secrets
import threading
import urllib.parse

from .answers import is_word
from .bounds import SIDES

PAGE = os.path.join(os.path.dirname(os.path.abspath(__file__)), "page")
SCRIPTS = (
    "ask", "men", "board", "hand", "tree", "game", "pgn", "save", "keep", "moves", "ways", "rules", "course", "premises",
    "report", "page",
)
FILES = {
    "": ("index.html", "text/html"),
    "page.css": ("page.css", "text/css"),
    **{f"{name}.js": (f"{name}.js", "text/javascript") for name in SCRIPTS},
}
LONGEST_PATH = 2_000
CONNECTIONS = 32  # each has one request at a time
SILENCE = 30  # seconds after which a connection is dropped
HEADERS = {
    "Cache-Control": "no-store",
    "Content-Security-Policy": "default-src 'none'; script-src 'self'; style-src 'self'; "
    "connect-src 'self'; frame-ancestors 'none'; base-uri 'none'; form-action 'none'",
    "Referrer-Policy": "no-referrer",
    "X-Content-Type-Options": "nosniff",
}


class Server(http.server.ThreadingHTTPServer):
    """A server on 127.0.0.1, whose address has a random token."""

    daemon_threads = True

    def __init__(self, answers, port):
        super().__init__(("127.0.0.1", port), Handler)
        self.answers = answers
        self.token = secrets.token_urlsafe(24)
        self.places = threading.BoundedSemaphore(CONNECTIONS)

    @property
    def host(self):
        return f"127.0.0.1:{self.server_address[1]}"

    @property
    def address(self):
        return f"http://{self.host}/{self.token}/"

    def process_request(self, request, client_address):
        if self.places.acquire(blocking=False):
            super().process_request(request, client_address)
        else:
            self.shutdown_request(request)

    def process_request_thread(self, request, client_address):
        try:
            super().process_request_thread(request, client_address)
        finally:
            self.places.release()

    def handle_error(self, request, client_address):
        """Says nothing of a connection that broke."""


class Handler(http.server.BaseHTTPRequestHandler):
    """One request: a file of the page, or a question."""

    protocol_version = "HTTP/1.1"
    timeout = SILENCE
    server_version = "explore"
    sys_version = ""

    def do_GET(self):
        try:
            self.answer()
        except (LookupError, ValueError, AttributeError):
            self.send_text(500, "the program's answer was not understood")

    def answer(self):
        if self.headers.get("Host") != self.server.host or len(self.path) > LONGEST_PATH:
            self.send_text(403, "not for this host")
            return
        parts = urllib.parse.urlsplit(self.path)
        token, _, name = parts.path.lstrip("/").partition("/")
        if not hmac.compare_digest(token.encode(), self.server.token.encode()):
            self.send_text(403, "no such token")
        elif name in FILES:
            self.send_file(*FILES[name])
        else:
            self.send_answer(name, urllib.parse.parse_qs(parts.query))

    def send_answer(self, name, asked):
        answers = self.server.answers
        fen, san, side = (asked.get(key, [""])[0] for key in ("fen", "san", "side"))
        wrong = answers.refresh()
        if wrong:
            self.send_text(500, wrong)
        elif name == "tables":
            self.send_json(answers.shown())
        elif name == "position" and is_word(fen) and is_word(san):
            self.send_json(answers.position(fen, san))
        elif name == "after" and is_word(fen) and is_word(san):
            self.send_json(answers.after(fen, san))
        elif name in ("line", "why") and is_word(fen) and side in SIDES:
            self.send_json(getattr(answers.walks, name)(fen, side))
        elif name.partition("/")[0] in answers.courses and name.partition("/")[2] in ("", "start", "stop"):
            self.send_json(answers.course(*name.partition("/")[::2]))
        else:
            self.send_text(404, "no such question")

    def send_file(self, name, kind):
        with open(os.path.join(PAGE, name), "rb") as file:
            self.send(200, kind, file.read())

    def send_json(self, value):
        self.send(200, "application/json", json.dumps(value).encode())

    def send_text(self, status, text):
        self.send(status, "text/plain", text.encode())

    def send(self, status, kind, content):
        self.send_response(status)
        for name, value in HEADERS.items():
            self.send_header(name, value)
        self.send_header("Content-Type", f"{kind}; charset=utf-8")
        self.send_header("Content-Length", str(len(content)))
        self.end_headers()
        self.wfile.write(content)

    def log_message(self, *_):
        """Says nothing of each request."""
