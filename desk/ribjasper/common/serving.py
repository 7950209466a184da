"""A server of one page, for this machine only: it listens on 127.0.0.1 at a free port, its address has a secret token,
and it refuses requests of other pages and for other hosts."""
import hmac
import http.server
import json
import re
import secrets
import threading
from pathlib import Path
from typing import Any, BinaryIO, Callable, NamedTuple
from urllib.parse import parse_qsl, urlsplit

from .failures import Failure, failure_of

HOST = "127.0.0.1"
# The greatest size of a request, and the size of the pieces in which a file is sent.
MOST_SENT, AT_ONCE = 1 << 22, 1 << 16
RANGE = re.compile(r"bytes=(\d*)-(\d*)")
# The policy for pages of this server: they load nothing from elsewhere, and do not send their addresses to others.
HEADERS = {
    "Cache-Control": "no-store",
    "Content-Security-Policy": "default-src 'self'; img-src 'self' data:; script-src 'self' 'wasm-unsafe-eval'; base-uri 'none'; "
    "form-action 'none'; frame-ancestors 'none'",
    "Cross-Origin-Opener-Policy": "same-origin",
    "Cross-Origin-Resource-Policy": "same-origin",
    "Referrer-Policy": "no-referrer",
    "X-Content-Type-Options": "nosniff",
}


class Answer(NamedTuple):
    """An answer: bytes, or a file from a place on; its media type; and the status."""

    content: bytes | Path
    kind: str = "application/json"
    status: int = 200
    first: int = 0
    size: int | None = None


class Asked(NamedTuple):
    """A request: its path after the token, its query, and for a change its table."""

    path: str
    query: dict[str, str]
    table: dict[str, Any] | None


Site = Callable[[Asked], Answer | None]


def as_json(value: object, status: int = 200) -> Answer:
    return Answer(json.dumps(value).encode(), status=status)


class Server(http.server.ThreadingHTTPServer):
    """Serves a site until `shutdown`."""

    daemon_threads = True

    def __init__(self, site: Site) -> None:
        self.site, self.token = site, secrets.token_urlsafe(24)
        super().__init__((HOST, 0), Handler)

    @property
    def host(self) -> str:
        return f"{HOST}:{self.server_address[1]}"

    @property
    def address(self) -> str:
        return f"http://{self.host}/{self.token}/"

    def end(self) -> None:
        """Ends serving after the current request is answered."""
        threading.Thread(target=self.shutdown, daemon=True).start()

    def handle_error(self, request: object, client_address: object) -> None:
        """Ignores a browser that disconnects."""


class Handler(http.server.BaseHTTPRequestHandler):
    protocol_version = "HTTP/1.1"
    server_version, sys_version = "ribjasper-desk", ""
    server: Server

    def log_message(self, format: str, *args: object) -> None:
        """Nothing is printed for each request."""

    def do_GET(self) -> None:
        self.serve(None)

    def do_POST(self) -> None:
        if why := self.against():
            # The body of the request was not read, so the connection cannot be used again.
            self.close_connection = True
            self.send(why)
            return
        table = self.table()
        if isinstance(table, Answer):
            self.close_connection = True
            self.send(table)
        else:
            self.serve(table)

    def table(self) -> dict[str, Any] | Answer:
        """The table in a request, or the reason why it is refused."""
        length = self.headers.get("Content-Length", "")
        if not (length.isascii() and length.isdigit()) or int(length) > MOST_SENT:
            return as_json({"error": "a request must have a Content-Length of at most 4 MB"}, 413)
        if self.headers.get_content_type() != "application/json":
            return as_json({"error": "the request must be JSON"}, 415)
        try:
            found = json.loads(self.rfile.read(int(length)))
        except (ValueError, RecursionError):
            found = None
        return found if isinstance(found, dict) else as_json({"error": "the request must be a JSON object"}, 400)

    def against(self) -> Answer | None:
        """Why a request is refused: it is for another host, comes from another page, or has no token."""
        if self.headers.get_all("Host") != [self.server.host]:
            return as_json({"error": "another host"}, 403)
        if any(origin != f"http://{self.server.host}" for origin in self.headers.get_all("Origin", [])):
            return as_json({"error": "another origin"}, 403)
        if self.headers.get("Sec-Fetch-Site", "none") not in ("none", "same-origin"):
            return as_json({"error": "another site"}, 403)
        token = urlsplit(self.path).path.split("/")[1:2]
        if not hmac.compare_digest("".join(token).encode(), self.server.token.encode()):
            return as_json({"error": "the address has no token"}, 403)
        return None

    def serve(self, table: dict[str, Any] | None) -> None:
        if why := self.against():
            self.send(why)
            return
        found = urlsplit(self.path)
        path = found.path.removeprefix(f"/{self.server.token}").removeprefix("/")
        try:
            answer = self.server.site(Asked(path, dict(parse_qsl(found.query)), table))
        except Failure as failure:
            answer = as_json({"error": "; ".join(failure.lines)}, 409)
        except Exception as error:
            answer = as_json({"error": "; ".join(failure_of(error, f"/{path}").lines)}, 500)
        self.send(answer or as_json({"error": "no page or file has this name"}, 404))

    def send(self, answer: Answer) -> None:
        if isinstance(answer.content, Path):
            self.send_file(answer, answer.content)
            return
        self.head(answer.status, answer.kind, len(answer.content))
        self.wfile.write(answer.content)

    def head(self, status: int, kind: str, size: int, **more: str) -> None:
        self.send_response(status)
        for name, value in {**HEADERS, "Content-Type": kind, "Content-Length": str(size), **more}.items():
            self.send_header(name.replace("_", "-"), value)
        if self.close_connection:
            self.send_header("Connection", "close")
        self.end_headers()

    def send_file(self, answer: Answer, path: Path) -> None:
        """Sends a file, or the requested part of it."""
        with open(path, "rb") as file:
            size = file.seek(0, 2) - answer.first if answer.size is None else answer.size
            wanted = RANGE.fullmatch(self.headers.get("Range", ""))
            first, last = part_of(wanted[1], wanted[2], size) if wanted else (0, size - 1)
            if first > last:
                self.head(416, answer.kind, 0, Content_Range=f"bytes */{size}")
                return
            more = {"Content_Range": f"bytes {first}-{last}/{size}"} if wanted else {}
            self.head(206 if wanted else 200, answer.kind, last + 1 - first, Accept_Ranges="bytes", **more)
            file.seek(answer.first + first)
            self.copy(file, last + 1 - first)

    def copy(self, file: BinaryIO, left: int) -> None:
        while left and (content := file.read(min(left, AT_ONCE))):
            self.wfile.write(content)
            left -= len(content)


def part_of(first: str, last: str, size: int) -> tuple[int, int]:
    """The first and the last byte of a requested part."""
    if not first:
        return (max(0, size - int(last)), size - 1) if last else (0, size - 1)
    return int(first), min(size - 1, int(last) if last else size - 1)
