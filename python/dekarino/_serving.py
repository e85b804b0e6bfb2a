"""The page of `serve`: a server on the loopback address that answers only its own page."""
import contextlib
import hmac
import http.server
import json
import secrets
import signal
import sys
import threading
from typing import Any, Callable, Dict, Iterator, List, Optional, Tuple

from ._gathering import Programs, Source, Undecided, gather
from ._page import page

# The maximum bytes of a request, connections at once, and seconds without a byte; and the bounds of programs.
MOST_BYTES = 4 * 2**20
MOST_CONNECTIONS = 16
IDLE_SECONDS = 10
PROGRAMS, PROGRAM_SECONDS, STATES = 4, 5.0, 1_000

CONFIG = b"""partition = [
    { name = "FMS", port = [{ name = "NAV_OUT", kind = "queuing", direction = "source", channel = "NAV" }] },
    { name = "DSP", port = [{ name = "NAV_IN", kind = "queuing", direction = "destination", channel = "NAV" }] },
]
channel = [{ name = "NAV", kind = "queuing", size = 4, depth = 2 }]
"""
TRACE = b"""10 FMS create-queuing NAV_OUT 4 2 0 0
20 DSP create-queuing NAV_IN 4 2 1 0
30 FMS send 1 0a0b
40 DSP receive 1
50 DSP receive 1
60 FMS send 1 0102030405
"""


class Refused(Exception):
    """A refused request: its status, and why."""


class Server(http.server.ThreadingHTTPServer):
    """Serves one page at an address that has a token."""

    daemon_threads = True
    request_queue_size = MOST_CONNECTIONS

    def __init__(self, port: int, config: Source, run: Source) -> None:
        super().__init__(("127.0.0.1", port), Handler)
        self.token = secrets.token_urlsafe(24)
        self.hosts = [f"{name}:{self.server_port}" for name in ("127.0.0.1", "localhost")]
        self.programs = Programs(PROGRAMS, PROGRAM_SECONDS)
        self.program = self.programs.described()
        self.given = {"config": config, "run": run}
        self.connections = threading.BoundedSemaphore(MOST_CONNECTIONS)

    @property
    def address(self) -> str:
        return f"http://{self.hosts[0]}/{self.token}/"

    def process_request(self, request: Any, client_address: Any) -> None:
        if self.connections.acquire(blocking=False):
            super().process_request(request, client_address)
        else:
            self.shutdown_request(request)

    def process_request_thread(self, request: Any, client_address: Any) -> None:
        try:
            super().process_request_thread(request, client_address)
        finally:
            self.connections.release()

    def handle_error(self, request: Any, client_address: Any) -> None:
        """A browser that closes the connection early isn't reported."""
        if not isinstance(sys.exc_info()[1], OSError):
            super().handle_error(request, client_address)

    def shown(self, config: Source, run: Source) -> Dict[str, Any]:
        """What the page shows of these texts."""
        return {"program": self.program, "live": True, **gather(self.programs, config, [run], STATES)}

    def started(self) -> Dict[str, Any]:
        """What the page shows first, with the text of the trace."""
        config, run = self.given["config"], self.given["run"]
        return {**self.shown(config, run), "text": run.content.decode(errors="replace"), "name": run.name}


class Handler(http.server.BaseHTTPRequestHandler):
    """Answers one connection."""

    server: Server
    timeout = IDLE_SECONDS

    def do_GET(self) -> None:
        self.answer(self.first_page)

    def do_POST(self) -> None:
        self.answer(self.gathered)

    def answer(self, make: Callable[[], Tuple[str, bytes]]) -> None:
        try:
            self.check_sender()
            kind, content = make()
        except Refused as why:
            status, words = why.args
            self.respond(status, "text/plain; charset=utf-8", f"{words}\n".encode())
        else:
            self.respond(200, kind, content)

    def check_sender(self) -> None:
        """Refuses requests that aren't from the page itself."""
        host: List[str] = self.headers.get_all("Host", [])
        origin: List[str] = self.headers.get_all("Origin", [])
        if len(host) != 1 or host[0] not in self.server.hosts:
            raise Refused(403, "the host is another one")
        if origin not in ([], [f"http://{host[0]}"]):
            raise Refused(403, "the origin is another one")
        if self.headers.get("Sec-Fetch-Site", "none") not in ("none", "same-origin"):
            raise Refused(403, "another site asks")

    def check_path(self, name: str) -> None:
        wanted = f"/{self.server.token}/{name}"
        if not hmac.compare_digest(self.path.encode(errors="replace"), wanted.encode()):
            raise Refused(404, "there is nothing here: the address is the one that serve printed")

    def first_page(self) -> Tuple[str, bytes]:
        self.check_path("")
        return "text/html; charset=utf-8", page("Dekarino", self.gathered_of(self.server.started))

    def gathered(self) -> Tuple[str, bytes]:
        self.check_path("run")
        if self.headers.get("Origin") is None or self.headers.get_content_type() != "application/json":
            raise Refused(403, "only the page itself asks this")
        asked = self.body()
        sources = [Source(asked["names"][it], asked[it].encode(errors="replace")) for it in ("config", "run")]
        facts = self.gathered_of(lambda: self.server.shown(*sources))
        return "application/json", json.dumps(facts, separators=(",", ":")).encode()

    def gathered_of(self, make: Callable[[], Dict[str, Any]]) -> Dict[str, Any]:
        try:
            return make()
        except Undecided as why:
            raise Refused(503, f"undecided: {why}") from None

    def body(self) -> Dict[str, Any]:
        """The texts of a request: strings at these keys."""
        length = self.headers.get("Content-Length", "")
        if "Transfer-Encoding" in self.headers or not (length.isascii() and length.isdigit()):
            raise Refused(411, "the length is missing")
        if len(length) > 9 or int(length) > MOST_BYTES:
            raise Refused(413, f"the texts have more than {MOST_BYTES} bytes")
        try:
            asked: Dict[str, Any] = json.loads(self.rfile.read(int(length)))
            names = asked["names"]
            texts = [asked["config"], asked["run"], names["config"], names["run"]]
        except (ValueError, KeyError, TypeError, RecursionError):
            texts = [None]
        if not all(isinstance(text, str) for text in texts):
            raise Refused(400, "these are no texts")
        return asked

    def respond(self, status: int, kind: str, content: bytes) -> None:
        self.send_response(status)
        for name, value in {
            "Content-Type": kind, "Content-Length": str(len(content)), "Cache-Control": "no-store",
            "X-Content-Type-Options": "nosniff", "X-Frame-Options": "DENY", "Referrer-Policy": "no-referrer",
            "Cross-Origin-Resource-Policy": "same-origin", "Cross-Origin-Opener-Policy": "same-origin",
        }.items():
            self.send_header(name, value)
        self.end_headers()
        self.wfile.write(content)

    def version_string(self) -> str:
        return "dekarino"

    def log_message(self, format: str, *args: Any) -> None:
        """Requests are not logged."""


class _Ended(Exception):
    """A signal asked the server to end."""


@contextlib.contextmanager
def _until_signal() -> Iterator[None]:
    """Ctrl-C and the signals that end a program end the block."""
    def end(number: int, frame: Any) -> None:
        raise _Ended

    before = {each: signal.signal(each, end) for each in (signal.SIGINT, signal.SIGTERM, signal.SIGHUP)}
    try:
        yield
    except _Ended:
        pass
    finally:
        for each, was in before.items():
            signal.signal(each, was)


def serve(config: Optional[Source], run: Optional[Source], port: int, say: Callable[[str], None]) -> None:
    """Serves the page until a signal ends it."""
    run = run or Source("trace.txt", b"" if config else TRACE)
    config = config or Source("config.toml", CONFIG)
    with _until_signal(), Server(port, config, run) as server:
        try:
            say(server.address)
            server.serve_forever(poll_interval=0.1)
        finally:
            server.programs.stop()
