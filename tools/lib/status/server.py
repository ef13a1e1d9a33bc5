"""The server: a page, the status document as JSON and in the text format of Prometheus, and the last ten minutes.

It listens at one address, 127.0.0.1 unless another one is asked for, and reads only. It answers requests alone that name
that address, or a name that was given, as their host: a page of elsewhere, whose name leads here, is told nothing. Nor
is a request answered of which a browser says that a page of another site has it made. Requests are bounded in number,
length and time. What it serves everybody can read who reaches that address.
"""
import hashlib
import io
import json
import re
import socket
import socketserver
import threading
import time
from base64 import b64encode
from collections.abc import Callable
from http import HTTPStatus
from http.server import BaseHTTPRequestHandler
from urllib.parse import parse_qs

from status.document import Untold, complete
from status.endpoint import Endpoint
from status.history import EACH_SECONDS, History
from status.metrics import CONTENT_TYPE, metrics_of
from status.names import Names
from status.page import page_text

MOST_CONNECTIONS = 16
MOST_HEAD = 8192
SECONDS = 5.0  # to read a request, to wait for the status, and to write an answer
FRESH_SECONDS = 0.5  # so long an answer serves whoever asks
MOST_PART = 0.02  # of the time is taken by asking for the history, where an access point of many stations answers slowly
END_OF_HEAD = re.compile(rb"\n\r?\n")
ALLOWED = ("GET", "HEAD")
# By this header a browser says who has it make a request (W3C, Fetch Metadata Request Headers): the page itself, or the
# person. It leaves it out where it speaks plain HTTP to another address than its own machine's.
SITE, OWN_SITES = "Sec-Fetch-Site", ("same-origin", "none")
PLAIN, JSON, HTML = "text/plain; charset=utf-8", "application/json", "text/html; charset=utf-8"
# How a browser shall take each answer: from here alone, as what it is called, and kept nowhere.
FIXED_HEADERS = {"Connection": "close", "Cache-Control": "no-store", "X-Content-Type-Options": "nosniff",
                 "Referrer-Policy": "no-referrer", "Cross-Origin-Resource-Policy": "same-origin"}

Request = socket.socket | tuple[bytes, socket.socket]  # what `socketserver` calls a request: here a connection


class Status:
    """Asks for the status document: one thread at a time, and each answer serves those who ask soon after."""

    def __init__(self, ask: Callable[[], dict], names: Names | None) -> None:
        self.ask = ask
        self.names = names
        self.asking = threading.Lock()
        self.told: dict = {}
        self.until = 0.0

    def document(self) -> dict:
        """The document, complete."""
        if not self.asking.acquire(timeout=SECONDS):
            raise Untold("the access point doesn't answer")
        try:
            if time.monotonic() >= self.until:
                names = self.names.look() if self.names else {}
                self.told = complete(self.ask(), time.time(), names)
                self.until = time.monotonic() + FRESH_SECONDS
            return self.told
        finally:
            self.asking.release()


def policy_of(page: str) -> str:
    """The Content-Security-Policy of the page: its own script and style, known by their digests, and nothing else."""
    digests = []
    for name in ("script", "style"):
        inner = page[page.index(f"<{name}>") + len(f"<{name}>"):page.index(f"</{name}>")]
        digests.append(f"{name}-src 'sha256-{b64encode(hashlib.sha256(inner.encode()).digest()).decode()}'")
    return "; ".join(("default-src 'none'", *digests, "connect-src 'self'", "img-src data:", "base-uri 'none'",
                      "form-action 'none'", "frame-ancestors 'none'", "require-trusted-types-for 'script'"))


class Handler(BaseHTTPRequestHandler):
    """Answers one request of a connection."""

    server: "Server"
    protocol_version = default_request_version = "HTTP/1.1"

    def handle(self) -> None:
        """Reads a request, and answers it."""
        head = self.read_head()
        self.rfile = io.BytesIO(head)
        self.raw_requestline = self.rfile.readline()
        self.command, self.requestline, self.request_version = "", "", self.protocol_version
        if len(head) > MOST_HEAD:
            self.send_error(HTTPStatus.REQUEST_HEADER_FIELDS_TOO_LARGE)
        elif self.parse_request():
            self.answer()

    def read_head(self) -> bytes:
        """A request up to its empty line, or longer than any; a TimeoutError where it doesn't come in time."""
        until = time.monotonic() + SECONDS
        head = b""
        while not END_OF_HEAD.search(head) and len(head) <= MOST_HEAD:
            self.connection.settimeout(max(0.001, until - time.monotonic()))
            piece = self.connection.recv(MOST_HEAD)
            if not piece:
                break
            head += piece
        self.connection.settimeout(SECONDS)
        return head

    def answer(self) -> None:
        """Answers a request that was read."""
        hosts: list[str] = self.headers.get_all("Host", [])
        endpoint = self.server.endpoint
        if len(hosts) != 1 or not endpoint.answers(hosts[0].strip()):
            self.send_error(HTTPStatus.MISDIRECTED_REQUEST, f"ask for {' or '.join(endpoint.hosts)}")
        elif any(site.strip() not in OWN_SITES for site in self.headers.get_all(SITE, [])):
            self.send_error(HTTPStatus.FORBIDDEN, "a page of another site asked for this: write the address yourself")
        elif self.command not in ALLOWED:
            self.send_error(HTTPStatus.METHOD_NOT_ALLOWED)
        elif self.path.partition("?")[0] == "/":
            self.send(HTTPStatus.OK, HTML, self.server.page)
        elif self.path.partition("?")[0] == "/history.json":
            self.answer_with_history()
        else:
            self.answer_with_status()

    def answer_with_history(self) -> None:
        """Answers with the last ten minutes of all networks, or of the station that the query names."""
        query = parse_qs(self.path.partition("?")[2])
        bssid, station = (query.get(name, [""])[0].lower() for name in ("bssid", "station"))
        now = time.monotonic()
        history = self.server.history
        told = history.of_station(bssid, station, now) if station else history.document(now)
        if told is None:
            self.send_error(HTTPStatus.NOT_FOUND, f"no station {station} is associated with {bssid}")
        else:
            self.send(HTTPStatus.OK, JSON, json.dumps(told, allow_nan=False))

    def answer_with_status(self) -> None:
        """Answers with the status document in one of its forms, or says why there is none."""
        forms = {"/status.json": (JSON, lambda document: json.dumps(document, allow_nan=False)),
                 "/metrics": (CONTENT_TYPE, lambda document: metrics_of(document, self.server.of_each_station))}
        kind, form = forms.get(self.path.partition("?")[0], (PLAIN, None))
        if form is None:
            self.send_error(HTTPStatus.NOT_FOUND)
            return
        try:
            text = form(self.server.status.document())
        except (KeyError, TypeError, AttributeError, ValueError) as fault:
            self.send_error(HTTPStatus.INTERNAL_SERVER_ERROR, f"the status isn't read: {fault!r}")
        except Exception as fault:  # whatever kept it from being told: whoever looks shall see it
            self.send_error(HTTPStatus.SERVICE_UNAVAILABLE, str(fault) or type(fault).__name__)
        else:
            self.send(HTTPStatus.OK, kind, text)

    def send(self, status: HTTPStatus, kind: str, text: str) -> None:
        """Sends an answer; to HEAD without its text."""
        body = text.encode("utf-8", "replace")
        self.send_response(status)
        allow = {"Allow": ", ".join(ALLOWED)} if status == HTTPStatus.METHOD_NOT_ALLOWED else {}
        for name, value in {"Content-Type": kind, "Content-Length": str(len(body)), **allow, **FIXED_HEADERS,
                            "Content-Security-Policy": self.server.policy}.items():
            self.send_header(name, value)
        self.end_headers()
        if self.command != "HEAD":
            self.wfile.write(body)

    def send_error(self, code: int, message: str | None = None, explain: str | None = None) -> None:
        """Sends a fault, which is one line of text."""
        status = HTTPStatus(code)
        self.send(status, PLAIN, f"{code} {message or explain or status.phrase}\n")

    def version_string(self) -> str:
        """What the header Server says."""
        return "waltigon"

    def log_message(self, *_: object) -> None:
        """Requests aren't told."""


class Server(socketserver.ThreadingTCPServer):
    """A thread for each connection, at most MOST_CONNECTIONS at a time; one more is closed at once."""

    allow_reuse_address = True
    daemon_threads = True
    block_on_close = False
    request_queue_size = MOST_CONNECTIONS

    def __init__(self, endpoint: Endpoint, ask: Callable[[], dict], names: Names | None = None,
                 each: float = EACH_SECONDS, of_each_station: bool = False) -> None:
        self.endpoint, self.address_family = endpoint, endpoint.family
        self.of_each_station = of_each_station
        self.status = Status(ask, names)
        self.history, self.each = History(), each
        self.page = page_text()
        self.policy = policy_of(self.page)
        self.closing = threading.Event()
        self.room = threading.BoundedSemaphore(MOST_CONNECTIONS)
        super().__init__((endpoint.address, endpoint.port), Handler)
        self.serving = threading.Thread(target=self.serve_forever, kwargs={"poll_interval": 0.1}, daemon=True)
        self.watching = threading.Thread(target=self.watch, daemon=True)

    def start(self) -> None:
        """Begins to answer, and to keep the history."""
        self.serving.start()
        self.watching.start()

    def watch(self) -> None:
        """Adds a point to the history again and again, until the server is closed."""
        wait = self.each
        while not self.closing.wait(wait):
            began = time.monotonic()
            try:
                told = self.status.document()
            except Exception:  # whatever kept it from being told: who looks at the status sees it
                told = None
            try:
                self.history.take(told, began)
            except (KeyError, TypeError, AttributeError, ValueError):  # it isn't the status of an access point
                self.history = History()
            wait = max(self.each, (time.monotonic() - began) / MOST_PART)

    def verify_request(self, request: Request, client_address: tuple) -> bool:
        """Whether a connection may come from there; else it is closed at once."""
        return self.endpoint.serves(client_address[0])

    def process_request(self, request: Request, client_address: object) -> None:
        """Begins the thread of a connection, where there is room for it."""
        if not self.room.acquire(blocking=False):
            self.shutdown_request(request)
            return
        try:
            super().process_request(request, client_address)
        except RuntimeError:  # no thread could begin
            self.room.release()
            raise

    def process_request_thread(self, request: Request, client_address: object) -> None:
        """The thread of a connection."""
        try:
            super().process_request_thread(request, client_address)
        finally:
            self.room.release()

    def handle_error(self, request: Request, client_address: object) -> None:
        """A connection that broke or was too slow is no fault of ours, and isn't told."""

    @property
    def url(self) -> str:
        """Where the page is."""
        return f"http://{self.endpoint.host}:{self.server_address[1]}/"

    def close(self) -> None:
        """Ends it; the port is free then."""
        self.closing.set()
        if self.serving.is_alive():
            self.shutdown()
            self.serving.join()
        self.server_close()


def serve(port: int, ask: Callable[[], dict], names: Names | None = None, each: float = EACH_SECONDS) -> Server:
    """Serves the status at a port of 127.0.0.1 until its `close`, in threads of its own; port 0 takes a free one. A point
    is added to the history each so many seconds.

    `ask` gives the status document; it is called in one of these threads, by one at a time, and at most twice a second.
    What it raises is told to whoever asked. An OSError where the port is taken.
    """
    server = Server(Endpoint(port), ask, names, each)
    server.start()
    return server
