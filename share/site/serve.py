"""`site serve`: keeps a site built, and shows it in the browser."""
from __future__ import annotations

import contextlib
import errno
import io
import json
import re
import socket
import sys
import threading
import time
from contextlib import closing
from dataclasses import asdict
from http.server import BaseHTTPRequestHandler, ThreadingHTTPServer
from socketserver import TCPServer
from typing import TYPE_CHECKING, BinaryIO, Tuple, Union

import why
import words
from building import Builder, say
from pages import OWN, Answer, Pages
from settings import read_settings
from stopping import until_stopped

if TYPE_CHECKING:
    from _typeshed import WriteableBuffer

ADDRESS = "127.0.0.1"
NOT_ASCII = re.compile(rb"[\x80-\xff]")
# A page of another host must not read this site through the browser of whoever writes it.
OUR_HOSTS = re.compile(r"(localhost|127\.0\.0\.1|\[::1\])(:\d{1,5})?", re.IGNORECASE)
MOST_PORTS = 100
# More connections than these are not held: the one that is there longest makes room. Its thread may take a moment to end.
MOST_CONNECTIONS = 256
MOST_THREADS = 2 * MOST_CONNECTIONS
# A client that does not read is let go after so many seconds, and so is one whose request is not whole by then.
CLIENT_WAITS = 30
# So often a stream of events is written to, to learn whether somebody still reads it.
BETWEEN_BEATS = 10.0


class Server(ThreadingHTTPServer):
    """Serves one site; each connection has its own thread."""

    daemon_threads = True
    # A port from which an earlier run has just gone can be had at once.
    allow_reuse_address = True
    request_queue_size = 64

    def __init__(self, port: int, builder: Builder):
        super().__init__((ADDRESS, port), Handler)
        self.builder = builder
        self.pages = Pages(builder.folder)
        self.told = False
        self.places = threading.BoundedSemaphore(MOST_THREADS)
        # The connections, the oldest first.
        self.held: dict[socket.socket, None] = {}
        self.holding = threading.Lock()

    def server_bind(self) -> None:
        # Not as an HTTPServer does it, which asks the name service for a name of the address, and may wait for it.
        TCPServer.server_bind(self)
        self.server_name, self.server_port = ADDRESS, self.server_address[1]

    def configure(self) -> None:
        """Reads the address of the site. If the configuration cannot be read, the address stays as it was."""
        before, self.pages.settings = self.pages.settings, read_settings(self.builder.program, self.builder.folder) or self.pages.settings
        if not self.told or before.baseurl != self.pages.settings.baseurl:
            self.told = True
            say(f"http://{ADDRESS}:{self.server_port}{words.shown(self.pages.settings.baseurl)}/  (Ctrl-C ends it)")

    def process_request(self, request: socket.socket, client_address: object) -> None:  # type: ignore[override]  # what comes over TCP is a connection
        if not self.places.acquire(blocking=False):
            self.shutdown_request(request)
            return
        self.hold(request)
        try:
            super().process_request(request, client_address)
        except RuntimeError:
            # The system has no thread for it.
            self.forget(request)
            self.shutdown_request(request)

    def process_request_thread(self, request: socket.socket, client_address: object) -> None:  # type: ignore[override]  # what comes over TCP is a connection
        try:
            super().process_request_thread(request, client_address)
        finally:
            self.forget(request)

    def hold(self, request: socket.socket) -> None:
        """Adds a connection. Nobody keeps all of them: when there are too many, the oldest is let go."""
        with self.holding:
            self.held[request] = None
            oldest = next(iter(self.held)) if len(self.held) > MOST_CONNECTIONS else None
            if oldest is not None:
                del self.held[oldest]
        if oldest is not None:
            # Whatever its thread waits for comes to its end.
            with contextlib.suppress(OSError):
                oldest.shutdown(socket.SHUT_RDWR)
            self.builder.status.wake()

    def forget(self, request: socket.socket) -> None:
        with self.holding:
            self.held.pop(request, None)
        self.places.release()

    def handle_error(self, request: Union[socket.socket, Tuple[bytes, socket.socket]], client_address: object) -> None:
        # A client that has gone, or does not read, is nobody's fault.
        if not isinstance(sys.exc_info()[1], OSError):
            super().handle_error(request, client_address)


class Incoming(io.RawIOBase):
    """What a client sends, up to a moment."""

    def __init__(self, connection: socket.socket):
        self.connection = connection
        self.until = 0.0

    def readable(self) -> bool:
        return True

    def readinto(self, buffer: WriteableBuffer) -> int:
        left = self.until - time.monotonic()
        if left <= 0:
            raise socket.timeout("its request was not whole in time")
        self.connection.settimeout(left)
        return self.connection.recv_into(buffer)


class Handler(BaseHTTPRequestHandler):
    protocol_version = "HTTP/1.1"
    server_version = "site"
    sys_version = ""
    disable_nagle_algorithm = True
    server: Server
    raw_requestline: bytes

    def log_message(self, format: str, *values: object) -> None:
        pass

    def setup(self) -> None:
        super().setup()
        self.incoming = Incoming(self.connection)
        self.rfile = io.BufferedReader(self.incoming)

    def handle_one_request(self) -> None:
        # For the whole of its head, and not for each byte of it.
        self.incoming.until = time.monotonic() + CLIENT_WAITS
        super().handle_one_request()

    def parse_request(self) -> bool:
        # An address as it is typed: python would take some of its bytes for spaces.
        self.raw_requestline = NOT_ASCII.sub(lambda found: b"%%%02X" % found[0][0], self.raw_requestline)
        return super().parse_request()

    def do_HEAD(self) -> None:
        self.do_GET()

    def do_GET(self) -> None:
        self.connection.settimeout(CLIENT_WAITS)
        host = self.headers.get("Host", "")
        if not OUR_HOSTS.fullmatch(host):
            self.send(Answer(403, "text/plain; charset=utf-8", b"site serve is there for this machine alone: 127.0.0.1 or localhost\n"))
        elif self.path == OWN + "events":
            self.send_events()
        elif self.path.startswith(OWN):
            self.send(self.own())
        else:
            with self.server.builder.status.reading() as state:
                answer = self.server.pages.answer(self.path, host, state.version)
            self.send(answer)

    def own(self) -> Answer:
        """The script's own files."""
        pages = self.server.pages
        if self.path == OWN + "browser.js":
            return Answer(200, "text/javascript; charset=utf-8", pages.script)
        if self.path == OWN + "fault.css":
            return Answer(200, "text/css; charset=utf-8", pages.style)
        if self.path == OWN + "why":
            builder = self.server.builder
            with builder.status.reading() as state:
                page = why.last_build(builder, state.version)
            return Answer(200, "text/html; charset=utf-8", page)
        return Answer(404, "text/plain; charset=utf-8", b"nothing is here\n")

    def send(self, answer: Answer) -> None:
        self.send_response(answer.status)
        if answer.moved:
            self.send_header("Location", answer.moved)
        if answer.kind:
            self.send_header("Content-Type", answer.kind)
        self.send_header("Content-Length", str(answer.size if answer.file else len(answer.data)))
        self.send_header("Cache-Control", "no-store")
        self.end_headers()
        if answer.file:
            with answer.file as file:
                if self.command != "HEAD":
                    self.send_file(file, answer.size)
        elif self.command != "HEAD":
            self.wfile.write(answer.data)

    def send_file(self, file: BinaryIO, size: int) -> None:
        """Sends as many bytes as were announced; a file that has become shorter ends the connection."""
        left = size
        while left:
            part = file.read(min(left, 1 << 16))
            if not part:
                self.close_connection = True
                return
            self.wfile.write(part)
            left -= len(part)

    def is_let_go(self) -> bool:
        return self.connection not in self.server.held

    def send_events(self) -> None:
        """The state of the site, now and whenever it changes, for as long as somebody reads it."""
        self.close_connection = True
        self.send_response(200)
        self.send_header("Content-Type", "text/event-stream")
        self.send_header("Cache-Control", "no-store")
        self.send_header("Connection", "close")
        self.end_headers()
        if self.command == "HEAD":
            return
        # A browser asks again so many milliseconds after the end of the stream.
        self.wfile.write(b"retry: 500\n\n")
        status, seen = self.server.builder.status, None
        while True:
            state = status.next(seen, BETWEEN_BEATS, self.is_let_go)
            if state.stopped or self.is_let_go():
                return
            if state == seen:
                self.wfile.write(b":\n\n")
            else:
                told = {"version": state.version, "fault": asdict(state.fault) if state.fault else None}
                self.wfile.write(f"data: {json.dumps(told)}\n\n".encode())
            self.wfile.flush()
            seen = state


def open_server(port: int, builder: Builder) -> Server:
    """A server at the first free port from this one on."""
    last = min(port + MOST_PORTS, 65535)
    for number in range(port, last + 1):
        try:
            return Server(number, builder)
        except OSError as error:
            if error.errno != errno.EADDRINUSE:
                raise words.Refused(f"port {number} cannot be had: {error.strerror}") from error
    raise words.Refused(f"the ports {port} to {last} are all taken; give another with --port")


def main(arguments: list[str], program: str) -> int:
    reader = words.parser("serve")
    words.add_site(reader, jobs=True)
    words.add_poll(reader)
    reader.add_argument("--port", type=words.number(1, 65535), default=words.FIRST_PORT, metavar="N", help="serves at this port, or the next that is free")
    given = reader.parse_args(arguments)
    with until_stopped(), closing(Builder(program, given.folder, words.passed_on(given), given.poll)) as builder:
        with open_server(given.port, builder) as server:
            if server.server_port != given.port:
                say(f"port {given.port} is taken; this is {server.server_port}")
            builder.on_configuration = server.configure
            threading.Thread(target=server.serve_forever, args=(0.1,), daemon=True).start()
            try:
                builder.run()
            finally:
                server.shutdown()
    return 0
