"""What the checks of `bin/site` share: runs of it, what is served by it, and its stream of events."""
from __future__ import annotations

import contextlib
import errno
import http.client
import json
import os
import pty
import shutil
import signal
import socket
import subprocess
import sys
import threading
import time
from pathlib import Path

ROOT = Path(__file__).resolve().parent.parent
SITE = ROOT / "bin/site"
PATIENCE = 15.0
URL = "https://example.org"


class Failure(Exception):
    """Something is not as it has to be."""


def expect(holds, what: str) -> None:
    if not holds:
        raise Failure(what)


def until(condition, what: str, seconds: float = PATIENCE):
    """Waits for a condition to hold, and returns its value."""
    end = time.monotonic() + seconds
    while True:
        value = condition()
        if value:
            return value
        if time.monotonic() > end:
            raise Failure(f"not within {seconds:.0f} s: {what}")
        time.sleep(0.01)


def write(path: Path, text: str) -> None:
    path.parent.mkdir(parents=True, exist_ok=True)
    path.write_text(text, encoding="utf-8")


def run(*words, status: int = 0, cwd: Path = ROOT, env: dict | None = None) -> str:
    """What `site` says, on both streams; its status has to be this."""
    done = subprocess.run([SITE, *words], cwd=cwd, env=env, stdin=subprocess.DEVNULL, stdout=subprocess.PIPE, stderr=subprocess.STDOUT, text=True, timeout=60)
    expect(done.returncode == status, f"site {words}: status {done.returncode} and not {status}: {done.stdout}")
    return done.stdout


def page(text: str, title: str = "Page") -> str:
    return f"---\ntitle: {title}\n---\n{text}\n"


def begin(room: Path) -> Path:
    """A small site."""
    site = room / "site"
    write(site / "_config.yml", f"title: T\nurl: {URL}\n")
    write(site / "index.html", page('<a href="{{ "/about" | absolute_url }}">{{ site.title }}</a> https://example.organ'))
    write(site / "about.html", page("about"))
    write(site / "notes/index.html", page("notes"))
    write(site / "style.css", "a{}")
    return site


def on_a_terminal(*words) -> str:
    """What `site` says on a terminal of its own."""
    process, terminal = pty.fork()
    if process == 0:
        os.execv(SITE, [str(SITE), *map(str, words)])
    said = b""
    # A terminal whose last writer has ended gives an error.
    with contextlib.suppress(OSError):
        while piece := os.read(terminal, 65536):
            said += piece
    os.close(terminal)
    os.waitpid(process, 0)
    return said.decode()


@contextlib.contextmanager
def small_disk(at: Path, size: str):
    """A disk with little room; gives whether one can be had."""
    at.mkdir(parents=True)
    had = subprocess.run(["mount", "-t", "tmpfs", "-o", f"size={size}", "tmpfs", at], capture_output=True).returncode == 0
    try:
        yield had
    finally:
        if had:
            subprocess.run(["umount", "--lazy", at], check=True)


def program() -> str:
    if "SITEBUILD" not in os.environ:
        os.environ["SITEBUILD"] = subprocess.run(["bash", ROOT / ".ci/program"], check=True, stdout=subprocess.PIPE, text=True).stdout.strip()
    return os.path.abspath(os.environ["SITEBUILD"])


def own_copy(room: Path, parts: dict[str, str]) -> Path:
    """A copy of the script with other parts."""
    for name in ("bin", "share"):
        shutil.copytree(ROOT / name, room / name)
    for name, text in parts.items():
        write(room / "share/site" / name, text)
    return room / "bin/site"


def free_port() -> int:
    with socket.socket() as probe:
        probe.bind(("127.0.0.1", 0))
        return probe.getsockname()[1]


def is_free(port: int) -> bool:
    with socket.socket() as probe:
        probe.setsockopt(socket.SOL_SOCKET, socket.SO_REUSEADDR, 1)
        try:
            probe.bind(("127.0.0.1", port))
            probe.listen()
        except OSError as error:
            if error.errno == errno.EADDRINUSE:
                return False
            raise
        return True


def processes() -> dict[int, tuple[int, str]]:
    """Each process with its parent and its state."""
    found = {}
    for entry in os.listdir("/proc"):
        if entry.isdigit():
            with contextlib.suppress(OSError):
                fields = Path("/proc", entry, "stat").read_text(errors="replace").rpartition(")")[2].split()
                found[int(entry)] = (int(fields[1]), fields[0])
    return found


def command_of(number: int) -> bytes:
    """The words that a process was started with, each with a zero byte after it; nothing of one that has gone."""
    try:
        return Path(f"/proc/{number}/cmdline").read_bytes()
    except OSError:
        return b""


def family(first: int) -> set[int]:
    """A process and all below it."""
    all_of_them, members = processes(), {first}
    while True:
        more = {number for number, (parent, _) in all_of_them.items() if parent in members} - members
        if not more:
            return members
        members |= more


def is_alive(number: int) -> bool:
    return processes().get(number, (0, "Z"))[1] not in "ZX"


class Running:
    """`site serve` or `site watch`, while it runs."""

    def __init__(self, word: str, folder, *options, cwd: Path = ROOT, env: dict | None = None, before: tuple = (), site: Path = SITE):
        self.port = 0
        if word == "serve" and "--port" not in options:
            self.port = free_port()
            options = (*options, "--port", str(self.port))
        self.lines: list[str] = []
        self.process = subprocess.Popen(
            [*before, site, word, folder, *options], cwd=cwd, env=env, stdin=subprocess.DEVNULL, stdout=subprocess.PIPE, stderr=subprocess.STDOUT, text=True
        )
        self.reader = threading.Thread(target=lambda: self.lines.extend(iter(self.process.stdout.readline, "")), daemon=True)
        self.reader.start()

    def __enter__(self) -> Running:
        return self

    def __exit__(self, *what) -> None:
        if what[0]:
            # The case has failed already, and says why.
            self.process.terminate()
            print("".join(self.lines), file=sys.stderr)
        elif self.process.poll() is None:
            self.stop(signal.SIGTERM)

    def said(self, text: str, after: int = 0, seconds: float = PATIENCE) -> int:
        """Waits for a line with this text; the number of lines up to it."""

        def look():
            return next((number + 1 for number, line in enumerate(list(self.lines)) if number >= after and text in line), 0)

        try:
            return until(look, f"a line with {text!r}", seconds)
        except Failure as failure:
            raise Failure(f"{failure}; it said:\n{''.join(self.lines)}") from None

    def program(self) -> int:
        """The process of the program, which replies to the lines of the session."""
        children = [number for number, (parent, state) in processes().items() if parent == self.process.pid and state not in "ZX"]
        # Beside it there may be the process that makes the notes.
        return next((number for number in children if b"\0session\0" in command_of(number)), 0)

    def stop(self, number: int, seconds: float = PATIENCE) -> None:
        """Ends it: no process is left, and its port is free."""
        members = family(self.process.pid)
        self.process.send_signal(number)
        try:
            status = self.process.wait(seconds)
        except subprocess.TimeoutExpired:
            for member in members:
                with contextlib.suppress(OSError):
                    os.kill(member, signal.SIGKILL)
            raise Failure("it did not end at a signal") from None
        # Before it has said anything, a signal may come before it is waited for.
        early = not self.lines and status in (-number, 128 + number)
        expect(status == 0 or early, f"it ended with {status}: {''.join(self.lines)}")
        until(lambda: not any(map(is_alive, members)), "all of its processes have ended")
        if self.port:
            until(lambda: is_free(self.port), "its port is free")
        self.reader.join()

    def get(self, path: str, method: str = "GET", host: str = "", **headers: str) -> tuple[int, dict, bytes]:
        connection = http.client.HTTPConnection("127.0.0.1", self.port, timeout=PATIENCE)
        try:
            connection.putrequest(method, path, skip_host=True)
            connection.putheader("Host", host or f"127.0.0.1:{self.port}")
            for name, value in headers.items():
                connection.putheader(name, value)
            connection.endheaders()
            reply = connection.getresponse()
            return reply.status, dict(reply.getheaders()), reply.read()
        finally:
            connection.close()

    def text(self, path: str) -> str:
        return self.get(path)[2].decode()


class Events:
    """The stream of events of a site that is served."""

    def __init__(self, running: Running):
        until(lambda: not is_free(running.port), "it listens at its port")
        self.socket = socket.create_connection(("127.0.0.1", running.port), timeout=PATIENCE)
        self.socket.sendall(f"GET /.site/events HTTP/1.1\r\nHost: 127.0.0.1:{running.port}\r\n\r\n".encode())
        self.file = self.socket.makefile("rb")
        while self.file.readline().strip():
            pass

    def __enter__(self) -> Events:
        return self

    def __exit__(self, *what) -> None:
        self.file.close()
        self.socket.close()

    def next(self, condition=lambda state: True) -> dict:
        """The next state for which a condition holds."""
        while True:
            line = self.file.readline()
            expect(line, "the stream of events has ended")
            if line.startswith(b"data: "):
                state = json.loads(line[len(b"data: ") :])
                if condition(state):
                    return state
