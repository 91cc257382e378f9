"""Calls of other programs: their limits, and that nothing of them outlives the call or the process that called."""
from __future__ import annotations

import signal
import subprocess
import sys
import threading
import time
from pathlib import Path

from common import PARTS, Failures, is_running, until
from calling import Called, NotStarted, SaidTooMuch, TookTooLong, call

# Writes its own number and that of a child, and waits.
FAMILY = 'sleep 60 & echo $$ $! >"$0"; wait'


def try_all(work: Path, failures: Failures) -> None:
    for part in (ends_in_order, limits, ends_with_the_caller, outlives_its_thread):
        folder = work / part.__name__
        folder.mkdir()
        part(folder, failures)


def ends_in_order(work: Path, failures: Failures) -> None:
    """What a program reads, writes and returns; and what it leaves running."""
    failures.expect("what is given comes out", call(["cat"], work, b"x" * 1_000_000).stdout, b"x" * 1_000_000)
    failures.expect("what is not read", call(["true"], work, b"x" * 1_000_000), Called(0, b"", b""))
    failures.expect("status and streams", call(["bash", "-c", "echo a; echo b >&2; exit 3"], work), Called(3, b"a\n", b"b\n"))
    failures.expect("a signal", call(["bash", "-c", "kill -9 $$"], work).status, -signal.SIGKILL)
    failures.expect("the folder", call(["pwd"], work).stdout.decode(), f"{work.resolve()}\n")
    begun = time.monotonic()
    left = int(call(["bash", "-c", "sleep 60 & echo $!"], work).stdout)
    failures.expect("what it leaves is not waited for", time.monotonic() - begun < 30, True)
    failures.expect("what it leaves is ended", until(lambda: not is_running(left)), True)
    for words, folder in ((["no-such-program"], work), (["true"], work / "none")):
        failures.expect(f"{words} in {folder.name}", raised(words, folder, 10, NotStarted), True)


def raised(words: list[str], folder: Path, seconds: float, kind: type) -> bool:
    try:
        call(words, folder, seconds=seconds)
    except kind:
        return True
    return False


def limits(work: Path, failures: Failures) -> None:
    """A program that does not end, and one that does not end to write."""
    begun = time.monotonic()
    failures.expect("no end", raised(["bash", "-c", FAMILY, str(work / "family")], work, 0.5, TookTooLong), True)
    failures.expect("ended in time", time.monotonic() - begun < 30, True)
    failures.expect("all that it started is ended", until(lambda: not any(map(is_running, numbers(work / "family")))), True)
    failures.expect("output without an end", raised(["yes"], work, 60, SaidTooMuch), True)


def numbers(file: Path) -> list[int]:
    """The processes that FAMILY has written down; none as long as it has not."""
    words = file.read_text().split() if file.exists() else []
    return list(map(int, words)) if len(words) == 2 else []


def ends_with_the_caller(work: Path, failures: Failures) -> None:
    """However the process ends that called."""
    for number in (signal.SIGTERM, signal.SIGKILL, signal.SIGINT):
        file = work / number.name
        script = f"import sys; sys.path.insert(0, {str(PARTS)!r}); import calling; calling.call(['bash', '-c', {FAMILY!r}, {str(file)!r}], '/')"
        caller = subprocess.Popen([sys.executable, "-B", "-c", script], stderr=subprocess.DEVNULL)
        failures.expect("the program runs", until(lambda: len(numbers(file)) == 2), True)
        caller.send_signal(number)
        caller.wait(30)
        failures.expect(f"after {number.name} nothing is left", until(lambda: not any(map(is_running, numbers(file)))), True)


def outlives_its_thread(work: Path, failures: Failures) -> None:
    """A program that one thread calls goes on when the thread ends that made the caller."""
    found: list[Called] = []

    def inner() -> None:
        found.append(call(["bash", "-c", "sleep 0.3; echo done"], work))

    inner_thread = threading.Thread(target=inner)
    outer = threading.Thread(target=inner_thread.start)
    outer.start()
    outer.join(30)
    inner_thread.join(30)
    failures.expect("the program's output", [one.stdout for one in found], [b"done\n"])
