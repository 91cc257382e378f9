"""The 23 texts of cmark's own suite of texts that take some programs long, as long as there, and what cmark itself makes of them."""
from __future__ import annotations

import shutil
import subprocess
from typing import Callable, Optional

from room import PassedOver, Room, case
from texts import FRONT, built, comes_of, write

Making = Callable[[int], str]


def html_of(text: bytes) -> bytes:
    """What cmark makes of a text, with HTML as it stands."""
    if not shutil.which("cmark"):
        raise PassedOver("it needs cmark")
    return subprocess.run(["cmark", "--unsafe"], input=text, stdout=subprocess.PIPE, check=True, timeout=30).stdout


def beside_cmark(name: str, text: Making, size: int, compared: Optional[int] = None) -> None:
    """Enters a case: a text of this size is built, and is what cmark makes of it; Debian's cmark takes minutes for some, so a shorter one is compared."""

    def play(room: Room) -> None:
        short = text(compared or size).encode()
        wanted = html_of(short)
        write(room, {"a.md": FRONT + short})
        comes_of(room, ["once"], built(1), {"a.html": wanted})
        if compared:
            write(room, {"a.md": FRONT + text(size).encode()})
            ran = room.once()
            room.same("the last reply to the whole text", built(1), ran.lines[-1])

    case(f"beside cmark: {name}", 60, in_memory=True)(play)


def runs_of_backticks(count: int) -> str:
    return "".join("e" + "`" * length for length in range(1, count))


beside_cmark("nested strong and emphasis", lambda n: "*a **a " * n + "b" + " a** a*" * n, 65000)
beside_cmark("many ends of emphasis without a start", lambda n: "a_ " * n, 65000)
beside_cmark("many starts of emphasis without an end", lambda n: "_a " * n, 65000)
beside_cmark("many ends of links without a start", lambda n: "a]" * n, 65000)
beside_cmark("many starts of links without an end", lambda n: "[a" * n, 65000)
beside_cmark("starts and ends that do not match", lambda n: "*a_ " * n, 50000)
beside_cmark("emphasis that crosses", lambda n: "*a " * n + "_a*_ " * n, 20000)
beside_cmark("starts and ends whose lengths are multiples of three", lambda n: "a**b" + "c* " * n, 50000)
beside_cmark("starts of links and ends of emphasis", lambda n: "[ a_" * n, 50000)
beside_cmark("[ (]( again and again", lambda n: "[ (](" * n, 80000)
beside_cmark("![[]() again and again", lambda n: "![[]()" * n, 160000, compared=5000)
beside_cmark("a link and emphasis that is hard to tell", lambda n: "**x [a*b**c*](d)", 1)
beside_cmark("nested brackets", lambda n: "[" * n + "a" + "]" * n, 50000)
beside_cmark("nested quotes", lambda n: "> " * n + "a", 50000)
beside_cmark("nested lists", lambda n: "".join("  " * depth + "* a\n" for depth in range(n)), 1000)
beside_cmark("the character 0", lambda n: "abc\0de\0", 1)
beside_cmark("backticks", runs_of_backticks, 5000)
beside_cmark("links without an end, with <", lambda n: "[a](<b" * n, 30000)
beside_cmark("links without an end", lambda n: "[a](b" * n, 30000)
beside_cmark("<!-- without an end", lambda n: "</" + "<!--" * n, 300000)
beside_cmark("empty lines in nested lists", lambda n: "- " * n + "x" + "\n" * n, 30000, compared=3000)
beside_cmark("empty lines in nested lists in a quote", lambda n: "> " + "- " * n + "x\n" + ">\n" * n, 30000, compared=3000)
beside_cmark("emphasis in nested quotes", lambda n: ">" * n + "a*" * n, 100000, compared=10000)
