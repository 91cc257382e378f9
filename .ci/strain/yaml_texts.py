"""YAML that is long, in each place where it is read, and data files that are long."""
from __future__ import annotations

from typing import Callable

from texts import FRONT, MOST, built, grows, site

PAGE = {"a.html": FRONT + b"x"}
MARKS = (b"{{", b"{%", b'"', b"[", b": ", b"- ", b"&", b"|")


def filled(before: bytes, mark: bytes, behind: bytes) -> bytes:
    """As many marks as a file holds between these."""
    return before + mark * ((MOST - len(before) - len(behind)) // len(mark)) + behind


def everywhere(mark: bytes) -> None:
    """No text of one of these marks alone is YAML, nor is it behind a key."""
    name = f"YAML: 16 MiB of {mark.decode()!r}"
    site(f"{name} as front matter", lambda: {"a.html": filled(b"---\n", mark, b"\n---\nx")}, "fault F5 2 a.html")
    site(f"{name} as a value", lambda: {"a.html": filled(b"---\na: ", mark, b"\n---\nx")}, "fault F5 2 a.html")
    site(f"{name} as the configuration", lambda: {"_config.yml": filled(b"", mark, b""), **PAGE}, "fault F5 1 _config.yml")
    site(f"{name} as data", lambda: {"_data/a.yml": filled(b"", mark, b""), **PAGE}, "fault F5 1 _data/a.yml")


def data(name: str, path: str, text: Callable[[int], bytes], show: bytes, shown: Callable[[int], bytes], size: int) -> None:
    """A data file of a size, and a page that shows something of it."""
    grows(f"data: {name}", lambda count: {f"_data/{path}": text(count), "a.html": FRONT + show}, lambda count: {"a.html": shown(count)}, size)


for mark in MARKS:
    everywhere(mark)
for path in ("a.json", "a.csv"):
    reply = built(1) if path == "a.csv" else f"fault F8 0 _data/{path}"
    site(f"data: 16 MiB of quotes in {path}", lambda path=path: {f"_data/{path}": filled(b"", b'"', b""), **PAGE}, reply, lambda reply=reply: {"a.html": b"x"} if reply == built(1) else {})
site("data: 16 MiB of [ in a.json", lambda: {"_data/a.json": filled(b"", b"[", b""), **PAGE}, "fault F8 0 _data/a.json")
site("data: 16 MiB of objects in a.json", lambda: {"_data/a.json": filled(b"", b'{"a":', b""), **PAGE}, "fault F8 0 _data/a.json")

data("many keys in lines", "a.yml", lambda n: b"".join(b"k%d: 1\n" % key for key in range(n)), b"{{ site.data.a.k5 }}", lambda n: b"1", 50_000)
data("many keys in brackets", "a.yml", lambda n: b"{" + b",".join(b"k%d: 1" % key for key in range(n)) + b"}", b"{{ site.data.a.k5 }}", lambda n: b"1", 50_000)
data("many keys of JSON", "a.json", lambda n: b"{" + b",".join(b'"k%d":1' % key for key in range(n)) + b"}", b"{{ site.data.a.k5 }}", lambda n: b"1", 50_000)
data("one key many times", "a.json", lambda n: b"{" + b",".join([b'"k":1'] * n) + b"}", b"{{ site.data.a.k }}", lambda n: b"1", 50_000)
data("many columns", "a.csv", lambda n: b",".join(b"k%d" % key for key in range(n)) + b"\n" + b",".join([b"1"] * n) + b"\n", b"{{ site.data.a[0].k5 }}", lambda n: b"1", 50_000)
data("many lines", "a.yml", lambda n: b"- a\n" * n, b"{{ site.data.a | size }}", lambda n: b"%d" % n, 500_000)
data("many empty lines", "a.yml", lambda n: b"a: 1\n" + b"\n" * n, b"{{ site.data.a.a }}", lambda n: b"1", 1_000_000)

# Each form of a text on many lines, and each form of its characters.
SIZE_OF_A = b"{{ site.data.a.a | size }}"
data("a literal text of many lines", "a.yml", lambda n: b"a: |\n" + b"  x\n" * n, SIZE_OF_A, lambda n: b"%d" % (2 * n), 200_000)
data("a folded text of many lines", "a.yml", lambda n: b"a: >\n" + b"  x\n\n" * n, SIZE_OF_A, lambda n: b"%d" % (2 * n), 200_000)
data("a plain text of many lines", "a.yml", lambda n: b"a: x\n" + b"  x\n" * n, SIZE_OF_A, lambda n: b"%d" % (2 * n + 1), 200_000)
data("a quoted text of many lines", "a.yml", lambda n: b'a: "x\n' + b"  x\n" * n + b'  "\n', SIZE_OF_A, lambda n: b"%d" % (2 * n + 2), 200_000)
data("brackets of many lines", "a.yml", lambda n: b"a: [\n" + b"  x,\n" * n + b"  ]\n", SIZE_OF_A, lambda n: b"%d" % n, 100_000)
data("many escapes", "a.yml", lambda n: b'a: "' + b"\\x41" * n + b'"\n', SIZE_OF_A, lambda n: b"%d" % n, 400_000)
data("many colons", "a.yml", lambda n: b"a: " + b"x:y" * n + b"\n", SIZE_OF_A, lambda n: b"%d" % (3 * n), 400_000)
data("many spaces", "a.yml", lambda n: b"a: " + b"x  " * n + b"y\n", SIZE_OF_A, lambda n: b"%d" % (3 * n + 1), 400_000)
data("many comments", "a.yml", lambda n: b"# x\n" * n + b"a: 1\n", b"{{ site.data.a.a }}", lambda n: b"1", 400_000)
data("a long key", "a.yml", lambda n: b"a" * n + b": 1\n", b"{{ site.data.a | size }}", lambda n: b"1", 4_000_000)
data("many escapes of JSON", "a.json", lambda n: b'{"a":"' + b"\\u0041" * n + b'"}', SIZE_OF_A, lambda n: b"%d" % n, 400_000)
data("many numbers of JSON", "a.json", lambda n: b'{"a":[' + b",".join([b"9223372036854775807"] * n) + b"]}", SIZE_OF_A, lambda n: b"%d" % n, 100_000)
data("many quotes of CSV", "a.csv", lambda n: b'a\n"' + b'""' * n + b'"\n', b"{{ site.data.a[0].a | size }}", lambda n: b"%d" % n, 400_000)
data("many records of CSV", "a.csv", lambda n: b"a,b\n" + b"1,2\n" * n, b"{{ site.data.a | size }}", lambda n: b"%d" % n, 50_000)
