"""Tables of Markdown: cells that nobody wrote, the greatest table that is taken, and long texts that are tables or are none."""
from __future__ import annotations

from typing import Sequence

from markdown import in_markdown, paragraph, quotes
from room import Room, case
from texts import FRONT, MIB, MOST, SECONDS, built, comes_of, site, write

# A header and a delimiter row of so many cells, over as many rows without any: ten thousand million cells.
WIDE = 100_000
UNWRITTEN = "|a" * WIDE + "\n" + "|-" * WIDE + "\n" + "|\n" * WIDE
# What a page of these may take: three times the longest text, beside the site's own.
ROOM = 3 * MOST / MIB + 8
# Its fault comes within so many seconds.
SOON = 2


def table(header: Sequence[str], rows: Sequence[Sequence[str]] = ()) -> str:
    def line(cells: Sequence[str], tag: str) -> str:
        return "<tr>\n" + "".join(f"<{tag}>{cell}</{tag}>\n" for cell in cells) + "</tr>\n"

    body = "<tbody>\n" + "".join(line(row, "td") for row in rows) + "</tbody>\n" if rows else ""
    return "<table>\n<thead>\n" + line(header, "th") + "</thead>\n" + body + "</table>\n"


def refused_soon(room: Room, text: bytes, path: str, reply: str) -> None:
    write(room, {path: text})
    took = comes_of(room, ["build"], reply, {})
    if took.seconds > SOON:
        room.differs("the time", f"at most {SOON} s", f"{took.seconds:.2f} s")
    if took.mebibytes > ROOM:
        room.differs("the memory", f"at most {ROOM:.0f} MiB", f"{took.mebibytes:.0f} MiB")


@case("tables: ten thousand million cells that rows lack are refused before they are made", SECONDS, in_memory=True)
def unwritten(room: Room) -> None:
    refused_soon(room, FRONT + UNWRITTEN.encode(), "a.md", "fault F20 0 a.md")


@case("tables: the same in markdownify", SECONDS, in_memory=True)
def unwritten_in_a_filter(room: Room) -> None:
    text = "{% capture t %}" + UNWRITTEN + "{% endcapture %}{{ t | markdownify }}\n"
    # A reply counts the lines behind the front matter.
    line = text.count("\n", 0, text.index("{{")) + 1
    refused_soon(room, FRONT + text.encode(), "a.html", f"fault F20 {line} a.html")


# A page of exactly as much as it may have, and of a byte more: the end of the table is what does not fit.
LETTERS = MOST - len(table([""]))
for more, reply in ((0, built(1)), (1, "fault F20 0 a.md")):
    site(
        f"tables: a page of 16 MiB and {more} bytes",
        lambda more=more: {"a.md": FRONT + b"a" * (LETTERS + more) + b"\n|-|\n"},
        reply,
        lambda more=more: {} if more else {"a.html": table(["a" * LETTERS]).encode()},
    )
site("tables: a cell that is too long", lambda: {"a.md": FRONT + b"&" * (4 * MIB) + b"\n|-|\n"}, "fault F20 0 a.md")
site("tables: rows that lack too many cells", lambda: {"a.md": FRONT + b"|a" * 2000 + b"\n" + b"|-" * 2000 + b"\n" + b"|\n" * 2000}, "fault F20 0 a.md")
site("tables: 16 MiB of rows", lambda: {"a.md": FRONT + b"|-\n" * ((MOST - len(FRONT)) // 3)}, "fault F20 0 a.md")

in_markdown("a row of many cells under a header of one", lambda n: "a\n|-|\n" + "|x" * n, lambda n: table(["a"], [["x"]]), 250_000)
in_markdown("a header of many cells", lambda n: "|a" * n + "\n" + "|-" * n, lambda n: table(["a"] * n), 50_000)
in_markdown("rows of one hyphen", lambda n: "|-\n" * n, lambda n: table(["-"], [["-"]] * (n - 2)), 50_000)
in_markdown("a cell of escaped pipes", lambda n: "a\n|-|\n" + "\\|" * n, lambda n: table(["a"], [["|" * n]]), 500_000)
in_markdown("a row of pipes", lambda n: "a\n|-|\n" + "|" * n, lambda n: table(["a"], [[""]]), 1_000_000)
paragraph("a line of pipes", lambda n: "|" * n, 1_000_000)
paragraph("a line of escaped pipes", lambda n: "\\|" * n, 1_000_000, lambda n: "|" * n)
for mark in "[`*":
    in_markdown(f"cells of {mark}", lambda n, mark=mark: "a\n|-|\n" + f"|{mark}\n" * n, lambda n, mark=mark: table(["a"], [[mark]] * n), 50_000)
    in_markdown(f"a row of cells of {mark}", lambda n, mark=mark: "|a" * n + "\n" + "|-" * n + "\n" + f"|{mark}" * n, lambda n, mark=mark: table(["a"] * n, [[mark] * n]), 50_000)
in_markdown("a table in quotes in quotes", lambda n: ">" * n + "a|b\n-|-\n1|2\n", lambda n: quotes(n, table(["a", "b"], [["1", "2"]])), 10_000)
paragraph("many lines that are no table", lambda n: "a|b\n" * n, 250_000)
