"""Collections with orders of their own that are large, and names that stand for nothing, many of them, with the strict options and without."""
from __future__ import annotations

from typing import Callable, Iterable, Sequence

from room import Room, case
from texts import FRONT, GROWTH, MOST, SHORTEST, Files, Took, built, grows, run_limited, site, write

MILLION = 1_000_000
# As many documents as there may be beside `_config.yml`.
DOCUMENTS = 49_999
SHOWN = FRONT + b"{% for d in site.c %}{{ d.slug }} {% endfor %}"


def settings(keys: bytes) -> bytes:
    return b"collections:\n  c:\n" + keys


def order(names: Iterable[str]) -> bytes:
    return settings(f"    order: [{','.join(names)}]\n".encode())


def comes_in_order(room: Room, files: Files, wanted: Sequence[str]) -> Took:
    """Builds a site of documents that have no output. They are rendered in this order, which `--why` tells."""
    write(room, files)
    ran, took = run_limited(room, ["build", "--why"])
    room.same("the status", 0, ran.status)
    room.same("the last reply", built(len(wanted), 0), ran.lines[-1])
    came = ran.lines[1:-1]
    at = next((place for place, (path, line) in enumerate(zip(wanted, came)) if line != f"why {path} new"), len(wanted))
    if at < len(wanted) or len(came) != len(wanted):
        room.differs(f"the order of rendering, from place {at} on", wanted[at : at + 3], came[at : at + 3])
    return took


def orders(name: str, files: Callable[[int], Files], wanted: Callable[[int], Sequence[str]], size: int) -> None:
    """Enters a case: so many documents, and four times as many, come in the order that they have to, and the time grows with the number and not with its square."""

    def play(room: Room) -> None:
        took = []
        for count in (size, 4 * size):
            room.site = room.top / str(count)
            room.out = room.site / "_site"
            took.append(comes_in_order(room, files(count), wanted(count)).seconds)
        if took[1] > SHORTEST and took[1] > GROWTH * took[0]:
            room.differs("the time of four times as many", f"at most {GROWTH} times {took[0]:.2f} s", f"{took[1]:.2f} s")

    case(f"order: {name}", 120, in_memory=True)(play)


def documents(count: int, front: Callable[[int], str] = lambda number: "") -> Files:
    """So many documents with this front matter."""
    return {f"_c/{number:05}.html": f"---\n{front(number)}---\n".encode() for number in range(count)}


def backwards(count: int) -> list[str]:
    return [f"_c/{number:05}.html" for number in reversed(range(count))]


def forwards(count: int) -> list[str]:
    return backwards(count)[::-1]


# ---- `order`

THREE = {"_c/1.html": FRONT, "_c/3.html": FRONT, "_c/999999.html": FRONT, "_c/a.html": FRONT, "p.html": SHOWN}
site(
    "order: a million entries, of which three name a document",
    lambda: {"_config.yml": order(f"{number}.html" for number in reversed(range(MILLION))), **THREE},
    built(5, 1),
    lambda: {"p.html": b"999999 3 1 a "},
)
site(
    "order: a million entries of one name",
    lambda: {"_config.yml": order(["3.html", *["1.html"] * (MILLION - 1)]), **THREE},
    built(5, 1),
    lambda: {"p.html": b"3 1 999999 a "},
)
site(
    "order: a name of 8 MiB, and one that is it but for its last letter",
    lambda: {"_config.yml": order(["a" * (MOST // 2 - 60), "a" * (MOST // 2 - 61) + "b", "a.html"]), **THREE},
    built(5, 1),
    lambda: {"p.html": b"a 1 3 999999 "},
)
site(
    "order: a million entries, one of which is no text",
    lambda: {"_config.yml": order([*(f"{number}.html" for number in range(MILLION - 1)), "1"]), **THREE},
    "fault F6 0 _config.yml",
)
orders("it names all of 10,000 documents", lambda n: {"_config.yml": order(f"{number:05}.html" for number in reversed(range(n))), **documents(n)}, backwards, 2_500)
orders("it names half of the documents", lambda n: {"_config.yml": order(f"{number:05}.html" for number in reversed(range(0, n, 2))), **documents(n)}, lambda n: [*backwards(n)[1::2], *forwards(n)[1::2]], 5_000)

# ---- `sort_by`

BY_W = settings(b"    sort_by: w\n")


def sorts(name: str, front: Callable[[int], str], wanted: Callable[[int], list[str]]) -> None:
    """As many documents as are held, by the variable w."""

    @case(f"sort_by: {DOCUMENTS:,} documents, {name}", 120, in_memory=True)
    def play(room: Room) -> None:
        comes_in_order(room, {"_config.yml": BY_W, **documents(DOCUMENTS, front)}, wanted(DOCUMENTS))


sorts("by numbers that fall", lambda number: f"w: {-number}\n", backwards)
sorts("all of which have one number", lambda number: "w: 7\n", forwards)
sorts("none of which has the variable", lambda number: "", forwards)
sorts("by long texts that are alike at their front", lambda number: f"w: {'a' * 300}{DOCUMENTS - number:05}\n", backwards)
sorts("by numbers, texts and lists in turn", lambda number: f"w: {(-number, f'x{99_999 - number}', '[1]')[number % 3]}\n", lambda n: [*(path for rest in (0, 1) for path in backwards(n) if int(path[3:8]) % 3 == rest), *forwards(n)[2::3]])
orders("documents by numbers that fall", lambda n: {"_config.yml": BY_W, **documents(n, lambda number: f"w: {-number}\n")}, backwards, 5_000)

# ---- Names that stand for nothing

VARIABLES = b"liquid: {strict_variables: true}\n"
FILTERS = b"liquid: {strict_filters: true}\n"


def filled(mark: bytes) -> bytes:
    """A page that is full of this output."""
    return FRONT + mark * ((MOST - len(FRONT)) // len(mark))


def nothings(name: str, mark: bytes, shown: bytes, option: bytes, fault: str) -> None:
    """16 MiB of an output, with the option and without."""
    text = filled(mark)
    count = (len(text) - len(FRONT)) // len(mark)
    site(f"16 MiB of {name}", lambda: {"a.html": text}, built(1), lambda: {"a.html": shown * count})
    site(f"16 MiB of {name}, with the option", lambda: {"_config.yml": option, "a.html": text}, f"fault {fault} 1 a.html")


nothings("variables that are not there", b"{{ a.b }}", b"", VARIABLES, "F24")
nothings("members that are not there", b"{{page.a}}", b"", VARIABLES, "F24")
nothings("filters that are not there", b"{{1|z}}", b"1", FILTERS, "F25")
tests = b"{% if a %}{% endif %}"
site("16 MiB of tests of what is not there, with the option", lambda: {"_config.yml": VARIABLES, "a.html": filled(tests)}, built(1), lambda: {"a.html": b""})
default = b"{{a|default:1}}"
site("16 MiB of defaults of what is not there, with the option", lambda: {"_config.yml": VARIABLES, "a.html": filled(default)}, built(1), lambda: {"a.html": b"1" * ((MOST - len(FRONT)) // len(default))})
site("a million members of nothing, with the option", lambda: {"_config.yml": VARIABLES, "a.html": FRONT + b"{% if a" + b".a" * MILLION + b" %}{% endif %}x"}, built(1), lambda: {"a.html": b"x"})
site("a million filters that are not there, with the option", lambda: {"_config.yml": FILTERS, "a.html": FRONT + b"{{ 1" + b" | z" * MILLION + b" }}"}, "fault F25 1 a.html")
site("a million filters that are not there", lambda: {"a.html": FRONT + b"{{ 1" + b" | z" * MILLION + b" }}"}, built(1), lambda: {"a.html": b"1"})
grows("variables that are not there, each another one", lambda n: {"a.html": FRONT + b"".join(b"{{ page.a%d }}" % number for number in range(n))}, lambda n: {"a.html": b""}, 50_000)
