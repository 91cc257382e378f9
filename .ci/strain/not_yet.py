"""What the program does not stand yet: these cases fail, and are played by `--open` alone. One that passes belongs into another file."""
from __future__ import annotations

from functools import lru_cache

from colliding import SEED, keys, written
from room import Room, case
from texts import FRONT, GROWTH, Files, built, grows, run_limited, site, write

# The most that these small sites may take, in MiB.
LITTLE = 60


@lru_cache(maxsize=None)
def colliding(kind: str) -> list[bytes]:
    """Keys of one hash: by themselves, or as the names of variables of the site in a record of what was read."""
    state = SEED
    if kind == "variables":
        for part in (b"\x05", b"", b"\0\0\0\0"):
            state = written(state, part)
    return keys(40_000, state)


grows("keys that collide: labels of links", lambda n: {"a.md": FRONT + b"".join(b"[%s]: u\n" % key for key in colliding("texts")[:n])}, lambda n: {"a.html": b""}, 10_000)
grows("keys that collide: columns", lambda n: {"_data/a.csv": b",".join(colliding("texts")[:n]) + b"\n", "a.html": FRONT}, lambda n: {"a.html": b""}, 10_000)
grows("keys that collide: variables", lambda n: {"a.html": FRONT + b"".join(b'{{ site["%s"] }}' % key for key in colliding("variables")[:n])}, lambda n: {"a.html": b""}, 10_000)


def handed_on(count: int) -> Files:
    """Includes that hand on all that they were given, twice."""
    files = {f"_includes/{place}.html": b"{%% include %d.html x=include y=include %%}" % (place + 1) for place in range(count)}
    return {"a.html": FRONT + b"{% include 0.html x=1 %}", **files, f"_includes/{count}.html": b"x"}


site("includes that hand on twice what they were given", lambda: handed_on(18), built(1), lambda: {"a.html": b"x"}, mebibytes=LITTLE)
TWICE = b'{% assign e = "" | split: "" %}{% assign a = e %}{% for i in (1..40) %}{% assign a = e | push: a | push: a %}{% endfor %}{{ a | size }}'
site("lists that hold the one before twice", lambda: {"a.html": FRONT + TWICE}, built(1), lambda: {"a.html": b"2"}, seconds=20)
grows(
    "a list of front matter that is read often",
    lambda n: {"a.html": b"---\na:\n" + b"- x\n" * n + b"---\n{%% for i in (1..%d) %%}{%% if page.a %%}x{%% endif %%}{%% endfor %%}" % (n // 100)},
    lambda n: {"a.html": b"x" * (n // 100)},
    25_000,
)
site("a long column and many records", lambda: {"_data/a.csv": b"k" * 8000 + b"\n" + b"1\n" * 8000, "a.html": FRONT + b"x"}, built(1), lambda: {"a.html": b"x"}, mebibytes=LITTLE)
DEFAULTS = b'defaults:\n- scope:\n    path: ""\n  values:\n    a: ' + b"x" * 1_000_000 + b"\n"
site(
    "a long default and many pages",
    lambda: {"_config.yml": DEFAULTS, **{f"{number}.html": FRONT for number in range(200)}},
    built(200),
    lambda: {f"{number}.html": b"" for number in range(200)},
    mebibytes=LITTLE,
)


def scopes(count: int) -> Files:
    """Scopes of `defaults`, none of which fits; they are put into their order one by one."""
    return {"_config.yml": b"defaults:\n" + b"".join(b"- scope: {path: a%d}\n  values: {x: 1}\n" % number for number in range(count)), "a.html": FRONT}


def layouts(count: int) -> Files:
    """Layouts in layouts, each with a variable of its own; each gets all of those within it."""
    files = {f"_layouts/l{place}.html": b"---\nlayout: l%d\nv%d: 1\n---\n{{ content }}" % (place + 1, place) for place in range(count)}
    return {"a.html": b"---\nlayout: l0\n---\n", **files}


grows("many scopes of defaults", scopes, lambda n: {"a.html": b""}, 5000)
grows("layouts in layouts with variables", layouts, lambda n: {"a.html": b""}, 500)


def seconds_at(room: Room, depth: int) -> float:
    """What 200 files take in folders of this depth. Before each write every folder above is looked at, by its whole path."""
    room.site = room.top / str(depth)
    room.out = room.site / "_site"
    write(room, {"a/" * depth + f"{number}.txt": b"" for number in range(200)})
    ran, took = run_limited(room, ["once"])
    room.same("the last reply", built(0, 200), ran.lines[-1])
    return took.seconds


@case("files in deep folders", 60, in_memory=True)
def deep_folders(room: Room) -> None:
    short, long = seconds_at(room, 100), seconds_at(room, 400)
    if long > GROWTH * short:
        room.differs("the time of four times as deep folders", f"at most {GROWTH} times {short:.2f} s", f"{long:.2f} s")
