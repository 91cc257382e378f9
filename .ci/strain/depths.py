"""What may stand in itself: the greatest depth that is taken, and one more; with a small stack, on the first thread and on one of its own."""
from __future__ import annotations

import shutil
from pathlib import Path
from typing import Callable, Sequence

from room import PassedOver, Room, case, meddling
from texts import FRONT, SECONDS, Files, built, comes_of, site, write

# docs/PROFILE.md has these limits.
BLOCKS = 100
VALUES = 1000
YAML = 64
JSON = 127
# By the thread that reads the site.
FIRST = (("once",), ("build",))
SEVERAL = (("build", "--jobs", "4"),)
# For one page alone the program begins no thread.
MORE = {"zz.html": FRONT}
# What is told before anything is rendered.
READING = ("fault F5 ", "fault F8 ")
EMPTY = b'{% assign e = "" | split: "" %}'


def deep(name: str, files: Callable[[], Files], reply: str, wanted: Callable[[], Files] = dict, runs: Sequence[Sequence[str]] = FIRST, seconds: float = SECONDS) -> None:
    """Enters two cases: the first thread builds a site, and another one, whose stack is as small."""
    site(f"depth: {name}", files, reply, wanted, runs, seconds=seconds)

    def play(room: Room) -> None:
        write(room, {**files(), **MORE})
        with_more = {path: b"" for path in MORE} if wanted() else {}
        more = built(len(wanted()) + len(MORE)) if wanted() else reply
        comes_of(room, ("build", "--jobs", "2"), more, {**wanted(), **with_more}, threads_first(room))

    if not reply.startswith(READING):
        case(f"depth: {name}, on a thread of its own", seconds, in_memory=True)(play)


def threads_first(room: Room) -> Sequence[str]:
    """The words by which a run leaves all that is to be rendered to the first thread that it begins."""
    env = shutil.which("env")
    if not env:
        raise PassedOver("it needs env")
    return env, f"LD_PRELOAD={meddling(room, Path(__file__).with_name('threads_first.c'))}"


def both(name: str, most: int, text: Callable[[int], bytes], html: bytes, fault: str) -> None:
    """A page whose body stands in itself as deep as is allowed, and one deeper."""
    deep(f"{most} {name}", lambda: {"a.html": FRONT + text(most)}, built(1), lambda: {"a.html": html})
    deep(f"{most + 1} {name}", lambda: {"a.html": FRONT + text(most + 1)}, f"fault {fault} a.html")


def nested(begin: bytes, inside: bytes, end: bytes) -> Callable[[int], bytes]:
    return lambda count: begin * count + inside + end * count


def chain(count: int) -> dict[str, bytes]:
    """A page and includes, each of which includes the next; this many of them are in one another."""
    files = {f"_includes/{place}.html": b"{%% include %d.html %%}" % (place + 1) for place in range(1, count)}
    return {"a.html": FRONT + b"{% include 1.html %}", **files, f"_includes/{count}.html": b"x"}


def levels(count: int) -> bytes:
    """A list in a list, this deep, by the name a."""
    return EMPTY + b"{%% assign a = e %%}{%% for i in (2..%d) %%}{%% assign a = e | push: a %%}{%% endfor %%}" % count


both("conditions", BLOCKS, nested(b"{% if true %}", b"x", b"{% endif %}"), b"x", "F18 1")
both("loops", BLOCKS, nested(b"{% for i in (1..1) %}", b"x", b"{% endfor %}"), b"x", "F18 1")
both("cases", BLOCKS, nested(b"{% case 1 %}{% when 1 %}", b"x", b"{% endcase %}"), b"x", "F18 1")
both("captures", BLOCKS, nested(b"{% capture a %}", b"x", b"{% endcapture %}"), b"", "F18 1")
both("tables", BLOCKS, nested(b"{% tablerow i in (1..1) %}", b"x", b"{% endtablerow %}"), nested(b'<tr class="row1">\n<td class="col1">', b"x", b"</td></tr>\n")(BLOCKS), "F18 1")
both("brackets of an expression", BLOCKS, lambda count: b"{{ " + nested(b"a[", b"1", b"]")(count) + b" }}", b"", "F10 1")
both("ranges of an expression", BLOCKS, lambda count: b"{{ " + nested(b"(", b"1", b"..2)")(count) + b" }}", b"0..2", "F10 1")


def named_loops(inside: bytes) -> bytes:
    """A loop in a loop, as deep as is allowed, each with a name of its own."""
    return b"".join(b"{%% for i%d in (1..1) %%}" % place for place in range(BLOCKS)) + inside + b"{% endfor %}" * BLOCKS


deep("names that are looked for through 100 loops", lambda: {"a.html": FRONT + named_loops(b"{{ i0 }}{{ i99 }}{{ none }}{{ page.path }}")}, built(1), lambda: {"a.html": b"11a.html"})
OUTWARD = b"{% assign f = forloop %}{% for j in (1..98) %}{% assign f = f.parentloop %}{% endfor %}{{ f.index }}{{ f.parentloop }}{{ forloop.parentloop.parentloop.length }}"
deep("the loops around the 99th", lambda: {"a.html": FRONT + nested(b"{% for i in (1..1) %}", OUTWARD, b"{% endfor %}")(BLOCKS - 1)}, built(1), lambda: {"a.html": b"11"})
deep("100 includes", lambda: chain(BLOCKS), built(1), lambda: {"a.html": b"x"})
deep("101 includes", lambda: chain(BLOCKS + 1), f"fault F18 1 _includes/{BLOCKS}.html")

def handed_on() -> dict[str, bytes]:
    """Includes in one another, each of which hands on all that it was given; the last shows it."""
    files = {f"_includes/{place}.html": b"{%% include %d.html x=include %%}" % (place + 1) for place in range(1, BLOCKS)}
    return {"a.html": FRONT + b"{% include 1.html x=1 %}", **files, f"_includes/{BLOCKS}.html": b"{{ include | jsonify }}{{ i }}"}


deep("100 includes that hand on what they were given", handed_on, built(1), lambda: {"a.html": b'{"x":' * BLOCKS + b"1" + b"}" * BLOCKS})
deep("an include of itself", lambda: {"a.html": FRONT + b"{% include a.html %}", "_includes/a.html": b'{% include a.html x="1" %}'}, "fault F18 1 _includes/a.html")
deep("a file of itself", lambda: {"a.html": FRONT + b"{% include_relative b.txt %}", "b.txt": b"{% include_relative b.txt %}"}, "fault F18 1 b.txt")
deep(
    "a post's excerpt in blocks",
    lambda: {"_posts/2020-01-01-a.html": FRONT + b"x", "a.html": FRONT + nested(b"{% if true %}", b"{{ site.posts[0].excerpt }}", b"{% endif %}")(BLOCKS - 1)},
    built(2),
    lambda: {"2020/01/01/a.html": b"x", "a.html": b"x"},
)
deep(
    "a post's excerpt in too many blocks",
    lambda: {"_posts/2020-01-01-a.html": FRONT + b"x", "a.html": FRONT + nested(b"{% if true %}", b"{{ site.posts[0].excerpt }}", b"{% endif %}")(BLOCKS)},
    "fault F18 1 a.html",
)


def excerpt_of_blocks(inside: int) -> dict[str, bytes]:
    """A page that shows an excerpt in 50 blocks, and a post whose excerpt has so many."""
    block = (b"{% if true %}", b"x", b"{% endif %}")
    return {"_posts/2020-01-01-a.html": FRONT + nested(*block)(inside), "a.html": FRONT + nested(block[0], b"{{ site.posts[0].excerpt }}", block[2])(50)}


deep("49 blocks in an excerpt in 50 blocks", lambda: excerpt_of_blocks(49), built(2), lambda: {"2020/01/01/a.html": b"x", "a.html": b"x"})
deep("50 blocks in an excerpt in 50 blocks", lambda: excerpt_of_blocks(50), "fault F18 1 _posts/2020-01-01-a.html")
deep(
    "excerpts that show one another",
    lambda: {f"_posts/2020-01-01-{place:03}.html": FRONT + b"{{ page.next.excerpt }}" for place in range(150)},
    built(150),
    lambda: {f"2020/01/01/{place:03}.html": b"" for place in range(150)},
)

USES = (
    b"{{ a }}{{ a | join }}{% if a == a %}y{% endif %}{% assign b = a | reverse %}{{ a | sort | size }}{{ a | uniq | size }}"
    b'{{ a | compact | size }}{{ a | map: "x" | size }}{{ a | escape }}'
)
both("lists in one another", VALUES, levels, b"", "F18 1")
deep("1000 lists in one another, used", lambda: {"a.html": FRONT + levels(VALUES) + USES + b"{{ a | jsonify }}"}, built(1), lambda: {"a.html": b"y111" + b"1" + b"[" * VALUES + b"]" * VALUES})
deep(
    "1000 lists in one another, used in a hundred loops",
    lambda: {"a.html": FRONT + levels(VALUES) + nested(b"{% for i in (1..1) %}", b"{{ a }}{{ a | join }}{{ a | sort | size }}{{ a | jsonify | size }}", b"{% endfor %}")(BLOCKS)},
    built(1),
    lambda: {"a.html": b"1%d" % (2 * VALUES)},
)


def hashes(count: int) -> bytes:
    """A hash in a hash, this deep, by the name a; c is one not quite so deep. The include n.html keeps what it was given."""
    return b"{%% assign a = 1 %%}{%% for i in (1..%d) %%}{%% include n.html x=a %%}{%% endfor %%}{%% assign c = a.x.x.x.x %%}" % count


KEEPS = {"_includes/n.html": b"{% assign a = include %}", "_includes/m.html": b"{{ include.y | jsonify | size }}"}
# Every filter that goes through a value, on one that is as deep as it may be, and on a list of one that nearly is.
THROUGH = (
    b'{{ a }}{{ a | jsonify | size }}{% if a == a %}y{% endif %}{% assign l = "" | split: "" | push: c %}{{ l | uniq | size }}{{ l | sort_natural | size }}'
    b'{{ l | map: "x" | size }}{{ l | where: "x", c.x | size }}{{ l | group_by: "y" | size }}{{ l | join | size }}{{ l | array_to_sentence_string | size }}'
    b"{% include m.html y=c %}"
)
THROUGH_HASHES = b"6001y11111005977"
deep("1001 hashes in one another", lambda: {"a.html": FRONT + hashes(VALUES + 1), **KEEPS}, "fault F18 1 a.html")
deep("1000 hashes in one another, used", lambda: {"a.html": FRONT + hashes(VALUES) + THROUGH, **KEEPS}, built(1), lambda: {"a.html": THROUGH_HASHES})
deep(
    "1000 hashes in one another, made and used in 97 blocks",
    lambda: {"a.html": FRONT + nested(b"{% if true %}", hashes(VALUES) + THROUGH, b"{% endif %}")(BLOCKS - 3), **KEEPS},
    built(1),
    lambda: {"a.html": THROUGH_HASHES},
)
deep(
    "1000 hashes in one another, by 64 threads",
    lambda: {**{f"{place:02}.html": FRONT + nested(b"{% if true %}", hashes(VALUES) + THROUGH, b"{% endif %}")(BLOCKS - 3) for place in range(64)}, **KEEPS},
    built(64),
    lambda: {f"{place:02}.html": THROUGH_HASHES for place in range(64)},
    (("build", "--jobs", "64"),),
)

for name, text in (("[", lambda count: b"[" * count + b"]" * count), ("-", lambda count: b"- " * (count - 1) + b"[]")):
    shown = b"[" * YAML + b"]" * YAML
    deep(f"64 lists of YAML by {name}", lambda text=text: {"_data/a.yml": text(YAML), "a.html": FRONT + b"{{ site.data.a | jsonify }}"}, built(1), lambda shown=shown: {"a.html": shown})
    deep(f"65 lists of YAML by {name}", lambda text=text: {"_data/a.yml": text(YAML + 1)}, "fault F5 1 _data/a.yml")
    deep(f"63 lists of YAML by {name} in front matter", lambda text=text: {"a.html": b"---\na:\n  " + text(YAML - 1) + b"\n---\n{{ page.a | jsonify }}"}, built(1), lambda: {"a.html": b"[" * 63 + b"]" * 63})
    deep(f"64 lists of YAML by {name} in front matter", lambda text=text: {"a.html": b"---\na:\n  " + text(YAML) + b"\n---\nx"}, "fault F5 3 a.html")


def mappings(count: int) -> bytes:
    return b"".join(b" " * depth + b"a:\n" for depth in range(count)) + b" " * count + b"1\n"


deep("64 mappings of YAML", lambda: {"_data/a.yml": mappings(YAML), "a.html": FRONT + b"{{ site.data.a | jsonify }}"}, built(1), lambda: {"a.html": b'{"a":' * YAML + b"1" + b"}" * YAML})
deep("65 mappings of YAML", lambda: {"_data/a.yml": mappings(YAML + 1)}, f"fault F5 {YAML + 1} _data/a.yml")
deep("5000 mappings of YAML", lambda: {"_data/a.yml": mappings(5000)}, f"fault F5 {YAML + 1} _data/a.yml")
deep(
    "32 mappings of YAML in lines around 32 in brackets",
    lambda: {"_data/a.yml": mappings(32).removesuffix(b"1\n") + b"{a: " * 32 + b"1" + b"}" * 32, "a.html": FRONT + b"{{ site.data.a | jsonify }}"},
    built(1),
    lambda: {"a.html": b'{"a":' * YAML + b"1" + b"}" * YAML},
)
deep("64 mappings of YAML in the configuration", lambda: {"_config.yml": mappings(YAML), "a.html": FRONT + b"{{ site.a | jsonify }}"}, built(1), lambda: {"a.html": b'{"a":' * 63 + b"1" + b"}" * 63})
deep("65 mappings of YAML in the configuration", lambda: {"_config.yml": mappings(YAML + 1)}, f"fault F5 {YAML + 1} _config.yml")
deep("127 objects of JSON", lambda: {"_data/a.json": b'{"a":' * JSON + b"1" + b"}" * JSON, "a.html": FRONT + b"{{ site.data.a | jsonify }}"}, built(1), lambda: {"a.html": b'{"a":' * JSON + b"1" + b"}" * JSON})
deep("128 objects of JSON", lambda: {"_data/a.json": b'{"a":' * (JSON + 1) + b"1" + b"}" * (JSON + 1)}, "fault F8 0 _data/a.json")
deep("127 lists of JSON", lambda: {"_data/a.json": b"[" * JSON + b"]" * JSON, "a.html": FRONT + b"{{ site.data.a | jsonify }}"}, built(1), lambda: {"a.html": b"[" * JSON + b"]" * JSON})
deep("128 lists of JSON", lambda: {"_data/a.json": b"[" * (JSON + 1) + b"]" * (JSON + 1)}, "fault F8 0 _data/a.json")

# Folders of data are in one another too: 506 fit into a path, and JSON into them; then lists around, until a value may be no deeper.
FOLDERS = 506
INSIDE = 1 + FOLDERS + JSON


def folders(around: int) -> dict[str, bytes]:
    lists = b"{%% assign a = e | push: site.data %%}{%% for i in (2..%d) %%}{%% assign a = e | push: a %%}{%% endfor %%}" % around
    return {"_data/" + "a/" * FOLDERS + "b.json": b"[" * JSON + b"]" * JSON, "a.html": FRONT + EMPTY + lists + b"{{ a }}{{ a | jsonify | size }}"}


deep("folders of data", lambda: folders(VALUES - INSIDE), built(1), lambda: {"a.html": b"%d" % (2 * (VALUES - INSIDE) + 2 * JSON + 6 * (FOLDERS + 1))})
deep("folders of data, one list more", lambda: folders(VALUES - INSIDE + 1), "fault F18 1 a.html")

# As many posts as a site may have files beside the page of a thread; each shows the one before.
POSTS = 49_999


def follows(count: int) -> dict[str, bytes]:
    return {f"_posts/2020-01-01-{place:05}.html": FRONT + (b"{{ page.previous.content }}" if place else b"x") for place in range(count)}


# The files themselves take their time to write and to compare.
deep(
    f"{POSTS} posts that each show the one before",
    lambda: follows(POSTS),
    built(POSTS),
    lambda: {f"2020/01/01/{place:05}.html": b"x" for place in range(POSTS)},
    (*FIRST[1:], *SEVERAL),
    3 * SECONDS,
)
deep(
    "layouts in layouts",
    lambda: {"a.html": b"---\nlayout: l0\n---\nx", **{f"_layouts/l{place}.html": b"---\nlayout: l%d\n---\n{{ content }}" % (place + 1) for place in range(20_000)}},
    built(1),
    lambda: {"a.html": b"x"},
)
for name, text in (("quotes", b"> " * 500_000 + b"x"), ("lists", b"- " * 500_000 + b"x"), ("brackets", b"[" * 2_000_000 + b"a" + b"]" * 2_000_000)):
    whole = {
        "quotes": b"<blockquote>\n" * 500_000 + b"<p>x</p>\n" + b"</blockquote>\n" * 500_000,
        "lists": b"<ul>\n<li>\n" * 499_999 + b"<ul>\n<li>x</li>\n</ul>\n" + b"</li>\n</ul>\n" * 499_999,
        "brackets": b"<p>" + text + b"</p>\n",
    }[name]
    deep(f"{name} of Markdown", lambda text=text: {"a.md": FRONT + text}, built(1), lambda whole=whole: {"a.html": whole})
