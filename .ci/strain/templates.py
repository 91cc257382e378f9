"""Templates that are long, that make much of little, and lists of a million elements."""
from __future__ import annotations

from typing import Callable, Sequence

from texts import FRONT, MOST, built, grows, site

MILLION = 1_000_000
# As many bytes as a page may have behind its front matter.
ROOM = MOST - len(FRONT)


def body(name: str, text: bytes, reply: str, html: bytes = b"", **more: object) -> None:
    """A page with this body, and its last reply; where it is built, its output."""
    is_built = reply.startswith("built ")
    site(f"Liquid: {name}", lambda: {"a.html": FRONT + text}, reply, (lambda: {"a.html": html}) if is_built else dict, **more)


def lists(name: str, use: bytes, html: bytes) -> None:
    """What is made of a list of a million numbers, the greatest first."""
    body(f"a list of a million: {name}", b"{% assign l = (1..1000000) | reverse %}" + use, built(1), html)


def same_texts(marks: Sequence[bytes]) -> None:
    """Marks that are none of Liquid's stand for themselves, 16 MiB of them."""
    for mark in marks:
        text = mark * (ROOM // len(mark))
        body(f"16 MiB of {mark.decode()!r}", text, built(1), text)


for mark in (b"{{", b"{%"):
    text = mark * (ROOM // 2)
    body(f"16 MiB of {mark.decode()!r}", text, "fault F10 1 a.html")
same_texts((b'"', b"[", b": ", b"- ", b"&", b"|"))

body("a million filters of a text", b'{{ "a"' + b" | upcase" * MILLION + b" }}", built(1), b"A")
body("a million filters of a number", b"{{ 1" + b" | plus: 1" * MILLION + b" }}", built(1), b"1000001")
body("a million conditions", b"{% if true" + b" and true" * MILLION + b" %}y{% endif %}", built(1), b"y")
body("a million members", b"{{ page" + b".a" * MILLION + b" }}", built(1))
body("a million branches", b"{% if false %}" + b"{% elsif false %}" * (MILLION - 100_000) + b"{% else %}y{% endif %}", built(1), b"y")
body("a million values of a case", b"{% case 1 %}{% when 2" + b" or 2" * MILLION + b" %}n{% else %}y{% endcase %}", built(1), b"y")
body("a million arguments", b"{{ 1 | plus: 1" + b", 1" * MILLION + b" }}", "fault F14 1 a.html")

lists("sorted", b"{% assign s = l | sort %}{{ s | first }} {{ s | last }}", b"1 1000000")
lists("sorted as texts", b"{% assign s = l | sort_natural %}{{ s | size }}", b"1000000")
lists("joined", b'{{ l | join: "" | size }}', b"5888896")
lists("mapped", b'{{ l | map: "x" | size }}', b"1000000")
lists("grouped", b'{{ l | group_by: "x" | size }}', b"1")
lists("compared", b"{% assign m = l | reverse | reverse %}{% if l == m %}y{% else %}n{% endif %}{% if l contains 0 %}y{% else %}n{% endif %}", b"yn")
lists("each once", b"{{ l | uniq | size }}", b"1000000")
lists("in itself", b"{{ l | push: l | size }}", b"1000001")
lists("twice", b"{{ l | concat: l | size }}", b"2000000")
lists("gone through", b"{% for i in l %}{% endfor %}{{ l | size }}", b"1000000")
body("a range that is too long", b"{{ (1..1000001) | size }}", "fault F19 1 a.html")

# A text of at most 16 MiB that grows takes at most three times as much, and the rest of the program 12 MiB.
DOUBLES = b'{% assign a = "aaaaaaaaaaaaaaaa" %}{% for i in (1..20) %}{% assign a = a | replace: "a", "aa" %}{% endfor %}'
THRICE = 3 * 16 + 12
body("a text that is doubled twenty times to the longest", DOUBLES + b"{{ a | size }}", built(1), b"16777216", mebibytes=THRICE)
body("a text that is doubled twenty times and is too long", DOUBLES.replace(b'"aaaa', b'"aaaaa', 1), "fault F20 1 a.html", mebibytes=THRICE)
body("a text for each of its characters", DOUBLES + b'{{ a | replace: "a", a }}', "fault F20 1 a.html", mebibytes=THRICE + 16)
body("a text that is put behind itself", b'{% assign a = "a" %}{% for i in (1..40) %}{% assign a = a | append: a %}{% endfor %}', "fault F20 1 a.html", mebibytes=THRICE + 16)


def needles(name: str, use: str) -> None:
    """A text in which a long other one is looked for that is nearly there at each place."""
    grows(
        f"Liquid: a text that is nearly there everywhere, {name}",
        lambda count: {"a.html": FRONT + f'{{% assign t = "{"a" * 2 * count}" %}}{{% assign u = "{"a" * count}b" %}}{use}'.encode()},
        lambda count: {"a.html": {"contains": "", "split": "1"}.get(name, str(2 * count)).encode()},
        500_000,
    )


needles("contains", "{% if t contains u %}y{% endif %}")
needles("replace", '{{ t | replace: u, "" | size }}')
needles("remove", "{{ t | remove: u | size }}")
needles("split", "{{ t | split: u | size }}")


def stripped(mark: str) -> None:
    grows(
        f"Liquid: strip_html of {mark!r}",
        lambda count: {"a.html": FRONT + f"{{% capture t %}}{mark * count}{{% endcapture %}}{{{{ t | strip_html | size }}}}".encode()},
        lambda count: {"a.html": str(len(mark) * count).encode()},
        250_000,
    )


for mark in ("<script", "<!--", "<a", "<style "):
    stripped(mark)


def many(name: str, text: Callable[[int], str], html: Callable[[int], str], size: int, **includes: str) -> None:
    """A template with much of one thing, as it stands with `%d` where it counts."""
    beside = {f"_includes/{include}.html": content.encode() for include, content in includes.items()}
    grows(f"Liquid: {name}", lambda count: {"a.html": FRONT + text(count).encode(), **beside}, lambda count: {"a.html": html(count).encode()}, size)


def counted(part: str, count: int) -> str:
    return "".join(part % number for number in range(count))


# Each tag and filter on much of what it reads.
many("a long comment", lambda n: "{% comment %}" + "x" * n + "{% endcomment %}", lambda n: "", 4_000_000)
many("many cycles", lambda n: counted('{%% cycle "%d": 1, 2 %%}', n), lambda n: "1" * n, 40_000)
many("many counters", lambda n: counted("{%% increment a%d %%}", n), lambda n: "0" * n, 40_000)
many("many variables", lambda n: counted("{%% assign a%d = 1 %%}", n) + "{{ a5 }}", lambda n: "1", 40_000)
many("many captures", lambda n: counted("{%% capture a%d %%}x{%% endcapture %%}", n) + "{{ a5 }}", lambda n: "x", 40_000)
many("many parameters", lambda n: "{% include n.html" + counted(" a%d=1", n) + " %}", lambda n: "1", 40_000, n="{{ include.a5 }}")
many("many includes", lambda n: "{% include n.html %}" * n, lambda n: "x" * n, 50_000, n="x")
many("a loop in a loop for each element", lambda n: "{%% for i in (1..%d) %%}{%% for j in (1..10) %%}{%% endfor %%}{%% endfor %%}" % n, lambda n: "", 50_000)
for what, text, use, length in (
    ("escape_once of many marks", "&", "escape_once", 5),
    ("escape_once of marks that nearly are references", "&#1", "escape_once", 7),
    ("url_decode", "%41", "url_decode", 1),
    ("slugify of what is no letter", "- ", "slugify", 0),
    ("white space at both ends", " ", "strip", 0),
    ("many parts", "a,", 'split: ","', 1),
    ("many characters", "a", 'split: ""', 1),
    ("truncatewords", "a ", "truncatewords: 900000000", 2),
):
    many(what, lambda n, text=text, use=use: f'{{{{ "{text * n}" | {use} | size }}}}', lambda n, length=length: str(length * n), 250_000)
many("many words", lambda n: f'{{{{ "{"a " * n}" | number_of_words }}}}', str, 250_000)
many(
    "texts that begin alike, sorted",
    lambda n: "{% assign l = '" + ",".join("a" * 1000 + str(number * 7919 % n) for number in range(n)) + "' | split: ',' %}{{ l | sort | size }}{{ l | sort_natural | size }}{{ l | uniq | size }}",
    lambda n: str(n) * 3,
    2000,
)
