"""A random site of pages that link to one another, and random edits of it, as the lines of a session."""
from __future__ import annotations

import random

from client import delete_line, put_head

FRONT = b"---\n---\n"
PAGES = 200
FOLDERS = ("", "", "a/", "b/", "a/c/", "b d/", "\u00e9/", "a&b/")
# As long as a path can be.
LONGEST = "/".join(["l" * 200] * 5) + f"/{'m' * 14}.html"
# Under the one base the other is a folder like any other.
BASES = ("", "/", "/a", "//a/c//", "blog", "/a b/")
KEPT = "kept"
BAD = "bad.html"
# Texts that are taken apart by one sign: most make no tag.
PARTS = (
    "<", "<", "<a", "<a ", "<A\n", "<img-2 ", "<!--", "-->", "--", "<!", "</a", "/", ">", ">", "/>", " ", "\t", "\n", "\r", "\x0b", "\x0c",
    " href", " HREF", " src", "\nhReF ", " data-href", " xlink:href", " _x:y.z-1", "=", " = ", "=\n", '"', "'", '"', "'", "`", "x", "1", "a.html", "..", "&amp;", "&", "%41", "%", "\u00e9", "?", "#", ":", ";",
)
# Signs of a value, put together at random.
SIGNS = ("/", "/", ".", "..", "a", "b", "c", "b d", "b%20d", "index.html", "p1", "p1.html", "%2e%2e", "%2F", "%2f", "%3F", "%23", "?q", "#x", "%", "%4", "%zz", "%C3%A9", "%C3", "\u00e9", "&amp;", "&amp;amp;", "&", ":", "a:", "//", "\t", "\x7f", "\x85", "+")


def page_path(number: int) -> str:
    """Where a page stands. The first is that of the site, and the second has the longest path; of the others some are without `.html`, some are the `index.html` of a folder of their own."""
    if number < 2:
        return ("index.html", LONGEST)[number]
    folder = FOLDERS[number % len(FOLDERS)]
    return f"{folder}{(f'p{number}.html', f'p{number}.html', f'p{number}', f'p{number}/index.html', f'p{number}.txt')[number % 5]}"


class Edits:
    """The files of a site, and edits of it. The same number gives the same edits."""

    def __init__(self, seed: int):
        self.random = random.Random(seed)
        self.files: dict[str, bytes] = {}
        self.baseurl = ""
        self.keeps = True
        # The page that went last, as it was.
        self.lost: tuple[str, bytes] = (page_path(0), b"")

    def value(self) -> str:
        """The value of a link: most lead to a page that may be there."""
        choose = self.random
        way = choose.random()
        if way < 0.6:
            path = page_path(choose.randrange(PAGES + 10))
            if choose.random() < 0.3:
                path = path.removesuffix("index.html").removesuffix(".html")
            base = choose.choice((self.baseurl, self.baseurl, *BASES)).strip("/")
            front = choose.choice((f"/{base}/" if base else "/", "/", "", "../", "./", "a/../"))
            return front + path.replace(" ", choose.choice(("%20", " "))).replace("&", choose.choice(("&", "&amp;"))) + choose.choice(("", "", "#x", "?q", "/"))
        if way < 0.7:
            return choose.choice(("..", "../..", "../../..", f"/{KEPT}/k.html", f"{KEPT}/k", f"/{KEPT}", f"/{KEPT}/no", "https://example.org/x", "mailto:a@b", "//h/x", "", "#", "?", ".", "/", f"/{LONGEST}", f"/{LONGEST}x"))
        return "".join(choose.choice(SIGNS) for _ in range(choose.randrange(6)))

    def tag(self) -> str:
        choose = self.random
        value = self.value()
        quote = choose.choice(('"', '"', "'", ""))
        name = choose.choice(("href", "href", "src", "HREF", "data-href"))
        before = choose.choice(("", "", " b", ' b="<a href=x>"', " b='\"'"))
        gap = choose.choice((" ", " ", " ", "\n", "\x0b", "\x0c"))
        after = choose.choice(("", " ", "/", " /", " c", f" Src='{self.value()}'"))
        return f"<{choose.choice(('a', 'img', 'LINK', 'x-1'))}{before}{gap}{name}={quote}{value}{quote}{after}>"

    def text(self) -> bytes:
        """The text of a page."""
        choose = self.random
        parts = []
        for _ in range(choose.randrange(12)):
            way = choose.random()
            if way < 0.7:
                parts.append(self.tag())
            elif way < 0.75:
                parts.append(f"<!--{self.tag()}{choose.choice(('-->', '-->', '-->', '--', '>'))}")
            else:
                parts.append("".join(choose.choice(PARTS) for _ in range(choose.randrange(12))))
        data = "\n".join(parts).encode()
        way = choose.random()
        if way < 0.5:
            return FRONT + data
        # What is copied may be any bytes.
        return data + b"\xff" if way < 0.55 else b"\xef\xbb\xbf" + data if way < 0.6 else data

    def put(self, path: str, data: bytes) -> bytes:
        self.files[path] = data
        return put_head(path, len(data)) + data

    def delete(self, path: str) -> bytes:
        self.files.pop(path, None)
        return delete_line(path)

    def settings(self) -> list[bytes]:
        """The configuration, with another address; what is kept goes in the end."""
        self.baseurl = self.random.choice(BASES)
        self.keeps = self.keeps and self.random.random() < 0.95
        return [self.put("_config.yml", f'baseurl: "{self.baseurl}"\nkeep_files: [{KEPT if self.keeps else "none"}]\n'.encode())]

    def begin(self) -> list[bytes]:
        """The lines that put the whole site."""
        pages = [self.put(page_path(number), self.text()) for number in range(PAGES)]
        return [self.put("_config.yml", f"keep_files: [{KEPT}]\n".encode()), *pages]

    def page(self) -> list[bytes]:
        """A page that is new or another."""
        return [self.put(page_path(self.random.randrange(PAGES)), self.text())]

    def gone(self) -> list[bytes]:
        """A page that goes, if it is there."""
        path = page_path(self.random.randrange(PAGES))
        self.lost = (path, self.files.get(path, b""))
        return [self.delete(path)]

    def back(self) -> list[bytes]:
        """The page that went last is as it was."""
        return [self.put(*self.lost)]

    def moved(self) -> list[bytes]:
        """A file `f.html` that becomes a folder of that name, or the other way round."""
        old, new = ("f.html", "f.html/index.html") if "f.html" in self.files else ("f.html/index.html", "f.html")
        return [self.delete(old), self.put(new, self.text())]

    def faulty(self) -> list[bytes]:
        """A page with a fault, or its end: while it is there nothing is built."""
        return [self.delete(BAD) if BAD in self.files else self.put(BAD, FRONT + b"{{")]

    def next(self) -> list[bytes]:
        """The lines of a few edits."""
        choose = self.random
        ways = ((self.page, 60), (self.gone, 12), (self.back, 6), (self.moved, 4), (self.settings, 2), (self.faulty, 30 if BAD in self.files else 2))
        chosen = choose.choices([way for way, _ in ways], [weight for _, weight in ways], k=choose.choice((0, 1, 1, 1, 2, 5)))
        return [line for way in chosen for line in way()]
