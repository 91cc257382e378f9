"""The site that `jekyll new` makes, adopted and built, beside Jekyll's own build of it: page by page, texts and links."""
from __future__ import annotations

import re
import time
from html.parser import HTMLParser
from pathlib import Path
from typing import Optional
from xml.etree import ElementTree

from common import GEMS, PROGRAM, Failures, adopt, has, read_files, run

# Files that Jekyll makes and the adopted site has not: maps from CSS to Sass.
NOT_MADE = {"assets/main.css.map"}
# What differs in a page's head: who made it, and who wrote the tags of the head.
GENERATOR = ("sitebuild", "Jekyll v4.3.1")


class Page(HTMLParser):
    """The words of a page, and where its links, images and metadata lead, in order."""

    def __init__(self, text: str):
        super().__init__()
        self.text = ""
        self.links: list[tuple[str, str]] = []
        self.metas: list[tuple[str, str]] = []
        self.feed(text)
        self.words = self.text.split()

    def handle_starttag(self, tag: str, attributes: list[tuple[str, Optional[str]]]) -> None:
        given = dict(attributes)
        for key in ("href", "src"):
            if key in given:
                self.links.append((f"{tag} {key}", given[key] or ""))
        if tag == "meta":
            self.metas.append((given.get("name") or given.get("property") or "", given.get("content") or ""))

    def handle_data(self, data: str) -> None:
        self.text += data


def missing_packages() -> list[str]:
    """Debian's packages that this needs, and that are not here."""
    there = {"jekyll": has("jekyll") and has("ruby"), "jekyll-theme-minima": any(GEMS.glob("minima-*")), "sassc": has("sassc")}
    return [package for package, is_there in there.items() if not is_there]


def try_all(work: Path, failures: Failures) -> None:
    missing = missing_packages()
    if missing:
        print(f"not tried: the site of jekyll new; it needs {', '.join(missing)}")
    else:
        seconds = try_proof(work, failures)
        print(f"the site of jekyll new, adopted and built in {seconds:.1f} s: the texts and links of Jekyll's own build")


def try_proof(work: Path, failures: Failures) -> float:
    """The seconds that adopting and building take."""
    made = run(["jekyll", "new", "--skip-bundle", "my-site"], work)
    failures.expect("jekyll new", made.returncode, 0)
    site = work / "my-site"
    before = read_files(site)
    start = time.monotonic()
    done = adopt(site)
    adopted = work / "my-site-adopted"
    built = run([PROGRAM, "once"], adopted)
    seconds = time.monotonic() - start
    failures.expect(f"site adopt: {done.stdout}{done.stderr}", done.returncode, 0)
    failures.expect(f"the adopted site: {built.stderr}", built.returncode, 0)
    failures.expect("what a site of `jekyll new` has left", kinds(done.stdout, "left"), ["code comes out without colours and line numbers"])
    failures.expect("the site itself after site adopt", read_files(site), before)
    jekyll = run(["jekyll", "build", "--quiet", "--disable-disk-cache", "-d", work / "my-site-jekyll"], site, JEKYLL_ENV="production", TZ="UTC")
    failures.expect(f"jekyll build: {jekyll.stderr}", jekyll.returncode, 0)
    compare(read_files(adopted / "_site"), read_files(work / "my-site-jekyll"), failures)
    return seconds


def kinds(said: str, word: str) -> list[str]:
    """What the lines of this word say, without their places and remedies."""
    return [re.sub(r"^\w+: [^ ]+: |;.*$", "", line) for line in said.splitlines() if line.startswith(f"{word}: ")]


def compare(here: dict[str, bytes], there: dict[str, bytes], failures: Failures) -> None:
    failures.expect("the files of both", set(here) | NOT_MADE, set(there))
    for path in sorted(set(here) & set(there)):
        ours, theirs = here[path].decode(), there[path].decode()
        if path.endswith(".html"):
            compare_pages(path, Page(ours), Page(theirs), failures)
        elif path.endswith(".css"):
            # The last line of each says what it was made of.
            failures.expect(path, ours.rstrip().splitlines()[:-1], theirs.rstrip().splitlines()[:-1])
        elif path == "feed.xml":
            failures.expect("the elements of feed.xml", elements(ours), elements(theirs))
        else:
            failures.expect(path, ours, theirs)


def compare_pages(path: str, ours: Page, theirs: Page, failures: Failures) -> None:
    failures.expect(f"the words of {path}", ours.words, theirs.words)
    failures.expect(f"the links of {path}", ours.links, theirs.links)
    metas = [("generator", GENERATOR[1]) if meta == ("generator", GENERATOR[0]) else meta for meta in ours.metas]
    failures.expect(f"the metadata of {path}", metas, theirs.metas)


def elements(feed: str) -> list[tuple[str, dict, list[str]]]:
    """The elements of a feed, with the words of the HTML in them. When it was made, and by whom, differs."""
    found = []
    for element in ElementTree.fromstring(feed).iter():
        name = element.tag.rpartition("}")[2]
        if name != "generator":
            found.append((name, element.attrib, Page(element.text or "").words))
    first = next(number for number, (name, _, _) in enumerate(found) if name == "updated")
    return found[:first] + found[first + 1 :]
