"""Whether the edits tell a wrong checker from the program: each wrong one here takes the place of the plain one, or of what it is told."""
from __future__ import annotations

from contextlib import contextmanager
from typing import Any, Callable, Iterator

import plain
from client import Ended
from trial import KEPT_FILES, Differs, Trial

# Called before the wrong ones take their places.
RIGHT_LINKS, RIGHT_TARGET, RIGHT_TAG, RIGHT_BELIEVED, RIGHT_BUILD = plain.links, plain.target, plain.open_tag, Trial.believed, Trial.build


def with_comments(data: bytes) -> tuple[str, ...]:
    return RIGHT_LINKS(data.replace(b"<!--", b"<!=="))


def comments_of_two_dashes(data: bytes) -> tuple[str, ...]:
    return RIGHT_LINKS(data.replace(b"<!-->", b""))


def with_bad_bytes(data: bytes) -> tuple[str, ...]:
    return RIGHT_LINKS(data.decode(errors="replace").encode())


def one_of_a_tag(text: str, at: int) -> Any:
    tag = RIGHT_TAG(text, at)
    return tag and (tag[0][:1], tag[1])


def behind_no_tag(data: bytes) -> tuple[str, ...]:
    """Where there is no tag, this goes on behind the next `>` and not behind the `<`."""
    text, found, at = data.decode(errors="ignore"), [], 0
    while (at := text.find("<", at)) >= 0 and not text.startswith("<!--", at):
        tag = RIGHT_TAG(text, at)
        found += tag[0] if tag else []
        at = tag[1] if tag else text.find(">", at) % (len(text) + 1) + 1
    return tuple(found)


def of_value(change: Callable[[str], str]) -> Callable[[str, str, str], object]:
    return lambda page, value, base: RIGHT_TARGET(page, change(value), base)


def at_the_root(page: str, value: str, base: str) -> object:
    """What leads above the root stays there."""
    leads = RIGHT_TARGET(page, value, base)
    return leads if leads is not plain.BAD or ".." not in value else "index.html"


def of_the_files_alone(trial: Trial) -> Any:
    known, _ = RIGHT_BELIEVED(trial)
    return known, frozenset(known)


def without_marks(trial: Trial) -> Any:
    known, there = RIGHT_BELIEVED(trial)
    return known, there - trial.marked


def with_kept_pages(trial: Trial) -> Any:
    known, there = RIGHT_BELIEVED(trial)
    return {**known, **{path: data for path, data in KEPT_FILES.items() if path in there}}, there


def with_the_present_base(trial: Trial) -> Any:
    trial.base = plain.base_of(trial.edits.baseurl)
    return RIGHT_BELIEVED(trial)


def with_the_last_base(trial: Trial) -> None:
    """A build that could not write all does not change the base here."""
    base = trial.base
    RIGHT_BUILD(trial)
    if trial.marked:
        trial.base = base


def counts_each_page(trial: Trial) -> Any:
    trial.scanned = {}
    return RIGHT_BELIEVED(trial)


def forgets_nothing(trial: Trial) -> Any:
    """A page that has gone counts as scanned when it comes again as it was."""
    known, there = RIGHT_BELIEVED(trial)
    seen = trial.__dict__.setdefault("seen", {})
    seen.update(trial.scanned)
    trial.scanned = dict(seen)
    return known, there


def without_index(path: str, there: Any) -> bool:
    return path in there or path + ".html" in there


def without_html(path: str, there: Any) -> bool:
    return path in there or path + "/index.html" in there


# What is wrong, and what takes the place of what.
WRONG: tuple[tuple[str, object, str, object], ...] = (
    ("comments are looked at", plain, "links", with_comments),
    ("`<!-->` is a whole comment", plain, "links", comments_of_two_dashes),
    ("pages that are no UTF-8 have links", plain, "links", with_bad_bytes),
    ("a tag gives its first link alone", plain, "open_tag", one_of_a_tag),
    ("what is no tag is passed over as one", plain, "links", behind_no_tag),
    ("VT and FF are no white space", plain, "WHITE", " \t\n\r"),
    ("`&amp;` stays", plain, "target", of_value(lambda value: value.replace("&amp;", "&amp;amp;"))),
    ("`%23` and `%3F` end a path", plain, "target", of_value(lambda value: value.replace("%23", "#").replace("%3F", "?"))),
    ("a wrong `%` stays as it is", plain, "target", of_value(lambda value: value.replace("%zz", "%25zz").replace("%4/", "%254/"))),
    ("there is no scheme", plain, "has_scheme", lambda value: False),
    ("`..` stays at the root", plain, "target", at_the_root),
    ("a folder is not answered by its index", plain, "is_answered", without_index),
    ("a path is not answered by its `.html`", plain, "is_answered", without_html),
    ("no base is dropped", plain, "base_of", lambda baseurl: ""),
    ("a base of slashes is one", plain, "base_of", lambda baseurl: "/" + baseurl.strip("/")),
    ("kept and marked paths answer nothing", Trial, "believed", of_the_files_alone),
    ("marked paths answer nothing", Trial, "believed", without_marks),
    ("kept pages are looked at", Trial, "believed", with_kept_pages),
    ("the base is that of the files that are held", Trial, "believed", with_the_present_base),
    ("the base is that of the last build without a failure", Trial, "build", with_the_last_base),
    ("all pages count as scanned", Trial, "believed", counts_each_page),
    ("a page that has gone is not forgotten", Trial, "believed", forgets_nothing),
)


@contextmanager
def in_place(of: object, name: str, wrong: object) -> Iterator[None]:
    right = getattr(of, name)
    setattr(of, name, wrong)
    forget()
    try:
        yield
    finally:
        setattr(of, name, right)
        forget()


def forget() -> None:
    """What was found by another checker is found anew."""
    RIGHT_LINKS.cache_clear()
    RIGHT_TARGET.cache_clear()


def notice(play: Callable[[], Trial]) -> int:
    """Plays with each wrong checker; the status."""
    missed = 0
    for what, of, name, wrong in WRONG:
        try:
            with in_place(of, name, wrong):
                play()
        except Differs:
            continue
        except Ended as ended:
            print(f"links: {what}: {ended}")
        missed += 1
        print(f"links: not told from the program: {what}", flush=True)
    print(f"links: {len(WRONG) - missed} of {len(WRONG)} wrong checkers were told from the program")
    return 1 if missed else 0
