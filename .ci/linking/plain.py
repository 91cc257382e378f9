"""A link checker as docs/PROFILE.md says it in "Broken links": one step after another, slow, and made for nothing but to be compared with."""
from __future__ import annotations

from functools import lru_cache
from typing import Iterable, Mapping, Optional

WHITE = " \t\n\v\f\r"
LETTERS = "abcdefghijklmnopqrstuvwxyzABCDEFGHIJKLMNOPQRSTUVWXYZ"
DIGITS = "0123456789"
HEXADECIMAL = DIGITS + "abcdefABCDEF"
NOT_BARE = WHITE + "\"'=<>`"
PAGE = ".html"
MOST_PATH = 1024


# ---- the links of a page


@lru_cache(maxsize=4096)
def links(data: bytes) -> tuple[str, ...]:
    """The values of `href` and `src` in the open tags of a page, in their order; none of what is no UTF-8."""
    try:
        text = data.decode()
    except UnicodeDecodeError:
        return ()
    found: list[str] = []
    at = 0
    while True:
        at = text.find("<", at)
        if at < 0:
            return tuple(found)
        if text.startswith("<!--", at):
            end = text.find("-->", at + 4)
            if end < 0:
                return tuple(found)
            at = end + 3
            continue
        tag = open_tag(text, at)
        if tag is None:
            at += 1
        else:
            values, at = tag
            found += values


def open_tag(text: str, at: int) -> Optional[tuple[list[str], int]]:
    """The values of the open tag that begins at a `<`, and the place behind it; nothing where there is no such tag."""
    at += 1
    if not one_of(text, at, LETTERS):
        return None
    at = past(text, at, LETTERS + DIGITS + "-")
    values: list[str] = []
    while True:
        attribute = read_attribute(text, at)
        if attribute is None:
            break
        name, value, at = attribute
        if value is not None and name.lower() in ("href", "src"):
            values.append(value)
    at = past(text, at, WHITE)
    if one_of(text, at, "/"):
        at += 1
    return (values, at + 1) if one_of(text, at, ">") else None


def read_attribute(text: str, at: int) -> Optional[tuple[str, Optional[str], int]]:
    """The name of an attribute with white space before it, its value if it has one, and the place behind it."""
    begin = past(text, at, WHITE)
    if begin == at or not one_of(text, begin, LETTERS + "_:"):
        return None
    end = past(text, begin, LETTERS + DIGITS + "_:.-")
    name = text[begin:end]
    at = past(text, end, WHITE)
    if not one_of(text, at, "="):
        return name, None, end
    at = past(text, at + 1, WHITE)
    for quote in "\"'":
        if one_of(text, at, quote):
            close = text.find(quote, at + 1)
            return (name, None, end) if close < 0 else (name, text[at + 1 : close], close + 1)
    close = at
    while close < len(text) and text[close] not in NOT_BARE:
        close += 1
    return (name, None, end) if close == at else (name, text[at:close], close)


def one_of(text: str, at: int, signs: str) -> bool:
    return at < len(text) and text[at] in signs


def past(text: str, at: int, signs: str) -> int:
    while one_of(text, at, signs):
        at += 1
    return at


# ---- where a link leads

OUTSIDE = object()
BAD = object()


@lru_cache(maxsize=1 << 16)
def target(page: str, value: str, base: str) -> object:
    """Where a value leads that stands in a page: a path, OUTSIDE or BAD."""
    value = value.replace("&amp;", "&")
    if value.startswith("//") or has_scheme(value):
        return OUTSIDE
    for sign in "?#":
        value = value.split(sign)[0]
    decoded = decode(value)
    if decoded is None:
        return BAD
    if decoded == "":
        return page
    if decoded.startswith("/"):
        if decoded != base and not decoded.startswith(base + "/"):
            return OUTSIDE
        whole = decoded[len(base) :]
    else:
        whole = "/".join([*page.split("/")[:-1], decoded])
    path: list[str] = []
    segments = whole.split("/")
    for segment in segments:
        if segment == "..":
            if not path:
                return BAD
            path.pop()
        elif segment not in ("", "."):
            path.append(segment)
    if segments[-1] in ("", ".", "..") or not path:
        path.append("index.html")
    return "/".join(path) if is_path("/".join(path)) else BAD


def has_scheme(value: str) -> bool:
    if not one_of(value, 0, LETTERS):
        return False
    return one_of(value, past(value, 0, LETTERS + DIGITS + "+.-"), ":")


def decode(value: str) -> Optional[str]:
    """A text with a byte for each `%XX`; nothing where a `%` is none of these, or the bytes are no UTF-8."""
    data = value.encode()
    out = bytearray()
    at = 0
    while at < len(data):
        if data[at : at + 1] != b"%":
            out.append(data[at])
            at += 1
            continue
        digits = data[at + 1 : at + 3].decode("latin-1")
        if len(digits) < 2 or not all(digit in HEXADECIMAL for digit in digits):
            return None
        out.append(int(digits, 16))
        at += 3
    try:
        return bytes(out).decode()
    except UnicodeDecodeError:
        return None


def is_path(text: str) -> bool:
    """Whether a text, whose segments are no empty ones and no dots, is a path of a site."""
    data = text.encode()
    return 0 < len(data) <= MOST_PATH and all(byte >= 32 and byte != 127 for byte in data)


# ---- what is broken


def base_of(baseurl: str) -> str:
    inner = baseurl.strip("/")
    return "/" + inner if inner else ""


def is_answered(path: str, there: Iterable[str]) -> bool:
    return path in there or path + ".html" in there or path + "/index.html" in there


def broken(pages: Mapping[str, bytes], there: frozenset[str], base: str) -> list[tuple[str, str]]:
    """The broken links of some files, `there` being all paths that answer: the page of each, and its value as it is said."""
    found = []
    for path in sorted(pages, key=str.encode):
        if path.endswith(PAGE):
            for value in links(pages[path]):
                leads = target(path, value, base)
                if leads is BAD or isinstance(leads, str) and not is_answered(leads, there):
                    found.append((path, said(value)))
    return found


def said(value: str) -> str:
    """A value as a line of a reply has it: `?` for each control character."""
    if value.isprintable():
        return value
    return "".join("?" if ord(sign) < 32 or 127 <= ord(sign) < 160 else sign for sign in value)


def reply(pages: Mapping[str, bytes], there: frozenset[str], base: str, scanned: int) -> list[str]:
    """The lines of a reply to `links`."""
    found = broken(pages, there, base)
    return [f"links {len(found)} scanned={scanned}", *(f"broken {path} {value}" for path, value in found)]
