"""Patterns of paths as Ruby matches them, in a time that the lengths of pattern and path bound: a star is never tried in all its places with those of the others."""
from __future__ import annotations

from functools import lru_cache
from typing import Optional

from site_files import NotRead

# So many patterns may a pattern with braces stand for.
MOST_PATTERNS = 1000


def is_glob(entry: str) -> bool:
    return any(sign in entry for sign in "*?[\\")


@lru_cache(maxsize=None)
def ends_of(pattern: str) -> tuple[str, str, bool]:
    """The texts with which all begins and ends that fits a pattern, and whether it fits itself alone. Most paths are told apart by these."""
    signs = [at for at, sign in enumerate(pattern) if sign in "*?[]\\"]
    return (pattern[: signs[0]], pattern[signs[-1] + 1 :], False) if is_glob(pattern) else (pattern, pattern, True)


def fits(pattern: str, text: str) -> bool:
    """Ruby's File.fnmatch without flags: a star and a question mark stand for slashes too, and a point in front has to be written."""
    front, back, is_plain = ends_of(pattern)
    if is_plain:
        return pattern == text
    if not text.startswith(front) or not text.endswith(back):
        return False
    if (len(pattern) - len(pattern.rstrip("\\"))) % 2:
        # A backslash at the end stands for nothing.
        pattern = pattern[:-1]
    if text.startswith(".") and not pattern.startswith((".", "\\.")):
        return False
    at = place = 0
    # The last star, and where the text after it began.
    star: Optional[int] = None
    begun = 0
    while True:
        if at < len(pattern) and pattern[at] == "*":
            while at < len(pattern) and pattern[at] == "*":
                at += 1
            if at == len(pattern):
                return True
            star, begun = at, place
            continue
        if place == len(text):
            return at == len(pattern)
        after = after_one(pattern, at, text[place])
        if after is not None:
            at, place = after, place + 1
        elif star is not None:
            begun += 1
            at, place = star, begun
        else:
            return False


def after_one(pattern: str, at: int, sign: str) -> Optional[int]:
    """The place in a pattern after what stands for this sign; nothing when something else stands there."""
    if at == len(pattern):
        return None
    if pattern[at] == "?":
        return at + 1
    if pattern[at] == "[":
        return after_bracket(pattern, at + 1, sign)
    if pattern[at] == "\\" and at + 1 < len(pattern):
        at += 1
    return at + 1 if pattern[at] == sign else None


def after_bracket(pattern: str, at: int, sign: str) -> Optional[int]:
    """The place after a bracket in which this sign is; nothing when it is not, or the bracket is never closed."""
    turned = pattern[at : at + 1] in ("!", "^")
    at += turned
    found = False
    while at < len(pattern):
        if pattern[at] == "]":
            return at + 1 if found != turned else None
        first, at = sign_at(pattern, at)
        last = first
        if pattern[at : at + 1] == "-" and pattern[at + 1 : at + 2] not in ("]", ""):
            last, at = sign_at(pattern, at + 1)
        # The ends of a range are in it, even if it is the wrong way round.
        found = found or sign in (first, last) or first <= sign <= last
    return None


def sign_at(pattern: str, at: int) -> tuple[str, int]:
    """The sign at a place, and the place after it. A backslash takes the next one as it is."""
    at += pattern[at] == "\\" and at + 1 < len(pattern)
    return pattern[at], at + 1


@lru_cache(maxsize=None)
def without_braces(pattern: str) -> tuple[str, ...]:
    """The patterns that one with braces stands for. Raises NotRead when they are too many."""
    done: list[str] = []
    left = [pattern]
    while left:
        if len(done) + len(left) > MOST_PATTERNS:
            raise NotRead(f"the pattern {pattern[:60]} stands for more than {MOST_PATTERNS:,} others; write them out")
        one = left.pop()
        inner = first_braces(one)
        if inner is None:
            done.append(one)
        else:
            start, ends = inner
            left += [one[:start] + one[begin + 1 : end] + one[ends[-1] + 1 :] for begin, end in zip([start, *ends], ends)]
    return tuple(done)


def first_braces(pattern: str) -> Optional[tuple[int, list[int]]]:
    """Where the first braces begin, and where each of their parts ends; nothing without closed braces."""
    start, depth, ends = -1, 0, []
    at = 0
    while at < len(pattern):
        sign = pattern[at]
        if sign == "\\":
            at += 1
        elif sign == "{":
            start = at if depth == 0 else start
            depth += 1
        elif depth and sign == "," and depth == 1:
            ends.append(at)
        elif depth and sign == "}":
            depth -= 1
            if depth == 0:
                return start, [*ends, at]
        at += 1
    return None


def globs(pattern: str, path: str, is_folder: bool) -> bool:
    """Whether Ruby's Dir.glob finds a path by a pattern: a star stops at slashes, `**/` stands for folders, and a slash at the end for a folder alone."""
    steps = path.split("/")
    return any(is_found(one, steps, is_folder) for one in without_braces(pattern))


def is_found(pattern: str, steps: list[str], is_folder: bool) -> bool:
    if pattern.endswith("/") and not is_folder:
        return False
    parts = [part for part in pattern.split("/") if part]
    # How many steps the parts so far may stand for.
    counts = {0}
    for number, part in enumerate(parts):
        if part == "**" and (number + 1 < len(parts) or pattern.endswith("/")):
            counts = {more for count in counts for more in run_of_folders(steps, count)}
        else:
            # The first pattern finds the folder itself too when a point fits it.
            is_first = not any(is_glob(before) for before in parts[:number])
            stay = counts if is_first and fits(part, ".") else set()
            counts = stay | {count + 1 for count in counts if count < len(steps) and fits(part, steps[count])}
    return len(steps) in counts


def run_of_folders(steps: list[str], count: int) -> list[int]:
    """The counts that can be reached by folders without a point in front."""
    found = [count]
    while count < len(steps) and not steps[count].startswith("."):
        count += 1
        found.append(count)
    return found
