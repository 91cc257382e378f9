"""Compares what a row states with what the program answers."""
import difflib

from rows import OF_SITES
from texts import is_plain, show_text

LONGEST = 300
MOST_LINES = 4000


def is_as_stated(row, answer):
    return answer == row.expected


def show_text_row(outcome, row, with_escapes):
    """The lines of a text or a fault, with a line above it where the row has the other."""
    lines = []
    for name, data in outcome.items():
        if (name == "fault") != ("fault" in row.words):
            lines.append("(a fault, where a text has to come out)" if name == "fault" else "(a text, where a fault has to come out)")
        lines += show_text(data if row.kind == "example" else data + b"\n", with_escapes)
    return lines


def show_step(outcome, with_escapes):
    """The lines of what comes out of a step."""
    lines = show_text(outcome["replies"], with_escapes)
    for name in sorted(set(outcome) - {"replies"}):
        if name == "status" and outcome[name] != b"0":
            lines.append(f"-- status {outcome[name].decode()} --")
        elif outcome[name] is None:
            lines.append(f"-- {name} -- missing")
        elif name == "fault":
            lines.append(f"-- {outcome[name].decode()} --")
        elif name != "status" and (name != "standard error" or outcome[name]):
            lines.append(f"-- {name} --")
            lines += show_text(outcome[name], with_escapes)
    return lines


def show(outcomes, row, with_escapes):
    """The lines of what comes out, as a row has them."""
    lines = []
    for place, outcome in enumerate(outcomes):
        if place:
            lines.append(".")
        lines += show_step(outcome, with_escapes) if row.kind in OF_SITES else show_text_row(outcome, row, with_escapes)
    return lines


def cut(line):
    return line if len(line) <= LONGEST else f"{line[:LONGEST]}.. ({len(line)} characters)"


def difference(row, answer):
    """The lines that a person reads of a row that fails."""
    head = [f"{row.place}:"]
    if isinstance(answer, str):
        return head + [answer]
    texts = [data for outcome in row.expected + answer for data in outcome.values() if data is not None]
    with_escapes = not all(is_plain(data) for data in texts)
    wanted, found = (show(outcomes, row, with_escapes) for outcomes in (row.expected, answer))
    while len(wanted) + len(found) > MOST_LINES and wanted and found and wanted[0] == found[0]:
        wanted, found = wanted[1:], found[1:]
    lines = difflib.unified_diff(wanted[:MOST_LINES], found[:MOST_LINES], "the row", "the program", lineterm="")
    return head + [cut(line) for line in lines]
