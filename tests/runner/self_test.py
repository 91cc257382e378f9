"""Damages what the program answered, and sees that each damage is found; and reads rows that are none."""
import copy
import os
import tempfile

from compare import difference, is_as_stated
from rows import FENCE, read_rows


def changed(data):
    """The text with one byte that is another."""
    place = len(data) // 2
    return data[:place] + bytes([data[place] ^ 1]) + data[place + 1 :] if data else None


def damage_section(pick):
    """Damages that change, shorten and lengthen the first section that is picked."""

    def damage(outcomes, change):
        for outcome in outcomes:
            for name in outcome:
                if pick(name) and outcome[name] is not None:
                    value = change(outcome[name])
                    if value is not None:
                        outcome[name] = value
                        return True
        return False

    return damage


def is_output(name):
    return name not in ("text", "fault", "replies", "status", "standard error")


def lose_file(outcomes):
    for outcome in outcomes:
        for name in outcome:
            if is_output(name):
                del outcome[name]
                return True
    return False


def replace_file(outcomes, is_missing, value):
    """Makes a file missing, or one that is missing a file."""
    for outcome in outcomes:
        for name in outcome:
            if is_output(name) and (outcome[name] is None) == is_missing:
                outcome[name] = value
                return True
    return False


def add_file(outcomes):
    if "replies" not in outcomes[-1]:
        return False
    outcomes[-1]["_site/one file too many"] = b""
    return True


def swap_sort(outcomes):
    outcome = outcomes[0]
    for name, other in (("text", "fault"), ("fault", "text")):
        if name in outcome:
            outcome[other] = outcome.pop(name)
            return True
    return False


def by(pick, change):
    damage = damage_section(pick)
    return lambda outcomes: damage(outcomes, change)


# Each damage by its name; it says whether the answer has something that it can damage.
DAMAGES = {
    "a byte of a text": by(lambda name: name == "text", changed),
    "a byte of a text too many": by(lambda name: name == "text", lambda data: data + b"\n"),
    "a byte of a fault": by(lambda name: name == "fault", changed),
    "a fault for a text, or a text for a fault": swap_sort,
    "a byte of a reply": by(lambda name: name == "replies", changed),
    "a reply too few": by(lambda name: name == "replies", lambda data: b"\n".join(data.split(b"\n")[:-2] + [b""]) if data else None),
    "a reply too many": by(lambda name: name == "replies", lambda data: data + b"x\n"),
    "another status": by(lambda name: name == "status", lambda data: b"%d" % (int(data) + 1)),
    "a byte of standard error": by(lambda name: name == "standard error", changed),
    "a line of standard error too many": by(lambda name: name == "standard error", lambda data: data + b"x\n"),
    "a byte of a file": by(is_output, changed),
    "a file that is gone": lambda outcomes: replace_file(outcomes, False, None),
    "a file that came": lambda outcomes: replace_file(outcomes, True, b""),
    "a file too few": lose_file,
    "a file too many": add_file,
}
# What each kind has to have shown.
OF_REPLIES = ["a byte of a reply", "a reply too few", "a reply too many"]
OF_RUNS = ["another status", "a byte of standard error", "a line of standard error too many"]
OF_NAMED_FILES = ["a byte of a file", "a file that is gone", "a file that came"]
WANTED = {
    "site": [*OF_REPLIES, *OF_RUNS, "a byte of a file", "a file too few", "a file too many"],
    "notes": [*OF_REPLIES, "a byte of a fault", *OF_NAMED_FILES],
    "adopted": [*OF_REPLIES, *OF_RUNS, *OF_NAMED_FILES],
}
WANTED_OF_TEXTS = ["a byte of a text", "a byte of a text too many", "a fault for a text, or a text for a fault"]


def damages_found(done):
    """The lines that tell of each kind and damage how many were found, and whether all were. `done` has the rows that passed, with their answers."""
    tried, found = {}, {}
    for row, answer in done:
        for name, damage in DAMAGES.items():
            damaged = copy.deepcopy(answer)
            if not damage(damaged):
                continue
            key = row.kind, name
            tried[key] = tried.get(key, 0) + 1
            if not is_as_stated(row, damaged) and len(difference(row, damaged)) > 1:
                found[key] = found.get(key, 0) + 1
    lines = [f"{kind}: {name}: {found.get((kind, name), 0)} of {count} found" for (kind, name), count in sorted(tried.items())]
    missed = [key for key, count in tried.items() if found.get(key, 0) != count]
    for kind in sorted({row.kind for row, _ in done}):
        for name in WANTED.get(kind, WANTED_OF_TEXTS):
            if (kind, name) not in tried:
                missed.append((kind, name))
                lines.append(f"{kind}: {name}: no row that it could damage")
    return lines, bool(done) and not missed


# Texts that are no row, with the line at which each is wrong.
NO_ROWS = {
    "a text without a row": ("Prose.\n", 1),
    "an unknown kind": (f"\n{FENCE} nope\na\n.\na\n{FENCE}\n", 2),
    "no kind": (f"{FENCE}\na\n.\na\n{FENCE}\n", 1),
    "an unknown word": (f"{FENCE} yaml page=a\na\n.\na\n{FENCE}\n", 1),
    "no end": (f"{FENCE} example\na\n.\na\n", 1),
    "another fence within": (f"{FENCE} example\na\n{FENCE} example\n.\na\n{FENCE}\n", 1),
    "no dot": (f"{FENCE} example\na\n{FENCE}\n", 1),
    "a dot too many": (f"{FENCE} example\na\n.\na\n.\n{FENCE}\n", 1),
    "no escape": (f"{FENCE} example escapes\na\n\\q\n.\na\n{FENCE}\n", 3),
    "a repeated text without its end": (f"{FENCE} example escapes\n\\3(a\n.\na\n{FENCE}\n", 2),
    "a site without a command": (f"{FENCE} site\n-- a --\n.\n{FENCE}\n", 2),
    "a text in front of the files": (f"{FENCE} site\na\n$ sitebuild once\n.\n{FENCE}\n", 2),
    "a file twice": (f"{FENCE} site\n-- a --\n-- a --\n$ sitebuild once\n.\n{FENCE}\n", 3),
    "another section": (f"{FENCE} site\n$ sitebuild once\n.\n-- nope --\n{FENCE}\n", 4),
    "a command for the notes": (f"{FENCE} notes\n-- a --\n$ sitebuild once\n.\n{FENCE}\n", 2),
    "a second site for the notes": (f"{FENCE} notes\n-- a --\n.\n.\n-- b --\n.\n{FENCE}\n", 5),
    "a status of the notes": (f"{FENCE} notes\n-- a --\n.\n-- status 1 --\n{FENCE}\n", 4),
    "a missing file with a text": (f"{FENCE} adopted\n-- a --\n.\n-- b -- missing\nx\n{FENCE}\n", 5),
    "a missing file of a site": (f"{FENCE} site\n$ sitebuild once\n.\n-- _site/a -- missing\n{FENCE}\n", 5),
    "a command among files": (f"{FENCE} files\n$ sitebuild once\n{FENCE}\n", 2),
}


def no_rows_found():
    """The names of the texts that are no row, where they are read as one or told at another line."""
    missed = []
    with tempfile.TemporaryDirectory() as work:
        path = os.path.join(work, "rows.txt")
        for name, (text, line) in NO_ROWS.items():
            with open(path, "w", encoding="utf-8") as file:
                file.write(text)
            if not any(row.wrong and row.line == line for row in read_rows(path)):
                missed.append(name)
    return missed
