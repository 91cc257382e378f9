"""The first fault of each file of a site.

The program tells one fault. In a scratch copy the faulty part is taken out, in a way that makes no fault of another file, and the program looks again.
"""
from __future__ import annotations

import contextlib
import os
from dataclasses import replace
from pathlib import Path

from configuration import CONFIG, Settings
from site_files import Fault, NotRead, begins_with_mark, first_fault, front_matter, list_files, open_file, read_text, run, scratch, write_text

# Each fault is looked for by a check of the whole site.
MOST_FAULTS = 50
# A file of more bytes that is no template has its size alone in the scratch copy.
WHOLE = 1 << 20
# The keys that have a form: docs/PROFILE.md, "The configuration".
KEYS = (
    "baseurl", "url", "permalink", "markdown_ext", "include", "exclude", "keep_files", "collections", "defaults", "paginate", "paginate_path",
    "excerpt_separator", "timezone", "future", "unpublished", "show_drafts", "liquid", "make_archives", "archive_layout", "make_feed", "make_sitemap",
)
# What to do where the program's own sentence says too little.
REMEDIES = {
    "permalink": "it is a text: date, pretty, ordinal, none, or a template",
    "include": "it is a list of paths",
    "exclude": "it is a list of paths",
    "collections": "it is a list of names, or a mapping from names to mappings: output is true or false, permalink and sort_by are texts, order is a list of texts",
    "defaults": 'each entry has a scope with a path (perhaps ""), perhaps a type that there is, and values; `site adopt` writes what is missing',
    "paginate": "it is a whole number from 1; `site adopt` takes 0 and false out",
    "excerpt_separator": 'it is a text that is not empty; `site adopt` writes excerpt: "" into defaults',
    "timezone": 'it is an offset, as "+01:00"; `site adopt` writes that of a named zone',
    "future": "it is true or false",
    "unpublished": "it is true or false",
    "show_drafts": "it is true or false",
    "liquid": "it is a mapping, in which strict_variables and strict_filters are true or false",
    "make_archives": "it is a list of tags, of categories, or of both: [tags, categories]",
    "archive_layout": "it is a text, the name of a layout",
    "make_feed": "it is true or false",
    "make_sitemap": "it is true or false",
}
# What to do where the pages that a key makes are a fault, and its value is none: in the order in which the program looks at them.
REMEDIES_OF_PAGES = {
    "paginate_path": "with the number of a page it is no path; write a shorter one, as /page:num",
    "markdown_ext": "it lists xml, so feed.xml and sitemap.xml would be converted as Markdown; take xml out, or take make_feed and make_sitemap out",
    "make_archives": "the path of an archive would be longer than 1,024 bytes, or tags or categories would have more than 100,000 archives; "
    "shorten the long tag or category, or take the word out",
}
TEXTS = ("_layouts/", "_includes/", "_data/", CONFIG)


def further_faults(folder: Path, program: str) -> list[str]:
    """The lines for the faults but the first, which a check tells. Of a setting it does not tell the key, so that one is told again."""
    found = all_faults(folder, program)
    told = found[1:] if found and found[0].key == "" else found
    return [*map(str, told), *more_faults(found)]


def fault_lines(folder: Path, program: str) -> list[str]:
    """The lines for all faults that are looked for."""
    found = all_faults(folder, program)
    return [*map(str, found), *more_faults(found)]


def more_faults(found: list[Fault]) -> list[str]:
    """A line that says so, where faults were looked for no further."""
    return [f"faults of more files are not looked for: mend these {MOST_FAULTS} first"] if len(found) == MOST_FAULTS else []


def all_faults(folder: Path, program: str, *options: str) -> list[Fault]:
    """The first fault of each file, and each faulty key of the configuration, in the order in which the program tells them: so many at most.

    Raises NotRead when the program does not check the scratch copy, and OSError when that cannot be made.
    """
    found: list[Fault] = []
    with scratch() as room:
        copy(folder, room)
        steps: dict[str, int] = {}
        # Each round takes something out for good, so this ends.
        while len(found) < MOST_FAULTS:
            said = run(program, room, "check", *options)
            fault = first_fault(said)
            if fault is None:
                if said.returncode and not found:
                    raise NotRead(said.stderr.strip() or f"the program ended with status {said.returncode}")
                return found
            if fault.path == CONFIG and fault.code == "F6":
                fault = with_key(fault, room, program)
                if not fault.key:
                    fault = of_pages(fault, room, program, *options)
            if fault.path == CONFIG or fault.path not in steps:
                found.append(fault)
            steps[fault.path] = steps.get(fault.path, 0) + 1
            if not take_out(room, fault, steps[fault.path]):
                return found
    return found


def with_key(fault: Fault, room: Path, program: str) -> Fault:
    """The fault of a setting, with its key and its line: the program tells neither."""
    text = read_text(room / CONFIG)
    with scratch() as alone:
        for key in KEYS:
            settings = Settings(text)
            place = settings.place(key)
            if place is None:
                continue
            for other in KEYS:
                # A scope may name a collection.
                if other != key and not (key == "defaults" and other == "collections"):
                    settings.remove(other)
            write_text(alone / CONFIG, settings.text())
            if first_fault(run(program, alone, "check")):
                return replace(fault, line=place[0] + 1, sentence=f"{key}: {REMEDIES.get(key, fault.sentence)}", key=key)
    return fault


def of_pages(fault: Fault, room: Path, program: str, *options: str) -> Fault:
    """The fault of the pages that settings make, with the key without which it is gone."""
    text = read_text(room / CONFIG)
    settings, found = Settings(text), fault
    # The last to be looked at is the first to be taken out: an earlier fault hides a later one.
    for key in reversed(REMEDIES_OF_PAGES):
        place = settings.place(key)
        settings.remove(key)
        write_text(room / CONFIG, settings.text())
        if place and str(first_fault(run(program, room, "check", *options))) != str(fault):
            found = replace(fault, line=place[0] + 1, sentence=f"{key}: {REMEDIES_OF_PAGES[key]}", key=key)
            break
    write_text(room / CONFIG, text)
    return found


def copy(folder: Path, room: Path) -> None:
    for path in list_files(folder).files:
        # What goes meanwhile is no part of the site.
        with contextlib.suppress(FileNotFoundError):
            copy_file(folder / path, room / path, path.startswith(TEXTS))


def copy_file(source: Path, target: Path, is_text: bool) -> None:
    """Copies a file; of a long one that is neither a text for all pages nor a page the size alone."""
    with open_file(source) as file:
        size = os.fstat(file.fileno()).st_size
        if is_text or size <= WHOLE or begins_with_mark(source):
            write_plain(target, file.read())
            return
    write_plain(target, b"")
    os.truncate(target, size)


def write_plain(path: Path, data: bytes) -> None:
    path.parent.mkdir(parents=True, exist_ok=True)
    path.write_bytes(data)


def take_out(room: Path, fault: Fault, step: int) -> bool:
    """Takes out what has the fault; whether that could be done."""
    path = room / fault.path
    if fault.path == CONFIG:
        settings = Settings(read_text(path))
        key = settings.key_at(fault.line)
        if key is None:
            return False
        settings.remove(key)
        write_text(path, settings.text())
        return True
    if not path.is_file():
        # An output that is also a folder of another has no file of its name here.
        return False
    if step > 3 or fault.code == "F9":
        path.unlink()
    elif fault.code == "F2":
        write_plain(path, b"")
    elif fault.path.startswith("_includes/"):
        write_plain(path, b"")
    elif fault.path.startswith("_layouts/"):
        write_plain(path, b"{{ content }}")
    elif fault.path.startswith("_data/"):
        write_plain(path, b"" if fault.path.endswith((".csv", ".tsv")) else b"{}")
    else:
        match = front_matter(read_text(path)) if step == 1 and fault.code not in ("F4", "F5", "F6", "F7") else None
        write_plain(path, f"---\n{match[1]}---\n".encode("utf-8", "surrogateescape") if match else b"---\n---\n")
    return True
