"""Compiles the Sass of a site by `sassc`, and puts the CSS beside its source.

The program does the front matter and the Liquid of a `.scss` page in a scratch site; what it writes is what sassc gets.
sassc works over a copy of the site's own files, in which there are no links, and CSS for which it has read another file is thrown away.
Only CSS that ends with this module's mark is ever written over.
"""
from __future__ import annotations

import base64
import json
import os
import re
import shutil
from dataclasses import dataclass, replace
from pathlib import Path
from typing import Optional

from calling import NotDone, TookTooLong, call
from configuration import CONFIG, Hash, Settings, by_lines, is_in_braces
from inside import OUTPUT, is_of_site, read_below, stays_inside, write_below
from site_files import NotRead, first_fault, front_matter, head_of, line_of, list_files, read_text, read_values, run, scratch, write_text

# A style that takes longer has a loop without an end.
SECONDS = 10.0
# What sassc may read: the files that an import can name.
IMPORTED = (".scss", ".sass", ".css")
# The folders for a run of sassc: the copy of the site's files, and one in which it runs, since it looks for imports there first.
COPY = "site"
EMPTY = "empty"
# What a colon is in the copy: sassc takes it for the end of a folder for imports.
COLON = "\ua789"
# Where sassc says in its output which files it has read.
MAP = re.compile(rb"\n/\*# sourceMappingURL=data:application/json;base64,([A-Za-z0-9+/=]*) \*/\s*\Z")
ENDINGS = (".scss", ".sass")
STYLES = {"nested", "expanded", "compact", "compressed"}
# What a page has in its scratch site in place of its own layout and publication; its address is added.
OWN_KEYS = ["layout:", "published: true"]
WITHOUT_SASSC = "sassc is not installed, so it stays as it is; apt-get install sassc"


def mark(source: str) -> str:
    """The last line of CSS that was made here."""
    return f"/* made of {source.replace('*/', '*')} by sassc; write there, and not here */\n"


@dataclass(frozen=True)
class Style:
    """A page of Sass, and the CSS that is made of it."""

    source: str
    css: str
    body_line: int


@dataclass
class Sheets:
    """The site's settings for Sass."""

    config: Hash
    text: str

    def load_paths(self) -> list[str]:
        """The folders of the site in which imports are looked for."""
        given = self.config.get("sass")
        given = given if isinstance(given, dict) else {}
        more = given.get("load_paths")
        names = [given.get("sass_dir") or "_sass", *(more if isinstance(more, list) else [])]
        paths = (str(name).strip("/").removeprefix("./") for name in names)
        return [path for path in paths if is_of_site(path)]

    def style(self) -> str:
        given = self.config.get("sass")
        style = given.get("style") if isinstance(given, dict) else None
        style = str(style or "compact").lstrip(":")
        return style if style in STYLES else "compact"

    def of_scratch(self) -> str:
        """The settings for a site of the pages of Sass alone: those are excluded from the site itself."""
        settings = Settings(by_lines(self.text, self.config) if is_in_braces(self.text) else self.text)
        settings.set("exclude", [])
        return settings.text()


def read_sheets(folder: Path, program: str) -> Sheets:
    """The settings, and nothing of a configuration that the program does not read."""
    path = folder / CONFIG
    text = read_text(path) if path.is_file() and not path.is_symlink() else ""
    config = read_values(program, {CONFIG: text}).of.get(CONFIG)
    return Sheets(config if isinstance(config, dict) else {}, text)


def sass_pages(folder: Path, files: list[str]) -> list[Style]:
    """The files that Jekyll makes CSS of. What goes while they are looked at is none."""
    found = []
    for path in files:
        text = text_of(folder, path) if path.endswith(ENDINGS) else ""
        match = front_matter(text)
        if match:
            found.append(Style(path, css_of(path, match[1]), line_of(text, match.end())))
    return found


def css_of(path: str, head: str) -> str:
    """The path of a page's CSS: that of its permalink, if it has one that stays in the site."""
    permalink = re.search(r"^permalink:[ \t]*[\"']?/*([^\s:\"'#]+\.css)[\"']?[ \t]*\r?$", head, re.M)
    return permalink[1] if permalink and is_of_site(permalink[1]) else path[: -len(".scss")] + ".css"


def text_of(folder: Path, path: str) -> str:
    """The text of a file; none when it is not there any more."""
    try:
        return read_below(folder, path).decode("utf-8", "surrogateescape")
    except OSError:
        return ""


def is_ours(folder: Path, style: Style) -> bool:
    """Whether the CSS of a page was made here."""
    return text_of(folder, style.css).endswith(mark(style.source))


def compile_styles(folder: Path, program: str) -> list[str]:
    """Makes the CSS anew that was made here before. Writes only what differs; whatever is in the way is a line."""
    try:
        styles = [style for style in sass_pages(folder, list_files(folder).files) if is_ours(folder, style)]
        return compile_all(folder, program, styles) if styles else []
    except (OSError, NotRead, NotDone) as error:
        return [f"the CSS stays as it is, since the Sass was not compiled: {error}"]


def compile_all(folder: Path, program: str, styles: list[Style]) -> list[str]:
    """Makes the CSS of these pages; what there is to say."""
    if shutil.which("sassc") is None:
        return [f"{style.css}: {WITHOUT_SASSC}" for style in styles]
    sheets = read_sheets(folder, program)
    said = []
    with scratch() as room:
        fault = render(folder, program, styles, sheets, room)
        if fault:
            return [f"{fault}; the CSS stays as it is"]
        with scratch() as sources:
            copy_sources(folder, sources)
            for number, style in enumerate(styles):
                try:
                    sheet = read_below(room / OUTPUT, sheet_name(number))
                    said += compile_one(folder, style, sheets, sources, sheet)
                except TookTooLong as error:
                    # The others may well have the same loop, and would take as long.
                    return [*said, f"{style.source}: {error}; the CSS stays as it is, and so does that of the pages after it"]
                except (OSError, NotDone) as error:
                    said.append(f"{style.source}: it was not compiled: {error}; the CSS stays as it is")
    return said


def copied(path: str) -> str:
    """The path in the copy of a file or folder of the site."""
    return f"{COPY}/{path.replace(':', COLON)}"


def copy_sources(folder: Path, room: Path) -> None:
    """Copies what an import may name. No link is copied or followed, so a path in the copy leads to no other file."""
    (room / EMPTY).mkdir()
    for path in list_files(folder).files:
        if path.endswith(IMPORTED):
            try:
                write_below(room, copied(path), read_below(folder, path))
            except FileNotFoundError:
                # It has gone meanwhile.
                continue


def sheet_name(number: int) -> str:
    return f"sheet{number}.css"


def render(folder: Path, program: str, styles: list[Style], sheets: Sheets, room: Path) -> str:
    """Has the program do the front matter and the Liquid of these pages; its fault, or nothing."""
    write_text(room / CONFIG, sheets.of_scratch())
    for name in list_files(folder).files:
        if name.startswith(("_includes/", "_data/")):
            write_text(room / name, text_of(folder, name))
    for number, style in enumerate(styles):
        text = text_of(folder, style.source)
        match = front_matter(text)
        if match is None:
            return f"{style.source}: it is not there any more"
        head = by_keys(match[1], program)
        # The later of two equal keys counts.
        own = "".join(f"{Settings(head).indent}{key}\n" for key in [*OWN_KEYS, f"permalink: /{sheet_name(number)}"])
        write_text(room / sheet_name(number), f"---\n{head}{own}---\n{text[match.end():]}")
    said = run(program, room, "once")
    fault = first_fault(said)
    if fault is None:
        return said.stderr.strip() if said.returncode else ""
    for number, style in enumerate(styles):
        if fault.path == sheet_name(number):
            keys = head_of(read_text(room / sheet_name(number)))[1].count("\n") + 1 - len(OWN_KEYS) - 1
            line = fault.line if fault.line <= keys else fault.line - keys - len(OWN_KEYS) - 3 + style.body_line
            return str(replace(fault, path=style.source, line=line))
    return str(fault)


def by_keys(head: str, program: str) -> str:
    """Front matter with a line for each key, so that others can follow."""
    values = read_values(program, {"head": f"---\n{head}"}).of.get("head") if is_in_braces(head) else None
    return by_lines(head, values) if isinstance(values, dict) else head


def compile_one(folder: Path, style: Style, sheets: Sheets, sources: Path, sheet: bytes) -> list[str]:
    """Gives sassc what the program wrote of a page, and puts the CSS in its place.

    Raises NotDone when sassc does not end, OSError when the CSS cannot be written.
    """
    words = ["sassc", "--stdin", "--sourcemap=inline", "--style", sheets.style()]
    if style.source.endswith(".sass"):
        words.append("--sass")
    for path in sheets.load_paths():
        words += ["--load-path", f"../{copied(path)}"]
    done = call(words, sources / EMPTY, sheet, SECONDS)
    if done.status:
        return [refusal(done.stderr.decode(errors="replace"), style, folder)]
    split = split_map(done.stdout)
    outside = [name for name in split[1] if not is_own(name, sources)] if split else ["a file that it does not name"]
    if split is None or outside:
        return [f"{style.source}: sassc has read {outside[0]}, which is no file of the site, so its CSS is thrown away; put the file into the site"]
    css = split[0].decode("utf-8", "surrogateescape").rstrip("\n") + "\n\n" + mark(style.source)
    if not stays_inside(folder, style.css):
        return [f"{style.css}: a link leads there, so no CSS is written; remove the link"]
    if os.path.lexists(folder / style.css) and not is_ours(folder, style):
        return [f"{style.css}: this file was not made of {style.source}, and stays as it is; remove one of them"]
    if text_of(folder, style.css) != css:
        write_below(folder, style.css, css.encode("utf-8", "surrogateescape"))
    return []


def split_map(said: bytes) -> Optional[tuple[bytes, list[str]]]:
    """The CSS that sassc wrote, and the files that it read for it; nothing when it does not tell them."""
    match = MAP.search(said)
    if match is None:
        return None
    try:
        names = json.loads(base64.b64decode(match[1]))["sources"]
    except (ValueError, KeyError, TypeError):
        return None
    return said[: match.start()], [str(name) for name in names]


def is_own(name: str, sources: Path) -> bool:
    """Whether a file that sassc has read is the sheet, or in the copy of the site's own files."""
    top = os.path.realpath(sources)
    return name == "stdin" or os.path.realpath(os.path.join(top, EMPTY, name)).startswith(os.path.join(top, COPY, ""))


def refusal(said: str, style: Style, folder: Path) -> str:
    """What sassc says, with the file and the line in the site. Of another file no word is repeated."""
    sentence = re.search(r"^(?:Error|Internal Error): (.*)", said, re.M)
    place = re.search(r"on line (\d+)(?::\d+)? of ([^\s,][^,\n]*)", said)
    why = sentence[1].strip() if sentence else said.strip()[:200]
    if place is None:
        return f"{style.source}: sassc refuses it: {why}; the CSS stays as it is"
    if place[2] == "stdin":
        return f"{style.source}:{int(place[1]) + style.body_line - 1}: sassc refuses it: {why}; the CSS stays as it is"
    inside = [path for path in list_files(folder).files if f"/{place[2]}".endswith(copied(path)[len(COPY) :])]
    if not inside:
        return f"{style.source}: sassc refuses {place[2]}, which is no file of the site; the CSS stays as it is"
    return f"{max(inside, key=len)}:{place[1]}: sassc refuses it: {why}; the CSS stays as it is"
