"""Asks Jekyll for what the rows of tests/notes and tests/adoption say that it makes."""
from __future__ import annotations

import sys
from pathlib import Path
from typing import Any, Optional

from common import GEMS, TOP, Failures, build_by_jekyll, has, write_files

# The rows are read as `bash tests/run` reads them.
sys.path.append(str(TOP / "tests" / "runner"))
from rows import OF_SCRIPTS, OUTPUT, read_rows

FOLDERS = ("notes", "adoption")


def try_all(work: Path, failures: Failures) -> None:
    rows = [row for folder in FOLDERS for path in sorted((TOP / "tests" / folder).glob("*.txt")) for row in read_rows(str(path))]
    for row in rows:
        if row.wrong:
            failures.add(f"{row.place}: {row.wrong}")
    asked = [row for row in rows if not row.wrong and is_asked(row)]
    if not has("jekyll") or not has("ruby"):
        print(f"not asked: Jekyll, which is not installed, for {len(asked)} rows")
        return
    ready = [row for row in asked if has_gem(row)]
    for row in asked:
        if row not in ready:
            print(f"not asked: {row.place}; it needs {row.words['needs']}")
    try_rows(ready, work, failures)
    if not failures.found:
        print(f"{len(ready)} rows of sites: Jekyll makes of them what they say")


def is_asked(row: Any) -> bool:
    return row.kind in OF_SCRIPTS and "unasked" not in row.words and bool(outputs_there(row) or row.refusal)


def has_gem(row: Any) -> bool:
    """Whether the theme or the plugin is there without which Jekyll makes something else."""
    return "needs" not in row.words or any(GEMS.glob(f"{row.words['needs']}-*"))


def outputs_there(row: Any) -> dict[str, Optional[bytes]]:
    """What Jekyll makes by path; None for what it does not make. Where a row says nothing else, it is what comes out here."""
    here = {name[len(OUTPUT) :]: data for name, data in row.expected[0].items() if name.startswith(OUTPUT)}
    return {**here, **row.jekyll}


def try_rows(rows: list[Any], work: Path, failures: Failures) -> None:
    folders = [work / f"row{number}" for number in range(len(rows))]
    for row, folder in zip(rows, folders):
        files = {name.decode(): data for name, data in row.steps[0].files.items()}
        write_files(folder, files)
        for name, target in row.steps[0].links.items():
            (folder / name.decode()).symlink_to(target.decode())
        # What the output has before.
        write_files(Path(f"{folder}-jekyll"), {path[len(OUTPUT) :]: data for path, data in files.items() if path.startswith(OUTPUT)})
    # A zone of its own shows what Jekyll takes from the machine.
    refusals = build_by_jekyll(folders, {"TZ": "America/New_York"})
    for row, folder in zip(rows, folders):
        refusal = refusals.get(str(folder), "")
        if refusal != (row.refusal or b"").decode().strip():
            failures.add(f"{row.place}: Jekyll says: {refusal}")
        elif not refusal:
            compare(row, Path(f"{folder}-jekyll"), failures)


def compare(row: Any, output: Path, failures: Failures) -> None:
    for path, wanted in outputs_there(row).items():
        place = output / path
        got = place.read_bytes() if place.is_file() else None
        if without_ends(got) != without_ends(wanted):
            failures.add(f"{row.place}: Jekyll, {path}: {got!r} in place of {wanted!r}")


def without_ends(data: Optional[bytes]) -> Optional[bytes]:
    """A text without the line ends at its end, of which Kramdown writes more."""
    return None if data is None else data.rstrip(b"\n")
