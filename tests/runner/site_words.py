"""Says what the scripts of `site` make of folders: a line `notes FOLDER` or `adopted FOLDER` has a line of JSON as its answer. usage: site_words.py PROGRAM"""
from __future__ import annotations

import contextlib
import io
import json
import sys
import traceback
from pathlib import Path

sys.path.insert(0, str(Path(__file__).resolve().parents[2] / "share" / "site"))

import adopt
from notes.making import silent_notes
from words import Refused


def notes(folder: Path, program: str) -> dict[str, object]:
    """The lines that `site check` adds to what the program tells."""
    return {"replies": "".join(f"{line}\n" for line in silent_notes(folder, program))}


def adopted(folder: Path, program: str) -> dict[str, object]:
    """What `site adopt FOLDER` prints, and its status."""
    status, error = 0, ""
    with contextlib.redirect_stdout(io.StringIO()) as said:
        try:
            status = adopt.main([str(folder)], program)
        except Refused as refused:
            status, error = refused.status, f"site: {refused}\n"
    return {"replies": said.getvalue(), "status": status, "error": error}


def main(program: str) -> None:
    for line in sys.stdin:
        word, _, folder = line.rstrip("\n").partition(" ")
        try:
            answer = {"notes": notes, "adopted": adopted}[word](Path(folder), program)
        except Exception:
            answer = {"ended": traceback.format_exc()}
        print(json.dumps(answer), flush=True)


if __name__ == "__main__":
    main(sys.argv[1])
