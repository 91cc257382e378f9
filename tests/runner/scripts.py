"""Gives the sites of rows to the scripts of `site`: one process of python for many of them."""
from __future__ import annotations

import json
import os
import subprocess
import sys
from typing import Any, Optional

from program import PATIENCE, Client, Ended, run, write_file
from rows import OUTPUT, Row

WORDS = os.path.join(os.path.dirname(os.path.abspath(__file__)), "site_words.py")


class Scripts:
    """A process that says what the scripts make of one site after the other."""

    def __init__(self, program: str):
        self.client = Client(
            subprocess.Popen(
                [sys.executable, "-S", "-B", "-X", "utf8", WORDS, program],
                stdin=subprocess.PIPE, stdout=subprocess.PIPE, stderr=subprocess.DEVNULL,
            ),
            PATIENCE,
        )

    def ask(self, word: str, site: str) -> dict[str, Any]:
        """What a word of `site` says of a folder. Raises Ended where it said nothing that can be read."""
        reply = self.client.ask(f"{word} {site}\n".encode())
        try:
            answer = json.loads(reply)
        except ValueError as wrong:
            raise Ended(f"the scripts said: {reply}") from wrong
        if "ended" in answer:
            raise Ended(answer["ended"])
        return answer

    def close(self) -> None:
        """Lets the process end."""
        self.client.close()

    def end(self) -> None:
        """Ends the process at once."""
        self.client.kill()


def answer_by_scripts(row: Row, scripts: Scripts, program: str, folder: str) -> list[dict[str, Optional[bytes]]]:
    """What comes of the site of a row: what is said of it, and those of the files that the row names."""
    step, wanted = row.steps[0], row.expected[0]
    site = os.path.join(folder, "site")
    os.makedirs(site)
    for name, data in step.files.items():
        write_file(site, name, data)
    for name, target in step.links.items():
        os.symlink(target, os.path.join(os.fsencode(site), name))
    said = scripts.ask(row.kind, site)
    outcome: dict[str, Optional[bytes]] = {"replies": without_folder(said["replies"], folder)}
    if row.kind == "adopted":
        outcome["status"] = str(said["status"]).encode()
        if "standard error" in wanted or said["status"] == 0:
            outcome["standard error"] = without_folder(said["error"], folder)
    copy = f"{site}-adopted"
    top = copy if os.path.isdir(copy) else site
    if row.kind == "notes" or any(name.startswith(OUTPUT) for name in wanted):
        replies = run(program, [b"once"], top).replies.splitlines()
        outcome.update({"fault": reply for reply in replies if reply.startswith(b"fault ")})
    outcome.update({name: read_file(top, name) for name in wanted if name not in ("replies", "status", "standard error", "fault")})
    return [outcome]


def without_folder(text: str, folder: str) -> bytes:
    """What was said, as if the site were in the current folder."""
    return text.replace(os.path.join(os.path.realpath(folder), ""), "").encode("utf-8", "surrogateescape")


def read_file(folder: str, name: str) -> Optional[bytes]:
    """The bytes of a file; None where there is none."""
    try:
        with open(os.path.join(folder, name), "rb") as file:
            return file.read()
    except (FileNotFoundError, NotADirectoryError, IsADirectoryError):
        return None
