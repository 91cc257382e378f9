"""Paths that lead out of a folder: neither read nor written through, however they do it."""
from __future__ import annotations

import os
import stat
from pathlib import Path
from typing import Callable

from common import Failures, read_files, write_files
import inside

LEADING_OUT = ("", "/etc/passwd", "//etc/passwd", "..", "../x", "a/../../x", "a/..", "./x", "a//x", "a/", "x\0y")
NOT_OF_THE_SITE = ("_site/x.css", ".git/hooks/x", "a/node_modules/x.css")


def try_all(work: Path, failures: Failures) -> None:
    site, outside = work / "site", work / "outside"
    write_files(site, {"a/in.txt": "in", "plain": "p"})
    write_files(outside, {"secret.txt": "secret", "a/secret.txt": "secret"})
    (site / "link").symlink_to(outside)
    (site / "a/up").symlink_to("../..")
    (site / "a/file").symlink_to(outside / "secret.txt")
    os.mkfifo(site / "pipe")
    before = read_files(outside)
    for path in LEADING_OUT:
        failures.expect(f"{path!r} stays inside", inside.stays_inside(site, path), False)
        failures.expect(f"{path!r} is read", is_done(lambda: inside.read_below(site, path)), False)
        failures.expect(f"{path!r} is written", is_done(lambda: inside.write_below(site, path, b"x")), False)
    for path in NOT_OF_THE_SITE:
        failures.expect(f"{path} is a file of the site", inside.stays_inside(site, path), False)
    for path in ("link", "link/secret.txt", "link/a/secret.txt", "a/up/outside/secret.txt", "a/file", "pipe"):
        failures.expect(f"{path} stays inside", inside.stays_inside(site, path), False)
        failures.expect(f"{path} is read", is_done(lambda: inside.read_below(site, path)), False)
    for path in ("link/new.txt", "link/secret.txt", "a/up/outside/new.txt", "plain/x"):
        failures.expect(f"{path} is written", is_done(lambda: inside.write_below(site, path, b"x")), False)
        failures.expect(f"{path} is removed", is_done(lambda: inside.remove_below(site, path)), False)
    for path in ("a/in.txt", "a/new.txt", "new/new/new.txt", "a"):
        failures.expect(f"{path} stays inside", inside.stays_inside(site, path), True)
    # What is written goes to the place of the link, and not to where that leads.
    inside.write_below(site, "a/file", b"mine")
    failures.expect("what is outside", read_files(outside), before)
    failures.expect("the file", inside.read_below(site, "a/file"), b"mine")
    rights(site, failures)
    failures.expect("no spare file is left", [path for path in read_files(site) if ".site-" in path], [])


def rights(site: Path, failures: Failures) -> None:
    (site / "plain").chmod(0o4710)
    inside.write_below(site, "plain", b"q")
    failures.expect("the rights of a file that is written over", stat.S_IMODE((site / "plain").stat().st_mode), 0o710)
    old = os.umask(0o077)
    inside.write_below(site, "private/new", b"q")
    os.umask(old)
    failures.expect("the rights of a new file", stat.S_IMODE((site / "private/new").stat().st_mode), 0o600)


def is_done(what: Callable[[], object]) -> bool:
    try:
        what()
    except OSError:
        return False
    return True
