"""`site --version`: the version of these scripts, and that of the program that they call."""
from __future__ import annotations

import re
from pathlib import Path

import calling
from words import Refused, shown

VERSION = "0.7.0"
# The program tells its version at once.
SECONDS = 10.0
SAID = re.compile(r"^sitebuild (\d+(?:\.\d+)*)$", re.M)


def lines(program: str) -> list[str]:
    """What `site --version` prints. Raises Refused when the program cannot be started, hangs, or tells no version."""
    return [f"site {VERSION}", f"sitebuild {version_of(program)}"]


def version_of(program: str) -> str:
    try:
        # The word is no command of the program, so it is answered on standard error, and with a status that is not 0.
        said = calling.call([program, "--version"], Path("/"), seconds=SECONDS).stderr.decode(errors="replace")
    except calling.NotDone as error:
        raise Refused(str(error)) from error
    match = SAID.search(said)
    if not match:
        raise Refused(f"the program tells no version: {shown(program)}")
    return match[1]
