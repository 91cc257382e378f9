"""`site build`: builds a site once."""
from __future__ import annotations

import check


def main(arguments: list[str], program: str) -> int:
    return check.run("build", arguments, program, jobs=True, styles=True)
