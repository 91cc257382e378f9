"""`site watch`: builds a site after each save."""
from __future__ import annotations

from contextlib import closing

import words
from building import Builder
from stopping import until_stopped


def main(arguments: list[str], program: str) -> int:
    reader = words.parser("watch")
    words.add_site(reader, jobs=True)
    words.add_poll(reader)
    given = reader.parse_args(arguments)
    with until_stopped(), closing(Builder(program, given.folder, words.passed_on(given), given.poll)) as builder:
        builder.run()
    return 0
