"""What a scan of the program goes into."""
from __future__ import annotations

import os
from contextlib import contextmanager
from pathlib import Path
from typing import Iterator

from inside import OUTPUT, PASSED_OVER, open_below


def join(folder: str, name: str) -> str:
    return f"{folder}/{name}" if folder else name


def is_entered(folder: str, name: str) -> bool:
    """Whether a scan goes into a folder of this name."""
    return name not in PASSED_OVER and not (folder == "" and name == OUTPUT)


@contextmanager
def entries_of(top: str | os.PathLike[str], folder: str) -> Iterator[Iterator[os.DirEntry[str]]]:
    """What is in a folder of the site. Raises OSError when it has gone, cannot be read, or is below a link."""
    number = open_below(Path(top), [os.fsencode(name) for name in folder.split("/") if name])
    try:
        with os.scandir(number) as entries:
            yield entries
    finally:
        os.close(number)
