"""What the configuration of a site says of its address. The program reads it: nothing else reads YAML as it does."""
from __future__ import annotations

import re
from dataclasses import dataclass
from pathlib import Path
from typing import Optional

from configuration import CONFIG
from session import LeftToScan, read_source
from site_files import NotRead, read_values, text_of

ADDRESS = re.compile(r"[A-Za-z][A-Za-z0-9+.-]*://[^/]")


@dataclass(frozen=True)
class Settings:
    # Without a `/` at the end. `baseurl` begins with one unless it is empty.
    url: str = ""
    baseurl: str = ""


def read_settings(program: str, folder: Path) -> Optional[Settings]:
    """Returns nothing if the configuration cannot be read."""
    try:
        text = text_of(read_source(folder, CONFIG) or b"")
        values = read_values(program, {CONFIG: text})
    except (LeftToScan, NotRead, OSError):
        return None
    if values.faults:
        return None
    given = values.of.get(CONFIG)
    baseurl, url = (text_under(given, key) for key in ("baseurl", "url"))
    # A text without a scheme is no address, and could be in any sentence.
    return Settings(url.rstrip("/") if ADDRESS.match(url) else "", f"/{baseurl.strip('/')}" if baseurl.strip("/") else "")


def text_under(values: object, key: str) -> str:
    """The text that a key has; an empty one when it has another value, or none."""
    value = values.get(key) if isinstance(values, dict) else None
    return value if isinstance(value, str) else ""
