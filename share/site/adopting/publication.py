"""What Jekyll makes of the key `published`: Ruby's reader of YAML knows its words in any capitals."""
from __future__ import annotations

import re
from typing import Optional

from configuration import Settings

WORDS_FOR_TRUE = {"true", "yes", "on"}
# A value without a word counts as none, and so does what is nil.
WORDS_FOR_FALSE = {"false", "no", "off", "null", "~", ""}
QUOTED = re.compile(r"""(?:"[^"\\]*"|'[^']*')[ \t]*(?:#.*)?""")


def is_published(value: object) -> Optional[bool]:
    """Whether an item with this value comes out; nothing when the value is no clear word."""
    if isinstance(value, bool):
        return value
    if value is None:
        return False
    if not isinstance(value, str):
        return None
    word = value.strip().lower()
    return True if word in WORDS_FOR_TRUE else False if word in WORDS_FOR_FALSE else None


def is_published_as_written(value: object, head: str) -> Optional[bool]:
    """The same of a value of front matter, which is looked at as it is written: what stands in quotes is a text, and Jekyll builds what has a text."""
    settings = Settings(head)
    place = settings.place("published")
    if isinstance(value, str) and place and place[1] == place[0] + 1 and QUOTED.fullmatch(settings.lines[place[0]].partition(":")[2].strip()):
        return True
    return is_published(value)
