"""The clock of a date in a named zone: what Jekyll shows, and what the program shows, for which the zone is one offset."""
from __future__ import annotations

import re
from dataclasses import dataclass
from datetime import datetime, timedelta, timezone
from typing import Optional
from zoneinfo import ZoneInfo

# The forms that the program reads: docs/PROFILE.md, "Dates".
DATE = re.compile(
    r"(?P<day>\d{4}-\d\d-\d\d)(?:[ T](?P<time>\d\d:\d\d(?P<seconds>:\d\d)?)(?: ?(?P<offset>UTC|Etc/UTC|Z|[+-]\d\d:?\d\d))?)?"
)
CLOCK = "%Y-%m-%d %H:%M:%S"
# Ruby reads no zone in this word.
PASSED_OVER = "Etc/UTC"


@dataclass(frozen=True)
class Zone:
    """A named zone, and the offset that stands in its place."""

    name: str
    offset: timedelta

    def is_steady(self, year: int) -> bool:
        """Whether it has one offset all year."""
        return len({ZoneInfo(self.name).utcoffset(datetime(year, month, 1)) for month in range(1, 13)}) == 1


@dataclass(frozen=True)
class Date:
    """A date as it is written: its clock, its offset as a text, and whether Ruby's reader of YAML makes a moment of it, which is in UTC where it has no offset."""

    clock: datetime
    offset: str
    is_moment: bool

    def shown_there(self, zone: Zone, is_document: bool) -> datetime:
        """The clock that Jekyll shows: that of the zone, but of a page whose date has an offset that which is written."""
        there = ZoneInfo(zone.name)
        if self.offset not in ("", PASSED_OVER):
            if not is_document:
                return self.clock
            moment = self.clock.replace(tzinfo=timezone(offset_of(self.offset)))
        elif self.is_moment and not self.offset:
            moment = self.clock.replace(tzinfo=timezone.utc)
        else:
            # By way of UTC, since an hour of the zone may be passed over.
            moment = self.clock.replace(tzinfo=there).astimezone(timezone.utc)
        return moment.astimezone(there).replace(tzinfo=None)

    def shown_here(self, zone: Zone) -> datetime:
        """The clock that the program shows."""
        return self.clock - offset_of(self.offset) + zone.offset if self.offset else self.clock


def offset_of(text: str) -> timedelta:
    """An offset: a word for UTC, or a sign, two digits for hours and two for minutes, with or without a colon. Raises ValueError from a day on."""
    if text[0] not in "+-":
        return timedelta()
    found = timedelta(hours=int(text[1:3]), minutes=int(text[-2:]))
    if found >= timedelta(days=1):
        raise ValueError(text)
    return -found if text[0] == "-" else found


def read_date(text: str, is_quoted: bool) -> Optional[Date]:
    """What a text says; nothing when it is no date. A time with seconds that is not in quotes is a moment to Ruby's reader of YAML."""
    found = DATE.fullmatch(text)
    if not found:
        return None
    time = found["time"] or "00:00"
    try:
        clock = datetime.strptime(f"{found['day']} {time}" + ("" if found["seconds"] else ":00"), CLOCK)
    except ValueError:
        return None
    return Date(clock, found["offset"] or "", bool(found["seconds"]) and not is_quoted)


def mended(text: str, is_quoted: bool, zone: Zone, is_document: bool) -> Optional[str]:
    """The date by which the program shows what Jekyll shows; nothing when the date as it is does."""
    date = read_date(text, is_quoted)
    try:
        there = date.shown_there(zone, is_document) if date else None
        # A year that is none is a fault.
        return there.strftime(CLOCK) if date and there and there != date.shown_here(zone) and there.year >= 1000 else None
    except (ValueError, OverflowError):
        return None


def stands_bare(text: str, source: str) -> bool:
    """Whether a text stands somewhere in a text of YAML without quotes around it."""
    return re.search(rf"(?<![\"'\w]){re.escape(text)}(?![\"'\w])", source) is not None
