"""Dates in named zones: an adopted site has Jekyll's addresses and clocks, whatever the form of a date and the time of the year. Python's zoneinfo is the oracle, and Jekyll where it is installed."""
from __future__ import annotations

import contextlib
import datetime
import io
import itertools
import os
from pathlib import Path
from types import SimpleNamespace
from unittest import mock
from zoneinfo import ZoneInfo

from common import PROGRAM, Failures, adopt, build_by_jekyll, expect_said, has, read_files, run, write_files
import adopt as word
import adopting.settings

# Both halves of the year, and both nights of change.
DAYS = {
    "Europe/Berlin": ("2024-01-10", "2024-07-10", "2024-03-31", "2024-10-27"),
    "America/New_York": ("2024-01-10", "2024-07-10", "2024-03-10", "2024-11-03"),
    "Asia/Kolkata": ("2024-01-10", "2024-07-10"),
}
TIMES = ("", "00:30", "02:30", "00:30:00", "02:30:15", "19:30:00", "23:30:00")
OFFSETS = {"": None, " +0200": 120, "+01:00": 60, "+0530": 330, " -0400": -240, "-05:00": -300, " Z": 0, " UTC": 0, " Etc/UTC": None}
MOMENTS = {"winter": datetime.datetime(2026, 1, 15, 12, tzinfo=datetime.timezone.utc), "summer": datetime.datetime(2026, 7, 15, 12, tzinfo=datetime.timezone.utc)}
SHOWN = '{{ page.date | date: "%Y-%m-%d %H:%M:%S" }}\n'


def try_all(work: Path, failures: Failures) -> None:
    for zone, days in DAYS.items():
        # That of India is the same all year.
        for season in MOMENTS if len(days) > 2 else ["winter"]:
            try_zone(work / f"{zone.replace('/', '-')}-{season}", zone, days, season, failures)
    for part in (odd_forms, of_defaults, no_named_zone):
        (work / part.__name__).mkdir()
        part(work / part.__name__, failures)
    if not has("jekyll") or not has("ruby"):
        print("not asked: Jekyll, which is not installed, for dates in named zones")


def dates(days: tuple[str, ...]) -> list[tuple[str, str, str, str, bool]]:
    """Each date that is tried: its text in YAML, its day, time and offset, and whether it is in quotes."""
    found = []
    for day, time, sign, quoted in itertools.product(days, TIMES, " T", (False, True)):
        for offset in OFFSETS if sign == " " else ["", "+01:00"]:
            if time or sign == " " and not offset:
                text = f"{day}{sign}{time}{offset}" if time else day
                found.append((f'"{text}"' if quoted else text, day, time, offset, quoted))
    return found


def clock(zone: str, day: str, time: str, offset: str, quoted: bool, is_page: bool) -> str:
    """What zoneinfo shows of a date."""
    written = datetime.datetime.fromisoformat(f"{day} {time or '00:00'}")
    minutes = OFFSETS[offset]
    if minutes is not None and is_page:
        return f"{written}"
    if minutes is None and offset == "" and time.count(":") == 2 and not quoted:
        minutes = 0
    of = ZoneInfo(zone) if minutes is None else datetime.timezone(datetime.timedelta(minutes=minutes))
    return f"{written.replace(tzinfo=of).astimezone(datetime.timezone.utc).astimezone(ZoneInfo(zone)).replace(tzinfo=None)}"


def adopt_at(site: Path, season: str) -> str:
    """Adopts a site at a moment; what is said."""

    class At(datetime.datetime):
        @classmethod
        def now(cls, tz=None):
            return MOMENTS[season].astimezone(tz)

    at = SimpleNamespace(datetime=At, timedelta=datetime.timedelta, timezone=datetime.timezone)
    with contextlib.redirect_stdout(io.StringIO()) as said, mock.patch.object(adopting.settings, "datetime", at):
        word.main([os.fspath(site)], PROGRAM)
    return said.getvalue()


def try_zone(site: Path, zone: str, days: tuple[str, ...], season: str, failures: Failures) -> None:
    files, wanted = {"_config.yml": f"timezone: {zone}\n"}, {}
    for number, (text, *parts) in enumerate(dates(days)):
        files[f"_posts/2020-01-01-p{number}.html"] = f"---\npermalink: /{number}/:year/:month/:day/:hour-:minute.html\ndate: {text} # c\n---\n{SHOWN}"
        shown = clock(zone, *parts, is_page=False)
        wanted[f"{number}/{shown[:10].replace('-', '/')}/{shown[11:13]}-{shown[14:16]}.html"] = f"{shown}\n".encode()
        files[f"q{number}.html"] = f"---\ndate: {text}\n---\n{SHOWN}"
        wanted[f"q{number}.html"] = f"{clock(zone, *parts, is_page=True)}\n".encode()
    write_files(site, files)
    said = adopt_at(site, season)
    copy = Path(f"{site}-adopted")
    run([PROGRAM, "once"], copy)
    compare(f"{site.name}: {said}", read_files(copy / "_site"), wanted, failures)
    expect_said(f"{site.name} again", adopt(copy), failures, 0, "there is nothing to adopt (0 done")
    if has("jekyll") and has("ruby") and season == "winter":
        failures.expect(f"what Jekyll refuses of {site.name}", build_by_jekyll([site], {"TZ": "America/New_York"}), {})
        compare(f"Jekyll, {site.name}", read_files(Path(f"{site}-jekyll")), wanted, failures)


def compare(what: str, got: dict[str, bytes], wanted: dict[str, bytes], failures: Failures) -> None:
    failures.expect(what, sorted(set(got.items()) ^ set(wanted.items()))[:6], [])


def odd_forms(work: Path, failures: Failures) -> None:
    """Dates that are written in an odd way, or are none, and other keys of this name: no other line of a file is another."""
    site = work / "s"
    heads = {
        "windows": "title: T\r\ndate: 2024-01-10 00:30:00\r\ntags: a\r\n", "indented": "  title: T\n  date: '2024-01-10 00:30:00 +0000' # was\n",
        "quoted": '"date" : 2024-01-10 00:30:00\n', "braces": "{date: 2024-01-10 00:30:00}\n", "lines": "date:\n  2024-01-10\n  00:30:00\ntags: a\n", "block": "date: >-\n  2024-01-10 00:30:00 +0000\n",
        "inner": "a:\n  date: 2024-01-10 00:30:00\nup_date: 2024-01-10 00:30:00\n", "none": "date: soon\n", "list": "date: [2024-01-10 00:30:00]\n", "empty": "date:\n",
        "far": "date: 9999-12-31 23:59:59\n", "first": "date: 0001-01-01 00:00:00 +0000\n", "odd": "date: 2024-13-10 00:30:00 +9900\n",
    }
    write_files(site, {"_config.yml": "timezone: Asia/Kolkata\n", "_layouts/l.html": "---\ndate: 2024-01-10 00:30:00\n---\n", **{f"{name}.html": f"---\n{head}---\nx\n" for name, head in heads.items()}})
    done = adopt(site)
    expect_said("odd forms", done, failures, 0, "braces.html:1: its date would show another clock than that of Asia/Kolkata; write date: \"2024-01-10 06:00:00\"", "(and 4 more)")
    now = {path: data.decode() for path, data in read_files(work / "s-adopted").items()}
    for name, head in {
        **heads, "windows": 'title: T\r\ndate: "2024-01-10 06:00:00"\r\ntags: a\r\n', "quoted": '"date" : "2024-01-10 06:00:00"\n', "indented": "  title: T\n  date: '2024-01-10 00:30:00' # was\n", "block": 'date: "2024-01-10 00:30:00"\n',
        "lines": 'date: "2024-01-10 06:00:00"\ntags: a\n',
    }.items():
        failures.expect(f"the front matter {name}", now[f"{name}.html"], f"---\n{head}---\nx\n")
    failures.expect("a layout", now["_layouts/l.html"], "---\ndate: 2024-01-10 00:30:00\n---\n")


def of_defaults(work: Path, failures: Failures) -> None:
    """Dates of defaults: what is in quotes is of the zone, and what is not is of UTC."""
    for number, (text, shown) in enumerate((("2024-07-10 00:30:00", "2024-07-10 06:00:00"), ("'2024-07-10 00:30:00'", "2024-07-10 00:30:00"), ("2024-07-10 00:30:00 +0200", "2024-07-10 04:00:00"))):
        for form in ("timezone: Asia/Kolkata\ndefaults:\n- scope: {{path: ''}}\n  values:\n    date: {}\n", "{{timezone: Asia/Kolkata, defaults: [{{scope: {{path: ''}}, values: {{date: {}}}}}]}}\n"):
            site = work / f"s{number}{form[0] == 't'}"
            write_files(site, {"_config.yml": form.format(text), "_posts/2020-01-01-p.html": f"---\npermalink: /p.html\n---\n{SHOWN}"})
            adopt(site)
            run([PROGRAM, "once"], Path(f"{site}-adopted"))
            failures.expect(f"date: {text} of defaults", read_files(Path(f"{site}-adopted/_site")), {"p.html": f"{shown}\n".encode()})
            if has("jekyll") and has("ruby"):
                build_by_jekyll([site], {"TZ": "UTC"})
                failures.expect(f"Jekyll, date: {text} of defaults", read_files(Path(f"{site}-jekyll")), {"p.html": f"{shown}\n".encode()})


def no_named_zone(work: Path, failures: Failures) -> None:
    """Without a named zone dates stay as they are."""
    for number, zone in enumerate(("", "timezone: UTC\n", 'timezone: "+01:00"\n', "timezone: Nowhere/Town\n", "timezone: ../../etc/passwd\n", "timezone: Europe\n", "timezone: [a]\n")):
        site = work / f"s{number}"
        write_files(site, {"_config.yml": f"title: T\n{zone}", "_posts/2020-01-01-p.html": "---\ndate: 2024-01-10 00:30:00 +0200\n---\n"})
        expect_said(f"{zone!r}", adopt(site), failures, 0, "there is nothing to adopt (0 done")
