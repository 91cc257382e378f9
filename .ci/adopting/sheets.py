"""Sass that reaches for what is not the site's, that does not end, or that goes while it is looked at."""
from __future__ import annotations

import os
import signal
import subprocess
import sys
import time
from pathlib import Path
from unittest import mock

from common import PARTS, PROGRAM, Failures, adopt, expect_said, has, is_running, read_files, run, until, write_files
import sass

SHEET = "---\n---\nb { top: 0; }\n"
SECRET = "$secret: hidden;\ni { content: 'hidden'; }\n"
# Goes on for as long as it is let.
LOOP = "---\n---\n$n: 1;\n@while $n > 0 { $n: $n + 0.0; }\nb { top: $n; }\n"


def try_all(work: Path, failures: Failures) -> None:
    if not has("sassc"):
        print("not tried: Sass, as sassc is not installed")
        return
    for part in (addresses, imports, loops, told_to_end, odd_sheets):
        folder = work / part.__name__
        folder.mkdir()
        part(folder, failures)


def addresses(work: Path, failures: Failures) -> None:
    """Permalinks that lead out of the site, or to what is none of it: the CSS is in the site, or nowhere."""
    site, outside = work / "s", work / "outside"
    write_files(outside, {"old.css": "mine\n" + sass.mark("a.scss")})
    (work / "s").mkdir()
    permalinks = {
        "a.scss": f"/{outside}/old.css", "b.scss": f"//{outside}/new.css", "c.scss": f"{outside}/new.css", "d.scss": "/../outside/old.css", "e.scss": "../outside/new.css",
        "f.scss": "x/../../outside/new.css", "g.scss": "/.git/hooks/g.css", "h.scss": "/_site/h.css", "i.scss": "/link/new.css",
    }
    write_files(site, {name: f"---\npermalink: {permalink}\n---\nb {{ top: 0; }}\n" for name, permalink in permalinks.items()})
    write_files(site, {".git/HEAD": "x"})
    (site / "link").symlink_to(outside)
    before = read_files(outside)
    adopt(site)
    copy = work / "s-adopted"
    failures.expect("what is outside, after site adopt", read_files(outside), before)
    inner = str(outside).lstrip("/")
    wanted = {f"{inner}/old.css", f"{inner}/new.css", "d.css", "e.css", "f.css", "g.css", "h.css", "link/new.css"}
    failures.expect("the CSS", {path for path in read_files(copy) if path.endswith(".css")}, wanted)
    # With a link in its place later on, nothing is written through it.
    (copy / "link/new.css").unlink()
    (copy / "link").rmdir()
    (copy / "link").symlink_to(outside)
    write_files(outside, {"new.css": "mine\n" + sass.mark("i.scss")})
    before = read_files(outside)
    for word in ("build", "check"):
        done = run([sys.executable, "-B", PARTS / "main.py", PROGRAM, word, copy], work)
        failures.expect(f"site {word}: {done.stderr}", "Traceback" in done.stderr, False)
    adopt(site, "--write")
    failures.expect("what is outside, after all words", read_files(outside), before)


def imports(work: Path, failures: Failures) -> None:
    """Imports of other files: by their whole path, by `..`, and by a link. None of their text gets into the CSS, or is said."""
    outside = work / "outside"
    write_files(outside, {"_other.scss": SECRET, "odd.scss": "hidden { broken\n", "_twice.scss": SECRET})
    for name, line in {
        "whole": f"@import '{outside}/other';", "broken": f"@import '{outside}/odd';", "above": "@import '../../outside/other';", "far": f"@import '{'../' * 30}{str(outside)[1:]}/other';",
        "file": "@import 'linked';", "folder": "@import 'folder/other';", "nested": f"b {{ @import '{outside}/other'; }}", "variable": f"@import '{outside}/other'; b {{ c: $secret; }}",
        "partial": "@import 'through';",
    }.items():
        site = work / name
        write_files(site, {"a.scss": f"---\n---\n{line}\nb {{ top: 0; }}\n", "_sass/_own.scss": "i { top: 1px; }\n", "_sass/_through.scss": f"@import '{outside}/twice';\n",
                           "own.scss": "---\n---\n@import 'own';\n"})
        (site / "_sass/_linked.scss").symlink_to(outside / "_other.scss")
        (site / "_sass/folder").symlink_to(outside)
        done = adopt(site)
        expect_said(f"{name}: an import", done, failures, 0, "left: a.scss")
        copy = work / f"{name}-adopted"
        failures.expect(f"{name}: what is said", "hidden" in done.stdout + done.stderr, False)
        failures.expect(f"{name}: CSS of it", (copy / "a.css").exists(), False)
        failures.expect(f"{name}: other CSS", (copy / "own.css").read_bytes().splitlines()[0], b"i { top: 1px; }")
        # The same later on, when CSS is there that was made here.
        write_files(copy, {"a.css": sass.mark("a.scss")})
        if name in ("file", "folder"):
            (copy / "_sass/_linked.scss").symlink_to(outside / "_other.scss")
            (copy / "_sass/folder").symlink_to(outside)
        built = run([sys.executable, "-B", PARTS / "main.py", PROGRAM, "build", copy], work)
        failures.expect(f"{name}: site build says a line: {built.stdout}", any(line.startswith("a.scss") for line in built.stdout.splitlines()), True)
        failures.expect(f"{name}: what site build says", "hidden" in built.stdout + built.stderr, False)
        failures.expect(f"{name}: the CSS", (copy / "a.css").read_text(), sass.mark("a.scss"))


def loops(work: Path, failures: Failures) -> None:
    """A loop without an end is ended, and when it is mended the CSS is made."""
    site = work / "s"
    write_files(site, {"a.scss": SHEET})
    adopt(site)
    copy = work / "s-adopted"
    write_files(copy, {"a.scss": LOOP})
    begun = time.monotonic()
    with mock.patch.object(sass, "SECONDS", 0.5):
        said = sass.compile_styles(copy, PROGRAM)
    failures.expect(f"a loop: {said}", len(said) == 1 and said[0].startswith("a.scss: sassc was ended after 0.5 seconds"), True)
    failures.expect("a loop is ended in time", time.monotonic() - begun < 30, True)
    failures.expect("the CSS stays", (copy / "a.css").read_text().startswith("b { top: 0; }"), True)
    write_files(copy, {"a.scss": SHEET.replace("0", "1px")})
    failures.expect("mended", sass.compile_styles(copy, PROGRAM), [])
    failures.expect("the CSS when it is mended", (copy / "a.css").read_text().startswith("b { top: 1px; }"), True)


def told_to_end(work: Path, failures: Failures) -> None:
    """`site adopt` that is told to end while sassc runs: sassc ends too, and no half copy stays."""
    write_files(work / "s", {"a.scss": LOOP})
    words = [sys.executable, "-B", str(PARTS / "main.py"), PROGRAM, "adopt", str(work / "s")]
    for number in (signal.SIGTERM, signal.SIGHUP, signal.SIGINT, signal.SIGKILL):
        adopting = subprocess.Popen(words, stdin=subprocess.DEVNULL, stdout=subprocess.DEVNULL, stderr=subprocess.PIPE, text=True)
        failures.expect("sassc runs", until(lambda: bool(sassc_below(adopting.pid))), True)
        running = sassc_below(adopting.pid)
        adopting.send_signal(number)
        said = adopting.communicate(timeout=30)[1]
        failures.expect(f"sassc after {number.name}", until(lambda: not any(map(is_running, running))), True)
        failures.expect(f"what is said after {number.name}: {said}", "Traceback" in said, False)
        left = sorted(os.listdir(work))
        # Nobody can remove anything after SIGKILL.
        failures.expect(f"what stays after {number.name}", [name for name in left if number != signal.SIGKILL and name != "s"], [])
    write_files(work / "s", {"a.scss": SHEET})
    expect_said("after SIGKILL", adopt(work / "s"), failures, 0, ".s-adopted.", "a run that was killed has left it", "the site, adopted")


def sassc_below(number: int) -> list[int]:
    """The processes of sassc that a process has started."""
    found = []
    for entry in os.listdir("/proc"):
        try:
            fields = Path("/proc", entry, "stat").read_text(errors="replace")
            if "(sassc)" in fields and fields.rpartition(")")[2].split()[1] == str(number):
                found.append(int(entry))
        except OSError:
            continue
    return found


def odd_sheets(work: Path, failures: Failures) -> None:
    """Sheets that are excluded by any name, that have gone, or whose CSS has no room; and a front matter in braces."""
    site = work / "s"
    write_files(site, {"a.scss": SHEET, "b.scss": SHEET, "c.scss": "---\n{title: C}\n---\nb { top: 0; }\n", "d.scss": "---\n  title: D\n---\nb { top: 0; }\n",
                       "_config.yml": "{title: T, include: [], exclude: [sheet0.css, sheet1.css]}\n"})
    done = adopt(site)
    expect_said("odd sheets", done, failures, 0, "sassc made a.css", "sassc made b.css", "sassc made d.css")
    copy = work / "s-adopted"
    failures.expect("what is excluded, and made anew", sass.compile_styles(copy, PROGRAM), [])
    failures.expect("a sheet that has gone", sass.sass_pages(copy, ["gone.scss"]), [])
    with mock.patch.object(sass, "list_files", lambda folder: mock.Mock(files=["gone.scss", "a.scss"])):
        failures.expect("another that goes", sass.compile_styles(copy, PROGRAM), [])
    (copy / "b.css").unlink()
    (copy / "b.css").mkdir()
    (copy / "a.css").unlink()
    os.mkfifo(copy / "a.css")
    failures.expect("a pipe and a folder in the place of CSS", sass.compile_styles(copy, PROGRAM), [])
    site = work / "a:b"
    write_files(site, {"_config.yml": "sass: {sass_dir: 'c:d/_sass'}\n", "a.scss": "---\n---\n@import 'own';\n", "c:d/_sass/_own.scss": "i { top: 1px; }\n",
                       "b.scss": "---\n---\n@import 'wrong';\n", "c:d/_sass/_wrong.scss": "i { top: $no; }\n"})
    expect_said("folders with a colon", adopt(site), failures, 0, "sassc made a.css", "c:d/_sass/_wrong.scss:1: sassc refuses it: Undefined variable")
