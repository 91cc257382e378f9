"""Whether the cases notice a wrong answer: programs that spoil what the right one does are put in its place."""
from __future__ import annotations

import importlib
import sys
import tempfile
from pathlib import Path

from playing import play, program_in
from room import CASES

# What is spoiled: a name, a case that is to notice it, and a script of the shell, in which $REAL is the right program.
SPOILED = (
    ("an output with a byte more", "Markdown: brackets in brackets", '$REAL "$@"; s=$?; for f in _site/*; do printf x >>"$f"; done; exit $s'),
    ("another text than cmark's", "beside cmark: links without an end", '$REAL "$@"; s=$?; sed -i "s/b/c/" _site/a.html; exit $s'),
    ("a file that is one too many", "limits: 50,000 files are taken, and the file after them in the order of their paths is told", '$REAL "$@" | sed s/F1/F2/; [ "$1" = check ]'),
    ("a write before a fault", "limits: 512 MiB of files are taken, and the file with which they are more is told", '[ "$1" = check ] || echo x >_site/more; exec $REAL "$@"'),
    ("another kind of line", "limits: a session holds 50,000 files, and is told the line of one more", '$REAL "$@" | sed "/^script/s/7/8/"'),
    ("a clock that is not looked at", "limits: a clock before 1970 or after 9999 is told, and so is no other", 'unset CLOCK; exec $REAL "$@"'),
    ("an output too many", "Liquid: a list of a million: sorted", '$REAL "$@"; s=$?; echo x >_site/more; exit $s'),
    ("an output beside a fault", "Liquid: 16 MiB of '{{'", '$REAL "$@"; s=$?; mkdir -p _site; echo x >_site/more; exit $s'),
    ("another fault", "depth: 101 conditions", '$REAL "$@" | sed s/F18/F19/; exit 1'),
    ("another status", "depth: 101 includes", '$REAL "$@"; exit 0'),
    ("a signal", "depth: 100 includes", '$REAL "$@"; kill -SEGV $$'),
    ("a stack that runs out", "depth: 1000 lists in one another, used", 'ulimit -s 256; exec $REAL "$@"'),
    ("memory", "Liquid: a text that is doubled twenty times to the longest", f'exec {sys.executable} -c "import os, sys; held = bytearray(range(256)) * 400000; os.execv(sys.argv[1], sys.argv[1:])" $REAL "$@"'),
    ("time that grows with the square", "Markdown: a link without an end", 's=$(wc -c <a.md); [ $s -lt 200000 ] || ' + sys.executable + ' -c "for _ in range(40000000): pass"; exec $REAL "$@"'),
    ("a control character on standard error", "no text of a template reaches a terminal, or makes a line of the replies", '$REAL "$@"; s=$?; printf "\\033[31m" >&2; exit $s'),
    ("a control character in the replies", "no name that tells why an item was rendered makes a line of its own", '$REAL "$@" | tr "?" "\\033"'),
    ("a line more", "no line of a session, and no word, is said again", '$REAL "$@"; s=$?; echo ok; exit $s'),
    ("a page that is written before the end", "a list that grows without end is stopped by `ulimit -v`, and nothing is written", 'echo x >_site/a.html; exec $REAL "$@"'),
    ("two documents the other way round", "order: it names half of the documents", '$REAL "$@" | sed "2{h;d};3G"'),
    ("a broken link that is not told", "links: 16 MiB of comments", '$REAL "$@" | sed "/^broken/d"'),
    ("pages that are scanned again", "links: 16 MiB of links that are answered", '$REAL "$@" | sed s/scanned=0/scanned=2/'),
    ("threads with another stack", "threads have a stack as large as `ulimit -s` says", 'ulimit -s 512; exec $REAL "$@"'),
)


def differences(name: str, folder: Path, program: Path) -> list[str]:
    """What a case finds wrong with a program."""
    found = [case for case in CASES if case.name == name]
    if len(found) != 1:
        return []
    folder.mkdir()
    return list(play(found[0], folder, program).get("differences", []))


def notice(groups: tuple[str, ...]) -> int:
    """Plays each of these cases with the right program and with the spoiled one, and tells those that are not told apart."""
    for group in groups:
        importlib.import_module(group)
    missed = 0
    with tempfile.TemporaryDirectory(prefix="sitebuild-hostile-") as work:
        top = Path(work)
        right = program_in(top)
        for place, (what, name, script) in enumerate(SPOILED):
            spoiled = top / f"spoiled{place}"
            spoiled.write_text(f"#!/bin/sh\nREAL={right}\n{script}\n")
            spoiled.chmod(0o755)
            passes, fails = differences(name, top / f"right{place}", right), differences(name, top / f"wrong{place}", spoiled)
            if passes or not fails:
                missed += 1
                print(f"not told apart: {what}, by the case: {name}", *passes, sep="\n")
    print(f"{len(SPOILED) - missed} of {len(SPOILED)} spoiled programs were noticed")
    return 1 if missed else 0
