"""Patterns: they find what Ruby finds by them, and in a time that their length bounds."""
from __future__ import annotations

import json
import os
import random
import subprocess
import time
from pathlib import Path

from common import Failures, adopt, expect_said, has, write_files
from adopting.globs import fits, globs

ASKING = "cases = JSON.parse(STDIN.read); puts JSON.generate([cases[0].map { |one| File.fnmatch?(*one) }, cases[1].map { |one| Dir.glob(one) }])"
# Parts of patterns of which each version of Ruby finds the same.
PARTS_OF_PATTERNS = ("**", "*", "a*", "*b", "[ab]*", "?", "??", "{a,b}*", "{a,{b,c}}", "a", "b", "\\a", "{a,b", "a}", "**a", "*.")
SITE = {"index.html": "---\n---\nx\n", "a.txt": "a", f"{'a' * 200}.txt": "a", f"d/{'a' * 200}/{'a' * 200}.txt": "a"}


def try_all(work: Path, failures: Failures) -> None:
    long_ones(work, failures)
    if has("ruby"):
        as_in_ruby(work, failures)
    else:
        print("not tried: patterns by Ruby, which is not installed")


def long_ones(work: Path, failures: Failures) -> None:
    """Patterns with many stars, in each list and scope; ranges the wrong way round; and braces without an end."""
    begun = time.monotonic()
    for pattern in ("*a" * 100 + "*b", "?*" * 200 + "b", "[a-z]*" * 100 + "_", "*" * 2000 + "b", "**/" * 100 + "*b", "**/*a*" * 30 + "b"):
        failures.expect(f"{pattern[:20]}.. fits", fits(pattern, "a" * 500), False)
        failures.expect(f"{pattern[:20]}.. finds", globs(pattern, "/".join(["a" * 20] * 20), False), False)
    for number, pattern in enumerate(("*a" * 40 + "*b", "[z-a]*", "[z-a]", "[", "[!", "a[^", "\\", "{a,b", "[]*", "{a,{b,c}*", "**/" * 50 + "*a*b")):
        site, quoted = work / f"s{number}", json.dumps(pattern)
        settings = f"exclude: [{quoted}]\ninclude: [{quoted}]\nkeep_files: [{quoted}]\ndefaults:\n- scope: {{path: {quoted}}}\n  values: {{published: false}}\n- scope: {{path: {json.dumps(pattern + '*')}}}\n  values: {{layout: x}}\n"
        write_files(site, {**SITE, "_config.yml": settings, "_site/up.txt": "u"})
        done = adopt(site)
        failures.expect(f"{pattern[:20]}: {done.stdout[-200:]}{done.stderr}", (done.returncode, "Traceback" in done.stderr), (0, False))
    failures.expect("patterns are matched in time", time.monotonic() - begun < 60, True)
    write_files(work / "braces", {**SITE, "_config.yml": f"defaults:\n- scope: {{path: '{'{a,b}' * 12}*'}}\n  values: {{layout: x}}\n"})
    expect_said("braces for thousands of patterns", adopt(work / "braces"), failures, 1, "stands for more than 1,000 others")


def as_in_ruby(work: Path, failures: Failures) -> None:
    """Patterns and names by chance."""
    chance = random.Random(60)
    pairs = [
        ["/" * (number % 2) + "".join(chance.choice("ab/.[]^!-\\*?*") for _ in range(chance.randint(1, 9))),
         "/" * (number % 2) + "".join(chance.choice("ab/.-^!\\") for _ in range(chance.randint(1, 8)))] for number in range(6000)
    ]
    folder = work / "tree"
    for _ in range(50):
        path = folder / "/".join("".join(chance.choice("abc.") for _ in range(chance.randint(1, 3))) + "x" for _ in range(chance.randint(1, 4)))
        path.mkdir(parents=True, exist_ok=True)
    names = {str(path.relative_to(folder)) for path in folder.rglob("*")}
    patterns = ["/".join(chance.choice(PARTS_OF_PATTERNS) + chance.choice(["", "x"]) for _ in range(chance.randint(1, 4))) for _ in range(400)]
    asked = subprocess.run(["ruby", "-rjson", "-e", ASKING], cwd=folder, input=json.dumps([pairs, patterns]), capture_output=True, text=True, timeout=60)
    fitting, found = json.loads(asked.stdout)
    failures.expect("patterns that Ruby fits otherwise", [pair for pair, wanted in zip(pairs, fitting) if fits(*pair) != wanted][:5], [])
    wrong = [pattern for pattern, wanted in zip(patterns, found) if {os.path.normpath(one) for one in wanted} != {name for name in names if globs(pattern, name, True)}]
    failures.expect("patterns by which Ruby finds otherwise", wrong[:5], [])
