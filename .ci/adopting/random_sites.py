"""Sites by chance: nothing comes out of the adopted site that Jekyll leaves out of the site as it was."""
from __future__ import annotations

import contextlib
import io
import json
import random
import subprocess
from dataclasses import dataclass
from pathlib import Path

from common import PROGRAM, Failures, has, run, workers, write_files
import adopt as word
from words import Refused

NAMES = (
    "a", "ab", "b.key", "a.md", "ab.html", "_x", "_x.md", ".h", ".h.txt", ".htaccess", ".well", "#c", "d~", "secret", "secret.md", "secret2", "_posts", "_drafts", "_col", "_hid",
    "2020-01-01-p.md", "2019-05-05-o.html", "_2020-01-01-q.md", "tmp", "keep.txt", "x y.txt", "a[1].txt", "vendor", "node", "[ab]", "_data", "_layouts",
)
FOLDERS = ("_posts", "_drafts", "_col", "_hid")
ENTRIES = (
    "*.key", "secret/**", "secret", "a", "a/", "/a", "**/*.key", "s*", "_x", "_x/", "/_x", ".h", ".*", "_*", "*", "?b*", "[ab]*", "[b-a]*", "[!a]*", "keep.txt", "a/_x",
    "a/keep.txt", "tmp/*.txt", "_posts/2020*", "_posts", "_col/a", "*.md", "se", "a/**/b.key", "x y.txt", "a[1].txt", "_drafts", "./a", "a//ab", "_data/x.yml", "_col", "_hid",
    "_posts/_2020-01-01-q.md", ".well", "*a*b*y",
)
SCOPES = ("", "a", "se", "secret", "s*", "*", "**/*.md", "a/*", "*/*", "_posts", "_posts/2020*", "_col", "_col/*", "col", "_x", ".h*", "[ab]*", "s*t", "tmp/", "/a", "{a,secret}*", "_*")
TYPES = ("posts", "pages", "drafts", "col", "hid", "post", "page", "none")
SPELLINGS = ("true", "false", "yes", "no", "oFF", "fALSE", "nULL", "", "~", "on", '"false"', "maybe", "0", "[no]")
COLLECTIONS = {"col": {"output": True}, "hid": {"output": False}}
COUNT = 600


@dataclass(frozen=True)
class Made:
    """What came of a site: the sources that come out, as it is set and with drafts, and why it was not adopted, or not built."""

    sources: set[str]
    with_drafts: set[str]
    refusal: str = ""
    fault: str = ""


def make_site(chance: random.Random, folder: Path) -> None:
    """Writes a site by chance."""
    paths: list[str] = []
    for _ in range(chance.randint(3, 16)):
        parts = [chance.choice(NAMES) for _ in range(chance.randint(1, 4))]
        if parts[-1] in (*FOLDERS, "_data", "_layouts"):
            parts.append("2020-02-02-z.md" if parts[-1] in FOLDERS else "z.json")
        path = "/".join(parts)
        if not any(one == path or one.startswith(path + "/") or path.startswith(one + "/") for one in paths):
            paths.append(path)
    write_files(folder, {path: text_of(chance, path) for path in paths})
    settings = {"collections": chance.choice((COLLECTIONS, ["col", "hid"])), "exclude": [chance.choice(ENTRIES) for _ in range(chance.randint(0, 3))]}
    if chance.random() < 0.5:
        settings["include"] = [chance.choice(ENTRIES) for _ in range(chance.randint(0, 2))]
    for key, value, likely in (("limit_posts", 1, 0.15), ("unpublished", True, 0.1), ("show_drafts", True, 0.1), ("future", True, 0.1)):
        if chance.random() < likely:
            settings[key] = value
    defaults = "".join(default_of(chance) for _ in range(chance.randint(0, 3)))
    write_files(folder, {"_config.yml": "".join(f"{key}: {json.dumps(value)}\n" for key, value in settings.items()) + (f"defaults:\n{defaults}" if defaults else "")})


def text_of(chance: random.Random, path: str) -> str:
    """A file that tells where it comes from: a page, a post or a document, perhaps with a key that says whether it is published, or a file that is copied."""
    mark = f"SOURCE:{path}:END\n"
    if path.startswith(("_data/", "_layouts/")):
        return json.dumps(mark)
    kind = chance.random()
    if kind < 0.25:
        return mark
    return f"---\n{f'published: {chance.choice(SPELLINGS)}' if kind < 0.6 else 'title: x'}\n---\n{mark}"


def default_of(chance: random.Random) -> str:
    scope = {"path": chance.choice(SCOPES)}
    if chance.random() < 0.4:
        scope["type"] = chance.choice(TYPES)
    value = f"published: {chance.choice(SPELLINGS)}" if chance.random() < 0.7 else "top: 1"
    return f"- scope: {json.dumps(scope)}\n  values:\n    {value}\n"


def make_of(folder: Path) -> Made:
    """Adopts a site, and builds what came of it, without and with drafts."""
    with contextlib.redirect_stdout(io.StringIO()):
        try:
            word.main([str(folder)], PROGRAM)
        except Refused as refused:
            return Made(set(), set(), refusal=str(refused))
    copy = Path(f"{folder}-adopted")
    site = copy if copy.is_dir() else folder
    found = []
    for words in ([], ["--drafts"]):
        done = run([PROGRAM, "once", *words], site)
        if done.returncode:
            return Made(set(), set(), fault=done.stdout + done.stderr)
        found.append({source_of(path) for path in (site / "_site").rglob("*") if path.is_file()} - {""})
    return Made(*found)


def source_of(output: Path) -> str:
    """The path that an output's text tells."""
    return output.read_text(encoding="utf-8").partition("SOURCE:")[2].partition(":END")[0]


def try_all(work: Path, failures: Failures) -> None:
    if has("jekyll") and has("ruby"):
        print(try_sites(work, failures, COUNT))
    else:
        print("not tried: sites by chance, as jekyll is not installed")


def try_sites(work: Path, failures: Failures, count: int) -> str:
    """Tries so many sites; what there is to say of them in the end."""
    chance = random.Random(48)
    folders = [work / f"chance{number}" for number in range(count)]
    for folder in folders:
        make_site(chance, folder)
    # Files, and no pipes, whose other ends the processes below would hold open.
    write_files(work, {"folders": "".join(f"{folder}\n" for folder in folders)})
    with open(work / "folders", encoding="utf-8") as given, open(work / "listed", "w", encoding="utf-8") as listed:
        asked = subprocess.Popen(["ruby", str(Path(__file__).with_name("jekyll_sources.rb"))], stdin=given, stdout=listed, stderr=subprocess.DEVNULL)
    with workers() as pool:
        made = pool.map(make_of, folders, timeout=600)
        found = list(zip(folders, made))
    failures.expect("Jekyll's status", asked.wait(timeout=600), 0)
    by_jekyll = {folder: (set(paths), set(drafts)) for folder, paths, drafts in map(json.loads, (work / "listed").read_text(encoding="utf-8").splitlines())}
    failures.expect("sites by chance that Jekyll reads", len(by_jekyll), count)
    for folder, one in found:
        settings = (folder / "_config.yml").read_text(encoding="utf-8")
        paths, drafts = by_jekyll.get(str(folder), (set(), set()))
        failures.expect(f"{folder.name}: what comes out, and Jekyll leaves out, by {settings}", one.sources - paths, set())
        # A limit counts drafts only where they are built, and here it is one of the site.
        if "limit_posts" not in settings:
            failures.expect(f"{folder.name}: what comes out with drafts, and Jekyll leaves out, by {settings}", one.with_drafts - drafts, set())
    failures.expect("sites that are refused", [f"{folder.name}: {one.refusal}" for folder, one in found if one.refusal], [])
    faults = [one for _, one in found if one.fault]
    failures.expect("most sites are built", len(faults) < count / 4, True)
    here, there = (sum(map(len, sets)) for sets in zip(*((one.sources, by_jekyll.get(str(folder), (set(), set()))[0]) for folder, one in found)))
    failures.expect("most files come out", here > there / 2, True)
    return f"{count} sites by chance: {here:,} files come out of them when they are adopted, and {there:,} by Jekyll; {len(faults)} have a fault"
