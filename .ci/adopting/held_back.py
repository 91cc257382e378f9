"""What Jekyll holds back stays back: by `published` in all its spellings, by defaults, lists and limits together, and when a rule of ours is wrong."""
from __future__ import annotations

import contextlib
import io
import os
from pathlib import Path
from unittest import mock

from common import PROGRAM, Failures, adopt, build_by_jekyll, expect_said, has, read_files, run, write_files
import adopt as word
import adopting.settings
from adopting.kept_back import Lists
from words import Refused

ITEM = "---\n---\nx\n"
# Each is what stands after `published:` in a page, and whether Jekyll 4.3.1 builds the page.
SPELLINGS = {
    "": False, "~": False, "null": False, "nULL": False, "NULL": False, "false": False, "fALSE": False, "False": False, "no": False, "nO": False,
    "off": False, "oFF": False, "oFf # for now": False, "true": True, "tRUE": True, "yES": True, "oN": True, '"false"': True, "'no'": True,
}
# Jekyll builds these; they are no clear words, so nothing is published here until somebody says so.
UNCLEAR = ["maybe", "0", "1", "2020-01-02", "[no]", "{a: no}", "falsey", "no no", "\n  - x", ":no", "n"]


# The sites of which Jekyll is asked in the end, in one run, and what has to come out of them.
asked: dict[Path, set[str]] = {}


def try_all(work: Path, failures: Failures) -> None:
    for part in (spellings, defaults, lists_and_defaults, limit, faulty_settings, wrong_rule):
        folder = work / part.__name__
        folder.mkdir()
        part(folder, failures)
    ask_jekyll(failures)


def outputs(site: Path) -> set[str]:
    """What comes out of a site."""
    run([PROGRAM, "once"], site)
    return set(read_files(site / "_site"))


def ask_jekyll(failures: Failures) -> None:
    """What comes out of the sites as they were, where Jekyll can be asked."""
    if not has("jekyll") or not has("ruby"):
        print("not tried: what Jekyll holds back, as it is not installed")
        return
    failures.expect("what Jekyll refuses", build_by_jekyll(list(asked), {"TZ": "UTC"}), {})
    for site, wanted in asked.items():
        failures.expect(f"what Jekyll makes of {site.parent.name}/{site.name}", set(read_files(Path(f"{site}-jekyll"))), wanted)


def expect_unchanged(site: Path, failures: Failures) -> None:
    """An adopted site is not adopted any further."""
    before = read_files(site)
    expect_said(f"{site.name} again", adopt(site, "--write"), failures, 0, "there is nothing to adopt (0 done")
    failures.expect(f"{site.name} again", read_files(site), before)


def spellings(work: Path, failures: Failures) -> None:
    """Pages with each spelling, with line ends of Windows too, in a front matter that is indented, and with a key in quotes."""
    forms = {"plain": "---\npublished: {}\n---\nx\n", "windows": "---\r\npublished: {}\r\n---\r\nx\r\n", "indented": "---\n  title: a\n  published: {}\n---\nx\n",
             "quoted": '---\n"published" : {}\n---\nx\n'}
    files, clear, unclear = {}, set(), set()
    for form, text in forms.items():
        for number, (spelling, comes) in enumerate(SPELLINGS.items()):
            files[f"{form}{number}.html"] = text.format(spelling)
            clear |= {f"{form}{number}.html"} if comes else set()
        for number, spelling in enumerate(UNCLEAR):
            if form != "indented" or "\n" not in spelling:
                files[f"{form}-odd{number}.html"] = text.format(spelling)
                unclear.add(f"{form}-odd{number}.html")
    write_files(work / "s", files)
    asked[work / "s"] = clear | unclear
    done = adopt(work / "s")
    expect_said("spellings", done, failures, 0, "plain-odd0.html:2: published was no clear word, so it is false now; write true or false")
    failures.expect("each is told", {line.split(":")[1].strip() for line in done.stdout.splitlines() if "no clear word" in line}, unclear)
    failures.expect(f"spellings: {done.stdout}", outputs(work / "s-adopted"), clear)
    expect_unchanged(work / "s-adopted", failures)


def defaults(work: Path, failures: Failures) -> None:
    """Spellings in defaults, over copied files and over documents."""
    for number, (spelling, comes) in enumerate([("oFF", False), ("nULL", False), ("nO", False), ("fALSE", False), ("yES", True)]):
        site = work / f"s{number}"
        write_files(site, {
            "_config.yml": f"collections: {{z: {{output: true}}}}\ndefaults:\n- scope: {{path: img}}\n  values: {{published: {spelling}}}\n- scope: {{path: '', type: z}}\n"
                           f"  values: {{published: {spelling}}}\n",
            "img/secret.txt": "s", "_z/a.html": ITEM, "_z/b.html": "---\npublished: true\n---\n", "index.html": ITEM,
        })
        wanted = {"index.html", "z/b.html"} | ({"img/secret.txt", "z/a.html"} if comes else set())
        asked[site] = wanted
        done = adopt(site)
        failures.expect(f"published: {spelling} in defaults: {done.stdout}{done.stderr}", outputs(Path(f"{site}-adopted")), wanted)
        expect_unchanged(Path(f"{site}-adopted"), failures)
    site = work / "unclear"
    write_files(site, {"_config.yml": "defaults:\n- scope: {path: img}\n  values: {published: perhaps}\n", "img/a.txt": "a", "index.html": ITEM})
    expect_said("no clear word in defaults", adopt(site), failures, 0, "published of defaults was no clear word")
    failures.expect("no clear word in defaults", outputs(work / "unclear-adopted"), {"index.html"})


def lists_and_defaults(work: Path, failures: Failures) -> None:
    """A folder that `include` brings in, of which `defaults` hold a part back."""
    site = work / "s"
    write_files(site, {
        "_config.yml": "include: [_pages]\ndefaults:\n- scope: {path: _pages/private}\n  values: {published: false}\n",
        "_pages/private/a.txt": "secret", "_pages/private/sub/b.txt": "secret", "_pages/open.txt": "o", "_pages/page.html": ITEM, "index.html": ITEM,
    })
    wanted = {"_pages/open.txt", "_pages/page.html", "index.html"}
    asked[site] = wanted
    done = adopt(site)
    expect_said("a part of an included folder", done, failures, 0, 'include "_pages"')
    failures.expect(f"a part of an included folder: {done.stdout}", outputs(work / "s-adopted"), wanted)
    expect_unchanged(work / "s-adopted", failures)


def faulty_settings(work: Path, failures: Failures) -> None:
    """What comes out is asked for also when the program refuses other settings, or the values of defaults."""
    for number, (text, status) in enumerate((
        ("future: maybe\nexclude: ['*.key']\n", 0), ("permalink: {a: 1}\nexclude: ['*.key']\n", 0), ("timezone: Mars/Port\nexclude: ['*.key']\n", 0),
        ("exclude: ['*.key']\ndefaults:\n- scope: {path: ''}\n  values: {permalink: [a]}\n", 0),
    )):
        site = work / f"s{number}"
        write_files(site, {"_config.yml": text, "a.key": "k", "index.html": ITEM})
        done = adopt(site)
        expect_said(f"{text!r}", done, failures, status, "a.key")
        wrong = Lists([".htaccess"], [], [], [], [])
        with mock.patch.object(adopting.settings, "lists_of_paths", lambda *given: wrong):
            failures.expect(f"{text!r}, by a wrong rule", is_refused(work / f"s{number}", "--write"), True)


def is_refused(site: Path, *words: str) -> bool:
    with contextlib.redirect_stdout(io.StringIO()):
        try:
            word.main([os.fspath(site), *words], PROGRAM)
        except Refused as refused:
            return "it would come out, and Jekyll leaves it out" in str(refused)
    return False


def limit(work: Path, failures: Failures) -> None:
    """`limit_posts`, where a post is held back in capitals of its own."""
    site = work / "s"
    posts = {f"_posts/2020-01-0{day}-p.html": ITEM for day in range(1, 6)}
    write_files(site, {**posts, "_config.yml": "limit_posts: 2\n", "_posts/2020-01-04-p.html": "---\npublished: oFF\n---\n", "index.html": ITEM})
    wanted = {"2020/01/03/p.html", "2020/01/05/p.html", "index.html"}
    asked[site] = wanted
    done = adopt(site)
    failures.expect(f"a limit: {done.stdout}{done.stderr}", outputs(work / "s-adopted") - {"index.html"}, wanted - {"index.html"})
    expect_unchanged(work / "s-adopted", failures)


def wrong_rule(work: Path, failures: Failures) -> None:
    """When the lists that were reckoned let something out, the program's answer tells so, and nothing is made."""
    for words in ([], ["--write"]):
        site = work / f"s{len(words)}"
        write_files(site, {"_config.yml": "exclude: ['*.key']\n", "a.key": "k", "_hidden/b.html": ITEM, "index.html": ITEM})
        before = read_files(site)
        wrong = Lists([".htaccess", "_hidden"], [], [], [], [])
        with mock.patch.object(adopting.settings, "lists_of_paths", lambda *given: wrong):
            try:
                word.main([os.fspath(site), *words], PROGRAM)
                failures.add("a site was adopted from which files come out that Jekyll leaves out")
            except Refused as refused:
                failures.expect(f"what is said: {refused}", str(refused).startswith("_hidden/b.html: it would come out") and "(and 1 more)" in str(refused), True)
        failures.expect("the site", read_files(site), before)
        failures.expect("no copy is made", (work / f"{site.name}-adopted").exists(), False)
