"""Settings and keys of an odd form or with odd values: a configuration bears the edits, and no value ends with a traceback."""
from __future__ import annotations

import contextlib
import io
import json
import random
import traceback
from pathlib import Path

from common import PROGRAM, Failures, adopt, expect_said, read_files, run, workers, write_files
import adopt as word
from words import Refused

ITEM = "---\n---\nx\n"
FILES = {"a.key": "k", "index.html": "---\n---\n{{ site.title }} {{ site.environment }} {{ jekyll.environment }}\n", "old.html": "---\nredirect_from: /was.html\n---\no\n"}

SITE = {"index.html": ITEM, "_posts/2020-01-01-p.html": ITEM, "x/a.txt": "a", "_site/b.txt": "b", "_c/d.html": ITEM, "s.scss": "---\n---\nb { top: 0; }\n"}
# How many configurations by chance are tried.
COUNT = 700
KEYS = (
    "exclude", "include", "keep_files", "collections", "defaults", "limit_posts", "paginate", "timezone", "excerpt_separator", "plugins", "gems", "theme", "remote_theme", "source", "destination",
    "collections_dir", "layouts_dir", "data_dir", "includes_dir", "sass", "feed", "environment", "exclude_globs", "unpublished", "future", "show_drafts", "permalink", "markdown_ext", "ignore_theme_config",
    "jekyll-archives", "make_archives", "archive_layout", "make_feed", "make_sitemap",
)
KINDS = (
    7, -1, 0, True, False, None, "", "x", "/etc/x", "../x", "_posts", "minima", "a\x00b", "a\nb", "é" * 300, "Europe/Paris", "/:title", [], [7], [None], [[]], [{}], [""], ["/"], ["."], ["*", "[z-a]", "{a,b"],
    ["x", "_posts", "*.txt"], ["jekyll-feed", "jekyll-sitemap", "jekyll-redirect-from"], {}, {"a": 7}, {"a": None}, {"": ""}, {"c": {"output": "yes"}}, {"c": {"output": True, "permalink": "/:no"}}, {"path": "a\nb.xml"},
    {"collections": 7}, {"collections": {"c": 7}}, {"categories": [7]}, {"sass_dir": 7, "load_paths": [7, "../.."], "style": []}, {"style": "odd", "sass_dir": "/etc"},
    [{"scope": {"path": "", "type": ["a"]}, "values": {"a": 1}}], [{"scope": {"path": "", "type": {"a": 1}}, "values": {"published": False}}], [{"scope": [], "values": {}}], [7, {"values": 7}, {"scope": 7}],
    ["jekyll-archives"], ["tags", "categories"], {"enabled": "all"}, {"enabled": ["tags", 7, [], "year"], "layout": ["a"], "permalinks": 7, "layouts": {"tag": {}}},
    [{"scope": {"path": ["a"]}, "values": {"published": []}}], [{"scope": {"path": "[z-a]*"}, "values": {"published": "oFF"}}], [{"scope": {"path": "x", "type": "c"}, "values": {"published": None, "layout": 7}}],
)


def try_all(work: Path, failures: Failures) -> None:
    for part in (layouts, forms_that_stay, feeds, archives, redirects, values):
        folder = work / part.__name__
        folder.mkdir()
        part(folder, failures)


def layouts(work: Path, failures: Failures) -> None:
    """The same settings, written in many ways: what comes of them is one and the same."""
    for number, text in enumerate((
        "title: T\nexclude: ['*.key']\nplugins: [jekyll-redirect-from]\npaginate: 0\n",
        "{title: T, exclude: ['*.key'], plugins: [jekyll-redirect-from], paginate: 0}",
        "# Mine\n{\n  title: T,\n  exclude: ['*.key'],\n  plugins: [jekyll-redirect-from], paginate: 0 }\n",
        '{"title": "T", "exclude": ["*.key"], "plugins": ["jekyll-redirect-from"], "paginate": 0}\n',
        "  title: T\n  exclude:\n    - '*.key'\n  plugins:\n  - jekyll-redirect-from\n  paginate: 0\n",
        "   title: T\n   exclude:\n   - '*.key'\n\n   # c\n   plugins: [jekyll-redirect-from]\n   paginate: 0",
        "title: T\r\nexclude:\r\n- '*.key'\r\nplugins: [jekyll-redirect-from]\r\npaginate: 0\r\n",
        "\ufefftitle: T\nexclude: ['*.key']\nplugins: [jekyll-redirect-from]\npaginate: 0\n",
        "---\n'title' : T\n\"exclude\": ['*.key']\nplugins: [jekyll-redirect-from]\npaginate: 0\n",
        "title: T\nexclude: [a]\nexclude: ['*.key']\nplugins: [jekyll-redirect-from]\npaginate: 0\n",
        "title: T\nnote: 'a\u2028b\x85c\x0cd'\nexclude: ['*.key']\nplugins: [jekyll-redirect-from]\npaginate: 0\n",
    )):
        site = work / f"s{number}"
        write_files(site, {**FILES, "_config.yml": text})
        done = adopt(site)
        failures.expect(f"{text!r}: {done.stdout}{done.stderr}", done.returncode, 0)
        if done.returncode:
            continue
        built = run([PROGRAM, "once"], work / f"s{number}-adopted")
        wanted = {"index.html": b"T production production\n", "old.html": b"o\n"}
        made = read_files(work / f"s{number}-adopted/_site")
        failures.expect(f"{text!r}: what comes out: {built.stderr}", set(made), {*wanted, "was.html"})
        failures.expect(f"{text!r}: the pages", {path: made.get(path) for path in wanted}, wanted)
        again = adopt(work / f"s{number}-adopted", "--write")
        expect_said(f"{text!r} again", again, failures, 0, "there is nothing to adopt (0 done")


def forms_that_stay(work: Path, failures: Failures) -> None:
    """A configuration in braces of which nothing has to be changed stays as it is, and so does one in which an edit would not be read."""
    for number, text in enumerate(("{title: T}\n", "  title: T\n  author: A\n", "\n", "# c\n", "---\n{}\n")):
        site = work / f"s{number}"
        write_files(site, {"_config.yml": text, "index.html": ITEM})
        expect_said(f"{text!r}", adopt(site), failures, 0, "there is nothing to adopt (0 done, 0 left)")


def feeds(work: Path, failures: Failures) -> None:
    """What `feed` of the configuration may hold."""
    for number, feed in enumerate((
        "7", "[]", "{collections: 7}", "{collections: {news: 7}}", "{collections: [7, news]}", "{collections: {7: {path: 8}}}", '{path: "a\\nb.xml"}', '{path: "a\\0b.xml"}',
        '{path: "\\x85.xml"}', "{path: /../feed.xml}", "{path: _site/feed.xml}", "{path: .git/feed.xml}", f"{{path: {'a' * 400}.xml}}", f"{{path: {'a/' * 600}.xml}}",
        "{path: 7}", "{path: [a.xml]}", "{categories: 7}", '{categories: ["a\\nb", "../x", 7, [a]]}', "{categories: {a: 1}}", "{tags: 7}", "{collections: {news: {categories: 7, path: [1]}}}",
    )):
        site = work / f"s{number}"
        write_files(site, {"_config.yml": f"plugins: [jekyll-feed]\nfeed: {feed}\n", "index.html": ITEM})
        done = adopt(site)
        failures.expect(f"feed: {feed}: {done.stdout}{done.stderr}", (done.returncode, "Traceback" in done.stderr), (0, False))
        failures.expect(f"feed: {feed}: each line is whole", all(line.startswith(("done: ", "left: ", "/")) for line in done.stdout.splitlines()), True)
    for number, (key, is_written) in enumerate((("make_feed: true", False), ("make_feed: false", True), ("make_feed: [true]", True), ('make_feed: "true"', True), ("make_feed:", True))):
        site = work / f"k{number}"
        write_files(site, {"_config.yml": f"plugins: [jekyll-feed]\n{key}\n", "index.html": ITEM})
        done = adopt(site)
        failures.expect(f"{key}: the feed is written: {done.stdout}{done.stderr}", "done: feed.xml: is new" in done.stdout, is_written)


def archives(work: Path, failures: Failures) -> None:
    """What `jekyll-archives` of the configuration may hold, and whether something comes of it."""
    for number, (settings, is_made) in enumerate((
        ("7", False), ("[]", False), ("{}", False), ("{enabled: 7}", False), ("{enabled: 1}", False), ("{enabled: tags}", False), ("{enabled: {tags: true}}", False), ("{enabled: [7, [tags], year]}", False),
        ("{enabled: true}", True), ("{enabled: all, layout: 7}", True), ("{enabled: [tags], layout: [a]}", True), ("{enabled: [tags, tags], layouts: 7}", True), ("{enabled: [tags], layouts: {tag: {a: b}}}", True),
        ('{enabled: [tags], layout: "a\\nb"}', True), ('{enabled: [tags], layout: "a\\0b"}', True), ("{enabled: [tags], layout: ../../etc/x}", True), (f"{{enabled: [tags], layout: {'a/' * 600}}}", True),
        ("{enabled: [tags], permalinks: 7}", True), ("{enabled: [tags], permalinks: {tag: 7}}", False), ("{enabled: [tags], permalinks: {tag: [a]}}", False), ('{enabled: [tags], permalinks: {tag: "/a\\nb/"}}', False),
        ("{enabled: [tags], permalinks: {tag: tag/:name/}}", True), ("{enabled: [tags], permalinks: {tag: /:type/:name}}", False), ("{enabled: [tags], slug_mode: {a: b}}", True),
    )):
        site = work / f"s{number}"
        write_files(site, {"_config.yml": f"plugins: [jekyll-archives]\njekyll-archives: {settings}\n", "index.html": ITEM, "_layouts/archive.html": "{{ page.type }}\n"})
        done = adopt(site)
        failures.expect(f"jekyll-archives: {settings}: {done.stdout}{done.stderr}", (done.returncode, "Traceback" in done.stderr), (0, False))
        failures.expect(f"jekyll-archives: {settings}: make_archives is written: {done.stdout}", "make_archives makes the archives of" in done.stdout, is_made)
        failures.expect(f"jekyll-archives: {settings}: each line is whole", all(line.startswith(("done: ", "left: ", "/")) for line in done.stdout.splitlines()), True)
        if is_made:
            again = adopt(work / f"s{number}-adopted", "--write")
            expect_said(f"jekyll-archives: {settings} again", again, failures, 0, "there is nothing to adopt (0 done")


def redirects(work: Path, failures: Failures) -> None:
    """Old addresses that are too long for a file's name, or are none."""
    for number, (address, is_made) in enumerate((
        ("/" + "a" * 400, False), ("/" + "é" * 200 + ".html", False), ("/" + "a" * 240 + ".html", True), ("/b/" * 100, True), ("/xy" * 400, False), ('"/a\\nb"', False), ('"/a\\0b"', False),
        ("/a/../../b", False), ("//a//b.html", True), ("7", True), ("[/a, [/b]]", True), ("{a: 1}", False), ("/_site/x.html", False), ("''", True),
    )):
        site = work / f"s{number}"
        write_files(site, {"_config.yml": "plugins: [jekyll-redirect-from]\n", "index.html": f"---\nredirect_from: {address}\n---\n"})
        done = adopt(site)
        failures.expect(f"redirect_from: {address[:40]}: {done.stdout}{done.stderr}", (done.returncode, "Traceback" in done.stderr), (0, False))
        failures.expect(f"redirect_from: {address[:40]} has a page: {done.stdout}", "is new: leads from" in done.stdout, is_made)
        if not is_made:
            failures.expect(f"redirect_from: {address[:40]} is told", "no page can be at the old address" in done.stdout, True)


def settings_by_chance(chance: random.Random) -> str:
    """A configuration of some keys, each with a value of some kind."""
    config = {chance.choice(KEYS): chance.choice(KINDS) for _ in range(chance.randint(1, 4))}
    if chance.random() < 0.2:
        # As lines, and not in braces.
        return "".join(f"{key}: {json.dumps(value)}\n" for key, value in config.items())
    return json.dumps(config)


def values(work: Path, failures: Failures) -> None:
    """Configurations by chance: each is adopted, or refused in words."""
    chance = random.Random(60)
    sites = [work / f"s{number}" for number in range(COUNT)]
    for site in sites:
        write_files(site, {**SITE, "_config.yml": settings_by_chance(chance)})
    with workers() as pool:
        for site, wrong in zip(sites, pool.map(what_goes_wrong, sites, timeout=600)):
            failures.expect(f"{(site / '_config.yml').read_text(encoding='utf-8')} ends with", wrong, "")


def what_goes_wrong(site: Path) -> str:
    """The traceback with which the adoption of a site ends; nothing when it ends in order, or in words."""
    with contextlib.redirect_stdout(io.StringIO()):
        try:
            word.main([str(site)], PROGRAM)
        except Refused:
            return ""
        except Exception:
            return traceback.format_exc()
    return ""
