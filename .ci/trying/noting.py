"""Cases of `.ci/site`: the notes of a site cost little, and whatever they meet is a line."""
from __future__ import annotations

import os
import random
import shlex
import shutil
import signal
import subprocess
import time
from concurrent.futures import ThreadPoolExecutor
from pathlib import Path

from running import SITE, Running, begin, expect, family, is_alive, own_copy, page, program, run, until, write

# A note that any of these sites has, and that has to be said whatever else is met.
NOTED = "{{ site.pages | where_exp: 'a', 'b' }}"
NOTE = "the filter where_exp is not known"
ODD = {
    "a field that is longer than python's reader takes": {"_data/a.csv": "a,b\n" + "x" * 200_000 + ",\n"},
    "a CR alone in a table": {"_data/a.csv": "a,b\n1,\r2\n", "_data/b.tsv": "a\tb\r1\t\r"},
    "a zero byte in a table": {"_data/a.csv": "a,b\n\0,\n"},
    "a list as the type of a scope": {"_config.yml": "defaults:\n  - scope: {path: '', type: [posts]}\n    values: {a: b}\n"},
    "a range that ends before it begins": {"_config.yml": "exclude: ['[z-a]']\n"},
    "such a range in a scope": {"_config.yml": "defaults:\n  - scope: {path: 'a*[z-a]'}\n    values: {a: b}\n"},
    "a theme that is a path": {"_config.yml": "theme: /etc/x\n"},
    "collections of the feed that are a number": {"_config.yml": "feed: {collections: 5}\nplugins: [jekyll-feed]\n"},
    "a path of the feed that is a list": {"_config.yml": "feed: {path: [a]}\nplugins: [jekyll-feed]\n"},
    "numbers where texts are looked for": {
        "_config.yml": "url: 5\nbaseurl: [1]\nplugins: [1, [2], {a: b}]\ndestination: 5\nkeep_files: [1]\nexclude: [1, {a: b}]\n",
    },
    "a permalink that is a list": {"a.html": "---\npermalink: /x/\ntags: {a: b}\ncategories: 5\nredirect_from: {a: b}\nlayout: [a]\n---\n"},
    "a key of thousands of letters": {"a.html": f"---\n{'k' * 5000}: 1\nlayout: {'l' * 5000}\n---\n"},
    "a page that is only its mark": {"a.html": "---", "b.html": "---\n", "c.md": "---\n---", "_layouts/d.html": "", "_includes/e.html": ""},
    "a byte that is not UTF-8 in a copied file": {"a.txt": "---\udcff"},
    "a day that is none": {"_c/a.md": "---\ndate: 2023-02-29\n---\n", "_config.yml": "collections: {c: {output: true}}\n"},
    "the year 0": {"_c/a.md": "---\ndate: 0000-01-01\n---\n", "_config.yml": "collections: {c: {output: true}}\n"},
    "options that are a number": {"_config.yml": "liquid: 5\n"},
    "options that are a list": {"_config.yml": "liquid: [strict_filters]\n"},
    "options of other kinds": {"_config.yml": "liquid: {strict_filters: [a], error_mode: {b: c}, 1: 2, '': x}\n"},
    "orders of other kinds": {"_config.yml": "collections: {c: {order: {a: b}, sort_by: [x]}, posts: 5, d: [a]}\n"},
    "an order of all kinds": {"_config.yml": "collections: {posts: {order: 5, sort_by: [a]}, c: {order: [[a], {b: c}, ~, /, //a.md, '', 1]}}\n", "_c/a.md": "---\n---\n"},
    "archives of other kinds": {"_config.yml": "plugins: [jekyll-archives]\njekyll-archives: {enabled: [1, [tags], tags], permalinks: [a], layouts: {tag: [b]}, slug_mode: {c: d}}\nmake_archives: {tags: true}\narchive_layout: 5\n"},
    "archives of a plugin that are no mapping": {"_config.yml": "plugins: [jekyll-archives]\njekyll-archives: [a]\nmake_archives: [[tags], 1]\n"},
    "tags of other kinds": {
        "_config.yml": "make_archives: [tags, categories]\ndefaults:\n  - scope: {path: ''}\n    values: {tags: {a: b}, category: [1, ~, [x]]}\n",
        "_posts/2020-01-01-a.html": "---\ntags: [1, ~, [x, y], {a: b}, '']\ncategories: 5\ntag: {a: b}\n---\n",
        "tag/1/index.html": "---\npermalink: [a]\n---\n",
    },
    "a feed and a sitemap of other kinds": {"_config.yml": "plugins: [jekyll-feed, jekyll-sitemap]\nmake_feed: [true]\nmake_sitemap: {a: b}\nurl: [c]\nmarkdown_ext: {d: xml}\n"},
    "pages of odd permalinks beside a feed and a sitemap": {
        "_config.yml": "make_feed: true\nmake_sitemap: true\nurl: ~\ncollections: {c: [output], d: {output: true}}\n",
        "feed.xml": "---\npermalink: [a]\n---\n",
        "sitemap.xml": "---\npermalink: ~\nsitemap: {a: b}\npublished: [c]\n---\n",
        "_c/feed.xml": "---\npermalink: /feed.xml\n---\n",
        "_d/feed.xml": "---\npermalink: //feed.xml\n---\n",
    },
    "a path of the feed with a zero byte": {"_config.yml": 'feed: {path: "a\\0b"}\nplugins: [jekyll-feed]\n'},
}


def write_site(site: Path, files: dict[str, str]) -> None:
    for path, text in {"noted.html": page(NOTED), **files}.items():
        (site / path).parent.mkdir(parents=True, exist_ok=True)
        (site / path).write_bytes(text.encode("utf-8", "surrogateescape"))


def told(word: str, site: Path, env: dict | None = None) -> tuple[int, str]:
    """The status of a word, and what it says on both streams."""
    done = subprocess.run([SITE, word, site], env=env, stdin=subprocess.DEVNULL, stdout=subprocess.PIPE, stderr=subprocess.STDOUT, timeout=60)
    return done.returncode, done.stdout.decode(errors="replace")


def whatever_is_met(room: Path) -> None:
    """No text of a site ends the notes with a traceback, or changes a status; the other notes are said."""
    for number, (name, files) in enumerate(ODD.items()):
        site = room / str(number)
        write_site(site, files)
        for word in ("check", "build"):
            own = subprocess.run([program(), word], cwd=site, stdin=subprocess.DEVNULL, capture_output=True, timeout=60).returncode
            status, said = told(word, site)
            expect(status == own, f"{word} with {name}: status {status}, and the program's {own}: {said}")
            expect("Traceback" not in said, f"{word} with {name}: {said}")
            # On a machine that is busy a second may not suffice.
            expect(NOTE in said or word == "build" and CUT in said, f"{word} with {name} lacks the other notes: {said}")


# A part that makes notes, and meets something.
MEETS = """import os, signal, time

class Said:
    def lines(self):
        return ["a note before"]

def look(said, folder, program, has_fault):
    {}
"""
CUT = "not all notes stood within a second"
ENDS = {
    "while True: pass": CUT,
    "time.sleep(100)": CUT,
    "os.kill(os.getpid(), signal.SIGSTOP)": "the process that looks for it was ended",
    "os.kill(os.getpid(), signal.SIGKILL)": "the process that looks for it was ended",
    "os._exit(0)": "the process that looks for it was ended",
    "raise MemoryError": "not known: MemoryError",
    "raise ValueError('a thing')": "not known: a thing",
    "look(said, folder, program, has_fault)": "not known: maximum recursion depth",
    "raise SystemExit(5)": "not known: 5",
    "print('x' * 100_000); os.write(2, b'noise')": "a note before",
}


def notes_that_end(room: Path) -> None:
    """Notes that go on for ever, or whose process ends, are cut: the build ends with its own status, and soon."""
    site = begin(room)
    script = own_copy(room / "copy", {})
    for does, line in ENDS.items():
        write(room / "copy/share/site/notes/making.py", MEETS.format(does))
        began = time.monotonic()
        done = subprocess.run([script, "build", site], stdin=subprocess.DEVNULL, capture_output=True, text=True, timeout=60)
        expect(done.returncode == 0 and not done.stderr, f"{does}: status {done.returncode}: {done.stderr}")
        expect(line in done.stdout and "noise" not in done.stdout, f"{does}: {done.stdout}")
        expect(time.monotonic() - began < 8, f"{does}: the build took {time.monotonic() - began:.1f} s")
    write(room / "copy/share/site/notes/making.py", MEETS.format("while True: pass"))
    with Running("serve", site, site=script) as served:
        at = served.said("built: ")
        write(site / "about.html", page("while the notes are made"))
        served.said("built: ", at)
        served.said(CUT)
        expect(any("a note before" in line for line in served.lines), "what was found before the end is not said")
    # The end of the script is that of the notes.
    with Running("serve", site, site=script) as served:
        served.said("built: ")
        members = family(served.process.pid)
        os.kill(served.process.pid, signal.SIGKILL)
        until(lambda: not any(map(is_alive, members)), "all processes have ended")
        served.process.wait()


def nobody_reads(room: Path) -> None:
    """A build that was good ends with status 0 when nobody can have the notes; without streams, too."""
    site = begin(room)
    write(site / "noted.html", page(NOTED))
    for command in (
        "{} build {} >&-", "{} build {} <&- >&- 2>&-", "{} build {} 2>/dev/full", "set -o pipefail; {} build {} | {{ read -r a; read -r b; }}",
    ):
        shutil.rmtree(site / "_site", ignore_errors=True)
        shell = command.format(shlex.quote(str(SITE)), shlex.quote(str(site)))
        done = subprocess.run(["bash", "-c", shell], stdin=subprocess.DEVNULL, stdout=subprocess.PIPE, stderr=subprocess.PIPE, text=True, timeout=60)
        expect(done.returncode == 0 and "Traceback" not in done.stderr, f"{command}: status {done.returncode}: {done.stderr}")
        expect((site / "_site/noted.html").is_file(), f"{command} builds nothing")


# What texts of one thing over and over are made of: each sign and each front of a form that the notes look for.
OVER_AND_OVER = [
    *" \t\r\n`*_~|<>[]()}:&\"'-.%#=!^$/\\,0a\u00e9", "](", "](#", "~~a", "~~ ", "[^a", "{:", "{: ", "{:toc ", "|-", "| - ", "`` ", "`a", "<a ", "&a", "&a;", "'\"",
    "$$", "[ ] ", "- [ ] ", ": ", "\n:", "a\n: ", "\n    a", "\n```", "\n~~~", "<script", "<pre>", "</pre>", "site.", "map:", "| map: a | join", "\n[a]: ", "\n-|-", "\n- - -",
    "a\n---\n", "where: 'a.", "sort: 'a", "- a: ", "--", "...", ",1:", "{1:", "\n1:", " --- \n", "--- ", "\n... ",
]
LONG = 100_000


def long_texts(room: Path) -> None:
    """A long text of one thing over and over takes as long as any other of its length."""
    site = room / "site"
    write_site(site, {f"p{at}.md": page((part * LONG)[:LONG]) for at, part in enumerate(OVER_AND_OVER)})
    for at, part in enumerate(OVER_AND_OVER):
        write(site / f"t{at}.html", page("{{ 'a' | append: '" + (part * LONG)[:LONG].replace("'", "") + "' }}"))
        write(site / f"_data/d{at}.csv", "a,b\n" + (part * LONG)[:LONG].replace('"', "").replace("\r", "") + "\n")
    write(site / "spaces.md", page("a" + " " * 60_000 + "b"))
    write(site / "ticks.md", page(" ".join("`" * count for count in range(1, 500))))
    began = time.monotonic()
    _, said = told("check", site)
    expect(NOTE in said and "Traceback" not in said, f"long texts: {said[:2000]}")
    expect(time.monotonic() - began < 45, f"a check of long texts took {time.monotonic() - began:.0f} s")


def many_faults(room: Path) -> None:
    """Faults are looked for up to a bound that is said, and not before a site is served."""
    site = room / "site"
    for number in range(1500):
        write(site / f"p{number}.html", page("{% nope %}"))
    with Running("serve", site) as served:
        served.said("p0.html:4: no tag has this name", seconds=8)
    said = run("build", site, status=1)
    expect("p1.html:4: no tag has this name" in said or CUT in said, f"a build: {said}")
    said = run("check", site, status=1)
    expect("faults of more files are not looked for: mend these 50 first" in said and said.count("no tag has this name") == 50, f"a check: {said}")


# What texts by chance are made of.
YAML_PARTS = [
    "title", "date", "layout", "tags", "categories", "permalink", "published", "redirect_from", "excerpt", "x", ": ", ":", " ", "\n", "\n  ", "- ", "[", "]", "{", "}",
    ", ", "'", '"', "#", "|", ">", "&a", "*a", "!x", "---\n", "...\n", "2024-01-01", "2023-02-29", "0000-01-01", "2024-01-01 25:61:61 +99:99", "1.50", "0x1F", "017", "1e9", "~",
    "null", "true", "fALSE", "nO", "\t", "\r", "\r\n", "\0", "\u2028", "\ufeff", "é", "\udcff", "9" * 40, "/a/:title.html", "?", "%", "@", "`",
]
TABLE_PARTS = ["a", "b", ",", "\t", '"', '""', "\n", "\r", "\r\n", " ", "\0", "é", "\udcff", "1", "", "'", "x" * 3000, "\ufeff", ";", "{{"]
TEXT_PARTS = [
    "a", "word ", "\n", "\n\n", " ", "    ", "\t", "\r\n", "#", "# ", "- ", "* ", "1. ", "> ", "`", "```", "~~~", "~~", "**", "_", "[", "]", "(", ")", "](", "](#x)", "![", "<", ">",
    "<b>", "</b>", "<!--", "-->", "<script>", "</script>", "<pre>", "&", "&amp;", "&foo;", "|", "|-|-|", "---", "--", "...", "'", '"', "$$", ":", ": x", "{:", "{: .a}", "{:toc}", "[^1]",
    "[a]: b", "*[a]: b", "- [ ] ", "\\", "\0", "é", "\udcff", "{{ page.title }}", "{{ x | map: 'a' | join | split }}", "{% raw %}", "{% endraw %}", "{% assign a = 1 %}",
    "{% if a %}", "{% endif %}", "{% tablerow i in (1..3) %}", "{% endtablerow %}", "{% highlight ruby %}", "{% endhighlight %}", "{{", "}}", "{%", "%}", "{{ a | sort: 'x' }}",
]
SITES_BY_CHANCE = 35
TEXTS_OF_A_SITE = 20


def by_chance(room: Path) -> None:
    """Front matter, tables and Markdown by chance, 700 texts: no traceback, and no other status than the program's."""
    chance = random.Random(60)

    def text(parts: list[str], most: int) -> str:
        return "".join(chance.choice(parts) for _ in range(chance.randrange(most)))

    def check(number: int) -> None:
        site = room / str(number)
        own = subprocess.run([program(), "check"], cwd=site, stdin=subprocess.DEVNULL, capture_output=True, timeout=60).returncode
        status, said = told("check", site)
        expect(status == own and "Traceback" not in said, f"site {number} by chance: status {status}, and the program's {own}: {said}")
        expect(NOTE in said and "is not known (" not in said, f"site {number} by chance: not all notes: {said}")

    for number in range(SITES_BY_CHANCE):
        files = {}
        for at in range(TEXTS_OF_A_SITE):
            kind = chance.randrange(4)
            if kind == 0:
                files[f"_posts/2024-01-01-p{at}.md"] = f"---\n{text(YAML_PARTS, 12)}\n---\n{text(TEXT_PARTS, 20)}"
            elif kind == 1:
                files[f"_data/d{at}.{chance.choice(['csv', 'tsv', 'yml', 'json'])}"] = text(TABLE_PARTS, 30)
            elif kind == 2:
                files[f"{chance.choice(['', '_layouts/', '_includes/', '_c/', '_drafts/'])}p{at}.{chance.choice(['md', 'html'])}"] = f"---\n---\n{text(TEXT_PARTS, 60)}"
            else:
                files[f"p{at}.md"] = "---\n" + "".join(f"{text(YAML_PARTS, 2)}: {text(YAML_PARTS, 3)}\n" for _ in range(chance.randrange(5))) + "---\n"
        if number % 3 == 0:
            files["_config.yml"] = f"collections: {{c: {{output: true}}}}\n{text(YAML_PARTS, 6)}"
        write_site(room / str(number), files)
    with ThreadPoolExecutor(2) as workers:
        list(workers.map(check, range(SITES_BY_CHANCE)))
