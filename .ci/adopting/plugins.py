"""A site that uses the theme minima and four plugins, adopted and built, beside Jekyll's own build of it."""
from __future__ import annotations

import subprocess
from pathlib import Path
from xml.etree import ElementTree

import proof
from common import PROGRAM, Failures, adopt, read_files, run, write_files

PLUGINS = ("jekyll-feed", "jekyll-seo-tag", "jekyll-sitemap", "jekyll-redirect-from")
# What the adopted site has not: maps from CSS to Sass, and a list of redirects for programs.
NOT_MADE = {"assets/main.css.map", "css/own.css.map", "redirects.json"}
SITE = {
    "_config.yml": """title: Things
tagline: On things
description: About <b>things</b> and such
url: "https://example.org"
baseurl: /sub
author: ann
twitter: {username: things}
facebook: {app_id: 12, admins: a, publisher: p}
logo: /img/logo.png
social: {name: Ann, links: [https://a.example/c, https://d.example]}
lang: en-GB
webmaster_verifications: {google: g1, bing: b2, alexa: c3, yandex: d4, baidu: e5, facebook: f6}
timezone: UTC
theme: minima
plugins: [
  jekyll-feed, jekyll-sitemap,
  jekyll-redirect-from, jekyll-seo-tag
]
collections:
  films: {output: true}
feed: {posts_limit: 2, categories: [news], collections: [films]}
paginate: 2
defaults:
- scope: {path: ""}
  values: {layout: default}
- scope: {type: posts}
  values: {layout: post}
sass: {style: compressed}
""",
    "_data/authors.yml": "ann: {name: Ann Other, twitter: ann, url: https://ann.example, email: ann@example.org, uri: https://ann.example/x}\n",
    "_posts/2020-01-02-one.md": "---\ntitle: One & two\ncategories: [news]\ntags: [t1, t2]\nredirect_from: [/old/one/, /old-two.html]\nimage: /img/a b.png\n---\nFirst of one.\n\nSecond.\n",
    "_posts/2020-03-02-two.md": "---\ntitle: Two\nauthor: Zed\nimage: {path: /img/x.png, width: 10, height: 20, alt: An x}\nlast_modified_at: 2020-04-01\n---\nText of two.\n",
    "_posts/2020-05-02-three.md": "---\ntitle: Three\ndescription: Told by hand\nseo: {type: CreativeWork, name: The three}\nauthor: Bob\n---\nText of three.\n",
    "_films/up.md": "---\ntitle: Up\ndate: 2019-01-01\ntwitter: {card: player}\nimage: https://example.com/up.png\n---\nA film.\n",
    "index.html": "---\nlayout: home\n---\n",
    "about.md": "---\ntitle: About\npermalink: /about/\nredirect_from: [/who, /v1.2, /old.php]\n---\nAbout {{ jekyll.environment }}.\n",
    "quiet.md": "---\ntitle: Quiet\nsitemap: false\nlocale: de-AT\ncanonical_url: https://elsewhere.example/q\n---\nIn.\n",
    "seo.html": "---\nlayout: null\ntitle: Own\n---\n{% seo title=false %}\n",
    "moved.md": "---\ntitle: Moved\nredirect_to: https://elsewhere.example/x\n---\n",
    "css/own.scss": "---\nc: \"#123\"\n---\n@import \"part\";\nb { color: {{ page.c }}; &:hover { margin: 1px + 2px; } }\n",
    "_sass/_part.scss": "i { top: 0; }\n",
    "static.html": "<p>x\n",
    "404.html": "---\npermalink: /404.html\n---\nnone\n",
}


def are_installed() -> bool:
    words = ["ruby", "-e", f"ARGV.each {{ |name| require name }}", *PLUGINS]
    return subprocess.run(words, capture_output=True).returncode == 0


def try_all(work: Path, failures: Failures) -> None:
    if proof.missing_packages() or not are_installed():
        print(f"not tried: a site with plugins; it needs {', '.join(['jekyll', 'jekyll-theme-minima', 'sassc', *(f'ruby-{name}' for name in PLUGINS)])}")
    else:
        try_plugins(work, failures)
        print("a site with four plugins, adopted and built: the texts and links of Jekyll's own build")


def try_plugins(work: Path, failures: Failures) -> None:
    site, adopted = work / "site", work / "site-adopted"
    write_files(site, SITE)
    done = adopt(site)
    failures.expect(f"site adopt: {done.stdout}{done.stderr}", done.returncode, 0)
    built = run([PROGRAM, "once"], adopted)
    failures.expect(f"the adopted site: {built.stderr}", built.returncode, 0)
    jekyll = run(["jekyll", "build", "--quiet", "--disable-disk-cache", "-d", work / "jekyll"], site, JEKYLL_ENV="production", TZ="UTC")
    failures.expect(f"jekyll build: {jekyll.stderr}", jekyll.returncode, 0)
    here, there = read_files(adopted / "_site"), read_files(work / "jekyll")
    failures.expect("the files of both", set(here) | NOT_MADE, set(there))
    for path in sorted(set(here) & set(there)):
        ours, theirs = here[path].decode(), there[path].decode()
        if path == "sitemap.xml":
            failures.expect(path, addresses(ours), addresses(theirs))
        elif path.endswith(".xml"):
            failures.expect(path, proof.elements(ours), proof.elements(theirs))
        elif path.endswith(".html"):
            proof.compare_pages(path, proof.Page(ours), proof.Page(theirs), failures)
        elif path.endswith(".css"):
            failures.expect(path, ours.splitlines()[:1], theirs.splitlines()[:1])
        else:
            failures.expect(path, ours, theirs)


def addresses(sitemap: str) -> dict[str, str]:
    """The addresses of a sitemap, with their dates. A copied file has its own date there, and none here."""
    found = {}
    for url in ElementTree.fromstring(sitemap):
        address, *date = [part.text or "" for part in url]
        found[address] = "" if address.endswith("/static.html") else "".join(date)
    return found
