"""Notes of `_config.yml`: what its keys mean to Jekyll, and not to the program."""
from __future__ import annotations

import re

from adopting.archives import PLUGIN as ARCHIVES, plan_of
from adopting.globs import is_glob
from adopting.kept_back import READ_FOLDERS, Lists, Program, Rules, leaks, lists_of_paths, shortened
from adopting.scopes import mend
from adopting.settings import kept_by_front, lacks_pagination, made_by_keys, rules_of, texts, unpublished_copies
from configuration import CONFIG, mapping
from notes import archives, feed_and_sitemap
from notes.site import Notes, Site

ADOPT = "`site adopt` does that"
STYLES = ("date", "pretty", "ordinal", "none")
# Keys that say to Jekyll how a site is made.
WITHOUT_MEANING = {
    "theme": ("the theme is not read, and pages without its layouts come out bare", f"its files have to be in the site: {ADOPT}"),
    "remote_theme": ("the theme is not read, and pages without its layouts come out bare", "`site adopt --theme FOLDER` puts its files in"),
    "kramdown": ("a key without a meaning: every text is CommonMark", "take it out"),
    "markdown": ("a key without a meaning: every text is CommonMark", "take it out"),
    "highlighter": ("a key without a meaning: code comes out without colours", "colour it in the browser by the class language-.."),
    "lsi": ("a key without a meaning: related posts are the newest", "take it out"),
    "encoding": ("a key without a meaning: all files are UTF-8", "take it out"),
    "limit_posts": ("a key without a meaning: all posts come out", "take it out, or name the posts in exclude"),
    "collections_dir": ("a key without a meaning: collections are looked for at the top", f"move their folders there: {ADOPT}"),
    "layouts_dir": ("a key without a meaning: layouts are in _layouts", f"call the folder so: {ADOPT}"),
    "includes_dir": ("a key without a meaning: includes are in _includes", f"call the folder so: {ADOPT}"),
    "data_dir": ("a key without a meaning: data files are in _data", f"call the folder so: {ADOPT}"),
    "source": ("a key without a meaning: the site is the folder itself", "move _config.yml into the site's folder"),
    "destination": ("a key without a meaning: the output is _site", "let your server show _site"),
    "plugins_dir": ("a key without a meaning: no plugins are run", "write what they make as templates"),
    "sass": None,
    "plugins": None,
    "gems": None,
}
# What has the value of Jekyll's own default says nothing.
USUAL = {"markdown": "kramdown", "highlighter": "rouge", "encoding": "utf-8", "lsi": False, "limit_posts": 0, "collections_dir": "",
         "layouts_dir": "_layouts", "includes_dir": "_includes", "data_dir": "_data", "destination": "_site", "plugins_dir": "_plugins"}
# The keys that have a meaning in `liquid`, and in a collection; in `posts`, which have an order of their own, the last two have none.
OPTIONS = ("strict_variables", "strict_filters")
OF_COLLECTIONS = ("output", "permalink", "order", "sort_by")
ORDERS = ("order", "sort_by")
# Plugins whose work is done by what `site adopt` writes, and the file that shows it.
DONE_BY = {"jekyll-feed": "feed.xml", "jekyll-sitemap": "sitemap.xml"}
# Plugins that leave nothing to do: their tags are faults, or the program does their work.
WITHOUT_WORK = {
    "github-pages", "jekyll-seo-tag", "jekyll-paginate", "jekyll-include-cache", "jekyll-redirect-from", "jekyll-sass-converter", "jekyll-commonmark",
    "jekyll-watch", "jekyll-remote-theme", "kramdown-parser-gfm",
}


def add(notes: Notes, site: Site) -> None:
    for part in (add_keys, add_options, add_plugins, archives.add, feed_and_sitemap.add, add_lists, add_kept, add_scopes, add_permalinks, add_collections):
        with notes.of(CONFIG):
            part(notes, site)


def add_keys(notes: Notes, site: Site) -> None:
    config, settings = site.config, site.settings
    if not settings.lines:
        for other in ("_config.yaml", "_config.toml"):
            if other in site.files:
                notes.add(other, 0, "it is not read: the configuration is _config.yml", "give it this name")
    for key, said in WITHOUT_MEANING.items():
        if said and key in config and config[key] != USUAL.get(key, object()) and config[key] is not None:
            notes.add(CONFIG, settings.line(key), f"{key}: {said[0]}", said[1])


def add_options(notes: Notes, site: Site) -> None:
    """Members of `liquid` beside the two options."""
    for key in mapping(site.config.get("liquid")):
        if key not in OPTIONS:
            what = f"{key} of liquid has no meaning" + (": each fault of a template ends the build" if key == "error_mode" else "")
            notes.add(CONFIG, site.settings.line_with("liquid", key), what, "take it out")


def add_plugins(notes: Notes, site: Site) -> None:
    feed = site.config.get("feed")
    path = str(feed.get("path") or "feed.xml") if isinstance(feed, dict) else "feed.xml"
    made = {**DONE_BY, "jekyll-feed": path.lstrip("/")}
    there = {*site.files, *made_by_keys(site.config)}
    for name in site.plugins():
        if name in WITHOUT_WORK or made.get(name) in there or name == ARCHIVES and "make_archives" in site.config:
            continue
        place, line = (CONFIG, site.settings.line_with("plugins", name)) if name in texts(site.config.get("plugins")) else ("Gemfile", 0)
        remedy = f"a template has to make {made[name]}: {ADOPT}" if name in made else "write what it makes as a template"
        if name == ARCHIVES and plan_of(site.config).words:
            remedy = f"make_archives makes its pages: {ADOPT}"
        notes.add(place, line, f"the plugin {name} is not run", remedy)
    if lacks_pagination(site.config, site.folder):
        what = "posts are spread over pages (in Jekyll the plugin jekyll-paginate does that, which the site has not)"
        notes.add(CONFIG, site.settings.line("paginate"), what, f"take it out: {ADOPT}")


def add_lists(notes: Notes, site: Site) -> None:
    """Files that Jekyll leaves out and the program does not, and the other way round."""
    rules = rules_of(site.config)
    exclude, globs = rules.exclude, texts(site.config.get("exclude_globs"))
    rules.exclude = exclude + globs
    lists = lists_of_paths(rules, site.files)
    for path in leaks(rules, exclude, site.files):
        add_leak(notes, site, path, rules, lists)
    for path in unpublished_copies(site.folder, site.config, site.files):
        place = site.settings.line_with("defaults", "published")
        notes.add(CONFIG, place, f"{path} comes out, since published of defaults does not reach copied files", f"write it in exclude: {ADOPT}")
    for one in lists.replaced_excludes:
        place = site.settings.line_with("exclude", one.entry)
        if is_glob(one.entry) and not one.paths and one.entry in exclude:
            notes.add(CONFIG, place, f'"{one.entry}" of exclude is a glob, and names no file here', f"write paths: {ADOPT}")
        elif one.entry.partition("/")[0] in READ_FOLDERS:
            notes.add(CONFIG, place, f'"{one.entry}" of exclude takes a file out that Jekyll reads', "take the entry out")
    for one in lists.replaced_includes:
        if one.paths or is_glob(one.entry):
            place = site.settings.line_with("include", one.entry)
            notes.add(CONFIG, place, f'"{one.entry}" of include names other files than in Jekyll', f"write paths: {ADOPT}")


def add_leak(notes: Notes, site: Site, path: str, rules: Rules, lists: Lists) -> None:
    """What comes out, and Jekyll leaves out."""
    if Program(rules.include, []).is_included(path):
        notes.add(CONFIG, site.settings.line("include"), f"{path} comes out by include, and Jekyll leaves it out", f"write whole paths there: {ADOPT}")
        return
    entry = next((one.entry for one in lists.replaced_excludes if path in one.paths), "")
    key = "exclude_globs" if entry in texts(site.config.get("exclude_globs")) else "exclude"
    by = f' by "{entry}"' if entry else ""
    notes.add(CONFIG, site.settings.line_with(key, entry), f"{path} comes out, and Jekyll leaves it out{by}", f"write it in exclude: {ADOPT}")


def add_kept(notes: Notes, site: Site) -> None:
    """What Jekyll keeps in the output, and the next build would remove."""
    for entry, paths in kept_by_front(texts(site.config.get("keep_files")), site.folder / "_site"):
        if paths:
            place = site.settings.line_with("keep_files", entry)
            notes.add(CONFIG, place, f'"{entry}" of keep_files is a path, so a build removes {shortened(paths)} from _site', f"write the paths: {ADOPT}")


def add_scopes(notes: Notes, site: Site) -> None:
    given = site.config.get("defaults")
    if isinstance(given, list):
        for one in mend(given, site.files, ["posts", "drafts", "pages", *site.collections()]).differences:
            notes.add(CONFIG, site.settings.line_with("defaults", one.part), one.otherwise, f"write it out: {ADOPT}")


def add_permalinks(notes: Notes, site: Site) -> None:
    given = site.config.get("permalink")
    if isinstance(given, str) and given not in STYLES and not re.search(r":(title|slug|name|basename|path)", given):
        what = f'permalink "{given}" is no style and names no title, so posts share an address, and one of them comes out'
        notes.add(CONFIG, site.settings.line("permalink"), what, "write date, pretty, ordinal, none, or a template with :title")
    collections = site.config.get("collections")
    for name, meta in collections.items() if isinstance(collections, dict) else []:
        permalink = meta.get("permalink") if isinstance(meta, dict) else None
        if isinstance(permalink, str) and re.search(r"[^/]:path", permalink):
            what = f'permalink "{permalink}": nothing is put between the text and :path (in Jekyll a /)'
            notes.add(CONFIG, site.settings.line_with("collections", permalink), what, "write the / before :path")


def add_collections(notes: Notes, site: Site) -> None:
    for name, meta in mapping(site.config.get("collections")).items():
        for key, value in mapping(meta).items():
            line = site.settings.line_with("collections", key)
            if name == "posts" and key in ORDERS:
                notes.add(CONFIG, line, f"{key} of posts has no meaning: they are in the order of date and path", "take it out, and sort them where they are listed")
            elif key not in OF_COLLECTIONS:
                notes.add(CONFIG, line, f"{key} of the collection {name} is nil in templates", "put it into a key of its own, or a data file")
            elif key == "order":
                add_slashes(notes, site, name, value)


def add_slashes(notes: Notes, site: Site, name: str, order: object) -> None:
    """Entries of `order` that begin with a slash."""
    for entry in texts(order):
        path = entry.lstrip("/")
        if path != entry and f"_{name}/{path}" in site.files:
            line = site.settings.line_with("collections", entry)
            notes.add(CONFIG, line, f'"{entry}" in order of the collection {name} names no document (in Jekyll {path})', "write it without the slash in front")
