"""What `site adopt` does to the files of a site: the theme, plugins' tags and files, redirects, and Sass."""
from __future__ import annotations

import itertools
import os
import re
from pathlib import Path
from typing import Optional

import sass
from adopting.adoption import Adoption, refuse_too_much
from adopting.archives import PLUGIN as ARCHIVES, Plan, by_kind, in_words, plan_of, type_in
from adopting.outcome import ask
from adopting.publication import is_published_as_written
from adopting.settings import made_by_keys, plugins_of, question_of, read_mended, save, texts
from adopting.tags import Includes, rewrite
from adopting.theme import find_gem, locked_version, missing_files
from configuration import CONFIG, Hash, Settings, by_lines, is_in_braces, mapping, written
from inside import is_of_site, read_below, write_below
from site_files import TEMPLATES, begins_with_mark, front_matter, head_of, line_of, name_fault, read_text, read_values, write_text
from words import shown

# Keys that a theme's configuration never sets: Jekyll has defaults of its own for them.
JEKYLLS_OWN = set(
    "source destination collections_dir cache_dir plugins_dir layouts_dir data_dir includes_dir collections safe include exclude "
    "keep_files encoding markdown_ext strict_front_matter show_drafts limit_posts future unpublished whitelist plugins markdown "
    "highlighter lsi excerpt_separator incremental detach port host baseurl show_dir_listing permalink paginate_path timezone quiet "
    "verbose defaults liquid kramdown".split()
)
REDIRECTS = "redirects"
# The longest name of a file on most disks, with room for `.html`; and of a page of a redirect, before its number and its ending.
MOST_NAME = 250
MOST_STEM = 100


def template(name: str) -> str:
    return (TEMPLATES / name).read_text(encoding="utf-8")


def read_configuration(adoption: Adoption) -> tuple[Settings, Hash]:
    """The configuration of the copy, and what it says."""
    path = adoption.folder / CONFIG
    text = read_text(path) if path.is_file() else ""
    config = mapping(read_values(adoption.program, {CONFIG: text}).of.get(CONFIG))
    return Settings(by_lines(text, config) if is_in_braces(text) else text), config


# ---- front matter


def with_front_matter(adoption: Adoption) -> dict[str, str]:
    """The texts of the files that begin with front matter, by path."""
    found = {}
    for path in adoption.files():
        if not path.startswith(("_data/", "_includes/")) and begins_with_mark(adoption.folder / path):
            text = read_text(adoption.folder / path)
            if front_matter(text):
                found[path] = text
    return found


def yaml_of(text: str) -> str:
    """The front matter as a text of YAML, with the lines that it has in its file."""
    return f"---\n{head_of(text)[1]}"


def mend_front_matter(adoption: Adoption) -> None:
    """What can be mended without a question: a bracket at its key's indent, and `published` without a value or in quotes."""
    items = with_front_matter(adoption)
    values = read_values(adoption.program, {path: yaml_of(text) for path, text in items.items()})
    for path, text in items.items():
        if path in values.faults:
            value, fault, mended, moved = read_mended(adoption.program, path, yaml_of(text))
            if fault or not moved:
                continue
            text = text.replace(head_of(text)[1], mended[len("---\n") :], 1)
            adoption.done(f"{path}:{min(moved)}", "the bracket is moved in: at its key's indent it is not read")
            write_text(adoption.folder / path, text)
        else:
            value = values.of[path]
        published = mapping(value).get("published", True)
        if not isinstance(published, bool) and not path.startswith("_layouts/"):
            mend_published(adoption, path, text, published)


def mend_published(adoption: Adoption, path: str, text: str, value: object) -> None:
    """Writes `published` as a truth value: as Jekyll reads it, and false when it is no clear word."""
    match = head_of(text)
    settings = Settings(match[1])
    place = settings.place("published")
    if place is None:
        # In braces it has no line of its own. The program refuses it, so nothing comes out until it is mended by hand.
        return
    clear = is_published_as_written(value, match[1])
    new = written(bool(clear))
    settings.lines[place[0] : place[1]] = [f"{settings.indent}published: {new}"]
    write_text(adoption.folder / path, text[: match.start(1)] + settings.text() + text[match.end(1) :])
    line = f"{path}:{line_of(text, match.start(1)) + place[0]}"
    if clear is None:
        adoption.left(line, "published was no clear word, so it is false now; write true or false")
    elif value is None:
        adoption.done(line, "published is false now: without a value Jekyll leaves it out")
    else:
        adoption.done(line, f"published is {new} now: " + ("Jekyll builds it" if clear else "Jekyll leaves it out"))


# ---- the theme


def adopt_theme(adoption: Adoption, config: Hash, given: Optional[Path]) -> None:
    """The theme's files go in where the site has none of the name, and the keys of its configuration too."""
    key = next((key for key in ("remote_theme", "theme") if isinstance(config.get(key), str)), None)
    name = config[key] if key else ""
    settings, _ = read_configuration(adoption)
    place = f"{CONFIG}:{settings.line(key)}" if key else CONFIG
    folder = given
    if folder is None and key == "theme":
        folder = find_gem(name, adoption.original, locked_version(adoption.original, name))
    if folder is None:
        if key:
            how = "clone it" if key == "remote_theme" else "apt-get install, or gem install, it"
            adoption.left(place, f"the theme {shown(name)} is not on this machine; {how}, and run this again with --theme FOLDER")
        return
    folder = folder.resolve()
    added = missing_files(folder, adoption.files())
    refuse_too_much(folder, added)
    for path in added:
        write_below(adoption.folder, path, read_below(folder, path))
    if added:
        by_folder = ", ".join(f"{sum(path.startswith(top + '/') for path in added)} of {top}" for top in sorted({path.split("/")[0] for path in added}))
        adoption.done(place, f"{len(added)} files of the theme in {folder} are in the site now ({by_folder})")
    before = list(settings.lines)
    adopt_theme_keys(adoption, settings, config, folder, place)
    if key:
        settings.comment_out(key, "its files are in the site now")
        config.pop(key)
    if settings.lines != before:
        save(adoption, settings, config)


def adopt_theme_keys(adoption: Adoption, settings: Settings, config: Hash, folder: Path, place: str) -> None:
    """The keys of the theme's `_config.yml` that the site has not."""
    path = folder / CONFIG
    if not path.is_file() or path.is_symlink() or config.get("ignore_theme_config") is True:
        return
    values, fault, _, _ = read_mended(adoption.program, CONFIG, read_text(path))
    if fault:
        adoption.left(place, f"the theme's own settings are not read: {path}:{fault.line}: {fault.sentence}; copy what you want of them")
        return
    for key, value in (values if isinstance(values, dict) else {}).items():
        if key in JEKYLLS_OWN or key == "theme":
            continue
        merged = merge(value, config[key]) if key in config else value
        if key not in config or merged != config[key]:
            settings.set(key, merged)
            config[key] = merged
            adoption.done(place, f"{key} of the theme's settings is in {CONFIG} now")


def merge(under: object, over: object) -> object:
    """A hash with the keys of both; of two values of one key the second counts."""
    if isinstance(under, dict) and isinstance(over, dict):
        return {**under, **{key: merge(under[key], value) if key in under else value for key, value in over.items()}}
    return over


# ---- templates


def own_name(adoption: Adoption, folder: str, name: str, text: str) -> str:
    """A name for a file of this text: `name`, or another when the site has a file of its own there."""
    stem, ending = os.path.splitext(name)
    for candidate in (name, f"jekyll-{stem}{ending}", f"adopted-{stem}{ending}"):
        path = adoption.folder / folder / candidate
        if not path.exists() or read_text(path) == text:
            return candidate
    raise FileExistsError(17, "this name is taken", f"{folder}/{name}")


def adopt_templates(adoption: Adoption) -> None:
    """Plugins' tags become includes, and `jekyll.environment` a key of the configuration."""
    includes = Includes(
        {tag: own_name(adoption, "_includes", f"{tag}.html", template(f"{tag}.html")) for tag in ("seo", "feed_meta")}
    )
    items = with_front_matter(adoption)
    layouts = [path for path in adoption.files() if path.startswith(("_includes/", "_layouts/"))]
    for path in [*layouts, *items]:
        text = read_text(adoption.folder / path)
        if "{%" not in text and "{{" not in text:
            continue
        new, done = rewrite(text, includes)
        for line, what in done:
            adoption.done(f"{path}:{line}", what)
        if done:
            write_text(adoption.folder / path, new)
    for tag in sorted(includes.used):
        name = f"_includes/{includes.names[tag]}"
        if not (adoption.folder / name).exists():
            write_text(adoption.folder / name, template(f"{tag}.html"))
            adoption.done(name, f"is new: what the plugin's tag {tag} writes")
    if includes.environment:
        set_environment(adoption)


def set_environment(adoption: Adoption) -> None:
    settings, config = read_configuration(adoption)
    if "environment" in config:
        if not isinstance(config["environment"], str):
            adoption.left(f"{CONFIG}:{settings.line('environment')}", "templates compare it with production now; give it a text")
        return
    settings.set("environment", "production")
    save(adoption, settings, {**config, "environment": "production"})
    adoption.done(CONFIG, "environment is production now, which templates ask for in place of jekyll.environment")


# ---- what plugins make


def write_page(adoption: Adoption, path: str, keys: list[str], body: str, what: str) -> None:
    """A new page, where nothing is yet, and which a sitemap does not list."""
    if (adoption.folder / path).exists() or (adoption.folder / path).is_symlink():
        return
    write_text(adoption.folder / path, "".join(f"{line}\n" for line in ["---", *keys, "sitemap: false", "---"]) + body)
    adoption.done(path, what)


def write_feeds(adoption: Adoption, config: Hash) -> None:
    """The feeds of jekyll-feed, as templates."""
    if "jekyll-feed" not in plugins_of(config, adoption.original):
        return
    given = mapping(config.get("feed"))
    collections = given.get("collections")
    if isinstance(collections, list):
        collections = {str(name): {} for name in collections}
    collections = {str(name): dict(mapping(meta)) for name, meta in mapping(collections).items()}
    posts = collections.setdefault("posts", {})
    posts["path"] = posts.get("path") or given.get("path")
    posts["categories"] = posts.get("categories") or given.get("categories")
    for name, meta in collections.items():
        top = "feed" if name == "posts" else f"feed/{name}"
        keys = ["layout: none"] if name == "posts" else ["layout: none", f"feed_collection: {written(name)}"]
        write_feed(adoption, config, str(meta.get("path") or f"{top}.xml").lstrip("/"), keys)
        for category in texts(meta.get("categories")):
            write_feed(adoption, config, f"{top}/{category}.xml", [*keys, f"feed_category: {written(category)}"])
    if given.get("tags"):
        settings, _ = read_configuration(adoption)
        adoption.left(f"{CONFIG}:{settings.line('feed')}", "feeds by tag are not made; write one as feed.xml with its tag")


def write_feed(adoption: Adoption, config: Hash, path: str, keys: list[str]) -> None:
    """A feed as a template, where the program does not make it by a key."""
    if path in made_by_keys(config):
        return
    if not can_be_written(path) or not path.endswith(".xml"):
        adoption.left(CONFIG, f"the feed {shown(path)} is not made; give it a path that ends with .xml")
        return
    write_page(adoption, path, keys, template("feed.xml"), "is new: what jekyll-feed makes, as a template")


def can_be_written(path: str) -> bool:
    """Whether a file of the site can have this path, which comes from a text of the site."""
    return not name_fault(path) and is_of_site(path) and all(len(name.encode()) <= MOST_NAME for name in path.split("/"))


def write_sitemap(adoption: Adoption, config: Hash) -> None:
    """The files of jekyll-sitemap, as templates."""
    if "jekyll-sitemap" in plugins_of(config, adoption.original):
        if "sitemap.xml" not in made_by_keys(config):
            write_page(adoption, "sitemap.xml", ["layout: none"], template("sitemap.xml"), "is new: what jekyll-sitemap makes, as a template")
        write_page(adoption, "robots.txt", ["layout: none"], template("robots.txt"), "is new: what jekyll-sitemap makes, as a template")


def write_archives(adoption: Adoption) -> None:
    """The archives of jekyll-archives, by the keys that make them. The notes say what is left of the plugin."""
    settings, config = read_configuration(adoption)
    if ARCHIVES not in plugins_of(config, adoption.original):
        return
    plan = plan_of(config)
    if not plan.words:
        return
    if "make_archives" not in config:
        set_archives(adoption, settings, config, plan)
    for path in adoption.files():
        if os.path.splitext(path)[0] == f"_layouts/{config.get('archive_layout')}":
            ask_for_kind(adoption, path)


def set_archives(adoption: Adoption, settings: Settings, config: Hash, plan: Plan) -> None:
    place = f"{CONFIG}:{settings.line(ARCHIVES)}"
    settings.set("make_archives", plan.words)
    config["make_archives"] = plan.words
    what = f"make_archives makes the archives of {in_words(plan.words)} now"
    if "archive_layout" not in config:
        settings.set("archive_layout", plan.layout)
        config["archive_layout"] = plan.layout
        what += f", in the layout {plan.layout}"
    save(adoption, settings, config)
    adoption.done(place, what)


def ask_for_kind(adoption: Adoption, path: str) -> None:
    """In the layout of archives `page.type` is `page.kind`."""
    text = read_text(adoption.folder / path)
    line = type_in(text)
    if line:
        write_text(adoption.folder / path, by_kind(text))
        adoption.done(f"{path}:{line}", "page.type is page.kind now: archives have their kind there")


def write_redirects(adoption: Adoption) -> None:
    """A page at each old address, without a title, since a menu lists what has one."""
    _, config = read_configuration(adoption)
    if "jekyll-redirect-from" not in plugins_of(config, adoption.original):
        return
    items = with_front_matter(adoption)
    asking = {path: text for path, text in items.items() if re.search(r"^redirect_(from|to|source)[ \t]*:", head_of(text)[1], re.M)}
    coming = coming_out(adoption, config, list(asking))
    asking = {path: text for path, text in asking.items() if path in coming}
    values = read_values(adoption.program, {path: yaml_of(text) for path, text in asking.items()}).of
    layout = os.path.splitext(own_name(adoption, "_layouts", "redirect.html", template("redirect.html")))[0]
    used = False
    taken = {str(mapping(values[path]).get("permalink")) for path in values if path.startswith(f"{REDIRECTS}/")}
    for path, value in values.items():
        if path.startswith(f"{REDIRECTS}/") or not isinstance(value, dict) or value.get("published") is False:
            continue
        old = value.get("redirect_from")
        for address in [str(one) for one in (old if isinstance(old, list) else [old]) if one is not None]:
            used |= write_redirect(adoption, path, items[path], address, layout, taken)
        if value.get("redirect_to"):
            used |= redirect_page(adoption, path, items[path], layout)
    if used and not (adoption.folder / f"_layouts/{layout}.html").exists():
        write_text(adoption.folder / f"_layouts/{layout}.html", template("redirect.html"))
        adoption.done(f"_layouts/{layout}.html", "is new: what jekyll-redirect-from writes")


def write_redirect(adoption: Adoption, path: str, text: str, address: str, layout: str, taken: set[str]) -> bool:
    """Whether a page for this old address is there in the end."""
    address = "/" + address.lstrip("/")
    if address in taken:
        return True
    line = line_of(text, text.find("redirect_from"))
    ending = os.path.splitext(address)[1]
    odd = not re.fullmatch(r"[^\s?#\x00-\x1f:\"\\]+", address) or not can_be_written(re.sub("/+", "/", address).strip("/") or "index.html")
    if odd or ending[1:] in ("markdown", "mkdown", "mkdn", "mkd", "md"):
        adoption.left(f"{path}:{line}", f"no page can be at the old address {shown(address)}; write one by hand")
        return False
    stem = re.sub(r"[^A-Za-z0-9]+", "-", os.path.splitext(address)[0]).strip("-")[:MOST_STEM] or "index"
    # An address keeps an ending of its own when the file has it.
    names = (f"{REDIRECTS}/{stem}{number or ''}{ending or '.html'}" for number in itertools.count())
    place = next(name for name in names if not (adoption.folder / name).exists())
    taken.add(address)
    keys = [f"layout: {layout}", f"permalink: {written(address)}", f"redirect_source: {written(path)}"]
    write_page(adoption, place, keys, "", f"is new: leads from {address} to {path}")
    return True


def redirect_page(adoption: Adoption, path: str, text: str, layout: str) -> bool:
    """A page that leads elsewhere has the layout that says so, in place of its own."""
    match = head_of(text)
    line = re.compile(r"^layout[ \t]*:.*?(\r?)$", re.M)
    new = line.sub(rf"layout: {layout}\1", match[1]) if line.search(match[1]) else f"{match[1]}layout: {layout}\n"
    if not re.search(r"^sitemap[ \t]*:", match[1], re.M):
        new += "sitemap: false\n"
    if new != match[1]:
        write_text(adoption.folder / path, text[: match.start(1)] + new + text[match.end(1) :])
        adoption.done(f"{path}:{line_of(text, text.find('redirect_to'))}", f"its layout is {layout} now, which leads to redirect_to")
    return True


def coming_out(adoption: Adoption, config: Hash, paths: list[str]) -> set[str]:
    """Those of these files that come out of the site as it is now. The program is asked."""
    heads = {}
    for path in paths:
        match = front_matter(read_text(adoption.folder / path)) if begins_with_mark(adoption.folder / path) else None
        heads[path] = match[1] if match else None
    return ask(adoption.program, question_of(config), heads).sources if heads else set()


# ---- Sass


def write_styles(adoption: Adoption) -> None:
    """The CSS of each page of Sass is put beside it, and the page into `exclude`."""
    settings, config = read_configuration(adoption)
    styles = sass.sass_pages(adoption.folder, adoption.files())
    coming = coming_out(adoption, config, [style.source for style in styles])
    styles = [style for style in styles if style.source in coming]
    if not styles:
        for line in sass.compile_styles(adoption.folder, adoption.program):
            adoption.left_lines.append(line)
        return
    said = sass.compile_all(adoption.folder, adoption.program, styles)
    adoption.left_lines += said
    made = [style for style in styles if sass.is_ours(adoption.folder, style)]
    for style in made:
        adoption.done(style.source, f"sassc made {style.css} of it, and it is in exclude now; `site serve` and `site watch` make it anew")
    if made:
        config["exclude"] = texts(config.get("exclude")) + [style.source for style in made]
        settings.set("exclude", config["exclude"])
        save(adoption, settings, config)
