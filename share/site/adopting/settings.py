"""What `site adopt` does to `_config.yml`. What must not come out is looked after first."""
from __future__ import annotations

import datetime
import os
import re
from dataclasses import replace
from pathlib import Path
from typing import Optional
from zoneinfo import ZoneInfo

from adopting.adoption import Adoption
from adopting.globs import fits, is_glob
from adopting.kept_back import Jekyll, Program, Replaced, Rules, lists_of_paths, names, shortened
from adopting.outcome import Question
from adopting.publication import is_published_as_written
from adopting.scopes import Tree, published_by_defaults
from adopting.scopes import mend as mend_scopes
from adopting.zones import Zone, mended as mended_date, offset_of, stands_bare
from configuration import CONFIG, Hash, Settings, by_lines, is_in_braces, listed, mapping
from inside import OUTPUT
from site_files import Fault, begins_with_mark, front_matter, list_files, read_text, read_values, write_text
from words import Refused, shown

OFFSET = re.compile(r"(?:Etc/)?UTC|Z|[+-]\d\d:?\d\d")
# The front of a date as Jekyll's sites write it.
MOMENT = re.compile(r"(\d{4})-(\d\d?)-(\d\d?)(?:[ T](?P<hour>\d\d):(?P<minute>\d\d)(?::(?P<second>\d\d))?[ ]?(?P<offset>[+-]\d\d:?\d\d)?)?")
# Plugins that spread posts over pages.
PAGINATION = {"jekyll-paginate", "jekyll-paginate-v2", "github-pages"}
BRACKETS = "a list or mapping in brackets"
# Folders that Jekyll reads under another name, and the names that the program knows.
FOLDERS = {"layouts_dir": "_layouts", "includes_dir": "_includes", "data_dir": "_data"}
# What the program makes itself, with the keys that ask for it.
MADE_BY_KEYS = {"feed.xml": "make_feed", "sitemap.xml": "make_sitemap"}


def adopt_configuration(adoption: Adoption) -> Hash:
    """Mends the configuration; what it says in the end."""
    find_configuration(adoption)
    path = adoption.folder / CONFIG
    old = read_text(path) if path.is_file() else ""
    text, config = readable(adoption, old)
    settings = Settings(text)
    unchanged = list(settings.lines)
    refuse_other_source(config)
    moved = rename_folders(adoption, settings, config)
    files = adoption.files()
    rules = rules_with_globs(config, moved)
    older = older_posts(adoption, config, files)
    copies = held_copies(adoption.folder, config, files)
    before = texts(config.get("exclude"))
    adoption.left_out = set(files) - let_out(Jekyll(rules, files, [*older, *copies, *unpublished_items(adoption, config, files)]))
    mend_lists(adoption, settings, config, files, rules, {*older, *copies})
    added = [path for path in texts(config.get("exclude")) if path not in before]
    mend_limit(adoption, settings, config, [path for path in older if path in added])
    tell_copies(adoption, settings, [path for path in copies if path in added])
    mend_kept(adoption, settings, config)
    mend_zone(adoption, settings, config, old)
    mend_defaults(adoption, settings, config, files)
    mend_values(adoption, settings, config)
    if settings.lines != unchanged and is_in_braces(old):
        adoption.done(CONFIG, "its mapping in braces has a line for each key now")
    if settings.lines != unchanged or not is_in_braces(old) and text != old:
        save(adoption, settings, config)
    return config


def save(adoption: Adoption, settings: Settings, config: Hash) -> None:
    """Writes the configuration. It has to say what is wanted: a text that is laid out in an odd way may not bear the edits."""
    text = settings.text()
    values = read_values(adoption.program, {CONFIG: text})
    if CONFIG in values.faults or (values.of.get(CONFIG) or {}) != config:
        why = str(values.faults[CONFIG]) if CONFIG in values.faults else "the keys are not as they were"
        raise Refused(f"{CONFIG}: it cannot be edited as it is laid out ({shown(why)}); begin each key at the front of a line, and run this again. Nothing was done")
    write_text(adoption.folder / CONFIG, text)


def find_configuration(adoption: Adoption) -> None:
    """Jekyll reads `_config.yaml` and `_config.toml` where there is no `_config.yml`."""
    if (adoption.folder / CONFIG).is_file():
        return
    if (adoption.folder / "_config.yaml").is_file():
        os.rename(adoption.folder / "_config.yaml", adoption.folder / CONFIG)
        adoption.done("_config.yaml", "it is called _config.yml now; no other name is read")
    elif (adoption.folder / "_config.toml").is_file():
        raise Refused("_config.toml: it is not read; write its settings as _config.yml, and run this again. Nothing was done")


def mend_brackets(text: str, line: int) -> Optional[tuple[str, int]]:
    """Moves the first bracket that is alone in its line in, from this line on; the text, and the bracket's line."""
    lines = text.splitlines(keepends=True)
    for at in range(line, len(lines)):
        match = re.match(r"[ ]*[\]}]", lines[at])
        if match:
            lines[at] = "  " + lines[at]
            return "".join(lines), at + 1
    return None


def read_mended(program: str, name: str, text: str) -> tuple[object, Optional[Fault], str, list[int]]:
    """What a text says, its fault, the text with brackets moved in, and their lines."""
    moved: list[int] = []
    while True:
        values = read_values(program, {name: text})
        fault = values.faults.get(name)
        if fault is None:
            return values.of[name], None, text, moved
        mended = mend_brackets(text, fault.line) if fault.sentence.startswith(BRACKETS) else None
        # Its key may be indented itself.
        if mended is None or moved.count(mended[1]) > 8:
            return None, fault, text, moved
        text = mended[0]
        moved.append(mended[1])


def readable(adoption: Adoption, text: str) -> tuple[str, Hash]:
    """The text as the program reads it, and what it says. Of settings that are not read nobody knows what must not come out."""
    config, fault, text, moved = read_mended(adoption.program, CONFIG, text)
    if fault:
        tell_faults(adoption.program, text, fault)
        raise Refused(f"{CONFIG}: nobody knows what must not come out, so nothing was done; mend these lines, and run this again")
    for line in sorted(set(moved)):
        adoption.done(f"{CONFIG}:{line}", "the bracket is moved in: at its key's indent it is not read")
    if config is not None and not isinstance(config, dict):
        raise Refused(f"{CONFIG}: it is no mapping; write key: value. Nothing was done")
    return by_lines(text, config) if config and is_in_braces(text) else text, config or {}


def tell_faults(program: str, text: str, fault: Optional[Fault]) -> None:
    """Says the first fault of each key."""
    settings = Settings(text)
    while fault:
        print(f"left: {replace(fault, path=CONFIG)}")
        key = settings.key_at(fault.line)
        if key is None:
            return
        settings.remove(key)
        fault = read_values(program, {CONFIG: settings.text()}).faults.get(CONFIG)


def refuse_other_source(config: Hash) -> None:
    source = str(config.get("source") or ".").strip("/")
    if source not in (".", ""):
        raise Refused(
            f"{CONFIG}: the site is in its folder {shown(source)} (source), which is not read; move _config.yml there, take the key out, "
            "and adopt that folder. Nothing was done"
        )


def rename_folders(adoption: Adoption, settings: Settings, config: Hash) -> bool:
    """Folders that have names of their own get those that the program knows. Whether collections were moved."""
    for key, name in FOLDERS.items():
        given = folder_in(settings, config, key) or name
        if given != name:
            move(adoption, settings, key, given, name)
            config.pop(key)
    given = folder_in(settings, config, "collections_dir")
    if given:
        # What is at the top is none to Jekyll.
        for name in ("posts", "drafts", *collections_of(config)):
            if any(path.startswith(f"_{name}/") for path in adoption.files()):
                raise Refused(f"_{name}: Jekyll does not read it, since collections_dir is {shown(given)}; take it out of the folder. Nothing was done")
        inner = adoption.folder / given
        for entry in sorted(inner.iterdir()) if inner.is_dir() else []:
            if entry.name.startswith("_") and entry.is_dir():
                move(adoption, settings, "collections_dir", f"{given}/{entry.name}", entry.name)
        adoption.done(f"{CONFIG}:{settings.line('collections_dir')}", "collections_dir is taken out: collections are at the top")
        settings.comment_out("collections_dir", "its folders are at the top now")
        config.pop("collections_dir")
    return bool(given)


def folder_in(settings: Settings, config: Hash, key: str) -> str:
    """The folder that a key names. It has to be in the site: it is going to be moved."""
    given = str(config.get(key) or "").removeprefix("./").rstrip("/")
    if any(part in ("", ".", "..") for part in given.split("/")) and given:
        raise Refused(f"{CONFIG}:{settings.line(key)}: {key} leads out of the site; put the folder into it. Nothing was done")
    return given


def move(adoption: Adoption, settings: Settings, key: str, old: str, new: str) -> None:
    """Gives a folder the name that the program knows. What is there under that name stays."""
    place = f"{CONFIG}:{settings.line(key)}"
    for path in [path for path in adoption.files() if path.startswith(f"{old}/")]:
        source, target = adoption.folder / path, adoption.folder / f"{new}{path[len(old):]}"
        if target.exists() and target.read_bytes() != source.read_bytes():
            raise Refused(f"{place}: {shown(old)} has to be called {new}, where another {shown(target.name)} is; put them together. Nothing was done")
        target.parent.mkdir(parents=True, exist_ok=True)
        os.replace(source, target)
        adoption.old_folders[os.path.dirname(f"{new}{path[len(old):]}")] = os.path.dirname(path)
    if (adoption.folder / new).is_dir():
        adoption.done(place, f"{old} is called {new} now; no other name is read ({key})")
    else:
        adoption.done(place, f"{key} is taken out: there is no folder {old}")
    if key != "collections_dir":
        settings.comment_out(key, f"the folder is called {new} now")


def texts(value: object) -> list[str]:
    return [one if isinstance(one, str) else str(one) for one in value] if isinstance(value, list) else []


def made_by_keys(config: Hash) -> dict[str, str]:
    """The paths of what the program makes itself of this site, each with its key."""
    return {path: key for path, key in MADE_BY_KEYS.items() if config.get(key) is True}


def plugins_of(config: Hash, folder: Path) -> list[str]:
    """The plugins of a site: of its configuration, and of the group jekyll_plugins of its Gemfile."""
    found = texts(config.get("plugins")) + texts(config.get("gems"))
    try:
        lines = read_text(folder / "Gemfile").splitlines()
    except OSError:
        lines = []
    in_group = False
    for line in lines:
        in_group = in_group and line.strip() != "end" or bool(re.match(r"\s*group\b.*:jekyll_plugins\b", line))
        gem = re.match(r"\s*gem\s+[\"']([\w.-]+)[\"']", line)
        if gem and gem[1] not in found and (in_group or ":jekyll_plugins" in line):
            found.append(gem[1])
    return found


def lacks_pagination(config: Hash, folder: Path) -> bool:
    """Whether Jekyll makes no pages by `paginate`. A site that names no plugin, gem or theme was not written for Jekyll."""
    of_jekyll = any(config.get(key) is not None for key in ("plugins", "gems", "theme", "remote_theme")) or (folder / "Gemfile").is_file()
    return of_jekyll and bool(config.get("paginate")) and not PAGINATION & set(plugins_of(config, folder))


def collections_of(config: Hash) -> list[str]:
    given = config.get("collections")
    return [str(one) for one in given] if isinstance(given, (dict, list)) else []


def is_kramdown(config: Hash) -> bool:
    """Whether Jekyll converts by Kramdown, as it does where nothing else is said."""
    return str(config.get("markdown") or "kramdown").lower() == "kramdown"


def is_markdown(config: Hash, path: str) -> bool:
    endings = str(config.get("markdown_ext") or "markdown,mkdown,mkdn,mkd,md").split(",")
    return os.path.splitext(path)[1][1:] in [ending.strip() for ending in endings]


def question_of(config: Hash) -> Question:
    """The settings of which the program is asked what comes out by them."""
    defaults = config.get("defaults")
    return Question(
        rules_of(config).include, texts(config.get("exclude")), collections_of(config), defaults if isinstance(defaults, list) else [],
        config.get("unpublished") is True,
    )


def rules_of(config: Hash) -> Rules:
    rules = Rules(exclude=texts(config.get("exclude")), collections=collections_of(config))
    if config.get("include") is not None:
        rules.include = texts(config["include"])
    destination = str(config.get("destination") or "").strip("/")
    rules.destination = destination.removeprefix("./") if destination != OUTPUT else ""
    rules.collections_in = str(config.get("collections_dir") or "").strip("/") or None
    given = config.get("collections")
    metas = given if isinstance(given, dict) else {}
    rules.hidden = [name for name in rules.collections if not (isinstance(metas.get(name), dict) and metas[name].get("output") is True)]
    return rules


def rules_with_globs(config: Hash, moved: bool) -> Rules:
    """The rules, with the globs that stood in `exclude` once. `moved` says whether collections were moved to the top."""
    rules = rules_of(config)
    rules.collections_in = "" if moved else None
    rules.exclude += [glob for glob in texts(config.get("exclude_globs")) if glob not in rules.exclude]
    return rules


def let_out(jekyll: Jekyll) -> set[str]:
    return jekyll.comes_out() | jekyll.drafts()


def mend_lists(adoption: Adoption, settings: Settings, config: Hash, files: list[str], rules: Rules, held: set[str]) -> None:
    """`exclude` and `include` get the paths that they name now, and those that are held back by others. The globs stay in a key of their own, for new files."""
    excluded, globs = texts(config.get("exclude")), texts(config.get("exclude_globs"))
    lists = lists_of_paths(rules, files, held)
    told = [one for one in lists.replaced_excludes if one.paths or one.entry in excluded]
    tell(adoption, settings, "exclude", told)
    tell(adoption, settings, "include", lists.replaced_includes)
    line = settings.line("destination") if rules.destination else settings.line("exclude")
    for path in lists.added:
        if path not in held:
            adoption.done(f"{CONFIG}:{line}", f"{path} is in exclude now, since Jekyll leaves it out")
    for path in lists.brought:
        adoption.done(f"{CONFIG}:{settings.line('include')}", f"{path} is in include now, since Jekyll lets it come out")
    globs += [one.entry for one in told if is_glob(one.entry) and one.entry not in globs]
    for key, value in (("exclude", lists.exclude), ("include", lists.include), ("exclude_globs", globs)):
        if value != (rules.include if key == "include" else texts(config.get(key))):
            settings.set(key, value)
            config[key] = value


def mend_limit(adoption: Adoption, settings: Settings, config: Hash, older: list[str]) -> None:
    """`limit_posts`: says that the older posts are in `exclude`."""
    limit = config.get("limit_posts")
    if not isinstance(limit, int) or limit <= 0:
        return
    if older:
        place = f"{CONFIG}:{settings.line('limit_posts')}"
        adoption.done(place, f"the posts past the newest {limit} are in exclude now: {shortened(older)}")
    settings.comment_out("limit_posts", "the older posts are in exclude now")
    config.pop("limit_posts")


def tell_copies(adoption: Adoption, settings: Settings, copies: list[str]) -> None:
    """Says which copied files are in `exclude` since `defaults` hold them back."""
    if copies:
        place = f"{CONFIG}:{settings.line_with('defaults', 'published')}"
        adoption.done(place, f"published of defaults does not reach copied files, so they are in exclude now: {shortened(copies)}")


def older_posts(adoption: Adoption, config: Hash, files: list[str]) -> list[str]:
    """The posts past the newest ones that `limit_posts` lets come out."""
    limit = config.get("limit_posts")
    if not isinstance(limit, int) or limit <= 0:
        return []
    posts = dated_posts(adoption, config, files)
    return posts[: max(len(posts) - limit, 0)]


def dated_posts(adoption: Adoption, config: Hash, files: list[str]) -> list[str]:
    """The posts that Jekyll makes now, the oldest first; the drafts too where they are built."""
    jekyll = Jekyll(rules_of(config), files)
    wanted = jekyll.comes_out() | (jekyll.drafts() if config.get("show_drafts") is True else set())
    found = [path for path in wanted if kind_of(path, []) == "posts" and path.partition("/")[0][1:] not in collections_of(config)]
    heads = {path: match[1] for path, match in ((path, front_matter(read_text(adoption.folder / path))) for path in found) if match}
    values = read_values(adoption.program, {path: f"---\n{head}" for path, head in heads.items()}).of
    now = datetime.datetime.now(datetime.timezone.utc)
    tree = Tree(files)
    dated = []
    for path in found:
        value = values.get(path)
        own = value if isinstance(value, dict) else {}
        moment = moment_of(path, own)
        if comes_out(path, own, heads.get(path, ""), config, tree) and (moment <= now or config.get("future") is True):
            dated.append((moment, path))
    return [path for _, path in sorted(dated)]


def comes_out(path: str, own: Hash, head: str, config: Hash, tree: Tree) -> bool:
    """Whether Jekyll builds an item with these values: by its own key `published`, else by the defaults, which do not reach pages."""
    if config.get("unpublished") is True:
        return True
    if "published" in own:
        return bool(is_published_as_written(own["published"], head))
    kind = kind_of(path, collections_of(config))
    return kind is None or published_by_defaults(listed(config.get("defaults")), path, kind, tree)


def kind_of(path: str, collections: list[str]) -> Optional[str]:
    """The collection that a file is a document of; nothing for a page."""
    folders = path.split("/")[:-1]
    if {"_posts", "_drafts"} & set(folders):
        return "posts"
    label = folders[0][1:] if folders and folders[0].startswith("_") else ""
    return label if label in collections else None


def unpublished_items(adoption: Adoption, config: Hash, files: list[str]) -> list[str]:
    """The files with front matter that Jekyll leaves out. What is not read is none of them: it is a fault, until somebody mends it."""
    marked = [path for path in files if not path.startswith(("_data/", "_includes/", "_layouts/")) and begins_with_mark(adoption.folder / path)]
    heads = {path: match[1] for path, match in ((path, front_matter(read_text(adoption.folder / path))) for path in marked) if match}
    values = read_values(adoption.program, {path: f"---\n{head}" for path, head in heads.items()}).of
    own = {path: value if isinstance(value, dict) else {} for path, value in values.items()}
    tree = Tree(files)
    return [path for path in own if not comes_out(path, own[path], heads[path], config, tree)]


def unpublished_copies(folder: Path, config: Hash, files: list[str]) -> list[str]:
    """The copied files that are likely to come out here, and that Jekyll leaves out by its defaults."""
    program = Program(rules_of(config).include, texts(config.get("exclude")))
    return [path for path in held_copies(folder, config, files) if program.comes_out(path, collections_of(config))]


def held_copies(folder: Path, config: Hash, files: list[str]) -> list[str]:
    """The files without front matter that Jekyll leaves out by its defaults."""
    defaults = config.get("defaults")
    if not isinstance(defaults, list) or not any("published" in str(entry) for entry in defaults):
        return []
    collections, tree = collections_of(config), Tree(files)
    found = []
    for path in files:
        label = path.partition("/")[0][1:] if path.startswith("_") else ""
        kind = label if label in collections else None
        address = path[1:] if kind else path
        if not published_by_defaults(defaults, address, kind, tree) and not begins_with_mark(folder / path):
            found.append(path)
    return found


def moment_of(path: str, own: Hash) -> datetime.datetime:
    """The moment of a post: its own date, else that of its name; of a draft now."""
    name = "" if "_drafts" in path.split("/") else path.rpartition("/")[2]
    for match in (MOMENT.match(str(own.get("date", ""))), re.match(r"(\d{4})-(\d\d?)-(\d\d?)-", name)):
        if match:
            year, month, day = (int(match[part]) for part in (1, 2, 3))
            parts = match.groupdict()
            hour, minute, second = (int(parts.get(key) or 0) for key in ("hour", "minute", "second"))
            try:
                return datetime.datetime(year, month, day, hour, minute, second, tzinfo=datetime.timezone(offset_of(parts.get("offset") or "+0000")))
            except ValueError:
                continue
    return datetime.datetime.now(datetime.timezone.utc)


def tell(adoption: Adoption, settings: Settings, key: str, replaced: list[Replaced]) -> None:
    for one in replaced:
        what = f'{key} "{one.entry}": {one.reason}; it names now: {shortened(one.paths)}'
        later = "; a new file of that kind has to be added there (`site check` tells)" if is_glob(one.entry) and key == "exclude" else ""
        adoption.done(f"{CONFIG}:{settings.line_with(key, one.entry)}", what + later)


def mend_kept(adoption: Adoption, settings: Settings, config: Hash) -> None:
    """`keep_files`: Jekyll takes an entry for the front of a path in the output."""
    entries = texts(config.get("keep_files"))
    kept = [entry for entry in entries if not is_glob(entry)]
    for entry, paths in kept_by_front(entries, adoption.original / OUTPUT):
        kept += paths
        if paths or is_glob(entry):
            tell(adoption, settings, "keep_files", [Replaced(entry, paths, "a glob" if is_glob(entry) else "the front of a path in Jekyll")])
    if kept != entries:
        settings.set("keep_files", kept)
        config["keep_files"] = kept


def kept_by_front(entries: list[str], output: Path) -> list[tuple[str, list[str]]]:
    """By each entry of `keep_files` the files of the output that it names to Jekyll and not to the program."""
    present = list_files(output).files if entries and output.is_dir() and not output.is_symlink() else []
    plain = [entry.strip("/") for entry in entries if not is_glob(entry)]
    left = [path for path in present if not any(names(one, path) for one in plain)]
    found = []
    for entry in entries:
        front = entry.strip("/")
        paths = [path for path in left if front and (path.startswith(front) or fits(front, path))]
        left = [path for path in left if path not in paths]
        found.append((entry, paths))
    return found


def mend_defaults(adoption: Adoption, settings: Settings, config: Hash, files: list[str]) -> None:
    given = config.get("defaults")
    if not isinstance(given, list):
        return
    mended = mend_scopes(given, files, ["posts", "drafts", "pages", *collections_of(config)])
    for one in mended.differences:
        adoption.done(f"{CONFIG}:{settings.line_with('defaults', one.part)}", f"{one.otherwise}; {one.now}")
    if mended.unclear:
        place = f"{CONFIG}:{settings.line_with('defaults', 'published')}"
        adoption.left(place, "published of defaults was no clear word, so what it is for is not published; write true or false there")
    if mended.differences:
        settings.set("defaults", mended.defaults)
        config["defaults"] = mended.defaults


def mend_values(adoption: Adoption, settings: Settings, config: Hash) -> None:
    """Values that Jekyll takes and the program does not."""
    if config.get("paginate", 1) in (0, False) and config.get("paginate") is not None:
        adoption.done(f"{CONFIG}:{settings.line('paginate')}", "paginate is taken out: so it is off here")
        settings.comment_out("paginate", "paginate is off without this key")
        config.pop("paginate")
    elif lacks_pagination(config, adoption.original):
        adoption.done(f"{CONFIG}:{settings.line('paginate')}", "paginate is taken out: without the plugin jekyll-paginate Jekyll makes no such pages")
        settings.comment_out("paginate", "Jekyll makes no such pages without its plugin")
        config.pop("paginate")
    if config.get("excerpt_separator", "x") == "":
        adoption.done(f"{CONFIG}:{settings.line('excerpt_separator')}", "posts have an empty excerpt by defaults now, in place of an empty separator")
        settings.comment_out("excerpt_separator", "defaults have an empty excerpt in its place")
        config.pop("excerpt_separator")
        config["defaults"] = [*listed(config.get("defaults")), {"scope": {"path": "", "type": "posts"}, "values": {"excerpt": ""}}]
        settings.set("defaults", config["defaults"])


def mend_zone(adoption: Adoption, settings: Settings, config: Hash, old: str) -> None:
    """A named zone becomes its offset today, and dates of defaults that would show another clock by it are written as theirs."""
    name = config.get("timezone")
    if not isinstance(name, str) or OFFSET.fullmatch(name):
        return
    place = f"{CONFIG}:{settings.line('timezone')}"
    try:
        now = datetime.datetime.now(ZoneInfo(name))
    except (KeyError, ValueError, OSError):
        adoption.left(place, f"the zone {shown(name)} is not known on this machine; write an offset, as \"+01:00\"")
        return
    adoption.zone = zone = Zone(name, now.utcoffset() or datetime.timedelta())
    mend_dates_of_defaults(adoption, settings, config, zone, old)
    offset = now.strftime("%z")
    offset = f"{offset[:3]}:{offset[3:5]}"
    settings.set("timezone", offset)
    config["timezone"] = offset
    later = "" if zone.is_steady(now.year) else (
        "; it holds all year, so in the other half of it %z, date_to_xmlschema and feeds are an hour off, and so is the moment at which a later post appears"
    )
    adoption.done(place, f'timezone {name} is its offset today now, "{offset}"{later}')


def mend_dates_of_defaults(adoption: Adoption, settings: Settings, config: Hash, zone: Zone, old: str) -> None:
    """`old` is the text of the configuration as it was, which tells what is in quotes."""
    defaults = []
    for entry in listed(config.get("defaults")):
        date, scope = mapping(mapping(entry).get("values")).get("date"), mapping(mapping(entry).get("scope"))
        new = mended_date(date, not stands_bare(date, old), zone, scope.get("type") != "pages") if isinstance(date, str) else None
        if new:
            adoption.done(f"{CONFIG}:{settings.line_with('defaults', str(date))}", f'date of defaults is "{new}" now, as the clock of {zone.name} shows it')
            entry = {**entry, "values": {**entry["values"], "date": new}}
        defaults.append(entry)
    if defaults != listed(config.get("defaults")):
        settings.set("defaults", defaults)
        config["defaults"] = defaults
