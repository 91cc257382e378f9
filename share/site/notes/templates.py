"""Notes of templates: filters and forms that the program passes over, or reads otherwise."""
from __future__ import annotations

import re

from adopting.tags import ENVIRONMENT, Piece, pieces
from notes.site import Notes, Site
from site_files import Lines

# The filters that have a meaning: docs/PROFILE.md, "Filters of Liquid" and "Filters of Jekyll".
FILTERS = set(
    "abs ceil floor round plus minus times divided_by modulo at_least at_most append prepend replace remove replace_first remove_first slice "
    "split truncate truncatewords upcase downcase capitalize strip lstrip rstrip escape escape_once newline_to_br strip_newlines strip_html "
    "url_encode url_decode join first last reverse concat size default compact map where uniq sort sort_natural date relative_url absolute_url "
    "markdownify jsonify slugify xml_escape cgi_escape uri_escape number_of_words normalize_whitespace array_to_sentence_string group_by push "
    "unshift pop shift date_to_string date_to_long_string date_to_xmlschema date_to_rfc822".split()
)
REMEDIES = {
    "where_exp": "it lets everything pass; use where, or for with if",
    "group_by_exp": "use group_by, or for with if",
    "find": "use where and first",
    "find_exp": "use for with if",
    "smartify": "write the signs themselves",
    "h": "use escape",
    "replace_last": "use replace",
    "remove_last": "use remove",
}
# So many characters of a table are looked at.
MOST_OF_A_TABLE = 4000
QUOTED = re.compile(r"\"[^\"]*\"|'[^']*'")
FILTER = re.compile(r"\|\s*([A-Za-z_]\w*)")
EMPTY_ON_THE_LEFT = re.compile(r"\bempty\s*(?:==|!=|<>)")
BLANK = re.compile(r"(?:==|!=|<>)\s*blank\b|\bblank\s*(?:==|!=|<>)")
MAP = re.compile(r"\bmap\s*:")
SITE = re.compile(r"\bsite\.(html_files|source|destination|markdown|highlighter|encoding|kramdown|github|plugins_dir|safe)\b")
STATIC = re.compile(r"\bsite\.static_files\s*\|\s*where(?:_exp)?\s*:\s*[\"'](\w+)[\"']")
STATIC_HAS = ("path", "name", "basename", "extname")
# What is looked for in each output and tag; what it means otherwise; the remedy.
FORMS = [
    (re.compile(r"\.relative_directory\b"), ".relative_directory is nil", "write the path"),
    (re.compile(r"\.modified_time\b"), ".modified_time is nil", "give a date"),
    (re.compile(r"\bcollection\.files\b"), "files of a collection is nil", "use site.static_files"),
    (re.compile(r"\.draft\s*==\s*false"), "draft of a post is nil (in Jekyll false)", "write draft != true"),
    (re.compile(r"\bwhere\s*:\s*[\"']\w+\.[\w.]+[\"']"), "a dot in the property of where is a dot (in Jekyll the way to an inner value)", "use for with if"),
    (
        re.compile(r"\b(?:page|post|site|site\.(?:pages|posts|documents))\s*\|\s*jsonify"),
        "an item as JSON is its address (in Jekyll all of its variables)", "write the variables that you want",
    ),
    (re.compile(r"\bjekyll\.version\b"), "jekyll.version is 4", "write the version that you mean"),
    (re.compile(r"^\{%-?\s*highlight\b"), "code comes out without colours and line numbers", "colour it in the browser by the class language-.."),
]


def add(notes: Notes, site: Site, path: str, text: str, start: int) -> None:
    """Looks through the outputs and tags of a template after its front matter."""
    if "{%" not in text and "{{" not in text:
        return
    lines = Lines(text)
    for piece in pieces(text, start):
        add_piece(notes, site, path, lines.of(piece.start), piece)
        if piece.name == "tablerow":
            add_table(notes, path, lines.of(piece.start), piece, text)


def add_piece(notes: Notes, site: Site, path: str, line: int, piece: Piece) -> None:
    whole = piece.text
    bare = QUOTED.sub("''", whole)
    for name in FILTER.findall(bare):
        # With strict filters it is a fault.
        if name not in FILTERS and not site.has_strict_filters():
            notes.add(path, line, f"the filter {name} is not known and leaves its input as it is", REMEDIES.get(name, "do without it"))
    if EMPTY_ON_THE_LEFT.search(bare):
        notes.add(path, line, "empty is nil on the left of a comparison", "write it on the right")
    if BLANK.search(bare):
        notes.add(path, line, "blank is nil, false, and what is empty or white space (in Jekyll nothing equals it)", "write empty, or nil")
    if joins_lists(bare):
        what = "a list in a list is one item, so map, join and split make one word of each list"
        notes.add(path, line, what, "collect the words with concat in a loop")
    for form, what, remedy in FORMS:
        if form.search(whole):
            notes.add(path, line, what, remedy)
    if ENVIRONMENT.search(bare):
        notes.add(path, line, "jekyll.environment is always development", "ask a key of _config.yml: `site adopt` does that")
    for name in SITE.findall(bare):
        if name not in site.config:
            notes.add(path, line, f"site.{name} is nil", "put it into _config.yml")
    for name in STATIC.findall(whole):
        if name not in STATIC_HAS:
            notes.add(path, line, f"copied files have no {name}: defaults do not reach them", "ask for a part of their path")
    add_names_of_items(notes, site, path, line, bare)
    add_lists(notes, site, path, line, bare)
    add_sorts(notes, site, path, line, whole)


def joins_lists(text: str) -> bool:
    """Whether three filters after one another are map, join and split."""
    if "map" not in text or "split" not in text:
        return False
    parts = text.split("|")
    filters = [part.split(":")[0].split()[:1] for part in parts]
    return any(filters[at : at + 2] == [["join"], ["split"]] and MAP.search(parts[at - 1]) for at in range(1, len(parts)))


def add_names_of_items(notes: Notes, site: Site, path: str, line: int, bare: str) -> None:
    """`page.name` is nil of what is no page."""
    folder = path.partition("/")[0]
    shared = folder in ("_layouts", "_includes")
    of_document = shared or "_posts" in path.split("/") or folder[1:] in site.collections()
    if re.search(r"\bpost\.name\b", bare) or of_document and re.search(r"\bpage\.name\b", bare):
        notes.add(path, line, "name of a post or document is nil (in Jekyll its file's name)", "use path")
    if folder == "_layouts" and re.search(r"\bpage\.content\b", bare):
        notes.add(path, line, "page.content of a page is its converted text (in Jekyll its source)", "use content")


def add_lists(notes: Notes, site: Site, path: str, line: int, bare: str) -> None:
    """Lists of the site that are in another order, or have other members."""
    names = site.collections()
    # The configuration's order is not known here: its keys come sorted.
    if re.search(r"\bin\s+site\.collections\b", bare) and (len(names) > 1 or any(name < "posts" for name in names)):
        notes.add(path, line, "site.collections has posts first, and then the order of the configuration (in Jekyll that of names)", "sort them by label")
    if re.search(r"\bsite\.static_files\b", bare) and site.copied_of_collections():
        notes.add(path, line, "path of a copied file of a collection is its address, as /c/a.png (in Jekyll _c/a.png)", "look for its address")


def add_sorts(notes: Notes, site: Site, path: str, line: int, whole: str) -> None:
    for key in re.findall(r"\bsort\s*:\s*[\"'](\w+)[\"']", whole):
        if key in site.decimals():
            notes.add(path, line, f"{key} has decimals, which are texts: 10.5 comes before 2.5", "write whole numbers")


def add_table(notes: Notes, path: str, line: int, piece: Piece, text: str) -> None:
    cells = text[piece.end : piece.end + MOST_OF_A_TABLE].partition("endtablerow")[0]
    if "cols" not in piece.words and "col_last" in cells:
        notes.add(path, line, "col_last of a table without cols holds in its last cell (in Jekyll never)", "give it cols")


def add_counters(notes: Notes, site: Site) -> None:
    """A counter goes on from an item to its layouts in Jekyll, and begins anew in each text here."""
    found: dict[str, list[tuple[str, int]]] = {}
    for path, text, start in [*((item.path, item.text, item.body) for item in site.items), *((path, text, 0) for path, text in site.plain.items())]:
        if "crement" not in text:
            continue
        lines = Lines(text)
        for piece in pieces(text, start):
            if piece.name in ("increment", "decrement"):
                found.setdefault(piece.words.strip(), []).append((path, lines.of(piece.start)))
    for name, places in found.items():
        layouts = [place for place in places if place[0].startswith("_layouts/")]
        if layouts and len({path for path, _ in places}) > 1:
            notes.add(*layouts[0], f"the counter {name} begins anew in each layout (in Jekyll it goes on)", "give the layout's counter a name of its own")
