"""Reads the rows of a file."""
import re
import shlex

from texts import BadRow, read_text, read_words

FENCE = "`" * 32
OUTPUT = "_site/"
HEADING = re.compile(r"-- (?P<name>.+) --(?: (?P<word>deleted|missing|link))?$")
COMMAND = "$ sitebuild"
# The words that may stand behind each kind, and those of them that have a value.
WORDS = {
    "example": {"escapes"},
    "yaml": {"escapes", "fault"},
    "json": {"escapes", "fault"},
    "csv": {"escapes", "fault"},
    "tsv": {"escapes", "fault"},
    "liquid": {"escapes", "fault", "page", "output", "differs", "unasked"},
    "site": {"escapes"},
    "notes": {"escapes", "needs", "unasked"},
    "adopted": {"escapes", "needs", "unasked"},
    "files": {"escapes"},
}
VALUED = {"page", "output", "needs"}
# The kinds that are about the files of a site, and those of them that the scripts answer.
OF_SITES = ("site", "notes", "adopted")
OF_SCRIPTS = ("notes", "adopted")
# What Jekyll makes of the site of a row: an output, or nothing of any.
JEKYLL = "jekyll "
REFUSES = "jekyll refuses"


class Step:
    """What is given to one run: changed and deleted files, the words and the input."""

    def __init__(self):
        self.files = {}
        # The targets of links, by their paths.
        self.links = {}
        self.deleted = []
        self.words = None
        self.input = b""


class Row:
    """A row: what is given (a text, or steps), and what has to come out: for each step, its sections by name."""

    def __init__(self, path, line, kind, words, site):
        self.path = path
        self.line = line
        self.kind = kind
        self.words = words
        # The files of the last fence `files` above a row of Liquid, or None for the sample site.
        self.site = site
        self.text = b""
        self.steps = []
        self.expected = []
        # What Jekyll makes otherwise, by the path of the output; None where it makes none. And what it says of a site that it refuses.
        self.jekyll = {}
        self.refusal = None
        # Why the row cannot be read.
        self.wrong = None

    @property
    def place(self):
        return f"{self.path}:{self.line}"

    @property
    def has_escapes(self):
        return "escapes" in self.words

    @property
    def is_of_scripts(self):
        return self.kind in OF_SCRIPTS


def read_kind(text, line):
    """The kind behind a fence, and its words."""
    kind, *words = text.split() or [""]
    if kind not in WORDS:
        raise BadRow(line, f"there is no kind {kind!r}")
    found = {}
    for word in words:
        name, sign, value = word.partition("=")
        if name not in WORDS[kind] or name in found or (sign == "=") != (name in VALUED):
            raise BadRow(line, f"{kind} has no word {word!r}")
        found[name] = value
    return kind, found


def is_heading(text):
    return bool(HEADING.match(text)) or is_command(text)


def is_command(text):
    return text == COMMAND or text.startswith(COMMAND + " ")


def sections(lines, line):
    """The lines in front of the first heading, and each heading with its lines: (heading, first line, lines)."""
    parts = [(None, line, [])]
    for place, text in enumerate(lines, line):
        if is_heading(text):
            parts.append((text, place + 1, []))
        else:
            parts[-1][2].append(text)
    return parts


def read_files(lines, line, has_escapes):
    """The files of a fence `files`."""
    step = read_step(lines, line, has_escapes)
    if step.words is not None or step.deleted or step.links:
        raise BadRow(line, "files alone may stand here")
    return step.files


def read_step(lines, line, has_escapes):
    """What is given to a step."""
    step = Step()
    for heading, first, text in sections(lines, line):
        if heading is None:
            if text:
                raise BadRow(first, "a file begins with a line -- PATH --")
            continue
        if step.words is not None:
            raise BadRow(first - 1, "the command is the last that is given")
        if is_command(heading):
            step.words = read_command(heading, first - 1, has_escapes)
            step.input = read_text(text, first, has_escapes)
            continue
        found = HEADING.match(heading)
        name = read_words(found["name"], first - 1, has_escapes)
        if found["word"] == "missing":
            raise BadRow(first - 1, "what is given is there, or is deleted")
        if name in step.files or name in step.links or name in step.deleted:
            raise BadRow(first - 1, "a file stands here twice")
        if found["word"] == "link":
            step.links[name] = without_last_end(read_text(text, first, has_escapes))
        elif found["word"]:
            if text:
                raise BadRow(first, "a deleted file has no text")
            step.deleted.append(name)
        else:
            step.files[name] = read_text(text, first, has_escapes)
    return step


def read_command(text, line, has_escapes):
    """The words of a command line, as a shell would split them."""
    try:
        words = shlex.split(read_words(text, line, has_escapes).decode("latin-1"))
    except ValueError as wrong:
        raise BadRow(line, f"these are no words: {wrong}") from wrong
    return [word.encode("latin-1") for word in words[2:]]


def read_outcome(lines, line, row):
    """The sections that come out of a step. Those of Jekyll go into the row."""
    outcome = {}
    for heading, first, text in sections(lines, line):
        if heading is None:
            outcome["replies"] = read_text(text, first, row.has_escapes)
            continue
        name, value = read_section(heading, first, text, row)
        if name in outcome:
            raise BadRow(first - 1, "this stands here twice")
        outcome[name] = value
    if row.is_of_scripts:
        row.refusal = outcome.pop(REFUSES, None)
        row.jekyll = {name[len(JEKYLL) :]: outcome.pop(name) for name in list(outcome) if name.startswith(JEKYLL)}
    if row.kind != "notes":
        outcome.setdefault("status", b"0")
        # A run that is done says nothing there; else it is looked at where the row has it.
        if outcome["status"] == b"0":
            outcome.setdefault("standard error", b"")
    return outcome


def read_section(heading, first, text, row):
    """The name and the text of a section that comes out; None for the text of a file that is not there."""
    found = HEADING.match(heading)
    name = read_words(found["name"], first - 1, row.has_escapes).decode("utf-8", "surrogateescape") if found else ""
    word, _, rest = name.partition(" ")
    is_output = name.startswith(OUTPUT)
    if word == "status" and rest.isdigit() and row.kind != "notes" and not text:
        return word, rest.encode()
    if word == "fault" and row.kind == "notes" and not text:
        return word, name.encode()
    is_file = is_output or row.is_of_scripts and name.startswith(JEKYLL) or row.kind == "adopted"
    if not name or found["word"] not in (None, "missing") or not (is_file or name == "standard error" and row.kind == "site"):
        raise BadRow(first - 1, f"nothing of this name comes out: {heading}")
    if found["word"]:
        if row.kind == "site" or text or name == REFUSES:
            raise BadRow(first, "a missing file has no text, and stands in rows of scripts")
        return name, None
    return name, read_text(text, first, row.has_escapes)


def without_last_end(data):
    return data[:-1] if data.endswith(b"\n") else data


def read_steps(row, parts):
    """Reads the parts of a row of a site, (first line, lines) each, into the row."""
    if len(parts) % 2:
        raise BadRow(row.line, "a step lacks the line . and what comes out")
    for given, wanted in zip(parts[::2], parts[1::2]):
        step = read_step(given[1], given[0], row.has_escapes)
        if row.is_of_scripts:
            if step.words is not None or step.deleted or row.steps:
                raise BadRow(given[0], f"a row of {row.kind} has the files of one site, and no command")
        elif step.words is None:
            raise BadRow(given[0], "a step lacks its command, as $ sitebuild once")
        elif step.links:
            raise BadRow(given[0], "links stand in rows of scripts")
        row.steps.append(step)
        row.expected.append(read_outcome(wanted[1], wanted[0], row))


def read_texts(row, parts):
    """Reads the parts of another row into it."""
    if len(parts) != 2:
        raise BadRow(row.line, "a row has one line . between what is given and what comes out")
    row.text, wanted = (read_text(lines, line, row.has_escapes) for line, lines in parts)
    if row.kind != "example":
        wanted = without_last_end(wanted)
    if row.kind == "liquid":
        row.text = without_last_end(row.text)
    row.expected.append({"fault" if "fault" in row.words else "text": wanted})


def split_parts(lines, line):
    """The parts between lines with a dot alone: (first line, lines) each."""
    parts = [(line, [])]
    for place, text in enumerate(lines, line):
        if text == ".":
            parts.append((place + 1, []))
        else:
            parts[-1][1].append(text)
    return parts


def read_fence(path, line, opening, body, site):
    """The row of a fence, or the files of one, of which the first line is `opening`."""
    row = Row(path, line, "", {}, site)
    files = None
    try:
        row.kind, row.words = read_kind(opening[len(FENCE) :], line)
        if body is None:
            raise BadRow(line, "a fence of 32 backticks is not closed by one")
        if row.kind == "files":
            files = read_files(body, line + 1, row.has_escapes)
        else:
            parts = split_parts(body, line + 1)
            read = read_steps if row.kind in OF_SITES else read_texts
            read(row, parts)
    except BadRow as wrong:
        return wrong_row(path, wrong.line, wrong.reason), None
    return row, files


def read_rows(path):
    """The rows of a file; one that cannot be read says so in `wrong`."""
    with open(path, "rb") as file:
        data = file.read()
    try:
        lines = data.decode().split("\n")
    except UnicodeDecodeError as wrong:
        return [wrong_row(path, data[: wrong.start].count(b"\n") + 1, "the file is not UTF-8")]
    rows = []
    site = None
    fences = [place for place, text in enumerate(lines) if text.startswith(FENCE)]
    while fences:
        first = fences.pop(0)
        body = None
        if fences and lines[fences[0]] == FENCE:
            body = lines[first + 1 : fences.pop(0)]
        row, files = read_fence(path, first + 1, lines[first], body, site)
        if files is None:
            rows.append(row)
        else:
            site = files
    return rows or [wrong_row(path, 1, "the file has no row")]


def wrong_row(path, line, reason):
    row = Row(path, line, "", {}, None)
    row.wrong = reason
    return row
