"""What the program answers to the rows of each kind."""
import os

from program import Ended, Session, read_files, run, write_file
from scripts import Scripts, answer_by_scripts

FRONT = b"---\n---\n"
# Of each kind of data its file, and the page that shows its value.
DATA = {"yaml": b"_data/it.yml", "json": b"_data/it.json", "csv": b"_data/it.csv", "tsv": b"_data/it.tsv"}
NO_FILES = {}
SHOWN = {b"it.html": FRONT + b"{{ site.data.it | jsonify }}"}


class Group:
    """Rows of one file that stand on the same site, and are run one after another."""

    def __init__(self, kind, site):
        self.kind = kind
        self.site = site
        self.rows = []


def group_rows(rows, sample, size):
    """Puts the rows that can be read into groups of at most so many."""
    groups = []
    for row in rows:
        if row.wrong:
            continue
        kind = kind_of_run(row)
        site = NO_FILES
        if row.kind == "liquid":
            site = sample if row.site is None else row.site
        elif row.kind in DATA:
            site = SHOWN
        last = groups[-1] if groups else None
        if not last or last.kind != kind or last.site is not site or len(last.rows) == size or last.rows[0].path != row.path:
            last = Group(kind, site)
            groups.append(last)
        last.rows.append(row)
    return groups


def kind_of_run(row):
    """What a row is given to: the scripts, a session, or a run of the program that is its own."""
    if row.is_of_scripts:
        return "scripts"
    return "session" if row.kind in ("example", "liquid") or row.kind in DATA and "fault" not in row.words else "alone"


def answers(group, program, folder):
    """What the program answers to each row of a group: its outcome for each step, or a text where there is none."""
    if group.kind == "alone":
        for place, row in enumerate(group.rows):
            yield row, attempt(answer_alone, row, program, os.path.join(folder, str(place)))
        return
    talk = None
    try:
        for place, row in enumerate(group.rows):
            own = os.path.join(folder, str(place))
            try:
                if group.kind == "scripts":
                    talk = talk or Scripts(program)
                    yield row, answer_by_scripts(row, talk, program, own)
                else:
                    talk = talk or Session(program, own, group.site)
                    yield row, answer_in_session(row, talk)
            except (Ended, OSError) as failure:
                if talk:
                    talk.end()
                    talk = None
                yield row, str(failure)
    finally:
        if talk:
            talk.close()


def attempt(call, *given):
    """What a call gives, or why it could not be done."""
    try:
        return call(*given)
    except (Ended, OSError) as failure:
        return str(failure)


def answer_in_session(row, session):
    """The text that comes of a row, or its fault."""
    if row.kind == "example":
        if b"{% endraw" in row.text or b"{%- endraw" in row.text:
            return "a text with the tag endraw cannot be kept from Liquid"
        files, output = {b"it.md": FRONT + b"{% raw %}" + row.text + b"{% endraw %}"}, b"it.html"
    elif row.kind == "liquid":
        page = row.words.get("page", "p.html").encode()
        files = {page: front_matter(session.files.get(page, FRONT)) + row.text}
        output = row.words["output"].encode() if "output" in row.words else page
    else:
        files, output = {DATA[row.kind]: row.text}, b"it.html"
    text, reply = session.build(files, output)
    return [{"fault": reply.encode()} if text is None else {"text": text}]


def front_matter(page):
    """The front matter of a file, empty where it has none."""
    if not page.startswith(b"---\n"):
        return b""
    return page[: page.index(b"\n---\n") + 5]


def answer_alone(row, program, folder):
    if row.kind in DATA:
        name = DATA[row.kind]
        write_file(folder, name, row.text)
        done = run(program, [b"check"], folder)
        said = done.error.rstrip(b"\n")
        front = b"sitebuild: " + name + b":"
        if done.status != 1 or not said.startswith(front):
            return [{"text": done.replies + done.error}]
        return [{"fault": said[len(front):].lstrip(b" ")}]
    os.makedirs(folder)
    return [answer_step(step, wanted, program, folder) for step, wanted in zip(row.steps, row.expected)]


def answer_step(step, wanted, program, folder):
    for name in step.deleted:
        os.remove(os.path.join(os.fsencode(folder), name))
    for name, data in step.files.items():
        write_file(folder, name, data)
    done = run(program, step.words, folder, step.input)
    outcome = {"replies": done.replies, "status": b"%d" % done.status}
    if "standard error" in wanted or done.status == 0:
        outcome["standard error"] = done.error
    for name, data in read_files(os.path.join(folder, "_site")).items():
        outcome["_site/" + name.decode("utf-8", "surrogateescape")] = data
    return outcome
