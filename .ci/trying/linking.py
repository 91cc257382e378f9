"""Cases of `.ci/site`: what `site links`, `watch` and `serve` say of links that lead nowhere."""
from __future__ import annotations

import os
import shlex
import subprocess
import sys
import time
from pathlib import Path

from running import ROOT, SITE, Events, Running, begin, expect, on_a_terminal, page, program, run, until, write

# Behind the modules of these checks.
sys.path.append(str(ROOT / "share/site"))

from broken import placed  # noqa: E402
from session import Broken, split_broken  # noqa: E402

ALL_LEAD = "All links inside the site lead somewhere.\n"
# In the place of the program: it is the program, but for what it replies to `links` in a session.
ANSWERS = """#!{python}
import os, subprocess, sys
REAL, SAID, STATUS = {real!r}, {said!r}, {status!r}
if sys.argv[1:2] != ["session"]:
    os.execv(REAL, [REAL, *sys.argv[1:]])
child = subprocess.Popen([REAL, *sys.argv[1:]], stdin=subprocess.PIPE)
while line := sys.stdin.buffer.readline():
    if line == b"links\\n":
        time = __import__("time")
        time.sleep(0.2)
        os.write(1, SAID)
        if STATUS is not None:
            child.kill()
            child.wait()
            os.write(2, b"sitebuild: said\\n")
            os._exit(STATUS)
        continue
    if line.startswith(b"put "):
        line += sys.stdin.buffer.read(int(line.rsplit(b" ", 1)[1]))
    child.stdin.write(line)
    child.stdin.flush()
child.stdin.close()
sys.exit(child.wait())
"""


def answering(room: Path, name: str, said: bytes, status: int | None = None) -> dict[str, str]:
    """An environment in which the program replies so to `links`, and ends with a status if one is given."""
    place = room / name
    write(place, ANSWERS.format(python=sys.executable, real=program(), said=said, status=status))
    place.chmod(0o755)
    return {**os.environ, "SITEBUILD": str(place)}


def links(room: Path) -> None:
    """Each link that leads nowhere is told with the line at which it stands in the built page; the status says whether there is one."""
    site = begin(room)
    expect(run("links", site) == ALL_LEAD, "a site without broken links")
    text = "none.html /none.png\n<!-- <a href=none.html> -->\n<a href=about>\n<a title='none.html' href=none.html>\n<img src='/none.png'><a href=\"two\nlines\">\n<A\nHREF=none.html>"
    write(site / "a.html", page(text))
    write(site / "b d/c.html", "\n\n<a href=a%20b><a href='a b.html c'><a href=https://x/y><a href=/about#x>\n")
    wanted = (
        "_site/a.html:4: none.html leads nowhere\n_site/a.html:5: /none.png leads nowhere\n_site/a.html:5: two?lines leads nowhere\n_site/a.html:8: none.html leads nowhere\n"
        "_site/b d/c.html:3: a%20b leads nowhere\n_site/b d/c.html:3: a b.html c leads nowhere\n6 links lead nowhere.\n"
    )
    said = run("links", site, "--jobs", "2", status=1)
    expect(said == wanted, f"links that lead nowhere: {said}")
    expect(run("links", status=1, cwd=site) == wanted, "the current folder")
    (site / "b d/c.html").unlink()
    write(site / "a.html", page("<a href=none>"))
    expect(run("links", site, status=1) == "_site/a.html:1: none leads nowhere\n1 link leads nowhere.\n", "one link")
    # Below a `baseurl`, files are named as they lie in `_site`.
    write(site / "_config.yml", "title: T\nbaseurl: /blog\n")
    write(site / "a.html", page("<a href=/blog/none><a href=/blog/about><a href=/none>"))
    expect(run("links", site, status=1) == "_site/a.html:1: /blog/none leads nowhere\n1 link leads nowhere.\n", "below a baseurl")
    # Drafts count where they are built.
    write(site / "a.html", page("<a href=/blog/2024/01/01/d.html>"))
    write(site / "_drafts/d.md", "---\ndate: 2024-01-01\n---\nd\n")
    run("links", site, status=1)
    expect(run("links", site, "--drafts") == ALL_LEAD, "with drafts")
    run("links", site, "--port", "1", status=2)
    run("new", room / "new")
    expect(run("links", room / "new") == ALL_LEAD, "a new site has a broken link")


def links_of_faults(room: Path) -> None:
    """A site that is not built is told as `site build` tells it, and with its status; no link is told then."""
    site = begin(room)
    write(site / "a.html", page("<a href=none>"))
    for path, text, status in (("bad.html", page("{{"), 1), ("tab\tb.html", "x", 3)):
        write(site / path, text)
        said = run("links", site, status=status)
        expect(said == run("build", site, status=status) and "leads nowhere" not in said, f"{path}: {said}")
        (site / path).unlink()
    (site / "_site/a.html/x").mkdir(parents=True)
    write(site / "_site/a.html/x/y", "kept")
    write(site / "_config.yml", "keep_files: [a.html/x]\n")
    said = run("links", site, status=4)
    expect(said.startswith("scanned 6\nout-fault 1\nmarked a.html\n"), f"a page that cannot be written: {said}")
    with Running("watch", site) as watch:
        watch.said("could not be written")
        said = run("links", site, status=4)
        expect("another run" in said or "in use" in said, f"beside another run: {said}")
    said = run("links", site, status=1, env={**os.environ, "SITEBUILD": "/none"})
    expect(said.count("\n") == 1 and "cannot be started" in said, f"with a program that is none: {said}")


def odd_answers(room: Path) -> None:
    """What is no reply to `links` is told in one line, and so is a program that ends instead, or does not know the line."""
    site = begin(room)
    for number, (said, status, wanted) in enumerate((
        (b"links\n", None, "the program replied links\n"),
        (b"links 1 scanned=\n", None, "the program replied links 1 scanned=\n"),
        (b"links 01 scanned=1\n", None, "the program replied links 01 scanned=1\n"),
        (b"links -1 scanned=1\n", None, "the program replied links -1 scanned=1\n"),
        (b"links " + b"9" * 5000 + b" scanned=1\n", None, "the program replied links 999"),
        (b"out-fault 0\n", None, "the program replied out-fault 0\n"),
        (b"links 1 scanned=1\nmarked a.html\n", None, "the program replied marked a.html\n"),
        (b"links 1 scanned=1\nbroken a.html\n", None, "the program replied broken a.html\n"),
        (b"links 1 scanned=1\nbroken \x1b[31m\n", None, "the program replied broken ?[31m\n"),
        (b"links 2 scanned=1\nbroken a.html b\n", 8, "the program has ended: sitebuild: said\n"),
        (b"", 8, "the program has ended: sitebuild: said\n"),
        (b"script 4 3\n", 7, "the program is older than this script, and looks for no links\n"),
        (b"script 4 1\n", 7, "the program has ended: sitebuild: said\n"),
    )):
        came = run("links", site, status=1, env=answering(room, f"answers{number}", said, status))
        expect(came.count("\n") == 1 and came.startswith(f"site: the links were not looked at: {wanted}"), f"{said[:40]!r}: {came[:300]}")
    # Whoever reads the lines may go, or have no room.
    many = answering(room, "many", b"links 100000 scanned=1\n" + b"broken index.html no\n" * 100_000)
    for words in ("| head -n 1", ">/dev/full"):
        done = subprocess.run(["bash", "-c", f"{shlex.quote(str(SITE))} links {shlex.quote(str(site))} {words}"], env=many, capture_output=True, text=True, timeout=60)
        expect("Traceback" not in done.stderr and done.stdout.count("\n") < 2, f"{words}: {done.stdout} {done.stderr}")


def odd_pages(room: Path) -> None:
    """The line of a link is looked for in a file of `_site` alone, whatever is at the page's place by then, and within a moment."""
    out = room / "_site"
    write(room / "secret/a.html", "\n\n<a href=x>")
    out.mkdir()
    os.mkfifo(out / "fifo.html")
    (out / "link.html").symlink_to(room / "secret/a.html")
    (out / "below").symlink_to(room / "secret")
    (out / "folder.html").mkdir()
    (out / "large.html").write_bytes(b"\n" * (1 << 24) + b"<a href=x>")
    (out / "bytes.html").write_bytes(b"\xff\n<a href=x>")
    write(out / "other.html", "\n\n<a href=y>")
    write(out / "control.html", "\n<a href='x\n\x85y'>\n")
    for path, value, line in (
        ("fifo.html", "x", 1), ("link.html", "x", 1), ("below/a.html", "x", 1), ("folder.html", "x", 1), ("gone.html", "x", 1), ("../secret/a.html", "x", 1),
        ("large.html", "x", 1), ("bytes.html", "x", 2), ("other.html", "x", 1), ("control.html", "x??y", 2),
    ):
        came = [(one.path, one.line) for one in placed(room, [Broken(path, value)])]
        expect(came == [(path, line)], f"{path} is placed at {came}")
    for part in ("<", "<a", "<a href=", "<a b=\"", "<a b=\"'", "<!--", "<a " + " " * 99, "<a href=\"'", "<a b='\" c=\"' ", "<a b"):
        write(out / "hostile.html", (part * (1 << 21))[: 1 << 21] + "\n<a href=x>")
        begun = time.process_time()
        list(placed(room, [Broken("hostile.html", "x")]))
        expect(time.process_time() - begun < 10, f"2 MiB of {part!r} take {time.process_time() - begun:.0f} s")
    write(out / "a b.html", "")
    for reply, wanted in (
        ("broken a.html b", ("a.html", "b")),
        ("broken a b.html c d", ("a b.html", "c d")),
        ("broken x.html a b.html", ("x.html", "a b.html")),
        ("broken x.html a b.html c", ("x.html", "a b.html c")),
        ("broken a.html  .html ", ("a.html", " .html ")),
        ("broken bytes.html .html x", ("bytes.html", ".html x")),
    ):
        found = split_broken(reply, room)
        expect(found == Broken(*wanted), f"{reply!r} is read as {found}")
    for reply in ("broken a.html", "broken a.html ", "broken a b", "broken ", "marked a.html b"):
        expect(split_broken(reply, room) is None, f"{reply!r} is read")


def links_on_a_terminal(room: Path) -> None:
    """No value and no path reaches a terminal with what could steer it."""
    site = begin(room)
    write(site / "a\x9bb.html", page("<a href='\x1b[31m\u202e\x9b'>"))
    said = on_a_terminal("links", site)
    expect(said == "_site/a?b.html:1: ?[31m?? leads nowhere\r\n1 link leads nowhere.\r\n", f"a terminal gets {said!r}")


def said_since(watch: Running, at: int) -> list[str]:
    """The lines behind a line, without their times, and without that of notes that took long."""
    return [line.rstrip("\n").partition("  ")[2] for line in list(watch.lines)[at:] if "not all notes" not in line]


def news_of_links(room: Path) -> None:
    """`watch` says how many links lead nowhere, and then which do since the last build and which no longer do: a few lines each time."""
    site = begin(room)
    write(site / "many.html", page("".join(f"<a href=none{number}>\n" for number in range(7))))
    with Running("watch", site) as watch:
        at = watch.said("and 2 more")
        expect(said_since(watch, 0)[1:] == ["7 links lead nowhere.", *(f"_site/many.html:{number + 1}: none{number} leads nowhere" for number in range(5)), "and 2 more"], f"the first build: {watch.lines}")

        def follows(path: str, text: str | None, *wanted: str) -> None:
            """After a save, or a removal, these lines come behind that of the build."""
            nonlocal at
            if text is None:
                (site / path).unlink()
            else:
                write(site / path, text)
            at = watch.said("built: ", at)
            for line in wanted:
                watch.said(line, at)
            # Nothing else comes, as the next save shows; what comes later is of that.
            time.sleep(0.3)
            expect(said_since(watch, at) == list(wanted), f"after {path}: {said_since(watch, at)}, and not {wanted}")
            at = len(watch.lines)

        follows("about.html", page("x\n<a href=no><a href=/>"), "_site/about.html:2: no leads nowhere")
        follows("about.html", page("x\n\n<a href=no>"))
        follows("about.html", page("<a href=no><a href=no>"), "_site/about.html:1: no leads nowhere")
        follows("no.html", page("here"), "_site/about.html: no is mended, or gone", "_site/about.html: no is mended, or gone")
        follows("no.html", None, "_site/about.html:1: no leads nowhere", "_site/about.html:1: no leads nowhere")
        follows("many.html", page("<a href=one><a href=none1>"), "_site/many.html:1: one leads nowhere", *(f"_site/many.html: none{number} is mended, or gone" for number in (0, 2, 3, 4)), "and 2 more")
        follows("about.html", None, "_site/about.html: no is mended, or gone", "_site/about.html: no is mended, or gone")
        # A fault says nothing of links, and what is built after it does.
        write(site / "bad.html", page("{{"))
        at = watch.said("(F10)", at)
        follows("bad.html", page("<a href=bad2>"), "_site/bad.html:1: bad2 leads nowhere")
        # Another base changes no page here, and where links lead.
        write(site / "root.html", page("<a href=/blog/no>"))
        at = watch.said("_site/root.html:1: /blog/no leads nowhere", at)
        write(site / "_config.yml", "title: T\nurl: https://example.org\nbaseurl: /other\n")
        watch.said("_site/root.html: /blog/no is mended, or gone", at)
        # Where all is built again, nothing is said twice.
        at = len(watch.lines)
        os.rename(site / "_site", room / "away")
        at = watch.said("building the whole site again", at)
        at = watch.said("built: ", at)
        time.sleep(0.5)
        expect(said_since(watch, at) == [], f"after a new beginning: {said_since(watch, at)}")


def links_are_no_fault(room: Path) -> None:
    """`serve` says of links what `watch` says, and a page in the browser is told of no fault."""
    site = begin(room)
    write(site / "about.html", page("<a href=no>"))
    with Running("serve", site) as served, Events(served) as events:
        served.said("1 link leads nowhere.")
        served.said("_site/about.html:1: no leads nowhere")
        state = events.next(lambda state: True)
        expect(state["fault"] is None, f"a link is a fault: {state}")
        write(site / "no.html", page("no"))
        served.said("_site/about.html: no is mended, or gone")
        state = events.next(lambda later: later["version"] != state["version"])
        expect(state["fault"] is None, f"a link is a fault: {state}")


def older_programs(room: Path) -> None:
    """A program that does not know `links` is asked once, and goes on to build; one that ends at the line is begun anew as ever."""
    site = begin(room)
    with Running("watch", site, env=answering(room, "older", b"script 4 3\n", 7)) as watch:
        at = watch.said("the program is older than this script, and looks for no links; building the whole site again")
        at = watch.said("built: ", at)
        write(site / "about.html", page("<a href=no>"))
        at = watch.said("built: 1 written", at)
        time.sleep(0.3)
        expect(len(watch.lines) == at, f"it says more: {watch.lines[at:]}")
        expect(sum("older than" in line for line in watch.lines) == 1, f"it is said again: {watch.lines}")
        until(lambda: "href=no" in (site / "_site/about.html").read_text(), "the page is built")
