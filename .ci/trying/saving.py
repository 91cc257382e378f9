"""Cases of `.ci/site`: what a save, or what happens to the folder and the program, leads to."""
from __future__ import annotations

import contextlib
import os
import re
import shutil
import signal
import subprocess
import sys
import time
from pathlib import Path

from running import PATIENCE, ROOT, SITE, Events, Running, begin, expect, family, is_alive, is_free, own_copy, page, program, run, until, write


def odd_saves(room: Path, *options) -> None:
    """Saves that a line of a session cannot take, or that a scan passes over."""
    site = begin(room)
    with Running("watch", site, *options) as watch:
        at = watch.said("built: ")

        def built(what: str) -> None:
            nonlocal at
            at = watch.said("built: ", at)
            expect((site / "_site/index.html").is_file(), f"_site is gone after {what}")

        # A fifo is never opened, nor a link followed.
        os.mkfifo(site / "pipe.html")
        (site / "link.html").symlink_to(site / "about.html")
        (site / "around").symlink_to(site)
        write(site / "one.html", page("one"))
        built("a fifo")
        expect(not (site / "_site/link.html").exists() and not (site / "_site/pipe.html").exists(), "a link or a fifo was built")
        # A page that a link takes the place of is none.
        (site / "next").symlink_to(site / "about.html")
        os.rename(site / "next", site / "one.html")
        built("a link in the place of a page")
        expect(not (site / "_site/one.html").exists(), "a link is built")
        # A name with a tab is no path of a site.
        write(site / "a\tb.html", page("tab"))
        at = watch.said("(status 3)", at)
        expect((site / "_site/index.html").is_file(), "_site is gone after a failed scan")
        write(site / "two.html", page("two"))
        time.sleep(0.5)
        expect((site / "_site/about.html").is_file() and not (site / "_site/two.html").exists(), "it was built after a failed scan")
        (site / "a\tb.html").unlink()
        built("a name with a tab")
        expect((site / "_site/two.html").is_file(), "what was saved in between is not there")
        # A name that is not UTF-8.
        odd = os.fsencode(site) + b"/\xff.html"
        Path(os.fsdecode(odd)).write_text("x")
        at = watch.said("(status 3)", at)
        os.unlink(odd)
        write(site / "two.html", page("two again"))
        built("a name that is not UTF-8")
        # A file over 16 MiB.
        (site / "big.bin").write_bytes(b"x" * (16_777_217))
        at = watch.said("big.bin: the file is larger than 16 MiB", at)
        (site / "big.bin").unlink()
        write(site / "two.html", page("two once more"))
        built("a file that is too long")
        # A file that has gone before it could be read, beside one that stays.
        for number in range(20):
            write(site / "gone.html", page("gone"))
            (site / "gone.html").unlink()
        write(site / "three.html", page("three"))
        until(lambda: (site / "_site/three.html").is_file(), "the file beside those that went")
        until(lambda: not (site / "_site/gone.html").exists(), "a file that went is not built")
        # A folder in the place of a file, and a file in the place of a folder.
        write(site / "place", "file")
        until(lambda: (site / "_site/place").is_file(), "a file")
        (site / "place").unlink()
        write(site / "place/inner.html", page("inner"))
        until(lambda: (site / "_site/place/inner.html").is_file(), "a folder in the place of a file")
        shutil.rmtree(site / "place")
        write(site / "place", "file again")
        until(lambda: (site / "_site/place").is_file(), "a file in the place of a folder")
        # A whole folder that is moved in and out.
        write(room / "many/deep/page.html", page("deep"))
        os.rename(room / "many", site / "many")
        until(lambda: (site / "_site/many/deep/page.html").is_file(), "a folder that came")
        write(site / "many/deep/page.html", page("deeper"))
        until(lambda: "deeper" in (site / "_site/many/deep/page.html").read_text(), "a save in a folder that came")
        os.rename(site / "many", site / "other")
        until(lambda: (site / "_site/other/deep/page.html").is_file() and not (site / "_site/many").exists(), "a folder that moved")
        write(site / "other/deep/page.html", page("deepest"))
        until(lambda: "deepest" in (site / "_site/other/deep/page.html").read_text(), "a save in a folder that moved")
        os.rename(site / "other", room / "many")
        until(lambda: not (site / "_site/other").exists(), "a folder that went")
        # What a scan passes over starts no build.
        time.sleep(0.6)
        before = len(watch.lines)
        for name in ("node_modules/a.html", ".git/config", "sub/.sass-cache/x"):
            write(site / name, "x")
        time.sleep(0.6)
        expect(len(watch.lines) == before, f"something was built: {watch.lines[before:]}")
        expect("begun anew" not in "".join(watch.lines), "a session ended at a save")


def odd_saves_by_looking(room: Path) -> None:
    """The same without inotify."""
    odd_saves(room, "--poll")


def no_watches(room: Path) -> None:
    """inotify without watches: looked for, and said."""
    site = begin(room)
    for number in range(8):
        write(site / f"d{number}/a.txt", "a")
    few = ["unshare", "-Ur", "bash", "-c", 'echo 5 >/proc/sys/user/max_inotify_watches && exec "$@"', "bash"]
    if subprocess.run([*few, "true"], capture_output=True).returncode:
        print("site: no namespace of users can be had here, so a limit of inotify's watches is not tried")
        return
    with Running("watch", site, before=few) as watch:
        watch.said("no watches left (fs.inotify.max_user_watches); looking for saves five times a second")
        watch.said("built: ")
        write(site / "d3/a.txt", "b")
        until(lambda: (site / "_site/d3/a.txt").read_text() == "b", "a save that is looked for")
    # They run out while it runs.
    shutil.rmtree(site / "d7")
    few[4] = few[4].replace("5", "12")
    with Running("watch", site, before=few) as watch:
        watch.said("built: ")
        for number in range(8):
            write(site / f"e{number}/a.txt", "a")
        watch.said("no watches left")
        until(lambda: (site / "_site/e7/a.txt").is_file(), "a folder that has no watch")


def failed_scan(room: Path) -> None:
    """The first scan fails: what was built before stays."""
    site = begin(room)
    run("build", site)
    write(site / "a\tb", "x")
    with Running("watch", site) as watch:
        watch.said("(status 3)")
        write(site / "about.html", page("more"))
        time.sleep(0.5)
        expect((site / "_site/about.html").is_file() and "more" not in (site / "_site/about.html").read_text(), "_site was touched")
        (site / "a\tb").unlink()
        until(lambda: "more" in (site / "_site/about.html").read_text(), "it is built after the name went")


def lost(room: Path) -> None:
    """`_site` is removed, the program killed, the folder removed."""
    site = begin(room)
    with Running("serve", site) as served, Events(served) as events:
        at = served.said("built: ")
        version = events.next()["version"]
        shutil.rmtree(site / "_site")
        at = served.said("_site was removed or replaced by another program", at)
        at = served.said("built: ", at)
        expect((site / "_site/about.html").is_file(), "_site was not built whole")
        expect(events.next(lambda state: state["version"] != version), "nobody is told of it")
        os.kill(served.program(), signal.SIGKILL)
        at = served.said("the program was ended by signal 9", at)
        write(site / "about.html", page("after"))
        until(lambda: "after" in served.text("/about"), "a save after the program was killed")
        shutil.rmtree(site)
        served.said("the folder is not there any more")
        expect(served.process.wait(PATIENCE) == 1, "its status")
        until(lambda: is_free(served.port), "its port is free")


def lost_meanwhile(room: Path) -> None:
    """`_site` is removed while a build writes to it."""
    site = begin(room)
    write(site / "_layouts/l.html", "{{ content }}")
    for number in range(300):
        write(site / f"p{number}.html", f"---\nlayout: l\n---\n{number}\n")
    with Running("watch", site) as watch:
        watch.said("built: ")
        for turn in range(8):
            write(site / "_layouts/l.html", f"turn {turn} {{{{ content }}}}")
            time.sleep(0.03 + turn * 0.01)
            shutil.rmtree(site / "_site", ignore_errors=True)
            until(lambda: len(list((site / "_site").glob("p*.html"))) == 300, f"all pages are there, turn {turn}")
            until(lambda: (site / "_site/p299.html").read_text().startswith(f"turn {turn}"), f"the pages are new, turn {turn}")
        # Once no build is under way any more.
        time.sleep(1)
        at = len(watch.lines)
        for path in (site / "_site").glob("p*.html"):
            path.unlink()
        at = watch.said("files in _site were removed by another program", at)
        watch.said("built: ", at)
        expect((site / "_site/p299.html").is_file(), "the files are not there again")
        # A page that the site itself has no longer is no loss.
        at = len(watch.lines)
        (site / "p1.html").unlink()
        until(lambda: not (site / "_site/p1.html").exists(), "a page that went")
        time.sleep(2.5)
        expect(not any("another program" in line for line in watch.lines[at:]), "a page that went is taken for a loss")
        # Both at once do not lead to builds without an end.
        (site / "p2.html").unlink()
        # A build may write there already.
        shutil.rmtree(site / "_site", ignore_errors=True)
        until(lambda: (site / "_site/p299.html").is_file(), "the site is built again")
        time.sleep(5)
        expect(sum("another program" in line for line in watch.lines[at:]) <= 2, "a page that went with _site is built for again and again")
        expect(not (site / "_site/p2.html").exists(), "a page that went is there")


def broken_program(room: Path) -> None:
    """A program that ends at once is not begun anew again and again."""
    site = begin(room)
    broken = room / "broken"
    write(broken, f'#!/bin/sh\n[ "$1 $PWD" != "session {site}" ] || echo x >>{room}/runs\nexit 9\n')
    broken.chmod(0o755)
    with Running("watch", site, env={**os.environ, "SITEBUILD": str(broken)}) as watch:
        watch.said("the program has ended with status 9; trying again after the next save")
        time.sleep(1)
        runs = (room / "runs").read_text().count("x")
        write(site / "about.html", page("more"))
        until(lambda: (room / "runs").read_text().count("x") > runs, "the next save tries again")
        time.sleep(0.5)
        expect((room / "runs").read_text().count("x") <= runs + 3, "it is begun anew again and again")


def dying_program(room: Path) -> None:
    """A program that builds, and then ends by itself, each time."""
    site = begin(room)
    dying = room / "dying"
    write(dying, f'#!/bin/bash\n[ "$1 $PWD" != "session {site}" ] || {{ echo x >>{room}/runs && sleep 0.5 && kill -9 $$; }} &\nexec "{program()}" "$@"\n')
    dying.chmod(0o755)
    with Running("watch", site, env={**os.environ, "SITEBUILD": str(dying)}) as watch:
        watch.said("the program was ended by signal 9; trying again after the next save")
        time.sleep(1.5)
        expect((room / "runs").read_text().count("x") <= 2, "it is begun anew again and again")
        write(site / "about.html", page("more"))
        until(lambda: "more" in (site / "_site/about.html").read_text(), "the next save is built")


def nobody_listens(room: Path) -> None:
    """Whoever reads what is said goes away."""
    site = begin(room)
    running = subprocess.Popen([SITE, "watch", site], stdout=subprocess.PIPE, stderr=subprocess.STDOUT)
    expect(b"built" in running.stdout.readline(), "the first line")
    members = family(running.pid)
    running.stdout.close()
    write(site / "about.html", page("more"))
    running.wait(PATIENCE)
    until(lambda: not any(map(is_alive, members)), "all of its processes have ended")


def steady(room: Path) -> None:
    """Saves without a pause are built meanwhile; those during a build are not missed."""
    site = begin(room)
    for number in range(300):
        write(site / f"_posts/2024-01-01-p{number}.md", page("text *text*\n\n" * 50, f"Post {number}"))
    with Running("watch", site) as watch:
        # While the first build is under way, too.
        number, meanwhile, began = 0, 0, time.monotonic()
        while meanwhile < 3 or time.monotonic() < began + 3:
            number += 1
            write(site / f"f{number % 7}.html", page(f"turn {number}"))
            time.sleep(0.01)
            meanwhile = sum("built: " in line for line in list(watch.lines))
            expect(time.monotonic() < began + PATIENCE, f"{meanwhile} builds under steady saves")
        for last in range(number - 6, number + 1):
            until(lambda: f"turn {last}\n" in (site / f"_site/f{last % 7}.html").read_text(), f"the save {last}")


def moments(room: Path) -> None:
    """A post appears with the first build after its date, without a restart."""
    site = begin(room)
    later = time.time() + 8
    moment = time.strftime("%Y-%m-%d %H:%M:%S +0000", time.gmtime(later))
    write(site / "_posts/2024-01-01-later.md", f"---\ndate: {moment}\npermalink: /later.html\n---\nlater\n")
    with Running("watch", site) as watch:
        watch.said("built: ")
        expect(not (site / "_site/later.html").exists(), "it is there before its moment")
        time.sleep(max(later + 0.2 - time.time(), 0))
        write(site / "about.html", page("more"))
        until(lambda: (site / "_site/later.html").is_file(), "a post whose moment has come")
    with Running("watch", site, "--future", "--drafts", "--jobs", "2") as watch:
        write(site / "_posts/2024-01-01-later.md", "---\ndate: 2999-01-01\npermalink: /later.html\n---\nmuch later\n")
        write(site / "_drafts/d.md", "---\npermalink: /d.html\n---\nd\n")
        until(lambda: "much later" in (site / "_site/later.html").read_text() and (site / "_site/d.html").is_file(), "--future and --drafts")


def missed(room: Path) -> None:
    """A save that nothing tells of is found by the scan that makes sure."""
    site = begin(room)
    with Running("watch", site) as watch:
        watch.said("built: ")
        # A file that is written and stays open is not saved yet.
        with open(site / "open.html", "w", encoding="utf-8") as file:
            file.write(page("open"))
            file.flush()
            time.sleep(0.5)
            expect(not (site / "_site/open.html").exists(), "a file was built before it was closed")
            write(site / "about.html", page("more"))
            until(lambda: "more" in (site / "_site/about.html").read_text(), "a save")
            until(lambda: (site / "_site/open.html").is_file(), "a scan that makes sure")
            lines = len(watch.lines)
        until(lambda: len(watch.lines) >= lines, "it goes on")


PARTS_OF_ANOTHER = {
    "notes/making.py": """class Said:
    def lines(self):
        return self.found

def look(said, folder, program, has_fault):
    said.found = [f"a note of {folder.name}"]
""",
    "sass.py": """def compile_styles(folder, program):
    text = (folder / "style.scss").read_text()
    (folder / "made.css").write_text("made of " + text)
    return ["styles were made"]
""",
}


def beside(room: Path) -> None:
    """Parts that may be there: notes about a site are said once, and what makes styles starts no build of its own."""
    script = own_copy(room / "copy", PARTS_OF_ANOTHER)
    site = begin(room)
    write(site / "style.scss", "one")
    said = subprocess.run([script, "check", site], check=True, stdout=subprocess.PIPE, text=True).stdout
    expect(said.splitlines()[1:] == ["clean", "a note of site"], f"the notes of a check: {said}")
    for options in ((), ("--poll",)):
        with Running("watch", site, *options, site=script) as watch:
            at = watch.said("built: ")
            expect((site / "_site/made.css").read_text() == f"made of {(site / 'style.scss').read_text()}", "the styles at the start")
            write(site / "style.scss", f"two {options}")
            watch.said("built: 2 written", at)
            expect((site / "_site/made.css").read_text() == f"made of two {options}", "the styles after a save")
            time.sleep(0.7)
            expect(sum("built: " in line for line in watch.lines) == 2, f"styles have started a build: {watch.lines}")
            expect(sum("a note of site" in line for line in watch.lines) == 1, "a note is said once")


def speed(room: Path) -> None:
    """A save is seen within half a second at 1,000 posts."""
    sys.path.insert(0, str(ROOT / "bench"))
    import blog

    site = room / "blog"
    blog.write_blog(str(site), 1000, 2048)
    path = site / blog.post_path(500)
    url = re.sub(r"_posts/(\d+)-(\d+)-(\d+)-(.*)\.md", r"/\1/\2/\3/\4/", blog.post_path(500))
    with Running("serve", site) as served:
        served.said("built: ")
        times = []
        with Events(served) as events:
            events.next()
            for turn in range(7):
                began = time.monotonic()
                path.write_text(blog.post(500, 2048, edit=f"Turn {turn}.\n\n"))
                events.next()
                expect(f"Turn {turn}." in served.text(url), "the post is old")
                times.append(time.monotonic() - began)
    print(f"site: a save at 1,000 posts is served after {min(times):.2f} to {max(times):.2f} s")
    expect(min(times) < 0.5, f"a save takes {min(times):.2f} s at 1,000 posts")


def folders_that_become_links(room: Path) -> None:
    """Whatever a folder becomes while it is looked at: nothing from outside of the site is read."""
    for options in (("--poll",), ()):
        site = begin(room / ("poll" if options else "noticed"))
        outside, aside = site.parent / "outside", site.parent / "aside"
        (site.parent / "link").symlink_to(outside)
        for number in range(20):
            write(site / f"deep/sub/p{number}.html", page("inside"))
            write(outside / f"p{number}.html", page("outside"))
        with Running("watch", site, *options) as watch:
            watch.said("built: ")
            end = time.monotonic() + 3
            while time.monotonic() < end:
                for new, old in ((site.parent / "link", aside), (aside, site.parent / "link")):
                    os.rename(site / "deep/sub", old)
                    os.rename(new, site / "deep/sub")
                    for number in range(0, 20, 5):
                        write(outside / f"p{number}.html", page("outside"))
                    expect(not any("outside" in text for text in texts_of(site / "_site")), f"a file from outside is built {options}")
            write(site / "deep/sub/last.html", page("last"))
            until(lambda: (site / "_site/deep/sub/last.html").is_file(), "the last save")
            expect(not any("outside" in text for text in texts_of(site / "_site")), f"a file from outside is built {options}")


def texts_of(folder: Path) -> list[str]:
    """The texts of the pages below a folder, without those that go meanwhile."""
    found = []
    for at, _, names in os.walk(folder):
        for name in names:
            with contextlib.suppress(OSError):
                found.append(Path(at, name).read_text(encoding="utf-8"))
    return found


def scratch_below(room: Path) -> None:
    """Scratch folders start no build, also where the folder for temporary files is in the site."""
    site = begin(room)
    (site / "tmp").mkdir()
    counting = room / "counting"
    write(counting, f'#!/bin/sh\necho x >>{room}/runs\nexec "{program()}" "$@"\n')
    counting.chmod(0o755)
    for options in ((), ("--poll",)):
        with Running("serve", site, *options, env={**os.environ, "SITEBUILD": str(counting), "TMPDIR": str(site / "tmp")}) as watch:
            watch.said("built: ")
            write(site / "_config.yml", f"title: T {options}\n")
            watch.said("built: 1 written")
            time.sleep(1)
            runs = (room / "runs").read_text().count("x")
            time.sleep(1.5)
            expect((room / "runs").read_text().count("x") == runs, "the program is called again and again")
            expect(not any((site / "_site/tmp").rglob("*")), "a scratch folder is built")


def another_run(room: Path) -> None:
    """A second run on one site says so, and builds when the first has ended."""
    site = begin(room)
    for first, second in (("watch", "serve"), ("serve", "watch")):
        with Running(first, site) as one:
            one.said("built: ")
            with Running(second, site) as other:
                at = other.said("another run is using this site, perhaps a `site serve` or `site watch` in another window")
                write(site / "about.html", page(f"beside {second}"))
                until(lambda: f"beside {second}" in (site / "_site/about.html").read_text(), "a save is built by the first")
                time.sleep(0.5)
                expect(sum("another run" in line for line in other.lines) == 1, f"it is said again: {other.lines}")
                expect("another run of sitebuild is using this folder" in run("build", site, status=4), "a build beside them")
                one.stop(signal.SIGTERM)
                other.said("built: ", at)
                write(site / "about.html", page(f"after {second}"))
                until(lambda: f"after {second}" in (site / "_site/about.html").read_text(), "a save is built by the second")


def builds_without_end(room: Path) -> None:
    """A template that goes on for years, saved once and mended, is built no longer; and it ends with the script."""
    script = own_copy(room / "copy", {})
    for name, old, new in (("session.py", "SLOW = 60.0", "SLOW = 1.0"), ("client.py", "PATIENCE = 5.0", "PATIENCE = 1.0")):
        path = room / "copy/share/site" / name
        path.write_text(path.read_text().replace(old, new))
    site = begin(room)
    ranges = [f"{{% for a{number} in (1..1000) %}}" for number in range(20)]
    years = page("".join(ranges) + "{% endfor %}" * len(ranges))
    with Running("serve", site, site=script) as served:
        served.said("built: ")
        write(site / "about.html", years)
        time.sleep(1.5)
        expect(served.get("/.site/browser.js")[0] == 200, "nothing is served while a template goes on")
        write(site / "about.html", page("mended"))
        served.said("and is not done; building the whole site again")
        until(lambda: "mended" in served.text("/about"), "what was mended is built")
        write(site / "about.html", years)
        time.sleep(1)
        members = family(served.process.pid)
        os.kill(served.process.pid, signal.SIGKILL)
        until(lambda: not any(map(is_alive, members)), "the program has ended with the script")
        served.process.wait()


def styles_that_go(room: Path) -> None:
    """Files of Sass that come and go while they are looked at, as when a branch is switched."""
    site = begin(room)
    with Running("watch", site) as watch:
        watch.said("built: ")
        end = time.monotonic() + 3
        while time.monotonic() < end:
            for number in range(60):
                write(site / f"css/s{number}.scss", f"---\n---\na {{ b: {number} }}\n")
            shutil.rmtree(site / "css")
        write(site / "about.html", page("after the styles"))
        until(lambda: "after the styles" in (site / "_site/about.html").read_text(), "a save after styles came and went")
        expect("Traceback" not in "".join(watch.lines), f"it complains: {watch.lines}")
