"""Bad sites and bad moments for `site adopt`: nothing of the user's is lost, and each is told in words."""
from __future__ import annotations

import itertools
import os
import resource
import shutil
import signal
import socket
import subprocess
import sys
import time
from pathlib import Path

from common import PARTS, PROGRAM, Failures, adopt, expect_said, has, read_files, run, write_files
import sass
from adopting.adoption import Adoption
from adopting.placing import write_into
from words import Refused

ITEM = "---\n---\nx\n"
# Permissions do not bind root.
AS_NOBODY = ["setpriv", "--reuid=65534", "--regid=65534", "--clear-groups"] if os.getuid() == 0 else []


def try_all(work: Path, failures: Failures) -> None:
    for part in (
        nothing_to_do, lists, copies, links_and_others, in_place, cut_short, unreadable, names, settings_that_are_not_read, other_folders, no_room, killed,
        styles, faults_of_files,
    ):
        folder = work / part.__name__
        folder.mkdir()
        part(folder, failures)


def nothing_to_do(work: Path, failures: Failures) -> None:
    write_files(work / "s", {"a.md": ITEM})
    expect_said("nothing to do", adopt(work / "s"), failures, 0, "there is nothing to adopt (0 done, 0 left)")
    failures.expect("no copy is made", sorted(os.listdir(work)), ["s"])
    expect_said("no folder", adopt(work / "none"), failures, 2, "there is no folder")


def lists(work: Path, failures: Failures) -> None:
    """What must not come out: globs, fronts of paths, folders of the output, and a site that gets a new file."""
    site = work / "s"
    write_files(site, {
        "_config.yml": "exclude: ['secret/**', '*.key', priv]\ninclude: ['_pages/']\nkeep_files: ['up*', old]\ndefaults:\n"
                       "- scope: {path: 'hid*'}\n  values: {published: }\n",
        "secret/a.html": ITEM, "b.key": "k", "sub/c.key": "k", "private.html": ITEM, "_pages/d.html": ITEM, "hidden.html": ITEM, "empty.html": "---\npublished:\n---\n",
        "_site/upload.txt": "u", "_site/old/x.txt": "o", "index.html": ITEM,
    })
    before = read_files(site)
    done = adopt(site)
    expect_said("lists", done, failures, 0, 'exclude "*.key": a glob; it names now: b.key, sub/c.key', 'include "_pages/"', 'the scope "hid*" is a glob')
    failures.expect("the site itself", read_files(site), before)
    adopted = work / "s-adopted"
    run([PROGRAM, "once"], adopted)
    failures.expect("what comes out", set(read_files(adopted / "_site")), {"_pages/d.html", "index.html"})
    write_files(adopted, {"new.key": "k"})
    checked = run([sys.executable, "-B", PARTS / "main.py", PROGRAM, "check", adopted], work)
    expect_said("a new file", checked, failures, 0, 'new.key comes out, and Jekyll leaves it out by "*.key"')
    expect_said("a new file", adopt(adopted, "--write"), failures, 0, "it names now: new.key")
    run([PROGRAM, "once"], adopted)
    failures.expect("what comes out then", set(read_files(adopted / "_site")), {"_pages/d.html", "index.html"})
    # In place, the output is there: what is kept of it stays.
    adopt(site, "--write")
    run([PROGRAM, "once"], site)
    failures.expect("what is kept", set(read_files(site / "_site")), {"_pages/d.html", "index.html", "upload.txt", "old/x.txt"})


def copies(work: Path, failures: Failures) -> None:
    """A copy that is there is never written over."""
    site, copy = work / "s", work / "s-adopted"
    write_files(site, {"_config.yml": "paginate: 0\n", "a.md": ITEM})
    expect_said("a copy", adopt(site), failures, 0, "paginate is taken out", "s-adopted: the site, adopted (1 done, 0 left)")
    first = read_files(copy)
    expect_said("again", adopt(site), failures, 0, "nothing has changed since")
    failures.expect("the copy", read_files(copy), first)
    expect_said("the copy's own", adopt(copy), failures, 0, "there is nothing to adopt (0 done, 0 left)")
    write_files(copy, {"a.md": ITEM + "mine\n"})
    expect_said("a copy with an edit", adopt(site), failures, 1, "a.md in it is another; nothing was written")
    failures.expect("the edit", read_files(copy)["a.md"], (ITEM + "mine\n").encode())
    shutil.rmtree(copy)
    copy.symlink_to(work)
    expect_said("a link in the copy's place", adopt(site), failures, 1, "is there already")
    copy.unlink()
    copy.write_text("mine")
    expect_said("a file in the copy's place", adopt(site), failures, 1, "is there already")
    failures.expect("the file", copy.read_text(), "mine")
    failures.expect("nothing else is left", sorted(os.listdir(work)), ["s", "s-adopted"])
    expect_said("in place", adopt(site, "--write"), failures, 0, "adopted in place (1 done, 0 left)")
    expect_said("in place again", adopt(site, "--write"), failures, 0, "there is nothing to adopt")


def links_and_others(work: Path, failures: Failures) -> None:
    """Links, a fifo and a socket."""
    site = work / "s"
    write_files(work, {"outside.txt": "secret"})
    write_files(site, {"_config.yml": "paginate: 0\n", "a.md": ITEM})
    (site / "in.md").symlink_to("a.md")
    (site / "out.txt").symlink_to(work / "outside.txt")
    (site / "round").symlink_to("round")
    (site / "up").symlink_to("..")
    (site / "git.txt").symlink_to(".git/config")
    write_files(site, {".git/config": "token"})
    os.mkfifo(site / "pipe")
    with socket.socket(socket.AF_UNIX) as one:
        here = os.getcwd()
        os.chdir(site)
        one.bind("sock")
        os.chdir(here)
        done = adopt(site)
    expect_said("links", done, failures, 0, "in.md: a link to a.md is that file now", "out.txt: a link that leads out of the site", "pipe: it is no file", "sock: it is no file")
    failures.expect("what is in the copy", set(read_files(work / "s-adopted")), {"_config.yml", "a.md", "in.md"})


def in_place(work: Path, failures: Failures) -> None:
    """In place nothing is written through a link, and nothing over what was saved meanwhile."""
    site, outside = work / "s", work / "outside"
    write_files(site, {"_config.yml": "paginate: 0\n", "a.md": "---\n---\n{% seo %}\n"})
    outside.mkdir()
    (site / "_includes").symlink_to(outside)
    before = read_files(site)
    expect_said("a link in place", adopt(site, "--write"), failures, 1, "a link leads out of the folder there", "Nothing was written")
    failures.expect("the site and what is outside", (read_files(site), read_files(outside)), (before, {}))
    (site / "_includes").unlink()
    site_of_hands = Adoption(work / "new", PROGRAM, site, {"a.md": 0})
    write_files(work / "new", {"a.md": "new"})
    try:
        write_into(site_of_hands, ["a.md"])
        failures.add("a file that was saved meanwhile was written over")
    except Refused:
        failures.expect("the file", read_files(site), before)
    write_files(site, {"late.md": "mine"})
    site_of_hands.copied["a.md"] = (site / "a.md").stat().st_mtime_ns
    write_into(site_of_hands, ["a.md", "late.md"])
    failures.expect("a file that came meanwhile", (site / "late.md").read_text(), "mine")


def cut_short(work: Path, failures: Failures) -> None:
    """A run in place that is cut short after any of its writes is made good by the next."""
    files = {
        "_config.yml": "theme: own\nlayouts_dir: lay\nplugins: [jekyll-feed]\nexclude: ['*.key']\n", "a.key": "k", "lay/l.html": "{{ content }}",
        "a.html": "---\nlayout: l\n---\n{% seo %}{{ jekyll.environment }}\n", "s.scss": "---\n---\nb { top: 0; }\n",
    }
    theme = work / "theme"
    write_files(theme, {"_layouts/of_theme.html": "x", "assets/t.txt": "t", "_config.yml": "colour: red\n"})
    write_files(work / "whole", files)
    expect_said("in place", adopt(work / "whole", "--write", "--theme", theme), failures, 0, "adopted in place")
    whole = read_files(work / "whole")
    for writes in itertools.count():
        site = work / f"after{writes}"
        write_files(site, files)
        patch = f"import sys; sys.path.insert(0, {str(PARTS)!r}); import adopt\nfrom adopting import placing\nold, left = placing.write_below, [{writes}]\n" + (
            "def write(top, path, data):\n    left[0] -= 1\n    if left[0] < 0: raise OSError(28, 'No space left on device', path)\n    old(top, path, data)\n"
            f"placing.write_below = write\nadopt.main([{str(site)!r}, '--write', '--theme', {str(theme)!r}], {PROGRAM!r})"
        )
        done = run([sys.executable, "-B", "-c", patch], work)
        failures.expect(f"a run that has room for {writes} writes: {done.stderr}", done.returncode == 0 or "No space left" in done.stderr, True)
        if done.returncode == 0:
            failures.expect("the number of writes", writes > 5, True)
            break
        adopt(site, "--write", "--theme", theme)
        failures.expect(f"a run that is cut short after {writes} writes", read_files(site), whole)


def unreadable(work: Path, failures: Failures) -> None:
    work.chmod(0o777)
    site = work / "s"
    write_files(site, {"_config.yml": "paginate: 0\n", "closed.txt": "x"})
    (site / "closed.txt").chmod(0)
    words = [sys.executable, "-B", PARTS / "main.py", PROGRAM, "adopt", site]
    readable = run([*AS_NOBODY, "test", "-r", PARTS / "main.py"], work).returncode == 0 and run([*AS_NOBODY, "test", "-x", PROGRAM], work).returncode == 0
    if not readable:
        print("not tried: a file without rights, as another user cannot read this clone")
        return
    expect_said("a file without rights", run([*AS_NOBODY, *words], work), failures, 1, "closed.txt: it cannot be read", "Nothing was done")
    failures.expect("no copy is made", sorted(os.listdir(work)), ["s"])
    (site / "closed.txt").chmod(0o644)
    work.chmod(0o755)
    expect_said("a parent without rights", run([*AS_NOBODY, *words], work), failures, 1, "Permission denied")


def names(work: Path, failures: Failures) -> None:
    """Odd names of files and of the site itself."""
    site = work / "-x y"
    write_files(site, {"_config.yml": "exclude: ['*.key']\n", "-x.md": ITEM, "a b.key": "k", "é.md": ITEM, "a.key'\"": "k"})
    for odd in (b"new\nline.key", b"not\xff.key"):
        (Path(os.fsdecode(os.path.join(os.fsencode(site), odd)))).write_text("k")
    done = adopt(site)
    expect_said("odd names", done, failures, 0, "its name holds a control character", "its name is not UTF-8", "a b.key")
    failures.expect("no line is broken", all(line.split(":")[0] in ("done", "left") or "adopted (" in line for line in done.stdout.splitlines()), True)
    run([PROGRAM, "once"], work / "-x y-adopted")
    failures.expect("what comes out", set(read_files(work / "-x y-adopted/_site")), {"-x.html", "é.html", "a.key'\""})


def settings_that_are_not_read(work: Path, failures: Failures) -> None:
    """Of settings that are not read nobody knows what must not come out."""
    for number, (text, line) in enumerate([("a: &x 1\nexclude: ['*.key']\n", 1), ("exclude: [\n  '*.key'\n", 1), ("- a\n", 1), ("a: b: c\n", 1)]):
        site = work / f"s{number}"
        write_files(site, {"_config.yml": text, "x.key": "k"})
        expect_said(f"settings {text!r}", adopt(site), failures, 1, f"_config.yml:{line}: " if number != 2 else "_config.yml:", "othing was done")
        failures.expect("no copy is made", (work / f"s{number}-adopted").exists(), False)
    write_files(work / "several", {"_config.yml": "a: &x 1\nb: 2\nc: d: e\n"})
    expect_said("several faults", adopt(work / "several"), failures, 1, "_config.yml:1: ", "_config.yml:3: ")
    site = work / "bytes"
    write_files(site, {})
    (site / "_config.yml").write_bytes(b"a: \xff\n")
    expect_said("settings that are not UTF-8", adopt(site), failures, 1, "_config.yml", "UTF-8")
    write_files(work / "toml", {"_config.toml": "a = 1\n"})
    expect_said("settings in TOML", adopt(work / "toml"), failures, 1, "_config.toml")
    write_files(work / "source", {"_config.yml": "source: src\n"})
    expect_said("a source", adopt(work / "source"), failures, 1, "the site is in its folder src")


def other_folders(work: Path, failures: Failures) -> None:
    """Folders with names of their own, and `_config.yaml`."""
    site = work / "s"
    write_files(site, {
        "_config.yaml": "layouts_dir: l\ncollections_dir: c\ndestination: public\ncollections: {z: {output: true}}\n",
        "l/x.html": "[{{ content }}]", "c/_z/a.html": "---\nlayout: x\n---\na", "c/_posts/2020-01-02-p.html": ITEM, "sub/_posts/2020-01-02-q.html": ITEM,
        "public/old.html": "old",
    })
    for key in ("layouts_dir", "collections_dir"):
        write_files(work / "out", {"_config.yml": f"{key}: ../../kept\n", "a.html": ITEM})
        write_files(work / "kept", {"_z/mine.txt": "mine"})
        expect_said("a folder outside", adopt(work / "out"), failures, 1, f"{key} leads out of the site")
        failures.expect("the folder outside", read_files(work / "kept"), {"_z/mine.txt": b"mine"})
    expect_said("other folders", adopt(site), failures, 0, "it is called _config.yml now", "l is called _layouts now", "c/_z is called _z now")
    run([PROGRAM, "once"], work / "s-adopted")
    failures.expect("what comes out", {path: text for path, text in read_files(work / "s-adopted/_site").items()},
                    {"z/a.html": b"[a]", "2020/01/02/p.html": b"x\n"})


def no_room(work: Path, failures: Failures) -> None:
    """A disk on which no file may be longer than some bytes."""
    site = work / "s"
    write_files(site, {"_config.yml": "paginate: 0\n", "big.txt": "x" * 100_000})
    before = read_files(work)
    words = [sys.executable, "-B", str(PARTS / "main.py"), PROGRAM, "adopt", str(site)]

    def limited() -> None:
        signal.signal(signal.SIGXFSZ, signal.SIG_IGN)
        resource.setrlimit(resource.RLIMIT_FSIZE, (50_000, 50_000))

    done = subprocess.run(words, capture_output=True, text=True, preexec_fn=limited)
    expect_said("no room", done, failures, 1, "File too large")
    failures.expect("nothing is left", read_files(work), before)


def killed(work: Path, failures: Failures) -> None:
    """A run that is killed leaves no copy of that name, and nothing of the site changed."""
    site = work / "s"
    write_files(site, {"_config.yml": "paginate: 0\n", **{f"p{number}.md": ITEM for number in range(300)}})
    before = read_files(site)
    words = [sys.executable, "-B", str(PARTS / "main.py"), PROGRAM, "adopt", str(site)]
    for wait in (0.08, 0.15, 0.25):
        process = subprocess.Popen(words, stdout=subprocess.DEVNULL, stderr=subprocess.DEVNULL)
        time.sleep(wait)
        process.kill()
        process.wait()
        failures.expect("the site", read_files(site), before)
        copy = work / "s-adopted"
        if copy.exists():
            failures.expect("a copy is whole or not there", len(read_files(copy)), 301)
            shutil.rmtree(copy)
    expect_said("after a kill", adopt(site), failures, 0, "the site, adopted")


def styles(work: Path, failures: Failures) -> None:
    """Sass: what is written over, what is told, and that an unchanged style is not written again."""
    site = work / "s"
    write_files(site, {
        "a.scss": "---\nc: red\n---\n@import 'part';\nb { color: {{ page.c }}; }\n", "_sass/_part.scss": "i { top: 0; }\n",
        "own.scss": "---\n---\nb { top: 0; }\n", "own.css": "mine\n", "bad.scss": "---\n---\n\nb { top: $no; }\n", "plain.scss": "b { top: $no; }\n",
        "up.scss": "---\npermalink: /../up.css\n---\nb { top: 0; }\n",
        "out/x.scss": "---\n---\nb { top: 0; }\n", "_config.yml": "exclude: [out/x.scss]\n",
    })
    if not has("sassc"):
        expect_said("without sassc", adopt(site), failures, 0, "sassc is not installed")
        print("not tried: Sass, as sassc is not installed")
        return
    done = adopt(site)
    expect_said("styles", done, failures, 0, "bad.scss:4: sassc refuses it: Undefined variable: \"$no\".", "own.css: this file was not made of own.scss")
    copy = work / "s-adopted"
    failures.expect("the user's own CSS", (copy / "own.css").read_text(), "mine\n")
    failures.expect("a style that leads out", (copy / "up.css").exists() and not (work / "up.css").exists(), True)
    failures.expect("a style that is excluded", (copy / "out/x.css").exists(), False)
    made = (copy / "a.css").read_text()
    failures.expect("a style", made.splitlines()[:3], ["i { top: 0; }", "", "b { color: red; }"])
    stamp = (copy / "a.css").stat()
    failures.expect("again", sass.compile_styles(copy, PROGRAM), [])
    failures.expect("nothing is written again", (copy / "a.css").stat().st_mtime_ns, stamp.st_mtime_ns)
    write_files(copy, {"_sass/_part.scss": "i { top: 1px; }\n"})
    failures.expect("a part that is changed", sass.compile_styles(copy, PROGRAM), [])
    failures.expect("the new style", (copy / "a.css").read_text(), made.replace("top: 0", "top: 1px"))
    write_files(copy, {"_sass/_part.scss": "i {\n  top: $no;\n}\n"})
    said = sass.compile_styles(copy, PROGRAM)
    failures.expect("a part that is wrong", said, ['_sass/_part.scss:2: sassc refuses it: Undefined variable: "$no".; the CSS stays as it is'])
    write_files(copy, {"a.scss": "---\nc: red\n---\nb { top: {{ 1 | divided_by: 0 }}; }\n"})
    failures.expect("a fault of Liquid", [line.partition(": ")[0] for line in sass.compile_styles(copy, PROGRAM)], ["a.scss:4"])
    write_files(copy, {"a.scss": "---\nc: red\n---\nb { top: 0; }\n"})
    (copy / "a.css").unlink()
    (copy / "a.css").symlink_to(work / "outside.css")
    failures.expect("a link in the CSS's place", (sass.compile_styles(copy, PROGRAM), (work / "outside.css").exists()), ([], False))


def faults_of_files(work: Path, failures: Failures) -> None:
    """The first fault of each file, though each keeps the program from seeing the next."""
    site = work / "s"
    write_files(site, {
        "_config.yml": "future: maybe\npermalink: {a: 1}\ntitle: T\n", "_data/a.json": "[1.5]", "_data/b.yml": "a: &x 1\n",
        "_layouts/l.html": "{{ content }}{% nope %}", "_includes/i.html": "\n{{ 1 | divided_by: 0 }}", "a.html": "---\nlayout: l\n---\n{% include i.html %}{% include no.html %}",
        "b.html": "---\ndate: soon\n---\n{{", "c.html": "---\n---\n{{ site.data.a.b }}{% link b.html %}\n\n{% if %}", "_posts/2020-01-02-p.md": "---\nt: [x\n---\n",
    })
    done = adopt(site)
    wanted = ["_config.yml:2", "_config.yml:1", "_data/a.json", "_data/b.yml:1", "_posts/2020-01-02-p.md:2", "b.html", "a.html:4", "_includes/i.html:2", "_layouts/l.html:1", "c.html:5"]
    found = [line[len("left: ") :].partition(": ")[0] for line in done.stdout.splitlines() if line.startswith("left: ")]
    failures.expect(f"the faults: {done.stdout}", sorted(found), sorted(wanted))
