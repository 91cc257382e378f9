"""Cases of `.ci/site`: words, terminals, new sites, and what `install` brings."""
from __future__ import annotations

import os
import re
import shlex
import shutil
import subprocess
import sys
from pathlib import Path

from running import ROOT, SITE, Running, expect, on_a_terminal, page, program, run, write


def words(room: Path) -> None:
    """What is said when a word, or something that is needed, is missing."""
    for options, status in (((), 2), (("--help",), 0)):
        listed = run(*options, status=status)
        for word in ("new", "serve", "watch", "check", "build", "links", "why"):
            expect(f"\n      site {word} " in listed, f"no example of {word}: {listed}")
    expect(run("nope", status=2) == "site: there is no word nope; `site --help` lists them\n", "an unknown word")
    expect("there is no folder" in run("build", room / "none", status=2), "a folder that is not there")
    run("serve", "--port", "99999", room, status=2)
    run("build", "--jobs", "65", room, status=2)
    # A path with bash and a few tools, without python3, the parts or the program.
    bare = room / "bin"
    bare.mkdir()
    for name in ("bash", "dirname", "readlink", "env"):
        (bare / name).symlink_to(shutil.which(name))
    env = {"PATH": str(bare), "HOME": str(room)}
    said = run("build", room, status=1, env=env)
    expect(said.count("\n") == 1 and "python3 is missing" in said, f"without python3: {said}")
    (bare / "python3").symlink_to(sys.executable)
    alone = room / "alone"
    alone.mkdir()
    shutil.copy(SITE, alone / "site")
    said = subprocess.run([alone / "site", "build"], env=env, capture_output=True, text=True).stderr
    expect(said.count("\n") == 1 and "its parts are missing" in said, f"without its parts: {said}")
    (room / "share").mkdir()
    (room / "share/site").symlink_to(ROOT / "share/site")
    said = subprocess.run([alone / "site", "build"], env=env, capture_output=True, text=True).stderr
    expect(said.count("\n") == 1 and "the program sitebuild is missing" in said, f"without the program: {said}")
    said = run("build", room, status=1, env={**os.environ, "SITEBUILD": "/none"})
    expect(said.count("\n") == 1 and "cannot be started" in said, f"with a program that is none: {said}")


def terminals(room: Path) -> None:
    """No name and no word reaches a terminal with a control character; a pipe gets the replies as they are."""
    hostile = "a\x9b31m\x85b.html"
    folder = room / "site"
    write(folder / hostile, page("{{ 1 | divided_by: 0 }}"))
    for words, shown in (
        (("check", folder), "fault F15 1 a?31m?b.html\r\n"),
        (("build", folder), "fault F15 1 a?31m?b.html\r\n"),
        (("adopt", folder), "left: a?31m?b.html:4: "),
        (("why", folder / hostile), "a?31m?b.html"),
        (("check", folder, "\x1b[31m"), "?[31m"),
        (("\x9b31m",), "?31m"),
        (("build", room / "no\x9b31m"), "no?31m"),
    ):
        said = on_a_terminal(*words)
        expect(shown in said, f"site {words} lacks {shown!r}: {said!r}")
        expect(not re.search("[\x00-\x09\x0b\x0c\x0e-\x1f\x7f-\x9f]", said), f"site {words} reaches the terminal with {said!r}")
    said = run("check", folder, status=1)
    expect(f"\nfault F15 1 {hostile}\n" in said, f"the reply lacks the name: {said!r}")
    expect(said.count(hostile) == 1, f"a note has the name as it is: {said!r}")


def new(room: Path) -> None:
    """A starter in which nothing is wrong, in a new folder alone."""
    run("new", room / "a b/c")
    said = run("check", room / "a b/c")
    expect(said == "scanned 19\nclean\n", f"the starter has a fault, or a note: {said}")
    run("build", room / "a b/c")
    pages = sorted((room / "a b/c/_site").rglob("*.html"))
    expect(len(pages) == 6, f"pages: {pages}")
    for name in ("robots.txt", "feed.xml", "404.html"):
        expect((room / "a b/c/_site" / name).is_file(), f"the starter lacks {name}")
    if shutil.which("tidy"):
        for path in pages:
            said = subprocess.run(["tidy", "-e", "-q", path], capture_output=True, text=True)
            expect(said.returncode == 0 and not said.stderr, f"tidy says of {path}: {said.stderr}")
    else:
        print("site: tidy is not installed, so the starter's HTML is not looked at")
    full = room / "full"
    write(full / ".hidden", "mine")
    expect("is not empty" in run("new", full, status=1), "a folder that is not empty")
    expect(sorted(os.listdir(full)) == [".hidden"], "something was put into a folder that is not empty")
    write(room / "file", "mine")
    run("new", room / "file", status=1)
    expect((room / "file").read_text() == "mine", "a file was written over")
    (room / "link").symlink_to(room / "nowhere")
    run("new", room / "link", status=1)
    expect(not (room / "nowhere").exists(), "it was written through a link")
    (room / "empty").mkdir()
    run("new", room / "empty")
    run("new", "--", "-x", cwd=room)
    env = {**os.environ, "CDPATH": str(room / "full")}
    expect(run("check", "--", "-x", cwd=room, env=env).endswith("clean\n"), "a folder -x")
    with Running("watch", "./-x", cwd=room, env=env) as watch:
        watch.said("built: 11 written")
        write(room / "-x/more.html", page("more"))
        # The page, and the sitemap.
        watch.said("built: 2 written")


def clone_of(room: Path) -> Path:
    """A clone, as far as `install` needs it."""
    clone = room / "clone"
    for name in ("bin", "share", ".ci", "install", "LICENSE-MIT", "LICENSE-APACHE", "release/NOTICES"):
        (clone / name).parent.mkdir(parents=True, exist_ok=True)
        (shutil.copytree if (ROOT / name).is_dir() else shutil.copy)(ROOT / name, clone / name)
    return clone


def install(clone: Path, *words, status: int = 0, mask: int = 0o022, **env: str) -> str:
    """What `install` says, with nothing in the environment but a path, the program and these."""
    env = {"PATH": os.environ["PATH"], "SITEBUILD": program(), **env}
    shell = f"umask {mask:03o} && exec bash {shlex.quote(str(clone / 'install'))} \"$@\""
    done = subprocess.run(["bash", "-c", shell, "bash", *words], env=env, stdin=subprocess.DEVNULL, stdout=subprocess.PIPE, stderr=subprocess.STDOUT, text=True, timeout=60)
    expect(done.returncode == status, f"install {words}: status {done.returncode} and not {status}: {done.stdout}")
    return done.stdout


def installed(room: Path) -> None:
    """What `install` brings needs no clone."""
    clone, folder = clone_of(room), room / "in here/bin"
    # What an older python compiled in the clone.
    write(clone / "share/site/notes/__pycache__/old.pyc", "old")
    for _ in range(2):
        install(clone, folder, HOME=str(room))
    shutil.rmtree(clone)
    env = {name: value for name, value in os.environ.items() if name != "SITEBUILD"}
    env["PATH"] = f"{folder}:/usr/bin:/bin"
    for words in (["new", "blog"], ["build", "blog"], ["check", "blog"], ["why", "blog/about.md", "--to", "why.html"]):
        subprocess.run(["site", *words], cwd=room, env=env, check=True, stdout=subprocess.DEVNULL)
    expect((room / "blog/_site/index.html").is_file(), "an installed site builds nothing")
    # By a link, too.
    (room / "linked").symlink_to(folder / "site")
    subprocess.run([room / "linked", "check", "blog"], cwd=room, env=env, check=True, stdout=subprocess.DEVNULL)
    expect(sorted(os.listdir(folder)) == ["site", "sitebuild"], f"what install left: {os.listdir(folder)}")
    expect(sorted(os.listdir(room / "in here/share/sitebuild")) == ["LICENSE-APACHE", "LICENSE-MIT", "NOTICES", "site"], "what install left beside")
    parts = room / "in here/share/sitebuild/site"
    compiled = {path.parent.parent / f"{path.name.partition('.')[0]}.py" for path in parts.rglob("*.pyc")}
    expect(compiled == {path for path in parts.rglob("*.py")}, f"the modules that are compiled: {sorted(compiled)}")


def installed_in_the_way(room: Path) -> None:
    """`install` where something is in the way, where others may read nothing, and without a home."""
    clone = clone_of(room)
    said = install(clone, status=1)
    expect(said == "install: HOME is not set, so name the folder: bash install FOLDER\n", f"without HOME: {said}")
    # A folder of that name is not ours.
    for name in ("site", "sitebuild"):
        write(room / f"{name}-folder/{name}/mine", "mine")
        said = install(clone, room / f"{name}-folder", status=1)
        expect(f"{name}-folder/{name} is a folder; move it away" in said, f"{name} is a folder: {said}")
        expect([str(path.relative_to(room / f"{name}-folder")) for path in sorted((room / f"{name}-folder").rglob("*"))] == [name, f"{name}/mine"], "something was put beside")
    write(room / "parts/share/sitebuild/site/mine", "mine")
    expect("is no earlier copy of the parts" in install(clone, room / "parts/bin", status=1), "another folder in the place of the parts")
    expect((room / "parts/share/sitebuild/site/mine").read_text() == "mine", "a folder of somebody was removed")
    # A link is replaced, and what it leads to stays.
    write(room / "kept/main.py", "kept")
    write(room / "kept.sh", "kept")
    links = {"site": room / "kept", "sitebuild": room / "kept.sh", "share/sitebuild/site": room / "kept"}
    for name, target in links.items():
        (room / "linked" / name).parent.mkdir(parents=True, exist_ok=True)
        (room / "linked" / name).symlink_to(target)
    install(clone, room / "linked", mask=0o077)
    expect(not any((room / "linked" / name).is_symlink() for name in links), "a link is not replaced")
    expect(os.listdir(room / "kept") == ["main.py"] and (room / "kept.sh").read_text() == "kept", "what a link leads to was touched")
    # Whoever may call it may read it.
    install(clone, room / "masked/bin", mask=0o077)
    for path in [room / "masked", *(room / "masked").rglob("*")]:
        right = 0o755 if path.is_dir() or path.parent.name == "bin" else 0o444
        expect(path.stat().st_mode & right == right, f"{path} cannot be read by others: {path.stat().st_mode:o}")
        expect(not path.stat().st_mode & 0o022, f"{path} can be written by others")


def chart(room: Path) -> None:
    """The picture in README has the figures of bench/README.md."""
    drawn = subprocess.run([sys.executable, "-B", ROOT / "bench/chart"], check=True, stdout=subprocess.PIPE).stdout
    expect(drawn == (ROOT / "docs/pictures/times.svg").read_bytes(), "docs/pictures/times.svg is old: bench/chart >docs/pictures/times.svg")
    for path in (ROOT / "docs/pictures").glob("*.png"):
        expect(path.stat().st_size <= 120_000, f"{path} is larger than 120,000 bytes")
