"""Cases of `.ci/site`: the commands of docs/PUBLISHING.md, with a daemon and with repositories of this machine in place of a host."""
from __future__ import annotations

import os
import re
import shutil
import subprocess
import tempfile
from pathlib import Path

from running import ROOT, SITE, expect, free_port, is_free, page, run, until, write


def commands(heading: str) -> list[str]:
    """The blocks of commands below a heading of docs/PUBLISHING.md."""
    text = (ROOT / "docs/PUBLISHING.md").read_text(encoding="utf-8")
    sections = re.split(r"^#+ (.*)\n", text, flags=re.MULTILINE)
    found = re.findall(r"^```sh\n(.*?)^```", sections[sections.index(heading) + 1], re.MULTILINE | re.DOTALL)
    expect(found, f"docs/PUBLISHING.md has no commands below {heading}")
    return found


def type_in(block: str, folder: Path, status: int = 0, **more: str) -> str:
    """Does a block of commands as a shell does that ends at the first that fails; what they say."""
    settings = {"GIT_AUTHOR_NAME": "A", "GIT_AUTHOR_EMAIL": "a@example.org", "GIT_COMMITTER_NAME": "A", "GIT_COMMITTER_EMAIL": "a@example.org"}
    env = {**os.environ, **settings, "PATH": f"{SITE.parent}:{os.environ['PATH']}", **more}
    done = subprocess.run(["bash", "-e", "-c", block], cwd=folder, env=env, stdin=subprocess.DEVNULL, stdout=subprocess.PIPE, stderr=subprocess.STDOUT, text=True)
    expect((done.returncode == 0) == (status == 0), f"status {done.returncode} of {block}: {done.stdout}")
    return done.stdout


def files_of(folder: Path) -> dict[str, bytes]:
    """The files below a folder but for git's."""
    return {str(path.relative_to(folder)): path.read_bytes() for path in folder.rglob("*") if path.is_file() and ".git" not in path.relative_to(folder).parts}


def edit_and_break(site: Path, publish, published) -> None:
    """Publishes an edit, and that a post went; and then a fault, which changes nothing."""
    expect(published() == files_of(site / "_site") and published(), "what is published at first")
    next((site / "_posts").glob("*first*")).unlink()
    write(site / "about.md", page("An edit."))
    publish(0)
    expect(published() == files_of(site / "_site"), "what is published after an edit")
    expect(not any("your-first-post" in name for name in published()), "a post that went is still published")
    before = published()
    write(site / "about.md", page("{% nope %}"))
    publish(1)
    expect(published() == before, "a fault is published")


def by_rsync(room: Path) -> None:
    """docs/PUBLISHING.md, with a daemon in place of a host."""
    if not shutil.which("rsync"):
        print("site: rsync is not installed, so it is not tried")
        return
    site, host, port = room / "site", room / "host", free_port()
    run("new", site)
    host.mkdir()
    # Root's daemon would write as nobody; another user's writes as that user, and may not name one.
    user = "uid = 0\ngid = 0\n" if os.getuid() == 0 else ""
    write(room / "rsyncd.conf", f"use chroot = no\n{user}[site]\npath = {host}\nread only = no\n")
    daemon = subprocess.Popen(["rsync", "--daemon", "--no-detach", f"--config={room}/rsyncd.conf", f"--port={port}", "--address=127.0.0.1"])
    try:
        until(lambda: not is_free(port), "the daemon of rsync listens")
        (block,) = commands("To a host, by rsync")

        def publish(status: int) -> None:
            type_in(block, site, status, TARGET=f"rsync://127.0.0.1:{port}/site/")

        publish(0)
        edit_and_break(site, publish, lambda: files_of(host))
    finally:
        daemon.terminate()
        daemon.wait()


def bare(path: Path) -> Path:
    subprocess.run(["git", "init", "--quiet", "--bare", "--initial-branch=main", path], check=True)
    return path


def branch(repository: Path):
    """What the branch `pages` of a repository has."""

    def read() -> dict[str, bytes]:
        with tempfile.TemporaryDirectory() as room:
            archive = subprocess.run(["git", f"--git-dir={repository}", "archive", "pages"], check=True, stdout=subprocess.PIPE).stdout
            subprocess.run(["tar", "-x", "-C", room], input=archive, check=True)
            return files_of(Path(room))

    return read


def of_a_repository(room: Path) -> None:
    """docs/PUBLISHING.md: `_site` with a `.git` of its own."""
    site, remote = room / "site", bare(room / "remote.git")
    run("new", site)
    write(site / ".nojekyll", "")
    with open(site / "_config.yml", "a", encoding="utf-8") as file:
        file.write("include: [.htaccess, .nojekyll]\n")
    once, each = commands("`_site` as a repository of its own")
    type_in(once, site, REMOTE=str(remote))
    type_in(each, site)
    expect(".nojekyll" in branch(remote)(), ".nojekyll is not published")
    edit_and_break(site, lambda status: type_in(each, site, status), branch(remote))


def of_a_worktree(room: Path) -> None:
    """docs/PUBLISHING.md: `_site` as a worktree."""
    site, remote = room / "site", bare(room / "remote.git")
    run("new", site)
    run("build", site)
    type_in(f'git init --quiet -b main && git add --all && git commit --quiet -m site && git remote add origin "{remote}" && git push --quiet origin main', site)
    once, each = commands("`_site` as a worktree of the site's repository")
    type_in(once, site)
    type_in(each, site)
    edit_and_break(site, lambda status: type_in(each, site, status), branch(remote))


def at_each_push(room: Path) -> None:
    """docs/PUBLISHING.md: a hook that checks, builds and publishes."""
    if not shutil.which("rsync"):
        return
    site, remote, web = room / "site", bare(room / "remote.git"), room / "web"
    run("new", site)
    web.mkdir()
    (hook,) = commands("At each push")
    write(remote / "hooks/post-receive", hook)
    (remote / "hooks/post-receive").chmod(0o755)
    type_in(f'git init --quiet -b main && git remote add origin "{remote}"', site)

    def publish(status: int) -> None:
        # A push is done even if the hook fails. What is shown stays as it was then.
        said = type_in("git add --all && git commit --quiet -m edit && git push --quiet origin main", site, WEB=str(web))
        expect(("about.md:4: no tag has this name" in said) == (status == 1), f"what a push says: {said}")
        run("build", site, status=status)

    publish(0)
    edit_and_break(site, publish, lambda: files_of(web))
