"""What is copied of a site: no right that opens more than there was, nothing through a link, and nothing without an end."""
from __future__ import annotations

import os
import stat
import sys
import time
from pathlib import Path

from common import PARTS, PROGRAM, Failures, adopt, expect_said, run, write_files

ITEM = "---\n---\nx\n"
SETTINGS = "paginate: 0\n"
MIB = 1 << 20


def try_all(work: Path, failures: Failures) -> None:
    for part in (rights, of_a_stranger, in_place, links_of_gems, many_links, no_end, themes):
        folder = work / part.__name__
        folder.mkdir()
        part(folder, failures)


def mode(path: Path) -> int:
    return stat.S_IMODE(path.stat().st_mode)


def rights(work: Path, failures: Failures) -> None:
    """A file that runs as its owner, folders that are closed to others, and one with a name of its own."""
    site = work / "s"
    write_files(site, {"_config.yml": SETTINGS + "layouts_dir: lay\n", "run.cgi": "x", "closed/a.txt": "a", "open/b.txt": "b", "lay/l.html": "{{ content }}", "lay/in/m.html": "m"})
    for path, bits in (("run.cgi", 0o6755), ("closed", 0o700), ("closed/a.txt", 0o600), ("open", 0o2775), ("lay", 0o750), ("lay/in", 0o700), ("_config.yml", 0o640), ("", 0o511)):
        (site / path).chmod(bits)
    done = adopt(site)
    failures.expect(f"site adopt: {done.stderr}", done.returncode, 0)
    copy = work / "s-adopted"
    for path, bits in (("run.cgi", 0o755), ("closed", 0o700), ("closed/a.txt", 0o600), ("open", 0o775), ("_layouts", 0o750), ("_layouts/in", 0o700), ("_config.yml", 0o640), ("", 0o511)):
        failures.expect(f"the rights of {path or 'the copy'}", oct(mode(copy / path)), oct(bits))


def of_a_stranger(work: Path, failures: Failures) -> None:
    """A folder of another user, whom the new owner of its copy is not to serve."""
    if os.getuid():
        print("not tried: the folder of another user, which needs root")
        return
    site = work / "s"
    write_files(site, {"_config.yml": SETTINGS, "tool": "#!/bin/sh\n", "private/a.txt": "a"})
    for path, bits in (("tool", 0o4755), ("private", 0o700), ("private/a.txt", 0o600), ("", 0o700)):
        os.chown(site / path, 65534, 65534)
        (site / path).chmod(bits)
    adopt(site)
    copy = work / "s-adopted"
    failures.expect("the copy's owner and rights", [(path, (copy / path).stat().st_uid, oct(mode(copy / path))) for path in ("", "tool", "private", "private/a.txt")],
                    [("", 0, "0o700"), ("tool", 0, "0o755"), ("private", 0, "0o700"), ("private/a.txt", 0, "0o600")])


def in_place(work: Path, failures: Failures) -> None:
    """What is written over loses the bits that make who runs it somebody else, and keeps the others."""
    site = work / "s"
    write_files(site, {"_config.yml": SETTINGS, "a.md": "---\n---\n{% seo %}\n"})
    (site / "a.md").chmod(0o4750)
    failures.expect("in place", adopt(site, "--write").returncode, 0)
    failures.expect("the rights of a file that was written over", oct(mode(site / "a.md")), oct(0o750))


def theme_in(folder: Path) -> Path:
    """A gem of a theme that no machine has; its folder."""
    write_files(folder / "no-such-theme-1.0", {"_layouts/secret.html": "secret", "assets/secret.txt": "secret"})
    return folder / "no-such-theme-1.0"


def links_of_gems(work: Path, failures: Failures) -> None:
    """A theme in the site's own folder for gems is taken; one to which a link leads is not."""
    for name, link in (("own", None), ("bundle", "vendor/bundle"), ("vendor", "vendor"), ("gems", "vendor/bundle/ruby/3.1.0/gems"), ("gem", "vendor/bundle/ruby/3.1.0/gems/no-such-theme-1.0")):
        site, outside = work / name, work / f"outside-{name}"
        write_files(site, {"_config.yml": "theme: no-such-theme\n"})
        inner = "vendor/bundle/ruby/3.1.0/gems"
        if link is None:
            theme_in(site / inner)
        else:
            theme_in(outside / inner)
            (site / link).parent.mkdir(parents=True, exist_ok=True)
            (site / link).symlink_to(outside / link)
        done = adopt(site)
        expect_said(f"a theme, with a link at {link}", done, failures, 0, "is not on this machine" if link else "2 files of the theme")
        failures.expect(f"a file of the theme, with a link at {link}", (work / f"{name}-adopted/assets/secret.txt").exists(), link is None)


def many_links(work: Path, failures: Failures) -> None:
    """What links lead to counts for each of them."""
    site = work / "s"
    write_files(site, {"_config.yml": SETTINGS})
    with open(site / "large.bin", "wb") as file:
        file.truncate(12 * MIB)
    for number in range(43):
        (site / f"link{number}.bin").symlink_to("large.bin")
    expect_said("many links to a large file", adopt(site), failures, 1, "longer than 512 MiB")
    failures.expect("no copy is made", sorted(os.listdir(work)), ["s"])


def no_end(work: Path, failures: Failures) -> None:
    """Gemfile and Gemfile.lock as a pipe, as a device, and as a link to one."""
    for name in ("Gemfile.lock", "Gemfile", "_config.yml", "a.scss", "_includes/x.html"):
        for kind in ("pipe", "link"):
            site = work / f"{name.replace('/', '')}-{kind}"
            write_files(site, {"_config.yml": "theme: minima\npaginate: 0\n"} if name != "_config.yml" else {"a.md": ITEM})
            (site / name).parent.mkdir(exist_ok=True)
            if kind == "pipe":
                os.mkfifo(site / name)
            else:
                (site / name).symlink_to("/dev/zero")
            begun = time.monotonic()
            done = run(["timeout", "60", sys.executable, "-B", "-X", "utf8", PARTS / "main.py", PROGRAM, "adopt", site], work)
            failures.expect(f"{name} as a {kind}: {done.stdout}{done.stderr}", done.returncode, 0)
            failures.expect(f"{name} as a {kind} is passed over in time", time.monotonic() - begun < 60, True)


def themes(work: Path, failures: Failures) -> None:
    """Names of themes that are none."""
    for number, name in enumerate(("/etc/x", "../x", "'*'", "a/b", "''", "'[a'", '"a\\0b"', "/", "~", "[a, b]", "{a: 1}", "7")):
        site = work / f"s{number}"
        write_files(site, {"_config.yml": f"theme: {name}\npaginate: 0\n"})
        done = adopt(site)
        failures.expect(f"theme: {name}: {done.stdout}{done.stderr}", (done.returncode, "Traceback" in done.stderr), (0, False))
