"""Cases of `.ci/site`: what `site serve` shows, and to whom."""
from __future__ import annotations

import contextlib
import os
import shutil
import signal
import socket
import subprocess
import time
from pathlib import Path

import chromium
from running import PATIENCE, ROOT, URL, Events, Running, begin, expect, own_copy, page, program, run, small_disk, until, write


def serve(room: Path) -> None:
    """What is found at which address, and what never is."""
    site = begin(room)
    write(site / "_config.yml", f"title: T\nurl: {URL}\nkeep_files: [out, pipe, .git]\n")
    write(site / "404.html", page("gone", "404"))
    write(site / "a.json", '{"a": 1}')
    write(room / "secret", "secret")
    (site / "_site/.git").mkdir(parents=True)
    write(site / "_site/.git/config", "secret")
    (site / "_site/out").symlink_to(room)
    (site / "_site/direct").symlink_to(room / "secret")
    os.mkfifo(site / "_site/pipe")
    with Running("serve", site) as served:
        served.said("built: ")
        status, headers, body = served.get("/")
        text = body.decode()
        expect(status == 200 and headers["Content-Type"] == "text/html; charset=utf-8", f"the first page: {status} {headers}")
        expect(f'href="http://127.0.0.1:{served.port}/about"' in text, f"an absolute address is not led to the host: {text}")
        expect("https://example.organ" in text, "another address that begins alike was changed")
        expect('<script src="/.site/browser.js"' in text, "the page has no script")
        written = (site / "_site/index.html").read_text()
        expect(f"{URL}/about" in written and "script" not in written, "what is served has got into _site")
        expect(int(headers["Content-Length"]) == len(body), "the length is wrong")
        status, headers, body = served.get("/", "HEAD")
        expect(status == 200 and not body and int(headers["Content-Length"]) > 0, "HEAD")
        expect(served.get("/style.css", Range="bytes=0-1")[::2] == (200, b"a{}"), "a part of a file")
        expect("about" in served.text("/about") and "about" in served.text("/about.html?x=1"), "/about")
        expect(served.get("/notes")[1].get("Location") == "/notes/" and "notes" in served.text("/notes/"), "the index of a folder")
        status, _, body = served.get("/none")
        expect(status == 404 and b"gone" in body, "404.html")
        for path, kind in (("/style.css", "text/css; charset=utf-8"), ("/a.json", "application/json; charset=utf-8")):
            expect(served.get(path)[1]["Content-Type"] == kind, f"the type of {path}")
        for path in (
            "/../secret", "/%2e%2e/secret", "/..%2fsecret", "/notes/../../../secret", "/out/secret", "/direct", "/pipe", "//etc/passwd", "/%00",
            "/_config.yml", "/.git/config", f"{ROOT}/README.md", "/notes//index.html", "http://127.0.0.1/", "*", "/%ff", "/" + "a" * 5000,
        ):
            status, _, body = served.get(path)
            expect(status in (404, 414) and b"secret" not in body, f"{path} is answered with {status}: {body[:80]}")
        expect(served.get("/", host="evil.example")[0] == 403, "another host is answered")
        expect(served.get("/", host="localhost:1")[0] == 200, "localhost is not answered")
        expect(served.get("/", method="POST")[0] == 501, "POST")
        for garbage in (b"\r\n\r\n", b"\0" * 100, b"GET\r\n\r\n", b"GET / HTTP/9\r\n\r\n", b"A" * 70_000):
            with socket.create_connection(("127.0.0.1", served.port), timeout=PATIENCE) as client, contextlib.suppress(OSError):
                client.sendall(garbage)
                client.shutdown(socket.SHUT_WR)
                client.recv(100)
        expect(served.get("/")[0] == 200, "it is not served after garbage")
        # The configuration moves the site.
        write(site / "_config.yml", f"title: T\nurl: {URL}\nbaseurl: /base\nkeep_files: [out, pipe, .git]\n")
        served.said("/base/")
        until(lambda: served.get("/base/")[0] == 200, "the site is below its baseurl")
        expect(f'href="http://127.0.0.1:{served.port}/base/about"' in served.text("/base/"), "an address below baseurl")
        expect(served.get("/")[1].get("Location") == "/base/" and served.get("/about")[0] == 404, "outside of baseurl")
        # One that has a name that is written otherwise in an address.
        write(site / "_config.yml", "title: T\nurl: example.org\nbaseurl: /grüße да\nkeep_files: [out, pipe, .git]\n")
        served.said("/grüße да/")
        until(lambda: served.get("/")[1].get("Location") == "/gr%C3%BC%C3%9Fe%20%D0%B4%D0%B0/", "the site is at its new baseurl")
        text = served.text("/gr%C3%BC%C3%9Fe%20%D0%B4%D0%B0/")
        expect("T</a> https://example.organ" in text and "127.0.0.1" not in text, f"a url that is no address was replaced: {text}")
        expect(served.get("/gr%C3%BC%C3%9Fe%20%D0%B4%D0%B0/notes")[1].get("Location", "").endswith("%D0%B0/notes/"), "a folder below such a baseurl")
        expect("Traceback" not in "".join(served.lines), "it complains")
    expect((room / "secret").read_text() == "secret" and (site / "_site/.git/config").read_text() == "secret", "something else was touched")


def reload_and_fault(room: Path) -> None:
    """A save, a fault and its mending, over the stream of events."""
    site = begin(room)
    with Running("serve", site) as served, Events(served) as events:
        served.said("built: ")
        first = events.next(lambda state: state["version"][-2:] != "-0")
        expect(f'data-version="{first["version"]}"' in served.text("/about"), "the page has another version")
        write(site / "about.html", page("new about"))
        second = events.next()
        expect(second["version"] != first["version"] and not second["fault"], f"after a save: {second}")
        expect("new about" in served.text("/about"), "the page is old")
        write(site / "about.html", page("fine\n{% nope %}"))
        fault = events.next()
        expect(fault["version"] == second["version"], "a fault has changed the site")
        told = fault["fault"]
        expect((told["file"], told["line"], told["text"]) == ("about.html", 5, "{% nope %}") and "no tag has this name" in told["sentence"], f"the fault: {told}")
        expect("new about" in served.text("/about"), "the last good page is gone")
        served.said("about.html:5: no tag has this name; check the spelling (F11)")
        write(site / "about.html", page("mended"))
        mended = events.next()
        expect(mended["fault"] is None and mended["version"] != second["version"], f"mended: {mended}")
        # A save that changes nothing reloads nothing.
        write(site / "about.html", page("mended"))
        write(site / "index.html", page("last"))
        expect(events.next()["version"] != mended["version"] and "last" in served.text("/"), "two saves")
        why = served.text("/.site/why")
        expect("index.html" in why and "<svg" in why, "the page that says why")


def first_fault(room: Path) -> None:
    """A site that never was built: its fault is told, and mended."""
    site = begin(room)
    write(site / "about.html", page("{% nope %}"))
    with Running("serve", site) as served, Events(served) as events:
        served.said("about.html:4: ")
        expect(events.next(lambda state: state["fault"])["fault"]["line"] == 4, "the first fault")
        status, _, body = served.get("/")
        expect(status == 404 and b"Nothing has been built yet" in body and b"browser.js" in body, f"before the first build: {body}")
        write(site / "about.html", page("fine"))
        events.next(lambda state: state["fault"] is None)
        expect(served.get("/")[0] == 200, "the page after the first build")


def ports(room: Path) -> None:
    """A port that is taken, and the end by each signal."""
    site = begin(room)
    with socket.socket() as taken:
        taken.bind(("127.0.0.1", 0))
        taken.listen()
        port = taken.getsockname()[1]
        with Running("serve", site, "--port", str(port)) as served:
            number = served.said(f"port {port} is taken; this is ")
            served.port = int(served.lines[number - 1].split()[-1])
            served.said("built: ")
            expect(served.port > port and served.get("/")[0] == 200, "the next port")
    for number in (signal.SIGINT, signal.SIGTERM, signal.SIGHUP):
        for word in ("serve", "watch"):
            # The first ends while nothing is served yet, perhaps.
            for wait in (False, True):
                with Running(word, site) as running:
                    if wait:
                        running.said("built: ", seconds=PATIENCE) if number == signal.SIGINT else running.said("  ")
                    else:
                        until(lambda: "python3" in Path(f"/proc/{running.process.pid}/cmdline").read_text(), "python runs")
                        time.sleep(0.25)
                    running.stop(number)


def stopped_program(room: Path) -> None:
    """A program that does not end by itself is ended."""
    site = begin(room)
    with Running("serve", site) as served:
        served.said("built: ")
        program = served.program()
        os.kill(program, signal.SIGSTOP)
        write(site / "about.html", page("more"))
        time.sleep(0.5)
        expect(served.get("/.site/browser.js")[0] == 200, "nothing is served while the program hangs")
        served.stop(signal.SIGTERM, 30)


def clients(room: Path) -> None:
    """Clients that never read hold up no build, and no other client."""
    site = begin(room)
    (site / "large.bin").write_bytes(b"x" * 16_000_000)
    with Running("serve", site) as served:
        at = served.said("built: ")
        deaf = []
        for path in ["/large.bin", "/.site/events", "/"] * 20 + [""] * 20:
            client = socket.create_connection(("127.0.0.1", served.port), timeout=PATIENCE)
            client.setsockopt(socket.SOL_SOCKET, socket.SO_RCVBUF, 4096)
            if path:
                client.sendall(f"GET {path} HTTP/1.1\r\nHost: localhost\r\n\r\n".encode())
            deaf.append(client)
        for number in range(5):
            began = time.monotonic()
            write(site / "about.html", page(f"turn {number}"))
            until(lambda: f"turn {number}" in served.text("/about"), "a save beside clients that never read")
            expect(time.monotonic() - began < 5, "clients that never read hold up a build")
        served.stop(signal.SIGTERM)
        for client in deaf:
            client.close()


def full_disk(room: Path) -> None:
    """A disk that is full is told of, and what could not be written is written when there is room."""
    with small_disk(room / "new", "16k") as had:
        if not had:
            print("site: no disk can be mounted here, so a full one is not tried")
            return
        said = run("new", room / "new/site", status=1)
        expect(said.count("\n") == 1 and "cannot be written: No space left" in said, f"on a full disk: {said}")
    site = begin(room)
    with small_disk(site / "_site", "64k"), Running("serve", site) as served, Events(served) as events:
        served.said("built: ")
        write(site / "large.txt", "x" * 100_000)
        fault = events.next(lambda state: state["fault"])["fault"]
        expect("_site/large.txt" in fault["sentence"] and "could not be written" in fault["sentence"], f"a file that has no room: {fault}")
        expect(served.get("/about")[0] == 200, "the other pages are not served")
        subprocess.run(["mount", "-o", "remount,size=1m", site / "_site"], check=True)
        write(site / "about.html", page("more"))
        events.next(lambda state: state["fault"] is None)
        expect(len(served.text("/large.txt")) == 100_000, "the file is not there when there is room")


def why(room: Path) -> None:
    """The page about an edit."""
    run("new", room / "site")
    run("build", room / "site")
    before = {path: path.stat().st_mtime_ns for path in (room / "site").rglob("*")}
    said = run("why", room / "site/_data/menu.yml", "--to", room / "why.html")
    expect("6 of 9 pages" in said and "site.data" in said, f"why: {said}")
    text = (room / "why.html").read_text()
    expect("<svg" in text and "about.md" in text, "the page about an edit")
    for name in ("_config.yml", "_layouts/base.html", "about.md", "assets/style.css"):
        run("why", room / "site" / name, "--to", room / f"{name.replace('/', '-')}.html")
    if shutil.which("tidy"):
        for path in room.glob("*.html"):
            said = subprocess.run(["tidy", "-e", "-q", path], capture_output=True, text=True)
            expect(not said.stderr, f"tidy says of {path}: {said.stderr}")
    run("why", room / "site/none", status=1)
    run("why", room / "why.html", status=1)
    run("why", room / "site/about.md", "--to", room / "why.html", status=1)
    write(room / "site/about.md", page("{% nope %}"))
    expect("about.md:4: no tag has this name" in run("why", room / "site/index.html", status=1), "a site with a fault")
    (room / "site/about.md").unlink()
    del before[room / "site/about.md"]
    expect(all(path.stat().st_mtime_ns == then for path, then in before.items() if path.is_file()), "the site was touched")


def turn_to(browser: chromium.Browser, state: str) -> None:
    """Makes the page believe that it is hidden, or visible."""
    browser.value(f"Object.defineProperty(document, 'visibilityState', {{value: '{state}', configurable: true}})")
    browser.value("document.dispatchEvent(new Event('visibilitychange'))")


def in_chromium(room: Path) -> None:
    """A page in a browser reloads after a save, and shows a fault over itself for as long as there is one."""
    path = chromium.find()
    if not path:
        print("site: chromium is not installed, so no page is looked at in a browser")
        return
    run("new", room / "site")
    post = next((room / "site/_posts").glob("*first*"))
    text = post.read_text()
    with Running("serve", room / "site") as served:
        served.said("built: ")
        with chromium.Browser(path) as browser:
            browser.show(f"http://127.0.0.1:{served.port}/")
            browser.value("window.before = true")
            panel = "document.querySelector('#site-fault')"
            post.write_text(text.replace("## Make a", "{% nope %}\n\n## Make a"))
            browser.wait_for(f"{panel} && {panel}.shadowRoot.querySelector('pre')", PATIENCE)
            shown = browser.value(f"{panel}.shadowRoot.querySelector('section').textContent")
            for part in ("No tag has this name.", "your-first-post.md, line 9", "{% nope %}"):
                expect(part in shown, f"the fault in the browser lacks {part}: {shown}")
            expect(browser.value("window.before"), "a fault has reloaded the page")
            post.write_text(text)
            browser.wait_for(f"!{panel}", PATIENCE)
            post.write_text(text.replace("title: Your first post", "title: Another title"))
            browser.wait_for("!window.before && document.body && document.body.textContent.includes('Another title')", PATIENCE)
            expect("Another title" in browser.value("document.body.innerText"), "the page in the browser is old")
            # Nobody looks at a hidden page, so it is old until it is shown again.
            browser.value("window.before = true")
            turn_to(browser, "hidden")
            at = len(served.lines)
            post.write_text(text.replace("title: Your first post", "title: A third title"))
            served.said("built: ", at)
            time.sleep(0.5)
            expect(browser.value("window.before"), "a hidden page reloads")
            turn_to(browser, "visible")
            browser.wait_for("!window.before && document.body && document.body.textContent.includes('A third title')", PATIENCE)
            # The server begins anew at the same port.
            browser.value("window.before = true")
            served.stop(signal.SIGTERM)
            browser.wait_for(f"{panel} && {panel}.shadowRoot.textContent.includes('The server has ended')", PATIENCE)
            with Running("serve", room / "site", "--port", str(served.port)) as again:
                again.said("built: ")
                browser.wait_for(f"!window.before && !{panel}", 30)


def odd_addresses(room: Path) -> None:
    """Addresses as curl sends them, and what is kept of one that is sent on."""
    site = begin(room)
    write(site / "grüße.html", page("Grüße"))
    write(site / "à Å/index.html", page("deep"))
    with Running("serve", site) as served:
        served.said("built: ")
        for path in ("/grüße", "/grüße.html", "/gr%C3%BC%C3%9Fe", "/à%20Å/"):
            with socket.create_connection(("127.0.0.1", served.port), timeout=PATIENCE) as client:
                client.sendall(f"GET {path} HTTP/1.1\r\nHost: localhost\r\nConnection: close\r\n\r\n".encode())
                said = b"".join(iter(lambda: client.recv(65536), b""))
            expect(said.startswith(b"HTTP/1.1 200 "), f"GET {path}: {said[:200]}")
        for path, place in (("/notes?a=b&c=%20", "/notes/?a=b&c=%20"), ("/notes", "/notes/"), ("/%C3%A0%20%C3%85?%C3%BC", "/%C3%A0%20%C3%85/?%C3%BC")):
            status, headers, _ = served.get(path)
            expect((status, headers.get("Location")) == (302, place), f"{path} is sent to {headers.get('Location')}")
        write(site / "_config.yml", "baseurl: /base\n")
        served.said("/base/")
        until(lambda: served.get("/?x=1")[1].get("Location") == "/base/?x=1", "the query of the front page is kept")


def held_connections(room: Path) -> None:
    """Clients that hold their connections keep nobody out, and a request that comes in small pieces is let go as a whole."""
    site = begin(room)
    script = own_copy(room / "copy", {})
    path = room / "copy/share/site/serve.py"
    path.write_text(path.read_text().replace("CLIENT_WAITS = 30", "CLIENT_WAITS = 3"))
    with Running("serve", site, site=script) as served, contextlib.ExitStack() as held:
        served.said("built: ")

        def hold(said: bytes) -> socket.socket:
            client = held.enter_context(socket.create_connection(("127.0.0.1", served.port), timeout=PATIENCE))
            client.sendall(said)
            return client

        for said in (b"G", b"GET /.site/events HTTP/1.1\r\nHost: localhost\r\n\r\n"):
            for _ in range(300):
                hold(said)
            for _ in range(5):
                began = time.monotonic()
                expect(served.get("/")[0] == 200, "a page beside clients that hold all connections")
                expect(time.monotonic() - began < 2, f"a page took {time.monotonic() - began:.1f} s")
        slow, began = hold(b"GET / HTTP/1.1\r\n"), time.monotonic()
        with contextlib.suppress(ConnectionError):
            while time.monotonic() - began < 20:
                slow.sendall(b"a")
                time.sleep(0.5)
        expect(2 < time.monotonic() - began < 10, f"a head in small pieces was taken for {time.monotonic() - began:.1f} s")


def faults_of_styles(room: Path) -> None:
    """What is wrong with a style is shown as any other fault is."""
    site = begin(room)
    refusing = """from pathlib import Path

def compile_styles(folder: Path, program: str) -> list[str]:
    if "wrong" in (folder / "style.scss").read_text():
        return ["style.scss:2: sassc refuses it: no mixin named a; the CSS stays as it is"]
    return []
"""
    script = own_copy(room / "copy", {"sass.py": refusing})
    write(site / "style.scss", "good")
    with Running("serve", site, site=script) as served, Events(served) as events:
        served.said("built: ")
        first = events.next(lambda state: state["version"][-2:] != "-0")
        expect(first["fault"] is None, f"a good style: {first}")
        write(site / "style.scss", "a\nis wrong\n")
        fault = events.next(lambda state: state["fault"])["fault"]
        expect((fault["file"], fault["line"], fault["text"]) == ("style.scss", 2, "is wrong"), f"the fault of a style: {fault}")
        expect("no mixin named a" in fault["sentence"], f"the fault of a style: {fault}")
        write(site / "about.html", page("more"))
        until(lambda: "more" in served.text("/about"), "a save beside a fault of a style")
        expect(events.next(lambda state: True)["fault"], "a build takes the fault of a style away")
        write(site / "style.scss", "good again")
        events.next(lambda state: state["fault"] is None)


def why_of_the_last_build(room: Path) -> None:
    """The page about the last build tells of its own edits, whatever words their names have."""
    site = begin(room)
    names = ["a new page.md", "new.html", "b site title.html", "c source d.html"]
    for name in names:
        write(site / name, page("first"))
    write(site / "b", "a file with the front of a name")
    with Running("serve", site) as served:
        at = served.said("built: ")
        for name in names:
            write(site / name, page(f"edited {name}"))
            at = served.said("built: 1 written", at)
            text = served.text("/.site/why")
            expect(f"<h1>What an edit of {name} touches</h1>" in text, f"the page after an edit of {name}: {text}")
            expect(f"<li>{name}: the text of {name}</li>" in text, f"the page after an edit of {name}: {text}")
        write(site / "style.css", "b{}")
        served.said("built: 1 written", at)
        text = served.text("/.site/why")
        expect("<h1>What an edit of style.css touches</h1>" in text and "0 of " in text and "about" not in text.split("<body>")[1], f"after a style: {text}")
