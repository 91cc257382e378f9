"""A proof on this machine, as .ci/program makes it: tried with a kit that takes a moment and finds everything proved."""
from __future__ import annotations

import os
import shutil
import subprocess
from contextlib import closing
from pathlib import Path

from room import Room, case
from client import Client, begin

ROOT = Path(__file__).resolve().parent.parent.parent
# A repository of two crates.
FILES = {
    "HANDLES": "",
    "crates.txt": "part:\nsitebuild: part\n",
    "crates/part/src/lib.rt": "// a part\n",
    "crates/sitebuild/src/main.rt": "// the program\n",
    **{f"crates/sitebuild/{name}": "" for name in ("args", "stdin", "stdout")},
}
KIT = """#!/usr/bin/env bash
echo "$*" >>"$CALLED"
sleep 0.5
[ -z "$MEANWHILE" ] || echo >>"$MEANWHILE"
mkdir -p crates/sitebuild/out
cp "$MADE" crates/sitebuild/out/sitebuild
"""


class Checkout:
    """A small repository with these scripts and a cache of its own, and that kit on the path."""

    def __init__(self, room: Room) -> None:
        self.folder, self.called, self.program = room.top / "copy", room.top / "called", room.program
        self.proved = self.folder / "crates/sitebuild/out/sitebuild"
        shutil.copytree(ROOT / ".ci", self.folder / ".ci")
        for path, text in FILES.items():
            (self.folder / path).parent.mkdir(parents=True, exist_ok=True)
            (self.folder / path).write_text(text)
        kit = room.top / "kit/rt"
        kit.parent.mkdir()
        kit.write_text(KIT)
        kit.chmod(0o755)
        self.environment = {**os.environ, "PATH": f"{kit.parent}:{os.environ['PATH']}", "XDG_CACHE_HOME": str(room.top / "cache")}
        self.environment.pop("SITEBUILD", None)

    def prove(self, meanwhile: str = "") -> subprocess.Popen[str]:
        """Begins a proof; a file that is named grows by a line in its middle."""
        environment = {**self.environment, "CALLED": str(self.called), "MADE": str(self.program), "MEANWHILE": str(self.folder / meanwhile) if meanwhile else ""}
        return subprocess.Popen(["bash", self.folder / ".ci/program", "prove"], env=environment, stdout=subprocess.PIPE, stderr=subprocess.PIPE, text=True)

    @property
    def calls(self) -> list[str]:
        """How the kit was called so far."""
        return self.called.read_text().splitlines()


@case("of two proofs at once the second waits, and takes what the first has proved")
def two_proofs(room: Room) -> None:
    checkout = Checkout(room)
    for proof in [checkout.prove(), checkout.prove()]:
        printed, said = proof.communicate()
        room.same(f"the status ({said!r})", 0, proof.returncode)
        room.same("what is printed", f"{checkout.proved}\n", printed)
    room.same("the calls of the kit", ["ci"], checkout.calls)


@case("a source that changes while a proof runs is not taken as proved")
def source_that_changes(room: Room) -> None:
    checkout = Checkout(room)
    checkout.prove("crates/part/src/lib.rt").communicate()
    checkout.prove().communicate()
    room.same("the calls of the kit", ["ci", "ci"], checkout.calls)
    checkout.prove().communicate()
    room.same("the calls of the kit, when nothing has changed", ["ci", "ci"], checkout.calls)


@case("a proved program is replaced while it runs")
def program_that_runs(room: Room) -> None:
    checkout = Checkout(room)
    checkout.prove().communicate()
    with closing(Client(begin(checkout.proved, room.site))) as running:
        with (checkout.folder / "crates/part/src/lib.rt").open("a") as source:
            source.write("\n")
        proof = checkout.prove()
        said = proof.communicate()[1]
        room.same(f"the status ({said!r})", 0, proof.returncode)
        room.same("the reply of the running one", "ok", running.ask(b"time 1\n"))
    room.same("the names beside the program", ["built", "sitebuild"], sorted(os.listdir(checkout.proved.parent)))
