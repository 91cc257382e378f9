"""Keeps a site built: puts what was saved into a running session, and builds."""
from __future__ import annotations

import contextlib
import os
import sys
import threading
import time
from collections import Counter
from pathlib import Path
from typing import Callable, Optional

import beside
from broken import counted, news
from client import Ended
from configuration import CONFIG
from faults import ANOTHER_RUN, Fault, explain, fault_of_line, is_in_use
from inside import OUTPUT
from notes.telling import Telling
from session import Broken, Built, Failed, KnowsNoLinks, LeftToScan, Session, can_be_told, read_source
from site_files import scratch_outside
from status import Status
from watching import Changes, Looking, NotToBeHad, Watch, mark, watch
from words import Refused, shown

# An editor saves in several steps: a build waits until nothing has happened for so long, but no longer than so long in all.
QUIET = 0.03
LONGEST = 0.25
# More files than these are scanned, and not put one by one.
MOST_PUTS = 100
# A scan makes sure: so long after a save that was put, and so long after anything.
AFTER_SAVES = 10.0
AFTER_ALL = 300.0
# So often it is seen whether the folder is still there: nothing tells when it goes, as long as the program is in it.
BETWEEN_CHECKS = 2.0
# A program that ends by itself so soon after it was begun is likely to do so again.
SOON = 2.0
EDITORS_OWN = (".swp", ".swo", ".swx", "~")


def say(line: str) -> None:
    # In one piece, since another thread may say something too.
    sys.stdout.write(f"{time.strftime('%H:%M:%S')}  {line}\n")
    sys.stdout.flush()


def is_editors_own(path: str) -> bool:
    """Whether an editor has this file beside another, while that is open."""
    name = path.rsplit("/", 1)[-1]
    return name.endswith(EDITORS_OWN) or name.startswith(".#") or name == "4913"


def names_in(folder: Path) -> set[str]:
    try:
        return set(os.listdir(folder))
    except OSError:
        return set()


class Builder:
    """One site, its watch and its session."""

    def __init__(self, program: str, folder: Path, options: list[str], poll: bool = False):
        # A fork, so it comes before any thread.
        self.telling = Telling(folder, program)
        self.teller: Optional[threading.Thread] = None
        self.program = program
        self.folder = folder
        self.options = options
        self.status = Status()
        # Is called before a build whenever the configuration may be another.
        self.on_configuration: Callable[[], None] = lambda: None
        self.session: Optional[Session] = None
        self.moment = 0
        self.making_sure = False
        # What was noticed during a build that took long.
        self.missed = Changes()
        self.next_scan = 0.0
        self.begun = 0.0
        if not scratch_outside(folder):
            raise Refused("no folder for temporary files is outside of the site; set TMPDIR to one that can be written to")
        # Which folders they are, to tell them from others of these names.
        self.place = mark(folder)
        self.output = mark(folder, OUTPUT)
        # The names that have to be in `_site` itself since the last build, and those of them that were gone right after it.
        self.names: set[str] = set()
        self.gone: set[str] = set()
        # The last build that did something, and what was saved before it, for those who ask why.
        self.last: Optional[Built] = None
        self.edited: set[str] = set()
        # What was saved since then.
        self.saved: set[str] = set()
        # The links that lead nowhere, as the last answer has them, and whether the program knows the question.
        self.broken: Optional[Counter[Broken]] = None
        self.asks_for_links = True
        # What is wrong with the styles.
        self.style_fault: Optional[Fault] = None
        # Before the first scan, so that no save is missed.
        self.watch: Watch = watch(folder, poll)
        if self.watch.says:
            say(self.watch.says)

    def close(self) -> None:
        self.status.stop()
        self.watch.close()
        self.telling.end()
        if self.session:
            self.session.close()
        if self.teller:
            self.teller.join()
        else:
            self.telling.close()

    def begin_notes(self) -> None:
        """Has the notes made and said while other things are done."""
        self.teller = threading.Thread(target=self.say_notes, args=(self.status.fault not in (None, self.style_fault),), daemon=True)
        self.teller.start()

    def say_notes(self, faulty: bool) -> None:
        self.telling.begin()
        with contextlib.suppress(OSError):
            for line in self.telling.lines(faulty, limited=True):
                say(line)

    def run(self) -> None:
        """Builds the site, and then after each save, until the folder has gone."""
        self.make_styles()
        # The first scan finds what that has written.
        self.take_now()
        self.begin_session()
        self.begin_notes()
        while True:
            others = [self.session] if self.session else []
            noticed = self.missed or self.watch.wait(min(self.next_scan - time.monotonic(), BETWEEN_CHECKS), *others)
            if mark(self.folder) != self.place:
                raise Refused(f"the folder is not there any more: {shown(os.fspath(self.folder))}")
            if noticed:
                self.follow(self.gather())
            elif self.session and self.session.has_ended():
                self.replace_ended(self.session.how_it_ended())
            elif self.session and self.loss():
                self.begin_again(self.loss())
            elif time.monotonic() >= self.next_scan or self.status.fault == ANOTHER_RUN and not is_in_use(self.folder):
                self.make_sure()

    # ---- what was noticed

    def gather(self) -> Changes:
        """What was noticed, until nothing more is for a moment."""
        until = time.monotonic() + LONGEST
        changes, self.missed = self.missed, Changes()
        changes.add(self.take())
        while time.monotonic() < until and self.watch.wait(QUIET):
            changes.add(self.take())
        return changes

    def take(self) -> Changes:
        try:
            return self.watch.take()
        except NotToBeHad as why:
            self.watch.close()
            self.watch = Looking(self.folder, str(why))
            say(self.watch.says)
            return Changes(unclear=True)

    def take_now(self) -> Changes:
        """What has happened up to now, even if that takes a look at the folder."""
        return self.take() if self.watch.wait(0) else Changes()

    def is_overtaken(self) -> bool:
        """Whether something was saved during a build."""
        self.missed.add(self.take_now())
        return self.missed.unclear or any(not is_editors_own(path) for path in self.missed.paths)

    def make_styles(self) -> None:
        lines = beside.styles(self.folder, self.program)
        for line in lines:
            say(line)
        self.style_fault = next(filter(None, (fault_of_line(self.folder, line) for line in lines)), None)

    def follow(self, changes: Changes) -> None:
        """Does what changes ask for."""
        changes.paths = {path for path in changes.paths if not is_editors_own(path)}
        if changes.unclear or any(path.endswith(beside.STYLES) for path in changes.paths):
            # What this writes is built with what was saved.
            self.make_styles()
            changes.add(self.take_now())
        # Many editors save by a file of another name, which has gone by now.
        self.saved |= {path for path in changes.paths if os.path.lexists(self.folder / path)} or changes.paths
        if self.session and self.loss():
            self.begin_again(self.loss())
        elif changes.paths or changes.unclear:
            self.attempt(lambda session: self.update(session, changes), changes)

    def make_sure(self) -> None:
        """Scans, in case something was missed. The moment stays, so that nothing changes but for what was missed."""
        self.next_scan = time.monotonic() + AFTER_ALL
        self.making_sure = True
        self.attempt(Session.scan, Changes(unclear=True), self.moment)
        self.making_sure = False

    def attempt(self, update: Callable[[Session], Optional[Failed]], changes: Changes, moment: Optional[int] = None) -> None:
        """Builds after an update of what the session holds."""
        if self.session is None:
            self.begin_session()
            return
        if CONFIG in changes.paths or changes.unclear:
            self.on_configuration()
        try:
            self.build(self.session, update, moment)
        except Ended as ended:
            self.begin_again(str(ended))

    # ---- the session

    def replace_ended(self, why: str) -> None:
        """Begins anew after the program has ended by itself; not again and again, if it always does so."""
        if time.monotonic() - self.begun > SOON:
            self.begin_again(why)
        else:
            self.give_up(why)

    def give_up(self, why: str) -> None:
        """Goes on without a session until something is saved."""
        self.end_session()
        self.next_scan = time.monotonic() + AFTER_ALL
        self.tell(False, Fault(f"{why}; trying again after the next save"))

    def begin_again(self, why: str) -> None:
        say(f"{why}; building the whole site again")
        self.end_session()
        self.begin_session()

    def begin_session(self) -> None:
        """Starts a new session, which builds the whole site. If it ends at once, the next save tries again."""
        self.begun = time.monotonic()
        # A scan reads all.
        self.missed = Changes()
        self.on_configuration()
        try:
            self.session = Session(self.program, self.folder, self.options)
            self.session.is_overtaken = self.is_overtaken
            self.next_scan = time.monotonic() + AFTER_ALL
            self.build(self.session, Session.scan)
        except Ended as ended:
            self.give_up(str(ended))

    def end_session(self) -> None:
        if self.session:
            self.session.close()
        self.session = None

    def update(self, session: Session, changes: Changes) -> Optional[Failed]:
        """Gives the session what was saved: file by file if lines can take it, and by a scan if not."""
        if session.scanned and not changes.unclear and len(changes.paths) <= MOST_PUTS:
            try:
                self.put(session, changes.paths)
                self.next_scan = time.monotonic() + AFTER_SAVES
                return None
            except LeftToScan:
                pass
        self.next_scan = time.monotonic() + AFTER_ALL
        return session.scan()

    def put(self, session: Session, paths: set[str]) -> None:
        """Puts files, and deletes those that have gone, these first: one may make room for a folder of its name."""
        if not all(can_be_told(path) for path in paths):
            raise LeftToScan
        gone = {path for path in paths if read_source(self.folder, path) is None}
        for path in sorted(gone):
            session.delete(path)
        for path in sorted(paths - gone):
            data = read_source(self.folder, path)
            if data is None:
                session.delete(path)
            else:
                session.put(path, data)

    # ---- a build

    def build(self, session: Session, update: Callable[[Session], Optional[Failed]], moment: Optional[int] = None) -> None:
        """Brings the session up to date, builds, and says what came of it."""
        failed = update(session)
        if failed:
            self.tell(False, self.explain(failed))
            return
        self.moment = moment or int(time.time())
        # A build makes `_site` if it is not there, but puts no other in its place: that somebody else has done.
        before = mark(self.folder, OUTPUT)
        self.status.begin()
        try:
            outcome = session.build(self.moment)
        finally:
            self.status.done()
            self.output = before or mark(self.folder, OUTPUT)
        if isinstance(outcome, Failed):
            self.tell(bool(outcome.marked), self.explain(outcome))
        else:
            self.note_names(outcome)
            # Another `baseurl` may change where links lead, and no page.
            asks = self.asks_for_links and (outcome.written + outcome.removed > 0 or CONFIG in self.saved)
            self.tell_built(outcome)
            if asks:
                self.look_for_links(session)

    def note_names(self, built: Built) -> None:
        """Notes what has to be in `_site` from now on: also what has gone, if the build has not removed as much.

        What is not there after the next build either is no longer part of the site.
        """
        names = names_in(self.folder / OUTPUT)
        gone = self.names - names
        if len(gone) <= built.removed or gone == self.gone:
            gone = set()
        self.names, self.gone = names | gone, gone

    def loss(self) -> str:
        """What another program has taken away from `_site`, if anything."""
        if mark(self.folder, OUTPUT) != self.output:
            return "_site was removed or replaced by another program"
        if self.names - names_in(self.folder / OUTPUT):
            return "files in _site were removed by another program"
        return ""

    def tell_built(self, built: Built) -> None:
        changed = built.written + built.removed > 0
        if changed or built.whys or self.saved:
            self.last, self.edited, self.saved = built, self.saved, set()
        mended = self.status.fault is not None and self.status.fault != self.style_fault
        if changed or mended or self.status.count == 0:
            say(f"built: {built.written} written, {built.removed} removed")
        # It was said when the styles were made.
        self.status.end(changed, self.style_fault)

    def look_for_links(self, session: Session) -> None:
        """Asks for the links that lead nowhere, and says what is new of them. They are no fault."""
        try:
            found = session.links()
        except KnowsNoLinks as old:
            self.asks_for_links = False
            self.begin_again(str(old))
            return
        before, self.broken = self.broken, Counter(found)
        if before is None and found:
            say(counted(len(found)))
        for line in news(self.folder, before or Counter(), self.broken):
            say(line)

    def explain(self, failed: Failed) -> Fault:
        return explain(self.program, self.folder, self.options, failed)

    def tell(self, changed: bool, fault: Optional[Fault]) -> None:
        """Tells those who are served, and says a fault: after each save, as long as it is there."""
        if fault and not (fault == self.status.fault and (self.making_sure or fault == ANOTHER_RUN)):
            say(fault.told())
            if fault.text:
                say(f"    {shown(fault.text.strip())}")
        self.status.end(changed, fault)
