"""Whether docs/DECISIONS.md names each function of the program that calls itself: what calls what is read out of the program's own machine code."""
from __future__ import annotations

import re
import shutil
import subprocess
from pathlib import Path
from typing import Iterator, NamedTuple

from playing import ROOT
from room import PassedOver, Room, case

DECISIONS = ROOT / "docs/DECISIONS.md"
HEADING = "## Recursion and its bounds"
FUNCTION = re.compile(r"[0-9a-f]+ <(.+)>:\n")
# A call, or a jump to where another function begins; what lies behind a plus sign is within a function.
CALL = re.compile(r"\s*[0-9a-f]+:\s+(call|j\w+)\s+[0-9a-f]+ <(.+?)(\+0x[0-9a-f]+)?>\n")
# A call of what a register or a place in memory holds, but for a function of the C library.
BLIND = re.compile(r"\s*[0-9a-f]+:\s+call\s+\*(?!.*@)")
IN_CYCLE = re.compile(r"#\[cycle\((\w+)\)\]\s*(?:pub(?:\(crate\))? )?fn (\w+)")


class Called(NamedTuple):
    """A function: the crate that has it, and its name there."""

    crate: str
    name: str


def called(symbol: str) -> Called:
    """The function of a symbol, as `liquid_eval::evaluating::run_nodes::<#hash>`, or `site_world::site_base++value++Value+Destruct::drop`."""
    parts = [part for part in symbol.split("::") if not part.startswith("<#")]
    owner = parts[1].split("++")[0] if len(parts) > 1 and "++" in parts[1] else parts[0]
    return Called(owner, parts[-1])


def calls_of(program: Path) -> tuple[dict[str, set[str]], set[str]]:
    """What each function calls, and those that make a blind call."""
    if not shutil.which("objdump"):
        raise PassedOver("it needs objdump")
    lines = subprocess.run(["objdump", "-d", "--no-show-raw-insn", program], stdout=subprocess.PIPE, text=True, check=True).stdout
    calls: dict[str, set[str]] = {}
    blind: set[str] = set()
    here = ""
    for line in lines.splitlines(keepends=True):
        if function := FUNCTION.fullmatch(line):
            here = function[1]
            calls.setdefault(here, set())
        elif call := CALL.fullmatch(line):
            if call[1] == "call" or (call[2] != here and not call[3]):
                calls[here].add(call[2])
        elif BLIND.match(line):
            blind.add(here)
    return calls, blind


def cycles(calls: dict[str, set[str]]) -> Iterator[list[str]]:
    """The functions that call themselves, alone or by one another: the strong components of the graph, by Tarjan's algorithm with a list for a stack."""
    order: dict[str, int] = {}
    least: dict[str, int] = {}
    open_ones: list[str] = []
    for start in calls:
        work = [] if start in order else [(start, iter(calls[start]))]
        while work:
            here, rest = work[-1]
            if here not in order:
                order[here] = least[here] = len(order)
                open_ones.append(here)
            for callee in rest:
                if callee not in calls:
                    continue
                if callee not in order:
                    work.append((callee, iter(calls[callee])))
                    break
                if callee in least:
                    least[here] = min(least[here], least[callee])
            else:
                work.pop()
                if work:
                    least[work[-1][0]] = min(least[work[-1][0]], least[here])
                if least[here] == order[here]:
                    component = open_ones[open_ones.index(here) :]
                    del open_ones[-len(component) :]
                    for one in component:
                        del least[one]
                    if len(component) > 1 or here in calls[here]:
                        yield component


def named() -> set[Called]:
    """The functions that the tables name: by their names, or as those of a cycle of a crate."""
    part = DECISIONS.read_text().split(HEADING)[1].split("\n## ")[0]
    found = set()
    for row in (line.strip("|").split(" | ") for line in part.splitlines() if line.startswith("| ")):
        what, where = row[0], row[1]
        for crate in (place.split("/")[0] for place in re.findall(r"`([^`]+)`", where)):
            found |= {Called(crate, name) for name in re.findall(r"`(\w+)`", what)}
            sources = "".join(path.read_text() for path in (ROOT / "crates" / crate / "src").rglob("*.rt"))
            of_cycles = re.findall(r"\(cycle `(\w+)`\)", what)
            found |= {Called(crate, name) for cycle, name in IN_CYCLE.findall(sources) if cycle in of_cycles}
    return found


@case("recursion: docs/DECISIONS.md names each function that calls itself, and no call is blind", 60)
def functions_that_call_themselves(room: Room) -> None:
    calls, blind = calls_of(room.program)
    found = list(cycles(calls))
    if not any(called(symbol).crate == "liquid_eval" for cycle in found for symbol in cycle):
        raise PassedOver("this program has no names of its functions")
    tables = named()
    unnamed = [sorted({".".join(called(symbol)) for symbol in cycle}) for cycle in found if not any(called(symbol) in tables for symbol in cycle)]
    room.same("functions that call themselves and have no row", [], sorted(unnamed))
    # The C library's own start and end, which the linker puts there.
    room.same("functions with a call that is not known", [], sorted(blind - {"_init", "_fini", "_start", "__do_global_dtors_aux", "deregister_tm_clones", "register_tm_clones"}))
