"""`site WORD ..`: runs the module of that word. usage: main.py PROGRAM [WORD ..]"""
import sys

# Before anything is imported that an older version cannot read.
if sys.version_info < (3, 9):
    sys.exit("site: python3 is version %d.%d here; 3.9 or later is needed" % sys.version_info[:2])

import signal

# Ctrl-C while modules are read ends this without a word, as it ends any program.
IS_INTERRUPTED = signal.getsignal(signal.SIGINT) is signal.default_int_handler
if IS_INTERRUPTED:
    signal.signal(signal.SIGINT, signal.SIG_DFL)

import importlib
import io
import os
from typing import cast

import words


def run(program: str, arguments: list[str]) -> int:
    """Runs one word; the status to end with."""
    word = arguments[0] if arguments else ""
    if word in ("", "help", "-h", "--help"):
        print(words.listing())
        return 0 if word else 2
    if word in ("version", "-V", "--version"):
        print("\n".join(importlib.import_module("version").lines(program)))
        return 0
    if word not in words.WORDS:
        raise words.Refused(f"there is no word {words.shown(word)}; `site --help` lists them", 2)
    if not words.is_here(word):
        raise words.Refused(f"the part {word}.py is missing; run `bash install` again in a clone of sitebuild")
    status: int = importlib.import_module(word).main(arguments[1:], program)
    return status


def program_place(program: str) -> str:
    """Where the program is, whatever folder it is run in."""
    try:
        return os.path.abspath(program)
    except FileNotFoundError:
        raise words.Refused("the current folder is not there any more; go to another one first") from None


def open_missing_streams() -> None:
    """What is started without standard streams gets ones that lead nowhere: otherwise a file that is opened would be one of them."""
    for number, name in enumerate(("stdin", "stdout", "stderr")):
        try:
            os.fstat(number)
        except OSError:
            # The lowest number that is free.
            os.set_inheritable(os.open(os.devnull, os.O_RDWR), True)
            setattr(sys, name, open(number, "r" if number == 0 else "w", encoding="utf-8", closefd=False))


def main() -> int:
    open_missing_streams()
    for stream in (sys.stdout, sys.stderr):
        cast(io.TextIOWrapper, stream).reconfigure(errors="backslashreplace", line_buffering=True)
    try:
        if IS_INTERRUPTED:
            signal.signal(signal.SIGINT, signal.default_int_handler)
        return run(program_place(sys.argv[1]), sys.argv[2:])
    except words.Refused as refused:
        print(f"site: {refused}", file=sys.stderr)
        return refused.status
    except KeyboardInterrupt:
        return 130
    except BrokenPipeError:
        words.say_no_more()
        return 1


if __name__ == "__main__":
    sys.exit(main())
