"""Runs rows through the program, side by side. usage: main.py PROGRAM [--self] [NAME..]"""
import os
import shutil
import sys
import tempfile
from concurrent.futures import ThreadPoolExecutor

from compare import difference, is_as_stated
from kinds import answers, group_rows
from program import read_files
from rows import read_rows
from self_test import damages_found, no_rows_found

TESTS = os.path.dirname(os.path.dirname(os.path.abspath(__file__)))
SAMPLE = os.path.join(TESTS, "liquid", "site")
GROUP = 24


def row_files(folder):
    """The files of rows below a folder: this README.md and those that end with .txt, but none of the sample site."""
    for within, folders, names in os.walk(folder):
        folders.sort()
        if os.path.join(os.path.abspath(within), "").startswith(os.path.join(SAMPLE, "")):
            continue
        for name in sorted(names):
            if name.endswith((".txt", "README.md")):
                yield os.path.join(within, name)


def named_rows(name):
    """The rows that a name stands for."""
    path, sign, line = name.rpartition(":")
    if sign and line.isdigit() and not os.path.exists(name):
        rows = [row for row in read_rows(path) if row.line <= int(line)]
        if not rows:
            raise OSError(f"{name}: no row stands there")
        return rows[-1:]
    if os.path.isdir(name):
        return [row for path in row_files(name) for row in read_rows(path)]
    return read_rows(name)


def run_group(group, program, folder):
    try:
        return list(answers(group, program, folder))
    finally:
        shutil.rmtree(folder, ignore_errors=True)


def run_rows(rows, program):
    """Each row with what the program answered, in order, as it is done; but first those that cannot be read."""
    for row in rows:
        if row.wrong:
            yield row, row.wrong
    groups = group_rows(rows, read_files(SAMPLE), GROUP)
    work = tempfile.mkdtemp(prefix="sitebuild-tests-")
    try:
        with ThreadPoolExecutor(os.cpu_count()) as pool:
            folders = [os.path.join(work, str(place)) for place in range(len(groups))]
            for done in pool.map(run_group, groups, [program] * len(groups), folders):
                yield from done
    finally:
        shutil.rmtree(work, ignore_errors=True)


def main(program, names):
    if not os.access(program, os.X_OK):
        raise SystemExit(f"sitebuild: no program stands at {program}")
    is_self = "--self" in names
    names = [name for name in names if name != "--self"]
    rows = []
    try:
        for name in names or [TESTS]:
            rows += named_rows(os.path.relpath(name))
    except OSError as failure:
        raise SystemExit(f"sitebuild: {failure}") from failure
    passed, failed = [], 0
    for row, answer in run_rows(rows, os.path.abspath(program)):
        if is_as_stated(row, answer):
            passed.append((row, answer))
        else:
            failed += 1
            print("\n".join(difference(row, answer)), flush=True)
    found = True
    if is_self:
        lines, found = damages_found(passed)
        missed = no_rows_found()
        lines += [f"no row, and read as one or told at another line: {name}" for name in missed]
        found = found and not missed
        print("\n".join(lines))
    print(f"{len(passed)} passed, {failed} failed")
    return 0 if passed and not failed and found else 1


if __name__ == "__main__":
    if len(sys.argv) < 2:
        raise SystemExit(__doc__)
    sys.exit(main(sys.argv[1], sys.argv[2:]))
