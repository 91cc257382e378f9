#!/usr/bin/env python3
"""Compares the rows of templates below tests/ with what Jekyll and Ruby's Liquid make of them. README.md says what is compared."""
import json
import os
import subprocess
import sys
import tempfile

HERE = os.path.dirname(os.path.abspath(__file__))
TESTS = os.path.join(HERE, "..", "..", "tests")
sys.path.insert(0, os.path.join(TESTS, "runner"))

from main import SAMPLE, named_rows
from program import write_file


def asked_rows(names):
    """The rows that Ruby is asked for, by their site."""
    sites = {}
    for name in names:
        for row in named_rows(os.path.relpath(name)):
            if row.wrong:
                raise SystemExit(f"{row.place}: {row.wrong}")
            if row.kind == "liquid" and "unasked" not in row.words:
                sites.setdefault(id(row.site), []).append(row)
    return list(sites.values())


def ruby_answers(rows):
    """What Ruby makes of rows of one site: a text, or its error."""
    lines = [json.dumps({"t": row.text.decode(), "page": row.words.get("page", "p.html")}) for row in rows]
    with tempfile.TemporaryDirectory() as work:
        site = SAMPLE
        if rows[0].site is not None:
            site = os.path.join(work, "site")
            for name, data in {b"p.html": b"---\n---\n", **rows[0].site}.items():
                write_file(site, name, data)
        words = ["ruby", os.path.join(HERE, "oracle.rb"), site, os.path.join(work, "output")]
        done = subprocess.run(words, input="\n".join(lines) + "\n", capture_output=True, text=True, check=False)
    answers = [json.loads(line) for line in done.stdout.splitlines()]
    if len(answers) != len(rows):
        raise SystemExit(f"{rows[0].place}: Ruby answered {len(answers)} of {len(rows)} rows: {done.stderr[:2000]}")
    return answers


def main(names):
    same = count = 0
    for rows in asked_rows(names or [TESTS]):
        for row, answer in zip(rows, ruby_answers(rows)):
            (sort, wanted), = row.expected[0].items()
            agrees = "e" in answer if sort == "fault" else answer.get("o") == wanted.decode()
            count += 1
            same += agrees
            if agrees and "differs" in row.words:
                print(f"{row.place}: Ruby agrees now")
            if not agrees and "differs" not in row.words:
                print(f"{row.place}:\n   the row {wanted.decode()[:300]!r}\n   Ruby    {(answer.get('o') or answer.get('e', ''))[:300]!r}")
    print(f"{same} of {count} rows are what Ruby makes of them")


if __name__ == "__main__":
    main(sys.argv[1:])
