#!/usr/bin/env python3
"""Sees that each wrong planner that document 01 names has its edit: the table of docs/TRUST.md names them, and the edits are there.

    tests/wrong_planners.py

Document 01, "What contracts owe": "These planners fail it". Whether the prover refuses an edit is `rt must-fail`'s to see.
"""
import pathlib
import re
import sys

TOP = pathlib.Path(__file__).resolve().parent.parent
PAGE = TOP / "docs" / "TRUST.md"
PLANNERS = [
    "one that cries \"full\" before looking",
    "one that reports an invented N",
    "one that always says \"no road\"",
    "one that finds every sheet short",
    "one that issues the same sheet daily",
    "one that leaves the sheet unwritten",
]
ROW = re.compile(r"^\| (.+?) \| \[.+?\]\(\.\./(crates/\w+/must-fail/\w+\.edit)\) \|", re.MULTILINE)


def main():
    edits = dict(ROW.findall(PAGE.read_text()))
    for planner in PLANNERS:
        if planner not in edits:
            sys.exit("docs/TRUST.md has no edit for this planner of document 01: %s" % planner)
        if not (TOP / edits[planner]).is_file():
            sys.exit("docs/TRUST.md names %s, which is not there: %s" % (edits[planner], planner))
    print("%d wrong planners of document 01, each with its edit" % len(PLANNERS))


main()
