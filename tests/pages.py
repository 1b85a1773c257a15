#!/usr/bin/env python3
"""Holds the pages for callers against what they describe: links and anchors, the worked example and the refusals of docs/FORMATS.md.

    tests/pages.py

The example's bytes are those that tests/formats.py puts together, and its listing is the other planner's, which must be built.
"""
import pathlib
import re
import sys

import other_planner
from formats import EUROPE, Map, order, sheet

TOP = pathlib.Path(__file__).resolve().parent.parent
PAGES = [TOP / "README.md", TOP / "CHANGELOG.md", *sorted(TOP.glob("docs/**/*.md")), *sorted(TOP.glob("tests/**/README.md"))]
FORMATS = TOP / "docs" / "FORMATS.md"
LINK = re.compile(r"\[[^\]]*\]\(([^)\s]+)\)")
BYTES_ROW = re.compile(r"^\| (\d+) \| `((?:[0-9a-f]{2} ?)+)` \|", re.MULTILINE)
REFUSAL_ROW = re.compile(r"^\| (\d+) \| `(TRUNK_\w+)` \| `(\w+)` \|", re.MULTILINE)
HEADER_NUMBER = re.compile(r"^    (TRUNK_\w+) = (\d+),?$", re.MULTILINE)


def anchors(page):
    """The anchors of a page's headings, as they are made of their text."""
    headings = re.findall(r"^#+ (.*)$", page.read_text(), re.MULTILINE)
    return {re.sub(r"[^\w -]", "", heading.lower()).replace(" ", "-") for heading in headings}


def check_links(page):
    text = re.sub(r"^```.*?^```", "", page.read_text(), flags=re.MULTILINE | re.DOTALL)
    for link in LINK.findall(text):
        path, _, anchor = link.partition("#")
        target = (page.parent / path).resolve() if path else page
        if not target.exists() or (anchor and anchor not in anchors(target)):
            sys.exit("%s has a link that leads nowhere: %s" % (page.relative_to(TOP), link))


def shown_bytes(example):
    """The bytes that the example's tables show, one run for each table: an offset of 0 begins one."""
    shown = []
    for offset, row in BYTES_ROW.findall(example):
        if offset == "0":
            shown.append(b"")
        if int(offset) != len(shown[-1]):
            sys.exit("docs/FORMATS.md: the row at %s does not follow the one before" % offset)
        shown[-1] += bytes.fromhex(row)
    return shown


def check_example(page):
    example = page.split("## A worked example\n")[1]
    trunk = Map([[1, 0, 0, 1], [0, 0, 1, 1]], [[1, 2, 1000, 80, 0]], b"AB").bytes()
    trip = order([1, 2, 0, 100] + EUROPE[4:])
    plan = sheet([[1, 1, 45]], arrival=45, spell=45, shift=45, labels=2)
    if shown_bytes(example) != [trunk, trip, plan]:
        sys.exit("docs/FORMATS.md: the worked example has other bytes than its map, order and sheet")
    [listing] = other_planner.listings([(trunk, trip)])
    if listing not in example:
        sys.exit("docs/FORMATS.md: the worked example has another listing than the other planner's:\n" + listing)


def check_refusals(page):
    numbers = (TOP / "include" / "trunk.h").read_text().split("enum trunk_number {")[1].split("};")[0]
    in_header = [(number, name) for name, number in HEADER_NUMBER.findall(numbers) if number != "0"]
    rows = REFUSAL_ROW.findall(page)
    if [(number, name) for number, name, _ in rows] != in_header:
        sys.exit("docs/FORMATS.md: the refusals are not those of include/trunk.h")
    for _, name, variant in rows:
        if name != "TRUNK" + re.sub("([A-Z])", r"_\1", variant).upper():
            sys.exit("docs/FORMATS.md: %s and %s are not one name" % (name, variant))


def main():
    for page in PAGES:
        check_links(page)
    page = FORMATS.read_text()
    check_example(page)
    check_refusals(page)
    print("%d pages: links, worked example and refusals as they should be" % len(PAGES))


main()
