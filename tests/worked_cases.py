#!/usr/bin/env python3
"""Writes what the programs `trials` and `plan` read and what they must print.

    tests/worked_cases.py           write the files below crates/trials and crates/plan
    tests/worked_cases.py --check   fail where a stored file differs from what would be written

Both ask the other planner, which must be built, and fail where it does not agree with a case.
"""
import pathlib
import sys

import ban_cases
import case_files
import map_cases
import plan_cases
import sheet_cases
import striking_cases
import trace_cases
from formats import T_LISTING, map_t, order

CRATES = pathlib.Path(__file__).resolve().parent.parent / "crates"
PLAN_FILES = {"plan/data/map": map_t().bytes(), "plan/data/order": order(), "plan/stdout": T_LISTING.encode()}


def main():
    wanted = {CRATES / file: content for file, content in {**case_files.files(), **PLAN_FILES}.items()}
    if sys.argv[1:] == ["--check"]:
        for file, content in wanted.items():
            if not file.is_file() or file.read_bytes() != content:
                sys.exit("%s differs from what tests/worked_cases.py writes" % file)
        return
    for file, content in wanted.items():
        file.parent.mkdir(exist_ok=True)
        file.write_bytes(content)
    print("%d cases" % len(case_files.CASES))


main()
