#!/usr/bin/env python3
"""Runs the program `plan` on maps and orders in folders of their own, and compares what it prints, byte for byte.

    tests/program_runs.py             run target/bin/plan, which `tools/build.sh program` builds
    tests/program_runs.py PROGRAM     run another build of it

The expected text is written by hand from documents 01 and 02, or given by the other planner.
"""
import os
import pathlib
import random
import subprocess
import sys
import tempfile

import other_planner
from formats import EUROPE, EUROPE_SPLIT, T_LISTING, Map, chained, map_t, order
from made_trips import line, practice_map, small_trip

BUILT = pathlib.Path(__file__).resolve().parent.parent / "target" / "bin" / "plan"
FAILING_READS = pathlib.Path(__file__).resolve().with_name("failing_reads.c")
BUILT_READS = BUILT.parent.parent / "failing_reads.so"
MOST_BYTES = 65536
SMALL_TRIPS = 1000
FOLDER = object()  # in place of a file's bytes: a folder stands there, which cannot be read as a file
T = map_t().bytes()
T_LISTING_ON_SUNDAY = """\
drive 1 Lay 97200
break 2 Lay 99900
drive 2 End 107100
arrive 107100 7200 18000 labels 4
"""
RUNS = []
LISTED = []  # the runs whose text the other planner gives


def run(title, expected, trunk=None, orders=None, reads={}):
    """A file that is None is missing. `reads` is what the program finds in its environment."""
    RUNS.append((title, expected, trunk, orders, reads))


def read_run(title, expected, name, steps, trunk=T, orders=order()):
    """The reads of the file of that name go by the steps; -1 is one that fails."""
    run(title, expected, trunk, orders, {"LD_PRELOAD": "./" + BUILT_READS.name, "READ_FILE": name, "READ_STEPS": steps})


def listed_run(title, trunk, orders, asked=None, part=""):
    """The other planner gives the text, which must hold this part. It may be `asked` with another order of the same text."""
    LISTED.append((title, trunk, orders, asked or orders, part))


def practice_run(title, target, near, part, base=EUROPE):
    """The program has a far latest, and the other planner, which lists every reachable state, is asked with a near one.

    What it plans, or finds full, under the near latest is so under the far one too: every move raises the clock, so up
    to the near latest both have the same reachable states, and only states that rank no higher than the answer count.
    """
    listed_run(title, PRACTICE, order(base, w1=target), order(base, w1=target, w3=near), part)


def with_names(length):
    """Map T with as many unused name bytes as make it so long."""
    m = map_t()
    m.names += b" " * (length - len(T))
    return m.bytes()


def bad_road():
    m = map_t()
    m.roads[1][3] = 131
    return m.bytes()


run("map T", T_LISTING, T, order())
run("T on Sunday 2 January 2000: no road is banned", T_LISTING_ON_SUNDAY, T, order(w2=86400, w3=186400))
run("T, latest one second before the arrival", "refused 13 3\n", T, order(w3=20699))

# --- files that are missing, cannot be read or are refused --------------------------------------------
run("no files", "refused 1 0\n")
run("a map without an order", "refused 9 0\n", T)
run("an order without a map", "refused 1 0\n", orders=order())
run("a folder in the map's place", "refused 1 0\n", FOLDER, order())
run("a folder in the order's place", "refused 9 0\n", T, FOLDER)
run("empty files", "refused 1 0\n", b"", b"")
run("a bad road", "refused 6 2\n", bad_road(), order())
run("a broken map comes before a missing order", "refused 4 133\n", T + b"x")
run("an order of 40 bytes", "refused 9 40\n", T, order()[:40])
run("an order of 48 bytes", "refused 9 48\n", T, order()[:48])
run("an order of 61 bytes", "refused 9 61\n", T, order() + b"x")
run("an order of 5,000 bytes", "refused 9 5000\n", T, b"x" * 5000)
run("bad rules", "refused 10 9\n", T, order(w9=0))
run("a lone zero part", "refused 10 11\n", T, order(w10=900))
run("bad trip", "refused 11 0\n", T, order(w0=4))
run("a week limit below the shift limit", "refused 10 12\n", T, order(w12=32399))
run("a weekly rest shorter than the rest", "refused 10 13\n", T, order(w13=39599))
run("a week above its limit", "refused 11 14\n", T, order(w14=201601))

# --- reads that are short or fail ----------------------------------------------------------------------
# One failure makes the file empty, whatever the reads after it say. No file does so when asked; any row of short, failed
# and whole reads can be made, since the program takes `read` from the C library when it starts.
read_run("a map in short reads", T_LISTING, "map", "1 2 3 100")
read_run("an order in short reads", T_LISTING, "order", "59 1")
read_run("a map whose first read fails", "refused 1 0\n", "map", "-1")
read_run("an order whose first read fails", "refused 9 0\n", "order", "-1")
read_run("a map whose second read fails", "refused 1 0\n", "map", "100 -1")
read_run("a map whose every read fails after the first", "refused 1 0\n", "map", "100 -1 -1 -1")
read_run("a map of which map T is read before a failure", "refused 1 0\n", "map", "133 -1", T + b"x")
read_run("an order of which 60 bytes are read before a failure", "refused 9 0\n", "order", "60 -1", orders=order() + b"x")
read_run("a map that fails where its end would be told", "refused 1 0\n", "map", "133 -1")
read_run("a map that fails one byte before it is too big", "refused 1 0\n", "map", "65536 -1", with_names(MOST_BYTES + 1))
read_run("a map that would fail after it is too big", "too big\n", "map", "65537 -1", with_names(MOST_BYTES + 2))

# --- 64 KiB --------------------------------------------------------------------------------------------
run("map and order of 65,536 bytes", T_LISTING, with_names(MOST_BYTES - 60), order())
run("a map one byte longer", "too big\n", with_names(MOST_BYTES - 59), order())
run("an order one byte longer", "too big\n", with_names(MOST_BYTES - 60), order() + b"x")
run("a map of 65,536 bytes alone", "refused 9 0\n", with_names(MOST_BYTES))
run("a map of 65,537 bytes alone", "too big\n", with_names(MOST_BYTES + 1))
run("an order of 65,536 bytes alone", "refused 1 0\n", orders=b"x" * MOST_BYTES)
run("an order of 65,537 bytes alone", "too big\n", orders=b"x" * (MOST_BYTES + 1))
run("a map and an order of 200,000 bytes", "too big\n", b"x" * 200000, b"x" * 200000)

# --- listings ------------------------------------------------------------------------------------------
run("source is target", "arrive 77 5 6 labels 1\n", T, order(w0=2, w1=2, w2=77, w4=5, w5=6))
REST_MAP = chained([("Start", False), ("First park", True), (" ", True), ("x" * 32, False)], [(1, 2, 162000, 36), (2, 3, 162000, 36), (3, 4, 1000, 36)])
REST_LISTING = """\
drive 1 First park 16200
break 2 First park 18900
drive 2   35100
rest 3   74700
drive 3 xxxxxxxxxxxxxxxxxxxxxxxxxxxxxxxx 74800
arrive 74800 100 100 labels 9
"""
run("a rest, names with spaces, a name of 32 bytes", REST_LISTING, REST_MAP.bytes(), order([1, 4] + EUROPE[2:]))
SPLIT_LISTING = """\
drive 1 Lay 10800
first 2 Lay 11700
second 2 Lay 13499
drive 2 End 20699
arrive 20699 7200 18000 labels 6
"""
run("a first and a second part", SPLIT_LISTING, T, order(EUROPE_SPLIT, w11=1799))
WEEKLY_LISTING = """\
drive 1 Lay 10800
weekly 2 Lay 172800
drive 2 End 180000
arrive 180000 7200 7200 labels 6
"""
run("a weekly rest", WEEKLY_LISTING, T, order(w3=180000, w14=190800))
run("a weekly rest that ends too late", "refused 13 5\n", T, order(w3=179999, w14=190800))
run("T with Europe's parts", T_LISTING.replace("labels 4", "labels 6"), T, order(EUROPE_SPLIT))
run("one name for two junctions", "drive 1 Elgstrup 1\narrive 1 1 1 labels 2\n", Map([[1, 0, 0, 8], [0, 0, 0, 8]], [[1, 2, 1, 130, 0]], b"Elgstrup").bytes(), order(w1=2))
LINE_LISTING = "".join("drive %d x %d\n" % (k, k) for k in range(1, 1600)) + "arrive 1599 1599 1599 labels 1600\n"
run("1,600 labels and 1,599 moves", LINE_LISTING, line(1600), order(w1=1600))
run("1,601 labels", "refused 12 1600\n", line(1601), order(w1=1601))
PRACTICE = practice_map(1000)
for target, arrival in ((5, 8271), (17, 26557), (500, 22292), (1000, 19228)):
    practice_run("a practice map of 1,000 junctions, 1 to %d" % target, target, arrival, "arrive %d " % arrival)
for target, arrival in ((5, 8271), (500, 22292)):
    practice_run("a practice map with Europe's parts, 1 to %d" % target, target, arrival, "arrive %d " % arrival, EUROPE_SPLIT)
practice_run("a practice map, exactly 1,600 labels", 297, 28806, "labels 1600\n")
practice_run("a practice map, 2,064 labels", 112, 32085, "refused 12 1600\n")

# --- many small maps, beside the other planner -----------------------------------------------------------
DICE = random.Random(561)
for k in range(SMALL_TRIPS):
    trunk, orders = small_trip(DICE)
    listed_run("small trip %d" % k, trunk, orders)


def listed_runs():
    """The other planner is asked for all of them at once."""
    texts = other_planner.listings([(trunk, asked) for _, trunk, _, asked, _ in LISTED])
    for (title, trunk, orders, _, part), text in zip(LISTED, texts, strict=True):
        if part not in text:
            sys.exit("%s: the other planner lists %s" % (title, text))
        yield title, text, trunk, orders, {}


def lay(folder, name, content):
    if content is FOLDER:
        (folder / name).mkdir()
    elif content is not None:
        (folder / name).write_bytes(content)


def fault(program, expected, trunk, orders, reads):
    """What is wrong with a run, or None."""
    with tempfile.TemporaryDirectory() as name:
        folder = pathlib.Path(name)
        lay(folder, "map", trunk)
        lay(folder, "order", orders)
        if reads:  # by a path with no space or colon, which LD_PRELOAD would take for the end of a name
            (folder / BUILT_READS.name).symlink_to(BUILT_READS)
        done = subprocess.run([program], cwd=folder, stdin=subprocess.DEVNULL, capture_output=True, env={**os.environ, **reads})
    if done.returncode != 0 or done.stderr:
        return "it ended with status %d and said %r" % (done.returncode, done.stderr)
    if done.stdout != expected.encode():
        return "expected %r, printed %r" % (expected.encode(), done.stdout)


def main():
    program = pathlib.Path(sys.argv[1] if len(sys.argv) > 1 else BUILT).resolve()
    if not program.is_file():
        sys.exit("%s is not there: build it with `tools/build.sh program`" % program)
    subprocess.run(["cc", "-O2", "-Wall", "-Wextra", "-shared", "-fPIC", FAILING_READS, "-o", BUILT_READS], check=True)
    runs = RUNS + list(listed_runs())
    faults = 0
    for title, expected, trunk, orders, reads in runs:
        found = fault(program, expected, trunk, orders, reads)
        if found is not None:
            faults += 1
            print("%s: %s" % (title, found[:600]))
    if faults:
        sys.exit("%d of %d runs of the program differ" % (faults, len(runs)))
    print("%d runs of the program print what they must" % len(runs))


main()
