"""Asks the other planner, tests/other, which is written from documents 01 and 02 alone and shares nothing with the proved code."""
import pathlib
import subprocess
import sys

from formats import words

BUILT = pathlib.Path(__file__).resolve().parent / "other" / "target" / "release" / "other"
BUILD = "cargo build --release --offline --manifest-path tests/other/Cargo.toml --target-dir tests/other/target"


def ask(command, given):
    """What `other COMMAND` prints where `given` is its standard input."""
    if not BUILT.is_file():
        sys.exit("%s is not there: build it with `%s`" % (BUILT, BUILD))
    done = subprocess.run([BUILT, command], input=given, stdout=subprocess.PIPE)
    if done.returncode != 0:
        sys.exit("the other planner failed: `other %s` ended with status %d" % (command, done.returncode))
    return done.stdout.decode()


def trials(cases):
    """Its line for each of the worked cases, which are given as the program `trials` reads them."""
    return ask("trials", cases).split("\n")[:-1]


def listings(trips):
    """What the program `plan` must print for each map and order; no listing has an empty line."""
    given = b"".join(words(len(trunk), len(order)) + trunk + order for trunk, order in trips)
    return [listing + "\n" for listing in ask("listings", given).split("\n\n")[:-1]]
