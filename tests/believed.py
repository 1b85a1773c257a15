#!/usr/bin/env python3
"""Lists the definitions that a reader must believe: every file of specs/ that the demands and the library's calls rest on.

    tests/believed.py           write the table into docs/TRUST.md
    tests/believed.py --check   fail where docs/TRUST.md has another table

Both fail where a definition, or the statement of a theorem, leans on a file of proofs/.
"""
import pathlib
import re
import sys

TOP = pathlib.Path(__file__).resolve().parent.parent
PAGE = TOP / "docs" / "TRUST.md"
BEGIN, END = "<!-- believed: written by tests/believed.py -->\n", "<!-- end of believed -->\n"
THEOREMS = TOP / "crates/demands/proofs/Demands.antt"
STATEMENTS = [THEOREMS, TOP / "crates/trunk/specs/Calls.antt"]
IMPORT = re.compile(r"^use Rattle\.(?!std\.|core\.)(\w+)\.(specs|proofs)\.([\w.-]+?)(?:\.\{(.*)\}|\s.*)?$", re.MULTILINE)
SECTION = re.compile(r"^ *module _ .*?\bwhere$", re.MULTILINE | re.DOTALL)
STATEMENT = re.compile(r"^( *)pub (\S+) : .*?(?=^\1(?:unfolding|\2) )", re.MULTILINE | re.DOTALL)


def imports(file):
    """The files of specs/ that a file imports from; types that code declares have none."""
    for crate, folder, module, _ in IMPORT.findall(file.read_text()):
        if folder == "proofs" and file != THEOREMS:
            sys.exit("%s rests on proofs/ of %s: a definition may not" % (file.relative_to(TOP), crate))
        if folder == "specs" and not module.startswith("declared"):
            yield TOP / "crates" / crate / "specs" / (module + ".antt")


def check_theorems():
    """A theorem's proof may cite anything, its statement and its section's assumptions only definitions."""
    text = THEOREMS.read_text()
    laws = {law.strip() for _, folder, _, names in IMPORT.findall(text) if folder == "proofs" for law in names.split(",")}
    for said in [*SECTION.finditer(text), *STATEMENT.finditer(text)]:
        cited = laws.intersection(re.findall(r"[^\s(){},]+", said.group()))
        if cited:
            sys.exit("%s: a statement rests on %s of proofs/" % (THEOREMS.relative_to(TOP), ", ".join(sorted(cited))))


def believed():
    """The statements and all that they rest on, by path."""
    waiting, met = list(STATEMENTS), set(STATEMENTS)
    while waiting:
        for file in imports(waiting.pop()):
            if file not in met:
                met.add(file)
                waiting.append(file)
    return sorted(met)


def says(text):
    """The comment at the head of a file, without its last sentence, which says that nothing is assumed."""
    comment = []
    for line in text.splitlines():
        if not line.startswith("--"):
            break
        comment.append(line[2:].strip())
    return " ".join(" ".join(comment).replace("Assumes nothing.", "").split())


def table():
    rows, total = [], 0
    for file in believed():
        text = file.read_text()
        lines = len(text.splitlines())
        total += lines
        path = file.relative_to(TOP)
        rows.append("| [%s](../%s) | %d | %s |\n" % (path.relative_to("crates"), path, lines, says(text)))
    head = "%d files, %d lines with comments and imports:\n\n| File | Lines | What it says |\n|---|--:|---|\n" % (len(rows), total)
    return head + "".join(rows)


def main():
    check_theorems()
    page = PAGE.read_text()
    before, rest = page.split(BEGIN)
    wanted = before + BEGIN + table() + END + rest.split(END)[1]
    if sys.argv[1:] == ["--check"]:
        if page != wanted:
            sys.exit("docs/TRUST.md has another list of definitions: run tests/believed.py")
        return
    PAGE.write_text(wanted)


main()
