#!/usr/bin/env python3
"""Brings the repository's own names in antt to snake case: definitions, lemmas, fields and constructors, wherever they are
named: in crates/ (specs/, proofs/, the clauses and comments of src/, must-fail edits) and in the pages.

    tools/snake_names.py           rewrite the files
    tools/snake_names.py --list    print each name and its new spelling, and what falls together

Types and modules, which begin with a capital, stay, and so do names that a library or Rattle makes. It is run once, on
what /opt/rattle/port/port.py wrote.
"""
import collections
import pathlib
import re
import sys

TOP = pathlib.Path(__file__).resolve().parent.parent
CRATES = TOP / "crates"
# a name ends at these; a dot parts a path
BREAK = r"\s(){}\[\],;.\"«»`"
NAME = re.compile(r"[^%s]+" % BREAK)
HEAD = re.compile(r"^\s*(?:(?:abbrev|unfoldable|pub|infix[lr]? \d+) )*([^%s:]+(?: [^%s:]+)*) :(?= |$)" % (BREAK, BREAK), re.MULTILINE)
# what would fall together with another name: a definition keeps the plain name, and a lemma gets `_lem`
APART = {
    "second-part": "second_part_lem",
    "start-in": "start_in_lem",
    "word-bytes": "word_bytes_lem",
    "is-some": "is_some_lem",
    "put-heading": "put_heading_lem",
    "put-row": "put_row_lem",
    "leaves-road": "leaves_road_lem",
    "road-word": "road_word_lem",
    "order-length": "order_length_lem",
    "own-clock": "own_clock_lem",
    "rows_back": "rows_back_lem",
    "at_target": "at_target_lem",
}


def snake(name):
    primes = ""
    while name.endswith("'"):
        name, primes = name[:-1], primes + "'"
    name = re.sub(r"(?<=[a-z0-9])([A-Z])", lambda m: "_" + m.group(1).lower(), name)
    return name.replace("-", "_") + primes


def turns(name):
    """A name of words that has a dash between them, or a capital inside."""
    if not re.fullmatch(r"[a-z][A-Za-z0-9_-]*'*", name):
        return False
    return "-" in name or re.search(r"[a-z0-9][A-Z]", name) is not None


def declared():
    """Every name that a file of specs/ or a file of lemmas declares, and those of proof files that go by `pub`."""
    names = collections.Counter()
    for path in sorted(CRATES.glob("*/specs/*.antt")) + sorted(CRATES.glob("*/proofs/**/*.antt")):
        for heads in HEAD.findall(path.read_text()):
            for name in heads.split():
                if turns(name) and not made(path, name):
                    names[name] += 1
    return names


def made(path, name):
    """Names that Rattle asks for, in the folder of a function's proof."""
    folder = path.parent.name
    if folder in ("specs", "proofs"):
        return False
    return (
        name.startswith(("loop-", "invariant-", "decreases-", "ghost-"))
        or path.name in ("Answers.antt", "Invariants.antt")
    )


def spelling():
    names = {name: snake(name) for name in declared()}
    told = {new for old, new in names.items() if "-" not in old}
    names |= {old: new + "_lem" for old, new in names.items() if "-" in old and new in told}
    names |= APART
    for path in CRATES.glob("*/proofs/*/Proof.antt"):
        # the proof of a function f, which was f-spec, is f_spec
        function = path.parent.name
        names[function.replace("_", "-") + "-spec"] = function + "_spec"
    return names


def files():
    for path in sorted(CRATES.glob("*/**/*")):
        if path.suffix in (".antt", ".rt", ".edit") and "out" not in path.relative_to(CRATES).parts:
            yield path
    for path in sorted(TOP.glob("*.md")) + sorted(TOP.glob("docs/**/*.md")):
        yield path


STRING = re.compile(r'"(?:[^"\\\n]|\\.)*"')


def turned(text, names, path):
    def one(found):
        word = found.group()
        return names.get(word, word)

    if path.suffix == ".md":
        # only in code spans
        return re.sub(r"`[^`\n]+`", lambda span: NAME.sub(one, span.group()), text)
    if path.suffix != ".rt":
        return NAME.sub(one, text)
    parts, last = [], 0
    for said in STRING.finditer(text):
        parts += [NAME.sub(one, text[last : said.start()]), said.group()]
        last = said.end()
    return "".join(parts + [NAME.sub(one, text[last:])])


def main():
    names = spelling()
    if sys.argv[1:] == ["--list"]:
        used = collections.defaultdict(set)
        for path in files():
            if path.suffix == ".md":
                continue
            for word in NAME.findall(path.read_text()):
                used[word].add(str(path.relative_to(CRATES)))
        together = collections.defaultdict(list)
        for old, new in sorted(names.items()):
            together[new].append(old)
        for new, olds in sorted(together.items()):
            if len(olds) > 1 or new in used:
                print("together", new, olds, sorted(used.get(new, ()))[:4], len(used.get(new, ())))
        print(len(names), "names")
        return
    for path in files():
        text = path.read_text()
        new = turned(text, names, path)
        if new != text:
            path.write_text(new)


main()
