#!/usr/bin/env python3
"""Finds the words that CONTRIBUTING.md lists as not used any more.

    tests/words.py                 how many each document has, and the comments of each crate
    tests/words.py README.md ..    each of them in these documents, with its line and what to write instead
    tests/words.py --since REF     each of them in the lines that were added since this commit, in documents and in comments

`tests/names` finds them in the documents that are free of them: CLEAN below. A document that has become free of them goes there.
What is between backticks or quotation marks, in a block of code or in an indented line isn't looked at, since a program may print such
a word; nor are headings.
"""
import collections
import pathlib
import re
import subprocess
import sys

ROOT = pathlib.Path(__file__).resolve().parent.parent
CLEAN = (
    "README.md", "CONTRIBUTING.md", "docs/ARCHITECTURE.md", "docs/BENCHMARKS.md", "docs/COSTS.md", "docs/DECISIONS.md", "docs/DEFINITIONS.md",
    "docs/FORMATS.md", "docs/GLOSSARY.md", "docs/KV.md", "docs/PROMISES.md", "docs/REFERENCE.md", "docs/SPECIFICATIONS.md"
)
DOCUMENTS = ("README.md", "CONTRIBUTING.md", *sorted(f"docs/{path.name}" for path in (ROOT / "docs").glob("*.md")))
HEADING = "| not | but | except |"


def phrase(text):
    """Returns a pattern for a phrase, in any case unless it has a capital."""
    return re.compile(rf"\b{re.escape(text)}\b", 0 if text != text.lower() else re.I)


class Rule:
    """Words that aren't used, what to write instead, and phrases in which they are right."""

    def __init__(self, cells):
        spelled = [re.findall(r'"([^"]+)"', cell) for cell in cells]
        self.words, self.instead = [phrase(it) for it in spelled[0]], cells[1]
        self.allowed = [phrase(it) for it in spelled[2]]

    def found(self, text):
        """Yields each place of the text where such a word isn't part of an allowed phrase."""
        allowed = [range(*it.span()) for pattern in self.allowed for it in pattern.finditer(text)]
        for pattern in self.words:
            for it in pattern.finditer(text):
                if not any(it.start() in span for span in allowed):
                    yield it.group()


def rules():
    """Returns the rules of the table in CONTRIBUTING.md."""
    _, _, table = (ROOT / "CONTRIBUTING.md").read_text(encoding="utf-8").partition(HEADING)
    rows = []
    for line in table.splitlines()[2:]:
        if not line.startswith("|"):
            break
        rows.append(Rule([cell.strip() for cell in line.strip("|").split("|")]))
    return rows


def unquoted(line):
    return re.sub(r'`[^`]*`|"[^"]*"', "`", line)


def prose(lines):
    """Yields each line that is prose, with its number, without what it quotes."""
    is_code = False
    for number, line in enumerate(lines, 1):
        if line.startswith("```"):
            is_code = not is_code
        elif not is_code and not line.startswith(("    ", "#")):
            yield number, unquoted(line)


def comments(lines):
    """Yields each comment of a source, with its number, without what it quotes."""
    for number, line in enumerate(lines, 1):
        if found := re.match(r"\s*(?://[/!]?|--) (.*)", line):
            yield number, unquoted(found[1])


def read(path, reader):
    return reader((ROOT / path).read_text(encoding="utf-8").splitlines())


def hits(table, lines):
    """Yields the number of a line, a word in it, and what to write instead."""
    for number, line in lines:
        for rule in table:
            for word in rule.found(line):
                yield number, word, rule.instead


def unused_words(documents=CLEAN):
    """Yields the words that aren't used any more, in these documents."""
    table = rules()
    for document in documents:
        for number, word, instead in hits(table, read(document, prose)):
            yield f"{document}:{number}: {word}: write {instead}"


def added(ref):
    """Yields path, number and text of each line that was added since a commit."""
    diff = subprocess.run(["git", "diff", "-U0", ref, "--"], cwd=ROOT, capture_output=True, text=True, check=True).stdout
    path, number = "", 0
    for line in diff.splitlines():
        if line.startswith("+++ "):
            path = line[6:]
        elif found := re.match(r"@@ -\S+ \+(\d+)", line):
            number = int(found[1])
        elif line.startswith("+"):
            yield path, number, line[1:]
            number += 1


def new_hits(ref):
    """Yields the words in lines that were added since a commit: of documents, and comments of sources."""
    table, of_path = rules(), collections.defaultdict(set)
    for path, number, _ in added(ref):
        of_path[path].add(number)
    for path, numbers in of_path.items():
        reader = prose if path.endswith(".md") else comments if path.endswith((".rt", ".antt")) else None
        for number, word, instead in hits(table, read(path, reader)) if reader else ():
            if number in numbers:
                yield f"{path}:{number}: {word}: write {instead}"


def count(table, paths, reader):
    return sum(1 for path in paths for _ in hits(table, read(path, reader)))


def print_counts():
    table = rules()
    for document in DOCUMENTS:
        print(f"{count(table, [document], prose):6} {document}{' (checked by tests/names)' if document in CLEAN else ''}")
    crates = collections.Counter()
    for path in (ROOT / "crates").glob("*/*/**/*"):
        if path.suffix in (".rt", ".antt") and "out" not in path.parts:
            crates[path.relative_to(ROOT / "crates").parts[0]] += count(table, [path], comments)
    for crate, found in crates.most_common():
        print(f"{found:6} comments of crates/{crate}")


def main(words):
    if words[:1] in (["-h"], ["--help"]):
        print(__doc__)
    elif words[:1] == ["--since"]:
        print(*new_hits(words[1]), sep="\n")
    elif words:
        print(*unused_words(words), sep="\n")
    else:
        print_counts()


if __name__ == "__main__":
    main(sys.argv[1:])
