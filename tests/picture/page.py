"""The page that one can play with: what was run, put into the template page.html.

What a choice of survivors gives is on the page only as a run of the program: the page computes nothing of it.
"""
import json
import pathlib
import re

from instants import GEOMETRY, KEY, OPERATIONS, PLACES, READ, ROWS, SLOTS, TABLE

TEMPLATE = pathlib.Path(__file__).resolve().parent / "page.html"

SUPERBLOCK = ("letters", "version", "slots", "places", "window", "words", "unused", "unused")
RECORD = ("number", "counts up to", "reserved below", "gaps, longs")
SLOT = ("begin", "end", "key", "details", "column 1", "column 2", "column 3", "column 4")


def names():
    """Returns the name of each word."""
    gaps = [f"gap {1 + at // 2}, {'last' if at % 2 else 'first'}" for at in range(16)]
    longs = [f"long commit {1 + at}" for at in range(12)]
    return [*SUPERBLOCK, *(PLACES * [*RECORD, *gaps, *longs]), *(SLOTS * SLOT)]


def lines():
    """Returns the name of each line."""
    places = [f"place {place}" for place in range(PLACES) for _ in range(4)]
    return ["superblock", *places, *(f"slot {slot}" for slot in range(SLOTS))]


def text_of(word, value):
    """Returns how the page shows a value of a word."""
    slot, at = divmod(word - GEOMETRY.slot_word(0), 8)
    if word == 0:
        return value.to_bytes(8, "big").decode()
    if slot >= 0 and at == 3 and value:
        older = value >> 32
        return f"{value & 0xFFFF}/{value >> 16 & 0xFF}/{f's{older - 1}' if older else '-'}"
    if slot >= 0 and at > 3 and value:
        return value.to_bytes(8, "little").decode().strip()
    return str(value)


class Values:
    """The values that each word has, in the order in which they are met."""

    def __init__(self, words):
        self.of = [[] for _ in range(words)]

    def index(self, word, value):
        if value not in self.of[word]:
            self.of[word].append(value)
        return self.of[word].index(value)

    def shown(self):
        return [[[str(value), text_of(word, value)] for value in values] for word, values in enumerate(self.of)]


def spelled(operation, named):
    """Returns an operation in words."""
    kind, *numbers = operation
    if kind == "store":
        word, value = numbers
        return f"store {text_of(word, value)} in word {word} ({named[word]}, {lines()[word // 8]})"
    return f"flush line {numbers[0]} ({lines()[numbers[0]]})" if kind == "flush" else "fence"


def part_of(done, parts):
    """Returns what the operation of this number is for."""
    for name, letters in parts:
        if done <= len(letters):
            return name
        done -= len(letters)
    raise SystemExit(f"picture: an update has {OPERATIONS} operations")


class Outcomes:
    """What was found, each once: what the check and the opening of an image printed, and what that says."""

    def __init__(self, commits):
        self.commits, self.all = commits, []

    def index(self, check, opening):
        found = re.match(r"sound gate (\d+) p (\d+) d (\d+) gaps (.*)\n", check)
        row = re.search(r"^row (\w+)$", opening, re.M)
        if not found or not row or bytes.fromhex(row[1]).decode() not in ROWS[1:] or f"{TABLE} {KEY} {row[1]}\nend 1\n" not in check:
            raise SystemExit(f"picture: neither the old row nor the new one was found:\n{check}{opening}")
        text = bytes.fromhex(row[1]).decode()
        it = {"check": check, "opening": opening, "rules": int(found[1]), "upTo": int(found[2])}
        it |= {"row": columns(text), "commit": self.commits[ROWS.index(text)]}
        if it not in self.all:
            self.all.append(it)
        return self.all.index(it)


def columns(row):
    return [row[at:at + 8].strip() for at in range(0, len(row), 8)]


def commits_of(played):
    """Returns the timestamp of each row's commit, as the program printed it."""
    return [int(it) for it in re.findall(r"^drawn (\d+)$", played["base"] + played[f"lives-{OPERATIONS}-oldest"].split("life 2\n")[1], re.M)]


def acknowledged(played):
    """Returns after how many operations the program first printed that the update is committed."""
    stops = (it for it in range(OPERATIONS + 1) if "committed" in played[f"lives-{it:02}-oldest"].split("life 2\n")[1].split("life 3\n")[0])
    return next(stops)


def data(runs, played, parts):
    """Returns all that the page has of the runs."""
    values, outcomes, named = Values(len(runs.base)), Outcomes(commits_of(played)), names()
    for word, value in enumerate(runs.instants[0].newest):
        values.index(word, value)
    instants = []
    for it in runs.instants:
        found = [outcomes.index(runs.checked(played, image), runs.opened(played, image)) for image in it.images()]
        last = it.operation and {"text": spelled(it.operation, named), "kind": it.operation[0], "at": it.operation[1:2]}
        newest = {word: values.index(word, value) for word, value in enumerate(it.newest)}
        instants.append({
            "last": last, "part": part_of(it.done, parts) if it.done else "",
            "now": {word: at for word, at in newest.items() if at},
            "either": [[word, values.index(word, it.oldest[word]), newest[word]] for word in it.either],
            "again": [word for word in it.stored if word not in it.either], "flushed": sorted({word // 8 for word in it.marked}),
            "found": "".join(map(str, found)),
        })
    return {
        "lines": lines(), "names": named, "values": values.shown(), "instants": instants, "outcomes": outcomes.all, "rows": list(map(columns, ROWS)),
        "acknowledged": acknowledged(played), "update": outcomes.commits[-1], "read": READ, "parts": [[name, letters] for name, letters in parts],
        "runs": {
            "images": len(runs.images), "choices": sum(len(it["found"]) for it in instants), "all": len(runs.cases),
            "stops": sum(name.startswith("stop-") for name in runs.cases) // 2,
        },
    }


def html(runs, played, parts):
    """Returns the page."""
    text = json.dumps(data(runs, played, parts), separators=(",", ":"))
    return TEMPLATE.read_text(encoding="utf-8").replace("/*DATA*/", text.replace("</", "<\\/"))
