#!/usr/bin/env python3
"""Shows what a crash leaves of one update, wherever it comes.

    ./picture                  the picture as text; docs/crash.txt is made so
    ./picture --svg FILE       the same as an SVG, written into FILE; docs/crash.svg is made so
    ./picture --page [FILE]    a page that one can play with, written into FILE, by default docs/crash.html
    ./picture --program WBL    by this program, and not by one that is built now without proofs, in minutes

An update that replaces the row `old` by `new` makes 54 operations on the device. It is stopped after each number of them, from none
to all, once with the oldest and once with the newest survivor of each word, so once with every unfenced word lost and once with
every one kept; then the store is opened again and the row is read.
These are 110 scripts for `wbl lives`, and each cell of the picture is what one of them prints.

The page shows another update, of a row of four words, whose new version takes the slot of an older one. After each number of its
54 operations the reader chooses the survivor of each word, and sees what the next opening finds. `wbl` has opened the image of each
choice, 261 different ones, and what the page shows is what it printed: 723 runs with those that hold the images to the program.

Progress appears on standard error. The build takes a minute or two on an idle machine, and each run of a program that was built
so half a second, so the page takes ten minutes, or half a minute by --program.
"""
import argparse
import pathlib
import re
import subprocess
import sys
import tempfile
import time

import instants
import page

ROOT = pathlib.Path(__file__).resolve().parent.parent.parent
OPENING = 39
# The survivors that a stop leaves of each word, and what that is called in the picture.
SURVIVORS = {"oldest": "unfenced lost", "newest": "unfenced kept"}
OLD, NEW = b"old".hex(), b"new".hex()

# What an update does to the device, in its order: what the operations are for, and which they are. A letter is an operation: s a
# store, G the store of the record's number, f a flush, | a fence.
PARTS = (("put", "sf|sssssss"), ("stamp", "ss"), ("rows", "ff|"), ("record", "s" * 31 + "ffff|"), ("number", "Gf|"))
OPERATIONS = "".join(letters for _, letters in PARTS)
NAMES = {"s": "store", "G": "store of the record's number", "f": "flush", "|": "fence"}


def script(stop, survivor):
    """Returns the lives: one that commits the old row, one whose update stops after that many operations, and one that reads."""
    writes = ["begin", "put 2 1 7 {}", "draw 2", "stamp 2", "commit {}", "poll 2"]
    first = "\n".join(writes).format(OLD, 42)
    second = "\n".join(writes).format(NEW, 43)
    life = f"life {OPENING + stop} {survivor}"
    return f"geometry 4 2 8\nlife - oldest\n{first}\nclose\n{life}\n{second}\nlife - oldest\nbegin\nget 2 1 7\n"


def scripts():
    """Returns the scripts by name, as runs: the words of the program, and the lines."""
    stops = range(len(OPERATIONS) + 1)
    return {f"{stop:02}-{survivor}": (["lives", "{}"], script(stop, survivor).splitlines()) for stop in stops for survivor in SURVIVORS}


class Progress:
    """How far it is, on standard error: a line that is written over at a terminal, else a line now and then."""

    def __init__(self, seconds=10):
        self.start, self.said, self.seconds, self.width = time.monotonic(), 0, seconds, 0
        self.is_terminal = sys.stderr.isatty()

    def say(self, text):
        elapsed = time.monotonic() - self.start
        line = f"{int(elapsed) // 60}:{int(elapsed) % 60:02} {text}"
        if self.is_terminal:
            print(f"\r{line:{self.width}}", end="", file=sys.stderr, flush=True)
            self.width = len(line)
        elif elapsed - self.said >= self.seconds:
            print(line, file=sys.stderr, flush=True)
            self.said = elapsed

    def end(self):
        if self.is_terminal and self.width:
            print(f"\r{'':{self.width}}\r", end="", file=sys.stderr, flush=True)


def write_cases(folder, cases):
    """Writes the runs as cases for `rt try --cases`: the lines of standard input, and the words."""
    for name, (words, lines) in cases.items():
        (folder / name).write_text("".join(f"{line}\n" for line in lines), encoding="utf-8")
        (folder / f"{name}.args").write_text("".join(f"{word}\n" for word in words), encoding="utf-8")


def played_by(program, cases):
    """Returns what the program prints in each run, by name. The word {} stands for a file of the run's lines."""
    played, progress = {}, Progress()
    with tempfile.TemporaryDirectory() as folder:
        for name, (words, lines) in cases.items():
            path, text = pathlib.Path(folder, name), "".join(f"{line}\n" for line in lines)
            path.write_text(text, encoding="utf-8")
            command = [program, *(path if word == "{}" else word for word in words)]
            played[name] = subprocess.run(command, input=text, capture_output=True, text=True, check=False).stdout
            progress.say(f"{len(played)} of {len(cases)} runs")
    progress.end()
    return played


def played_unproved(cases):
    """Returns the same by a program that is built now, without proofs."""
    progress, ended, done = Progress(), 0, "building wbl without proofs, a minute or two on an idle machine"
    with tempfile.TemporaryDirectory() as folder, tempfile.NamedTemporaryFile("w+") as out:
        write_cases(pathlib.Path(folder), cases)
        command = ["rt", "try", "--cases", folder]
        with subprocess.Popen(command, cwd=ROOT / "crates/wbl", stdout=out, stderr=subprocess.STDOUT, text=True) as trying:
            while trying.poll() is None:
                ended = text_in(out.name).count("\ncase=")
                progress.say(f"{ended} of {len(cases)} runs" if ended else done)
                time.sleep(0.5)
        progress.end()
        text = text_in(out.name)
    played = parts_of(text)
    if not played:
        raise SystemExit(f"picture: wbl wasn't built:\n{text[-2000:]}")
    return played


def text_in(path):
    return pathlib.Path(path).read_text(encoding="utf-8", errors="replace")


def played(program, cases):
    return played_by(program, cases) if program else played_unproved(cases)


def write_page(path, program):
    """Makes the runs of the page, holds the images to the program, and writes the page."""
    runs = instants.Runs()
    with tempfile.TemporaryDirectory() as folder:
        files = {name: pathlib.Path(folder, name) for name, it in runs.cases.items() if it.image}
        for name, file in files.items():
            file.write_bytes(instants.packed(runs.cases[name].image))
        found = played(program, {name: ([*it.words, files.get(name, "{}")], it.lines) for name, it in runs.cases.items()})
        runs.hold(found, {name: file.read_bytes() for name, file in files.items()})
    path.write_text(page.html(runs, found, PARTS), encoding="utf-8")


def parts_of(text):
    """Takes what `rt try --cases` prints apart: what each case printed, by its name."""
    return {name: body for name, body in re.findall(r"^== (\S+)\n(.*?)(?=^case=)", text, re.M | re.S)}


class Picture:
    """What was found after each stop, and from which stop on the commit was acknowledged."""

    def __init__(self, played):
        self.found = {survivor: "" for survivor in SURVIVORS}
        self.acknowledged = len(OPERATIONS)
        for stop in range(len(OPERATIONS) + 1):
            for survivor in SURVIVORS:
                self.add(stop, survivor, played.get(f"{stop:02}-{survivor}", ""))

    def add(self, stop, survivor, printed):
        lives = re.split(r"^life \d\n", printed, flags=re.M)[1:]
        rows = re.findall(r"^row (\w+)$", lives[2] if len(lives) == 3 else "", re.M)
        if rows not in ([OLD], [NEW]):
            raise SystemExit(f"picture: stopped after {stop} operations, {survivor}, this was printed:\n{printed}")
        self.found[survivor] += "N" if rows == [NEW] else "o"
        if "committed 2" in lives[1]:
            self.acknowledged = min(self.acknowledged, stop)

    def text(self):
        """Returns lines of text."""
        lines = ["One update, cut off after each number of its 54 operations, and the row that is found on reopening:", ""]
        lines += [f"  {'operations':17} {OPERATIONS}   s store, f flush, | fence, G the record's number"]
        lines += [f"  {label:16} {self.found[survivor]}" for survivor, label in SURVIVORS.items()]
        lines += [f"  {'':16} {' ' * self.acknowledged}^ acknowledged: from here on"]
        lines += ["", "  o the old row, N the new one; never a part of one, and none is lost"]
        return "\n".join([*lines, "  unfenced lost: every word that no fence has made durable is lost; unfenced kept: every one is kept"])


CELL, LEFT, TOP = 13, 132, 74
COLOURS = {"o": "#c3cad5", "N": "#2f9e6e"}
MARKS = {"s": ("#8d99ab", 7), "G": ("#d9730d", 19), "f": ("#4f7cc4", 11), "|": ("#20304a", 19)}


def column(at):
    return LEFT + at * CELL


def svg_text(x, y, text, more=""):
    return f'<text x="{x}" y="{y}" {more}>{text}</text>'


def svg_marks():
    """Yields a mark for each operation, between the cell before it and the one after it, and the names of the parts."""
    at = 0
    for name, letters in PARTS:
        middle = column(at + 0.5 + len(letters) / 2)
        yield svg_text(middle, 34, name, 'text-anchor="middle" class="small"')
        yield f'<path d="M{column(at + 0.7)} 40 H{column(at + 0.3 + len(letters))}" stroke="#b6becb"/>'
        for letter in letters:
            at += 1
            colour, height = MARKS[letter]
            yield f'<path d="M{column(at)} {TOP - 5} v-{height}" stroke="{colour}" stroke-width="3"><title>{NAMES[letter]}</title></path>'


def svg_cells(picture):
    """Yields the two rows of cells."""
    for row, (survivor, label) in enumerate(SURVIVORS.items()):
        y = TOP + row * 26
        yield svg_text(LEFT - 10, y + 15, label, 'text-anchor="end"')
        for stop, found in enumerate(picture.found[survivor]):
            row_found = "the new row" if found == "N" else "the old row"
            yield (
                f'<rect x="{column(stop) + 1}" y="{y}" width="{CELL - 2}" height="20" rx="2" fill="{COLOURS[found]}">'
                f"<title>cut off after {stop} operations: {row_found}</title></rect>"
            )


def svg_legend(picture):
    """Yields what the colours and marks mean."""
    x = column(picture.acknowledged + 0.5)
    yield f'<path d="M{x} {TOP + 66} v-14 m-4 5 l4 -5 l4 5" stroke="#20304a" fill="none" stroke-width="1.5"/>'
    yield svg_text(x + 6, TOP + 80, "acknowledged", 'text-anchor="end" class="small"')
    at = LEFT
    for colour, text in ((COLOURS["o"], "the old row"), (COLOURS["N"], "the new row")):
        yield f'<rect x="{at}" y="{TOP + 70}" width="11" height="11" rx="2" fill="{colour}"/>'
        yield svg_text(at + 16, TOP + 80, text, 'class="small"')
        at += 96
    for letter, text in (("s", "store"), ("f", "flush"), ("|", "fence"), ("G", "the record's number")):
        yield f'<path d="M{at + 3} {TOP + 81} v-{min(MARKS[letter][1], 12)}" stroke="{MARKS[letter][0]}" stroke-width="3"/>'
        yield svg_text(at + 10, TOP + 80, text, 'class="small"')
        at += 58


def svg(picture):
    width, height = column(len(OPERATIONS) + 1) + 16, TOP + 94
    body = [
        svg_text(16, 20, "One update, cut off after each number of its 54 device operations: the row that is found on reopening", 'class="title"'),
        *svg_marks(), *svg_cells(picture), *svg_legend(picture),
    ]
    style = "text{font:12px system-ui,sans-serif;fill:#20304a}.small{font-size:11px}.title{font-weight:600;font-size:13px}"
    head = f'<svg xmlns="http://www.w3.org/2000/svg" viewBox="0 0 {width} {height}" width="{width}" height="{height}">'
    return "\n".join([head, f"<style>{style}</style>", f'<rect width="{width}" height="{height}" rx="8" fill="#fff"/>', *body, "</svg>", ""])


def main():
    parser = argparse.ArgumentParser(prog="./picture", description=__doc__, formatter_class=argparse.RawDescriptionHelpFormatter)
    parser.add_argument("--svg", metavar="FILE", type=pathlib.Path)
    parser.add_argument("--page", metavar="FILE", type=pathlib.Path, nargs="?", const=ROOT / "docs/crash.html")
    parser.add_argument("--program", metavar="WBL")
    options = parser.parse_args()
    if options.page:
        write_page(options.page, options.program)
        return
    picture = Picture(played(options.program, scripts()))
    if options.svg:
        options.svg.write_text(svg(picture), encoding="utf-8")
    else:
        print(picture.text())


if __name__ == "__main__":
    sys.exit(main())
