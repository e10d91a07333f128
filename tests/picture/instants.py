"""The instants of one update, what a power failure may leave of each word then, and what the next opening finds of each choice.

The operations of the update, and what may survive of each word after each number of them, come from the device and the engine in
Python of tests/simulate. What is found comes from the program `wbl` alone: it opens each image that any choice leaves. Further
runs check the Python by the program. `wbl` makes the image that the update begins with. It stops by itself at each instant that the
lines of a run can reach, with all words oldest and with all newest, and leaves the image of Python, byte by byte. And it runs a
script of lives for each instant, also for those within a put or a stamp, and opens then as it opened the image.
"""
import itertools
import pathlib
import struct
import sys

ROOT = pathlib.Path(__file__).resolve().parent.parent.parent
sys.path.append(str(ROOT / "tests/simulate"))

from device import CHOICES, Device, Geometry  # noqa: E402
from engine import Room, obeyed  # noqa: E402

SLOTS, PLACES, WINDOW = 2, 2, 8
GEOMETRY = Geometry(SLOTS, PLACES, WINDOW)
TABLE, KEY = 1, 7
OPENING = 39
OPERATIONS = 54

# Each row has four columns of eight letters, so that each column is one word. The third one takes the slot of the first, which the
# second one replaced.
ROWS = ("Mon 6:00rain    9 C     west    ", "Tue 6:00cloudy  14 C    north   ", "Wed 6:00sunny   21 C    south   ")
READ = ("begin", f"get 2 {TABLE} {KEY}")


def commit_of(row):
    """Returns the lines that commit this row, alone."""
    put = f"put 2 {TABLE} {KEY} {row.encode().hex()}"
    return ["begin", put, "draw 2", "stamp 2", "commit {ticks}", "poll 2", "end 2"]


def lines_of(row, ticks):
    return [line.format(ticks=ticks) for line in commit_of(row)]


# The first row's commit touches one line, so its cycle has 42 ticks; the others end a version too, and have 43.
BEFORE = [*lines_of(ROWS[0], 42), *lines_of(ROWS[1], 43)]
UPDATE = lines_of(ROWS[2], 43)


class Tape(Device):
    """A device that keeps what was done to it, and what may survive of each word after each operation."""

    def __init__(self, words):
        super().__init__(words)
        self.done, self.may = [], []

    def note(self, *operation):
        self.done.append(operation)
        marked = {word for marks in self.marks.values() for word, mark in marks.items() if mark > self.dropped[word]}
        self.may.append(([list(it) for it in self.values], marked))

    def store(self, word, value):
        super().store(word, value)
        self.note("store", word, value)

    def flush(self, actor, line):
        super().flush(actor, line)
        self.note("flush", line)

    def fence(self, actor):
        super().fence(actor)
        self.note("fence")


def lived(words, lines):
    """Lives these lines over an image. Returns the device and how many operations were made by the end of each line."""
    device, after = Tape(words), []
    room = Room(device)
    for line in lines:
        if line == "close":
            room.close()
        else:
            obeyed(room, line)
        after.append(device.operations)
    return device, after


class Instant:
    """After how many operations of the update it is, which was the last, and what may survive of each word."""

    def __init__(self, done, operation, values, marked):
        self.done, self.operation, self.marked = done, operation, marked
        self.oldest, self.newest = [it[0] for it in values], [it[-1] for it in values]
        self.stored = [word for word, it in enumerate(values) if len(it) > 1]
        self.either = [word for word in self.stored if self.oldest[word] != self.newest[word]]
        for word in self.stored:
            if len(set(values[word])) > 2:
                raise SystemExit(f"picture: word {word} may be left with more than two values after {done} operations")

    def chosen(self, news):
        """Returns the image with the new value of these words, and the old one of all others."""
        return tuple(self.newest[it] if it in news else self.oldest[it] for it in range(len(self.oldest)))

    def images(self):
        """Returns the image of each choice: that of number n has the new value of those words of `either` whose bits n has."""
        return [
            self.chosen({word for bit, word in enumerate(self.either) if number >> bit & 1}) for number in range(1 << len(self.either))
        ]


def update():
    """Returns the image that the update begins with, closed, and each instant of the update."""
    device, _ = lived(GEOMETRY.formatted(), [*BEFORE, "close"])
    base = device.words()
    device, after = lived(base, UPDATE)
    if device.operations != OPENING + OPERATIONS:
        raise SystemExit(f"picture: the opening and the update make {device.operations} operations")
    operations = [None, *device.done[OPENING:]]
    instants = [Instant(at, it, *device.may[OPENING + at - 1]) for at, it in enumerate(operations)]
    if instants[0].stored:
        raise SystemExit("picture: the opening leaves words that no fence has kept")
    return base, instants


class Case:
    """A run of the program: its words, an image that it is given and may change, and the lines of its standard input."""

    def __init__(self, words, image, lines):
        self.words, self.image, self.lines = words, image, lines


def packed(words):
    return struct.pack(f"<{len(words)}Q", *words)


def stopping_lines(stop, choice):
    """Returns the lines of the update up to this number of operations, and a crash; or None, if that is within a line."""
    reached = {0: UPDATE[:1], 10: UPDATE[:3], 12: UPDATE[:4]}
    if stop > 12:
        # The first tick chooses the batch, and makes no operation.
        return [*UPDATE[:4], f"commit {stop - 12 + 1}", f"crash {choice}"]
    return [*reached[stop], f"crash {choice}"] if stop in reached else None


def script(stop, choice):
    """Returns the script of the same lives for `wbl lives`."""
    lives = [["life - oldest", *BEFORE, "close"], [f"life {OPENING + stop} {choice}", *UPDATE], ["life - oldest", *READ]]
    return [f"geometry {SLOTS} {PLACES} {WINDOW}", *itertools.chain(*lives)]


class Runs:
    """All that the program is asked, by name, and what has to come of it."""

    def __init__(self):
        self.base, self.instants = update()
        self.images = sorted({image for it in self.instants for image in it.images()})
        self.cases = {"base": Case(["run"], GEOMETRY.formatted(), BEFORE)}
        for number, image in enumerate(self.images):
            self.cases[f"check-{number:03}"] = Case(["check"], image, [])
            self.cases[f"open-{number:03}"] = Case(["run"], image, READ)
        for at, choice in itertools.product(range(OPERATIONS + 1), CHOICES):
            self.cases[f"lives-{at:02}-{choice}"] = Case(["lives"], None, script(at, choice))
            if lines := stopping_lines(at, choice):
                self.cases[f"stop-{at:02}-{choice}"] = Case(["run"], self.base, lines)

    def number_of(self, image):
        return self.images.index(image)

    def hold(self, played, left):
        """Stops unless the program says the same about the device as Python. `left` has the image that each run left."""
        if left["base"] != packed(self.base):
            raise SystemExit("picture: wbl makes another image of the rows before the update")
        for at, choice in itertools.product(self.instants, CHOICES):
            name = f"{at.done:02}-{choice}"
            image = tuple(getattr(at, choice))
            if f"stop-{name}" in self.cases and left[f"stop-{name}"] != packed(image):
                raise SystemExit(f"picture: wbl leaves another image after {at.done} operations, {choice}")
            lives = played[f"lives-{name}"].split("life 3\n")
            if lives[-1].rsplit("stopped", 1)[0] != self.opened(played, image).rsplit("closed", 1)[0]:
                raise SystemExit(f"picture: wbl opens otherwise in a script after {at.done} operations, {choice}:\n{lives[-1]}")

    def opened(self, played, image):
        return played[f"open-{self.number_of(image):03}"]

    def checked(self, played, image):
        return played[f"check-{self.number_of(image):03}"]
