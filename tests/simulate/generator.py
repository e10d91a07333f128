"""Lives at random, the same again from the same seed.

Each game has a mood, which says what its lives do often: commits that are stopped anywhere, gaps until a ninth is swept, commits that
stay long, few slots, narrow windows, write sets and sessions up to their limits. A life is tried without a fuse first, so that its
stop falls within what it does: within the opening, a put, a stamp, a cycle, a sweep or the close.
"""
from device import CHOICES, Device, Geometry
from engine import Room, lived, obeyed
from script import Life, Script

# How often each step is made.
USUAL = {"begin": 6, "get": 3, "scan": 2, "put": 14, "delete": 3, "draw": 14, "stamp": 24, "poll": 2, "abort": 1, "end": 8, "commit": 16, "collect": 4, "wrong": 1}
# Of each mood: the geometries, how many lives and lines at most, how many keys, and which steps are made more or less often.
MOODS = {
    "mixed": ([(4, 2, 8), (8, 2, 8), (8, 3, 16), (3, 2, 4)], 6, 60, 4, {}),
    "gaps": ([(6, 2, 4), (16, 2, 8), (12, 4, 5)], 20, 8, 5, {"put": 20, "commit": 24, "delete": 2, "scan": 0, "abort": 0, "collect": 1}),
    "longs": ([(24, 2, 16), (40, 2, 32)], 4, 90, 40, {"stamp": 4, "begin": 16, "put": 18, "abort": 0, "commit": 14, "collect": 2}),
    "full": ([(1, 2, 8), (2, 2, 8), (3, 3, 4)], 6, 50, 3, {"put": 24, "collect": 8}),
    "window": ([(16, 2, 4), (16, 64, 5)], 5, 70, 8, {"draw": 30, "begin": 16, "commit": 10}),
    "sets": ([(40, 2, 8), (80, 3, 8)], 3, 70, 40, {"put": 60, "begin": 3, "draw": 3, "stamp": 60, "delete": 8}),
    "sessions": ([(70, 2, 64)], 2, 160, 70, {"begin": 60, "put": 20, "abort": 1, "collect": 2}),
}
STATES = {"stamp": ("Drawn",), "poll": ("Drawn", "Stamped", "Covered"), "end": ("Covered",)}
OPENING = 39
LONGEST_ROWS = ["-", "ab" * 32, "cd" * 33, "01" * 96, "ef" * 97, "23" * 224, "45" * 480, "67" * 481]


class Author:
    """Writes lines at random for a room, and obeys them, so that each line can follow from what was answered."""

    def __init__(self, rng, mood, version=2):
        self.rng, self.mood = rng, mood
        geometries, self.most_lives, self.most_lines, self.keys, weights = MOODS[mood]
        self.numbers = rng.choice(geometries)
        self.geometry = Geometry(*self.numbers, version)
        weights = {**USUAL, **weights}
        self.names, self.weights = list(weights), list(weights.values())
        self.most_sessions = 62 if mood == "sessions" else rng.choice([1, 2, 4, 8, 16])
        self.closes = 0.05 if mood == "gaps" else 0.3
        self.row = 0

    def key(self):
        return f"{1 if self.rng.random() < 0.9 else 2} {self.rng.randrange(self.keys)}"

    def any_row(self):
        self.row += 1
        return self.rng.choice(LONGEST_ROWS) if self.rng.random() < 0.1 else f"{self.row:06x}"

    def line(self, room):
        """Returns a line that the room allows, most often."""
        while True:
            name = self.rng.choices(self.names, self.weights)[0]
            if name == "commit" and not room.cycle and all(it.unstamped for it in room.drawn) and self.rng.random() < 0.9:
                continue
            if name in ("commit", "collect"):
                return f"{name} {self.count(name, room)}"
            if name == "wrong":
                return self.wrong()
            if name == "begin":
                if len(room.sessions) < self.most_sessions or self.rng.random() < 0.05:
                    return name
                continue
            states = STATES.get(name, ("Active",))
            fitting = [number for number, it in room.sessions.items() if it.state in states and (name != "draw" or it.writes)]
            if fitting:
                return self.of_session(name, self.rng.choice(fitting))

    def of_session(self, name, number):
        if name in ("get", "delete"):
            return f"{name} {number} {self.key()}"
        if name == "put":
            return f"put {number} {self.key()} {self.any_row()}"
        if name == "scan":
            low = self.rng.randrange(self.keys)
            return f"scan {number} 1 {low} {low + self.rng.randrange(-1, self.keys)}" if low else f"scan {number} 1 0 {self.keys}"
        return f"{name} {number}"

    def wrong(self):
        """A step that is refused most often: in a session that isn't open, or in a state that doesn't allow it."""
        number = self.rng.choice([0, 1, 2, 3, 9, 63, 64, 255])
        return self.rng.choice([f"{it} {number}" for it in ("stamp", "poll", "abort", "end", "draw")] + [f"get {number} 1 1"])

    def count(self, name, room):
        if name == "collect":
            return self.rng.choice([1, 2, room.geometry.slots, room.geometry.slots + 1])
        lines = len({line for commit in room.drawn for line in commit.lines(room.geometry)})
        return self.rng.choice([1, self.rng.randint(1, 60), 41 + lines, 42 + lines, 90])

    def first_lines(self):
        """What a life most often begins with: all rows are read, so that what the stop before it left is seen."""
        reads = ["begin", f"scan 2 1 0 {self.keys}", f"scan 2 2 0 {self.keys}"]
        if self.mood == "gaps" and self.rng.random() < 0.8:
            reads = [*reads, "abort 2"]
            return [*reads, "begin", f"put 2 {self.key()} {self.any_row()}", "draw 2", "stamp 2", "commit 43", "end 2"]
        return self.rng.choice([[], reads, [*reads, "abort 2"], [*reads, "abort 2"]])

    def lines(self, words, closes):
        """Returns the lines of a life over these words, and how many operations they make."""
        device, lines = Device(words), self.first_lines()
        room = Room(device)
        for line in lines:
            obeyed(room, line)
        for _ in range(self.rng.randint(0, self.most_lines)):
            lines.append(self.line(room))
            obeyed(room, lines[-1])
        if self.rng.random() < closes:
            lines.append("close")
            room.close()
        return lines, device.operations

    def fuse(self, operations):
        """After how many operations the device fails: seldom never, often within the last of them."""
        most = max(OPENING, operations) + 2
        kinds = [None, self.rng.randint(0, OPENING + 6), self.rng.randint(OPENING, most), self.rng.randint(max(OPENING, most - 60), most)]
        return self.rng.choices(kinds, [6, 2, 5, 4])[0]


def script_of(rng, mood=None):
    """Returns a script for `wbl lives`."""
    author = Author(rng, mood or rng.choice(list(MOODS)))
    words, lives = author.geometry.formatted(), []
    for _ in range(rng.randint(author.most_lives // 2, author.most_lives)):
        lines, operations = author.lines(words, author.closes)
        life = Life(author.fuse(operations), rng.choice(list(CHOICES)), lines)
        _, words, _ = lived(words, life.lines, life.fuse, CHOICES[life.choice])
        lives.append(life)
    return Script(*author.numbers, lives)
