"""Games: what one seed plays. Each returns its counts, and raises Found where a program answers otherwise than the engine in Python."""
import collections
import contextlib
import os
import pathlib
import random
import re
import struct
import subprocess
import sys

from device import CHOICES, VERSIONS, Device, Geometry, Refused, checked, sound
from engine import Room, lived, obeyed
from generator import MOODS, Author, script_of
from script import shrunk

DURABILITY = str(pathlib.Path(__file__).resolve().parent.parent / "durability")
SECONDS = 900


class Found(Exception):
    """A difference: what was wanted, what was found, and a script that shows it if there is one."""

    def __init__(self, said, script=None):
        super().__init__(said)
        self.script = script


def run(words, text="", **more):
    """Runs a program on this input. Returns its status and what it printed."""
    ended = subprocess.run(words, input=text, capture_output=True, text=True, timeout=SECONDS, check=False, **more)
    return ended.returncode, ended.stdout


def first_difference(wanted, found):
    """Says at which line two texts part."""
    pairs = zip([*wanted.splitlines(), "(nothing)"], [*found.splitlines(), "(nothing)"])
    number, (want, have) = next((it for it in enumerate(pairs, 1) if it[1][0] != it[1][1]), (0, ("", "")))
    return f"line {number}: wanted {want!r}, found {have!r}"


class Programs:
    """The programs that are played, and a folder to play in."""

    def __init__(self, wbl, kv, room, refuse, folder):
        self.wbl, self.kv, self.room, self.refuse, self.folder = wbl, kv, room, refuse, folder

    def path(self, name):
        return os.path.join(self.folder, name)

    def played(self, script, **more):
        path = self.path("script")
        pathlib.Path(path).write_text(script.text(), encoding="utf-8")
        return run([self.wbl, "lives", path], **more)


def counts_of(script, operations):
    lives = script.lives
    return collections.Counter(lives=len(lives), steps=sum(len(life.lines) for life in lives), stops=sum(life.fuse is not None for life in lives),
                               operations=operations, images=len(lives))


def play_lives(rng, programs):
    """A script of lives over the modelled device, stopped anywhere with the oldest or the newest survivors."""
    script = script_of(rng)
    wanted, operations = script.printed()
    found = programs.played(script)
    if found != (0, wanted):
        least = shrunk(script, lambda it: programs.played(it) != (0, it.printed()[0]))
        status, output = programs.played(least)
        raise Found(f"status {status}, {first_difference(least.printed()[0], output)}", least.text())
    return counts_of(script, operations)


def written(path, words):
    pathlib.Path(path).write_bytes(struct.pack(f"<{len(words)}Q", *words))


def words_in(path):
    held = pathlib.Path(path).read_bytes()
    return list(struct.unpack(f"<{len(held) // 8}Q", held))


def play_images(rng, programs):
    """Lives in Python over an image of any version, stopped anywhere, each word with any of its survivors: each image that is left is
    checked by `wbl check`, and lives on by `wbl run`, and what that leaves is compared word by word."""
    version = rng.choice(list(VERSIONS))
    author = Author(rng, rng.choice(list(MOODS)), version)
    words, path, counts = author.geometry.formatted(), programs.path("image"), collections.Counter()
    for number in range(rng.randint(author.most_lives // 2, author.most_lives)):
        lines, operations = author.lines(words, author.closes)
        fuse = author.fuse(operations)
        _, words, made = lived(words, lines, fuse, rng.choice)
        counts.update(lives=1, steps=len(lines), stops=fuse is not None, operations=made, images=1)
        compare(f"version {version}, image {number}, check", checked(words), check_of(programs, path, words))
        if rng.random() < 0.5:
            words = run_on(rng, programs, author, path, words, counts)
    return counts


def check_of(programs, path, words):
    written(path, words)
    return run([programs.wbl, "check", path])[1].splitlines()


def compare(said, wanted, found):
    if wanted != found:
        raise Found(f"{said}: {first_difference(chr(10).join(map(str, wanted)), chr(10).join(map(str, found)))}")


def run_on(rng, programs, author, path, words, counts):
    """Obeys lines by `wbl run` over the image in the file, up to a close or a crash. Returns the words that are left."""
    lines, operations = author.lines(words, 0)
    device = Device(words)
    room = Room(device)
    wanted = [room.opened_text(), *(obeyed(room, line) for line in lines)]
    ending = rng.choice([*CHOICES, "close"])
    if ending == "close":
        wanted.append(room.close())
    else:
        lines.append(f"crash {ending}")
        wanted.append(f"stopped {ending}")
    _, found = run([programs.wbl, "run", path], "\n".join([*lines, ""]))
    compare(f"version {author.geometry.version}, run", "\n".join(wanted).splitlines(), found.splitlines())
    left = device.crashed(CHOICES.get(ending, CHOICES["oldest"]))
    compare(f"version {author.geometry.version}, what a run left, {ending}", left, words_in(path))
    counts.update(lives=1, steps=len(lines), stops=ending != "close", operations=operations, images=1)
    return left


OUT_OF_MEMORY = "refused 16 OutOfMemory"


def play_memory(rng, programs):
    """A script of lives one of whose requests for memory is refused: that step answers OutOfMemory and changes nothing."""
    script = script_of(rng)
    number = int(2 ** rng.uniform(0, 13))
    status, output = programs.played(script, env={"LD_PRELOAD": programs.refuse, "REFUSE_FROM": str(number)})
    # Memory that is refused while the words or the script are read ends the program, with nothing printed or with one of these alone.
    if (status, output) not in ((1, OUT_OF_MEMORY + "\n"), (1, "file fault\n"), (1, "")):
        with contextlib.suppress(Unknown):
            Followed(script, output.splitlines(), status, f"request {number} refused, status {status}").follow()
    return counts_of(script, 0)


class Unknown(Exception):
    """What was done isn't printed: of a line of many steps those before the one that was refused, and all once the program ends."""


class Followed:
    """A script that is run by what a program printed for it: a line that was refused for lack of memory isn't run."""

    def __init__(self, script, found, status, said):
        self.script, self.found, self.status, self.said, self.at = script, found, status, said, 0

    def is_refused(self):
        return self.at < len(self.found) and self.found[self.at] == OUT_OF_MEMORY

    def is_ended(self, lines):
        """Whether the program had no memory for one of these lines: then it ends with OutOfMemory in its place, and with 1."""
        left = self.found[self.at:]
        return self.status == 1 and left[-1:] == [OUT_OF_MEMORY] and left[:-1] == lines[:len(left) - 1]

    def want(self, text):
        lines = text.splitlines()
        found = self.found[self.at:self.at + len(lines)]
        if found != lines and self.is_ended(lines):
            raise Unknown
        if found != lines:
            raise Found(f"{self.said}: {first_difference(text, chr(10).join(found))}", self.script.text())
        self.at += len(lines)

    def follow(self):
        """Follows all lives, up to an opening or a close that is refused, to one of many ticks, or to the program's end: what these leave isn't
        printed."""
        words = Geometry(*self.script.geometry).formatted()
        for number, life in enumerate(self.script.lives, 1):
            self.want(f"life {number}")
            device = Device(words, life.fuse)
            try:
                if self.is_refused():
                    return
                room = Room(device)
                self.want(room.opened_text())
                for line in life.lines:
                    if line == "close" and self.is_refused():
                        return
                    self.obey(room, line)
            except Refused as refused:
                self.want(refused.text)
            self.want("stopped")
            words = device.crashed(CHOICES[life.choice])

    def obey(self, room, line):
        if line == "close":
            self.want(room.close())
        elif not self.is_refused():
            self.want(obeyed(room, line))
        else:
            self.want(OUT_OF_MEMORY)
            if self.status == 1 and self.at == len(self.found):
                raise Unknown
            name, *words = line.split()
            if name in ("commit", "collect") and int(words[0]) > 1:
                raise Unknown


def play_file(rng, programs):
    """Lives of kv over a file of any version, traced: after a power failure before any system call, each word that no sync followed is
    old or new. What is left must open with what was acknowledged, or a few transactions more, whose answers were held, and what kv leaves of it be sound; and kv
    lives on over one of them."""
    sys.path.insert(0, DURABILITY)
    import power
    from store import Transactions, acknowledged, after, may_be_found

    version = rng.choice(list(VERSIONS))
    path, trace, counts = programs.path("file"), programs.path("trace"), collections.Counter()
    written(path, Geometry(rng.choice([16, 40]), 2, rng.choice([4, 64]), version).formatted())
    source, rows = Transactions(rng, 8, 3), {}
    for _ in range(rng.randint(1, 3)):
        first = pathlib.Path(path).read_bytes()
        sent = [source.next() for _ in range(rng.randint(1, 12))]
        text = "".join("\n".join(lines) + "\n" for _, lines in sent)
        status, output = run(["strace", "-f", "-xx", "-s", "5000000", "-e", power.CALLS, "-o", trace, programs.kv, path], text)
        if status != 0 or acknowledged(output) != len(sent):
            raise Found(f"kv over version {version}: status {status}, {output[-300:]!r}")
        models = [rows]
        for writes, _ in sent:
            models.append(after(models[-1], writes))
        events = power.events_of(trace, path)
        counts.update(lives=1, steps=len(text.splitlines()), operations=len(events))
        for _ in range(12):
            stop = rng.randint(0, len(events))
            left, done, _ = power.image_before(first, events, stop, rng)
            rows = rows_left(rng, programs, left, f"kv over version {version}, before call {stop}, {done} acknowledged")
            if rows not in may_be_found(models, done):
                raise Found(f"kv over version {version}, before call {stop}, {done} acknowledged: {sorted(rows.items())}")
            counts.update(stops=1, images=1)
        pathlib.Path(path).write_bytes(left)
    return counts


def rows_left(rng, programs, left, said):
    """Opens and closes what a power failure left by kv. Returns the rows that kv prints, which are those of the image that it leaves."""
    path = programs.path("left")
    pathlib.Path(path).write_bytes(left)
    status, output = run([programs.kv, path], "scan 1 0 100000\n")
    if status != 0 or not output.endswith("closed\n"):
        raise Found(f"{said}: status {status}, {output[-300:]!r}")
    rows = {int(words[1]): words[2] for words in map(str.split, output.splitlines()) if words[0] == "row"}
    words = words_in(path)
    try:
        _, _, live = sound(words)
    except Refused as refused:
        raise Found(f"{said}, once closed: {refused.text}") from refused
    if {key[1]: row.hex() for key, row, _ in live.values()} != rows:
        raise Found(f"{said}, once closed: other rows than kv printed")
    if rng.random() < 0.1:
        compare(f"{said}, check", checked(words), check_of(programs, programs.path("image"), words))
    return rows


def play_room(rng, programs):
    """Lives of a room over a device of each version by the program of crates/test_lives, which compares them with its own
    model of plain tables: stopped anywhere, with any survivor of each word."""
    seed, seeds = rng.randrange(2 ** 62), 3
    ended = subprocess.run([programs.room, str(seed), str(seeds)], capture_output=True, text=True, timeout=SECONDS, check=False)
    numbers = re.fullmatch(r"lives (\d+) steps (\d+) stops (\d+)\n", ended.stdout)
    if ended.returncode != 0 or not numbers:
        raise Found(f"test_lives {seed} {seeds}: status {ended.returncode}, {ended.stdout[-300:]} {ended.stderr[-600:]}")
    lives, steps, stops = map(int, numbers.groups())
    return collections.Counter(lives=lives, steps=steps, stops=stops, images=lives)


# Of each kind of game how often it is played, in a hundred, and by what.
KINDS = {
    "lives": (60, play_lives), "images": (20, play_images), "room": (10, play_room), "memory": (7, play_memory), "file": (3, play_file),
}


def play(seed, kinds, programs):
    """Plays the game of this seed: the kind, and its counts."""
    rng = random.Random(seed)
    kind = rng.choices(kinds, [KINDS[it][0] for it in kinds])[0]
    try:
        return kind, KINDS[kind][1](rng, programs)
    except subprocess.TimeoutExpired as expired:
        raise Found(f"no end within {SECONDS} seconds: {expired.cmd}") from expired
