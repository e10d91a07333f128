"""A device, a geometry and an image as docs/FORMATS.md draws them, in Python: nothing here is taken from the crates."""

LETTERS = 0x57424C2D50524631
WORDS_OF_A_LINE = 8
WORDS_OF_A_RECORD = 32
MOST_GAPS, MOST_LONGS = 8, 12
LIMIT = 2 ** 62
# Of each version of the format, by word 1 of the superblock, how many lines a slot has and how many slots an image may have.
VERSIONS = {1: (1, 65_536), 2: (1, 65_536), 3: (2, 65_536), **{4 + 256 * lines: (lines, 16_777_216) for lines in range(1, 9)}}

FAULTS = {
    "TooLong": 1, "BadGeometry": 2, "Device": 3, "NotFormatted": 4, "Damaged": 5, "Version": 6, "GapsFull": 7, "SlotsOut": 8, "NoSession": 9,
    "WrongState": 10, "SessionsFull": 11, "WriteSetFull": 12, "Conflict": 13, "WindowFull": 14, "TimestampsOut": 15, "OutOfMemory": 16, "Failed": 17,
}


class Refused(Exception):
    """A call that is refused: the name of the fault, and its numbers."""

    def __init__(self, name, *numbers):
        super().__init__(name)
        self.text = " ".join(map(str, ["refused", FAULTS[name], name, *numbers]))


class Device:
    """Words in lines of eight. A word may be left with each value that it has had since a fence last kept one."""

    def __init__(self, words, fuse=None):
        self.values = [[word] for word in words]
        self.dropped = [0] * len(words)
        self.marks = {}
        self.fuse = fuse
        self.operations = 0

    def load(self, word):
        return self.values[word][-1]

    def words(self):
        return [values[-1] for values in self.values]

    def _operate(self):
        if self.fuse is not None and self.operations >= self.fuse:
            raise Refused("Device")
        self.operations += 1

    def store(self, word, value):
        self._operate()
        self.values[word].append(value)

    def flush(self, actor, line):
        self._operate()
        marks = self.marks.setdefault(actor, {})
        for word in range(WORDS_OF_A_LINE * line, WORDS_OF_A_LINE * (line + 1)):
            marks[word] = self.dropped[word] + len(self.values[word]) - 1

    def fence(self, actor):
        self._operate()
        for word, mark in self.marks.pop(actor, {}).items():
            kept = mark - self.dropped[word]
            if kept > 0:
                del self.values[word][:kept]
                self.dropped[word] = mark

    def crashed(self, choose):
        """Returns the words that a crash leaves, of each word the survivor that is chosen."""
        return [choose(values) for values in self.values]


CHOICES = {"oldest": lambda values: values[0], "newest": lambda values: values[-1]}


class Geometry:
    """How many slots and places there are, the window, and the version of the format."""

    def __init__(self, slots, places, window, version=2):
        self.slots, self.places, self.window, self.version = slots, places, window, version
        self.lines_of_slot, self.most_slots = VERSIONS[version]
        self.most_bytes = 64 * self.lines_of_slot - 32

    def slot_line(self, slot):
        return 1 + 4 * self.places + self.lines_of_slot * slot

    def slot_word(self, slot):
        return WORDS_OF_A_LINE * self.slot_line(slot)

    def place_word(self, gate):
        return WORDS_OF_A_LINE + WORDS_OF_A_RECORD * (gate % self.places)

    def words(self):
        return self.slot_word(self.slots)

    def formatted(self):
        """Returns the words of a fresh image."""
        words = [0] * self.words()
        words[:6] = [LETTERS, self.version, self.slots, self.places, self.window, self.words()]
        first = self.place_word(1)
        words[first:first + 3] = [1, 0, 1]
        return words


def row_words(key, row, link, words):
    """Returns the words of a slot from its key on."""
    table, number = key
    padded = row + bytes(8 * words - len(row))
    return [number, table | len(row) << 16 | link << 32, *(int.from_bytes(padded[at:at + 8], "little") for at in range(0, len(padded), 8))]


class Record:
    """A record: its numbers, its gaps and its long commits."""

    def __init__(self, gate, persisted, dirty, gaps=(), longs=()):
        self.gate, self.persisted, self.dirty, self.gaps, self.longs = gate, persisted, dirty, list(gaps), list(longs)

    def words(self):
        ends = [end for gap in self.gaps for end in gap]
        body = [self.gate, self.persisted, self.dirty, len(self.gaps) | len(self.longs) << 32, *ends, *[0] * (16 - len(ends)), *self.longs]
        return body + [0] * (WORDS_OF_A_RECORD - len(body))

    def commits(self, timestamp):
        return 1 <= timestamp <= self.persisted and not self.is_in_gap(timestamp) and timestamp not in self.longs

    def is_in_gap(self, timestamp):
        return any(first <= timestamp <= last for first, last in self.gaps)


def geometry_of(words):
    """Returns the geometry of an image, or refuses it."""
    if len(words) < WORDS_OF_A_LINE or words[0] != LETTERS:
        raise Refused("NotFormatted")
    _, version, slots, places, window, length, *rest = words[:WORDS_OF_A_LINE]
    if version not in VERSIONS:
        raise Refused("Version", version)
    geometry = Geometry(slots, places, window, version)
    in_range = 1 <= slots <= geometry.most_slots and 2 <= places <= 64 and 4 <= window <= 1_024
    if not in_range or any(rest) or length != geometry.words() or length != len(words):
        raise Refused("BadGeometry")
    return geometry


def is_well_formed(record, words, version):
    """Whether the words of the place are those of a record that may rule."""
    bounds = [0]
    for first, last in record.gaps:
        if not 1 <= first <= last <= record.persisted or first <= bounds[-1]:
            return False
        bounds += [first, last + 1]
    longs = record.longs
    rising = all(a < b for a, b in zip([0, *longs], longs))
    return (
        record.persisted < record.dirty < LIMIT and rising and (version > 1 or not longs) and record.words() == words
        and not any(long > record.persisted or record.is_in_gap(long) for long in longs)
    )


def ruling_record(geometry, words):
    """Returns the record of the greatest gate, or refuses the image."""
    gates = [words[geometry.place_word(place)] for place in range(geometry.places)]
    for place, gate in enumerate(gates):
        if gate and (gate >= LIMIT or gate % geometry.places != place):
            raise Refused("Damaged", place)
    gate = max(gates)
    if gate == 0:
        raise Refused("Damaged", 1)
    start = geometry.place_word(gate)
    body = words[start:start + WORDS_OF_A_RECORD]
    gaps, longs = body[3] & 0xFFFF_FFFF, body[3] >> 32
    if gaps > MOST_GAPS or longs > MOST_LONGS:
        raise Refused("Damaged", gate % geometry.places)
    record = Record(gate, body[1], body[2], zip(body[4:4 + 2 * gaps:2], body[5:5 + 2 * gaps:2]), body[20:20 + longs])
    if not is_well_formed(record, body, geometry.version):
        raise Refused("Damaged", gate % geometry.places)
    return record


def live_row(geometry, words):
    """Returns the key and the row of the words of a live slot, or None where it is bad."""
    bits = words[3]
    # In versions 1 to 3 a length has eight bits, and the eight above them are 0: as one number it isn't too great exactly then.
    length, link = bits >> 16 & 0xFFFF, bits >> 32
    # In version 4 the words that count end with the row.
    counted = 4 + (length + 7) // 8 if geometry.version > 3 else len(words)
    row = b"".join(word.to_bytes(8, "little") for word in words[4:counted])
    if length > geometry.most_bytes or link > geometry.slots or any(row[length:]):
        return None
    return (bits & 0xFFFF, words[2]), row[:length]


def sound(words):
    """Returns the geometry, the ruling record, and key and row of each live slot by its number. Refuses an image that isn't sound."""
    geometry = geometry_of(words)
    record = ruling_record(geometry, words)
    live, keys = {}, set()
    for slot in range(geometry.slots):
        start = geometry.slot_word(slot)
        held = words[start:start + WORDS_OF_A_LINE * geometry.lines_of_slot]
        bad = held[0] >= record.dirty or held[1] >= record.dirty
        if not bad and record.commits(held[0]) and not record.commits(held[1]):
            found = live_row(geometry, held)
            bad = found is None or found[0] in keys
            if not bad:
                keys.add(found[0])
                live[slot] = (*found, held[0])
        if bad:
            raise Refused("Damaged", geometry.places + slot)
    return geometry, record, live


def gaps_text(gaps):
    return " ".join(f"{first}-{last}" for first, last in gaps) or "-"


def row_text(row):
    return row.hex() or "-"


def checked(words):
    """Returns the lines that a check of the image prints."""
    try:
        _, record, live = sound(words)
    except Refused as refused:
        return [refused.text]
    head = f"sound gate {record.gate} p {record.persisted} d {record.dirty} gaps {gaps_text(record.gaps)}"
    if record.longs:
        head += " longs " + " ".join(map(str, record.longs))
    rows = sorted((key, row) for key, row, _ in live.values())
    return [head, *(f"{table} {number} {row_text(row)}" for (table, number), row in rows), f"end {len(rows)}"]


def with_gap(gaps, first, last):
    """Returns the gaps with one more, joined to those that it touches."""
    before = [gap for gap in gaps if gap[1] + 1 < first]
    behind = [gap for gap in gaps if last + 1 < gap[0]]
    joined = [gap for gap in gaps if gap not in before and gap not in behind]
    ends = [first, last, *(end for gap in joined for end in gap)]
    return [*before, (min(ends), max(ends)), *behind]
