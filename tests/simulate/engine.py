"""The engine in Python: openings, the steps of sessions, the committer, the collector and closes, over the device in the file next to this.

It is written from docs/FORMATS.md and docs/REFERENCE.md and shares nothing with the crates, so that what both answer can be compared.
"""
from device import LIMIT, MOST_GAPS, MOST_LONGS, WORDS_OF_A_RECORD, Device, Record, Refused, gaps_text, geometry_of, row_text, row_words, sound, with_gap

MOST_SESSIONS = 62
MOST_KEYS = 32


class Version:
    """A version of a key in its slot, by whom it was written, and by which commit it is ended once that is covered."""

    def __init__(self, key, row, slot, begin):
        self.key, self.row, self.slot, self.begin, self.end = key, row, slot, begin, None


class Session:
    """An open transaction: what it sees, what it writes, and its commit once one is drawn."""

    def __init__(self, begun):
        self.begun, self.writes, self.state, self.commit = begun, {}, "Active", None


class Commit:
    """A commit that is drawn: of each key the new version or None, and the version that it ends or None, by rising key."""

    def __init__(self, timestamp, writes, ends):
        self.timestamp, self.writes, self.ends = timestamp, writes, ends
        self.unstamped = sorted(writes)

    def lines(self, geometry):
        for version in self.writes.values():
            if version:
                yield from range(geometry.slot_line(version.slot), geometry.slot_line(version.slot) + geometry.lines_of_slot)
        for version in self.ends.values():
            if version:
                yield geometry.slot_line(version.slot)


class Cycle:
    """A record that is being written, the commits that it covers, and the operations that are left."""

    def __init__(self, room, record, batch):
        self.record, self.batch = record, batch
        lines = sorted({line for commit in batch for line in commit.lines(room.geometry)})
        start = room.geometry.place_word(record.gate)
        self.operations = [("flush", line) for line in lines] + [("fence",)]
        self.operations += [("store", start + at, word) for at, word in enumerate(record.words()) if at > 0]
        self.operations += [("flush", start // 8 + at) for at in range(WORDS_OF_A_RECORD // 8)] + [("fence",)]
        self.operations += [("store", start, record.gate), ("flush", start // 8), ("fence",)]

    def operate(self, device):
        """Makes the next operation. Is it the last?"""
        name, *numbers = self.operations.pop(0)
        if name == "store":
            device.store(*numbers)
        elif name == "flush":
            device.flush(0, *numbers)
        else:
            device.fence(0)
        return not self.operations


class Room:
    """An opened engine."""

    def __init__(self, device):
        self.device = device
        self.geometry, found, live = sound(device.words())
        if found.dirty + 2 * self.geometry.window >= LIMIT or found.gate + 1 >= LIMIT:
            raise Refused("TimestampsOut")
        self.sessions, self.drawn, self.covered, self.cycle = {}, [], [], None
        self.place, self.is_swept, self.places = 0, False, {}
        self.held = [None] * self.geometry.slots
        self.newest = {}
        for slot, (key, row, begin) in live.items():
            self.held[slot] = self.newest[key] = Version(key, row, slot, begin)
        self.heads = dict(self.newest)
        self.record = found
        self._open(found)

    def _open(self, found):
        if self.geometry.version == 1:
            self.device.store(1, 2)
            self.device.flush(0, 0)
            self.device.fence(0)
        gaps = list(found.gaps)
        for timestamp in found.longs:
            gaps = with_gap(gaps, timestamp, timestamp)
        if found.persisted + 1 <= found.dirty - 1:
            gaps = with_gap(gaps, found.persisted + 1, found.dirty - 1)
        if len(gaps) > MOST_GAPS:
            self._sweep(Record(0, found.dirty, found.dirty, gaps))
            gaps = []
        self.next = self.first = found.dirty
        self.gaps = gaps
        cycle = Cycle(self, Record(found.gate + 1, found.dirty - 1, found.dirty + self.geometry.window, gaps), [])
        cycle.operations.pop(0)
        while not cycle.operate(self.device):
            pass
        self.record = cycle.record

    def _sweep(self, gapped):
        for slot in range(self.geometry.slots):
            if self._clear(slot, gapped):
                self.device.flush(0, self.geometry.slot_line(slot))
        self.device.fence(0)

    def _clear(self, slot, gapped):
        """Stores 0 in the begin and the end of the slot that are in a gap. Did it store?"""
        start, stored = self.geometry.slot_word(slot), False
        for word in (start, start + 1):
            if gapped.is_in_gap(self.device.load(word)):
                self.device.store(word, 0)
                stored = True
        return stored

    def opened_text(self):
        record = self.record
        return f"opened gate {record.gate} p {record.persisted} d {record.dirty} next {self.next} gaps {gaps_text(self.gaps)}"

    # what sessions see

    def _is_seen(self, commit_timestamp, begun):
        """Whether a commit is among the first that many that are covered, or was when the device was opened."""
        if commit_timestamp in self.places:
            return self.places[commit_timestamp] < begun
        return commit_timestamp is not None and commit_timestamp < self.first

    def _seen(self, begun):
        """Returns the rows that the first that many covered commits leave."""
        rows = {version.key: version.row for version in self.held if version and self._is_there(version, begun)}
        return rows

    def _is_there(self, version, begun):
        return version.begin is not None and self._is_seen(version.begin, begun) and not (version.end and self._is_seen(version.end, begun))

    def rows_of(self, session):
        rows = self._seen(session.begun)
        for key, version in session.writes.items():
            rows.pop(key, None)
            if version:
                rows[key] = version.row
        return rows

    def session(self, number, *states):
        if number not in self.sessions:
            raise Refused("NoSession")
        session = self.sessions[number]
        if session.state not in states:
            raise Refused("WrongState")
        return session

    # steps

    def begin(self):
        number = next((it for it in range(2, 2 + MOST_SESSIONS) if it not in self.sessions), None)
        if number is None:
            raise Refused("SessionsFull")
        self.sessions[number] = Session(len(self.covered))
        return f"session {number}"

    def get(self, number, table, key):
        row = self.rows_of(self.session(number, "Active")).get((table, key))
        return "none" if row is None else f"row {row_text(row)}"

    def scan(self, number, table, low, high):
        rows = self.rows_of(self.session(number, "Active"))
        found = sorted((key, row) for key, row in rows.items() if key[0] == table and low <= key[1] <= high)
        return "\n".join([*(f"{table} {key} {row_text(row)}" for (table, key), row in found), f"end {len(found)}"])

    def put(self, number, table, key, row):
        # Such a row is too long for any image of versions 1 to 3, or of version 4, and makes no step.
        if len(row) > (480 if self.geometry.version > 3 else 96):
            raise Refused("TooLong")
        session = self.session(number, "Active")
        if len(row) > self.geometry.most_bytes:
            raise Refused("TooLong")
        self._may_write(session, (table, key))
        version = session.writes.get((table, key))
        if not version:
            version = self._taken(number, (table, key))
        version.row = row
        link = self._head((table, key))
        start = self.geometry.slot_word(version.slot)
        words = row_words((table, key), row, link.slot + 1 if link else 0, self.geometry.most_bytes // 8)
        session.writes[table, key] = version
        for at, word in enumerate([0, *words], 1):
            self.device.store(start + at, word)
        return "done"

    def _head(self, key):
        """Returns the newest version of the key that has a row, drawn or covered, also one that a deletion ended, while its slot is held."""
        drawn = [commit.writes[key] for commit in self.drawn if commit.writes.get(key)]
        head = drawn[-1] if drawn else self.heads.get(key)
        return head if head and self.held[head.slot] is head else None

    def _may_write(self, session, key):
        if key not in session.writes and len(session.writes) == MOST_KEYS:
            raise Refused("WriteSetFull")

    def _taken(self, number, key):
        """Takes the lowest free slot, and makes sure that its begin is 0 whatever a crash leaves."""
        slot = next((it for it, version in enumerate(self.held) if version is None), None)
        if slot is None:
            raise Refused("SlotsOut")
        self.held[slot] = Version(key, b"", slot, None)
        self.device.store(self.geometry.slot_word(slot), 0)
        self.device.flush(number, self.geometry.slot_line(slot))
        self.device.fence(number)
        return self.held[slot]

    def delete(self, number, table, key):
        session = self.session(number, "Active")
        self._may_write(session, (table, key))
        self._given_back(session, [(table, key)])
        session.writes[table, key] = None
        return "done"

    def _given_back(self, session, keys):
        for key in keys:
            if session.writes.get(key):
                self.held[session.writes[key].slot] = None

    def draw(self, number):
        session = self.session(number, "Active")
        if not session.writes:
            session.state = "Covered"
            return "done"
        later = [*self.covered[session.begun:], *self.drawn]
        conflicts = [key for key in sorted(session.writes) if any(key in commit.writes for commit in later)]
        if conflicts:
            raise Refused("Conflict", *conflicts[0])
        if self.next == self.record.dirty:
            raise Refused("WindowFull")
        if self.next + 2 * self.geometry.window >= LIMIT:
            raise Refused("TimestampsOut")
        commit = Commit(self.next, dict(session.writes), {key: self.newest.get(key) for key in session.writes})
        for version in commit.writes.values():
            if version:
                version.begin = self.next
        self.drawn.append(commit)
        self.next += 1
        session.state, session.commit = "Drawn", commit
        return f"drawn {commit.timestamp}"

    def stamp(self, number):
        session = self.session(number, "Drawn")
        self._stamp(session.commit)
        if session.commit.unstamped:
            return "more"
        session.state = "Stamped"
        return "stamped"

    def _stamp(self, commit):
        """Stores the timestamp in the begin of the new version of the next key, and in the end of the old one."""
        key = commit.unstamped[0]
        for at, version in enumerate((commit.writes[key], commit.ends[key])):
            if version:
                self.device.store(self.geometry.slot_word(version.slot) + at, commit.timestamp)
        del commit.unstamped[0]

    def poll(self, number):
        session = self.session(number, "Drawn", "Stamped", "Covered")
        if session.state != "Covered":
            return "waiting"
        return f"committed {session.commit.timestamp}" if session.commit else "done"

    def abort(self, number):
        session = self.session(number, "Active")
        self._given_back(session, list(session.writes))
        del self.sessions[number]
        return "done"

    def end(self, number):
        self.session(number, "Covered")
        del self.sessions[number]
        return "done"

    # the committer

    def tick(self):
        if self.cycle is None:
            return self._choose()
        if not self.cycle.operate(self.device):
            return "tick"
        self._cover()
        return f"covered {self.record.gate}"

    def _choose(self):
        reach, unstamped = self.record.persisted, 0
        for commit in self.drawn:
            if commit.unstamped:
                unstamped += 1
            elif unstamped <= MOST_LONGS:
                reach = max(reach, commit.timestamp)
        batch = [commit for commit in self.drawn if commit.timestamp <= reach and not commit.unstamped]
        drops_gaps = self.is_swept and self.gaps
        if not batch and not drops_gaps and 2 * (self.record.dirty - self.next) >= self.geometry.window:
            return "idle"
        if self.record.gate + 1 >= LIMIT:
            raise Refused("TimestampsOut")
        longs = [commit.timestamp for commit in self.drawn if commit.timestamp <= reach and commit.unstamped]
        gaps = [] if drops_gaps else self.gaps
        self.cycle = Cycle(self, Record(self.record.gate + 1, reach, self.next + self.geometry.window, gaps, longs), batch)
        return "tick"

    def _cover(self):
        cycle, self.cycle = self.cycle, None
        self.record, self.gaps = cycle.record, cycle.record.gaps
        for commit in cycle.batch:
            self.drawn.remove(commit)
            self.places[commit.timestamp] = len(self.covered)
            self.covered.append(commit)
            for key, version in commit.ends.items():
                if version:
                    version.end = commit.timestamp
                self.newest.pop(key, None)
                if commit.writes[key]:
                    self.newest[key] = self.heads[key] = commit.writes[key]
        for session in self.sessions.values():
            if session.commit in cycle.batch:
                session.state = "Covered"

    # the collector

    def visit(self):
        unswept = bool(self.gaps) and not self.is_swept
        slot = self.place
        if slot == self.geometry.slots:
            self.place = 0
            if unswept:
                self.device.fence(1)
            self.is_swept = True
            return "sweep end"
        self.place += 1
        if unswept:
            self._clear(slot, self.record_of_gaps())
            self.device.flush(1, self.geometry.slot_line(slot))
        version = self.held[slot]
        begun = [session.begun for session in self.sessions.values() if session.state == "Active"]
        if version and version.end and all(self._is_seen(version.end, it) for it in [*begun, len(self.covered)]):
            self.held[slot] = None
        return f"slot {slot}"

    def record_of_gaps(self):
        return Record(0, 0, 0, self.gaps)

    def close(self):
        while self.cycle:
            self.tick()
        for commit in self.drawn:
            while commit.unstamped:
                self._stamp(commit)
        if self.record.gate + 1 >= LIMIT:
            raise Refused("TimestampsOut")
        gaps = [] if self.is_swept else self.gaps
        self.cycle = Cycle(self, Record(self.record.gate + 1, self.next - 1, self.next, gaps), list(self.drawn))
        while self.cycle:
            self.tick()
        return f"closed gate {self.record.gate} p {self.record.persisted} d {self.record.dirty}"


def many(count, step):
    """Returns the answer to the last of that many steps, or to the first that finds nothing to do."""
    answer = ""
    for _ in range(count):
        answer = step()
        if answer == "idle":
            break
    return answer


def obeyed(room, line):
    """Returns what a line prints. A device that fails is raised."""
    name, *words = line.split()
    try:
        if name == "commit":
            return many(int(words[0]), room.tick)
        if name == "collect":
            return many(int(words[0]), room.visit)
        if name == "put":
            row = b"" if words[3] == "-" else bytes.fromhex(words[3])
            return room.put(*map(int, words[:3]), row)
        return getattr(room, name)(*map(int, words))
    except Refused as refused:
        if refused.text.startswith("refused 3 "):
            raise
        return refused.text


def lived(words, lines, fuse, choose):
    """Lives a life over these words, stopped after that many operations. Returns what it prints, the words that its stop leaves, and
    how many operations it made."""
    device, printed = Device(words, fuse), []
    try:
        room = Room(device)
        printed.append(room.opened_text())
        for line in lines:
            printed.append(room.close() if line == "close" else obeyed(room, line))
    except Refused as refused:
        printed.append(refused.text)
    return [*printed, "stopped"], device.crashed(choose), device.operations
