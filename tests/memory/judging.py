"""Judges what a run printed of which a request for memory was refused, and compares it with a run of which none was."""
import re

# what a refused request is told by: a thread that there is no memory for isn't started, and a file isn't read or written
WANTING = ("refused 16 OutOfMemory", "refused 21 NoThread", "file fault")


class Wrong(Exception):
    """A crash, or something printed that mustn't be."""


def put_by(lines):
    """The rows that lines of input put: (table, key, row)."""
    rows = set()
    for line in lines:
        words = line.split()
        if len(words) == 5 and words[0] == "put":
            rows.add((int(words[2]), int(words[3]), words[4]))
    return rows


def read_in(lines):
    """The rows that replies show: of a scan or a check with table and key, of a get alone."""
    for line in lines:
        if found := re.fullmatch(r"(\d+) (\d+) ([0-9a-f]+|-)", line):
            yield int(found[1]), int(found[2]), found[3]
        elif found := re.fullmatch(r"row ([0-9a-f]+|-)", line):
            yield None, None, found[1]


def judge_rows(lines, known):
    """Each row that is shown is one that was put, or that the run showed of which nothing was refused."""
    bare = {row for _, _, row in known}
    for table, key, row in read_in(lines):
        if row not in bare if table is None else (table, key, row) not in known and (None, None, row) not in known:
            raise Wrong(f"a wrong row: {table} {key} {row}")


def judge_ending(ended, whole):
    """It ended by itself, with the status of the whole run or with 1."""
    if ended.status is None:
        raise Wrong("it didn't end")
    if ended.status < 0:
        raise Wrong(f"signal {-ended.status}")
    if ended.status not in (whole.status, 1):
        raise Wrong(f"status {ended.status}")


def judge_wbl(ended, whole, known):
    """The first line that differs says that memory was lacking, or is missing, and no row is wrong. Whether nothing was told."""
    judge_ending(ended, whole)
    judge_rows(ended.lines, known | set(read_in(whole.lines)))
    for mine, other in zip(ended.lines, whole.lines):
        if mine != other:
            if mine not in WANTING:
                raise Wrong(f"{mine!r} where nothing was refused before, for {other!r}")
            return False
    if len(ended.lines) > len(whole.lines):
        if ended.lines[len(whole.lines)] not in WANTING:
            raise Wrong(f"a line more: {ended.lines[len(whole.lines)]!r}")
        return False
    is_told = ended.status != 0 and ended.told
    if ended.status == whole.status and len(ended.lines) < len(whole.lines) and not is_told:
        raise Wrong("lines are missing")
    return ended.status != whole.status and not is_told


MAY_WANT = ("opening", "tables", "Begin", "Scan", "Put", "Delete", "Draw", "Commit", "open", "publish", "prune")
REFUSED = re.compile(r"(\w+)(?:\([\d, ]*\))?: (?:OutOfMemory|waits|Refused\(OutOfMemory\))")


def judge_asked_again(lines, whole):
    """All but the refusals is as in the whole run, up to where the run's own memory was refused. Whether that was so."""
    kept = []
    for place, line in enumerate(lines):
        found = REFUSED.fullmatch(line)
        if not found:
            kept.append(line)
        elif found[1] not in MAY_WANT:
            raise Wrong(f"{line!r}, and it takes no memory")
        elif found[1] == "Commit" and not lines[place + 1 : place + 2] == [line.split(":")[0] + ": chosen"]:
            raise Wrong(f"{line!r}, and it isn't the tick that chooses")
    if kept == whole.lines:
        return True
    if kept == whole.lines[: len(kept)]:
        return False
    raise Wrong(f"asked again it went on otherwise: {kept}")


def judge_tables(lines):
    """Each opening has the rows of what was covered: a model of that, by what is asked and answered."""
    covered, drawn, writes, shown = {}, {}, {}, None
    for line in [*lines, "end"]:
        if found := re.fullmatch(r"has (\d+) \[(\d+)\]", line):
            if shown is not None:
                shown[int(found[1])] = int(found[2])
            continue
        if line.startswith("tables"):
            continue
        if shown is not None and shown != covered:
            raise Wrong(f"an opening has {shown}, and {covered} was covered")
        shown = None
        if line.startswith("opened"):
            shown, drawn, writes = {}, {}, {}
        elif found := re.fullmatch(r"Begin: Began\((\d+)\)", line):
            writes[int(found[1])] = {}
        elif found := re.fullmatch(r"Put\((\d+), (\d+), (\d+)\): Done", line):
            writes[int(found[1])][int(found[2])] = int(found[3])
        elif found := re.fullmatch(r"Delete\((\d+), (\d+)\): Done", line):
            writes[int(found[1])][int(found[2])] = None
        elif found := re.fullmatch(r"Draw\((\d+)\): Drawn\((\d+)\)", line):
            drawn[int(found[2])] = writes[int(found[1])]
        elif found := re.fullmatch(r"Commit\(\d+\): covered \d+ p (\d+)", line):
            for timestamp in sorted(it for it in drawn if it <= int(found[1])):
                covered.update(drawn.pop(timestamp))
            covered = {key: byte for key, byte in covered.items() if byte is not None}


def judge_bare(lines, whole):
    """As with memory for the stores, or the device failed: then each step is Failed, and the opening has what was covered."""
    failed = [place for place, line in enumerate(lines) if re.search(r": (Refused\(Device\)|Device)$", line)]
    if not failed:
        return judge_asked_again(lines, whole)
    place = failed[0]
    judge_asked_again(lines[:place], whole)
    if not lines[place].startswith("opening") and lines[place + 1 : place + 2] not in ([], ["then: Refused(Failed)"]):
        raise Wrong(f"after a failing device {lines[place + 1]!r}")
    return True
