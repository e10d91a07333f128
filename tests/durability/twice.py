"""Two faults in a row: kv is killed at a sync, or a sync of it fails, and then the power fails while the next run opens the file.

What the first run wrote and didn't sync is in the page cache, where the next one reads it as if it were on the disk; after a sync that
failed the system even takes it for written. Each life here is a real run under strace, over the file as the one before left it: each sync
of it in turn is where it is killed, or fails. What the disk has is worked out from the calls: a write stays open until a sync has succeeded
that began after it, and one that was open when a sync failed never comes to the disk but by words that are written again. Of what is open
each word of 8 bytes, each sector of 512 or each page of 4096 is there or not, by a coin. The rows must be those that were acknowledged,
with the commit in progress or without it.
"""
import os
import subprocess

from journal import shorten
from power import CALLS, change, events_of
from store import IN_HAND, Lost, Transactions, acknowledged, after, may_be_found, rows_in

KEYS = 10
FIRST = {key: f"{key:02x}" for key in range(KEYS)}
# What a store is made with, and whether its journal is the smallest.
STORES = ((("--slots", "24"), True), (("--slots", "24"), False), ((), True))
UNITS = (8, 8, 512, 4096)
FAULTS = ("signal=KILL", "error=EIO")
MOST_SYNCS = 40


def life(kv, file, text, inject=None):
    """The events of a run over the file, with what it printed; `inject` is what becomes of one of its syncs."""
    trace = file + ".trace"
    fault = ["-e", f"inject=fdatasync,fsync:{inject}"] if inject else []
    run = subprocess.run(["strace", "-f", "-xx", "-s", "50000000", "-e", CALLS, *fault, "-o", trace, kv, file], input=text, capture_output=True, text=True, timeout=120, check=False)
    return events_of(trace, file), run


def some_units(held, event, rng, chance, unit):
    """Makes the change of a write, unit by unit or not: those of the file, as the disk has them."""
    _, offset, put = event
    at = 0
    while at < len(put):
        end = min((offset + at) // unit * unit + unit - offset, len(put))
        if unit < 4096 and held[offset + at:offset + at + 4096] == put[at:at + 4096]:
            end = min(at + 4096, len(put))
        elif rng.random() < chance:
            change(held, ("write", offset + at, put[at:end]))
        at = end
    held.extend(bytes(max(offset + len(put) - len(held), 0)))


def some_changes(held, since, rng, unit):
    """Makes some of these changes, which are open; what is past the length isn't there."""
    if rng.random() < 0.2:
        since = since[:rng.randint(0, len(since))]
    chance, length = rng.choice([0.1, 0.3, 0.5, 0.7, 0.9]), len(held)
    for event in since:
        if event[0] == "write":
            some_units(held, event, rng, chance, unit)
        elif rng.random() < 0.5:
            length = event[1]
    held.extend(bytes(max(length - len(held), 0)))
    del held[length:]


def after_lives(closed, lives, rng, unit):
    """What a disk has of a file that was closed so, after these lives, and the changes that are open: of those that were so when a sync
    failed, what came to the disk is decided for good."""
    durable, since = bytearray(closed), []
    for events in lives:
        earlier, gone = len(since), 0
        for event in events:
            if event[0] in ("size", "write"):
                since.append(event)
            elif event[0] in ("sync", "failed"):
                count = earlier + event[1] - gone
                begun, since, gone = since[:count], since[count:], gone + count
                if event[0] == "failed":
                    some_changes(durable, begun, rng, unit)
                for one in begun if event[0] == "sync" else ():
                    change(durable, one)
    return durable, since


def closed_store(kv, folder, options, is_short):
    """The bytes of a closed store with the first rows; it may have the smallest journal, in which nothing is."""
    file = os.path.join(folder, "closed.img")
    if os.path.exists(file):
        os.remove(file)
    lines = "".join(f"put 1 {key} {row}\n" for key, row in FIRST.items())
    subprocess.run([kv, file, *options], input=lines, text=True, stdout=subprocess.DEVNULL, stderr=subprocess.DEVNULL, check=True)
    if is_short:
        shorten(file)
    with open(file, "rb") as it:
        return it.read()


def scenarios(kv, folder, rng, closed):
    """For each sync of a run with one commit, killed there or failing: whether the commit was in progress then, the rows that may be found, the
    lives up to then, and that of the next opening. One of three is disturbed a second time, at any sync of an opening."""
    file = os.path.join(folder, "lives.img")
    for fault in FAULTS:
        for at in range(1, MOST_SYNCS):
            writes, lines = Transactions(rng, KEYS, 3).next()
            with open(file, "wb") as out:
                out.write(closed)
            events, run = life(kv, file, "\n".join(lines) + "\n", f"{fault}:when={at}")
            if run.returncode == 0:
                break
            lives = [events]
            if rng.random() < 0.33:
                lives.append(life(kv, file, "", f"{rng.choice(FAULTS)}:when={rng.randint(1, 6)}")[0])
            last, run_after = life(kv, file, "")
            if run_after.returncode != 0:
                raise Lost(f"sync {at} {fault}: the next run isn't opened: {run_after.stderr}")
            done = acknowledged(run.stdout)
            yield "ready" in run.stdout and not done, may_be_found([FIRST, after(FIRST, writes)], done, IN_HAND), lives, last


def without_write_back(events):
    """An opening that leaves out what it writes before its first sync, and that sync: what must be found out."""
    at = next(at for at, event in enumerate(events) if event[0] == "sync")
    left_out = sum(event[0] in ("size", "write") for event in events[:at])
    return [("sync", event[1] - left_out) if event[0] == "sync" else event for event in events[at + 1:]]


def run(kv, folder, rng, images, spoil=None):
    found = []
    for options, is_short in STORES:
        closed = closed_store(kv, folder, options, is_short)
        found += [(closed, *one) for one in scenarios(kv, folder, rng, closed)]
    in_hand = [one for one in found if one[1]]
    left, lost, torn = os.path.join(folder, "left.img"), [], 0
    for number in range(images):
        closed, _, rows, lives, last = rng.choice(in_hand) if number % 3 else found[number // 3 % len(found)]
        last, unit = spoil(last) if spoil else last, rng.choice(UNITS)
        first = next((at for at, event in enumerate(last) if event[0] == "sync"), len(last))
        stop = rng.choice((first, first, first, rng.randint(0, len(last))))
        durable, since = after_lives(closed, [*lives, last[:stop]], rng, unit)
        torn += bool(since)
        some_changes(durable, since, rng, unit)
        with open(left, "wb") as out:
            out.write(durable)
        try:
            if rows_in(kv, left) not in rows:
                lost.append(f"image {number}, {unit} bytes, before event {stop}: {rows_in(kv, left)}, not one of {rows}")
        except Lost as unopened:
            lost.append(f"image {number}, {unit} bytes, before event {stop}: {unopened}")
    if lost:
        raise Lost(f"{len(lost)} of {images} images; the first: {lost[0]}")
    return (f"{len(found)} runs killed at a sync or with one that fails, {len(in_hand)} of them within a commit, and {images} power failures of the next opening, by "
            f"words, sectors and pages, {torn} with changes not yet synced: none acknowledged was lost")
