"""Takes a run of kv apart into its system calls, and opens what a power failure before any of them might have left.

strace gives the order of the writes, the new lengths, the syncs and the answers. An image is made so: all that was done before the last
sync began that had returned is there; of what was written since, each word of 8 bytes is there or not, by a coin, and so is each new length.
What was answered by then must be found in it, and besides at most the one in progress and, if the sender doesn't wait for each answer, the
commits whose answers were held.
"""
import os
import re
import subprocess

from journal import is_append, shorten
from store import IN_HAND, MOST_UNANSWERED, SMALL, Lost, Transactions, acknowledged, after, may_be_found, rows_in, send_and_wait

KEYS = 12
CALLS = "trace=openat,fcntl,ftruncate,pwrite64,fdatasync,fsync,write"
TEXT = re.compile(r'"((?:\\x[0-9a-f]{2})*)"')


def bytes_in(call):
    return bytes.fromhex(TEXT.search(call).group(1).replace("\\x", ""))


def calls_in(trace):
    """The system calls of a trace: its process, its text, and whether it has returned. One that others came in between is told twice."""
    pending = {}
    for line in open(trace):
        process, rest = line.split(None, 1)
        if "<unfinished" in rest:
            pending[process] = rest.split("<unfinished")[0].rstrip()
            yield process, rest, False
        elif "resumed>" in rest:
            yield process, pending.pop(process) + rest.split("resumed>")[1], True
        else:
            yield process, rest, True


def events_of(trace, file):
    """('size', bytes), ('write', offset, bytes), ('sync', how many of those came before it began), 'failed' for a sync that failed, and
    ('answer', how many were acknowledged by then), in order. A sync may be made by a copy of the descriptor."""
    events, numbers, done, changes, begun = [], set(), 0, 0, {}
    for process, call, returned in calls_in(trace):
        if not returned:
            begun[process] = changes
            continue
        before = begun.pop(process, changes)
        number = call.split("(", 1)[-1].split(",")[0].split(")")[0]
        if call.startswith("openat") and bytes_in(call).decode(errors="replace") == file:
            numbers = {call.rsplit("=", 1)[1].split()[0]}
        elif call.startswith("fcntl") and "F_DUPFD" in call and number in numbers:
            numbers.add(call.rsplit("=", 1)[1].split()[0])
        elif call.startswith("ftruncate") and number in numbers:
            events.append(("size", int(call.split(",")[1].split(")")[0])))
            changes += 1
        elif call.startswith("pwrite64") and number in numbers:
            events.append(("write", int(re.search(r", (\d+)\)\s*=", call).group(1)), bytes_in(call)))
            changes += 1
        elif call.startswith(("fdatasync", "fsync")) and number in numbers and not call.rstrip().endswith("= ?"):
            events.append(("failed" if "= -1 " in call else "sync", before))
        elif call.startswith("write(1,"):
            more = acknowledged(bytes_in(call).decode())
            if more:
                done += more
                events.append(("answer", done))
    return events


def change(held, event):
    """Makes the change of a write or a new length."""
    if event[0] == "size":
        held[event[1]:] = bytes(max(event[1] - len(held), 0))
    elif event[0] == "write":
        _, offset, put = event
        held.extend(bytes(max(offset + len(put) - len(held), 0)))
        held[offset:offset + len(put)] = put


def some_words(held, event, rng, chance):
    """Makes the change of a write, word by word or not."""
    _, offset, put = event
    held.extend(bytes(max(offset + len(put) - len(held), 0)))
    for word in range(0, len(put), 8):
        if rng.random() < chance:
            held[offset + word:offset + word + 8] = put[word:word + 8]


def image_before(first, events, stop, rng):
    """What a power failure just before that event may leave of a file that held this first, how many were acknowledged, and how many
    changes were open. Of those, a new length is there or not, and each word that was written; what is past the length isn't."""
    durable, since, done, synced = bytearray(first), [], 0, 0
    for event in events[:stop]:
        if event[0] == "sync":
            while since and synced < event[1]:
                change(durable, since.pop(0))
                synced += 1
        elif event[0] == "answer":
            done = event[1]
        else:
            since.append(event)
    if rng.random() < 0.5:
        since = since[:rng.randint(0, len(since))]
    chance, length = rng.choice([0.0, 0.1, 0.5, 0.9, 1.0]), len(durable)
    for event in since:
        if event[0] == "write":
            some_words(durable, event, rng, chance)
        elif rng.random() < 0.5:
            length = event[1]
    durable.extend(bytes(max(length - len(durable), 0)))
    return durable[:length], done, len(since)


def without_last_words(first, events):
    """A device that leaves out the last word of each entry that it appends: what must be found out."""
    held = bytearray(first)
    for event in events:
        if event[0] == "write" and is_append(held, event[1], len(event[2])):
            yield ("write", event[1], event[2][:-8])
        else:
            yield event
        change(held, event)


def without_syncs(_first, events):
    """A device that leaves out every second sync."""
    syncs = 0
    for event in events:
        syncs += event[0] == "sync"
        if event[0] != "sync" or syncs % 2:
            yield event


def traced(kv, file, sent, waits, options=()):
    """The events of a run of kv with these options, whose sender waits for the answer of each of these transactions or for none."""
    trace = file + ".trace"
    with subprocess.Popen(["strace", "-f", "-xx", "-s", "50000000", "-e", CALLS, "-o", trace, kv, *options, file],
                          stdin=subprocess.PIPE, stdout=subprocess.PIPE, stderr=subprocess.DEVNULL, text=True) as run:
        if waits:
            send_and_wait(run, sent)
            run.communicate()
        else:
            run.communicate("".join("\n".join(lines) + "\n" for _, lines in sent))
    if run.returncode != 0:
        raise Lost(f"kv ended with {run.returncode}")
    return events_of(trace, file)


def fail_power(kv, folder, rng, images, transactions, first, spoil, waits=False):
    """Power failures within one run over a file that holds this first. How many had open changes, and how many a commit that wasn't answered yet."""
    file, left = os.path.join(folder, "power.img"), os.path.join(folder, "left.img")
    with open(file, "wb") as out:
        out.write(first)
    source = Transactions(rng, KEYS, 3)
    sent = [source.next() for _ in range(transactions)]
    options = () if first else SMALL
    events = traced(kv, file, sent, waits, options)
    if spoil:
        events = list(spoil(first, events))
    models = [{}]
    for writes, _ in sent:
        models.append(after(models[-1], writes))
    start = next(at for at, event in enumerate(events) if event[0] == "write")
    unanswered = IN_HAND if waits else MOST_UNANSWERED
    torn = ahead = 0
    for number in range(images):
        stop = rng.randint(start, len(events))
        image, done, changes = image_before(first, events, stop, rng)
        torn += changes > 0
        with open(left, "wb") as out:
            out.write(image)
        rows = rows_in(kv, left, options)
        if rows not in may_be_found(models, done, unanswered):
            raise Lost(f"image {number}, before event {stop}, {done} acknowledged: found {sorted(rows.items())}")
        ahead += rows != models[done]
    return torn, ahead, sum(event[0] == "write" for event in events), sum(event[0] == "sync" for event in events)


def small_store(kv, folder):
    """The bytes of an empty store of 32 slots, with the smallest journal."""
    file = os.path.join(folder, "small.img")
    subprocess.run([kv, file, "--slots", "32"], input="", text=True, stdout=subprocess.DEVNULL, stderr=subprocess.DEVNULL, check=True)
    shorten(file)
    with open(file, "rb") as it:
        return it.read()


def run(kv, folder, rng, images, transactions=60, spoil=None):
    new = fail_power(kv, folder, rng, images // 4, transactions, b"", spoil)
    waiting = fail_power(kv, folder, rng, images // 4, transactions, b"", spoil, waits=True)
    small = fail_power(kv, folder, rng, images - 2 * (images // 4), transactions, small_store(kv, folder), spoil, waits=rng.random() < 0.5)
    torn, ahead, writes, syncs = map(sum, zip(new, waiting, small))
    return (f"{images} power failures within three runs of {transactions} transactions, two from a file that isn't there, in one of them by a sender "
            f"that waits for each answer, and one with a journal that is often full, {writes} writes and {syncs} syncs: {torn} with changes not yet synced; none acknowledged was lost; {ahead} had commits "
            f"whose answers were still to be printed, each as a whole")
