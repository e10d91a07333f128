"""Makes each write, each sync and each new length of a run of kv fail in turn, and stops kv at each; and opens what was left.

The file has a journal that a few commits fill, so the calls are those of an opening, of appends, of writing the image in place and of a
close.
"""
import os
import shutil
import subprocess

from journal import shorten
from store import Lost, Transactions, acknowledged, after, may_be_found, rows_in

CALLS = ("pwrite64", "fdatasync", "fsync", "ftruncate")
FIRST = {1: "a1", 2: "a2"}
KEYS = 6
TRANSACTIONS = 12


def prepared(kv, folder, rng):
    """A file with two rows, the lines of some transactions, and the rows after each of them."""
    base = os.path.join(folder, "base.img")
    if os.path.exists(base):
        os.remove(base)
    subprocess.run([kv, base, "--slots", "24"], input="put 1 1 a1\nput 1 2 a2\n", text=True, stdout=subprocess.DEVNULL, stderr=subprocess.DEVNULL, check=True)
    shorten(base)
    source, models, text = Transactions(rng, KEYS, 4), [FIRST], ""
    for _ in range(TRANSACTIONS):
        writes, lines = source.next()
        models.append(after(models[-1], writes))
        text += "\n".join(lines) + "\n"
    return base, text, models


def disturbed(kv, base, file, text, models, call, at, how):
    """A run in which this call is disturbed: what became of it. What it left is opened."""
    shutil.copy(base, file)
    run = subprocess.run(["strace", "-f", "-o", os.devnull, "-e", f"trace={call}", "-e", f"inject={call}:{how}:when={at}", kv, file],
                         input=text, capture_output=True, text=True, timeout=120, check=False)
    done, rows = acknowledged(run.stdout), rows_in(kv, file)
    if rows not in may_be_found(models, done):
        raise Lost(f"{call} {at} {how}: {done} acknowledged, found {rows}, {run.stdout}")
    return run


def run(kv, folder, rng, most):
    base, text, models = prepared(kv, folder, rng)
    failed = unopened = 0
    for call in CALLS:
        for at in range(1, most + 1):
            ended = disturbed(kv, base, os.path.join(folder, "fail.img"), text, models, call, at, "error=EIO")
            if ended.returncode == 0:
                break
            failed += 1
            unopened += "ready" not in ended.stdout
    return (f"{failed} runs with a failing write, sync or new length, {unopened} of them not opened and each with a status other than 0; nothing "
            f"acknowledged was lost")


def stops(kv, folder, rng, most):
    base, text, models = prepared(kv, folder, rng)
    stopped = early = 0
    for call in CALLS:
        for at in range(1, most + 1):
            ended = disturbed(kv, base, os.path.join(folder, "stop.img"), text, models, call, at, "error=EIO:signal=KILL")
            if ended.returncode == 0:
                break
            stopped += 1
            early += "ready" not in ended.stdout
    return f"{stopped} runs killed at a write, a sync or a new length, {early} of them within the opening; none acknowledged was lost, and none is there in part"
