"""Kills a process of 16 threads at random, opens its store again, and compares it with a model.

    threads.py FOLDER SECONDS SEED thread|stack [PROGRAM]

The process is this file again, or the program, which is made of threads.c. Each thread has keys of its own, which no other writes, and
moves money between accounts that all share. Before a commit it says what it will write, and afterwards that the commit was acknowledged.
It reads its own keys, which have to be as the model says, and the sum of all accounts. The process is killed without warning, and the
next one has to find each thread's keys as its last acknowledged commit left them, or as the one after that would have. It prints how many
commits were acknowledged and how many kills there were.
"""
import os
import random
import select
import signal
import subprocess
import sys
import threading
import time

import nipamast

THREADS, KEYS, ACCOUNTS, MONEY, SLOTS = 16, 6, 8, 1000, 16384
OWN, SHARED = 1, 2
LONGEST = 4.0


def open_store(path, by_stack):
    return nipamast.open(path, slots=SLOTS, channels=THREADS + 1, by_stack=by_stack)


def number_of(row):
    return int.from_bytes(row, "little") if row is not None else None


# --- the process that is killed


def say(*words):
    """Prints a line in one write, which a pipe takes whole whatever other threads write."""
    os.write(1, (" ".join(str(word) for word in words) + "\n").encode())


class Worker:
    def __init__(self, store, thread, seed):
        self.store, self.thread, self.random = store, thread, random.Random(seed)
        self.rows = {key: number_of(store.get(OWN, key)) for key in self.keys()}

    def keys(self):
        return range(self.thread * KEYS, (self.thread + 1) * KEYS)

    def must(self, found, expected, what):
        if found != expected:
            say("wrong", self.thread, what, found, expected)
            os._exit(3)

    def write(self, count):
        """Writes or deletes some of its own keys, and says so before and after."""
        writes = {key: self.random.choice((None, count, count)) for key in self.random.sample(self.keys(), self.random.randrange(1, KEYS))}
        with self.store.transaction() as t:
            for key in self.keys():
                self.must(number_of(t.get(OWN, key)), self.rows[key], f"key {key}")
            for key, number in writes.items():
                if number is None:
                    t.delete(OWN, key)
                else:
                    t.put(OWN, key, number.to_bytes(8, "little"))
            say("try", self.thread, *(f"{key}={'-' if number is None else number}" for key, number in writes.items()))
        say("kept", self.thread)
        self.rows.update(writes)

    def pay(self):
        """Moves money between two accounts, which other threads do too."""
        source, target = self.random.sample(range(ACCOUNTS), 2)

        def move(t):
            self.must(sum(number_of(row) for _, row in t.scan(SHARED)), ACCOUNTS * MONEY, "the sum of all accounts")
            left, there = number_of(t[SHARED, source]), number_of(t[SHARED, target])
            moved = self.random.randrange(left + 1)
            t[SHARED, source], t[SHARED, target] = (left - moved).to_bytes(8, "little"), (there + moved).to_bytes(8, "little")

        self.store.transact(move)

    def run(self):
        try:
            for count in range(1, 1 << 60):
                try:
                    self.write(count)
                    self.pay()
                except nipamast.Full:
                    # Another thread that had to wait for a processor keeps old versions; what was put here is rolled back.
                    pass
        except Exception as error:
            say("wrong", self.thread, repr(error).replace("\n", " ")[:300])
            os._exit(3)


def work(path, seed, by_stack):
    store = open_store(path, by_stack)
    if store.get(SHARED, 0) is None:
        store.write([(SHARED, account, MONEY.to_bytes(8, "little")) for account in range(ACCOUNTS)])
    for thread in range(THREADS):
        say("has", thread, *(f"{key}={number_of(row)}" for key, row in store.scan(OWN, thread * KEYS, (thread + 1) * KEYS - 1)))
    workers = [Worker(store, thread, seed * THREADS + thread) for thread in range(THREADS)]
    threads = [threading.Thread(target=worker.run) for worker in workers]
    for thread in threads:
        thread.start()
    for thread in threads:
        thread.join()


# --- the process that kills it


class Model:
    """What each thread's last acknowledged commit left, and what it may have committed since."""

    def __init__(self):
        self.rows = [{} for _ in range(THREADS)]
        self.tried = [None] * THREADS
        self.commits = self.kills = self.unacknowledged = 0

    def after(self, thread):
        rows = dict(self.rows[thread])
        for key, number in self.tried[thread] or ():
            if number is None:
                rows.pop(key, None)
            else:
                rows[key] = number
        return rows

    def take(self, kind, thread, *words):
        """A line that the process printed."""
        if kind == "wrong":
            raise SystemExit(f"wrong: thread {thread}, {' '.join(words)}")
        thread = int(thread)
        if kind == "has":
            self.find(thread, {int(key): int(number) for key, number in (word.split("=") for word in words)})
        elif kind == "try":
            self.tried[thread] = [(int(key), None if number == "-" else int(number)) for key, number in (word.split("=") for word in words)]
        elif kind == "kept":
            self.rows[thread], self.tried[thread] = self.after(thread), None
            self.commits += 1

    def find(self, thread, found):
        """What is found after the kill of the process before."""
        if found not in (self.rows[thread], self.after(thread)):
            raise SystemExit(f"wrong: thread {thread} has {found}, neither {self.rows[thread]} nor {self.after(thread)}")
        self.unacknowledged += found != self.rows[thread]
        self.rows[thread], self.tried[thread] = found, None


def printed_until(process, end):
    """What the process prints until that time, when it is killed, or until it ends."""
    parts = []
    while (left := end - time.monotonic()) > 0 and select.select([process.stdout], [], [], left)[0]:
        parts.append(os.read(process.stdout.fileno(), 1 << 16))
        if not parts[-1]:
            break
    process.kill()
    parts.append(process.stdout.read())
    return b"".join(parts)


def live(model, command, seconds):
    process = subprocess.Popen(command, stdout=subprocess.PIPE, bufsize=0)
    printed = printed_until(process, time.monotonic() + seconds)
    process.stdout.close()
    ended = process.wait()
    for line in printed.decode().split("\n")[:-1]:
        model.take(*line.split())
    if ended != -signal.SIGKILL:
        raise SystemExit(f"wrong: the process ended by itself, with {ended}")
    model.kills += 1


def main():
    if sys.argv[1] == "work":
        work(sys.argv[2], int(sys.argv[3]), sys.argv[4] == "stack")
        return
    folder, seconds, seed, calls, *program = sys.argv[1:]
    path, model, chance = os.path.join(folder, "threads.store"), Model(), random.Random(int(seed))
    program = program or [sys.executable, "-B", __file__, "work"]
    if os.path.exists(path):
        os.unlink(path)
    end = time.monotonic() + float(seconds)
    while time.monotonic() < end:
        live(model, [*program, path, str(chance.randrange(1 << 30)), calls], 0.3 + chance.random() * LONGEST)
    print(f"{model.commits} commits were acknowledged, {model.kills} kills, {model.unacknowledged} commits were kept unacknowledged")


if __name__ == "__main__":
    main()
