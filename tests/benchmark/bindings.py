"""bindings.py thread|stack|sqlite FOLDER SECONDS: the same work as bindings.c, from Python, with as many lines of output.
bindings.py thread|stack FOLDER ROUNDS THREADS: that many commits of a row by each thread, each of which updates keys of its own.
bindings.py LIBRARY MICROSECONDS ROUNDS THREADS puts|calls [apart]: the same over together.c, which only waits, or calls of its one function
alone; with `apart` other threads wait for them.
"""
import ctypes
import os
import sqlite3
import sys
import threading
import time

KEYS, ROWS, THREADS, ROW = 1024, 32, 8, b"abcdefgh"


def measure(name, work, seconds, together):
    start, made = time.perf_counter(), 0
    while True:
        for i in range(made, made + together):
            work(i)
        made += together
        end = time.perf_counter()
        if end - start > seconds:
            break
    print(name, f"{made / (end - start):.0f}", flush=True)


def measure_threads(name, works, seconds):
    start, counts = time.perf_counter(), [0] * len(works)

    def run(number):
        while time.perf_counter() < start + seconds:
            works[number](number * 100 + counts[number] % 100)
            counts[number] += 1

    threads = [threading.Thread(target=run, args=(number,)) for number in range(len(works))]
    for thread in threads:
        thread.start()
    for thread in threads:
        thread.join()
    print(name, f"{sum(counts) / (time.perf_counter() - start):.0f}", flush=True)


def measure_nipamast(path, seconds, by_stack):
    import nipamast

    with nipamast.open(path, slots=16_384, by_stack=by_stack) as store:
        def write(first, count):
            store.write([(1, key % KEYS, ROW) for key in range(first, first + count)])

        for first in range(0, KEYS, ROWS):
            write(first, ROWS)
        measure("get", lambda i: store.get(1, i % KEYS), seconds, 64)
        with store.transaction() as t:
            measure("get-within", lambda i: t.get(1, i % KEYS), seconds, 64)
        measure("commit", lambda i: store.put(1, i % KEYS, ROW), seconds, 8)
        measure("commit-rows", lambda i: write(i * ROWS, ROWS), seconds, 4)
        measure_threads("commit-threads", [lambda i: store.put(1, i % KEYS, ROW)] * THREADS, seconds)


def measure_rounds(works, rounds):
    """Each thread does as much, since a call that only waits waits for all threads."""
    def run(work):
        for number in range(rounds):
            work(number)

    threads, start = [threading.Thread(target=run, args=(work,)) for work in works], time.perf_counter()
    for thread in threads:
        thread.start()
    for thread in threads:
        thread.join()
    print("commit-own", f"{rounds * len(works) / (time.perf_counter() - start):.0f}", flush=True)


def puts_of(store, count):
    """Returns what each thread does: it commits a row, to one of its keys in turn."""
    return [lambda i, first=number * 8: store.put(1, first + i % 8, ROW) for number in range(count)]


def measure_committers(path, rounds, by_stack, count):
    import nipamast

    with nipamast.open(path, slots=16_384, channels=count, by_stack=by_stack) as store:
        measure_rounds(puts_of(store, count), rounds)


def waiting_store(waits):
    """Returns a store whose put calls a function of the library that only waits."""
    import nipamast

    declared, nipamast._write_row = nipamast._write_row, waits.write_row
    waits.write_row.restype, waits.write_row.argtypes = declared.restype, declared.argtypes
    return nipamast.Store(None)


def measure_waits(library, microseconds, rounds, count, kind, *apart):
    waits, count = ctypes.CDLL(library), int(count)
    waits.wait_of(count, ctypes.c_long(int(microseconds)), len(apart))
    works = puts_of(waiting_store(waits), count) if kind == "puts" else [lambda _: waits.wait_together()] * count
    measure_rounds(works, int(rounds))


def connect(path):
    db = sqlite3.connect(path, isolation_level=None, timeout=60, check_same_thread=False)
    db.execute("PRAGMA journal_mode=WAL")
    db.execute("PRAGMA synchronous=FULL")
    db.execute("CREATE TABLE IF NOT EXISTS kv(k INTEGER PRIMARY KEY, v BLOB)")
    return db


def measure_sqlite(path, seconds):
    db, put = connect(path), "INSERT OR REPLACE INTO kv VALUES(?,?)"

    def get(i):
        return db.execute("SELECT v FROM kv WHERE k=?", (i % KEYS,)).fetchone()[0]

    def write(first, count):
        db.execute("BEGIN IMMEDIATE")
        db.executemany(put, [(key % KEYS, ROW) for key in range(first, first + count)])
        db.execute("COMMIT")

    for first in range(0, KEYS, ROWS):
        write(first, ROWS)
    measure("get", get, seconds, 64)
    db.execute("BEGIN")
    measure("get-within", get, seconds, 64)
    db.execute("COMMIT")
    measure("commit", lambda i: db.execute(put, (i % KEYS, ROW)), seconds, 8)
    measure("commit-rows", lambda i: write(i * ROWS, ROWS), seconds, 4)
    db.close()
    connections = [connect(path) for _ in range(THREADS)]
    measure_threads("commit-threads", [lambda i, db=db: db.execute(put, (i % KEYS, ROW)) for db in connections], seconds)
    for db in connections:
        db.close()


def main():
    if sys.argv[1].endswith(".so"):
        measure_waits(*sys.argv[1:])
        return
    engine, folder, seconds = sys.argv[1], sys.argv[2], float(sys.argv[3])
    path = os.path.join(folder, "bindings.db")
    if len(sys.argv) > 4:
        measure_committers(path, int(sys.argv[3]), engine == "stack", int(sys.argv[4]))
    elif engine == "sqlite":
        measure_sqlite(path, seconds)
    else:
        measure_nipamast(path, seconds, engine == "stack")


main()
