"""Runs random steps of several transactions over a store, and compares each with a model in Python: client.py FILE SECONDS SEED [stack].

The model keeps the rows of each commit. A transaction sees those that were committed when it began, and its own writes; of two that
write the same key the first to commit wins. The store is closed and opened again now and then. It prints how many steps it compared.
"""
import os
import random
import sys
import time

import nipamast

TABLES, KEYS, OPEN, SLOTS, MOST_KEYS = 3, 40, 6, 4096, 32


class Modelled:
    """A transaction, and what it should see."""

    def __init__(self, store, model):
        self.real = store.transaction()
        self.seen = dict(model.rows)
        self.began = model.commits
        self.writes = {}

    def expected(self, where):
        return self.writes[where] if where in self.writes else self.seen.get(where)

    def listed(self, table, least, greatest, limit, reverse):
        rows = {**self.seen, **self.writes}
        found = sorted((key, row) for (of, key), row in rows.items() if of == table and least <= key <= greatest and row is not None)
        return (found[::-1] if reverse else found)[:limit]


class Model:
    """The rows that are committed, and by which commit each key was written last."""

    def __init__(self):
        self.rows, self.written, self.commits = {}, {}, 0

    def conflicts(self, t, keys):
        return any(self.written.get(where, 0) > t.began for where in keys)

    def commit(self, t):
        self.commits += 1
        for where, row in t.writes.items():
            self.written[where] = self.commits
            if row is None:
                self.rows.pop(where, None)
            else:
                self.rows[where] = row


class Run:
    def __init__(self, path, seed, by_stack):
        self.path, self.by_stack, self.random = path, by_stack, random.Random(seed)
        self.model, self.open, self.steps = Model(), [], 0
        self.store = nipamast.open(path, slots=SLOTS, channels=OPEN + 1, by_stack=by_stack)

    def must(self, found, expected, what):
        self.steps += 1
        if found != expected:
            raise AssertionError(f"step {self.steps}, {what}: {found!r}, not {expected!r}")

    def where(self):
        return self.random.randrange(TABLES), self.random.choice((self.random.randrange(KEYS), nipamast.GREATEST_KEY))

    def row(self):
        return self.random.randbytes(self.random.randrange(33))

    def begin(self):
        if len(self.open) < OPEN:
            self.open.append(Modelled(self.store, self.model))

    def get(self, t):
        where = self.where()
        self.must(t.real.get(*where), t.expected(where), f"get {where}")

    def write(self, t):
        where, row = self.where(), self.row() if self.random.random() < 0.7 else None
        is_more = where not in t.writes and len(t.writes) == MOST_KEYS
        try:
            if row is None:
                t.real.delete(*where)
            else:
                t.real.put(*where, row)
        except nipamast.TooManyKeys:
            self.must(True, is_more, "too many keys")
        except nipamast.Conflict:
            self.must(True, self.model.conflicts(t, [where]), "a conflict of a write")
        else:
            self.must(is_more, False, "one key more")
            t.writes[where] = row

    def scan(self, t):
        table, least, greatest = self.random.randrange(TABLES), self.random.randrange(KEYS), self.random.choice((self.random.randrange(KEYS), nipamast.GREATEST_KEY))
        limit, reverse = self.random.choice((None, 1, 3, 100)), self.random.random() < 0.5
        found = list(t.real.scan(table, least, greatest, limit, reverse))
        self.must(found, t.listed(table, least, greatest, limit, reverse), f"scan {table} {least} {greatest} {limit} {reverse}")

    def commit(self, t):
        self.open.remove(t)
        lost = self.model.conflicts(t, t.writes)
        try:
            timestamp = t.real.commit()
        except nipamast.Conflict:
            self.must(True, lost, "a conflict of a commit")
            return
        self.must(lost, False, "a commit without a conflict")
        self.must(timestamp > 0, bool(t.writes), "a timestamp")
        if t.writes:
            self.model.commit(t)

    def abort(self, t):
        self.open.remove(t)
        t.real.abort()

    def reopen(self):
        self.store.close()
        for t in self.open:
            try:
                t.real.get(1, 1)
                raise AssertionError("a transaction outlives its store")
            except nipamast.Misuse:
                pass
        self.open = []
        self.store = nipamast.open(self.path, channels=OPEN + 1, by_stack=self.by_stack)
        self.whole()

    def whole(self):
        found = {(table, key): row for table in range(TABLES) for key, row in self.store.scan(table)}
        self.must(found, self.model.rows, "all rows")

    def step(self):
        if not self.open or self.random.random() < 0.1:
            self.begin()
        if self.random.random() < 0.002:
            self.reopen()
        elif self.open:
            steps = [self.get] * 6 + [self.write] * 8 + [self.scan] * 2 + [self.commit] * 2 + [self.abort]
            self.random.choice(steps)(self.random.choice(self.open))
        else:
            where = self.where()
            self.must(self.store.get(*where), self.model.rows.get(where), f"a read of {where}")


def main():
    path, seconds, seed, *more = sys.argv[1:]
    if os.path.exists(path):
        os.unlink(path)
    run, end = Run(path, int(seed), more == ["stack"]), time.monotonic() + float(seconds)
    while time.monotonic() < end:
        for _ in range(50):
            run.step()
    run.reopen()
    run.store.close()
    print(f"{run.steps} steps")


if __name__ == "__main__":
    main()
