"""Tests of the Python package, for unittest: what it does, each error, threads, forks, and kills of a process that commits.

`tests/bindings/run` runs it over the package as pip installs it. FAIL_LIBRARY names the library of fail.c.
"""
import os
import pathlib
import signal
import subprocess
import sys
import tempfile
import threading
import time
import unittest

import nipamast

# How many bytes a store of the standard layout has: 65,536 slots of 64 bytes, two places of 256, and a superblock of 64.
WHOLE = 65_536 * 64 + 2 * 256 + 64
BY_STACK = os.environ.get("BY_STACK") == "1"
FOLDER = os.environ.get("TEST_FOLDER")

# Increments a number in the store, and prints it when the commit has returned.
COMMITTER = """
import nipamast, struct, sys
with nipamast.open(sys.argv[1], slots=256, channels=2, by_stack=sys.argv[2] == "1") as store:
    def add(t):
        number = struct.unpack("<Q", t.get(1, 1, bytes(8)))[0] + 1
        t[1, 1] = t[1, 2] = struct.pack("<Q", number)
        return number
    while True:
        print(store.transact(add), flush=True)
"""

# Lets syncs fail at each step of a store's life.
FAILING = """
import ctypes, nipamast, os, sys
library = ctypes.CDLL(os.environ["LD_PRELOAD"])
store = nipamast.open(sys.argv[1], slots=256, channels=3, by_stack=sys.argv[2] == "1")
store[1, 1] = b"kept"
late = store.transaction()
late[1, 2] = b"late"
library.fail_syncs(1)
for step in (lambda: store.put(1, 1, b"lost"), lambda: store.put(1, 1, b"more"), late.commit, store.close):
    try:
        step()
        print("None")
    except nipamast.Error as error:
        print(type(error).__name__)
library.fail_syncs(0)
with nipamast.open(sys.argv[1]) as store:
    print(store[1, 1] in (b"kept", b"lost"), store.get(1, 2))
"""

# Is in a call of a transaction while another thread calls it too.
BUSY = """
import ctypes, nipamast, os, sys, threading, time
library = ctypes.CDLL(os.environ["LD_PRELOAD"])
with nipamast.open(sys.argv[1], slots=256, channels=3, by_stack=sys.argv[2] == "1") as store:
    t = store.transaction()
    t[1, 1] = b"row"
    library.slow_syncs(500000)
    committer = threading.Thread(target=t.commit)
    committer.start()
    time.sleep(0.2)
    try:
        t.get(1, 1)
        print("None")
    except nipamast.Error as error:
        print(type(error).__name__)
    committer.join()
    print(store[1, 1])
"""


def run(program, *words, preload=None):
    environment = {**os.environ, **({"LD_PRELOAD": preload} if preload else {})}
    return subprocess.run([sys.executable, "-c", program, *map(str, words)], capture_output=True, text=True, timeout=60, env=environment)


class Tests(unittest.TestCase):
    def setUp(self):
        folder = tempfile.TemporaryDirectory(dir=FOLDER)
        self.addCleanup(folder.cleanup)
        self.path = pathlib.Path(folder.name) / "test.store"

    def open(self, **words):
        return nipamast.open(self.path, **{"slots": 256, "channels": 4, "by_stack": BY_STACK, **words})

    # --- what it does

    def test_the_program_of_the_docstring(self):
        shown = nipamast.__doc__.split("\n\n    import")[1].split("\n\nA row")[0]
        lines = ["import" + shown.split("\n")[0], *(line[4:] for line in shown.split("\n")[1:])]
        folder = str(self.path.parent)
        found = subprocess.run([sys.executable, "-c", "\n".join(lines)], cwd=folder, capture_output=True, text=True, timeout=60)
        self.assertEqual((found.stdout, found.stderr), ("b'ten'\n7 b'ten'\n", ""))

    def test_rows_are_read_written_and_deleted(self):
        with self.open() as store:
            with store.transaction() as t:
                t[1, 7] = b"ten"
                t.put(1, 8, bytearray(b"eight"))
                t.put(2, 0, memoryview(b""))
                self.assertEqual((t[1, 7], t.get(1, 8), t[2, 0]), (b"ten", b"eight", b""))
                self.assertIn((1, 7), t)
                del t[1, 8]
                self.assertNotIn((1, 8), t)
                self.assertIsNone(t.get(1, 8))
                self.assertEqual(t.get(1, 8, "none"), "none")
                with self.assertRaises(KeyError):
                    t[1, 8]
            self.assertEqual(t.timestamp, 1)
            self.assertEqual(store[1, 7], b"ten")
            store[1, 9] = b"nine\0with zero"
            self.assertEqual(store[1, 9], b"nine\0with zero")
            del store[1, 9]
            self.assertNotIn((1, 9), store)
            self.assertEqual(store.delete(1, 7), 4)
            with self.assertRaises(KeyError):
                store[1, 7]

    def test_a_block_that_raises_is_rolled_back(self):
        with self.open() as store:
            with self.assertRaisesRegex(RuntimeError, "mine"):
                with store.transaction() as t:
                    t[1, 1] = b"row"
                    raise RuntimeError("mine")
            self.assertNotIn((1, 1), store)

    def test_scans_are_iterators(self):
        with self.open() as store:
            store.write([(1, key, b"row %d" % key) for key in (1, 5, 9, nipamast.GREATEST_KEY)])
            rows = store.scan(1)
            self.assertIs(iter(rows), rows)
            self.assertEqual(next(rows), (1, b"row 1"))
            self.assertEqual([key for key, _ in rows], [5, 9, nipamast.GREATEST_KEY])
            self.assertEqual(list(rows), [])
            self.assertEqual([key for key, _ in store.scan(1, 2, 9, reverse=True)], [9, 5])
            self.assertEqual([key for key, _ in store.scan(1, limit=1, reverse=True)], [nipamast.GREATEST_KEY])
            self.assertEqual(list(store.scan(1, limit=0)), [])
            self.assertEqual(list(store.scan(2)), [])
            rows = store.scan(1)
            next(rows)
            rows.close()
            self.assertEqual(list(rows), [])

    def test_transact_begins_again_after_a_conflict(self):
        tries = []
        with self.open() as store:
            def change(t):
                tries.append(1)
                if len(tries) < 3:
                    store[1, 1] = b"other"
                t[1, 1] = b"mine"
                return "value"
            self.assertEqual(store.transact(change), "value")
            self.assertEqual((len(tries), store[1, 1]), (3, b"mine"))
            tries.clear()
            with self.assertRaises(nipamast.Conflict):
                store.transact(change, tries=2)
            with self.assertRaises(ZeroDivisionError):
                store.transact(lambda t: 1 // 0)

    def test_a_file_is_opened_as_it_is(self):
        with nipamast.open(self.path, by_stack=BY_STACK) as store:
            self.assertEqual(store.status().slots, 65536)
            store[1, 1] = b"row"
        with nipamast.open(self.path) as store:
            self.assertEqual(store[1, 1], b"row")
            self.assertEqual(store.status()._replace(left=0), (32, 65536, 65535, 1, 1, 1, 0))
        self.path.unlink()
        with self.open(slots=64, wide=True) as store:
            store[1, 1] = bytes(96)
        with nipamast.open(str(self.path)) as store:
            self.assertEqual((store[1, 1], store.status().row_limit), (bytes(96), 96))
        self.path.unlink()
        with self.open(slots=65_600, lines=8) as store:
            store[1, 1] = bytes(480)
            with self.assertRaises(nipamast.RowTooLong):
                store[1, 2] = bytes(481)
        with nipamast.open(str(self.path)) as store:
            self.assertEqual((store[1, 1], store.status()[:2]), (bytes(480), (480, 65600)))

    def test_the_command(self):
        def command(*words):
            found = subprocess.run([sys.executable, "-m", "nipamast", *map(str, words)], capture_output=True, text=True, timeout=60)
            return found.returncode, found.stdout, found.stderr
        self.assertEqual(command(self.path)[0], 2)
        self.assertEqual(command("--text", self.path, "put", 1, 2, "hello"), (0, "", ""))
        self.assertEqual(command(self.path, "get", 1, 2), (0, "68656c6c6f\n", ""))
        self.assertEqual(command(self.path, "put", 1, "0x10", "ff"), (0, "", ""))
        self.assertEqual(command(self.path, "scan", 1, "--reverse"), (0, "16 ff\n2 68656c6c6f\n", ""))
        self.assertEqual(command(self.path, "delete", 1, 2), (0, "", ""))
        self.assertEqual(command(self.path, "get", 1, 2), (1, "", "no row\n"))
        self.assertIn("slots 65536\n", command(self.path, "status")[1])
        self.assertEqual(command(self.path, "put", 1, 2, "xyz")[0], 2)
        self.assertEqual(command("--version"), (0, "0.1.0\n", ""))

    # --- errors

    def test_errors_of_steps(self):
        with self.open(slots=70) as store:
            with self.assertRaisesRegex(nipamast.RowTooLong, "32 bytes"):
                store[1, 1] = bytes(33)
            with self.assertRaisesRegex(nipamast.RowTooLong, "too long"):
                store[1, 1] = bytes(1000)
            with store.transaction() as t:
                for key in range(32):
                    t[1, key] = b"row"
                with self.assertRaises(nipamast.TooManyKeys):
                    t[1, 32] = b"row"
            with self.assertRaises(nipamast.TooManyKeys):
                store.write([(1, key, b"row") for key in range(33)])
            store.write([(2, key, b"row") for key in range(32)])
            with self.assertRaisesRegex(nipamast.Full, "slot"):
                store.write([(3, key, b"row") for key in range(10)])
            self.assertEqual(list(store.scan(3)), [])
            held = [store.transaction() for _ in range(4)]
            with self.assertRaises(nipamast.TooManyOpen):
                store.transaction()
            with self.assertRaises(nipamast.TooManyOpen):
                store.get(1, 1)
            held[1].put(1, 1, b"first")
            held[2].put(1, 1, b"second")
            held[1].commit()
            with self.assertRaisesRegex(nipamast.Conflict, "1 1") as raised:
                held[2].commit()
            self.assertEqual(raised.exception.code, 20)
            self.assertIsInstance(raised.exception, nipamast.Error)

    def test_numbers_out_of_range(self):
        with self.open() as store:
            for table, key in ((-1, 1), (65536, 1), (1, -1), (1, 2**64)):
                for call in (lambda: store.get(table, key), lambda: store.put(table, key, b""), lambda: store.delete(table, key), lambda: (table, key) in store):
                    with self.assertRaises(ValueError):
                        call()
                with store.transaction() as t, self.assertRaises(ValueError):
                    t[table, key] = b"row"
            for row in (None, 5, "text"):
                with self.assertRaises(TypeError):
                    store.put(1, 1, row)
                with store.transaction() as t, self.assertRaises(TypeError):
                    t[1, 1] = row
            with self.assertRaises(TypeError):
                store.get("1", 1)
        for words in ({"slots": 0}, {"slots": 65537}, {"channels": 0}, {"channels": 63}, {"places": 0}, {"window": 1025}):
            with self.assertRaises(ValueError):
                self.open(**words)
        with self.assertRaises(ValueError):
            nipamast.open("a\0b")
        with self.assertRaises(nipamast.Error):
            self.open(places=1)

    def test_what_has_ended_is_misuse(self):
        store = self.open()
        t, late = store.transaction(), store.transaction()
        t.abort()
        t.abort()
        for call in (lambda: t.get(1, 1), lambda: t.put(1, 1, b""), lambda: t.scan(1), t.commit):
            self.assertRaises(nipamast.Misuse, call)
        store.close()
        store.close()
        for call in (lambda: late.get(1, 1), late.commit, lambda: store.get(1, 1), lambda: store.put(1, 1, b""), store.transaction, store.status):
            self.assertRaises(nipamast.Misuse, call)

    def test_errors_of_opening(self):
        with self.assertRaises(nipamast.NoStore):
            nipamast.open(self.path, create=False)
        self.assertFalse(self.path.exists())
        with self.open():
            with self.assertRaisesRegex(nipamast.FileRefused, "test.store"):
                self.open()
            self.assertIn("FileRefused", run("import nipamast, sys; nipamast.open(sys.argv[1])", self.path).stderr)
        with self.assertRaisesRegex(nipamast.OtherLayout, "256 slots"):
            self.open(slots=512)
        self.path.write_text("this is a text and not a store")
        with self.assertRaises(nipamast.FileRefused):
            self.open()

    def test_a_store_whose_making_was_cut_off_is_made_to_its_end(self):
        with open(self.path, "wb") as file:
            file.truncate(WHOLE)
        with self.assertRaises(nipamast.FileRefused):
            nipamast.open(self.path, create=False)
        with nipamast.open(self.path) as store:
            self.assertEqual(store.status().slots, 65_536)
        with open(self.path, "wb") as file:
            file.write(b"a text, and no store")
        with self.assertRaises(nipamast.FileRefused):
            nipamast.open(self.path)

    def test_damage_is_said(self):
        with self.open() as store:
            store[1, 1] = b"row"
        data = bytearray(self.path.read_bytes())
        # the gates of both places, words 8 and 40: docs/FORMATS.md says that place 1 counts as damaged then
        for word in (8, 40):
            data[8 * word:8 * word + 8] = bytes(8)
        self.path.write_bytes(data)
        with self.assertRaisesRegex(nipamast.Damaged, "place 1"):
            self.open()

    def test_syncs_that_fail(self):
        found = run(FAILING, self.path, int(BY_STACK), preload=os.environ["FAIL_LIBRARY"])
        first, *others = found.stdout.splitlines()
        self.assertIn(first, ("Unknown", "Failed"), found.stderr)
        self.assertEqual(others, ["Failed", "Failed", "Lost", "True None"], found.stderr)

    def test_a_second_call_of_a_transaction_is_busy(self):
        found = run(BUSY, self.path, int(BY_STACK), preload=os.environ["FAIL_LIBRARY"])
        self.assertEqual(found.stdout.splitlines(), ["Busy", "b'row'"], found.stderr)

    # --- threads and processes

    def test_no_payment_is_lost_among_threads(self):
        accounts, payments, failed = 6, 100, []
        with self.open(slots=2048, channels=8) as store:
            store.write([(1, account, bytes([100])) for account in range(accounts)])

            def pay(number):
                def move(t):
                    source, target = number % accounts, (number * 7 + 1) % accounts
                    if source != target and t[1, source][0]:
                        t[1, source], t[1, target] = bytes([t[1, source][0] - 1]), bytes([t[1, target][0] + 1])
                try:
                    for _ in range(payments):
                        store.transact(move)
                        number += 1
                        with store.transaction() as t:
                            if sum(row[0] for _, row in t.scan(1)) != 100 * accounts:
                                failed.append("a sum within a transaction")
                except nipamast.Error as error:
                    failed.append(repr(error))

            threads = [threading.Thread(target=pay, args=(number,)) for number in range(6)]
            for thread in threads:
                thread.start()
            for thread in threads:
                thread.join()
            self.assertEqual(failed, [])
            self.assertEqual(sum(row[0] for _, row in store.scan(1)), 100 * accounts)

    def test_the_child_of_a_fork_has_no_open_store(self):
        store = self.open()
        t = store.transaction()
        t[1, 1] = b"row"
        child = os.fork()
        if not child:
            status = 1
            try:
                for call in (lambda: store.get(1, 1), lambda: t.put(1, 1, b"child"), store.close):
                    try:
                        call()
                        break
                    except nipamast.Misuse:
                        pass
                else:
                    with nipamast.open(str(self.path) + ".child", slots=64) as own:
                        own[1, 1] = b"own"
                        status = 0 if own[1, 1] == b"own" else 2
            finally:
                os._exit(status)
        self.assertEqual(os.waitpid(child, 0)[1], 0)
        t.commit()
        self.assertEqual(store[1, 1], b"row")
        store.close()

    def test_a_store_that_is_not_closed_is_dropped(self):
        for _ in range(5):
            store = self.open()
            t = store.transaction()
            t[1, 1] = b"row"
            del t, store
        self.open().close()

    def test_what_was_acknowledged_is_there_after_a_kill(self):
        last = 0
        for round in range(6):
            process = subprocess.Popen([sys.executable, "-c", COMMITTER, str(self.path), str(int(BY_STACK))], stdout=subprocess.PIPE, text=True)
            first = int(process.stdout.readline())
            time.sleep(0.02 + 0.03 * round)
            process.send_signal(signal.SIGKILL)
            acknowledged = [first, *(int(line) for line in process.stdout.read().split("\n")[:-1])]
            process.wait()
            process.stdout.close()
            self.assertIn(first, (last + 1, last + 2))
            last = acknowledged[-1]
            with self.open(channels=2) as store:
                numbers = {int.from_bytes(store[1, key], "little") for key in (1, 2)}
            self.assertEqual(len(numbers), 1, "a commit is kept in part")
            self.assertIn(numbers.pop(), (last, last + 1))


if __name__ == "__main__":
    unittest.main()
