#!/usr/bin/env python3
"""Writes a session of one channel as crates/served has it for the gate: what is asked, and what docs/FORMATS.md says is replied.

    tests/bindings/session.py           writes crates/served/stdin and crates/served/stdout
    tests/bindings/session.py --check   says whether these files are what it would write, and ends with 1 if they aren't

Each reply is worked out by hand from docs/FORMATS.md; the store has 16 slots, 2 places and a window of 64.
"""
import pathlib
import struct
import sys

CRATE = pathlib.Path(__file__).resolve().parents[2] / "crates/served"

BEGIN, GET, PUT, DELETE, COMMIT, ABORT, FIRST, LAST, STATUS, EXISTING, NARROW = range(1, 12)
DONE, MISSING, MISUSE, ROW_TOO_LONG = 0, 1, 2, 24
MOST = 2**64 - 1


def frame(code, table=0, number=0, payload=b""):
    return struct.pack("<IHHQ", len(payload), code, table, number) + payload


def reply(status, number=0, payload=b""):
    return frame(status, 0, number, payload)


def listed(*rows):
    return reply(DONE, len(rows), b"".join(struct.pack("<QI", key, len(row)) + row for key, row in rows))


def span(greatest, limit):
    return struct.pack("<QQ", greatest, limit)


TOO_LONG = b"the row has more than 32 bytes: shorten it (a store of `Geometry::large` with 8 lines takes up to 480)"
# Two rows, so 14 slots are free; commit 1 persists, the next timestamp is 2, and 2 * 64 are kept back of 2 ** 62.
NUMBERS = (32, 16, 14, 2, 2, 1, 2**62 - (2 + 2 * 64))

SESSION = (
    # the store, of rows of up to 32 bytes, for one channel
    (frame(NARROW, 1, 16, struct.pack("<QQ", 2, 64) + b"served.img"), reply(DONE)),
    # no transaction is open
    (frame(GET, 1, 5), reply(MISUSE)),
    (frame(BEGIN), reply(DONE)),
    (frame(PUT, 1, 5, b"hello"), reply(DONE)),
    (frame(GET, 1, 5), reply(DONE, 0, b"hello")),
    (frame(GET, 1, 6), reply(MISSING)),
    (frame(PUT, 1, 7), reply(DONE)),
    (frame(GET, 1, 7), reply(DONE)),
    (frame(PUT, 1, 8, bytes(40)), reply(ROW_TOO_LONG, 0, TOO_LONG)),
    (frame(FIRST, 1, 0, span(MOST, 10)), listed((5, b"hello"), (7, b""))),
    (frame(FIRST, 1, 6, span(7, 10)), listed((7, b""))),
    (frame(LAST, 1, 0, span(MOST - 1, 1)), listed((7, b""))),
    (frame(FIRST, 2, 0, span(MOST - 1, 10)), listed()),
    # the first commit of a store has the timestamp 1
    (frame(COMMIT), reply(DONE, 1)),
    (frame(COMMIT), reply(MISUSE)),
    (frame(STATUS), reply(DONE, 7, struct.pack("<7Q", *NUMBERS))),
    # what is rolled back is as it was
    (frame(BEGIN), reply(DONE)),
    (frame(DELETE, 1, 5), reply(DONE)),
    (frame(GET, 1, 5), reply(MISSING)),
    (frame(ABORT), reply(DONE)),
    (frame(BEGIN), reply(DONE)),
    (frame(GET, 1, 5), reply(DONE, 0, b"hello")),
    # a commit that wrote nothing
    (frame(COMMIT), reply(DONE)),
    # frames that aren't requests
    (frame(77), reply(MISUSE)),
    (frame(BEGIN, 1), reply(MISUSE)),
    (frame(BEGIN, 0, 0, b"x"), reply(MISUSE)),
    (frame(FIRST, 1, 0, b"short"), reply(MISUSE)),
    # the open transaction at the end is rolled back, and the store is closed
    (frame(BEGIN), reply(DONE)),
    (frame(PUT, 1, 9, b"late"), reply(DONE)),
    (b"", reply(DONE)),
)


def main():
    files = {"stdin": b"".join(it for it, _ in SESSION), "stdout": b"".join(it for _, it in SESSION)}
    if sys.argv[1:] == ["--check"]:
        other = [name for name, data in files.items() if (CRATE / name).read_bytes() != data]
        for name in other:
            print(f"crates/served/{name} isn't what tests/bindings/session.py writes")
        sys.exit(bool(other))
    for name, data in files.items():
        (CRATE / name).write_bytes(data)


if __name__ == "__main__":
    main()
