"""Reads and writes the rows of a store: `python -m nipamast --help`."""
import argparse
import sys

import nipamast


def number(text: str) -> int:
    return int(text, 0)


def parser() -> argparse.ArgumentParser:
    words = argparse.ArgumentParser(prog="python -m nipamast", description="Reads and writes the rows of a store. Rows are in hexadecimal digits.")
    words.add_argument("--version", action="version", version=nipamast.version())
    words.add_argument("--text", action="store_true", help="rows are text in UTF-8 instead")
    words.add_argument("file", help="the store's file; put makes it if it is missing")
    steps = words.add_subparsers(dest="step", metavar="STEP")
    steps.add_parser("status", help="print how full it is (without a step too)")
    for name, what in (("get", "print a row"), ("delete", "delete a row"), ("put", "write a row")):
        step = steps.add_parser(name, help=what)
        step.add_argument("table", type=number)
        step.add_argument("key", type=number)
        if name == "put":
            step.add_argument("row")
    scan = steps.add_parser("scan", help="print the keys and rows of a table")
    scan.add_argument("table", type=number)
    scan.add_argument("least", type=number, nargs="?", default=0)
    scan.add_argument("greatest", type=number, nargs="?", default=nipamast.GREATEST_KEY)
    scan.add_argument("--limit", type=number)
    scan.add_argument("--reverse", action="store_true", help="by falling key")
    return words


def run(words: argparse.Namespace) -> int:
    def shown(row: bytes) -> str:
        return row.decode("utf-8", "backslashreplace") if words.text else row.hex()

    with nipamast.open(words.file, create=words.step == "put") as store:
        if words.step in (None, "status"):
            for name, value in store.status()._asdict().items():
                print(name, value)
        elif words.step == "get":
            row = store.get(words.table, words.key)
            if row is None:
                print("no row", file=sys.stderr)
                return 1
            print(shown(row))
        elif words.step == "put":
            store.put(words.table, words.key, words.row.encode() if words.text else bytes.fromhex(words.row))
        elif words.step == "delete":
            store.delete(words.table, words.key)
        else:
            for key, row in store.scan(words.table, words.least, words.greatest, words.limit, words.reverse):
                print(key, shown(row))
    return 0


def main() -> int:
    try:
        return run(parser().parse_args())
    except (nipamast.Error, ValueError) as error:
        print(f"nipamast: {error}", file=sys.stderr)
        return 2


if __name__ == "__main__":
    sys.exit(main())
