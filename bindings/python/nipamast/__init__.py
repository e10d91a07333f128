"""A store of rows in one file, whose commits survive any stop.

    import nipamast

    with nipamast.open("bank.store") as store:
        with store.transaction() as t:
            t[1, 7] = b"ten"
        print(store[1, 7])
        for key, row in store.scan(1):
            print(key, row)

A row is bytes, up to 32 of them (up to 96 in a store that was made wide, and up to 480 in one that was made with 8 lines). Its key is
a table (0 to 65535) and a number of 64 bits.
When a commit has returned, its rows are in the file, whatever stops afterwards. A transaction sees one instant. If two write the same
key, the first to commit wins; the other raises `Conflict`, and `Store.transact` begins it again.

Any thread may call any method; a transaction serves one call at a time. After a fork the child has no open store.
"""

from __future__ import annotations

import ctypes
import os
from ctypes import POINTER, byref, c_char_p, c_int, c_size_t, c_uint, c_uint8, c_uint16, c_uint32, c_uint64, c_void_p
from types import TracebackType
from typing import Callable, Dict, Iterable, Iterator, List, NamedTuple, Optional, Tuple, Type, TypeVar, Union

__all__ = [
    "open", "version", "Store", "Transaction", "Rows", "Status", "Error", "Misuse", "Busy", "FileRefused", "OtherLayout", "Damaged",
    "NotOpened", "Lost", "NotClosed", "NoStore", "Conflict", "Full", "RowTooLong", "TooManyKeys", "TooManyOpen", "OutOfMemory", "Failed",
    "Unknown", "Refused", "GREATEST_KEY",
]

T = TypeVar("T")
Path = Union[str, "os.PathLike[str]"]
Row = Union[bytes, bytearray, memoryview]
TableAndKey = Tuple[int, int]

GREATEST_KEY = 2**64 - 1

_lib = ctypes.CDLL(os.environ.get("NIPAMAST_LIBRARY") or os.path.join(os.path.dirname(__file__), "libnipamast.so"))

_LONGEST_ROW = 480


class _Options(ctypes.Structure):
    _fields_ = [
        ("size", c_uint32), ("slots", c_uint32), ("places", c_uint16), ("window", c_uint16), ("wide", c_uint8), ("channels", c_uint8),
        ("calls", c_uint8), ("lines", c_uint8),
    ]


class _Write(ctypes.Structure):
    _fields_ = [("key", c_uint64), ("row", c_char_p), ("length", c_uint32), ("table", c_uint16), ("reserved", c_uint16)]


class _Status(ctypes.Structure):
    _fields_ = [("size", c_uint32), ("row_limit", c_uint32)] + [
        (name, c_uint64) for name in ("slots", "free", "rows", "versions", "persisted", "left")
    ]


_Row = ctypes.c_char * _LONGEST_ROW


def _declare(name: str, result: object, *arguments: object) -> Callable[..., int]:
    function = getattr(_lib, "nipamast_" + name)
    function.restype, function.argtypes = result, arguments
    return function


_version = _declare("version", c_char_p)
_strerror = _declare("strerror", c_char_p, c_int)
_errmsg = _declare("errmsg", c_size_t, c_void_p, c_size_t)
_open = _declare("open", c_int, c_char_p, POINTER(_Options), POINTER(c_void_p))
_close = _declare("close", c_int, c_void_p)
_apply = _declare("apply", c_int, c_void_p, POINTER(_Write), c_size_t, POINTER(c_uint64))
_write_row = _declare("write_row", c_int, c_void_p, c_uint16, c_uint64, c_char_p, c_size_t, c_void_p)
_read = _declare("read", c_int, c_void_p, c_uint16, c_uint64, c_void_p, c_void_p)
_begin = _declare("begin", c_int, c_void_p, POINTER(c_void_p))
_get = _declare("get", c_int, c_void_p, c_uint16, c_uint64, c_void_p, c_void_p)
_put = _declare("put", c_int, c_void_p, c_uint16, c_uint64, c_char_p, c_size_t)
_del = _declare("del", c_int, c_void_p, c_uint16, c_uint64)
_commit = _declare("commit", c_int, c_void_p, POINTER(c_uint64))
_abort = _declare("abort", None, c_void_p)
_scan = _declare("scan", c_int, c_void_p, c_uint16, c_uint64, c_uint64, c_size_t, c_uint, POINTER(c_void_p))
_next = _declare("next", c_int, c_void_p, POINTER(c_uint64), POINTER(c_void_p), POINTER(c_size_t))
_rows_close = _declare("rows_close", None, c_void_p)
_stat = _declare("stat", c_int, c_void_p, POINTER(_Status))

_OK, _NOT_FOUND, _FIRST_WITH_TEXT, _FALLING = 0, 1, 10, 1


class Error(Exception):
    """What the library refused: `code`, which is the result of the C function, and a sentence."""

    def __init__(self, code: int, text: str) -> None:
        super().__init__(text)
        self.code = code


class Misuse(Error):
    """A store, transaction or cursor that isn't open, or a number that is out of range."""


class Busy(Error):
    """Another thread is in a call of this transaction or cursor."""


class FileRefused(Error):
    """The file is locked by another process, isn't a store, or can't be read."""


class OtherLayout(Error):
    """The file is a store of another layout."""


class Damaged(Error):
    """What the file holds isn't what a store wrote."""


class NotOpened(Error):
    """The store isn't opened, for another reason."""


class Lost(Error):
    """A write or a sync of the file failed. What was committed is kept: open it again."""


class NotClosed(Error):
    """The close was refused. What was committed is kept."""


class NoStore(Error):
    """There is no such file, or it is empty."""


class Conflict(Error):
    """Another commit wrote one of the keys first: begin again."""


class Full(Error):
    """No slot is free."""


class RowTooLong(Error):
    """The row has more bytes than a row of this store may have."""


class TooManyKeys(Error):
    """A transaction writes at most 32 keys."""


class TooManyOpen(Error):
    """As many transactions, stores or cursors are open as there may be."""


class OutOfMemory(Error, MemoryError):
    """Memory was refused."""


class Failed(Error):
    """The file failed before: close the store and open it again."""


class Unknown(Error):
    """The file failed during the commit, which is kept whole or not at all. The store shows which when it is opened again."""


class Refused(Error):
    """Another refusal."""


_KINDS: Dict[int, Type[Error]] = {
    2: Misuse, 3: Busy, 10: FileRefused, 11: OtherLayout, 12: Damaged, 13: NotOpened, 14: Lost, 15: NotClosed, 16: NoStore, 20: Conflict,
    22: Full, 24: RowTooLong, 25: TooManyKeys, 26: TooManyOpen, 27: OutOfMemory, 28: Failed, 29: Unknown, 30: Refused,
}


def _error(code: int) -> Error:
    text = ctypes.create_string_buffer(512)
    if code >= _FIRST_WITH_TEXT and _errmsg(text, len(text)):
        said = text.value.decode("utf-8", "replace")
    else:
        said = _strerror(code).decode()  # type: ignore[attr-defined]
    return _KINDS.get(code, Error)(code, said)


def _must(code: int) -> None:
    if code:
        raise _error(code)


def _table_of(table: int) -> int:
    if not 0 <= table <= 65_535:
        raise ValueError(f"a table is 0 to 65535, not {table}")
    return table


def _key_of(key: int) -> int:
    if not 0 <= key <= GREATEST_KEY:
        raise ValueError(f"a key is 0 to 2 ** 64 - 1, not {key}")
    return key


def _bytes_of(row: Row) -> bytes:
    return row if type(row) is bytes else memoryview(row).tobytes()


def version() -> str:
    """The library's version."""
    return _version().decode()  # type: ignore[attr-defined]


def _fetch(function: Callable[..., int], handle: Optional[c_void_p], table: int, key: int) -> Optional[bytes]:
    row, length = _Row(), c_size_t(_LONGEST_ROW)
    code = function(handle, _table_of(table), _key_of(key), row, byref(length))
    if code == _OK:
        return row.raw[: length.value]
    if code == _NOT_FOUND:
        return None
    raise _error(code)


class Status(NamedTuple):
    """How full a store is."""

    row_limit: int
    slots: int
    free: int
    rows: int
    versions: int
    persisted: int
    left: int


class Rows(Iterator[Tuple[int, bytes]]):
    """The keys and rows of a range, as they were when it was scanned."""

    __slots__ = ("_handle",)

    def __init__(self, handle: c_void_p) -> None:
        self._handle: Optional[c_void_p] = handle

    def __iter__(self) -> "Rows":
        return self

    def __next__(self) -> Tuple[int, bytes]:
        key, row, length = c_uint64(), c_void_p(), c_size_t()
        if self._handle is None:
            raise StopIteration
        code = _next(self._handle, byref(key), byref(row), byref(length))
        if code == _OK:
            return key.value, ctypes.string_at(row, length.value)
        self.close()
        if code == _NOT_FOUND:
            raise StopIteration
        raise _error(code)

    def close(self) -> None:
        """Frees its rows. The end of the range does that too."""
        handle, self._handle = self._handle, None
        if handle is not None:
            _rows_close(handle)

    def __del__(self) -> None:
        self.close()


class Transaction:
    """Reads of one instant, and writes of up to 32 keys that are kept together or not at all. As a context it is committed at the end of
    the block, or rolled back if the block raises. `t[table, key]` is a row: it can be read, set and deleted."""

    __slots__ = ("_handle", "_store", "timestamp")

    def __init__(self, store: "Store", handle: c_void_p) -> None:
        self._store = store
        self._handle: Optional[c_void_p] = handle
        self.timestamp = 0

    def get(self, table: int, key: int, default: Optional[T] = None) -> Union[bytes, Optional[T]]:
        """The row that the transaction sees, or the default if there is none."""
        row = _fetch(_get, self._handle, table, key)
        return default if row is None else row

    def put(self, table: int, key: int, row: Row) -> None:
        """Writes a row."""
        data = _bytes_of(row)
        _must(_put(self._handle, _table_of(table), _key_of(key), data, len(data)))

    def delete(self, table: int, key: int) -> None:
        """Deletes the row, if there is one."""
        _must(_del(self._handle, _table_of(table), _key_of(key)))

    def scan(
        self, table: int, least: int = 0, greatest: int = GREATEST_KEY, limit: Optional[int] = None, reverse: bool = False
    ) -> Iterator[Tuple[int, bytes]]:
        """The keys and rows from the least key to the greatest, both included, by rising key, or by falling key if reversed; at most
        `limit` of them. They are read by this call."""
        if limit is not None and limit <= 0:
            return iter(())
        handle = c_void_p()
        flags = _FALLING if reverse else 0
        _must(_scan(self._handle, _table_of(table), _key_of(least), _key_of(greatest), limit or 0, flags, byref(handle)))
        return Rows(handle)

    def __getitem__(self, where: TableAndKey) -> bytes:
        table, key = where
        row = _fetch(_get, self._handle, table, key)
        if row is None:
            raise KeyError(where)
        return row

    def __setitem__(self, where: TableAndKey, row: Row) -> None:
        table, key = where
        self.put(table, key, row)

    def __delitem__(self, where: TableAndKey) -> None:
        table, key = where
        self.delete(table, key)

    def __contains__(self, where: TableAndKey) -> bool:
        table, key = where
        return _fetch(_get, self._handle, table, key) is not None

    def commit(self) -> int:
        """Returns when all of it is durable: its place among all commits, or 0 if nothing was written. The transaction is ended whatever
        is raised, except for `Busy`."""
        timestamp = c_uint64()
        code = _commit(self._handle, byref(timestamp))
        if code != 3:
            self._handle = None
        _must(code)
        self.timestamp = timestamp.value
        return self.timestamp

    def abort(self) -> None:
        """Rolls it back. It does nothing if the transaction has ended."""
        handle, self._handle = self._handle, None
        if handle is not None:
            _abort(handle)

    def __enter__(self) -> "Transaction":
        return self

    def __exit__(self, kind: Optional[Type[BaseException]], error: Optional[BaseException], trace: Optional[TracebackType]) -> None:
        if self._handle is None:
            return
        if kind is None:
            self.commit()
        else:
            self.abort()

    def __del__(self) -> None:
        if getattr(self, "_handle", None) is not None:
            self.abort()


Writes = Iterable[Tuple[int, int, Optional[Row]]]


class Store:
    """An open store. As a context it is closed at the end of the block. `store[table, key]` is the row as it is committed now; to set or
    delete it is a transaction of its own."""

    __slots__ = ("_handle", "__weakref__")

    def __init__(self, handle: c_void_p) -> None:
        self._handle: Optional[c_void_p] = handle

    def transaction(self) -> Transaction:
        """Begins a transaction on what is committed now."""
        handle = c_void_p()
        _must(_begin(self._handle, byref(handle)))
        return Transaction(self, handle)

    def transact(self, changes: Callable[[Transaction], T], tries: int = 1000) -> T:
        """Calls `changes` with a transaction, commits it, and returns what `changes` returned. After a conflict all of that is done
        again, up to `tries` times. If `changes` raises, the transaction is rolled back."""
        for left in range(max(tries, 1) - 1, -1, -1):
            try:
                with self.transaction() as t:
                    value = changes(t)
                return value
            except Conflict:
                if not left:
                    raise
        raise AssertionError("a try returns or raises")

    def write(self, writes: Writes) -> int:
        """Commits these rows together, each (table, key, row), where None deletes. Returns the place of this commit among all."""
        items: List[_Write] = []
        for table, key, row in writes:
            data = None if row is None else _bytes_of(row)
            items.append(_Write(_key_of(key), data, len(data) if data else 0, _table_of(table), 0))
        timestamp = c_uint64()
        _must(_apply(self._handle, (_Write * len(items))(*items), len(items), byref(timestamp)))
        return timestamp.value

    def put(self, table: int, key: int, row: Row) -> int:
        """Commits a row."""
        data, timestamp = _bytes_of(row), c_uint64()
        _must(_write_row(self._handle, _table_of(table), _key_of(key), data, len(data), byref(timestamp)))
        return timestamp.value

    def delete(self, table: int, key: int) -> int:
        """Commits the deletion of a row."""
        timestamp = c_uint64()
        _must(_write_row(self._handle, _table_of(table), _key_of(key), None, 0, byref(timestamp)))
        return timestamp.value

    def get(self, table: int, key: int, default: Optional[T] = None) -> Union[bytes, Optional[T]]:
        """The row as it is committed now, or the default if there is none."""
        row = _fetch(_read, self._handle, table, key)
        return default if row is None else row

    def scan(
        self, table: int, least: int = 0, greatest: int = GREATEST_KEY, limit: Optional[int] = None, reverse: bool = False
    ) -> Iterator[Tuple[int, bytes]]:
        """The same as of a transaction, of the rows that are committed now."""
        t = self.transaction()
        try:
            return t.scan(table, least, greatest, limit, reverse)
        finally:
            t.abort()

    def status(self) -> Status:
        """How full it is."""
        status = _Status(ctypes.sizeof(_Status))
        _must(_stat(self._handle, byref(status)))
        return Status(*(getattr(status, name) for name in Status._fields))

    def __getitem__(self, where: TableAndKey) -> bytes:
        table, key = where
        row = _fetch(_read, self._handle, table, key)
        if row is None:
            raise KeyError(where)
        return row

    def __setitem__(self, where: TableAndKey, row: Row) -> None:
        table, key = where
        self.put(table, key, row)

    def __delitem__(self, where: TableAndKey) -> None:
        table, key = where
        self.delete(table, key)

    def __contains__(self, where: TableAndKey) -> bool:
        table, key = where
        return _fetch(_read, self._handle, table, key) is not None

    def close(self) -> None:
        """Rolls open transactions back, and closes the file. It does nothing if the store is closed."""
        handle, self._handle = self._handle, None
        if handle is not None:
            _must(_close(handle))

    def __enter__(self) -> "Store":
        return self

    def __exit__(self, kind: Optional[Type[BaseException]], error: Optional[BaseException], trace: Optional[TracebackType]) -> None:
        self.close()

    def __del__(self) -> None:
        handle, self._handle = getattr(self, "_handle", None), None
        if handle is not None:
            _close(handle)


def open(
    path: Path, *, slots: Optional[int] = None, wide: bool = False, lines: int = 0, places: int = 2, window: int = 1024,
    channels: int = 32, create: bool = True, by_stack: bool = False,
) -> Store:
    """Opens the store in this file.

    Without `slots` it is opened with the layout that it has. If the file is missing or empty, a store of 65,536 rows of up to 32 bytes is
    made there, unless `create` is false. With `slots`, and the numbers that go with it, the store has to have this layout, or is made.
    With `lines`, 1 to 8, it is a large one: of up to 16,777,216 slots, and rows of up to 64 * lines - 32 bytes.

    `channels` is how many transactions may be open at once, 1 to 62: as many commits share a sync at most. `by_stack` makes calls far
    faster, as nipamast.h explains.
    """
    numbers = (
        ("slots", 1 if slots is None else slots, 16_777_216 if lines else 65_536), ("lines", lines or 1, 8), ("places", places, 64),
        ("window", window, 1_024), ("channels", channels, 62),
    )
    for what, number, most in numbers:
        if not 1 <= number <= most:
            raise ValueError(f"{what} is 1 to {most}, not {number}")
    name = os.fsencode(path)
    if b"\0" in name:
        raise ValueError("a path has no zero byte")
    calls = 1 if by_stack else 0
    asked = _Options(ctypes.sizeof(_Options), 0, 0, 0, 0, channels, calls, 0)
    handle = c_void_p()
    if slots is None:
        code = _open(name, byref(asked), byref(handle))
        # A store that was being made when its process ended is no store yet (10), and is made to its end.
        if code not in (10, 16) or not create:
            _must(code)
            return Store(handle)
    asked.slots, asked.places, asked.window, asked.wide, asked.lines = slots or 65_536, places, window, wide, lines
    _must(_open(name, byref(asked), byref(handle)))
    return Store(handle)
