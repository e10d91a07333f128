/* nipamast.h: a store of rows in one file, for C and for languages that call C.
 *
 * What a commit that returned NIPAMAST_OK wrote is in the file, whatever stops afterwards and at whatever instant. A transaction that
 * wasn't acknowledged is kept whole or not at all. A transaction sees one instant (snapshot isolation). If two write the same key, the
 * first to commit wins; the other gets NIPAMAST_CONFLICT and begins again.
 *
 * A row is 0 to 32 bytes, or up to 96 in a store that was made wide, and up to 480 in one that was made with 8 lines. Its key is a
 * table (0 to 65535) and a number of 64 bits.
 *
 * Handles. A `nipamast_store *`, `nipamast_txn *` or `nipamast_rows *` is a name and not an address: nothing is read or written
 * there. A handle that is null, closed, of another kind or made up returns NIPAMAST_MISUSE and does no harm. A handle isn't used
 * again within 2^45 closings.
 *
 * Threads. Any thread may call any function at any time. A transaction or a cursor serves one call at a time: a second call of the
 * same handle meanwhile returns NIPAMAST_BUSY. A transaction may move from thread to thread between calls.
 *
 * Fork. In the child every handle is closed. The child may exec, or open stores of its own; one that its parent has open is locked.
 *
 * No function may be called from a signal handler. The caller also has to see to what can't be tested here: that a `const void *`
 * with a length names that many readable bytes, that an output pointer which isn't null is writable, that a path ends in a zero byte,
 * and that memory passed to a call isn't changed by others during it.
 */
#ifndef NIPAMAST_H
#define NIPAMAST_H

#include <stddef.h>
#include <stdint.h>

#ifdef __cplusplus
extern "C" {
#endif

#if defined(__GNUC__)
#define NIPAMAST_API __attribute__((visibility("default")))
#define NIPAMAST_CHECK __attribute__((warn_unused_result))
#else
#define NIPAMAST_API
#define NIPAMAST_CHECK
#endif

#define NIPAMAST_VERSION_MAJOR 0
#define NIPAMAST_VERSION_MINOR 1
#define NIPAMAST_VERSION_PATCH 0

typedef struct nipamast_store nipamast_store; /* an open store */
typedef struct nipamast_txn nipamast_txn;     /* an open transaction */
typedef struct nipamast_rows nipamast_rows;   /* a cursor over the rows of a range */

/* Results. 0 is success and 1 says that there is no row. From 2 on nothing was done, except for NIPAMAST_UNKNOWN. */
enum {
    NIPAMAST_OK = 0,
    NIPAMAST_NOT_FOUND = 1,      /* no row under this key, or no further row */
    NIPAMAST_MISUSE = 2,         /* a handle that isn't open or is of another kind, a null pointer, a number out of range */
    NIPAMAST_BUSY = 3,           /* another thread is in a call of this handle */
    NIPAMAST_TOO_SMALL = 4,      /* the buffer is too small; the length that is needed was written */
    /* why a store isn't opened or closed */
    NIPAMAST_FILE = 10,          /* locked by another process, not a store, cut short or unreadable: the text says which */
    NIPAMAST_LAYOUT = 11,        /* it is a store of another layout */
    NIPAMAST_DAMAGED = 12,       /* what the file holds isn't what a store wrote */
    NIPAMAST_NOT_OPENED = 13,    /* another reason, which the text says */
    NIPAMAST_LOST = 14,          /* a write or a sync failed; what was committed is kept: open it again */
    NIPAMAST_NOT_CLOSED = 15,    /* the close was refused; what was committed is kept */
    NIPAMAST_NO_STORE = 16,      /* there is no such file, or it is empty */
    /* why a step or a commit is refused */
    NIPAMAST_CONFLICT = 20,      /* another commit wrote one of the keys first: begin again */
    NIPAMAST_FULL = 22,          /* no slot is free */
    NIPAMAST_ROW_TOO_LONG = 24,
    NIPAMAST_TOO_MANY_KEYS = 25, /* a transaction writes at most 32 keys */
    NIPAMAST_TOO_MANY_OPEN = 26, /* as many transactions, stores or cursors are open as there may be */
    NIPAMAST_NO_MEMORY = 27,
    NIPAMAST_FAILED = 28,        /* the file failed before: close the store and open it again */
    NIPAMAST_UNKNOWN = 29,       /* the file failed during a commit, which is kept whole or not at all: opened again, the store shows it */
    NIPAMAST_REFUSED = 30        /* another refusal: the text says which */
};

/* The library's version, as "0.1.0". */
NIPAMAST_API const char *nipamast_version(void);

/* A short text for a result. It is never null and never freed. */
NIPAMAST_API const char *nipamast_strerror(int result);

/* Copies the sentence of this thread's last refusal from 10 on, which names the file, the key or the limit: as much of it as fits, and
 * a zero byte. Returns the length of all of it. `text` may be null if `size` is 0. */
NIPAMAST_API size_t nipamast_errmsg(char *text, size_t size);

/* --- stores ---------------------------------------------------------------------------------------------------------------------- */

/* How calls reach the engine, which has a thread for each transaction that may be open. */
enum {
    NIPAMAST_BY_THREAD = 0, /* the caller wakes that thread and waits for it */
    NIPAMAST_BY_STACK = 1   /* the caller's thread goes on on that thread's stack: far faster. x86-64 alone, without shadow stacks; a
                               debugger shows the callers of such a call only up to the change */
};

/* How a store is laid out, which is decided when the file is made, and how it is called. Begin with NIPAMAST_OPTIONS or with
 * NIPAMAST_EXISTING. */
typedef struct nipamast_options {
    uint32_t size;       /* sizeof(nipamast_options): later versions may add fields */
    uint32_t slots;      /* rows that it holds, old versions included: 1 to 65536, or to 16777216 with `lines`; 0 opens the store that is
                            there, as it is laid out */
    uint16_t places;     /* places for records of its log: 2 to 64 */
    uint16_t window;     /* how many commits may be drawn ahead: 4 to 1024 */
    uint8_t wide;        /* 1: rows of up to 96 bytes; 0: of up to 32 */
    uint8_t channels;    /* transactions that may be open at once, and calls without one: 1 to 62. As many commits share a sync at most */
    uint8_t calls;       /* NIPAMAST_BY_THREAD or NIPAMAST_BY_STACK */
    uint8_t lines;       /* 0: as `wide` says; 1 to 8, with `wide` 0: rows of up to 64 * lines - 32 bytes, in a store of version 4 */
} nipamast_options;

/* The standard layout: the file then has 4 MB. */
#define NIPAMAST_OPTIONS { sizeof(nipamast_options), 65536, 2, 1024, 0, 32, NIPAMAST_BY_THREAD, 0 }

/* The store that is there. No file is made. */
#define NIPAMAST_EXISTING { sizeof(nipamast_options), 0, 0, 0, 0, 32, NIPAMAST_BY_THREAD, 0 }

/* Opens the store in the file, whose path is text in UTF-8, and locks the file against other processes. It is made if it is missing or
 * empty, unless the options say 0 slots. Null options are those of NIPAMAST_OPTIONS. As many threads are started as there are channels,
 * and three more. */
NIPAMAST_API NIPAMAST_CHECK int nipamast_open(const char *path, const nipamast_options *options, nipamast_store **store);

/* Rolls open transactions back, covers what was committed and closes the file. The handle is closed whatever is returned. A call of
 * another thread on this store is waited for. */
NIPAMAST_API int nipamast_close(nipamast_store *store);

/* --- one transaction in one call --------------------------------------------------------------------------------------------------- */

/* One write: a row of `length` bytes under (table, key), or its deletion if `row` is null. */
typedef struct nipamast_write {
    uint64_t key;
    const void *row;
    uint32_t length;
    uint16_t table;
    uint16_t reserved; /* 0 */
} nipamast_write;

/* Writes all of them, at most 32 keys, and returns once they are durable. Commits of several threads share a sync. `timestamp` may be
 * null. These writes read nothing, and can meet a conflict all the same: call it again. */
NIPAMAST_API NIPAMAST_CHECK int nipamast_apply(nipamast_store *store, const nipamast_write *writes, size_t count, uint64_t *timestamp);

/* The same of one row of `length` bytes, or of its deletion if `row` is null and `length` is 0. */
NIPAMAST_API NIPAMAST_CHECK int nipamast_write_row(nipamast_store *store, uint16_t table, uint64_t key, const void *row, size_t length,
                                                   uint64_t *timestamp);

/* Reads a row as it is committed now: at most `*length` bytes into `row`. Its length is then in `*length`. */
NIPAMAST_API NIPAMAST_CHECK int nipamast_read(nipamast_store *store, uint16_t table, uint64_t key, void *row, size_t *length);

/* --- transactions ------------------------------------------------------------------------------------------------------------------ */

/* Begins a transaction on what is committed now. It is ended once, by commit or abort. */
NIPAMAST_API NIPAMAST_CHECK int nipamast_begin(nipamast_store *store, nipamast_txn **txn);

/* The row that the transaction sees: its own write, or that of its snapshot. */
NIPAMAST_API NIPAMAST_CHECK int nipamast_get(nipamast_txn *txn, uint16_t table, uint64_t key, void *row, size_t *length);

NIPAMAST_API NIPAMAST_CHECK int nipamast_put(nipamast_txn *txn, uint16_t table, uint64_t key, const void *row, size_t length);
NIPAMAST_API NIPAMAST_CHECK int nipamast_del(nipamast_txn *txn, uint16_t table, uint64_t key);

/* Ends it, and returns once its writes are durable. `timestamp` may be null; it gets the place of this commit among all, or 0 if nothing
 * was written. The handle is closed whatever is returned, except for NIPAMAST_BUSY. */
NIPAMAST_API NIPAMAST_CHECK int nipamast_commit(nipamast_txn *txn, uint64_t *timestamp);

/* Rolls it back. It does nothing with a null or closed handle. */
NIPAMAST_API void nipamast_abort(nipamast_txn *txn);

/* --- ranges ------------------------------------------------------------------------------------------------------------------------ */

enum { NIPAMAST_FALLING = 1 };

/* The rows of a table with keys from `least` to `greatest`, both included, by rising key, or by falling key with NIPAMAST_FALLING; at
 * most `limit` of them if it isn't 0. They are read by this call: later writes of the transaction don't appear in the cursor. */
NIPAMAST_API NIPAMAST_CHECK int nipamast_scan(nipamast_txn *txn, uint16_t table, uint64_t least, uint64_t greatest, size_t limit,
                                              unsigned flags, nipamast_rows **rows);

/* The next row. `*row` points into the cursor's own memory, up to its close. NIPAMAST_NOT_FOUND after the last row. */
NIPAMAST_API NIPAMAST_CHECK int nipamast_next(nipamast_rows *rows, uint64_t *key, const void **row, size_t *length);
NIPAMAST_API void nipamast_rows_close(nipamast_rows *rows);

/* Calls `each` for the rows of a range until it returns something other than 0, which is then returned. `each` may call any function. */
typedef int (*nipamast_each)(void *context, uint64_t key, const void *row, size_t length);
NIPAMAST_API int nipamast_for_each(nipamast_txn *txn, uint16_t table, uint64_t least, uint64_t greatest, nipamast_each each, void *context);

/* --- a transaction that is begun again after a conflict ---------------------------------------------------------------------------- */

/* Begins a transaction, calls `body`, and commits it if that returned 0; otherwise rolls it back and returns what `body` returned. After
 * NIPAMAST_CONFLICT, of the commit or returned by `body`, all of it is done again, up to `tries` times (0: a thousand). */
typedef int (*nipamast_body)(void *context, nipamast_txn *txn);
NIPAMAST_API int nipamast_transact(nipamast_store *store, unsigned tries, nipamast_body body, void *context, uint64_t *timestamp);

/* --- how full a store is ----------------------------------------------------------------------------------------------------------- */

typedef struct nipamast_status {
    uint32_t size;            /* set by the caller to sizeof(nipamast_status) */
    uint32_t row_limit;       /* 32, and 64 more for each further line of a slot */
    uint64_t slots, free;     /* slots in all, and those that hold no version */
    uint64_t rows, versions;  /* rows that are committed, and versions in the file */
    uint64_t persisted, left; /* the newest timestamp that is durable, and how many commits may still be made */
} nipamast_status;
NIPAMAST_API NIPAMAST_CHECK int nipamast_stat(nipamast_store *store, nipamast_status *status);

#ifdef __cplusplus
}
#endif
#endif
