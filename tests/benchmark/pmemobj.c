// libpmemobj: an array of rows in a pool, each changed in place, with an undo log. It has no snapshots, and a reader takes no
// transaction, so reads aren't measured.
#include "work.h"
#include <libpmemobj.h>

static PMEMobjpool *pool;

static uint64_t *rows;

void store_open(const char *folder, uint64_t keys) {
    char path[4096];
    snprintf(path, sizeof path, "%s/pool", folder);
    pool = pmemobj_create(path, "rows", 1ul << 28, 0600);
    if (!pool) fail("the pool");
    rows = pmemobj_direct(pmemobj_root(pool, keys * sizeof *rows));
    for (uint64_t key = 0; key < keys; key++) rows[key] = key;
    pmemobj_persist(pool, rows, keys * sizeof *rows);
}

void store_join(void) {
}

void store_commit(uint64_t first, uint64_t end, uint64_t keys) {
    TX_BEGIN(pool) {
        for (uint64_t number = first; number < end; number++) {
            pmemobj_tx_add_range_direct(&rows[number % keys], sizeof *rows);
            rows[number % keys] = number;
        }
    } TX_ONABORT {
        fail("a transaction");
    } TX_END
}

int64_t store_read(uint64_t reads, uint64_t keys) {
    (void)reads, (void)keys;
    return -1;
}

int64_t store_read_alone(uint64_t reads, uint64_t keys) {
    (void)reads, (void)keys;
    return -1;
}
