// LMDB: one tree by an integer key, and no sync unless BENCHMARK_SYNC is set.
#include "work.h"
#include <lmdb.h>

static MDB_env *env;

static MDB_dbi tree;

static MDB_txn *started(unsigned flags) {
    MDB_txn *it;
    if (mdb_txn_begin(env, NULL, flags, &it)) fail("a transaction");
    return it;
}

static void put(MDB_txn *it, uint64_t key, uint64_t number) {
    MDB_val name = {8, &key}, row = {8, &number};
    if (mdb_put(it, tree, &name, &row, 0)) fail("a put");
}

void store_open(const char *folder, uint64_t keys) {
    if (mdb_env_create(&env) || mdb_env_set_mapsize(env, 1ul << 32) || mdb_env_set_maxreaders(env, MOST_READERS))
        fail("the environment");
    if (mdb_env_open(env, folder, getenv("BENCHMARK_SYNC") ? 0 : MDB_NOSYNC, 0600)) fail("opening");
    MDB_txn *it = started(0);
    if (mdb_dbi_open(it, NULL, MDB_INTEGERKEY, &tree)) fail("the tree");
    for (uint64_t key = 0; key < keys; key++) put(it, key_of(key), ~key);
    if (mdb_txn_commit(it)) fail("a commit");
}

void store_join(void) {
}

void store_commit(uint64_t first, uint64_t end, uint64_t keys) {
    MDB_txn *it = started(0);
    for (uint64_t number = first; number < end; number++) put(it, next_key(number, keys), number);
    if (mdb_txn_commit(it)) fail("a commit");
}

static int found_in(MDB_txn *it, uint64_t key) {
    MDB_val name = {8, &key}, row;
    return !mdb_get(it, tree, &name, &row) && row.mv_size == 8;
}

int64_t store_read(uint64_t reads, uint64_t keys) {
    MDB_txn *it = started(MDB_RDONLY);
    int64_t found = 0;
    for (uint64_t number = 0; number < reads; number++) found += found_in(it, next_key(number, keys));
    mdb_txn_abort(it);
    return found;
}

int64_t store_read_alone(uint64_t reads, uint64_t keys) {
    MDB_txn *it = started(MDB_RDONLY);
    int64_t found = 0;
    for (uint64_t number = 0; number < reads; number++) {
        mdb_txn_reset(it);
        if (mdb_txn_renew(it)) fail("a transaction");
        found += found_in(it, number * STRIDE % keys);
    }
    mdb_txn_abort(it);
    return found;
}
