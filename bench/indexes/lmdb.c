// Nanoseconds for each call on LMDB's cursor, with the same keys in the same order. One transaction puts all pairs, one takes
// them all away, and one reads; the file is never synced, so that no disk is measured.
#include <lmdb.h>
#include <stdint.h>
#include <stdio.h>
#include <stdlib.h>
#include <time.h>

enum { CALLS = 100000, SAMPLES = 30000, KEY_BYTES = 16 };

static void must(int status) {
    if (status != 0) {
        fprintf(stderr, "lmdb: %s\n", mdb_strerror(status));
        exit(1);
    }
}

static uint64_t number(uint64_t id) { return id * 2654435761u & 0xffffffffu; }

static uint64_t sample(uint64_t call, uint64_t count) { return call % SAMPLES * 7919 % count + 1; }

static uint64_t now(void) {
    struct timespec time;
    clock_gettime(CLOCK_MONOTONIC, &time);
    return (uint64_t)time.tv_sec * 1000000000u + (uint64_t)time.tv_nsec;
}

static void tell(const char *call, uint64_t count, uint64_t start, uint64_t calls, uint64_t sum) {
    uint64_t tenths = (now() - start) * 10 / calls;
    printf("%s-%lu %lu.%lu %lu\n", call, count, tenths / 10, tenths % 10, sum);
}

// the key and the id, the highest byte first, so that LMDB's order of bytes is theirs
static MDB_val key_of(unsigned char *bytes, uint64_t key, uint64_t id) {
    for (int place = 0; place < 8; place++) {
        bytes[place] = (unsigned char)(key >> (8 * (7 - place)));
        bytes[8 + place] = (unsigned char)(id >> (8 * (7 - place)));
    }
    return (MDB_val){KEY_BYTES, bytes};
}

static void round_of(MDB_env *env, MDB_dbi dbi, uint64_t count) {
    unsigned char bytes[KEY_BYTES];
    MDB_txn *txn;
    MDB_cursor *cursor;
    uint64_t start = now();
    must(mdb_txn_begin(env, NULL, 0, &txn));
    must(mdb_cursor_open(txn, dbi, &cursor));
    for (uint64_t id = 1; id <= count; id++) {
        uint32_t version = (uint32_t)id;
        MDB_val key = key_of(bytes, number(id), id), data = {sizeof version, &version};
        must(mdb_cursor_put(cursor, &key, &data, 0));
    }
    mdb_cursor_close(cursor);
    must(mdb_txn_commit(txn));
    tell("tree-put", count, start, count, count);

    must(mdb_txn_begin(env, NULL, MDB_RDONLY, &txn));
    must(mdb_cursor_open(txn, dbi, &cursor));
    uint64_t sum = 0;
    start = now();
    for (uint64_t call = 0; call < CALLS; call++) {
        uint64_t id = sample(call, count);
        MDB_val key = key_of(bytes, number(id), id), data;
        sum += mdb_cursor_get(cursor, &key, &data, MDB_SET_KEY) == 0;
    }
    tell("tree-found", count, start, CALLS, sum);
    sum = 0;
    start = now();
    for (uint64_t call = 0; call < CALLS; call++) {
        uint64_t id = sample(call, count);
        MDB_val key = key_of(bytes, number(id), id + 1), data;
        sum += mdb_cursor_get(cursor, &key, &data, MDB_SET_RANGE) == 0;
    }
    tell("tree-sought", count, start, CALLS, sum);
    mdb_cursor_close(cursor);
    mdb_txn_abort(txn);

    start = now();
    must(mdb_txn_begin(env, NULL, 0, &txn));
    must(mdb_cursor_open(txn, dbi, &cursor));
    for (uint64_t id = 1; id <= count; id++) {
        MDB_val key = key_of(bytes, number(id), id), data;
        must(mdb_cursor_get(cursor, &key, &data, MDB_SET_KEY));
        must(mdb_cursor_del(cursor, 0));
    }
    mdb_cursor_close(cursor);
    must(mdb_txn_commit(txn));
    tell("tree-removed", count, start, count, 0);
}

int main(int count_of_words, char **words) {
    if (count_of_words != 2) return 1;
    MDB_env *env;
    MDB_txn *txn;
    MDB_dbi dbi;
    must(mdb_env_create(&env));
    must(mdb_env_set_mapsize(env, 1u << 30));
    must(mdb_env_open(env, words[1], MDB_NOSYNC | MDB_WRITEMAP | MDB_NOSUBDIR, 0600));
    must(mdb_txn_begin(env, NULL, 0, &txn));
    must(mdb_dbi_open(txn, NULL, 0, &dbi));
    must(mdb_txn_commit(txn));
    static const uint64_t counts[] = {1000, 30000, 300000};
    for (int size = 0; size < 3; size++)
        for (int round = 0; round < 3; round++) round_of(env, dbi, counts[size]);
    mdb_env_close(env);
    return 0;
}
