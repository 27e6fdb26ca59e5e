/* The records in LMDB, in a file in memory that is never synced: keys of four bytes, the highest first, and the field. */
#include <lmdb.h>
#include <stdio.h>
#include <stdlib.h>
#include <string.h>
#include <unistd.h>

#include "store.h"

static char path[] = "/dev/shm/records-XXXXXX";
static MDB_env *env;
static MDB_txn *txn;
static MDB_dbi dbi;

void open_store(void) {
    must(mkstemp(path) >= 0, "mkstemp");
    must(!mdb_env_create(&env), "mdb_env_create");
    must(!mdb_env_set_mapsize(env, (size_t)1 << 32), "mdb_env_set_mapsize");
    must(!mdb_env_open(env, path, MDB_NOSUBDIR | MDB_NOSYNC | MDB_WRITEMAP | MDB_NOLOCK, 0600), "mdb_env_open");
}

void close_store(void) {
    mdb_env_close(env);
    unlink(path);
}

void begin_work(void) {
    must(!mdb_txn_begin(env, NULL, 0, &txn), "mdb_txn_begin");
    must(!mdb_dbi_open(txn, NULL, 0, &dbi), "mdb_dbi_open");
}

void end_work(void) { must(!mdb_txn_commit(txn), "mdb_txn_commit"); }

static MDB_val key_of(uint32_t number, const char *field, char *bytes) {
    size_t length = strlen(field);
    for (int i = 0; i < 4; i++)
        bytes[i] = (char)(number >> (24 - 8 * i));
    memcpy(bytes + 4, field, length);
    return (MDB_val){length + 4, bytes};
}

void put(uint32_t number, const char *field, const char *value, size_t length) {
    char bytes[32];
    MDB_val key = key_of(number, field, bytes), data = {length, (void *)value};
    must(!mdb_put(txn, dbi, &key, &data, 0), "mdb_put");
}

size_t get(uint32_t number, const char *field, char *value, size_t size) {
    char bytes[32];
    MDB_val key = key_of(number, field, bytes), data;
    must(!mdb_get(txn, dbi, &key, &data) && data.mv_size <= size, "mdb_get");
    memcpy(value, data.mv_data, data.mv_size);
    return data.mv_size;
}

uint64_t walk(void) {
    char value[64];
    uint64_t bytes = 0;
    MDB_cursor *cursor;
    MDB_val key, data;
    must(!mdb_cursor_open(txn, dbi, &cursor), "mdb_cursor_open");
    while (!mdb_cursor_get(cursor, &key, &data, MDB_NEXT)) {
        memcpy(value, data.mv_data, data.mv_size);
        bytes += data.mv_size;
    }
    mdb_cursor_close(cursor);
    return bytes;
}
