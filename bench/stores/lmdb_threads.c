/* The nodes in LMDB, in a file in memory that is never synced, with LMDB's own locks: keys of a byte for the kind and
 * four for the number, the highest first. Each thread has a slot among the readers, and one transaction for all its
 * reads, which is renewed for each moment and reset after it. Those who write wait for each other when they begin. */
#include <lmdb.h>
#include <string.h>
#include <unistd.h>

#include "threads.h"

static MDB_env *env;
static MDB_dbi dbi;

struct session {
    MDB_txn *reading;
    MDB_txn *txn; /* the one that is at work */
    unsigned char keys[PLACES][5];
};

/* The files have no names any more once they are open, so nothing is left of them however the program ends. */
static void open_files(void) {
    char path[] = "/dev/shm/threads-XXXXXX", lock[sizeof path + 5];
    int file = mkstemp(path);
    must(file >= 0 && !close(file), "mkstemp");
    snprintf(lock, sizeof lock, "%s-lock", path);
    must(!mdb_env_open(env, path, MDB_NOSUBDIR | MDB_NOSYNC | MDB_WRITEMAP, 0600), "mdb_env_open");
    must(!unlink(path) && !unlink(lock), "unlink");
}

void open_store(void) {
    MDB_txn *txn;
    must(!mdb_env_create(&env), "mdb_env_create");
    must(!mdb_env_set_mapsize(env, (size_t)1 << 32), "mdb_env_set_mapsize");
    open_files();
    must(!mdb_txn_begin(env, NULL, 0, &txn), "mdb_txn_begin");
    must(!mdb_dbi_open(txn, NULL, 0, &dbi), "mdb_dbi_open");
    must(!mdb_txn_commit(txn), "mdb_txn_commit");
}

void close_store(void) { mdb_env_close(env); }

struct session *open_session(unsigned number) {
    struct session *session = calloc(1, sizeof *session);
    (void)number;
    must(session != NULL, "calloc");
    must(!mdb_txn_begin(env, NULL, MDB_RDONLY, &session->reading), "mdb_txn_begin");
    mdb_txn_reset(session->reading);
    return session;
}

void close_session(struct session *session) {
    mdb_txn_abort(session->reading);
    free(session);
}

void name_node(struct session *session, int place, enum kind kind, uint32_t number) {
    unsigned char *key = session->keys[place];
    key[0] = (unsigned char)kind;
    for (int i = 0; i < 4; i++)
        key[1 + i] = (unsigned char)(number >> (24 - 8 * i));
}

void begin_reads(struct session *session) {
    must(!mdb_txn_renew(session->reading), "mdb_txn_renew");
    session->txn = session->reading;
}

void end_reads(struct session *session) { mdb_txn_reset(session->reading); }

void begin_changes(struct session *session) { must(!mdb_txn_begin(env, NULL, 0, &session->txn), "mdb_txn_begin"); }

int commit_changes(struct session *session) {
    must(!mdb_txn_commit(session->txn), "mdb_txn_commit");
    return 1;
}

size_t get(struct session *session, int place, char *value, size_t size) {
    MDB_val key = {sizeof session->keys[place], session->keys[place]}, data;
    must(!mdb_get(session->txn, dbi, &key, &data) && data.mv_size <= size, "mdb_get");
    memcpy(value, data.mv_data, data.mv_size);
    return data.mv_size;
}

void set(struct session *session, int place, const char *value, size_t length) {
    MDB_val key = {sizeof session->keys[place], session->keys[place]}, data = {length, (void *)value};
    must(!mdb_put(session->txn, dbi, &key, &data, 0), "mdb_put");
}

void set_alone(struct session *session, int place, const char *value, size_t length) {
    begin_changes(session);
    set(session, place, value, length);
    commit_changes(session);
}
