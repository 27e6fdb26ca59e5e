/* The nodes in SQLite, a table for each kind, in one database in memory that all connections share (the file system
 * "memdb"). Each thread has a connection of its own, without a mutex, and statements that are prepared once.
 *
 * Reads are BEGIN, SELECTs and COMMIT: a lock that readers share is taken at the first SELECT and given back by COMMIT.
 * A change is BEGIN IMMEDIATE and COMMIT, a lone one its statement alone: as soon as one begins to write no other may
 * begin to read, and it commits once all who read have ended. Each connection keeps pages of its own, which it drops
 * where another has committed since. Who has to wait yields at first, and then sleeps, in the busy handler. */
#include <sched.h>
#include <sqlite3.h>
#include <string.h>
#include <time.h>

#include "threads.h"

static const char *const TABLES[KINDS] = {"record", "account", "own"};
static sqlite3 *keeper; /* the database is there as long as one connection is */

struct session {
    sqlite3 *db;
    sqlite3_stmt *getting[KINDS], *setting[KINDS], *reading, *writing, *committing;
    enum kind kinds[PLACES];
    uint32_t numbers[PLACES];
};

static int wait_a_turn(void *nothing, int turns) {
    const struct timespec nap = {0, 50000};
    (void)nothing;
    if (turns < 64)
        sched_yield();
    else
        nanosleep(&nap, NULL);
    return 1;
}

static sqlite3 *connect(void) {
    sqlite3 *db;
    int flags = SQLITE_OPEN_READWRITE | SQLITE_OPEN_CREATE | SQLITE_OPEN_URI | SQLITE_OPEN_NOMUTEX;
    must(sqlite3_open_v2("file:/threads?vfs=memdb", &db, flags, NULL) == SQLITE_OK, "sqlite3_open_v2");
    must(sqlite3_busy_handler(db, wait_a_turn, NULL) == SQLITE_OK, "sqlite3_busy_handler");
    return db;
}

void open_store(void) {
    char text[128];
    /* counts of memory are kept under a mutex that all threads share */
    must(sqlite3_config(SQLITE_CONFIG_MEMSTATUS, 0) == SQLITE_OK, "sqlite3_config");
    keeper = connect();
    for (int kind = 0; kind < KINDS; kind++) {
        snprintf(text, sizeof text, "CREATE TABLE %s (number INTEGER PRIMARY KEY, value BLOB)", TABLES[kind]);
        must(sqlite3_exec(keeper, text, NULL, NULL, NULL) == SQLITE_OK, text);
    }
}

void close_store(void) { must(sqlite3_close(keeper) == SQLITE_OK, "sqlite3_close"); }

static sqlite3_stmt *prepared(sqlite3 *db, const char *form, const char *table) {
    sqlite3_stmt *statement;
    char text[128];
    snprintf(text, sizeof text, form, table);
    must(sqlite3_prepare_v2(db, text, -1, &statement, NULL) == SQLITE_OK, text);
    return statement;
}

struct session *open_session(unsigned number) {
    struct session *session = calloc(1, sizeof *session);
    (void)number;
    must(session != NULL, "calloc");
    session->db = connect();
    for (int kind = 0; kind < KINDS; kind++) {
        session->getting[kind] = prepared(session->db, "SELECT value FROM %s WHERE number = ?", TABLES[kind]);
        session->setting[kind] = prepared(session->db, "INSERT OR REPLACE INTO %s VALUES (?, ?)", TABLES[kind]);
    }
    session->reading = prepared(session->db, "BEGIN%s", "");
    session->writing = prepared(session->db, "BEGIN%s", " IMMEDIATE");
    session->committing = prepared(session->db, "COMMIT%s", "");
    return session;
}

void close_session(struct session *session) {
    for (int kind = 0; kind < KINDS; kind++) {
        sqlite3_finalize(session->getting[kind]);
        sqlite3_finalize(session->setting[kind]);
    }
    sqlite3_finalize(session->reading);
    sqlite3_finalize(session->writing);
    sqlite3_finalize(session->committing);
    must(sqlite3_close(session->db) == SQLITE_OK, "sqlite3_close");
    free(session);
}

void name_node(struct session *session, int place, enum kind kind, uint32_t number) {
    session->kinds[place] = kind;
    session->numbers[place] = number;
}

static void run(sqlite3_stmt *statement) {
    must(sqlite3_step(statement) == SQLITE_DONE, "sqlite3_step");
    sqlite3_reset(statement);
}

void begin_reads(struct session *session) { run(session->reading); }
void end_reads(struct session *session) { run(session->committing); }
void begin_changes(struct session *session) { run(session->writing); }

int commit_changes(struct session *session) {
    run(session->committing);
    return 1;
}

size_t get(struct session *session, int place, char *value, size_t size) {
    sqlite3_stmt *statement = session->getting[session->kinds[place]];
    sqlite3_bind_int64(statement, 1, session->numbers[place]);
    must(sqlite3_step(statement) == SQLITE_ROW, "SELECT");
    size_t length = (size_t)sqlite3_column_bytes(statement, 0);
    must(length <= size, "SELECT");
    memcpy(value, sqlite3_column_blob(statement, 0), length);
    sqlite3_reset(statement);
    return length;
}

void set(struct session *session, int place, const char *value, size_t length) {
    sqlite3_stmt *statement = session->setting[session->kinds[place]];
    sqlite3_bind_int64(statement, 1, session->numbers[place]);
    sqlite3_bind_blob(statement, 2, value, (int)length, SQLITE_STATIC);
    run(statement);
}

void set_alone(struct session *session, int place, const char *value, size_t length) {
    set(session, place, value, length);
}
