/* The records in SQLite, in a database in memory, by statements that are prepared once. */
#include <sqlite3.h>
#include <stdio.h>
#include <string.h>

#include "store.h"

static sqlite3 *db;
static sqlite3_stmt *putting, *getting, *walking;

static void run(const char *text) { must(sqlite3_exec(db, text, NULL, NULL, NULL) == SQLITE_OK, text); }

static void prepare(const char *text, sqlite3_stmt **statement) {
    must(sqlite3_prepare_v2(db, text, -1, statement, NULL) == SQLITE_OK, text);
}

void open_store(void) {
    must(sqlite3_open(":memory:", &db) == SQLITE_OK, "sqlite3_open");
    run("CREATE TABLE patient (number INTEGER, field TEXT, value BLOB, PRIMARY KEY (number, field)) WITHOUT ROWID");
    prepare("INSERT OR REPLACE INTO patient VALUES (?, ?, ?)", &putting);
    prepare("SELECT value FROM patient WHERE number = ? AND field = ?", &getting);
    prepare("SELECT number, field, value FROM patient ORDER BY number, field", &walking);
}

void close_store(void) {
    sqlite3_finalize(putting);
    sqlite3_finalize(getting);
    sqlite3_finalize(walking);
    must(sqlite3_close(db) == SQLITE_OK, "sqlite3_close");
}

void begin_work(void) { run("BEGIN"); }
void end_work(void) { run("COMMIT"); }

static void bind(sqlite3_stmt *statement, uint32_t number, const char *field) {
    sqlite3_bind_int64(statement, 1, number);
    sqlite3_bind_text(statement, 2, field, -1, SQLITE_STATIC);
}

void put(uint32_t number, const char *field, const char *value, size_t length) {
    bind(putting, number, field);
    sqlite3_bind_blob(putting, 3, value, (int)length, SQLITE_STATIC);
    must(sqlite3_step(putting) == SQLITE_DONE, "INSERT");
    sqlite3_reset(putting);
}

size_t get(uint32_t number, const char *field, char *value, size_t size) {
    bind(getting, number, field);
    must(sqlite3_step(getting) == SQLITE_ROW, "SELECT");
    size_t length = (size_t)sqlite3_column_bytes(getting, 0);
    must(length <= size, "SELECT");
    memcpy(value, sqlite3_column_blob(getting, 0), length);
    sqlite3_reset(getting);
    return length;
}

uint64_t walk(void) {
    char value[64];
    uint64_t bytes = 0;
    while (sqlite3_step(walking) == SQLITE_ROW) {
        size_t length = (size_t)sqlite3_column_bytes(walking, 2);
        memcpy(value, sqlite3_column_blob(walking, 2), length);
        bytes += length;
    }
    sqlite3_reset(walking);
    return bytes;
}
