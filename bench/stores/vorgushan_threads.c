/* The nodes ^Record(NUMBER), ^Account(NUMBER) and ^Own(NUMBER), by the calls for several threads. Reads are commands of
 * a transaction that is rolled back, or, with VIEWS, looks in a view; the session holds meanwhile, but with NO_HOLD.
 * Nothing is collected, and no checkpoint is made, so the journal grows by all that is committed. */
#include "threads.h"
#include "vorgushan_threads.h"

static const vg_text NAMES[KINDS] = {{VG_TEXT("Record")}, {VG_TEXT("Account")}, {VG_TEXT("Own")}};
static vgt_hub hub;

struct session {
    vgt_session own;
    vg_key keys[PLACES];
    int has_view;
};

void open_store(void) { must(vgt_new(&hub) == VG_DONE, "vgt_new"); }

void close_store(void) { must(vgt_end(&hub) == VG_DONE, "vgt_end"); }

/* A session's job has its number and one more. */
struct session *open_session(unsigned number) {
    struct session *session = calloc(1, sizeof *session);
    must(session != NULL, "calloc");
    must(vgt_open(&hub, &session->own, number + 1) == VG_DONE, "vgt_open");
    return session;
}

void close_session(struct session *session) {
    for (int place = 0; place < PLACES; place++)
        vg_key_end(&session->keys[place]);
    must(vgt_halt(&session->own) == VG_DONE, "vgt_halt");
    free(session);
}

void name_node(struct session *session, int place, enum kind kind, uint32_t number) {
    char digits[20];
    const vg_text name = NAMES[kind], at = vg_digits(number, digits);
    must(vg_key_spell(&session->keys[place], name.bytes, name.length, &at, 1) == VG_DONE, "vg_key_spell");
}

static void hold(struct session *session) {
#ifdef NO_HOLD
    (void)session;
#else
    must(vgt_hold(&session->own) == VG_DONE, "vgt_hold");
#endif
}

#ifdef VIEWS
void begin_reads(struct session *session) {
    must(vgt_view_begin(&session->own) == VG_DONE, "vgt_view_begin");
    session->has_view = 1;
    hold(session);
}

void end_reads(struct session *session) {
    session->has_view = 0;
    must(vgt_view_end(&session->own) == VG_DONE, "vgt_view_end");
}
#else
void begin_reads(struct session *session) {
    must(vgt_tstart(&session->own, NULL) == VG_DONE, "vgt_tstart");
    hold(session);
}

void end_reads(struct session *session) { must(vgt_trollback(&session->own) == VG_DONE, "vgt_trollback"); }
#endif

void begin_changes(struct session *session) { must(vgt_tstart(&session->own, NULL) == VG_DONE, "vgt_tstart"); }

int commit_changes(struct session *session) {
    vg_outcome outcome = vgt_tcommit(&session->own, NULL);
    must(outcome == VG_DONE || outcome == VG_RESTARTED, "vgt_tcommit");
    return outcome == VG_DONE;
}

size_t get(struct session *session, int place, char *value, size_t size) {
    size_t length = 0;
    vg_key *key = &session->keys[place];
    vg_outcome outcome = session->has_view ? vgt_look(&session->own, VG_AT_START, key, value, size, &length)
                                           : vgt_get(&session->own, key, value, size, &length);
    must(outcome == VG_DONE, session->has_view ? "vgt_look" : "vgt_get");
    return length;
}

void set(struct session *session, int place, const char *value, size_t length) {
    must(vgt_set(&session->own, &session->keys[place], value, length) == VG_DONE, "vgt_set");
}

void set_alone(struct session *session, int place, const char *value, size_t length) {
    set(session, place, value, length);
}
