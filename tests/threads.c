/* Every call of include/vorgushan_threads.h, each with what a wrong one would answer: tests/embed builds and runs it,
 * as the header is and with each wrong act of header_acts.py put into it. It prints a line for each check that fails,
 * and then how many there were; status 1 if any failed. Where a thread waits for ever, the alarm ends it.
 *
 * The linker's --wrap leads each call of the library through a function below, which answers VG_BUSY as often as `busy`
 * says: so it shows that each inline function calls again, and which of them wait in line. Those of malloc and realloc
 * refuse memory, and what isn't given back is counted. That of clock_gettime stops the clock. */
#include <stdio.h>
#include <stdlib.h>
#include <string.h>
#include <unistd.h>

#include "vorgushan_threads.h"

static pthread_mutex_t counting = PTHREAD_MUTEX_INITIALIZER;
static int checks = 0;
static int failed = 0;

static void check(int holds, int line) {
    pthread_mutex_lock(&counting);
    checks++;
    if (!holds) {
        failed++;
        printf("threads.c:%d: not so\n", line);
    }
    pthread_mutex_unlock(&counting);
}

#define CHECK(holds) check((holds), __LINE__)

/* ---- The library, at times in the way of others ---- */

static vgt_hub hub;
static int busy = 0;

/* The most calls that were seen to wait in line. */
static unsigned most_waiting = 0;

static vg_outcome told_as_busy(void) {
    if (hub.waiting_writers > most_waiting)
        most_waiting = hub.waiting_writers;
    busy--;
    return VG_BUSY;
}

#define BUSY_AT_TIMES(name, parameters, arguments)                                                                     \
    vg_outcome __real_##name parameters;                                                                               \
    vg_outcome __wrap_##name parameters;                                                                               \
    vg_outcome __wrap_##name parameters {                                                                              \
        return busy > 0 ? told_as_busy() : __real_##name arguments;                                                    \
    }

/* How often a LOCK was tried. */
static int tries = 0;

static vg_key *counted(vg_key *keys) {
    __atomic_add_fetch(&tries, 1, __ATOMIC_SEQ_CST);
    return keys;
}

/* How many SETs were done by a thread that makes no pause, and how many before the last one of session `one`. */
static unsigned long sets = 0;
static unsigned long sets_before = 0;
static vgt_session one, other;

static vg_session *noted(vg_session *session) {
    if (session == &one.own)
        sets_before = __atomic_load_n(&sets, __ATOMIC_SEQ_CST);
    return session;
}

BUSY_AT_TIMES(vorgushan_open, (vg_hub * h, vg_session *s, uint64_t j), (h, s, j))
BUSY_AT_TIMES(vorgushan_s_halt, (vg_session * s), (s))
BUSY_AT_TIMES(vorgushan_s_act, (vg_session * s, uint32_t a, uint64_t *n), (s, a, n))
BUSY_AT_TIMES(vorgushan_s_set, (vg_session * s, vg_key *k, const char *v, size_t n), (noted(s), k, v, n))
BUSY_AT_TIMES(vorgushan_s_kill, (vg_session * s, uint32_t e, vg_key *k), (s, e, k))
BUSY_AT_TIMES(vorgushan_s_get, (vg_session * s, vg_key *k, char *v, size_t z, size_t *n), (s, k, v, z, n))
BUSY_AT_TIMES(vorgushan_s_merge, (vg_session * s, vg_key *t, vg_key *f), (s, t, f))
BUSY_AT_TIMES(vorgushan_s_data, (vg_session * s, vg_key *k, uint64_t *n), (s, k, n))
BUSY_AT_TIMES(vorgushan_s_increment,
              (vg_session * s, vg_key *k, const char *b, size_t l, char *v, size_t z, size_t *n),
              (s, k, b, l, v, z, n))
BUSY_AT_TIMES(vorgushan_s_order,
              (vg_session * s, vg_key *k, const char *b, size_t l, uint32_t w, char *v, size_t z, size_t *n),
              (s, k, b, l, w, v, z, n))
BUSY_AT_TIMES(vorgushan_s_query, (vg_session * s, vg_key *k, uint32_t o, uint32_t w), (s, k, o, w))
BUSY_AT_TIMES(vorgushan_s_next_name,
              (vg_session * s, const char *b, size_t l, uint32_t w, char *v, size_t z, size_t *n),
              (s, b, l, w, v, z, n))
BUSY_AT_TIMES(vorgushan_s_lock, (vg_session * s, uint32_t f, uint32_t a, vg_key *k, size_t c, uint64_t *n),
              (s, f, a, counted(k), c, n))
BUSY_AT_TIMES(vorgushan_s_look, (vg_session * s, uint32_t m, vg_key *k, char *v, size_t z, size_t *n),
              (s, m, k, v, z, n))
BUSY_AT_TIMES(vorgushan_s_look_data, (vg_session * s, uint32_t m, vg_key *k, uint64_t *n), (s, m, k, n))
BUSY_AT_TIMES(vorgushan_s_look_order,
              (vg_session * s, uint32_t m, vg_key *k, const char *b, size_t l, uint32_t w, char *v, size_t z,
               size_t *n),
              (s, m, k, b, l, w, v, z, n))
BUSY_AT_TIMES(vorgushan_s_look_query, (vg_session * s, uint32_t m, vg_key *k, uint32_t o, uint32_t w), (s, m, k, o, w))
BUSY_AT_TIMES(vorgushan_s_walk, (vg_session * s, uint32_t m, vg_key *r, vg_key *p, char *v, size_t z, size_t *n),
              (s, m, r, p, v, z, n))
BUSY_AT_TIMES(vorgushan_s_hold, (vg_session * s), (s))
BUSY_AT_TIMES(vorgushan_s_collect, (vg_session * s, size_t n), (s, n))
BUSY_AT_TIMES(vorgushan_s_checkpoint, (vg_session * s), (s))

/* The time that is told while the clock stands, and how often it was asked for then. */
static struct timespec standing;
static int clock_stands = 0;
static int asked = 0;

int __real_clock_gettime(clockid_t clock, struct timespec *time);
int __wrap_clock_gettime(clockid_t clock, struct timespec *time);
int __wrap_clock_gettime(clockid_t clock, struct timespec *time) {
    if (!__atomic_load_n(&clock_stands, __ATOMIC_SEQ_CST))
        return __real_clock_gettime(clock, time);
    *time = standing;
    __atomic_add_fetch(&asked, 1, __ATOMIC_SEQ_CST);
    return 0;
}

/* How many blocks of memory the library gets before all are refused; as many as it wants, where that is below 0. */
static int blocks = -1;

static int is_refused(void) {
    if (blocks > 0)
        blocks--;
    else if (blocks == 0)
        return 1;
    return 0;
}

/* How many blocks it has. */
static int blocks_had = 0;

static void *counted_block(void *block) {
    if (block)
        __atomic_add_fetch(&blocks_had, 1, __ATOMIC_RELAXED);
    return block;
}

void *__real_malloc(size_t size);
void *__wrap_malloc(size_t size);
void *__wrap_malloc(size_t size) {
    return counted_block(is_refused() ? NULL : __real_malloc(size));
}

void *__real_realloc(void *block, size_t size);
void *__wrap_realloc(void *block, size_t size);
void *__wrap_realloc(void *block, size_t size) {
    return is_refused() ? NULL : __real_realloc(block, size);
}

void __real_free(void *block);
void __wrap_free(void *block);
void __wrap_free(void *block) {
    if (block)
        __atomic_sub_fetch(&blocks_had, 1, __ATOMIC_RELAXED);
    __real_free(block);
}

/* The call is made again after VG_BUSY so often, and then answers this. Meanwhile it is seen to wait in line or not. */
#define CHECK_BUSY(often, waits, outcome, call)                                                                        \
    do {                                                                                                               \
        const unsigned served = hub.served_writers;                                                                    \
        busy = (often);                                                                                                \
        most_waiting = 0;                                                                                              \
        CHECK((call) == (outcome) && busy == 0);                                                                       \
        CHECK(most_waiting == (waits) && hub.waiting_writers == 0 && hub.served_writers == served + (waits));          \
        busy = 0;                                                                                                      \
    } while (0)

/* A call that may need the database for itself waits in line from its first try in vain. */
#define CHECK_AFTER_BUSY(outcome, call) CHECK_BUSY(VGT_SPINNING_TURNS + 2, 1, outcome, call)

/* A look never does, but gives way to those who do: for 50 milliseconds, where they don't come through. */
#define CHECK_LOOK(outcome, call)                                                                                      \
    do {                                                                                                               \
        CHECK_BUSY(VGT_SPINNING_TURNS + 2, 0, outcome, call);                                                          \
        CHECK_GIVES_WAY(call);                                                                                         \
    } while (0)

#define CHECK_GIVES_WAY(call)                                                                                          \
    do {                                                                                                               \
        const struct timespec start = vgt_after(0);                                                                    \
        hub.waiting_writers = 1;                                                                                       \
        (void)(call);                                                                                                  \
        hub.waiting_writers = 0;                                                                                       \
        CHECK(milliseconds_since(&start) >= 49);                                                                       \
    } while (0)

static long milliseconds_since(const struct timespec *start) {
    struct timespec now;
    clock_gettime(CLOCK_MONOTONIC, &now);
    return (now.tv_sec - start->tv_sec) * 1000 + (now.tv_nsec - start->tv_nsec) / 1000000;
}

/* ---- What is looked at ---- */

static vg_key root = VG_KEY_NONE, first = VG_KEY_NONE, second = VG_KEY_NONE, copy = VG_KEY_NONE;
static char text[512];
static size_t length;

static int is_text(const char *wanted) {
    return length == strlen(wanted) && !memcmp(text, wanted, length);
}

static int has(vgt_session *session, vg_key *key, const char *wanted) {
    return vgt_get(session, key, text, sizeof text, &length) == VG_DONE && is_text(wanted);
}

static void spell(vg_key *key, const char *name, const char *subscript) {
    vg_text subscripts[1];
    subscripts[0].bytes = subscript;
    subscripts[0].length = strlen(subscript);
    CHECK(vg_key_spell(key, name, strlen(name), subscripts, *subscript ? 1 : 0) == VG_DONE);
}

/* ---- Hubs and sessions ---- */

/* Whether a session is as at first. */
static int is_none(const vgt_session *session) {
    return !session->own.own && !session->hub && !session->locked && !session->in_transaction && !session->holds;
}

static void begin_all(void) {
    vgt_session third = VGT_SESSION_NONE;
    void *own;
    CHECK(is_none(&third) && vgt_end(&hub) == VG_NO_ENGINE && vgt_new(&hub) == VG_DONE);
    own = hub.own.own;
    CHECK(vgt_new(&hub) == VG_ENGINE_THERE && hub.own.own == own);
    CHECK_AFTER_BUSY(VG_DONE, vgt_open(&hub, &one, 1));
    CHECK(vgt_open(&hub, &other, 2) == VG_DONE);
    CHECK(vgt_open(&hub, &third, 2) == VG_BAD_JOB && is_none(&third));
    CHECK(vgt_open(&hub, &third, 5000) == VG_BAD_JOB && is_none(&third));
    CHECK(vgt_open(&hub, &third, 3) == VG_DONE);
    CHECK_AFTER_BUSY(VG_DONE, vgt_halt(&third));
    CHECK(is_none(&third) && vgt_halt(&third) == VG_NO_ENGINE);
    CHECK(vgt_set(&third, &root, VG_TEXT("1")) == VG_NO_ENGINE);
    CHECK(vgt_set(&one, &root, VG_TEXT("1")) == VG_NO_KEY);
    CHECK(vg_refusal_text(VG_BUSY, text, sizeof text, &length) == VG_DONE && is_text("Busy"));
    spell(&root, "A", "");
    spell(&first, "A", "1");
    spell(&second, "A", "2");
    spell(&copy, "B", "");
    CHECK(vgt_look(&third, VG_PRESENT, &root, text, sizeof text, &length) == VG_NO_ENGINE);
    CHECK(vgt_get(&third, &root, text, sizeof text, &length) == VG_NO_ENGINE);
    CHECK(vgt_lock(&third, VG_LOCK_ONLY, &root, -1, NULL) == VG_NO_ENGINE);
}

/* Where a session has begun already nothing begins, and it stays in its hub. */
static void begin_again(void) {
    vgt_hub elsewhere = VGT_HUB_NONE;
    vgt_session third = VGT_SESSION_NONE;
    void *own = one.own.own;
    const uint64_t turns = hub.turns;
    CHECK(turns > 0 && vgt_new(&hub) == VG_ENGINE_THERE && hub.turns == turns);
    CHECK(vgt_new(&elsewhere) == VG_DONE && vgt_open(&elsewhere, &one, 3) == VG_ENGINE_THERE);
    CHECK(one.own.own == own && one.hub == &hub && vgt_set(&one, &root, VG_TEXT("value")) == VG_DONE);
    CHECK(vgt_open(&hub, &one, 3) == VG_ENGINE_THERE && vgt_open(&hub, &third, 3) == VG_DONE);
    CHECK(vgt_halt(&third) == VG_DONE && vgt_end(&elsewhere) == VG_DONE);
}

/* Where memory is refused for a session its job has none, so it can have one later. */
static void begin_without_memory(void) {
    vgt_session third = VGT_SESSION_NONE;
    vg_outcome outcome = VG_OUT_OF_MEMORY;
    int had;
    for (had = 0; outcome == VG_OUT_OF_MEMORY && had < 20; had++) {
        blocks = had;
        outcome = vgt_open(&hub, &third, 3);
        blocks = -1;
        CHECK(outcome == VG_DONE || is_none(&third));
    }
    CHECK(outcome == VG_DONE && had > 1 && vgt_halt(&third) == VG_DONE);
}

static void end_all(void) {
    static const vgt_hub none;
    CHECK(vgt_lock(&one, VG_LOCK_ONLY, &first, 0, NULL) == VG_DONE && one.locked);
    CHECK(vgt_halt(&one) == VG_DONE && vgt_halt(&other) == VG_DONE && is_none(&one) && is_none(&other));
    CHECK(vgt_end(&hub) == VG_DONE && !memcmp(&hub, &none, sizeof hub) && vgt_end(&hub) == VG_NO_ENGINE);
    CHECK(vgt_new(&hub) == VG_DONE && vgt_open(&hub, &one, 1) == VG_DONE);
    CHECK(vgt_halt(&one) == VG_DONE && vgt_end(&hub) == VG_DONE);
    vg_key_end(&root);
    vg_key_end(&first);
    vg_key_end(&second);
    vg_key_end(&copy);
    CHECK(blocks_had == 0);
}

/* ---- Data ---- */

static void use_data(void) {
    uint64_t number = 7;
    CHECK_AFTER_BUSY(VG_DONE, vgt_set(&one, &first, VG_TEXT("5")));
    CHECK(vgt_set(&one, &root, VG_TEXT("value")) == VG_DONE && vgt_set(&one, &second, NULL, 0) == VG_DONE);
    CHECK_AFTER_BUSY(VG_DONE, vgt_get(&one, &root, text, sizeof text, &length));
    CHECK(is_text("value") && has(&other, &first, "5") && has(&one, &second, ""));
    CHECK(vgt_get(&one, &root, text, 2, &length) == VG_BUFFER_TOO_SHORT && length == 5);
    CHECK(vgt_copy(&one, text, sizeof text, &length) == VG_DONE && is_text("value"));
    CHECK(vgt_get(&one, &root, NULL, 0, &length) == VG_BUFFER_TOO_SHORT && length == 5);
    CHECK(vgt_get(&one, &root, text, sizeof text, NULL) == VG_DONE);
    CHECK_AFTER_BUSY(VG_DONE, vgt_data(&one, &root, &number));
    CHECK(number == 11 && vgt_data(&one, &first, &number) == VG_DONE && number == 1);
    CHECK_AFTER_BUSY(VG_DONE, vgt_increment(&one, &first, VG_TEXT("2"), text, sizeof text, &length));
    CHECK(is_text("7") && vgt_increment(&one, &first, VG_TEXT("-10"), text, sizeof text, &length) == VG_DONE);
    CHECK(is_text("-3") && vgt_increment(&one, &first, NULL, 0, text, sizeof text, &length) == VG_BAD_LINE && !length);
    CHECK(vgt_increment(&one, &first, VG_TEXT("1"), NULL, 0, &length) == VG_BUFFER_TOO_SHORT && length == 2);
    CHECK(vgt_copy(&one, text, sizeof text, &length) == VG_DONE && is_text("-2") && has(&other, &first, "-2"));
    CHECK_AFTER_BUSY(VG_DONE, vgt_merge(&one, &copy, &root));
    CHECK(has(&one, &copy, "value") && vgt_merge(&one, &root, &root) == VG_MERGE_OVERLAP);
    CHECK_AFTER_BUSY(VG_DONE, vgt_kill(&one, VG_KILL_VALUE, &copy));
    CHECK(vgt_data(&one, &copy, &number) == VG_DONE && number == 10);
    CHECK(vgt_set(&one, &copy, VG_TEXT("1")) == VG_DONE && vgt_kill(&one, VG_KILL_BELOW, &copy) == VG_DONE);
    CHECK(vgt_data(&one, &copy, &number) == VG_DONE && number == 1);
    CHECK(vgt_kill(&one, VG_KILL_ALL, &copy) == VG_DONE && vgt_data(&one, &copy, &number) == VG_DONE && number == 0);
}

static void use_walks(void) {
    vg_key at = VG_KEY_NONE;
    CHECK(vgt_set(&one, &copy, VG_TEXT("1")) == VG_DONE);
    CHECK_AFTER_BUSY(VG_DONE, vgt_order(&one, &root, VG_TEXT("1"), VG_FORWARD, text, sizeof text, &length));
    CHECK(is_text("2"));
    CHECK(vgt_order(&one, &root, text, length, VG_BACKWARD, text, sizeof text, &length) == VG_DONE && is_text("1"));
    CHECK(vgt_order(&one, &root, NULL, 0, VG_BACKWARD, text, sizeof text, &length) == VG_DONE && is_text("2"));
    CHECK_AFTER_BUSY(VG_DONE, vgt_next_name(&one, VG_TEXT("A"), VG_FORWARD, text, sizeof text, &length));
    CHECK(is_text("B") && vgt_next_name(&one, text, length, VG_BACKWARD, text, sizeof text, &length) == VG_DONE);
    CHECK(is_text("A") && vgt_next_name(&one, VG_TEXT("B"), VG_FORWARD, text, sizeof text, &length) == VG_AT_END);
    spell(&at, "A", "");
    CHECK_AFTER_BUSY(VG_DONE, vgt_query(&one, &at, VG_AT_KEY, VG_FORWARD));
    CHECK(has(&one, &at, "-2") && vgt_query(&one, &at, VG_AT_KEY, VG_BACKWARD) == VG_DONE && has(&one, &at, "value"));
    CHECK(vgt_query(&one, &at, VG_BELOW_KEY, VG_BACKWARD) == VG_DONE && has(&one, &at, ""));
    CHECK(vgt_query(&one, &at, VG_AT_KEY, VG_FORWARD) == VG_AT_END);
    CHECK(vgt_kill(&one, VG_KILL_ALL, &copy) == VG_DONE);
    vg_key_end(&at);
}

/* No empty subscript follows a key of 31. */
static void use_deepest(void) {
    vg_key at = VG_KEY_NONE;
    vg_text ones[31];
    int i;
    for (i = 0; i < 31; i++) {
        ones[i].bytes = "1";
        ones[i].length = 1;
    }
    CHECK(vg_key_spell(&at, VG_TEXT("A"), ones, 31) == VG_DONE);
    CHECK(vgt_query(&one, &at, VG_BELOW_KEY, VG_BACKWARD) == VG_TOO_MANY_SUBSCRIPTS);
    CHECK(vgt_look_query(&one, VG_PRESENT, &at, VG_BELOW_KEY, VG_BACKWARD) == VG_TOO_MANY_SUBSCRIPTS);
    CHECK(vgt_query(&one, &at, VG_AT_KEY, VG_BACKWARD) == VG_DONE);
    vg_key_end(&at);
}

/* ---- Transactions ---- */

static void use_transactions(void) {
    uint64_t number = 7;
    CHECK_AFTER_BUSY(VG_DONE, vgt_tstart(&one, &number));
    CHECK(number == 1 && vgt_tstart(&one, &number) == VG_DONE && number == 2);
    CHECK(vgt_tlevel(&one, &number) == VG_DONE && number == 2);
    CHECK(vgt_tcommit(&one, &number) == VG_DONE && number == 1);
    CHECK(has(&one, &first, "-2") && vgt_set(&one, &second, VG_TEXT("2")) == VG_DONE && has(&other, &second, ""));
    CHECK(vgt_set(&other, &first, VG_TEXT("0")) == VG_DONE);
    CHECK(vgt_tcommit(&one, &number) == VG_RESTARTED && number == 1);
    CHECK(vgt_trestarts(&one, &number) == VG_DONE && number == 1);
    CHECK(vgt_tlevel(&one, &number) == VG_DONE && number == 1 && has(&one, &first, "0") && has(&one, &second, ""));
    CHECK(vgt_trestart(&one, &number) == VG_RESTARTED && number == 2);
    CHECK(vgt_trestarts(&one, &number) == VG_DONE && number == 2);
    CHECK(vgt_tlevel(&one, &number) == VG_DONE && number == 1);
    CHECK(vgt_set(&one, &second, VG_TEXT("3")) == VG_DONE && vgt_trollback(&one) == VG_DONE && has(&one, &second, ""));
    CHECK(vgt_trollback(&one) == VG_NO_TRANSACTION && vgt_tcommit(&one, NULL) == VG_NO_TRANSACTION);
}

/* A block that meets a conflict the first two times, and what it is to return. */
typedef struct block {
    int times;
    vg_outcome outcome;
} block;

static vg_outcome meets_conflicts(vgt_session *session, void *with) {
    block *what = with;
    char number[2] = "0";
    uint64_t level = 0;
    number[0] = (char)('0' + ++what->times);
    CHECK(vgt_tlevel(session, &level) == VG_DONE && level == 1);
    CHECK(vgt_get(session, &first, text, sizeof text, NULL) == VG_DONE);
    if (what->times < 3)
        CHECK(vgt_set(&other, &first, number, 1) == VG_DONE);
    CHECK(vgt_set(session, &second, number, 1) == VG_DONE);
    return what->outcome;
}

static vg_outcome is_never_called(vgt_session *session, void *with) {
    (void)session;
    (void)with;
    CHECK(!"called");
    return VG_DONE;
}

/* A block with another one within, and what it did before and after. */
static vg_outcome nests(vgt_session *session, void *with) {
    uint64_t level = 7;
    (void)with;
    CHECK(vgt_set(session, &first, VG_TEXT("before")) == VG_DONE);
    CHECK(vgt_transaction(session, is_never_called, NULL) == VG_TRANSACTION_OPEN);
    CHECK(vgt_tlevel(session, &level) == VG_DONE && level == 1);
    return vgt_set(session, &second, VG_TEXT("after"));
}

static void use_nested_blocks(void) {
    uint64_t level = 7;
    int depth;
    CHECK(vgt_transaction(&one, nests, NULL) == VG_DONE && has(&other, &first, "before"));
    CHECK(has(&other, &second, "after"));
    for (depth = 0; depth < 127; depth++)
        CHECK(vgt_tstart(&one, NULL) == VG_DONE);
    CHECK(vgt_transaction(&one, is_never_called, NULL) == VG_TRANSACTION_OPEN);
    CHECK(vgt_tlevel(&one, &level) == VG_DONE && level == 127 && vgt_trollback(&one) == VG_DONE);
}

/* Goes one level deeper, and stays there. */
static vg_outcome goes_deeper(vgt_session *session, void *with) {
    (void)with;
    CHECK(vgt_set(session, &first, VG_TEXT("deeper")) == VG_DONE);
    return vgt_tstart(session, NULL);
}

/* Asks twice for another call, and sets something before: first by what it returns, then by a TRESTART of its own, and
 * after that it goes on. */
static vg_outcome restarts(vgt_session *session, void *with) {
    const int times = ++*(int *)with;
    vg_outcome outcome = VG_DONE;
    if (times == 3)
        return vgt_set(session, &second, VG_TEXT("third"));
    CHECK(vgt_set(session, &first, VG_TEXT("not kept")) == VG_DONE);
    if (times == 1)
        return VG_RESTARTED;
    outcome = vgt_trestart(session, NULL);
    CHECK(vgt_set(session, &first, VG_TEXT("nor this")) == VG_DONE);
    return outcome;
}

static vg_outcome commits(vgt_session *session, void *with) {
    (void)with;
    CHECK(vgt_set(session, &first, VG_TEXT("committed")) == VG_DONE);
    return vgt_tcommit(session, NULL);
}

static vg_outcome rolls_back(vgt_session *session, void *with) {
    (void)with;
    CHECK(vgt_set(session, &first, VG_TEXT("rolled back")) == VG_DONE);
    return vgt_trollback(session);
}

/* What blocks may do wrong. */
static void use_odd_blocks(void) {
    uint64_t level = 7;
    int times = 0;
    CHECK(vgt_transaction(&one, goes_deeper, NULL) == VG_TRANSACTION_OPEN && has(&one, &first, "before"));
    CHECK(vgt_tlevel(&one, &level) == VG_DONE && level == 0);
    CHECK(vgt_transaction(&one, restarts, &times) == VG_DONE && times == 3);
    CHECK(has(&one, &first, "before") && has(&one, &second, "third"));
    CHECK(vgt_transaction(&one, commits, NULL) == VG_NO_TRANSACTION && has(&one, &first, "committed"));
    CHECK(vgt_transaction(&one, rolls_back, NULL) == VG_NO_TRANSACTION && has(&one, &first, "committed"));
}

static void use_blocks(void) {
    block done = {0, VG_DONE};
    block given_up = {5, VG_NO_VALUE};
    uint64_t level = 7;
    CHECK(vgt_transaction(&one, meets_conflicts, &done) == VG_DONE && done.times == 3 && has(&one, &second, "3"));
    CHECK(vgt_tlevel(&one, &level) == VG_DONE && level == 0);
    CHECK(vgt_transaction(&one, meets_conflicts, &given_up) == VG_NO_VALUE && given_up.times == 6);
    CHECK(vgt_tlevel(&one, &level) == VG_DONE && level == 0 && has(&one, &second, "3"));
}

/* ---- Looks and views ---- */

static void use_looks(void) {
    uint64_t number = 7;
    vg_key at = VG_KEY_NONE, place = VG_KEY_NONE;
    CHECK_LOOK(VG_DONE, vgt_look(&one, VG_PRESENT, &second, text, sizeof text, &length));
    CHECK(is_text("3") && vgt_look(&one, VG_PRESENT, &copy, text, sizeof text, &length) == VG_NO_VALUE && !length);
    CHECK(vgt_look(&one, VG_PRESENT, &root, NULL, 0, &length) == VG_BUFFER_TOO_SHORT && length == 5);
    CHECK_LOOK(VG_DONE, vgt_look_data(&one, VG_PRESENT, &root, &number));
    CHECK(number == 11 && vgt_look_data(&one, VG_AT_START, &root, &number) == VG_NO_TRANSACTION && number == 0);
    CHECK_LOOK(VG_DONE,
               vgt_look_order(&one, VG_PRESENT, &root, VG_TEXT("1"), VG_FORWARD, text, sizeof text, &length));
    CHECK(is_text("2"));
    CHECK(vgt_look_order(&one, VG_PRESENT, &root, text, length, VG_BACKWARD, text, sizeof text, &length) == VG_DONE);
    CHECK(is_text("1"));
    spell(&at, "A", "1");
    CHECK_LOOK(VG_DONE, vgt_look_query(&one, VG_PRESENT, &at, VG_AT_KEY, VG_BACKWARD));
    CHECK_LOOK(VG_DONE, vgt_walk(&one, VG_PRESENT, &root, &place, text, sizeof text, &length));
    vg_key_end(&at);
    vg_key_end(&place);
}

/* How many nodes a walk of ^A has at a moment. */
static int nodes(uint32_t moment) {
    char buffer[1024];
    const char *at = buffer;
    vg_key place = VG_KEY_NONE;
    vg_node node;
    int count = 0;
    CHECK_BUSY(VGT_SPINNING_TURNS + 2, 0, VG_DONE,
               vgt_walk(&one, moment, &root, &place, buffer, sizeof buffer, &length));
    while (vg_node_next(&at, buffer + length, &node))
        count++;
    CHECK_GIVES_WAY(vgt_walk(&one, moment, &root, &place, buffer, sizeof buffer, NULL));
    CHECK(vgt_walk(&one, moment, &root, &place, buffer, sizeof buffer, NULL) == VG_AT_END);
    CHECK(vgt_walk(&one, moment, &root, NULL, buffer, sizeof buffer, NULL) == VG_NO_KEY);
    vg_key_end(&place);
    return count;
}

static void use_views(void) {
    uint64_t number = 7;
    vg_key at = VG_KEY_NONE, place = VG_KEY_NONE;
    CHECK(vgt_view_begin(&one) == VG_DONE && vgt_view_begin(&one) == VG_TRANSACTION_OPEN);
    CHECK(vgt_tlevel(&one, &number) == VG_DONE && number == 1);
    CHECK(vgt_kill(&other, VG_KILL_ALL, &second) == VG_DONE && vgt_set(&other, &copy, VG_TEXT("1")) == VG_DONE);
    CHECK(vgt_look(&one, VG_AT_START, &second, text, sizeof text, &length) == VG_DONE && is_text("3"));
    CHECK(vgt_look(&one, VG_PRESENT, &second, text, sizeof text, &length) == VG_NO_VALUE);
    CHECK(vgt_look_data(&one, VG_AT_START, &second, &number) == VG_DONE && number == 1);
    CHECK(vgt_look_data(&one, VG_PRESENT, &second, &number) == VG_DONE && number == 0);
    CHECK(vgt_look_order(&one, VG_AT_START, &root, VG_TEXT("1"), VG_FORWARD, text, sizeof text, &length) == VG_DONE);
    CHECK(is_text("2"));
    spell(&at, "A", "1");
    CHECK_BUSY(VGT_SPINNING_TURNS + 2, 0, VG_DONE, vgt_look_query(&one, VG_AT_START, &at, VG_AT_KEY, VG_FORWARD));
    CHECK_GIVES_WAY(vgt_look_query(&one, VG_AT_START, &place, VG_AT_KEY, VG_FORWARD));
    CHECK(vgt_look_query(&one, VG_AT_START, &at, VG_AT_KEY, VG_BACKWARD) == VG_DONE);
    CHECK(vgt_look_query(&one, VG_PRESENT, &at, VG_AT_KEY, VG_FORWARD) == VG_AT_END);
    CHECK(nodes(VG_AT_START) == 3 && nodes(VG_PRESENT) == 2);
    CHECK(vgt_walk(&one, VG_PRESENT, NULL, &place, text, sizeof text, &length) == VG_DONE);
    CHECK(vgt_walk(&one, VG_PRESENT, NULL, &place, text, sizeof text, NULL) == VG_AT_END);
    CHECK(vgt_view_end(&one) == VG_DONE && vgt_view_end(&one) == VG_NO_TRANSACTION);
    CHECK(vgt_look(&one, VG_AT_START, &root, text, sizeof text, &length) == VG_NO_TRANSACTION);
    CHECK(vgt_kill(&other, VG_KILL_ALL, &copy) == VG_DONE);
    vg_key_end(&at);
    vg_key_end(&place);
}

/* ---- Holds ---- */

/* Whether the session holds, so that another one's SET is busy, or doesn't, so that it is done. */
static int is_held(void) {
    return one.holds && vorgushan_s_set(&other.own, &copy, "1", 1) == VG_BUSY;
}

static int is_free(void) {
    return !one.holds && vorgushan_s_set(&other.own, &copy, "1", 1) == VG_DONE;
}

/* A call under a hold, which goes on: it doesn't give way, which it would do for ever. */
#define CHECK_HELD(call)                                                                                               \
    do {                                                                                                               \
        asked = 0;                                                                                                     \
        standing = vgt_after(0);                                                                                       \
        clock_stands = 1;                                                                                              \
        hub.waiting_writers = 1;                                                                                       \
        CHECK((call) == VG_DONE);                                                                                      \
        hub.waiting_writers = 0;                                                                                       \
        clock_stands = 0;                                                                                              \
        CHECK(asked == 0 && is_held());                                                                                \
    } while (0)

/* One with which the hold ends. */
#define CHECK_ENDS_A_HOLD(outcome, call)                                                                               \
    do {                                                                                                               \
        CHECK(vgt_hold(&one) == VG_DONE && is_held());                                                                 \
        CHECK((call) == (outcome) && is_free());                                                                       \
    } while (0)

static void use_a_hold(void) {
    vg_key at = VG_KEY_NONE, place = VG_KEY_NONE;
    spell(&at, "A", "");
    CHECK(vgt_tstart(&one, NULL) == VG_DONE);
    CHECK_BUSY(VGT_SPINNING_TURNS + 2, 0, VG_DONE, vgt_hold(&one));
    CHECK(is_held() && vgt_release(&one) == VG_DONE && is_free());
    CHECK_GIVES_WAY(vgt_hold(&one));
    CHECK_HELD(vgt_hold(&one));
    CHECK_HELD(vgt_get(&one, &first, text, sizeof text, &length));
    CHECK_HELD(vgt_set(&one, &second, VG_TEXT("5")));
    CHECK(has(&one, &second, "5") && vgt_look_data(&one, VG_AT_START, &second, NULL) == VG_DONE);
    CHECK_HELD(vgt_look(&one, VG_AT_START, &first, text, sizeof text, &length));
    CHECK_HELD(vgt_look_data(&one, VG_PRESENT, &first, NULL));
    CHECK_HELD(vgt_look_order(&one, VG_AT_START, &root, NULL, 0, VG_FORWARD, text, sizeof text, &length));
    CHECK_HELD(vgt_look_query(&one, VG_AT_START, &at, VG_AT_KEY, VG_FORWARD));
    CHECK_HELD(vgt_walk(&one, VG_PRESENT, &root, &place, text, sizeof text, &length));
    CHECK_HELD(vgt_kill(&one, VG_KILL_ALL, &second));
    CHECK(vgt_release(&one) == VG_DONE && is_free() && vgt_release(&one) == VG_DONE);
    vg_key_end(&at);
    vg_key_end(&place);
}

static void use_holds(void) {
    vgt_session third = VGT_SESSION_NONE;
    CHECK(vgt_hold(&third) == VG_NO_ENGINE && is_none(&third) && vgt_release(&third) == VG_NO_ENGINE);
    CHECK(vgt_open(&hub, &third, 3) == VG_DONE && vgt_hold(&third) == VG_DONE && vgt_hold(&one) == VG_DONE);
    CHECK(vgt_release(&one) == VG_DONE && vgt_halt(&third) == VG_DONE && is_none(&third));
    use_a_hold();
    CHECK_ENDS_A_HOLD(VG_DONE, vgt_tlevel(&one, NULL));
    CHECK_ENDS_A_HOLD(VG_DONE, vgt_tcommit(&one, NULL));
    CHECK_ENDS_A_HOLD(VG_DONE, vgt_get(&one, &first, text, sizeof text, &length));
    CHECK_ENDS_A_HOLD(VG_DONE, vgt_set(&one, &second, VG_TEXT("5")));
    CHECK_ENDS_A_HOLD(VG_DONE, vgt_kill(&one, VG_KILL_ALL, &second));
    CHECK_ENDS_A_HOLD(VG_DONE, vgt_lock(&one, VG_LOCK_ONLY, &first, 0, NULL));
    CHECK_ENDS_A_HOLD(VG_DONE, vgt_unlock(&one));
    CHECK_ENDS_A_HOLD(VG_DONE, vgt_checkpoint(&one));
    CHECK_ENDS_A_HOLD(VG_DONE, vgt_view_begin(&one));
    CHECK_ENDS_A_HOLD(VG_DONE, vgt_view_end(&one));
    CHECK(vgt_kill(&other, VG_KILL_ALL, &copy) == VG_DONE);
}

/* The library's own calls end a hold too, which the header has ended before. */
static void use_holds_of_the_library(void) {
    uint64_t number;
    vg_session *own = &one.own;
    CHECK(vorgushan_s_act(own, VG_TSTART, &number) == VG_DONE && vorgushan_s_hold(own) == VG_DONE);
    CHECK(vorgushan_s_set(own, &second, "6", 1) == VG_DONE && vorgushan_s_act(own, VG_TCOMMIT, &number) == VG_DONE);
    CHECK(is_free() && vorgushan_s_hold(own) == VG_DONE && vorgushan_s_collect(own, 1) == VG_DONE && is_free());
    CHECK(vorgushan_s_hold(own) == VG_DONE && vorgushan_s_kill(own, VG_KILL_ALL, &second) == VG_DONE && is_free());
    CHECK(vgt_kill(&other, VG_KILL_ALL, &copy) == VG_DONE);
}

/* ---- Locks ---- */

static void use_locks(void) {
    uint64_t had = 7;
    int before;
    struct timespec start = vgt_after(0);
    CHECK(vgt_lock(&other, VG_LOCK_ONLY, &copy, 0, &had) == VG_DONE && had == 1);
    CHECK_AFTER_BUSY(VG_DONE, vgt_lock(&one, VG_LOCK_ONLY, &first, 0, &had));
    CHECK(had == 1 && vgt_lock(&other, VG_LOCK_ONLY, &first, 0, &had) == VG_DONE && had == 0);
    before = tries;
    CHECK(vgt_lock(&other, VG_LOCK_ONLY, &first, 0, &had) == VG_DONE && had == 0 && tries == before + 1);
    CHECK(vgt_lock(&one, VG_LOCK_MORE, &copy, 0, &had) == VG_DONE && had == 1); /* the first try released it */
    CHECK(vgt_lock(&other, VG_LOCK_ONLY, &first, 1100, &had) == VG_DONE && had == 0);
    CHECK(milliseconds_since(&start) >= 1100);
    CHECK(vgt_lock(&one, VG_LOCK_MORE, &second, 0, &had) == VG_DONE && had == 1);
    CHECK(vgt_lock(&one, VG_LOCK_FEWER, &first, 0, &had) == VG_DONE);
    CHECK(vgt_lock(&other, VG_LOCK_ONLY, &first, 0, &had) == VG_DONE && had == 1);
    CHECK(vgt_lock(&other, VG_LOCK_MORE, &second, 0, &had) == VG_DONE && had == 0);
    CHECK(one.locked && vgt_unlock(&one) == VG_DONE && !one.locked);
    CHECK(vgt_lock(&other, VG_LOCK_MORE, &second, 0, &had) == VG_DONE && had == 1);
    had = 7;
    CHECK(vgt_lock(&one, VG_LOCK_FEWER, &second, -1, &had) == VG_DONE && had == 1); /* though another has it */
    CHECK(vgt_unlock(&other) == VG_DONE);
    CHECK(vgt_lock_all(&one, VG_LOCK_ONLY, &first, 0, 0, &had) == VG_NO_KEY && had == 0);
}

/* Waits until a LOCK was tried once more than so often, and a little longer, until that is over. */
static void wait_for_a_try(int before) {
    const struct timespec little = {0, 20000000};
    while (__atomic_load_n(&tries, __ATOMIC_SEQ_CST) == before)
        sched_yield();
    nanosleep(&little, NULL);
}

/* How a session gives its names back while another thread waits for one. */
typedef vg_outcome (*release)(vgt_session *session);

static vg_outcome by_another_lock(vgt_session *session) {
    return vgt_lock(session, VG_LOCK_ONLY, &second, 0, NULL);
}

static vg_outcome by_one_fewer(vgt_session *session) {
    return vgt_lock(session, VG_LOCK_FEWER, &first, 0, NULL);
}

/* What is given back in a transaction others may have after its end. */
static vg_outcome by_tcommit(vgt_session *session) {
    const int before = __atomic_load_n(&tries, __ATOMIC_SEQ_CST) + 1;
    CHECK(by_one_fewer(session) == VG_DONE);
    wait_for_a_try(before);
    return vgt_tcommit(session, NULL);
}

static vg_outcome by_trestart(vgt_session *session) {
    return vgt_trestart(session, NULL) == VG_RESTARTED ? vgt_trollback(session) : (vg_outcome)VG_BAD_LINE;
}

/* How a session comes to a name that another then waits for. */
static vg_outcome has_it(vgt_session *session) {
    uint64_t had = 0;
    CHECK(vgt_lock(session, VG_LOCK_ONLY, &first, 0, &had) == VG_DONE && had == 1);
    return VG_DONE;
}

static vg_outcome has_it_in_a_transaction(vgt_session *session) {
    return vgt_tstart(session, NULL) == VG_DONE ? has_it(session) : (vg_outcome)VG_BAD_LINE;
}

/* What is released in a transaction is still its own until the commit. */
static vg_outcome keeps_it_until_the_end(vgt_session *session) {
    CHECK(has_it_in_a_transaction(session) == VG_DONE);
    return vgt_unlock(session);
}

static vg_outcome has_it_again_by_a_rollback(vgt_session *session) {
    CHECK(has_it(session) == VG_DONE && vgt_tstart(session, NULL) == VG_DONE && vgt_unlock(session) == VG_DONE);
    return vgt_trollback(session);
}

/* An unlock that was refused, where memory has to be asked for, leaves it. */
static vg_outcome keeps_it_for_want_of_memory(vgt_session *session) {
    vg_outcome outcome = VG_DONE;
    int times;
    for (times = 0; outcome == VG_DONE && times < 10000; times++) {
        CHECK(has_it(session) == VG_DONE);
        blocks = 0;
        outcome = vgt_unlock(session);
        blocks = -1;
    }
    return outcome == VG_OUT_OF_MEMORY ? (vg_outcome)VG_DONE : (vg_outcome)VG_BAD_LINE;
}

/* Who waits for a name, for so many milliseconds. */
typedef struct waiter {
    vg_key key;
    long wait;
} waiter;

/* Waits for a name, and has it long before the time is over. */
static void *waits(void *with) {
    waiter *who = with;
    uint64_t had = 0;
    const struct timespec start = vgt_after(0);
    CHECK(vgt_lock(&other, VG_LOCK_ONLY, &who->key, who->wait, &had) == VG_DONE && had == 1);
    CHECK(who->wait < 0 || milliseconds_since(&start) < who->wait * 3 / 4);
    CHECK(vgt_unlock(&other) == VG_DONE);
    return NULL;
}

/* A thread waits for a name that a session has, until it gives it back. */
static void use_waiting(vgt_session *holder, release take, long wait, release give_back) {
    pthread_t thread;
    int before;
    waiter who = {VG_KEY_NONE, 0};
    who.wait = wait;
    spell(&who.key, "A", "1");
    CHECK(take(holder) == VG_DONE);
    before = __atomic_load_n(&tries, __ATOMIC_SEQ_CST);
    pthread_create(&thread, NULL, waits, &who);
    wait_for_a_try(before);
    CHECK(give_back(holder) == VG_DONE);
    pthread_join(thread, NULL);
    vg_key_end(&who.key);
}

static vg_outcome by_the_commit(vgt_session *session) {
    return vgt_tcommit(session, NULL);
}

static void use_all_releases(void) {
    vgt_session third = VGT_SESSION_NONE;
    use_waiting(&one, has_it, -1, vgt_unlock);
    use_waiting(&one, has_it, -1, by_another_lock);
    CHECK(vgt_unlock(&one) == VG_DONE);
    use_waiting(&one, has_it, -1, by_one_fewer);
    use_waiting(&one, has_it_in_a_transaction, -1, by_tcommit);
    use_waiting(&one, has_it_in_a_transaction, -1, vgt_trollback);
    use_waiting(&one, has_it_in_a_transaction, -1, by_trestart);
    use_waiting(&one, keeps_it_until_the_end, 16000, by_the_commit);
    use_waiting(&one, has_it_again_by_a_rollback, 16000, vgt_unlock);
    use_waiting(&one, keeps_it_for_want_of_memory, 16000, vgt_unlock);
    CHECK(vgt_open(&hub, &third, 3) == VG_DONE);
    use_waiting(&third, has_it, -1, vgt_halt);
}

/* ---- Readers without a pause ---- */

/* Until a look that gives way has begun to wait. */
static void wait_for_its_wait(void) {
    while (__atomic_load_n(&asked, __ATOMIC_SEQ_CST) < 2)
        sched_yield();
}

/* One who waits in line comes through while another still waits, or goes. */
static void *is_served(void *nothing) {
    wait_for_its_wait();
    __atomic_add_fetch(&hub.served_writers, 1, __ATOMIC_RELAXED);
    return nothing;
}

static void *goes(void *nothing) {
    wait_for_its_wait();
    __atomic_store_n(&hub.waiting_writers, 0, __ATOMIC_RELAXED);
    return nothing;
}

/* A look that gives way ends then, though its 50 milliseconds are never over. */
static void use_giving_way(void *(*comes_through)(void *)) {
    pthread_t thread;
    asked = 0;
    standing = vgt_after(0);
    clock_stands = 1;
    hub.waiting_writers = 1;
    pthread_create(&thread, NULL, comes_through, NULL);
    CHECK(vgt_look(&one, VG_PRESENT, &root, text, sizeof text, &length) == VG_DONE);
    pthread_join(thread, NULL);
    hub.waiting_writers = 0;
    clock_stands = 0;
}

/* Calls that read without a pause, until others have come through, and so often at most. */
enum { WALKERS = 4, MOST_WALKS = 10000 };

static int over = 0;
static int tired = 0;

static void *walks(void *with) {
    vgt_session *session = with;
    char nodes[70000];
    size_t size;
    int times;
    for (times = 0; times < MOST_WALKS && !__atomic_load_n(&over, __ATOMIC_SEQ_CST); times++) {
        vg_key place = VG_KEY_NONE;
        CHECK(vgt_walk(session, VG_PRESENT, NULL, &place, nodes, sizeof nodes, &size) == VG_DONE);
        vg_key_end(&place);
    }
    if (times == MOST_WALKS)
        __atomic_add_fetch(&tired, 1, __ATOMIC_SEQ_CST);
    return NULL;
}

/* A SET and a session's begin come through while others walk. */
static void use_walkers(void) {
    static vgt_session walkers[WALKERS];
    pthread_t threads[WALKERS];
    vgt_session third = VGT_SESSION_NONE;
    const struct timespec little = {0, 50000000};
    vg_key node = VG_KEY_NONE;
    int number;
    for (number = 0; number < 3000; number++) {
        char digits[20];
        vg_text subscript = vg_digits((uint64_t)number, digits);
        CHECK(vg_key_spell(&node, VG_TEXT("C"), &subscript, 1) == VG_DONE);
        CHECK(vgt_set(&one, &node, VG_TEXT("value")) == VG_DONE);
    }
    for (number = 0; number < WALKERS; number++) {
        CHECK(vgt_open(&hub, &walkers[number], 10 + (uint64_t)number) == VG_DONE);
        pthread_create(&threads[number], NULL, walks, &walkers[number]);
    }
    nanosleep(&little, NULL);
    CHECK(vgt_set(&one, &node, VG_TEXT("another")) == VG_DONE && vgt_open(&hub, &third, 3) == VG_DONE);
    CHECK(__atomic_load_n(&tired, __ATOMIC_SEQ_CST) == 0);
    __atomic_store_n(&over, 1, __ATOMIC_SEQ_CST);
    for (number = 0; number < WALKERS; number++) {
        pthread_join(threads[number], NULL);
        CHECK(vgt_halt(&walkers[number]) == VG_DONE);
    }
    CHECK(hub.waiting_writers == 0 && vgt_halt(&third) == VG_DONE);
    vg_key_end(&node);
}

/* Data commands only look in a transaction, and give way there. */
static void use_reads(void) {
    vg_key none = VG_KEY_NONE;
    CHECK_BUSY(VGT_SPINNING_TURNS + 2, 0, VG_DONE, vgt_get(&one, &first, text, sizeof text, &length));
    CHECK_GIVES_WAY(vgt_get(&one, &first, text, sizeof text, &length));
    CHECK_BUSY(VGT_SPINNING_TURNS + 2, 0, VG_DONE, vgt_set(&one, &first, VG_TEXT("1")));
    CHECK_GIVES_WAY(vgt_set(&one, &first, VG_TEXT("1")));
    CHECK_GIVES_WAY(vgt_kill(&one, VG_KILL_BELOW, &first));
    CHECK_GIVES_WAY(vgt_data(&one, &first, NULL));
    CHECK_GIVES_WAY(vgt_order(&one, &root, NULL, 0, VG_FORWARD, text, sizeof text, &length));
    CHECK_GIVES_WAY(vgt_query(&one, &none, VG_AT_KEY, VG_FORWARD));
    CHECK_GIVES_WAY(vgt_next_name(&one, NULL, 0, VG_FORWARD, text, sizeof text, &length));
    CHECK_GIVES_WAY(vgt_increment(&one, &first, VG_TEXT("1"), text, sizeof text, &length));
    CHECK_GIVES_WAY(vgt_merge(&one, &none, &root));
}

static void use_readers(void) {
    CHECK_BUSY(2, 1, VG_DONE, vgt_set(&one, &first, VG_TEXT("1")));
    CHECK(vgt_tstart(&one, NULL) == VG_DONE && vgt_tstart(&one, NULL) == VG_DONE && vgt_tcommit(&one, NULL) == VG_DONE);
    use_reads();
    CHECK(vgt_trestart(&one, NULL) == VG_RESTARTED);
    CHECK_GIVES_WAY(vgt_get(&one, &first, text, sizeof text, &length));
    CHECK(vgt_tcommit(&one, NULL) == VG_DONE);
    CHECK_AFTER_BUSY(VG_DONE, vgt_get(&one, &first, text, sizeof text, &length));
    CHECK(vgt_tstart(&one, NULL) == VG_DONE && vgt_trollback(&one) == VG_DONE);
    CHECK_AFTER_BUSY(VG_DONE, vgt_get(&one, &first, text, sizeof text, &length));
    use_giving_way(is_served);
    use_giving_way(goes);
    use_walkers();
}

/* ---- The queue ---- */

enum { SETS_BESIDE = 101 };

static int sets_go_on = 0;

static void *sets_without_a_pause(void *unused) {
    while (__atomic_load_n(&sets_go_on, __ATOMIC_SEQ_CST) && vgt_set(&other, &first, VG_TEXT("1")) == VG_DONE)
        __atomic_add_fetch(&sets, 1, __ATOMIC_SEQ_CST);
    return unused;
}

static int is_more(const void *one_count, const void *other_count) {
    const unsigned long more = *(const unsigned long *)one_count, less = *(const unsigned long *)other_count;
    return (more > less) - (more < less);
}

/* A thread that sets without a pause passes nine of ten SETs of another at most so often as the header says, and a few
 * times more before that one is counted. */
static void use_queue(void) {
    const struct timespec nap = {0, 1000000};
    unsigned long passed[SETS_BESIDE];
    pthread_t thread;
    int turn;
    sets_go_on = 1;
    CHECK(!pthread_create(&thread, NULL, sets_without_a_pause, NULL));
    while (__atomic_load_n(&sets, __ATOMIC_SEQ_CST) < 1000)
        sched_yield();
    for (turn = 0; turn < SETS_BESIDE; turn++) {
        unsigned long before;
        nanosleep(&nap, NULL);
        before = __atomic_load_n(&sets, __ATOMIC_SEQ_CST);
        CHECK(vgt_set(&one, &second, VG_TEXT("1")) == VG_DONE);
        passed[turn] = sets_before - before;
    }
    __atomic_store_n(&sets_go_on, 0, __ATOMIC_SEQ_CST);
    pthread_join(thread, NULL);
    qsort(passed, SETS_BESIDE, sizeof *passed, is_more);
    CHECK(passed[SETS_BESIDE * 9 / 10] <= 2 * VGT_MOST_PASSED);
    CHECK(hub.queued == 0 && hub.passed <= VGT_MOST_PASSED);
}

/* ---- Upkeep ---- */

static void use_upkeep(void) {
    CHECK_AFTER_BUSY(VG_DONE, vgt_checkpoint(&one));
    CHECK(vgt_set(&one, &copy, VG_TEXT("1")) == VG_DONE);
    CHECK(vgt_collect(&one, 0) == VG_AT_END);
    CHECK_AFTER_BUSY(VG_DONE, vgt_collect(&one, 100000));
    CHECK(vgt_collect(&one, 100000) == VG_AT_END); /* none is left */
}

int main(void) {
    setvbuf(stdout, NULL, _IONBF, 0);
    alarm(30);
    begin_all();
    begin_without_memory();
    use_data();
    use_walks();
    use_deepest();
    use_transactions();
    use_blocks();
    use_looks();
    use_views();
    use_holds();
    use_holds_of_the_library();
    use_locks();
    use_all_releases();
    use_nested_blocks();
    use_odd_blocks();
    use_readers();
    use_upkeep();
    use_queue();
    begin_again();
    end_all();
    printf("%d checks, %d failed\n", checks, failed);
    return failed != 0;
}
