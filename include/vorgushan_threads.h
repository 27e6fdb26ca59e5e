/* Vorgushan for C, on several threads: one database, and a session for each thread that works on it. Everything of
 * vorgushan.h about keys, outcomes and texts holds here too; docs/LIBRARY.md is the page of both. NULL may be given for
 * a text or buffer of length 0, and for a length or number that the caller doesn't need, but for nothing else.
 *
 *     static vgt_hub bank = VGT_HUB_NONE;                      // shared by all threads
 *     vgt_session teller = VGT_SESSION_NONE;                   // of one thread, in one call at a time
 *     if (vgt_new(&bank) != VG_DONE || vgt_open(&bank, &teller, 1) != VG_DONE) return 1;
 *     vgt_set(&teller, &key, VG_TEXT("100"));
 *     vgt_transaction(&teller, move, &what);                   // calls move(&teller, &what) again after each conflict
 *     vgt_halt(&teller);
 *     vgt_end(&bank);
 *
 * In order: the library's own symbols; waiting; hubs and sessions; data; transactions; locks; looks and views; upkeep.
 *
 * The library takes no lock and never waits: where another session is in the way, a call of its own returns VG_BUSY,
 * has changed nothing, and may be made again. The calls named vgt_ do that for you: they spin, then yield, then sleep.
 * They are written by hand, for POSIX threads, and tested; what they call is proved.
 *
 * Looks, and data commands in a transaction, go on side by side, quickest under a vgt_hold; most other calls have the
 * database for themselves for a moment, one after another. Where one waits for that, each of the former lets one of the
 * latter by before it begins.
 *
 * There are no calls here for command lines, a listing, a load, the journal, children and counts: a walk of all in a
 * view, at VG_AT_START, reads all that is there at one moment.
 *
 * What a caller owes: a session is given to one call at a time. It may go to another thread between two calls. A key
 * too is given to one call at a time, so each thread has its own. No thread is cancelled in a call.
 *
 * With -std=c11 or -std=c99 compile with -D_POSIX_C_SOURCE=200809L, and always with -pthread. */
#ifndef VORGUSHAN_THREADS_H
#define VORGUSHAN_THREADS_H

#include <errno.h>
#include <pthread.h>
#include <sched.h>
#include <time.h>

#include "vorgushan.h"

#ifdef __cplusplus
extern "C" {
#endif

/* ---- The library's own symbols ---- */

/* A database that sessions share, and a session of it. Begin both with memory set to zero. */
typedef struct vg_hub {
    void *own;
} vg_hub;

typedef struct vg_session {
    void *own;
} vg_session;

/* What vorgushan_s_act does. Any other number is as VG_UNLOCK. */
enum {
    VG_TSTART = 0,
    VG_TCOMMIT = 1,
    VG_TROLLBACK = 2,
    VG_TRESTART = 3,
    VG_TLEVEL = 4,
    VG_TRESTARTS = 5,
    VG_UNLOCK = 6
};

/* What vorgushan_s_kill takes: the node and all below it, its value alone, or what is below it. */
enum { VG_KILL_ALL = 0, VG_KILL_VALUE = 1, VG_KILL_BELOW = 2 };

/* The moment of a look: now, or when the session's transaction began. Any other number is as VG_AT_START. */
enum { VG_PRESENT = 0, VG_AT_START = 1 };

/* For these no pointer may be NULL, and no two may name the same memory. Each may return VG_BUSY. */
vg_outcome vorgushan_hub_new(vg_hub *hub);
vg_outcome vorgushan_hub_end(vg_hub *hub);
vg_outcome vorgushan_open(vg_hub *hub, vg_session *session, uint64_t job);
vg_outcome vorgushan_s_halt(vg_session *session);
vg_outcome vorgushan_s_act(vg_session *session, uint32_t act, uint64_t *number);
vg_outcome vorgushan_s_set(vg_session *session, vg_key *key, const char *value, size_t value_length);
vg_outcome vorgushan_s_kill(vg_session *session, uint32_t extent, vg_key *key);
vg_outcome vorgushan_s_get(vg_session *session, vg_key *key, char *value, size_t value_size, size_t *value_length);
vg_outcome vorgushan_s_copy(vg_session *session, char *value, size_t value_size, size_t *value_length);
vg_outcome vorgushan_s_merge(vg_session *session, vg_key *to, vg_key *from);
vg_outcome vorgushan_s_data(vg_session *session, vg_key *key, uint64_t *number);
vg_outcome vorgushan_s_increment(vg_session *session, vg_key *key, const char *number, size_t number_length, char *sum,
                                 size_t sum_size, size_t *sum_length);
vg_outcome vorgushan_s_order(vg_session *session, vg_key *key, const char *start, size_t start_length,
                             uint32_t backward, char *subscript, size_t subscript_size, size_t *subscript_length);
vg_outcome vorgushan_s_query(vg_session *session, vg_key *key, uint32_t is_open, uint32_t backward);
vg_outcome vorgushan_s_next_name(vg_session *session, const char *start, size_t start_length, uint32_t backward,
                                 char *name, size_t name_size, size_t *name_length);
vg_outcome vorgushan_s_lock(vg_session *session, uint32_t form, uint32_t again, vg_key *keys, size_t count,
                            uint64_t *had);
vg_outcome vorgushan_s_look(vg_session *session, uint32_t moment, vg_key *key, char *value, size_t value_size,
                            size_t *value_length);
vg_outcome vorgushan_s_look_data(vg_session *session, uint32_t moment, vg_key *key, uint64_t *number);
vg_outcome vorgushan_s_look_order(vg_session *session, uint32_t moment, vg_key *key, const char *start,
                                  size_t start_length, uint32_t backward, char *subscript, size_t subscript_size,
                                  size_t *subscript_length);
vg_outcome vorgushan_s_look_query(vg_session *session, uint32_t moment, vg_key *key, uint32_t is_open,
                                  uint32_t backward);
vg_outcome vorgushan_s_walk(vg_session *session, uint32_t moment, vg_key *root, vg_key *place, char *nodes,
                            size_t nodes_size, size_t *nodes_length);
vg_outcome vorgushan_s_hold(vg_session *session);
vg_outcome vorgushan_s_release(vg_session *session);
vg_outcome vorgushan_s_collect(vg_session *session, size_t nodes);
vg_outcome vorgushan_s_checkpoint(vg_session *session);

/* ---- Waiting ---- */

/* A database that threads share. Begin it with VGT_HUB_NONE, an initializer (memory set to zero is the same). No two
 * threads may make or end it at once; what else they do with it they may. */
typedef struct vgt_hub {
    vg_hub own;
    unsigned waiting_writers;  /* calls that wait to have the database for themselves */
    unsigned served_writers;   /* how many of those came through */
    unsigned queued;           /* calls that wait to be next to have it */
    unsigned passed;           /* how many calls have passed these since one of them was next */
    pthread_mutex_t opening;   /* held round each call that is given the hub */
    pthread_mutex_t writing;   /* held by the call that is next to have the database for itself */
    pthread_mutex_t following; /* held by the queued call that will be next; the others sleep for it */
    pthread_mutex_t waiting;   /* held for `turns` */
    pthread_cond_t freed;      /* names may have been given back */
    uint64_t turns;            /* how often that was */
} vgt_hub;

#define VGT_HUB_NONE                                                                                                   \
    {{NULL}, 0, 0, 0, 0, PTHREAD_MUTEX_INITIALIZER, PTHREAD_MUTEX_INITIALIZER, PTHREAD_MUTEX_INITIALIZER,              \
     PTHREAD_MUTEX_INITIALIZER, PTHREAD_COND_INITIALIZER, 0}

/* A session of one job. Begin it with VGT_SESSION_NONE, an initializer (memory set to zero is the same). */
typedef struct vgt_session {
    vg_session own;
    vgt_hub *hub;
    int locked;         /* it may have names that others wait for, or get them back by a rollback */
    int in_transaction; /* its vgt_tstart has begun one, which is open */
    int holds;          /* its vgt_hold goes on */
} vgt_session;

#define VGT_SESSION_NONE {{NULL}, NULL, 0, 0, 0}

/* So often vgt_pause spins before it yields. */
enum { VGT_SPINNING_TURNS = 40 };

/* Spins, then yields, then sleeps. It never spins for longer than a call takes. */
static inline void vgt_pause(unsigned *turn) {
    const struct timespec nap = {0, 50000};
    unsigned spin;
    if (*turn < VGT_SPINNING_TURNS) {
        for (spin = 0; spin < 16u << (*turn < 2 ? *turn : 2); spin++)
            __builtin_ia32_pause();
    } else if (*turn < 64) {
        sched_yield();
    } else {
        nanosleep(&nap, NULL);
        return;
    }
    ++*turn;
}

/* The time so many milliseconds from now. */
static inline struct timespec vgt_after(long milliseconds) {
    struct timespec time;
    clock_gettime(CLOCK_MONOTONIC, &time);
    time.tv_sec += milliseconds / 1000;
    time.tv_nsec += milliseconds % 1000 * 1000000;
    if (time.tv_nsec >= 1000000000) {
        time.tv_sec++;
        time.tv_nsec -= 1000000000;
    }
    return time;
}

/* Whether that time is over. */
static inline int vgt_is_over(const struct timespec *until) {
    const struct timespec now = vgt_after(0);
    return now.tv_sec > until->tv_sec || (now.tv_sec == until->tv_sec && now.tv_nsec >= until->tv_nsec);
}

/* Pauses for a call that may need the database for itself. From its first try in vain on it is a waiting writer. */
static inline void vgt_wait_in_line(vgt_hub *hub, unsigned *turn) {
    if (*turn == 0)
        __atomic_add_fetch(&hub->waiting_writers, 1, __ATOMIC_RELAXED);
    vgt_pause(turn);
}

/* Such a call is through, after so many turns. */
static inline void vgt_leave_line(vgt_hub *hub, unsigned turn) {
    if (turn == 0)
        return;
    __atomic_add_fetch(&hub->served_writers, 1, __ATOMIC_RELAXED);
    __atomic_sub_fetch(&hub->waiting_writers, 1, __ATOMIC_RELAXED);
}

/* Waits until one of the waiting writers came through, or none waits, or 50 milliseconds are over. */
static inline void vgt_let_one_by(vgt_hub *hub) {
    const unsigned served = __atomic_load_n(&hub->served_writers, __ATOMIC_RELAXED);
    const struct timespec until = vgt_after(50);
    unsigned turn = 0;
    while (__atomic_load_n(&hub->waiting_writers, __ATOMIC_RELAXED) > 0 &&
           __atomic_load_n(&hub->served_writers, __ATOMIC_RELAXED) == served && !vgt_is_over(&until))
        vgt_pause(&turn);
}

/* What a call that reads does first, so that readers without a pause between them keep nobody out. */
static inline void vgt_give_way(vgt_hub *hub) {
    if (hub && __atomic_load_n(&hub->waiting_writers, __ATOMIC_RELAXED) > 0)
        vgt_let_one_by(hub);
}

/* Ends a session's hold, where it has one: before each call with which it could be in its own way. */
static inline void vgt_let_go(vgt_session *session) {
    if (!session->holds)
        return;
    session->holds = 0;
    vorgushan_s_release(&session->own);
}

/* How many calls may pass those that are queued; how many of the processor's pauses the first of these makes between two
 * looks, how often it looks before it lets others run meanwhile, and before it sleeps. */
enum {
    VGT_MOST_PASSED = 256,
    VGT_QUEUE_PAUSES = 128,
    VGT_QUEUE_SPINNING_TURNS = 128,
    VGT_QUEUE_TURNS = 512
};

static inline unsigned vgt_passed(vgt_hub *hub) {
    return __atomic_load_n(&hub->passed, __ATOMIC_RELAXED);
}

/* Whether a call is next at once. It may pass queued ones: so a thread does several calls before all that they touch goes
 * to another processor. */
static inline int vgt_is_next(vgt_hub *hub) {
    const unsigned queued = __atomic_load_n(&hub->queued, __ATOMIC_RELAXED);
    if ((queued > 0 && vgt_passed(hub) >= VGT_MOST_PASSED) || pthread_mutex_trylock(&hub->writing))
        return 0;
    if (queued > 0)
        __atomic_add_fetch(&hub->passed, 1, __ATOMIC_RELAXED);
    return 1;
}

/* Waits until the first of the queued calls is next: it tries where no call has passed since the last look, or as many
 * have as may. */
static inline void vgt_follow(vgt_hub *hub) {
    unsigned turn, spin, passed, seen = vgt_passed(hub);
    for (turn = 0; turn < VGT_QUEUE_TURNS; turn++) {
        for (spin = 0; spin < VGT_QUEUE_PAUSES; spin++)
            __builtin_ia32_pause();
        passed = vgt_passed(hub);
        if ((passed == seen || passed >= VGT_MOST_PASSED) && !pthread_mutex_trylock(&hub->writing))
            return;
        seen = passed;
        if (turn >= VGT_QUEUE_SPINNING_TURNS)
            sched_yield();
    }
    pthread_mutex_lock(&hub->writing);
}

/* Calls that may need the database for themselves come one after another: where all of them tried for it, each would
 * keep the others from it. One looks whether it is next, the others sleep, and few pass them. Returns whether the
 * call was queued. */
static inline int vgt_queue(vgt_hub *hub) {
    if (!hub || vgt_is_next(hub))
        return 0;
    __atomic_add_fetch(&hub->queued, 1, __ATOMIC_RELAXED);
    pthread_mutex_lock(&hub->following);
    vgt_follow(hub);
    __atomic_store_n(&hub->passed, 0, __ATOMIC_RELAXED);
    __atomic_sub_fetch(&hub->queued, 1, __ATOMIC_RELAXED);
    return 1;
}

/* Such a call is over, which may have been queued. */
static inline void vgt_leave_queue(vgt_hub *hub, int was_queued) {
    if (!hub)
        return;
    pthread_mutex_unlock(&hub->writing);
    if (was_queued)
        pthread_mutex_unlock(&hub->following);
}

/* Makes a session's call until it isn't in the way of others: one that may need the database for itself. */
#define VGT_RETRY(session, outcome, call)                                                                              \
    do {                                                                                                               \
        int vgt_queued;                                                                                                \
        vgt_let_go(session);                                                                                           \
        vgt_queued = vgt_queue((session)->hub);                                                                        \
        VGT_TRY(session, outcome, call);                                                                               \
        vgt_leave_queue((session)->hub, vgt_queued);                                                                   \
    } while (0)

/* The same of one that mostly needs nothing of the database, out of the queue. */
#define VGT_TRY(session, outcome, call)                                                                                \
    do {                                                                                                               \
        unsigned vgt_turn = 0;                                                                                         \
        while (((outcome) = (call)) == VG_BUSY)                                                                        \
            vgt_wait_in_line((session)->hub, &vgt_turn);                                                               \
        vgt_leave_line((session)->hub, vgt_turn);                                                                      \
    } while (0)

/* The same of one that only looks at the database, and never needs it for itself. */
#define VGT_LOOK(session, outcome, call)                                                                               \
    do {                                                                                                               \
        unsigned vgt_turn = 0;                                                                                         \
        if (!(session)->holds)                                                                                         \
            vgt_give_way((session)->hub);                                                                              \
        while (((outcome) = (call)) == VG_BUSY)                                                                        \
            vgt_pause(&vgt_turn);                                                                                      \
    } while (0)

/* The same of a data command: in a transaction it only looks, also where it writes, and else it is a unit. */
#define VGT_DATA(session, outcome, call)                                                                               \
    do {                                                                                                               \
        if ((session)->in_transaction)                                                                                 \
            VGT_LOOK(session, outcome, call);                                                                          \
        else                                                                                                           \
            VGT_RETRY(session, outcome, call);                                                                         \
    } while (0)

/* Wakes those who wait for names, where the session may have given some back. */
static inline void vgt_wake(vgt_session *session) {
    if (!session->locked)
        return;
    pthread_mutex_lock(&session->hub->waiting);
    session->hub->turns++;
    pthread_cond_broadcast(&session->hub->freed);
    pthread_mutex_unlock(&session->hub->waiting);
}

/* How often names may have been given back. */
static inline uint64_t vgt_turns(vgt_hub *hub) {
    uint64_t turns;
    pthread_mutex_lock(&hub->waiting);
    turns = hub->turns;
    pthread_mutex_unlock(&hub->waiting);
    return turns;
}

/* Waits until names may have been given back once more than so often, or until that time, where there is one. Returns
 * whether the time is over. */
static inline int vgt_wait(vgt_hub *hub, uint64_t turns, const struct timespec *until) {
    int over = 0;
    pthread_mutex_lock(&hub->waiting);
    while (hub->turns == turns && !over)
        over = (until ? pthread_cond_timedwait(&hub->freed, &hub->waiting, until)
                      : pthread_cond_wait(&hub->freed, &hub->waiting)) == ETIMEDOUT;
    pthread_mutex_unlock(&hub->waiting);
    return over;
}

/* ---- Hubs and sessions ---- */

/* Makes an empty database that threads share. VG_ENGINE_THERE where one is there; VG_OUT_OF_MEMORY: then it needs no
 * vgt_end. */
static inline vg_outcome vgt_new(vgt_hub *hub) {
    pthread_condattr_t clock;
    vg_outcome outcome = vorgushan_hub_new(&hub->own);
    if (outcome != VG_DONE)
        return outcome;
    hub->waiting_writers = 0;
    hub->served_writers = 0;
    hub->queued = 0;
    hub->passed = 0;
    hub->turns = 0;
    pthread_condattr_init(&clock);
    pthread_condattr_setclock(&clock, CLOCK_MONOTONIC);
    pthread_mutex_init(&hub->opening, NULL);
    pthread_mutex_init(&hub->writing, NULL);
    pthread_mutex_init(&hub->following, NULL);
    pthread_mutex_init(&hub->waiting, NULL);
    pthread_cond_init(&hub->freed, &clock);
    pthread_condattr_destroy(&clock);
    return outcome;
}

/* Ends the hub, which is then as VGT_HUB_NONE. Before it each of its sessions was halted, so no thread is in a call of
 * one any more, nor waits in one for a name. VG_NO_ENGINE where none was made. */
static inline vg_outcome vgt_end(vgt_hub *hub) {
    vg_outcome outcome;
    if (!hub->own.own)
        return VG_NO_ENGINE;
    outcome = vorgushan_hub_end(&hub->own);
    pthread_cond_destroy(&hub->freed);
    pthread_mutex_destroy(&hub->waiting);
    pthread_mutex_destroy(&hub->following);
    pthread_mutex_destroy(&hub->writing);
    pthread_mutex_destroy(&hub->opening);
    memset(hub, 0, sizeof *hub);
    return outcome;
}

/* Begins a session of a job, 1 to 4,096, which has no other. VG_BAD_JOB where it isn't such a number, or another session
 * has it; VG_OUT_OF_MEMORY: then none is there.
 * VG_ENGINE_THERE where it has begun already: then it goes on as it was. */
static inline vg_outcome vgt_open(vgt_hub *hub, vgt_session *session, uint64_t job) {
    vg_outcome outcome;
    if (session->own.own)
        return VG_ENGINE_THERE;
    session->hub = hub;
    session->locked = 0;
    session->in_transaction = 0;
    session->holds = 0;
    pthread_mutex_lock(&hub->opening);
    VGT_RETRY(session, outcome, vorgushan_open(&hub->own, &session->own, job));
    pthread_mutex_unlock(&hub->opening);
    if (outcome != VG_DONE)
        session->hub = NULL;
    return outcome;
}

/* HALT: ends a session; its transaction is dropped, and its names are released. It is then as VGT_SESSION_NONE, and the
 * job may have another. */
static inline vg_outcome vgt_halt(vgt_session *session) {
    vg_outcome outcome;
    VGT_RETRY(session, outcome, vorgushan_s_halt(&session->own));
    vgt_wake(session);
    if (outcome == VG_DONE) {
        session->hub = NULL;
        session->locked = 0;
        session->in_transaction = 0;
    }
    return outcome;
}

/* ---- Data ---- */

/* As vg_set. */
static inline vg_outcome vgt_set(vgt_session *session, vg_key *key, const char *value, size_t value_length) {
    char nothing = 0;
    vg_outcome outcome;
    VGT_DATA(session, outcome,
              vorgushan_s_set(&session->own, key, value ? value : &nothing, value ? value_length : 0));
    return outcome;
}

/* As vg_kill, vg_kill_value or vg_kill_subscripts, by what is taken. */
static inline vg_outcome vgt_kill(vgt_session *session, uint32_t extent, vg_key *key) {
    vg_outcome outcome;
    VGT_DATA(session, outcome, vorgushan_s_kill(&session->own, extent, key));
    return outcome;
}

/* As vg_get. After VG_BUFFER_TOO_SHORT vgt_copy copies the value. */
static inline vg_outcome vgt_get(vgt_session *session, vg_key *key, char *value, size_t value_size,
                                 size_t *value_length) {
    char nothing = 0;
    size_t length = 0;
    vg_outcome outcome;
    VGT_DATA(session, outcome,
             vorgushan_s_get(&session->own, key, value ? value : &nothing, value ? value_size : 0, &length));
    if (value_length)
        *value_length = length;
    return outcome;
}

/* Copies once more what the last vgt_get, vgt_increment or vgt_order of the session answered. VG_NO_REPLY where its last
 * command answered no bytes, its refusal where that was refused; VG_BUFFER_TOO_SHORT. */
static inline vg_outcome vgt_copy(vgt_session *session, char *value, size_t value_size, size_t *value_length) {
    char nothing = 0;
    size_t length = 0;
    vg_outcome outcome = vorgushan_s_copy(&session->own, value ? value : &nothing, value ? value_size : 0, &length);
    if (value_length)
        *value_length = length;
    return outcome;
}

/* As vg_merge. */
static inline vg_outcome vgt_merge(vgt_session *session, vg_key *to, vg_key *from) {
    vg_outcome outcome;
    if (to == from)
        return VG_MERGE_OVERLAP;
    VGT_DATA(session, outcome, vorgushan_s_merge(&session->own, to, from));
    return outcome;
}

/* As vg_data. */
static inline vg_outcome vgt_data(vgt_session *session, vg_key *key, uint64_t *number) {
    uint64_t told = 0;
    vg_outcome outcome;
    VGT_DATA(session, outcome, vorgushan_s_data(&session->own, key, &told));
    if (number)
        *number = told;
    return outcome;
}

/* As vg_increment. */
static inline vg_outcome vgt_increment(vgt_session *session, vg_key *key, const char *number, size_t number_length,
                                       char *sum, size_t sum_size, size_t *sum_length) {
    char nothing = 0;
    size_t length = 0;
    vg_outcome outcome;
    VGT_DATA(session, outcome,
             vorgushan_s_increment(&session->own, key, number ? number : &nothing, number ? number_length : 0,
                                   sum ? sum : &nothing, sum ? sum_size : 0, &length));
    if (sum_length)
        *sum_length = length;
    return outcome;
}

/* As vg_order. `start` and `subscript` may be the same bytes. */
static inline vg_outcome vgt_order(vgt_session *session, vg_key *key, const char *start, size_t start_length,
                                   uint32_t direction, char *subscript, size_t subscript_size,
                                   size_t *subscript_length) {
    char from[256];
    char nothing = 0;
    size_t length = 0;
    size_t from_length = vg_start_copied(from, start, start_length);
    vg_outcome outcome;
    VGT_DATA(session, outcome,
             vorgushan_s_order(&session->own, key, from, from_length, direction, subscript ? subscript : &nothing,
                               subscript ? subscript_size : 0, &length));
    if (subscript_length)
        *subscript_length = length;
    return outcome;
}

/* As vg_query, with its VG_TOO_MANY_SUBSCRIPTS. */
static inline vg_outcome vgt_query(vgt_session *session, vg_key *key, uint32_t from, uint32_t direction) {
    vg_outcome outcome;
    VGT_DATA(session, outcome, vorgushan_s_query(&session->own, key, from, direction));
    return outcome;
}

/* As vg_next_name. `start` and `name` may be the same bytes. */
static inline vg_outcome vgt_next_name(vgt_session *session, const char *start, size_t start_length,
                                       uint32_t direction, char *name, size_t name_size, size_t *name_length) {
    char from[256];
    char nothing = 0;
    size_t length = 0;
    size_t from_length = vg_start_copied(from, start, start_length);
    vg_outcome outcome;
    VGT_DATA(session, outcome,
             vorgushan_s_next_name(&session->own, from, from_length, direction, name ? name : &nothing,
                                   name ? name_size : 0, &length));
    if (name_length)
        *name_length = length;
    return outcome;
}

/* ---- Transactions ---- */

/* Whether an act needs the database for itself; a TROLLBACK without a LOCK doesn't. */
static inline int vgt_is_alone(const vgt_session *session, uint32_t act) {
    return act == VG_TCOMMIT || act == VG_TRESTART || act >= VG_UNLOCK || (act == VG_TROLLBACK && session->locked);
}

/* One of the acts, and what it tells. It wakes nobody who waits for names: the calls below do. */
static inline vg_outcome vgt_act(vgt_session *session, uint32_t act, uint64_t *number) {
    uint64_t told = 0;
    vg_outcome outcome;
    vgt_let_go(session);
    if (vgt_is_alone(session, act))
        VGT_RETRY(session, outcome, vorgushan_s_act(&session->own, act, &told));
    else
        VGT_TRY(session, outcome, vorgushan_s_act(&session->own, act, &told));
    if (outcome == VG_DONE && (act == VG_TSTART || act == VG_TCOMMIT || act == VG_TROLLBACK))
        session->in_transaction = told > 0;
    if (number)
        *number = told;
    return outcome;
}

/* As vg_tstart. */
static inline vg_outcome vgt_tstart(vgt_session *session, uint64_t *level) {
    return vgt_act(session, VG_TSTART, level);
}

/* As vg_tcommit: after VG_RESTARTED all calls after the first TSTART are made again. */
static inline vg_outcome vgt_tcommit(vgt_session *session, uint64_t *number) {
    vg_outcome outcome = vgt_act(session, VG_TCOMMIT, number);
    vgt_wake(session);
    return outcome;
}

/* As vg_trollback. */
static inline vg_outcome vgt_trollback(vgt_session *session) {
    vg_outcome outcome = vgt_act(session, VG_TROLLBACK, NULL);
    vgt_wake(session);
    return outcome;
}

/* As vg_trestart. */
static inline vg_outcome vgt_trestart(vgt_session *session, uint64_t *restarts) {
    vg_outcome outcome = vgt_act(session, VG_TRESTART, restarts);
    vgt_wake(session);
    return outcome;
}

/* As vg_tlevel. */
static inline vg_outcome vgt_tlevel(vgt_session *session, uint64_t *level) {
    return vgt_act(session, VG_TLEVEL, level);
}

/* As vg_trestarts. */
static inline vg_outcome vgt_trestarts(vgt_session *session, uint64_t *restarts) {
    return vgt_act(session, VG_TRESTARTS, restarts);
}

/* Does a block as a transaction, and again after each conflict, so it may be called more than once: what it changes
 * outside of the database it sets anew each time. Where it returns VG_DONE the transaction is committed. Where it
 * returns VG_RESTARTED, as it does with what vgt_trestart returns, nothing of it is done and it is called again. Where
 * it returns another outcome nothing of it is done, and that is returned.
 *
 * A block that is left by an exception or by longjmp leaves the transaction open, and a hold on: call vgt_trollback.
 *
 * VG_TRANSACTION_OPEN where the session is in a transaction already: then the block isn't called, and nothing has
 * changed. It is returned too where the block left a TSTART of its own open: then nothing of it is done. A block that
 * commits or rolls back by itself gets VG_NO_TRANSACTION in place of VG_DONE, and what it did stays. Where memory is
 * refused for a rollback, the transaction stays open. */
static inline vg_outcome vgt_transaction(vgt_session *session, vg_outcome (*block)(vgt_session *session, void *with),
                                         void *with) {
    uint64_t level = 0;
    vg_outcome outcome = vgt_tstart(session, &level);
    if (outcome == VG_LEVEL_TOO_DEEP)
        return VG_TRANSACTION_OPEN;
    if (outcome != VG_DONE)
        return outcome;
    if (level > 1) {
        vgt_tcommit(session, NULL); /* lowers the level again, which is all that it does there */
        return VG_TRANSACTION_OPEN;
    }
    do {
        outcome = block(session, with);
        if (outcome == VG_DONE)
            outcome = vgt_tcommit(session, &level);
        else if (outcome == VG_RESTARTED)
            outcome = vgt_trestart(session, NULL);
    } while (outcome == VG_RESTARTED);
    if (outcome == VG_DONE && level > 0)
        outcome = VG_TRANSACTION_OPEN;
    if (outcome != VG_DONE)
        vgt_trollback(session);
    return outcome;
}

/* ---- Locks ---- */

/* LOCK of the names of several keys at once, in a form of vg_lock_all: had is 1 where all of them were granted. Where
 * another session is in the way it waits for so many milliseconds, for ever where that is below 0, and not at all at 0;
 * had is 0 where that time is over. That is the time for names alone: as each call, it also waits for others' calls and
 * holds to end. VG_LOCK_FEWER releases one count of each name, passes over those that the session doesn't have, and
 * never waits: had is 1. VG_NO_KEY where no key is given, or one isn't there; VG_LOCK_COUNT_FULL. */
static inline vg_outcome vgt_lock_all(vgt_session *session, uint32_t form, vg_key keys[], size_t count, long wait,
                                      uint64_t *had) {
    uint64_t told = 0;
    uint64_t turns = session->hub ? vgt_turns(session->hub) : 0;
    const struct timespec until = vgt_after(wait > 0 ? wait : 0);
    int over = wait == 0;
    vg_outcome outcome;
    VGT_RETRY(session, outcome, vorgushan_s_lock(&session->own, form, 0, keys, count, &told));
    if (form != VG_LOCK_MORE)
        vgt_wake(session);
    while (outcome == VG_DONE && !told && !over) {
        over = vgt_wait(session->hub, turns, wait < 0 ? NULL : &until);
        turns = vgt_turns(session->hub);
        VGT_RETRY(session, outcome, vorgushan_s_lock(&session->own, form, 1, keys, count, &told));
    }
    if (told)
        session->locked = 1;
    if (had)
        *had = told;
    return outcome;
}

/* The same of one key's name. */
static inline vg_outcome vgt_lock(vgt_session *session, uint32_t form, vg_key *key, long wait, uint64_t *had) {
    return vgt_lock_all(session, form, key, 1, wait, had);
}

/* LOCK without names: all names of the session are released; in a transaction others see that after its end, and a
 * rollback gives back those that the session had before it. */
static inline vg_outcome vgt_unlock(vgt_session *session) {
    uint64_t level = 0;
    vg_outcome outcome = vgt_act(session, VG_UNLOCK, NULL);
    vgt_wake(session);
    if (outcome == VG_DONE && vgt_tlevel(session, &level) == VG_DONE && level == 0)
        session->locked = 0;
    return outcome;
}

/* ---- Looks and views ---- */

/* Copies the value that a key's reference has now, as vg_look: no command, and what is committed alone. In a view, or a
 * transaction, with VG_AT_START: as it was when that began. VG_NO_TRANSACTION where none is open. */
static inline vg_outcome vgt_look(vgt_session *session, uint32_t moment, vg_key *key, char *value, size_t value_size,
                                  size_t *value_length) {
    char nothing = 0;
    size_t length = 0;
    vg_outcome outcome;
    VGT_LOOK(session, outcome,
             vorgushan_s_look(&session->own, moment, key, value ? value : &nothing, value ? value_size : 0, &length));
    if (value_length)
        *value_length = length;
    return outcome;
}

/* As vg_look_data, at a moment. */
static inline vg_outcome vgt_look_data(vgt_session *session, uint32_t moment, vg_key *key, uint64_t *number) {
    uint64_t told = 0;
    vg_outcome outcome;
    VGT_LOOK(session, outcome, vorgushan_s_look_data(&session->own, moment, key, &told));
    if (number)
        *number = told;
    return outcome;
}

/* As vg_look_order, at a moment. */
static inline vg_outcome vgt_look_order(vgt_session *session, uint32_t moment, vg_key *key, const char *start,
                                        size_t start_length, uint32_t direction, char *subscript,
                                        size_t subscript_size, size_t *subscript_length) {
    char from[256];
    char nothing = 0;
    size_t length = 0;
    size_t from_length = vg_start_copied(from, start, start_length);
    vg_outcome outcome;
    VGT_LOOK(session, outcome,
             vorgushan_s_look_order(&session->own, moment, key, from, from_length, direction,
                                    subscript ? subscript : &nothing, subscript ? subscript_size : 0, &length));
    if (subscript_length)
        *subscript_length = length;
    return outcome;
}

/* As vg_look_query, at a moment. */
static inline vg_outcome vgt_look_query(vgt_session *session, uint32_t moment, vg_key *key, uint32_t from,
                                        uint32_t direction) {
    vg_outcome outcome;
    VGT_LOOK(session, outcome, vorgushan_s_look_query(&session->own, moment, key, from, direction));
    return outcome;
}

/* As vg_walk, at a moment: vg_node_next reads the nodes. */
static inline vg_outcome vgt_walk(vgt_session *session, uint32_t moment, vg_key *root, vg_key *place, char *nodes,
                                  size_t nodes_size, size_t *nodes_length) {
    char nothing = 0;
    size_t length = 0;
    vg_key all = VG_KEY_NONE;
    vg_outcome outcome;
    if (!place || place == root)
        return VG_NO_KEY;
    VGT_LOOK(session, outcome,
             vorgushan_s_walk(&session->own, moment, root ? root : &all, place, nodes ? nodes : &nothing,
                              nodes ? nodes_size : 0, &length));
    if (nodes_length)
        *nodes_length = length;
    return outcome;
}

/* Begins a view: from then on looks at VG_AT_START see the database as it is now, whatever others do, until it ends.
 * VG_TRANSACTION_OPEN where the session has a transaction or a view. */
static inline vg_outcome vgt_view_begin(vgt_session *session) {
    uint64_t level = 0;
    vg_outcome outcome = vgt_tlevel(session, &level);
    if (outcome != VG_DONE)
        return outcome;
    return level > 0 ? (vg_outcome)VG_TRANSACTION_OPEN : vgt_tstart(session, NULL);
}

/* Ends a view. VG_NO_TRANSACTION. */
static inline vg_outcome vgt_view_end(vgt_session *session) {
    return vgt_trollback(session);
}

/* Holds the database for the session's next calls: its looks, and in a transaction its data commands. Then they are
 * quickest where several threads read, and wait for nobody; other sessions read meanwhile, and who would have the
 * database for himself waits. So hold for a few reads, as those of one transaction, and not while you wait for
 * something: while a session of a thread holds, its calls of other sessions, but looks, would wait for it for ever. Each
 * other call of the session ends the hold, also its TSTART, and it needn't be released before a commit. VG_NO_ENGINE. */
static inline vg_outcome vgt_hold(vgt_session *session) {
    vg_outcome outcome;
    VGT_LOOK(session, outcome, vorgushan_s_hold(&session->own));
    session->holds = outcome == VG_DONE;
    return outcome;
}

/* Ends a hold, where there is one. VG_NO_ENGINE. */
static inline vg_outcome vgt_release(vgt_session *session) {
    session->holds = 0;
    return vorgushan_s_release(&session->own);
}

/* ---- Upkeep ---- */

/* As vg_collect; and VG_AT_END where it has looked at no node: none is left to look at, or `nodes` is 0. */
static inline vg_outcome vgt_collect(vgt_session *session, size_t nodes) {
    vg_outcome outcome;
    VGT_RETRY(session, outcome, vorgushan_s_collect(&session->own, nodes));
    return outcome;
}

/* As vg_checkpoint. */
static inline vg_outcome vgt_checkpoint(vgt_session *session) {
    vg_outcome outcome;
    VGT_RETRY(session, outcome, vorgushan_s_checkpoint(&session->own));
    return outcome;
}

#ifdef __cplusplus
}
#endif

#endif
