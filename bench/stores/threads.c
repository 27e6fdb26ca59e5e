/* Does one kind of work on a store by several threads: prints how many operations all of them did in a second, by the
 * clock, in a window after a warm-up.
 *
 *     threads WORK THREADS MILLISECONDS    the window is so long, and the warm-up a third of it
 *
 * The work, of which each operation is one:
 *
 *     reads        8 reads of one moment, of 10,000 records
 *     mixed        nine of ten times such reads, else a transfer
 *     transfers    moves 1 from one of 1,000 accounts to another in a transaction
 *     sets         writes one of 1,000 nodes of the thread's own
 *
 * Each read has to find its record, at the end the accounts have the sum that they had, and the threads' own nodes what
 * was written last: otherwise the status is 2. */
#include <pthread.h>
#include <stdatomic.h>
#include <string.h>
#include <time.h>

#include "threads.h"

enum { RECORDS = 10000, ACCOUNTS = 1000, OWN_NODES = 1000, READS = 8, MOST_THREADS = 32 };

/* What an account has at first, and what a record's value is more than its number. */
enum { BALANCE = 1000, MORE = 1000000 };

/* A thread; none shares a line of the processor's caches with another. */
struct worker {
    _Alignas(128) atomic_ulong done;
    unsigned number;
    uint64_t seed;
    struct session *session;
    uint32_t last[OWN_NODES]; /* what its own nodes have; 0 where nothing was written yet */
};

static struct worker workers[MOST_THREADS];
static void (*operation)(struct worker *worker);
static pthread_barrier_t ready;
static atomic_int over;

/* ---- Nodes whose values are numbers ---- */

static long number_at(struct session *session, int place) {
    char text[32];
    text[get(session, place, text, sizeof text - 1)] = 0;
    return strtol(text, NULL, 10);
}

static void set_number(struct session *session, int place, long number) {
    char text[32];
    set(session, place, text, (size_t)snprintf(text, sizeof text, "%ld", number));
}

static uint32_t random_below(struct worker *worker, uint32_t end) {
    worker->seed = worker->seed * 6364136223846793005u + 1442695040888963407u;
    return (uint32_t)((worker->seed >> 33) % end);
}

/* ---- The work ---- */

static void reads(struct worker *worker) {
    begin_reads(worker->session);
    for (int turn = 0; turn < READS; turn++) {
        uint32_t number = random_below(worker, RECORDS);
        name_node(worker->session, 0, RECORD, number);
        must(number_at(worker->session, 0) == MORE + (long)number, "a record's value");
    }
    end_reads(worker->session);
}

static void transfers(struct worker *worker) {
    struct session *session = worker->session;
    uint32_t from = random_below(worker, ACCOUNTS), step = 1 + random_below(worker, ACCOUNTS - 1);
    name_node(session, 0, ACCOUNT, from);
    name_node(session, 1, ACCOUNT, (from + step) % ACCOUNTS);
    begin_changes(session);
    do {
        long balance = number_at(session, 0), other = number_at(session, 1);
        set_number(session, 0, balance - 1);
        set_number(session, 1, other + 1);
    } while (!commit_changes(session));
}

static void mixed(struct worker *worker) {
    if (random_below(worker, 10) > 0)
        reads(worker);
    else
        transfers(worker);
}

static void sets(struct worker *worker) {
    char text[32];
    uint32_t node = random_below(worker, OWN_NODES), number = 1 + random_below(worker, MORE);
    name_node(worker->session, 0, OWN, worker->number * OWN_NODES + node);
    set_alone(worker->session, 0, text, (size_t)snprintf(text, sizeof text, "%u", number));
    worker->last[node] = number;
}

static const struct {
    const char *name;
    void (*operation)(struct worker *worker);
} WORK[] = {{"reads", reads}, {"mixed", mixed}, {"transfers", transfers}, {"sets", sets}};

static void choose(const char *name) {
    for (size_t i = 0; i < sizeof WORK / sizeof *WORK; i++)
        if (!strcmp(WORK[i].name, name))
            operation = WORK[i].operation;
    must(operation != NULL, "the choice of the work");
}

/* ---- Before and after ---- */

static void fill(struct session *session) {
    begin_changes(session);
    for (uint32_t number = 0; number < RECORDS; number++) {
        name_node(session, 0, RECORD, number);
        set_number(session, 0, MORE + (long)number);
    }
    for (uint32_t number = 0; number < ACCOUNTS; number++) {
        name_node(session, 0, ACCOUNT, number);
        set_number(session, 0, BALANCE);
    }
    must(commit_changes(session), "the commit of what is there at first");
}

static void check_accounts(struct session *session) {
    long sum = 0;
    for (uint32_t number = 0; number < ACCOUNTS; number++) {
        name_node(session, 0, ACCOUNT, number);
        sum += number_at(session, 0);
    }
    must(sum == (long)ACCOUNTS * BALANCE, "the sum of the accounts");
}

static void check_own_nodes(struct session *session, const struct worker *worker) {
    for (uint32_t node = 0; node < OWN_NODES; node++) {
        if (worker->last[node] == 0)
            continue;
        name_node(session, 0, OWN, worker->number * OWN_NODES + node);
        must(number_at(session, 0) == (long)worker->last[node], "a node of a thread's own");
    }
}

static void check(struct session *session, unsigned threads) {
    begin_reads(session);
    check_accounts(session);
    for (unsigned i = 0; i < threads; i++)
        check_own_nodes(session, &workers[i]);
    end_reads(session);
}

/* ---- The threads ---- */

static void *run(void *at) {
    struct worker *worker = at;
    worker->session = open_session(worker->number);
    pthread_barrier_wait(&ready);
    while (!atomic_load_explicit(&over, memory_order_relaxed)) {
        operation(worker);
        unsigned long done = atomic_load_explicit(&worker->done, memory_order_relaxed);
        atomic_store_explicit(&worker->done, done + 1, memory_order_relaxed);
    }
    close_session(worker->session);
    return NULL;
}

static double now(void) {
    struct timespec at;
    must(!clock_gettime(CLOCK_MONOTONIC, &at), "clock_gettime");
    return (double)at.tv_sec * 1e9 + (double)at.tv_nsec;
}

static void wait_for(long milliseconds) {
    const struct timespec time = {milliseconds / 1000, milliseconds % 1000 * 1000000};
    must(!nanosleep(&time, NULL), "nanosleep");
}

static unsigned long done_by(unsigned threads) {
    unsigned long sum = 0;
    for (unsigned i = 0; i < threads; i++)
        sum += atomic_load_explicit(&workers[i].done, memory_order_relaxed);
    return sum;
}

/* How many operations the threads do in a second; they have ended then. */
static double rate_of(unsigned threads, long milliseconds) {
    pthread_t running[MOST_THREADS];
    must(!pthread_barrier_init(&ready, NULL, threads + 1), "pthread_barrier_init");
    for (unsigned i = 0; i < threads; i++) {
        workers[i].number = i;
        workers[i].seed = i + 1;
        must(!pthread_create(&running[i], NULL, run, &workers[i]), "pthread_create");
    }
    pthread_barrier_wait(&ready);
    wait_for(milliseconds / 3);
    double start = now();
    unsigned long before = done_by(threads);
    wait_for(milliseconds);
    unsigned long after = done_by(threads);
    double end = now();
    atomic_store(&over, 1);
    for (unsigned i = 0; i < threads; i++)
        must(!pthread_join(running[i], NULL), "pthread_join");
    return (double)(after - before) * 1e9 / (end - start);
}

int main(int argc, char **argv) {
    must(argc == 4, "threads WORK THREADS MILLISECONDS");
    unsigned threads = (unsigned)strtoul(argv[2], NULL, 10);
    long milliseconds = strtol(argv[3], NULL, 10);
    must(threads > 0 && threads <= MOST_THREADS && milliseconds > 0, "threads WORK THREADS MILLISECONDS");
    choose(argv[1]);
    open_store();
    struct session *session = open_session(MOST_THREADS);
    fill(session);
    double rate = rate_of(threads, milliseconds);
    check(session, threads);
    close_session(session);
    close_store();
    printf("%.0f\n", rate);
    return 0;
}
