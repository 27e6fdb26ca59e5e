/* A bank on several threads: four tellers move money in transactions, an auditor adds up in views, and a clerk waits for
 * an account that another has locked.
 *
 *     cc -pthread -Iinclude examples/embed/bank_threads.c $lib "$memory" -o bank_threads && ./bank_threads
 *
 * docs/LIBRARY.md says what $lib and $memory are. */
#include <stdatomic.h>
#include <stdio.h>
#include <stdlib.h>

#include "vorgushan_threads.h"

enum { ACCOUNTS = 20, TELLERS = 4, TRANSFERS = 500, VIEWS = 50, CLERK = 9, AUDITOR = 10 };

static vgt_hub bank = VGT_HUB_NONE;

/* Ends the program where a call didn't go as it has to. */
static void must(vg_outcome outcome, const char *what) {
    if (outcome != VG_DONE) {
        fprintf(stderr, "%s: outcome %u\n", what, (unsigned)outcome);
        exit(1);
    }
}

/* The key of ^Account(number), in the place of what was there. */
static void account(vg_key *key, uint64_t number) {
    char digits[20];
    vg_text subscripts[1];
    subscripts[0] = vg_digits(number, digits);
    must(vg_key_spell(key, VG_TEXT("Account"), subscripts, 1), "a key");
}

/* What an account has, in the open transaction or without one. */
static long balance(vgt_session *session, vg_key *key) {
    char text[24] = "";
    must(vgt_get(session, key, text, sizeof text - 1, NULL), "a balance");
    return atol(text);
}

static void put(vgt_session *session, vg_key *key, long amount) {
    char text[24];
    must(vgt_set(session, key, text, (size_t)sprintf(text, "%ld", amount)), "a new balance");
}

/* ---- Tellers ---- */

typedef struct transfer {
    vg_key from;
    vg_key to;
} transfer;

/* The block of a transaction: where another teller was quicker it is called again. */
static vg_outcome move_one(vgt_session *session, void *with) {
    transfer *move = with;
    put(session, &move->from, balance(session, &move->from) - 1);
    put(session, &move->to, balance(session, &move->to) + 1);
    return VG_DONE;
}

static void *teller(void *job) {
    transfer move = {VG_KEY_NONE, VG_KEY_NONE};
    vgt_session session = VGT_SESSION_NONE;
    uint64_t number = (uint64_t)(size_t)job;
    uint64_t turn;
    must(vgt_open(&bank, &session, number), "a teller's session");
    for (turn = 0; turn < TRANSFERS; turn++) {
        account(&move.from, (turn * number) % ACCOUNTS);
        account(&move.to, (turn * number + 1) % ACCOUNTS);
        must(vgt_transaction(&session, move_one, &move), "a transfer");
    }
    vg_key_end(&move.from);
    vg_key_end(&move.to);
    must(vgt_halt(&session), "a teller's end");
    return NULL;
}

/* ---- The clerk ---- */

static atomic_int has_tried;

/* Waits for an account that the auditor has locked: first for 10 milliseconds, then for as long as it takes. */
static void *clerk(void *had) {
    uint64_t *answers = had;
    vgt_session session = VGT_SESSION_NONE;
    vg_key key = VG_KEY_NONE;
    must(vgt_open(&bank, &session, CLERK), "the clerk's session");
    account(&key, 0);
    must(vgt_lock(&session, VG_LOCK_ONLY, &key, 10, &answers[0]), "a LOCK for 10 milliseconds");
    atomic_store(&has_tried, 1);
    must(vgt_lock(&session, VG_LOCK_ONLY, &key, -1, &answers[1]), "a LOCK");
    vg_key_end(&key);
    must(vgt_halt(&session), "the clerk's end");
    return NULL;
}

/* ---- The auditor ---- */

/* What all accounts have together at one moment, whatever the tellers do meanwhile. */
static long total(vgt_session *session) {
    long sum = 0;
    uint64_t number;
    vg_key key = VG_KEY_NONE;
    must(vgt_view_begin(session), "a view");
    for (number = 0; number < ACCOUNTS; number++) {
        char text[24] = "";
        account(&key, number);
        must(vgt_look(session, VG_AT_START, &key, text, sizeof text - 1, NULL), "a look");
        sum += atol(text);
    }
    must(vgt_view_end(session), "the view's end");
    vg_key_end(&key);
    return sum;
}

int main(void) {
    pthread_t threads[TELLERS + 1];
    vgt_session session = VGT_SESSION_NONE;
    vg_key key = VG_KEY_NONE;
    uint64_t had = 0;
    uint64_t answers[2] = {0, 0};
    uint64_t number;
    int views;
    must(vgt_new(&bank), "a hub");
    must(vgt_open(&bank, &session, AUDITOR), "the auditor's session");
    for (number = 0; number < ACCOUNTS; number++) {
        account(&key, number);
        put(&session, &key, 100);
    }
    account(&key, 0);
    must(vgt_lock(&session, VG_LOCK_ONLY, &key, 0, &had), "the auditor's LOCK");
    pthread_create(&threads[0], NULL, clerk, answers);
    for (number = 1; number <= TELLERS; number++)
        pthread_create(&threads[number], NULL, teller, (void *)(size_t)number);
    for (views = 0; views < VIEWS && total(&session) == 100 * ACCOUNTS; views++)
        ;
    printf("%d views, each of %d\n", views, 100 * ACCOUNTS);
    while (!atomic_load(&has_tried))
        sched_yield();
    must(vgt_unlock(&session), "the auditor's unlock");
    for (number = 0; number <= TELLERS; number++)
        pthread_join(threads[number], NULL);
    printf("the clerk had the account %d times in 10 milliseconds, then %d\n", (int)answers[0], (int)answers[1]);
    printf("%d transfers, and %ld at the end\n", TELLERS * TRANSFERS, total(&session));
    vg_key_end(&key);
    must(vgt_halt(&session), "the auditor's end");
    must(vgt_end(&bank), "the hub's end");
    return 0;
}
