/* Two jobs transfer between accounts, through the library for C.
 *
 * tests/embed builds and runs it, and compares what it prints with bank.out. */
#include <inttypes.h>
#include <stdio.h>
#include <string.h>

#include "vorgushan.h"

/* Long enough for all replies here; a longer one would be told as VG_BUFFER_TOO_SHORT and kept. */
static char reply[256];

static vg_outcome run(vg_engine *engine, const char *line) {
    size_t length = 0;
    vg_outcome outcome = vg_line(engine, line, strlen(line), reply, sizeof reply, &length);
    printf("%-36s %.*s", line, (int)length, reply);
    return outcome;
}

static void name(vg_outcome outcome) {
    char text[64];
    size_t length = 0;
    vg_refusal_text(outcome, text, sizeof text, &length);
    printf("%" PRIu32 " %.*s\n", outcome, (int)length, text);
}

/* A transfer in a transaction, which is tried again where another job was quicker: its commit then answers a
 * restart. */
static void transfer(vg_engine *engine) {
    run(engine, "1 TSTART");
    run(engine, "1 $GET(^Account(\"ann\"))");
    run(engine, "2 SET ^Account(\"ann\")=90");
    run(engine, "1 SET ^Account(\"ann\")=70");
    run(engine, "1 TCOMMIT");
    run(engine, "1 $GET(^Account(\"ann\"))");
    run(engine, "1 SET ^Account(\"ann\")=60");
    run(engine, "1 SET ^Account(\"bo\")=80");
    run(engine, "1 TCOMMIT");
}

/* The same database by keys: a value with a byte 0 comes back whole. A key that can't be spelled stays as it was. */
static void use_keys(vg_engine *engine) {
    const vg_text at[] = {{"cy", 2}, {"", 0}};
    char value[8];
    size_t length = 0;
    vg_key key = VG_KEY_NONE;
    name(vg_key_name(&key, "5", 1));
    name(vg_key_spell(&key, "Account", 7, at, 1));
    name(vg_key_spell(&key, "Account", 7, at, 2));
    name(vg_set(engine, 3, &key, "7\0" "7", 3));
    name(vg_get(engine, 3, &key, value, sizeof value, &length));
    printf("%zu bytes, the second is %d\n", length, value[1]);
    run(engine, "3 $GET(^Account(\"cy\"))");
    name(vg_set(engine, 5000, &key, "1", 1));
    name(vg_kill(engine, 3, &key));
    vg_key_end(&key);
    name(vg_kill(engine, 3, &key));
}

/* The same by $ORDER and $QUERY: each account's name and value, and then the last node. */
static void walk(vg_engine *engine) {
    char account[128], value[8];
    size_t length = 0, value_length = 0;
    uint64_t data = 0;
    vg_key accounts = VG_KEY_NONE, copy = VG_KEY_NONE;
    vg_key_name(&accounts, "Account", 7);
    vg_key_name(&copy, "Copy", 4);
    name(vg_merge(engine, 3, &copy, &accounts));
    vg_data(engine, 3, &copy, &data);
    printf("$DATA(^Copy) is %" PRIu64 "\n", data);
    vg_order(engine, 3, &copy, "", 0, VG_FORWARD, account, sizeof account, &length);
    while (length) {
        printf("%.*s ", (int)length, account);
        vg_order(engine, 3, &copy, account, length, VG_FORWARD, account, sizeof account, &length);
    }
    while (vg_query(engine, 3, &accounts, VG_AT_KEY, VG_FORWARD) == VG_DONE) {
        vg_get(engine, 3, &accounts, value, sizeof value, &value_length);
        printf("%.*s ", (int)value_length, value);
    }
    name(vg_query(engine, 3, &copy, VG_BELOW_KEY, VG_BACKWARD));
    run(engine, "3 $QUERY(^Copy(\"\"),-1)");
    vg_key_name(&copy, "Copy", 4);
    name(vg_kill(engine, 3, &copy));
    vg_key_end(&copy);
    vg_key_end(&accounts);
}

/* Job 4 adds to an account in a transaction, under a lock. Job 5, who takes no lock, is quicker: the first commit
 * answers a restart, and the transaction's calls are done again. */
static void add(vg_engine *engine) {
    char value[8];
    size_t length = 0;
    uint64_t had = 0, level = 0, restarts = 0;
    vg_key bo = VG_KEY_NONE;
    vg_key_name(&bo, "Account", 7);
    vg_key_subscript(&bo, "bo", 2);
    vg_lock(engine, 4, &bo, &had);
    vg_lock_more(engine, 5, &bo, &level);
    printf("job 4 %s the lock, job 5 %s\n", had ? "has" : "hasn't", level ? "has it too" : "hasn't");
    vg_tstart(engine, 4, &level);
    do {
        vg_get(engine, 4, &bo, value, sizeof value, &length);
        if (restarts == 0)
            vg_set(engine, 5, &bo, "85", 2);
        vg_set(engine, 4, &bo, length == 2 && value[1] == '5' ? "86" : "81", 2);
    } while (vg_tcommit(engine, 4, &restarts) == VG_RESTARTED);
    run(engine, "4 $GET(^Account(\"bo\"))");
    vg_unlock(engine, 4);
    name(vg_trollback(engine, 4));
    vg_key_end(&bo);
}

static void list(vg_engine *engine) {
    char node[64];
    size_t length = 0;
    vg_list_from_start(engine);
    while (vg_list_next(engine, node, sizeof node, &length) == VG_DONE)
        printf("%.*s", (int)length, node);
}

/* The same without commands: a value, and all accounts, as many in a call as the buffer has room for. */
static void look(vg_engine *engine) {
    char value[8], nodes[256], part[255];
    size_t length = 0, part_length;
    vg_key accounts = VG_KEY_NONE, place = VG_KEY_NONE;
    vg_node node;
    vg_key_name(&accounts, "Account", 7);
    name(vg_look(engine, &accounts, value, sizeof value, &length));
    while (vg_walk(engine, &accounts, &place, nodes, sizeof nodes, &length) == VG_DONE) {
        const char *at = nodes;
        while (vg_node_next(&at, nodes + length, &node)) {
            const char *from = node.key;
            while ((part_length = vg_part_next(&node, &from, part)))
                printf("%.*s ", (int)part_length, part);
            printf("has %.*s\n", (int)node.value_length, node.value);
        }
    }
    vg_key_end(&place);
    vg_key_end(&accounts);
}

int main(void) {
    const char *question = "1 $GET(^Account(\"bo\"))";
    vg_engine engine = VG_ENGINE_NONE;
    vg_statistics statistics;
    size_t wanted = 0;
    if (vg_new(&engine) != VG_DONE)
        return 1;
    run(&engine, "1 SET ^Account(\"ann\")=100");
    run(&engine, "1 SET ^Account(\"bo\")=50");
    transfer(&engine);
    name(run(&engine, "1 SET ^Account(\"\")=1"));
    name(vg_line(&engine, question, strlen(question), reply, 3, &wanted));
    printf("wanted %zu: ", wanted);
    vg_reply(&engine, reply, sizeof reply, &wanted);
    printf("%.*s", (int)wanted, reply);
    use_keys(&engine);
    walk(&engine);
    add(&engine);
    list(&engine);
    look(&engine);
    vg_collect(&engine, 100);
    vg_checkpoint(&engine);
    vg_count(&engine, &statistics);
    printf("%" PRIu64 " units in %" PRIu64 " bytes, %" PRIu64 " nodes\n", statistics.units, statistics.journal_bytes,
           statistics.nodes);
    vg_end(&engine);
    name(vg_line(&engine, "1 HALT", 6, reply, sizeof reply, &wanted));
    name(vg_new(NULL));
    return 0;
}
