/* The records as nodes ^Patient(NUMBER,FIELD), by the typed calls; read by vg_look and vg_walk, or, with COMMANDS, by the
 * commands of a job. */
#include <string.h>

#include "store.h"
#include "vorgushan.h"

static vg_engine engine = VG_ENGINE_NONE;
static vg_key key = VG_KEY_NONE;

void open_store(void) { must(vg_new(&engine) == VG_DONE, "vg_new"); }

void close_store(void) {
    vg_key_end(&key);
    must(vg_end(&engine) == VG_DONE, "vg_end");
}

/* Lone commands: a transaction of an M job has at most 65,535 of them. */
void begin_work(void) {}
void end_work(void) {}

static void make_key(uint32_t number, const char *field) {
    char digits[20];
    const vg_text at[] = {vg_digits(number, digits), {field, strlen(field)}};
    must(vg_key_spell(&key, "Patient", 7, at, 2) == VG_DONE, "vg_key_spell");
}

void put(uint32_t number, const char *field, const char *value, size_t length) {
    make_key(number, field);
    must(vg_set(&engine, 1, &key, value, length) == VG_DONE, "vg_set");
}

#ifdef COMMANDS
size_t get(uint32_t number, const char *field, char *value, size_t size) {
    size_t length = 0;
    make_key(number, field);
    must(vg_get(&engine, 1, &key, value, size, &length) == VG_DONE, "vg_get");
    return length;
}

uint64_t walk(void) {
    char value[64];
    size_t length = 0;
    uint64_t bytes = 0;
    must(vg_key_name(&key, "Patient", 7) == VG_DONE, "vg_key_name");
    while (vg_query(&engine, 1, &key, VG_AT_KEY, VG_FORWARD) == VG_DONE) {
        must(vg_get(&engine, 1, &key, value, sizeof value, &length) == VG_DONE, "vg_get");
        bytes += length;
    }
    return bytes;
}
#else
size_t get(uint32_t number, const char *field, char *value, size_t size) {
    size_t length = 0;
    make_key(number, field);
    must(vg_look(&engine, &key, value, size, &length) == VG_DONE, "vg_look");
    return length;
}

uint64_t walk(void) {
    static char nodes[32768];
    char value[64];
    size_t length = 0;
    uint64_t bytes = 0;
    vg_key place = VG_KEY_NONE;
    must(vg_key_name(&key, "Patient", 7) == VG_DONE, "vg_key_name");
    while (vg_walk(&engine, &key, &place, nodes, sizeof nodes, &length) == VG_DONE) {
        const char *at = nodes;
        vg_node node;
        while (vg_node_next(&at, nodes + length, &node)) {
            must(node.value_length <= sizeof value, "vg_node_next");
            memcpy(value, node.value, node.value_length);
            bytes += node.value_length;
        }
    }
    vg_key_end(&place);
    return bytes;
}
#endif
