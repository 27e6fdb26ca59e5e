/* The library's memory by functions of the program's own, in place of the kit's liblibc_c.a: counted, and limited. They
 * are trusted as the kit's are. Ends with status 0 where a limit is told as VG_OUT_OF_MEMORY, the engine goes on once
 * there is more, and nothing is left at the end. */
#include <malloc.h>
#include <stdint.h>
#include <stdlib.h>
#include "vorgushan.h"

/* What the first two answer: 1 and the memory; or 0 and a pointer that isn't NULL, which nobody follows. */
typedef struct {
    uint64_t had;
    void *at;
} answer;

static size_t held, limit = SIZE_MAX;
static char nothing;

/* Memory that takes the place of so many bytes, or none. */
static answer counted(void *at, size_t before) {
    answer told = {at != NULL, at ? at : &nothing};
    if (at)
        held += malloc_usable_size(at) - before;
    return told;
}

answer rattle_alloc(size_t length, size_t align) {
    int refused = align > 16 || held + length > limit;
    return counted(refused ? NULL : malloc(length ? length : 1), 0);
}

/* Where it answers 0 what was there stays. */
answer rattle_realloc(void *at, size_t old_length, size_t length, size_t align) {
    size_t before = malloc_usable_size(at);
    int refused = align > 16 || held - before + length > limit;
    (void)old_length;
    return counted(refused ? NULL : realloc(at, length ? length : 1), before);
}

void rattle_dealloc(void *at) {
    held -= malloc_usable_size(at);
    free(at);
}

/* SETs of ^A(0), ^A(1) and so on until one is refused. */
static vg_outcome fill(vg_engine *engine, vg_key *key) {
    vg_outcome outcome = VG_DONE;
    uint64_t number;
    char digits[20];
    for (number = 0; outcome == VG_DONE; number++) {
        vg_text subscripts[1];
        subscripts[0] = vg_digits(number, digits);
        outcome = vg_key_spell(key, VG_TEXT("A"), subscripts, 1);
        if (outcome == VG_DONE)
            outcome = vg_set(engine, 1, key, VG_TEXT("value"));
    }
    return outcome;
}

int main(void) {
    vg_engine engine = VG_ENGINE_NONE;
    vg_key key = VG_KEY_NONE;
    int failed = vg_new(&engine) != VG_DONE;
    limit = 1 << 20;
    failed |= fill(&engine, &key) != VG_OUT_OF_MEMORY || held > limit || held < limit / 2;
    limit = SIZE_MAX;
    failed |= vg_set(&engine, 1, &key, VG_TEXT("value")) != VG_DONE;
    failed |= vg_key_end(&key) != VG_DONE || vg_end(&engine) != VG_DONE;
    return failed || held != 0;
}
