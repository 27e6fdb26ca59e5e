/* Puts records into a store in a shuffled order, gets them in another, and walks over all: prints the processor
 * nanoseconds of each for a record, and the bytes that the walk found.
 *
 *     records NUMBERS    each number has two records */
#include <stdio.h>
#include <stdlib.h>
#include <string.h>
#include <time.h>

#include "store.h"

static const char *const FIELDS[2] = {"name", "visit"};

static double now(void) {
    struct timespec at;
    must(!clock_gettime(CLOCK_PROCESS_CPUTIME_ID, &at), "clock_gettime");
    return (double)at.tv_sec * 1e9 + (double)at.tv_nsec;
}

/* The numbers from 1 on in an order that a seed gives. */
static uint32_t *shuffled(uint32_t count, uint64_t seed) {
    uint32_t *numbers = malloc(count * sizeof *numbers);
    must(numbers != NULL, "malloc");
    for (uint32_t i = 0; i < count; i++)
        numbers[i] = i + 1;
    for (uint32_t i = count - 1; i > 0; i--) {
        seed = seed * 6364136223846793005u + 1442695040888963407u;
        uint32_t other = (uint32_t)((seed >> 33) % (i + 1)), number = numbers[i];
        numbers[i] = numbers[other];
        numbers[other] = number;
    }
    return numbers;
}

static void put_all(const uint32_t *numbers, uint32_t count) {
    char value[64];
    for (uint32_t i = 0; i < count; i++)
        for (int f = 0; f < 2; f++) {
            int length = snprintf(value, sizeof value, "%s of %u", FIELDS[f], numbers[i]);
            put(numbers[i], FIELDS[f], value, (size_t)length);
        }
}

static uint64_t get_all(const uint32_t *numbers, uint32_t count) {
    char value[64];
    uint64_t bytes = 0;
    for (uint32_t i = 0; i < count; i++)
        for (int f = 0; f < 2; f++)
            bytes += get(numbers[i], FIELDS[f], value, sizeof value);
    return bytes;
}

int main(int argc, char **argv) {
    must(argc == 2, "records NUMBERS");
    uint32_t count = (uint32_t)strtoul(argv[1], NULL, 10);
    uint32_t *in = shuffled(count, 1), *out = shuffled(count, 2);
    open_store();
    begin_work();
    double start = now();
    put_all(in, count);
    double put_end = now();
    uint64_t got = get_all(out, count);
    double get_end = now();
    uint64_t walked = walk();
    double walk_end = now();
    end_work();
    close_store();
    must(got == walked, "the walk's bytes");
    double records = 2.0 * count;
    printf("%.0f %.0f %.0f %llu\n", (put_end - start) / records, (get_end - put_end) / records,
           (walk_end - get_end) / records, (unsigned long long)walked);
    free(in);
    free(out);
    return 0;
}
