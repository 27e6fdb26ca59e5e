/* Every call of include/vorgushan.h, each with what a wrong one would answer: tests/embed builds it as C and as C++ and
 * runs it. It prints a line for each check that fails, and then how many there were; status 1 if any failed.
 *
 * The header's inline functions are outside the proofs, so each has a check that fails if it calls another function of
 * the library, tells another number, cuts a length, or leaves memory behind. */
#include <stdio.h>
#include <string.h>

#include "vorgushan.h"

static int checks = 0;
static int failed = 0;

static void check(int holds, int line) {
    checks++;
    if (!holds) {
        failed++;
        printf("calls.c:%d: not so\n", line);
    }
}

#define CHECK(holds) check(holds, __LINE__)

/* How many blocks the library has. The linker's --wrap leads its malloc, realloc and free here. */
static long blocks = 0;

#ifdef __cplusplus
extern "C" {
#endif
void *__real_malloc(size_t size);
void *__real_realloc(void *block, size_t size);
void __real_free(void *block);
void *__wrap_malloc(size_t size);
void *__wrap_realloc(void *block, size_t size);
void __wrap_free(void *block);

void *__wrap_malloc(size_t size) {
    void *made = __real_malloc(size);
    blocks += made != NULL;
    return made;
}

void *__wrap_realloc(void *block, size_t size) {
    void *made = __real_realloc(block, size);
    blocks += !block && made;
    return made;
}

void __wrap_free(void *block) {
    blocks -= block != NULL;
    __real_free(block);
}
#ifdef __cplusplus
}
#endif

static char reply[512];
static size_t length;

static int is_reply(const char *wanted) {
    return length == strlen(wanted) && !memcmp(reply, wanted, length);
}

/* Runs a line, and tells whether it is answered by this outcome and this text. */
static int answers(vg_engine *engine, const char *line, vg_outcome outcome, const char *wanted) {
    return vg_line(engine, line, strlen(line), reply, sizeof reply, &length) == outcome && is_reply(wanted);
}

/* The value of a key's reference, by a command of job 1. */
static int has_value(vg_engine *engine, vg_key *key, const char *wanted) {
    return vg_get(engine, 1, key, reply, sizeof reply, &length) == VG_DONE && is_reply(wanted);
}

static void use_nothing(void) {
    vg_engine none = VG_ENGINE_NONE;
    vg_key key = VG_KEY_NONE;
    uint64_t number = 7;
    CHECK(vg_new(NULL) == VG_NO_ENGINE);
    CHECK(vg_load(NULL, VG_TEXT("^A=1"), NULL) == VG_NO_ENGINE);
    CHECK(vg_journal_from(NULL, 0) == VG_NO_ENGINE && vg_journal_from(&none, 0) == VG_NO_ENGINE);
    CHECK(vg_journal_next(NULL, reply, sizeof reply, &length) == VG_NO_ENGINE && !length);
    CHECK(vg_journal_next(&none, reply, sizeof reply, NULL) == VG_NO_ENGINE);
    CHECK(vg_lock_all(NULL, 1, VG_LOCK_ONLY, &key, 1, &number) == VG_NO_ENGINE && !number);
    CHECK(vg_lock_all(&none, 1, VG_LOCK_ONLY, &key, 1, NULL) == VG_NO_ENGINE);
    number = 7;
    CHECK(vg_end(NULL) == VG_NO_ENGINE);
    CHECK(vg_end(&none) == VG_NO_ENGINE);
    CHECK(vg_line(NULL, VG_TEXT("1 SET ^A=1"), reply, sizeof reply, &length) == VG_NO_ENGINE && !length);
    CHECK(vg_line(&none, VG_TEXT("1 SET ^A=1"), reply, sizeof reply, &length) == VG_NO_ENGINE && !length);
    CHECK(vg_reply(NULL, reply, sizeof reply, NULL) == VG_NO_ENGINE);
    CHECK(vg_list_from_start(NULL) == VG_NO_ENGINE);
    CHECK(vg_list_next(NULL, reply, sizeof reply, NULL) == VG_NO_ENGINE);
    CHECK(vg_view_list_next(NULL, 7, reply, sizeof reply, NULL) == VG_NO_ENGINE);
    CHECK(vg_view_begin(NULL, 7) == VG_NO_ENGINE && vg_view_end(NULL, 7) == VG_NO_ENGINE);
    CHECK(vg_key_bytes(NULL, reply, sizeof reply, &length) == VG_NO_KEY && !length);
    CHECK(vg_key_bytes(&key, reply, sizeof reply, NULL) == VG_NO_KEY);
    CHECK(vg_collect(NULL, 1) == VG_NO_ENGINE);
    CHECK(vg_checkpoint(NULL) == VG_NO_ENGINE);
    CHECK(vg_count(NULL, NULL) == VG_NO_ENGINE);
    CHECK(vg_key_name(NULL, VG_TEXT("A")) == VG_NO_KEY);
    CHECK(vg_key_subscript(NULL, VG_TEXT("1")) == VG_NO_KEY);
    CHECK(vg_key_subscript(&key, VG_TEXT("1")) == VG_NO_KEY);
    CHECK(vg_key_spell(NULL, VG_TEXT("A"), NULL, 0) == VG_NO_KEY);
    CHECK(vg_key_end(NULL) == VG_NO_KEY);
    CHECK(vg_key_end(&key) == VG_NO_KEY);
    CHECK(vg_tstart(NULL, 1, &number) == VG_NO_ENGINE && number == 0);
    CHECK(vg_tcommit(NULL, 1, NULL) == VG_NO_ENGINE);
    CHECK(vg_trollback(NULL, 1) == VG_NO_ENGINE);
    CHECK(vg_trestart(NULL, 1, NULL) == VG_NO_ENGINE);
    CHECK(vg_unlock(NULL, 1) == VG_NO_ENGINE);
    CHECK(vg_halt(NULL, 1) == VG_NO_ENGINE);
}

static void use_no_key(vg_engine *engine) {
    vg_key key = VG_KEY_NONE;
    uint64_t number = 7;
    CHECK(vg_set(NULL, 1, &key, VG_TEXT("1")) == VG_NO_ENGINE);
    CHECK(vg_set(engine, 1, NULL, VG_TEXT("1")) == VG_NO_KEY);
    CHECK(vg_set(engine, 1, &key, VG_TEXT("1")) == VG_NO_KEY);
    CHECK(vg_kill(NULL, 1, &key) == VG_NO_ENGINE && vg_kill(engine, 1, NULL) == VG_NO_KEY);
    CHECK(vg_kill_value(NULL, 1, &key) == VG_NO_ENGINE && vg_kill_value(engine, 1, NULL) == VG_NO_KEY);
    CHECK(vg_kill_value(engine, 1, &key) == VG_NO_KEY && vg_kill_subscripts(engine, 1, &key) == VG_NO_KEY);
    CHECK(vg_kill_subscripts(NULL, 1, &key) == VG_NO_ENGINE && vg_kill_subscripts(engine, 1, NULL) == VG_NO_KEY);
    length = 7;
    CHECK(vg_increment(NULL, 1, &key, VG_TEXT("1"), reply, sizeof reply, &length) == VG_NO_ENGINE && !length);
    CHECK(vg_increment(engine, 1, NULL, VG_TEXT("1"), NULL, 0, NULL) == VG_NO_KEY);
    CHECK(vg_increment(engine, 1, &key, VG_TEXT("1"), NULL, 0, NULL) == VG_NO_KEY);
    CHECK(vg_get(NULL, 1, &key, NULL, 0, NULL) == VG_NO_ENGINE && vg_get(engine, 1, NULL, NULL, 0, NULL) == VG_NO_KEY);
    CHECK(vg_merge(NULL, 1, &key, &key) == VG_NO_ENGINE && vg_merge(engine, 1, NULL, &key) == VG_NO_KEY);
    CHECK(vg_data(NULL, 1, &key, &number) == VG_NO_ENGINE && number == 0);
    CHECK(vg_data(engine, 1, NULL, NULL) == VG_NO_KEY);
    CHECK(vg_order(NULL, 1, &key, NULL, 0, VG_FORWARD, NULL, 0, &length) == VG_NO_ENGINE && !length);
    CHECK(vg_order(engine, 1, NULL, NULL, 0, VG_FORWARD, NULL, 0, NULL) == VG_NO_KEY);
    CHECK(vg_query(NULL, 1, &key, VG_AT_KEY, VG_FORWARD) == VG_NO_ENGINE);
    CHECK(vg_query(engine, 1, NULL, VG_AT_KEY, VG_FORWARD) == VG_NO_KEY);
    CHECK(vg_look(NULL, &key, NULL, 0, NULL) == VG_NO_ENGINE && vg_look(engine, NULL, NULL, 0, NULL) == VG_NO_KEY);
    CHECK(vg_look_data(NULL, &key, &number) == VG_NO_ENGINE && vg_look_data(engine, NULL, NULL) == VG_NO_KEY);
    CHECK(vg_look_order(NULL, &key, NULL, 0, VG_FORWARD, NULL, 0, NULL) == VG_NO_ENGINE);
    CHECK(vg_look_order(engine, NULL, NULL, 0, VG_FORWARD, NULL, 0, &length) == VG_NO_KEY && !length);
    CHECK(vg_look_query(NULL, &key, VG_AT_KEY, VG_FORWARD) == VG_NO_ENGINE);
    CHECK(vg_look_query(engine, NULL, VG_AT_KEY, VG_FORWARD) == VG_NO_KEY);
    CHECK(vg_walk(NULL, NULL, &key, NULL, 0, NULL) == VG_NO_ENGINE);
    CHECK(vg_walk(engine, &key, NULL, NULL, 0, NULL) == VG_NO_KEY);
    CHECK(vg_walk(engine, &key, &key, NULL, 0, NULL) == VG_NO_KEY);
    CHECK(vg_lock(NULL, 1, &key, &number) == VG_NO_ENGINE && vg_lock(engine, 1, NULL, NULL) == VG_NO_KEY);
    CHECK(vg_lock_more(NULL, 1, &key, NULL) == VG_NO_ENGINE && vg_lock_more(engine, 1, NULL, NULL) == VG_NO_KEY);
    CHECK(vg_lock_fewer(NULL, 1, &key) == VG_NO_ENGINE && vg_lock_fewer(engine, 1, NULL) == VG_NO_KEY);
    number = 7;
    CHECK(vg_lock_all(engine, 1, VG_LOCK_ONLY, NULL, 1, &number) == VG_NO_KEY && !number);
    CHECK(vg_lock_all(engine, 1, VG_LOCK_ONLY, &key, 0, NULL) == VG_NO_KEY);
    CHECK(vg_lock_all(engine, 1, VG_LOCK_ONLY, &key, 1, NULL) == VG_NO_KEY);
}

/* Lines and their replies, also one that doesn't fit, and the listing. */
static void use_lines(vg_engine *engine) {
    vg_statistics told = {0, 0, 0};
    CHECK(vg_new(engine) == VG_DONE && vg_new(engine) == VG_ENGINE_THERE);
    CHECK(vg_reply(engine, reply, sizeof reply, &length) == VG_NO_REPLY);
    CHECK(answers(engine, "1 SET ^A(1)=5", VG_DONE, "1 ok\n"));
    CHECK(answers(engine, "1 $GET(^A(1))", VG_DONE, "1 5\n"));
    CHECK(answers(engine, "1 FOO", VG_BAD_LINE, "1 error 1 BadLine\n"));
    CHECK(answers(engine, "", VG_BAD_LINE, "0 error 1 BadLine\n"));
    CHECK(vg_line(engine, NULL, 5, reply, sizeof reply, &length) == VG_BAD_LINE && is_reply("0 error 1 BadLine\n"));
    CHECK(vg_line(engine, VG_TEXT("1 $DATA(^A)"), reply, 3, &length) == VG_BUFFER_TOO_SHORT && length == 5);
    CHECK(vg_line(engine, VG_TEXT("1 $DATA(^A)"), NULL, 9, &length) == VG_BUFFER_TOO_SHORT && length == 5);
    CHECK(vg_reply(engine, reply, 4, &length) == VG_BUFFER_TOO_SHORT && length == 5);
    CHECK(vg_reply(engine, reply, sizeof reply, &length) == VG_DONE && is_reply("1 10\n"));
    CHECK(vg_reply(engine, reply, sizeof reply, &length) == VG_DONE && is_reply("1 10\n"));
    CHECK(answers(engine, "2 SET ^B=\"x\"", VG_DONE, "2 ok\n"));
    CHECK(vg_list_from_start(engine) == VG_DONE);
    CHECK(vg_list_next(engine, reply, 6, &length) == VG_BUFFER_TOO_SHORT && length == 8);
    CHECK(vg_list_next(engine, reply, sizeof reply, &length) == VG_DONE && is_reply("^A(1)=5\n"));
    CHECK(vg_list_next(engine, reply, sizeof reply, &length) == VG_DONE && is_reply("^B=\"x\"\n"));
    CHECK(vg_list_next(engine, reply, sizeof reply, NULL) == VG_AT_END);
    CHECK(vg_list_from_start(engine) == VG_DONE);
    CHECK(vg_list_next(engine, reply, sizeof reply, &length) == VG_DONE && is_reply("^A(1)=5\n"));
    CHECK(vg_count(engine, &told) == VG_DONE && told.units == 5 && told.nodes == 2 && told.journal_bytes > 0);
    CHECK(vg_count(engine, NULL) == VG_DONE);
    CHECK(vg_collect(engine, 100) == VG_DONE);
    CHECK(vg_checkpoint(engine) == VG_DONE);
    CHECK(vg_count(engine, &told) == VG_DONE && told.units == 5 && told.journal_bytes == 0);
}

/* Whether a fault is at this place, and this is expected there. */
static int is_fault(const vg_fault *fault, uint64_t line, size_t column, const char *expected) {
    return fault->line == line && fault->column == column && fault->expected_length == strlen(expected) &&
           !memcmp(fault->expected, expected, strlen(expected));
}

/* Listings: loaded whole, or not at all, with the line at fault. */
static void use_listings(void) {
    const char *literal = "a number, \"text\" with both quotes or $C(0 to 255), without a blank";
    vg_engine own = VG_ENGINE_NONE;
    uint64_t units = 7;
    vg_fault fault;
    memset(&fault, 1, sizeof fault);
    CHECK(vg_load(&own, VG_TEXT("^A=1\n\n^B=x\n^C"), &fault) == VG_BAD_LINE && is_fault(&fault, 3, 4, literal));
    CHECK(vg_units(&own, &units) == VG_NO_ENGINE);
    CHECK(vg_load(&own, VG_TEXT("^A(\"\")=1"), &fault) == VG_EMPTY_SUBSCRIPT && fault.line == 1);
    CHECK(vg_load(&own, VG_TEXT("^A=1\n^B(1=2"), NULL) == VG_BAD_LINE);
    CHECK(vg_load(&own, VG_TEXT("^B=\"x\"\n\n^A(1)=5\n"), &fault) == VG_DONE && is_fault(&fault, 0, 0, ""));
    CHECK(vg_load(&own, VG_TEXT("^A=1\n^B=x"), &fault) == VG_ENGINE_THERE && is_fault(&fault, 0, 0, ""));
    CHECK(vg_reply(&own, reply, sizeof reply, NULL) == VG_NO_REPLY);
    CHECK(vg_units(&own, &units) == VG_DONE && units == 2);
    CHECK(vg_list_next(&own, reply, sizeof reply, &length) == VG_DONE && is_reply("^A(1)=5\n"));
    CHECK(vg_list_next(&own, reply, sizeof reply, &length) == VG_DONE && is_reply("^B=\"x\"\n"));
    CHECK(vg_list_next(&own, reply, sizeof reply, &length) == VG_AT_END);
    CHECK(vg_journal_next(&own, reply, sizeof reply, &length) == VG_DONE);
    CHECK(is_reply("1 SET ^B=\"x\"\n1 SET ^A(1)=5\n"));
    CHECK(vg_end(&own) == VG_DONE && vg_load(&own, NULL, 5, NULL) == VG_DONE);
    CHECK(vg_units(&own, &units) == VG_DONE && units == 0 && vg_end(&own) == VG_DONE);
}

/* Whether the journal's next lines are these. */
static int are_lines(vg_engine *engine, size_t room, const char *wanted) {
    return vg_journal_next(engine, reply, room, &length) == VG_DONE && is_reply(wanted);
}

/* The journal's lines: as many units as there is room for, from a place on, and what a checkpoint drops. */
static void use_journal(void) {
    vg_engine own = VG_ENGINE_NONE;
    CHECK(vg_new(&own) == VG_DONE && vg_journal_next(&own, reply, sizeof reply, &length) == VG_AT_END && !length);
    vg_line(&own, VG_TEXT("1 SET ^A(1)=5"), reply, sizeof reply, NULL);
    vg_line(&own, VG_TEXT("2 KILL ^B"), reply, sizeof reply, NULL);
    vg_line(&own, VG_TEXT("1 SET ^C=1"), reply, sizeof reply, NULL);
    CHECK(vg_journal_next(&own, reply, 13, &length) == VG_BUFFER_TOO_SHORT && length == 14);
    CHECK(vg_journal_next(&own, NULL, 100, &length) == VG_BUFFER_TOO_SHORT && length == 14);
    CHECK(are_lines(&own, 14, "1 SET ^A(1)=5\n"));
    CHECK(are_lines(&own, sizeof reply, "2 KILL ^B\n1 SET ^C=1\n"));
    CHECK(vg_journal_next(&own, reply, sizeof reply, NULL) == VG_AT_END);
    CHECK(vg_journal_from(&own, 1) == VG_DONE && are_lines(&own, 20, "2 KILL ^B\n"));
    CHECK(vg_journal_from(&own, 0) == VG_DONE && vg_checkpoint(&own) == VG_DONE);
    CHECK(vg_journal_next(&own, reply, sizeof reply, &length) == VG_GONE && !length);
    CHECK(vg_journal_from(&own, 3) == VG_DONE && vg_journal_next(&own, reply, 9, NULL) == VG_AT_END);
    vg_line(&own, VG_TEXT("1 TSTART"), reply, sizeof reply, NULL);
    vg_line(&own, VG_TEXT("1 SET ^D=1"), reply, sizeof reply, NULL);
    CHECK(vg_journal_next(&own, reply, sizeof reply, NULL) == VG_AT_END);
    vg_line(&own, VG_TEXT("1 TCOMMIT"), reply, sizeof reply, NULL);
    CHECK(are_lines(&own, sizeof reply, "1 TSTART\n1 SET ^D=1\n1 TCOMMIT\n"));
    CHECK(vg_end(&own) == VG_DONE);
}

/* Names of outcomes, the longest too. */
static void use_names(void) {
    CHECK(vg_refusal_text(VG_TRANSACTION_TOO_LONG, reply, sizeof reply, &length) == VG_DONE);
    CHECK(is_reply("TransactionTooLong"));
    CHECK(vg_refusal_text(VG_TOO_MANY_SUBSCRIPTS, reply, 5, &length) == VG_BUFFER_TOO_SHORT && length == 17);
    CHECK(vg_refusal_text(VG_SUBSCRIPT_TOO_LONG, reply, sizeof reply, NULL) == VG_DONE);
    CHECK(vg_refusal_text(VG_SUM_TOO_LONG, reply, sizeof reply, &length) == VG_DONE && is_reply("SumTooLong"));
    CHECK(vg_refusal_text(99, reply, sizeof reply, &length) == VG_UNKNOWN_NUMBER);
}

/* Numbers as texts: no digit is lost at either end. */
static void use_digits(void) {
    char digits[20];
    vg_text text = vg_digits(0, digits);
    CHECK(text.length == 1 && text.bytes[0] == '0');
    text = vg_digits(1009, digits);
    CHECK(text.length == 4 && !memcmp(text.bytes, "1009", 4));
    text = vg_digits(UINT64_MAX, digits);
    CHECK(text.length == 20 && !memcmp(text.bytes, "18446744073709551615", 20));
}

/* Keys of 31 subscripts and no more, by both ways. */
static void use_keys(vg_engine *engine) {
    vg_text ones[40];
    vg_key key = VG_KEY_NONE, other = VG_KEY_NONE;
    char digits[20];
    int i;
    for (i = 0; i < 40; i++) {
        ones[i].bytes = "1";
        ones[i].length = 1;
    }
    CHECK(vg_key_name(&key, VG_TEXT("5")) == VG_BAD_NAME);
    CHECK(vg_key_spell(&key, VG_TEXT("Deep"), ones, 31) == VG_DONE);
    CHECK(vg_set(engine, 1, &key, VG_TEXT("bottom")) == VG_DONE);
    CHECK(vg_key_spell(&key, VG_TEXT("Deep"), ones, 32) == VG_TOO_MANY_SUBSCRIPTS);
    CHECK(vg_key_spell(&key, VG_TEXT("Deep"), ones, 40) == VG_TOO_MANY_SUBSCRIPTS);
    CHECK(has_value(engine, &key, "bottom"));
    CHECK(vg_key_subscript(&key, VG_TEXT("1")) == VG_TOO_MANY_SUBSCRIPTS);
    CHECK(vg_query(engine, 1, &key, VG_BELOW_KEY, VG_BACKWARD) == VG_TOO_MANY_SUBSCRIPTS);
    CHECK(vg_query(engine, 1, &key, VG_BELOW_KEY, VG_FORWARD) == VG_TOO_MANY_SUBSCRIPTS);
    CHECK(vg_look_query(engine, &key, VG_BELOW_KEY, VG_BACKWARD) == VG_TOO_MANY_SUBSCRIPTS);
    CHECK(vg_query(engine, 1, &key, VG_AT_KEY, VG_FORWARD) == VG_AT_END && has_value(engine, &key, "bottom"));
    CHECK(vg_key_name(&other, VG_TEXT("Deep")) == VG_DONE);
    for (i = 0; i < 31; i++)
        CHECK(vg_key_subscript(&other, VG_TEXT("1")) == VG_DONE);
    CHECK(has_value(engine, &other, "bottom"));
    ones[1] = vg_digits(1204, digits);
    CHECK(vg_key_spell(&other, VG_TEXT("Deep"), ones, 2) == VG_DONE);
    CHECK(vg_set(engine, 1, &other, NULL, 5) == VG_DONE && has_value(engine, &other, ""));
    CHECK(answers(engine, "1 $DATA(^Deep(1,1204))", VG_DONE, "1 1\n"));
    ones[1].bytes = NULL;
    CHECK(vg_key_spell(&other, VG_TEXT("Deep"), ones, 2) == VG_EMPTY_SUBSCRIPT);
    CHECK(vg_key_subscript(&other, NULL, 3) == VG_EMPTY_SUBSCRIPT);
    CHECK(vg_key_spell(&other, VG_TEXT("Deep"), NULL, 2) == VG_DONE);
    CHECK(vg_kill(engine, 1, &other) == VG_DONE && has_value(engine, &key, ""));
    CHECK(vg_key_end(&key) == VG_DONE && vg_key_end(&key) == VG_NO_KEY);
    CHECK(vg_key_end(&other) == VG_DONE);
}

/* The lengths that are told where a buffer is too short or none, and values with bytes 0. */
static void use_values(vg_engine *engine) {
    static char long_value[1000], back[1000];
    vg_key key = VG_KEY_NONE, to = VG_KEY_NONE;
    uint64_t number = 7;
    memset(long_value, 'v', sizeof long_value);
    long_value[500] = 0;
    vg_key_name(&key, VG_TEXT("Value"));
    CHECK(vg_set(engine, 4096, &key, long_value, sizeof long_value) == VG_DONE);
    CHECK(vg_set(engine, 0, &key, VG_TEXT("1")) == VG_BAD_JOB);
    CHECK(vg_set(engine, 4097, &key, VG_TEXT("1")) == VG_BAD_JOB);
    CHECK(vg_get(engine, 1, &key, NULL, 1000, &length) == VG_BUFFER_TOO_SHORT && length == 1000);
    CHECK(vg_get(engine, 1, &key, back, 999, &length) == VG_BUFFER_TOO_SHORT && length == 1000);
    CHECK(vg_get(engine, 1, &key, back, 1000, &length) == VG_DONE && length == 1000);
    CHECK(!memcmp(back, long_value, 1000));
    CHECK(vg_look(engine, &key, NULL, 1000, &length) == VG_BUFFER_TOO_SHORT && length == 1000);
    CHECK(vg_look(engine, &key, back, 1000, &length) == VG_DONE && length == 1000 && !back[500]);
    CHECK(vg_merge(engine, 1, &key, &key) == VG_MERGE_OVERLAP);
    vg_key_name(&to, VG_TEXT("Copy"));
    CHECK(vg_merge(engine, 1, &to, &key) == VG_DONE);
    CHECK(vg_data(engine, 1, &to, &number) == VG_DONE && number == 1);
    CHECK(vg_kill(engine, 1, &key) == VG_DONE);
    CHECK(vg_look(engine, &key, back, 1000, NULL) == VG_NO_VALUE);
    CHECK(vg_look(engine, &to, back, 1000, &length) == VG_DONE && length == 1000);
    CHECK(vg_kill(engine, 1, &to) == VG_DONE);
    CHECK(vg_data(engine, 1, &to, &number) == VG_DONE && number == 0);
    vg_key_end(&key);
    vg_key_end(&to);
}

/* Whether an increment of a key's reference by this number is answered by this sum, and leaves it. */
static int adds_up(vg_engine *engine, vg_key *key, const char *number, const char *sum) {
    vg_outcome told = vg_increment(engine, 1, key, number, strlen(number), reply, sizeof reply, &length);
    return told == VG_DONE && is_reply(sum) && has_value(engine, key, sum);
}

/* Sums: exact, of what a value begins with, and as long as a value may be. */
static void use_sums(vg_engine *engine) {
    static char nines[32768];
    vg_key key = VG_KEY_NONE;
    uint64_t before = 7, after = 7;
    memset(nines, '9', sizeof nines);
    vg_key_name(&key, VG_TEXT("Sum"));
    CHECK(vg_units(engine, &before) == VG_DONE && adds_up(engine, &key, "1", "1"));
    CHECK(vg_units(engine, &after) == VG_DONE && after == before + 2);
    CHECK(adds_up(engine, &key, "-2.5", "-1.5") && adds_up(engine, &key, "11.75", "10.25"));
    CHECK(vg_increment(engine, 1, &key, VG_TEXT("01"), reply, sizeof reply, &length) == VG_BAD_LINE && !length);
    CHECK(vg_increment(engine, 1, &key, NULL, 5, reply, sizeof reply, &length) == VG_BAD_LINE && !length);
    CHECK(vg_increment(engine, 0, &key, VG_TEXT("1"), reply, sizeof reply, &length) == VG_BAD_JOB && !length);
    CHECK(vg_increment(engine, 4097, &key, VG_TEXT("1"), reply, sizeof reply, NULL) == VG_BAD_JOB);
    CHECK(has_value(engine, &key, "10.25"));
    CHECK(vg_increment(engine, 1, &key, VG_TEXT("99999999999999999999"), NULL, 99, &length) == VG_BUFFER_TOO_SHORT);
    CHECK(length == 24 && vg_reply(engine, reply, sizeof reply, &length) == VG_DONE);
    CHECK(is_reply("1 100000000000000000009.25\n") && has_value(engine, &key, "100000000000000000009.25"));
    CHECK(vg_increment(engine, 1, &key, VG_TEXT("1"), reply, 23, &length) == VG_BUFFER_TOO_SHORT && length == 24);
    CHECK(has_value(engine, &key, "100000000000000000010.25"));
    CHECK(vg_set(engine, 1, &key, VG_TEXT("12abc")) == VG_DONE && adds_up(engine, &key, "-12", "0"));
    CHECK(vg_set(engine, 1, &key, nines, 32767) == VG_DONE);
    CHECK(vg_increment(engine, 1, &key, VG_TEXT("1"), reply, sizeof reply, &length) == VG_SUM_TOO_LONG && !length);
    CHECK(vg_increment(engine, 1, &key, nines, 32768, reply, sizeof reply, &length) == VG_VALUE_TOO_LONG && !length);
    CHECK(vg_look(engine, &key, NULL, 0, &length) == VG_BUFFER_TOO_SHORT && length == 32767);
    CHECK(vg_kill(engine, 1, &key) == VG_DONE);
    vg_key_end(&key);
}

/* The kills of a part: of ^Part(1), which has a value, and ^Part(1,2) below it; ^Part stands above. */
static void use_kills(vg_engine *engine) {
    const vg_text both[2] = {{VG_TEXT("1")}, {VG_TEXT("2")}};
    vg_key top = VG_KEY_NONE, key = VG_KEY_NONE, low = VG_KEY_NONE;
    uint64_t number = 7;
    vg_key_name(&top, VG_TEXT("Part"));
    vg_key_spell(&key, VG_TEXT("Part"), both, 1);
    vg_key_spell(&low, VG_TEXT("Part"), both, 2);
    CHECK(vg_set(engine, 1, &top, VG_TEXT("a")) == VG_DONE && vg_set(engine, 1, &key, VG_TEXT("b")) == VG_DONE);
    CHECK(vg_set(engine, 1, &low, VG_TEXT("c")) == VG_DONE);
    CHECK(vg_kill_value(engine, 0, &key) == VG_BAD_JOB && vg_kill_subscripts(engine, 4097, &key) == VG_BAD_JOB);
    CHECK(vg_kill_value(engine, 1, &key) == VG_DONE && vg_look(engine, &key, reply, 9, NULL) == VG_NO_VALUE);
    CHECK(has_value(engine, &top, "a") && has_value(engine, &low, "c"));
    CHECK(vg_kill_value(engine, 1, &key) == VG_DONE && vg_set(engine, 1, &key, VG_TEXT("d")) == VG_DONE);
    CHECK(vg_kill_subscripts(engine, 1, &key) == VG_DONE && has_value(engine, &key, "d"));
    CHECK(vg_data(engine, 1, &key, &number) == VG_DONE && number == 1 && has_value(engine, &top, "a"));
    CHECK(vg_kill(engine, 1, &top) == VG_DONE);
    vg_key_end(&top);
    vg_key_end(&key);
    vg_key_end(&low);
}

/* Subscripts whose bytes a key's form changes: numbers with signs, points and zeros, and bytes 0 and 1. */
static const vg_text SUBSCRIPTS[] = {
    {VG_TEXT("-1000")}, {VG_TEXT("-1.5")}, {VG_TEXT("-1")}, {VG_TEXT("-.001")}, {VG_TEXT("0")}, {VG_TEXT(".001")},
    {VG_TEXT(".5")}, {VG_TEXT("1")}, {VG_TEXT("1.05")}, {VG_TEXT("9")}, {VG_TEXT("10")}, {VG_TEXT("100")},
    {VG_TEXT("12345.6789")}, {VG_TEXT("9000000000000000000000")}, {VG_TEXT("\0\1\2")}, {VG_TEXT("\1")},
    {VG_TEXT("00")}, {VG_TEXT("a b")}};

enum { COUNT = sizeof SUBSCRIPTS / sizeof *SUBSCRIPTS };

/* A part of a node's key is what was spelled, and the next stands right behind it. */
static int is_part(const vg_node *node, const char **at, const vg_text *wanted) {
    char part[255];
    size_t given = vg_part_next(node, at, part);
    return given == wanted->length && !memcmp(part, wanted->bytes, given);
}

static void use_walks(vg_engine *engine) {
    static char nodes[65536];
    static char long_value[700];
    const vg_text name = {VG_TEXT("Walk")}, last = {VG_TEXT("z")};
    vg_key root = VG_KEY_NONE, place = VG_KEY_NONE, key = VG_KEY_NONE;
    vg_text at[3];
    const char *from, *end, *part;
    char rest[255];
    vg_node node;
    int i, seen = 0;
    memset(long_value, 'w', sizeof long_value);
    for (i = 0; i < COUNT; i++) {
        at[0] = SUBSCRIPTS[i];
        at[1] = SUBSCRIPTS[COUNT - 1 - i];
        at[2] = last;
        CHECK(vg_key_spell(&key, name.bytes, name.length, at, 3) == VG_DONE);
        CHECK(vg_set(engine, 1, &key, long_value, sizeof long_value - i) == VG_DONE);
    }
    vg_key_name(&root, name.bytes, name.length);
    CHECK(vg_walk(engine, &root, &place, nodes, 100, &length) == VG_BUFFER_TOO_SHORT && length > 700);
    CHECK(vg_walk(engine, &root, &place, nodes, sizeof nodes, &length) == VG_DONE);
    from = nodes;
    end = nodes + length;
    while (vg_node_next(&from, end, &node)) {
        part = node.key;
        CHECK(is_part(&node, &part, &name));
        CHECK(seen < COUNT && is_part(&node, &part, &SUBSCRIPTS[seen]));
        CHECK(is_part(&node, &part, &SUBSCRIPTS[COUNT - 1 - seen]));
        CHECK(is_part(&node, &part, &last) && part == node.key + node.key_length);
        CHECK(vg_part_next(&node, &part, rest) == 0);
        CHECK(node.value_length == sizeof long_value - seen && !memcmp(node.value, long_value, node.value_length));
        seen++;
    }
    CHECK(seen == COUNT && from == end);
    CHECK(vg_walk(engine, &root, &place, nodes, sizeof nodes, NULL) == VG_AT_END);
    vg_key_end(&place);
    CHECK(vg_walk(engine, NULL, &place, nodes, 2000, &length) == VG_DONE && length > 0 && length <= 2000);
    CHECK(vg_key_end(&place) == VG_DONE);
    CHECK(vg_kill(engine, 1, &root) == VG_DONE);
    vg_key_end(&root);
    vg_key_end(&key);
}

/* $ORDER from starts of up to 255 bytes, and $QUERY, in both ways. */
static void use_orders(vg_engine *engine) {
    char first[255], second[255], told[255];
    vg_key root = VG_KEY_NONE, key = VG_KEY_NONE;
    memset(first, 'o', sizeof first);
    memset(second, 'o', sizeof second);
    second[254] = 'p';
    vg_key_name(&root, VG_TEXT("Order"));
    vg_key_name(&key, VG_TEXT("Order"));
    CHECK(vg_key_subscript(&key, first, sizeof first) == VG_DONE && vg_set(engine, 1, &key, VG_TEXT("1")) == VG_DONE);
    vg_key_name(&key, VG_TEXT("Order"));
    CHECK(vg_key_subscript(&key, second, sizeof second) == VG_DONE && vg_set(engine, 1, &key, VG_TEXT("2")) == VG_DONE);
    CHECK(vg_order(engine, 1, &root, NULL, 9, VG_FORWARD, told, sizeof told, &length) == VG_DONE);
    CHECK(length == 255 && !memcmp(told, first, 255));
    CHECK(vg_order(engine, 1, &root, told, 255, VG_FORWARD, told, sizeof told, &length) == VG_DONE);
    CHECK(length == 255 && !memcmp(told, second, 255));
    CHECK(vg_order(engine, 1, &root, told, 255, VG_FORWARD, told, sizeof told, &length) == VG_DONE && !length);
    CHECK(vg_order(engine, 1, &root, NULL, 0, VG_BACKWARD, told, sizeof told, &length) == VG_DONE);
    CHECK(length == 255 && !memcmp(told, second, 255));
    CHECK(vg_order(engine, 1, &root, second, 255, VG_BACKWARD, told, 7, &length) == VG_BUFFER_TOO_SHORT);
    CHECK(length == 255);
    CHECK(vg_order(engine, 1, &root, second, 256, VG_FORWARD, told, sizeof told, &length) == VG_SUBSCRIPT_TOO_LONG);
    CHECK(vg_order(engine, 1, &root, second, 257, VG_FORWARD, told, sizeof told, &length) == VG_SUBSCRIPT_TOO_LONG);
    CHECK(vg_query(engine, 1, &root, VG_AT_KEY, VG_FORWARD) == VG_DONE && has_value(engine, &root, "1"));
    CHECK(vg_query(engine, 1, &root, VG_AT_KEY, VG_FORWARD) == VG_DONE && has_value(engine, &root, "2"));
    CHECK(vg_query(engine, 1, &root, VG_AT_KEY, VG_FORWARD) == VG_AT_END && has_value(engine, &root, "2"));
    vg_key_name(&root, VG_TEXT("Order"));
    CHECK(vg_query(engine, 1, &root, VG_BELOW_KEY, VG_BACKWARD) == VG_DONE && has_value(engine, &root, "2"));
    CHECK(vg_query(engine, 1, &root, VG_AT_KEY, VG_BACKWARD) == VG_DONE && has_value(engine, &root, "1"));
    vg_key_name(&root, VG_TEXT("Order"));
    CHECK(vg_kill(engine, 1, &root) == VG_DONE);
    vg_key_end(&root);
    vg_key_end(&key);
}

/* Whether $ORDER of a view answers this after a start; an empty one where no other follows. */
static int comes_next(vg_engine *engine, uint64_t view, vg_key *key, const char *start, uint32_t direction,
                      const char *wanted) {
    size_t from = strlen(start);
    vg_outcome told = vg_view_order(engine, view, key, start, from, direction, reply, sizeof reply, &length);
    return told == VG_DONE && is_reply(wanted);
}

/* Whether a value is seen at a key in a view. */
static int is_seen(vg_engine *engine, uint64_t view, vg_key *key, const char *wanted) {
    return vg_view_look(engine, view, key, reply, sizeof reply, &length) == VG_DONE && is_reply(wanted);
}

/* How many nodes of a subtree are walked in a view. */
static int walked_in(vg_engine *engine, uint64_t view, vg_key *root) {
    vg_key place = VG_KEY_NONE;
    vg_node node;
    const char *at = reply;
    int nodes = 0;
    CHECK(vg_view_walk(engine, view, root, &place, reply, sizeof reply, &length) == VG_DONE);
    while (vg_node_next(&at, reply + length, &node))
        nodes++;
    CHECK(vg_view_walk(engine, view, root, &place, reply, sizeof reply, NULL) == VG_AT_END);
    vg_key_end(&place);
    return nodes;
}

/* How many nodes are listed in a view. */
static int listed_in(vg_engine *engine, uint64_t view) {
    int nodes = 0;
    vg_list_from_start(engine);
    while (vg_view_list_next(engine, view, reply, sizeof reply, NULL) == VG_DONE)
        nodes++;
    return nodes;
}

/* The parts of a key's own bytes. */
static void use_key_bytes(vg_engine *engine, vg_key *key) {
    const vg_text name = {VG_TEXT("View")}, last = {VG_TEXT("second")};
    char bytes[64];
    vg_node node = {bytes, 0, bytes, 0};
    const char *part = bytes;
    CHECK(vg_look_query(engine, key, VG_AT_KEY, VG_FORWARD) == VG_DONE);
    CHECK(vg_look_query(engine, key, VG_AT_KEY, VG_FORWARD) == VG_DONE);
    CHECK(vg_key_bytes(key, bytes, 8, &length) == VG_BUFFER_TOO_SHORT && length > 8);
    CHECK(vg_key_bytes(key, bytes, sizeof bytes, &node.key_length) == VG_DONE && node.key_length == length);
    CHECK(is_part(&node, &part, &name) && is_part(&node, &part, &last) && part == bytes + length);
}

/* A view, what is done beside it, and the database then: ^View("first") is set anew, ^View("second") is new. */
static void use_views(vg_engine *engine) {
    vg_key root = VG_KEY_NONE, first = VG_KEY_NONE, second = VG_KEY_NONE;
    uint64_t number = 7;
    vg_statistics before, after;
    vg_key_name(&root, VG_TEXT("View"));
    vg_key_name(&first, VG_TEXT("View"));
    vg_key_name(&second, VG_TEXT("View"));
    vg_key_subscript(&first, VG_TEXT("first"));
    vg_key_subscript(&second, VG_TEXT("second"));
    CHECK(vg_set(engine, 1, &first, VG_TEXT("old")) == VG_DONE);
    CHECK(vg_view_begin(engine, 0) == VG_BAD_JOB && vg_view_begin(engine, 4097) == VG_BAD_JOB);
    CHECK(vg_view_begin(engine, 7) == VG_DONE && vg_view_begin(engine, 7) == VG_TRANSACTION_OPEN);
    CHECK(vg_set(engine, 1, &first, VG_TEXT("new")) == VG_DONE && vg_set(engine, 1, &second, VG_TEXT("2")) == VG_DONE);
    CHECK(vg_collect(engine, 1000) == VG_DONE && vg_checkpoint(engine) == VG_DONE);
    CHECK(vg_count(engine, &before) == VG_DONE);
    CHECK(is_seen(engine, 7, &first, "old") && is_seen(engine, VG_NOW, &first, "new"));
    CHECK(vg_view_look(engine, 7, &second, reply, sizeof reply, &length) == VG_NO_VALUE && !length);
    CHECK(vg_view_data(engine, 7, &second, &number) == VG_DONE && number == 0);
    CHECK(vg_view_data(engine, 7, &root, &number) == VG_DONE && number == 10);
    CHECK(vg_look_data(engine, &second, &number) == VG_DONE && number == 1);
    CHECK(comes_next(engine, 7, &root, "", VG_FORWARD, "first"));
    CHECK(comes_next(engine, 7, &root, "first", VG_FORWARD, ""));
    CHECK(comes_next(engine, 7, &root, "zzz", VG_BACKWARD, "first"));
    CHECK(comes_next(engine, VG_NOW, &root, "first", VG_FORWARD, "second"));
    CHECK(vg_look_order(engine, &root, NULL, 0, VG_BACKWARD, reply, 3, &length) == VG_BUFFER_TOO_SHORT && length == 6);
    CHECK(vg_look_order(engine, &root, reply, 257, VG_FORWARD, NULL, 0, NULL) == VG_SUBSCRIPT_TOO_LONG);
    CHECK(walked_in(engine, 7, &root) == 1 && walked_in(engine, VG_NOW, &root) == 2);
    CHECK(listed_in(engine, 7) + 1 == listed_in(engine, VG_NOW));
    CHECK(vg_count(engine, &after) == VG_DONE && !memcmp(&before, &after, sizeof before));
    CHECK(vg_view_query(engine, 7, &root, VG_BELOW_KEY, VG_BACKWARD) == VG_DONE && has_value(engine, &root, "new"));
    CHECK(vg_view_query(engine, 7, &root, VG_AT_KEY, VG_FORWARD) == VG_AT_END && has_value(engine, &root, "new"));
    CHECK(vg_view_query(engine, 7, &second, VG_AT_KEY, VG_BACKWARD) == VG_DONE && has_value(engine, &second, "new"));
    CHECK(vg_view_end(engine, 7) == VG_DONE && vg_view_end(engine, 7) == VG_NO_TRANSACTION);
    CHECK(vg_view_look(engine, 7, &first, reply, sizeof reply, NULL) == VG_NO_TRANSACTION);
    CHECK(vg_view_look(engine, 4097, &first, reply, sizeof reply, NULL) == VG_BAD_JOB);
    CHECK(vg_view_list_next(engine, 7, reply, sizeof reply, NULL) == VG_NO_TRANSACTION);
    vg_key_name(&root, VG_TEXT("View"));
    use_key_bytes(engine, &root);
    vg_key_name(&root, VG_TEXT("View"));
    CHECK(vg_kill(engine, 1, &root) == VG_DONE);
    vg_key_end(&root);
    vg_key_end(&first);
    vg_key_end(&second);
}

/* Whether the name after a start, or before it, is this one; an empty one where none is left. */
static int name_is(vg_engine *engine, uint64_t view, const char *start, uint32_t direction, const char *wanted) {
    size_t from = strlen(start);
    vg_outcome told = vg_view_name(engine, view, start, from, direction, reply, sizeof reply, &length);
    return told == (*wanted ? VG_DONE : VG_AT_END) && is_reply(wanted);
}

/* Names of globals: of ^%A, ^Ab(1,2) and ^zzzzzzzzzzzzzzzzzzzzzzzzzzzzzzz, the last of which comes while a view is there. */
static void use_global_names(void) {
    const char *last = "zzzzzzzzzzzzzzzzzzzzzzzzzzzzzzz";
    char same[32] = "%A";
    vg_engine own = VG_ENGINE_NONE;
    CHECK(vg_look_name(NULL, NULL, 0, VG_FORWARD, same, sizeof same, &length) == VG_NO_ENGINE && !length);
    CHECK(vg_look_name(&own, NULL, 0, VG_FORWARD, same, sizeof same, &length) == VG_NO_ENGINE && !length);
    CHECK(vg_new(&own) == VG_DONE && name_is(&own, VG_NOW, "", VG_FORWARD, ""));
    CHECK(name_is(&own, VG_NOW, "", VG_BACKWARD, ""));
    vg_line(&own, VG_TEXT("1 SET ^Ab(1,2)=1"), reply, sizeof reply, NULL);
    vg_line(&own, VG_TEXT("1 SET ^Ab(3)=1"), reply, sizeof reply, NULL);
    vg_line(&own, VG_TEXT("1 SET ^%A=1"), reply, sizeof reply, NULL);
    CHECK(vg_view_begin(&own, 7) == VG_DONE);
    vg_line(&own, VG_TEXT("1 SET ^zzzzzzzzzzzzzzzzzzzzzzzzzzzzzzz(1)=1"), reply, sizeof reply, NULL);
    CHECK(name_is(&own, VG_NOW, "", VG_FORWARD, "%A") && name_is(&own, VG_NOW, "%A", VG_FORWARD, "Ab"));
    CHECK(name_is(&own, VG_NOW, "Ab", VG_FORWARD, last) && name_is(&own, VG_NOW, last, VG_FORWARD, ""));
    CHECK(name_is(&own, VG_NOW, "", VG_BACKWARD, last) && name_is(&own, VG_NOW, last, VG_BACKWARD, "Ab"));
    CHECK(name_is(&own, VG_NOW, "Aa", VG_FORWARD, "Ab") && name_is(&own, VG_NOW, "Ac", VG_BACKWARD, "Ab"));
    CHECK(name_is(&own, VG_NOW, "%A", VG_BACKWARD, ""));
    CHECK(name_is(&own, 7, "", VG_BACKWARD, "Ab") && name_is(&own, 7, "Ab", VG_FORWARD, ""));
    CHECK(vg_look_name(&own, same, 2, VG_FORWARD, same, sizeof same, &length) == VG_DONE && !memcmp(same, "Ab", 2));
    CHECK(vg_look_name(&own, VG_TEXT("%A"), VG_FORWARD, same, 1, &length) == VG_BUFFER_TOO_SHORT && length == 2);
    CHECK(vg_look_name(&own, VG_TEXT("1"), VG_FORWARD, same, 1, &length) == VG_BAD_NAME && !length);
    CHECK(vg_look_name(&own, reply, 300, VG_FORWARD, same, 1, &length) == VG_BAD_NAME && !length);
    CHECK(vg_view_name(&own, 8, NULL, 0, VG_FORWARD, same, 1, &length) == VG_NO_TRANSACTION && !length);
    CHECK(vg_end(&own) == VG_DONE);
}

/* Whether the name after a start, or before it, is this one by a command of job 1; an empty one where none is left. */
static int is_next(vg_engine *engine, const char *start, uint32_t direction, const char *wanted) {
    size_t from = strlen(start);
    vg_outcome told = vg_next_name(engine, 1, start, from, direction, reply, sizeof reply, &length);
    return told == (*wanted ? VG_DONE : VG_AT_END) && is_reply(wanted);
}

/* Names by commands: of ^%A, ^Ab(1,2) and ^zz, the last of which is set in a transaction of job 1. */
static void use_next_names(void) {
    char same[32] = "%A";
    vg_engine own = VG_ENGINE_NONE;
    uint64_t before = 7, after = 7;
    CHECK(vg_next_name(NULL, 1, NULL, 0, VG_FORWARD, same, sizeof same, &length) == VG_NO_ENGINE && !length);
    CHECK(vg_next_name(&own, 1, NULL, 0, VG_FORWARD, same, sizeof same, &length) == VG_NO_ENGINE && !length);
    CHECK(vg_new(&own) == VG_DONE && is_next(&own, "", VG_FORWARD, "") && is_next(&own, "", VG_BACKWARD, ""));
    vg_line(&own, VG_TEXT("1 SET ^Ab(1,2)=1"), reply, sizeof reply, NULL);
    vg_line(&own, VG_TEXT("1 SET ^%A=1"), reply, sizeof reply, NULL);
    CHECK(vg_units(&own, &before) == VG_DONE && is_next(&own, "", VG_FORWARD, "%A"));
    CHECK(vg_units(&own, &after) == VG_DONE && after == before + 1);
    CHECK(vg_reply(&own, reply, sizeof reply, &length) == VG_DONE && is_reply("1 ^%A\n"));
    vg_tstart(&own, 1, NULL);
    vg_line(&own, VG_TEXT("1 SET ^zz(1)=1"), reply, sizeof reply, NULL);
    CHECK(is_next(&own, "Ab", VG_FORWARD, "zz") && is_next(&own, "", VG_BACKWARD, "zz"));
    CHECK(vg_next_name(&own, 2, "Ab", 2, VG_FORWARD, same, sizeof same, &length) == VG_AT_END && !length);
    CHECK(vg_trollback(&own, 1) == VG_DONE && is_next(&own, "Ab", VG_FORWARD, ""));
    CHECK(is_next(&own, "Aa", VG_FORWARD, "Ab") && is_next(&own, "B", VG_BACKWARD, "Ab"));
    CHECK(is_next(&own, "Ab", VG_BACKWARD, "%A") && is_next(&own, "%A", VG_BACKWARD, ""));
    CHECK(vg_next_name(&own, 1, same, 2, VG_FORWARD, same, sizeof same, &length) == VG_DONE && !memcmp(same, "Ab", 2));
    CHECK(vg_next_name(&own, 1, NULL, 5, VG_FORWARD, NULL, 9, &length) == VG_BUFFER_TOO_SHORT && length == 2);
    CHECK(vg_next_name(&own, 1, VG_TEXT("^A"), VG_FORWARD, same, sizeof same, &length) == VG_BAD_NAME && !length);
    CHECK(vg_next_name(&own, 1, reply, 300, VG_FORWARD, same, sizeof same, &length) == VG_BAD_NAME && !length);
    CHECK(vg_next_name(&own, 0, NULL, 0, VG_FORWARD, same, sizeof same, NULL) == VG_BAD_JOB);
    CHECK(vg_end(&own) == VG_DONE);
}

/* The units of the journal: one more after each command outside a transaction, and as many as vg_count tells. */
static void use_units(vg_engine *engine) {
    vg_key key = VG_KEY_NONE;
    uint64_t before = 7, after = 7;
    vg_statistics held;
    vg_key_name(&key, VG_TEXT("Units"));
    CHECK(vg_units(NULL, &before) == VG_NO_ENGINE && !before && vg_units(engine, NULL) == VG_DONE);
    CHECK(vg_units(engine, &before) == VG_DONE && vg_set(engine, 1, &key, VG_TEXT("1")) == VG_DONE);
    CHECK(vg_units(engine, &after) == VG_DONE && after == before + 1 && after > 1);
    CHECK(vg_count(engine, &held) == VG_DONE && held.units == after);
    CHECK(vg_kill(engine, 1, &key) == VG_DONE);
    vg_key_end(&key);
}

/* Whether a child is this one, its value too. */
static int is_child(const vg_child *child, const char *subscript, const char *value, uint64_t data) {
    return child->subscript_length == strlen(subscript) && !memcmp(child->subscript, subscript, strlen(subscript)) &&
           child->value_length == strlen(value) && !memcmp(child->value, value, strlen(value)) && child->data == data;
}

/* The children of ^Ch: 2="two", 10 with ^Ch(10,1,1) alone, "x"="ex" with ^Ch("x",1); "y"="why" once a view is there. */
static void use_children(vg_engine *engine) {
    vg_key key = VG_KEY_NONE;
    vg_child child;
    const char *at = reply;
    CHECK(vg_children(NULL, &key, NULL, 0, NULL, 0, &length) == VG_NO_ENGINE && !length);
    CHECK(vg_children(engine, NULL, NULL, 0, NULL, 0, NULL) == VG_NO_KEY);
    CHECK(vg_children(engine, &key, NULL, 0, NULL, 0, NULL) == VG_NO_KEY);
    vg_key_name(&key, VG_TEXT("Ch"));
    CHECK(vg_children(engine, &key, NULL, 0, NULL, 0, &length) == VG_AT_END && !length);
    vg_line(engine, VG_TEXT("1 SET ^Ch(2)=\"two\""), reply, sizeof reply, NULL);
    vg_line(engine, VG_TEXT("1 SET ^Ch(10,1,1)=1"), reply, sizeof reply, NULL);
    vg_line(engine, VG_TEXT("1 SET ^Ch(\"x\")=\"ex\""), reply, sizeof reply, NULL);
    vg_line(engine, VG_TEXT("1 SET ^Ch(\"x\",1)=1"), reply, sizeof reply, NULL);
    CHECK(vg_view_begin(engine, 7) == VG_DONE);
    vg_line(engine, VG_TEXT("1 SET ^Ch(\"y\")=\"why\""), reply, sizeof reply, NULL);
    CHECK(vg_children(engine, &key, NULL, 0, reply, sizeof reply, &length) == VG_DONE);
    CHECK(vg_child_next(&at, reply + length, &child) && is_child(&child, "2", "two", 1));
    CHECK(vg_child_next(&at, reply + length, &child) && is_child(&child, "10", "", 10));
    CHECK(vg_child_next(&at, reply + length, &child) && is_child(&child, "x", "ex", 11));
    CHECK(vg_child_next(&at, reply + length, &child) && is_child(&child, "y", "why", 1));
    CHECK(!vg_child_next(&at, reply + length, &child));
    CHECK(vg_children(engine, &key, "y", 1, reply, sizeof reply, &length) == VG_AT_END && !length);
    CHECK(vg_children(engine, &key, NULL, 0, reply, 27, &length) == VG_BUFFER_TOO_SHORT && length == 28);
    CHECK(vg_children(engine, &key, NULL, 0, reply, 28 + 25, &length) == VG_DONE && length == 28);
    CHECK(vg_children(engine, &key, NULL, 0, reply, 28 + 26, &length) == VG_DONE && length == 28 + 26);
    CHECK(vg_children(engine, &key, "3", 1, reply, 26, &length) == VG_DONE && length == 26);
    CHECK(vg_children(engine, &key, reply + 24, 2, reply, sizeof reply, &length) == VG_DONE && length == 27 + 28);
    CHECK(vg_view_children(engine, 7, &key, "x", 1, reply, sizeof reply, &length) == VG_AT_END && !length);
    CHECK(vg_view_children(engine, 8, &key, "x", 1, reply, sizeof reply, &length) == VG_NO_TRANSACTION);
    CHECK(vg_children(engine, &key, reply, 256, reply, sizeof reply, &length) == VG_SUBSCRIPT_TOO_LONG && !length);
    CHECK(vg_view_end(engine, 7) == VG_DONE && vg_kill(engine, 1, &key) == VG_DONE);
    vg_key_end(&key);
}

/* Level and restarts of a job, told without a command. */
static void use_levels(vg_engine *engine) {
    uint64_t number = 7;
    vg_statistics before, after;
    CHECK(vg_tlevel(NULL, 1, &number) == VG_NO_ENGINE && !number && vg_trestarts(NULL, 1, NULL) == VG_NO_ENGINE);
    CHECK(vg_tlevel(engine, 0, &number) == VG_BAD_JOB && !number && vg_trestarts(engine, 4097, NULL) == VG_BAD_JOB);
    CHECK(vg_tlevel(engine, 1, &number) == VG_DONE && !number && vg_tstart(engine, 1, NULL) == VG_DONE);
    CHECK(vg_trestart(engine, 1, NULL) == VG_RESTARTED && vg_trestart(engine, 1, NULL) == VG_RESTARTED);
    CHECK(vg_tstart(engine, 1, NULL) == VG_DONE && vg_tstart(engine, 1, NULL) == VG_DONE);
    CHECK(vg_reply(engine, reply, sizeof reply, NULL) == VG_DONE && vg_count(engine, &before) == VG_DONE);
    CHECK(vg_tlevel(engine, 1, &number) == VG_DONE && number == 3);
    CHECK(vg_trestarts(engine, 1, &number) == VG_DONE && number == 2);
    CHECK(vg_tlevel(engine, 2, &number) == VG_DONE && number == 0);
    CHECK(vg_trestarts(engine, 2, &number) == VG_DONE && number == 0);
    CHECK(vg_reply(engine, reply, sizeof reply, &length) == VG_DONE && is_reply("1 level 3\n"));
    CHECK(vg_count(engine, &after) == VG_DONE && !memcmp(&before, &after, sizeof before));
    CHECK(vg_trollback(engine, 1) == VG_DONE && vg_trestarts(engine, 1, &number) == VG_DONE && number == 0);
}

/* LOCK in its four forms: what job 1 holds is seen by what job 2 gets. */
static void use_locks(vg_engine *engine) {
    vg_key bed = VG_KEY_NONE, ward = VG_KEY_NONE;
    uint64_t had = 7;
    vg_key_name(&bed, VG_TEXT("Bed"));
    vg_key_name(&ward, VG_TEXT("Ward"));
    CHECK(vg_lock(engine, 1, &bed, &had) == VG_DONE && had == 1);
    CHECK(vg_lock(engine, 2, &bed, &had) == VG_DONE && had == 0);
    CHECK(vg_lock_more(engine, 1, &bed, &had) == VG_DONE && had == 1);
    CHECK(vg_lock_fewer(engine, 1, &bed) == VG_DONE);
    CHECK(vg_lock_more(engine, 2, &bed, &had) == VG_DONE && had == 0);
    CHECK(vg_lock_fewer(engine, 1, &bed) == VG_DONE);
    CHECK(vg_lock_more(engine, 2, &bed, &had) == VG_DONE && had == 1);
    CHECK(vg_lock_more(engine, 2, &ward, &had) == VG_DONE && had == 1);
    CHECK(vg_lock_more(engine, 1, &bed, &had) == VG_DONE && had == 0);
    CHECK(vg_lock(engine, 2, &ward, NULL) == VG_DONE);
    CHECK(vg_lock_more(engine, 1, &bed, &had) == VG_DONE && had == 1);
    CHECK(vg_lock_more(engine, 1, &ward, &had) == VG_DONE && had == 0);
    CHECK(vg_unlock(engine, 2) == VG_DONE);
    CHECK(vg_lock_more(engine, 1, &ward, &had) == VG_DONE && had == 1);
    CHECK(vg_halt(engine, 1) == VG_DONE);
    CHECK(vg_lock_more(engine, 2, &bed, &had) == VG_DONE && had == 1);
    CHECK(vg_lock_more(engine, 2, &ward, &had) == VG_DONE && had == 1);
    CHECK(vg_unlock(engine, 2) == VG_DONE);
    vg_key_end(&bed);
    vg_key_end(&ward);
}

/* LOCK of several names: all or none, in the three forms; the keys stay. */
static void use_lock_lists(vg_engine *engine) {
    vg_key keys[3] = {VG_KEY_NONE, VG_KEY_NONE, VG_KEY_NONE};
    vg_text subscript = {VG_TEXT("a subscript so long that its key takes memory of its own")};
    uint64_t had = 7;
    vg_key_name(&keys[0], VG_TEXT("Bed"));
    vg_key_spell(&keys[1], VG_TEXT("Ward"), &subscript, 1);
    CHECK(vg_lock_all(engine, 1, VG_LOCK_ONLY, keys, 3, &had) == VG_NO_KEY && had == 0);
    vg_key_name(&keys[2], VG_TEXT("Room"));
    CHECK(vg_lock(engine, 2, &keys[1], &had) == VG_DONE && had == 1);
    CHECK(vg_lock_all(engine, 1, VG_LOCK_MORE, keys, 2, &had) == VG_DONE && had == 0);
    CHECK(vg_lock_more(engine, 2, &keys[0], &had) == VG_DONE && had == 1);
    CHECK(vg_unlock(engine, 2) == VG_DONE);
    CHECK(vg_lock_all(engine, 1, VG_LOCK_MORE, keys, 2, &had) == VG_DONE && had == 1);
    CHECK(vg_lock_all(engine, 1, VG_LOCK_MORE, keys, 1, NULL) == VG_DONE);
    CHECK(vg_lock_more(engine, 2, &keys[0], &had) == VG_DONE && had == 0);
    CHECK(vg_lock_more(engine, 2, &keys[1], &had) == VG_DONE && had == 0);
    CHECK(vg_lock_all(engine, 1, VG_LOCK_FEWER, keys, 2, &had) == VG_DONE && had == 1);
    CHECK(vg_lock_more(engine, 2, &keys[0], &had) == VG_DONE && had == 0);
    CHECK(vg_lock_more(engine, 2, &keys[1], &had) == VG_DONE && had == 1);
    CHECK(vg_lock_all(engine, 1, VG_LOCK_ONLY, keys + 2, 1, &had) == VG_DONE && had == 1);
    CHECK(vg_lock_more(engine, 2, &keys[0], &had) == VG_DONE && had == 1);
    CHECK(vg_lock_all(engine, 2, VG_LOCK_FEWER, keys, 3, &had) == VG_DONE && had == 1);
    CHECK(vg_lock_all(engine, 0, VG_LOCK_ONLY, keys, 3, &had) == VG_BAD_JOB && had == 0);
    CHECK(vg_lock_all(engine, 4097, VG_LOCK_ONLY, keys, 3, &had) == VG_BAD_JOB && had == 0);
    CHECK(vg_set(engine, 1, &keys[1], VG_TEXT("1")) == VG_DONE && vg_kill(engine, 1, &keys[1]) == VG_DONE);
    CHECK(vg_unlock(engine, 1) == VG_DONE && vg_unlock(engine, 2) == VG_DONE);
    CHECK(vg_key_end(&keys[0]) == VG_DONE && vg_key_end(&keys[1]) == VG_DONE && vg_key_end(&keys[2]) == VG_DONE);
}

/* A transaction that is committed, rolled back, restarted, overtaken and ended by HALT. */
static void use_transactions(vg_engine *engine) {
    vg_key key = VG_KEY_NONE;
    uint64_t number = 7;
    vg_key_name(&key, VG_TEXT("T"));
    CHECK(vg_tcommit(engine, 1, NULL) == VG_NO_TRANSACTION && vg_trollback(engine, 1) == VG_NO_TRANSACTION);
    CHECK(vg_trestart(engine, 1, NULL) == VG_NO_TRANSACTION);
    CHECK(vg_tstart(engine, 1, &number) == VG_DONE && number == 1);
    CHECK(vg_tstart(engine, 1, &number) == VG_DONE && number == 2);
    CHECK(vg_tstart(engine, 1, &number) == VG_DONE && number == 3);
    CHECK(vg_set(engine, 1, &key, VG_TEXT("1")) == VG_DONE);
    CHECK(vg_look(engine, &key, NULL, 0, NULL) == VG_NO_VALUE);
    CHECK(vg_tcommit(engine, 1, &number) == VG_DONE && number == 2);
    CHECK(vg_tcommit(engine, 1, &number) == VG_DONE && number == 1);
    CHECK(vg_tcommit(engine, 1, &number) == VG_DONE && number == 0);
    CHECK(vg_look(engine, &key, reply, sizeof reply, &length) == VG_DONE && is_reply("1"));
    CHECK(vg_tstart(engine, 1, NULL) == VG_DONE && vg_set(engine, 1, &key, VG_TEXT("2")) == VG_DONE);
    CHECK(vg_trollback(engine, 1) == VG_DONE && has_value(engine, &key, "1"));
    CHECK(vg_tcommit(engine, 1, NULL) == VG_NO_TRANSACTION);
    CHECK(vg_tstart(engine, 1, NULL) == VG_DONE && vg_set(engine, 1, &key, VG_TEXT("3")) == VG_DONE);
    CHECK(vg_trestart(engine, 1, &number) == VG_RESTARTED && number == 1 && has_value(engine, &key, "1"));
    CHECK(vg_trestart(engine, 1, &number) == VG_RESTARTED && number == 2);
    CHECK(has_value(engine, &key, "1") && vg_set(engine, 2, &key, VG_TEXT("4")) == VG_DONE);
    CHECK(vg_set(engine, 1, &key, VG_TEXT("5")) == VG_DONE);
    CHECK(vg_tcommit(engine, 1, &number) == VG_RESTARTED && number == 3);
    CHECK(has_value(engine, &key, "4") && vg_set(engine, 1, &key, VG_TEXT("6")) == VG_DONE);
    CHECK(vg_halt(engine, 1) == VG_DONE && vg_tcommit(engine, 1, NULL) == VG_NO_TRANSACTION);
    CHECK(has_value(engine, &key, "4") && vg_kill(engine, 1, &key) == VG_DONE);
    vg_key_end(&key);
}

int main(void) {
    vg_engine engine = VG_ENGINE_NONE;
    CHECK(vorgushan_version() == VG_VERSION);
    use_nothing();
    use_names();
    use_global_names();
    use_next_names();
    use_digits();
    use_listings();
    use_journal();
    use_lines(&engine);
    use_no_key(&engine);
    use_keys(&engine);
    use_values(&engine);
    use_sums(&engine);
    use_kills(&engine);
    use_walks(&engine);
    use_orders(&engine);
    use_views(&engine);
    use_children(&engine);
    use_units(&engine);
    use_levels(&engine);
    use_locks(&engine);
    use_lock_lists(&engine);
    use_transactions(&engine);
    CHECK(vg_end(&engine) == VG_DONE && vg_end(&engine) == VG_NO_ENGINE);
    CHECK(blocks == 0);
    printf("%d checks, %d failed\n", checks, failed);
    return failed != 0;
}
