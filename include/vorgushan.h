/* Vorgushan for C: a database of M globals (trees of nodes) in memory. docs/LIBRARY.md is its page; the commands and
 * the words of M are in docs/RULES.md.
 *
 *     vg_engine engine = VG_ENGINE_NONE;
 *     vg_key key = VG_KEY_NONE;
 *     vg_text subscripts[] = {{VG_TEXT("ann")}};
 *     char value[64];
 *     size_t length;
 *     if (vg_new(&engine) != VG_DONE) return 1;
 *     vg_line(&engine, VG_TEXT("1 SET ^Account(\"ann\")=100"), value, sizeof value, &length);   // copies "1 ok\n"
 *     vg_key_spell(&key, VG_TEXT("Account"), subscripts, 1);
 *     vg_look(&engine, &key, value, sizeof value, &length);                                     // copies "100"
 *     vg_key_end(&key);
 *     vg_end(&engine);
 *
 * In order: outcomes, engines, lines, the listing, the journal, upkeep, keys, data, walks, views, looks, locks,
 * transactions.
 *
 * An engine does the commands of up to 4,096 jobs, one call at a time. Callers on several threads use
 * vorgushan_threads.h, or hold a mutex of their own round each call, also of one that only looks: each call takes the
 * engine out and puts it back. Two engines have nothing in common.
 *
 * Reads by vg_get, vg_data, vg_order and vg_query are commands, and stay in the journal until vg_checkpoint. Use
 * vg_look, its like and vg_walk where that isn't wanted, and a view (vg_view_begin)
 * to see one moment in many calls.
 *
 * Every call returns an outcome: VG_DONE, a refusal (1 to 16 and 19; 17 and 18 come from no call here), or one of the
 * library's own (from 32). After a refusal the database is as it was. A call of a job, whose number is 1 to 4,096, may
 * return VG_BAD_JOB, VG_OUT_OF_MEMORY and any refusal of its command, also where none is named below.
 *
 * Texts go by pointer and length, and may hold bytes 0; a text that is put into a buffer has no byte 0 at its end.
 * NULL may be given for an engine (VG_NO_ENGINE is returned), for a key (VG_NO_KEY), for a text or buffer of length 0,
 * and for a length or number that the caller doesn't need. Where a call has more than one fault, any of them may be
 * returned. */
#ifndef VORGUSHAN_H
#define VORGUSHAN_H

#include <stddef.h>
#include <stdint.h>
#include <string.h>

#ifdef __cplusplus
extern "C" {
#endif

/* The version of this header: 10,000 times its first number, 100 times its second, and its third. vorgushan_version()
 * returns the library's. */
#define VG_VERSION 200

/* A literal as the two arguments of a text: its bytes and its length, without the byte 0 at its end. */
#define VG_TEXT(literal) (literal), (sizeof(literal) - 1)

/* ---- Outcomes ---- */

/* What a call returns. The refusals are those of docs/RULES.md. */
typedef uint32_t vg_outcome;

enum {
    VG_DONE = 0,
    VG_BAD_LINE = 1,
    VG_BAD_NAME = 2,
    VG_EMPTY_SUBSCRIPT = 3,
    VG_SUBSCRIPT_TOO_LONG = 4,
    VG_TOO_MANY_SUBSCRIPTS = 5,
    VG_VALUE_TOO_LONG = 6,
    VG_NEED_SUBSCRIPT = 7,
    VG_MERGE_OVERLAP = 8,
    VG_NO_TRANSACTION = 9,
    VG_LEVEL_TOO_DEEP = 10,
    VG_LOCK_COUNT_FULL = 11,
    VG_BAD_JOB = 12,
    VG_TRANSACTION_TOO_LONG = 13,
    VG_OUT_OF_MEMORY = 14,
    VG_STAMPS_USED_UP = 15,
    VG_GONE = 16,
    VG_AGAIN = 17,
    VG_AHEAD = 18,
    VG_SUM_TOO_LONG = 19,
    VG_NO_ENGINE = 32,        /* none was made, or it was ended */
    VG_ENGINE_THERE = 33,     /* one is there already */
    VG_BUFFER_TOO_SHORT = 34, /* the length that is needed is given, nothing is copied; a reply is kept for vg_reply */
    VG_REPLY_KEPT = 35,       /* the line or step was run; no memory for its reply's text or key: vg_reply copies it */
    VG_NO_REPLY = 36,         /* no line or step was run yet */
    VG_AT_END = 37,           /* no node, name or line is left: to list, for vg_query, vg_journal_next, .. */
    VG_UNKNOWN_NUMBER = 38,   /* no outcome has that number */
    VG_NO_KEY = 39,           /* none was made, or it was ended */
    VG_RESTARTED = 40,        /* the transaction restarts: what it did is dropped */
    VG_NO_VALUE = 41,         /* the reference has no value */
    VG_TRANSACTION_OPEN = 42, /* the job has an open transaction or a view already */
    VG_BUSY = 43              /* others are at it: nothing has changed, call again; of vorgushan_threads.h alone */
};

/* The ways in which vg_order, vg_query and their like go. Any other number is backward too. */
enum { VG_FORWARD = 0, VG_BACKWARD = 1 };

/* Where vg_query starts: at the key, or at an empty subscript below it, as in ^A(1,""). Any other number is as 1. */
enum { VG_AT_KEY = 0, VG_BELOW_KEY = 1 };

/* The moment of vg_view_look and its like that is no view: the database as it is now. */
enum { VG_NOW = 0 };

/* The forms of vg_lock_all: as vg_lock, vg_lock_more and vg_lock_fewer. Any other number is as VG_LOCK_FEWER. */
enum { VG_LOCK_ONLY = 0, VG_LOCK_MORE = 1, VG_LOCK_FEWER = 2 };

/* ---- What the caller keeps ---- */

/* An engine. Begin it with VG_ENGINE_NONE, an initializer (memory set to zero is the same), before the first call, make
 * it by vg_new, end it by vg_end, and leave what is in it alone. It may be moved between calls; of two copies only one
 * may be used. */
typedef struct vg_engine {
    void *own;
} vg_engine;

#define VG_ENGINE_NONE {0}

/* Where vg_key_spell spells a key. */
typedef struct vg_draft {
    void *own;
} vg_draft;

/* A reference: a name and subscripts, used in any number of calls, on any engine, and made again in place. As with an
 * engine: begin it with VG_KEY_NONE, and of two copies only one may be used. Each key, also the place of a vg_walk, is
 * ended by vg_key_end; vg_end ends none. */
typedef struct vg_key {
    void *own;
    vg_draft draft;
} vg_key;

#define VG_KEY_NONE {0, {0}}

/* A text of the caller's, as one of the subscripts of vg_key_spell. */
typedef struct vg_text {
    const char *bytes;
    size_t length;
} vg_text;

/* A number as a text: its decimal digits, which are put at the end of `digits`. The text points there, so each number
 * of a key needs an array of its own until the key is spelled. */
static inline vg_text vg_digits(uint64_t number, char digits[20]) {
    vg_text text;
    size_t at = 20;
    do {
        digits[--at] = (char)('0' + number % 10);
        number /= 10;
    } while (number > 0);
    text.bytes = digits + at;
    text.length = 20 - at;
    return text;
}

/* What an engine holds. */
typedef struct vg_statistics {
    uint64_t units;         /* units of the journal */
    uint64_t journal_bytes; /* bytes of those that no checkpoint dropped */
    uint64_t nodes;         /* nodes with a value */
} vg_statistics;

/* Where a listing is at fault. */
typedef struct vg_fault {
    uint64_t line;          /* the line's number, counted from 1; 0 where none is at fault */
    size_t column;          /* a byte of the line, counted from 1, or one more than it has */
    size_t expected_length; /* the length of what is expected there */
    char expected[128];     /* and its text, as "a number, \"text\" with both quotes ..", without a byte 0 at its end */
} vg_fault;

/* ---- The library's own symbols ---- */

/* The version of the library, as VG_VERSION is written. */
uint32_t vorgushan_version(void);

/* For these no pointer may be NULL, and no two may name the same memory: use the calls below. */
vg_outcome vorgushan_new(vg_engine *engine);
vg_outcome vorgushan_load(vg_engine *engine, const char *text, size_t text_length, uint64_t *line, size_t *column,
                          char *expected, size_t expected_size, size_t *expected_length);
vg_outcome vorgushan_end(vg_engine *engine);
vg_outcome vorgushan_line(vg_engine *engine, const char *line, size_t line_length, char *reply, size_t reply_size,
                          size_t *reply_length);
vg_outcome vorgushan_reply(vg_engine *engine, char *reply, size_t reply_size, size_t *reply_length);
vg_outcome vorgushan_list_from_start(vg_engine *engine);
vg_outcome vorgushan_list_next(vg_engine *engine, uint64_t moment, char *node, size_t node_size, size_t *node_length);
vg_outcome vorgushan_journal_from(vg_engine *engine, uint64_t units);
vg_outcome vorgushan_journal_next(vg_engine *engine, char *lines, size_t lines_size, size_t *lines_length);
vg_outcome vorgushan_collect(vg_engine *engine, size_t nodes);
vg_outcome vorgushan_checkpoint(vg_engine *engine);
vg_outcome vorgushan_statistics(vg_engine *engine, vg_statistics *statistics);
vg_outcome vorgushan_units(vg_engine *engine, uint64_t *units);
vg_outcome vorgushan_key_name(vg_key *key, const char *name, size_t name_length);
vg_outcome vorgushan_key_subscript(vg_key *key, const char *subscript, size_t subscript_length);
vg_outcome vorgushan_key_spell(vg_key *key, vg_draft *draft, const char *name, size_t name_length,
                               const vg_text *subscripts, size_t count);
vg_outcome vorgushan_key_bytes(vg_key *key, char *bytes, size_t bytes_size, size_t *bytes_length);
void vorgushan_draft_end(vg_draft *draft);
vg_outcome vorgushan_key_end(vg_key *key);
vg_outcome vorgushan_set(vg_engine *engine, uint64_t job, vg_key *key, const char *value, size_t value_length);
vg_outcome vorgushan_kill(vg_engine *engine, uint64_t job, vg_key *key);
vg_outcome vorgushan_kill_value(vg_engine *engine, uint64_t job, vg_key *key);
vg_outcome vorgushan_kill_subscripts(vg_engine *engine, uint64_t job, vg_key *key);
vg_outcome vorgushan_increment(vg_engine *engine, uint64_t job, vg_key *key, const char *number, size_t number_length,
                               char *sum, size_t sum_size, size_t *sum_length);
vg_outcome vorgushan_next_name(vg_engine *engine, uint64_t job, const char *start, size_t start_length,
                               uint32_t backward, char *name, size_t name_size, size_t *name_length);
vg_outcome vorgushan_get(vg_engine *engine, uint64_t job, vg_key *key, char *value, size_t value_size,
                         size_t *value_length);
vg_outcome vorgushan_merge(vg_engine *engine, uint64_t job, vg_key *to, vg_key *from);
vg_outcome vorgushan_data(vg_engine *engine, uint64_t job, vg_key *key, uint64_t *number);
vg_outcome vorgushan_order(vg_engine *engine, uint64_t job, vg_key *key, const char *start, size_t start_length,
                           uint32_t backward, char *subscript, size_t subscript_size, size_t *subscript_length);
vg_outcome vorgushan_query(vg_engine *engine, uint64_t job, vg_key *key, uint32_t is_open, uint32_t backward);
vg_outcome vorgushan_view_begin(vg_engine *engine, uint64_t job);
vg_outcome vorgushan_look(vg_engine *engine, uint64_t moment, vg_key *key, char *value, size_t value_size,
                          size_t *value_length);
vg_outcome vorgushan_look_data(vg_engine *engine, uint64_t moment, vg_key *key, uint64_t *number);
vg_outcome vorgushan_look_order(vg_engine *engine, uint64_t moment, vg_key *key, const char *start,
                                size_t start_length, uint32_t backward, char *subscript, size_t subscript_size,
                                size_t *subscript_length);
vg_outcome vorgushan_look_query(vg_engine *engine, uint64_t moment, vg_key *key, uint32_t is_open, uint32_t backward);
vg_outcome vorgushan_look_name(vg_engine *engine, uint64_t moment, const char *start, size_t start_length,
                               uint32_t backward, char *name, size_t name_size, size_t *name_length);
vg_outcome vorgushan_look_children(vg_engine *engine, uint64_t moment, vg_key *key, const char *start,
                                   size_t start_length, char *children, size_t children_size,
                                   size_t *children_length);
vg_outcome vorgushan_walk(vg_engine *engine, uint64_t moment, vg_key *root, vg_key *place, char *nodes,
                          size_t nodes_size, size_t *nodes_length);
vg_outcome vorgushan_lock(vg_engine *engine, uint64_t job, vg_key *key, uint64_t *had);
vg_outcome vorgushan_lock_more(vg_engine *engine, uint64_t job, vg_key *key, uint64_t *had);
vg_outcome vorgushan_lock_fewer(vg_engine *engine, uint64_t job, vg_key *key, uint64_t *had);
vg_outcome vorgushan_lock_all(vg_engine *engine, uint64_t job, uint32_t form, vg_key *keys, size_t count,
                              uint64_t *had);
vg_outcome vorgushan_unlock(vg_engine *engine, uint64_t job, uint64_t *number);
vg_outcome vorgushan_tstart(vg_engine *engine, uint64_t job, uint64_t *level);
vg_outcome vorgushan_tcommit(vg_engine *engine, uint64_t job, uint64_t *number);
vg_outcome vorgushan_trollback(vg_engine *engine, uint64_t job, uint64_t *number);
vg_outcome vorgushan_trestart(vg_engine *engine, uint64_t job, uint64_t *restarts);
vg_outcome vorgushan_halt(vg_engine *engine, uint64_t job, uint64_t *number);
vg_outcome vorgushan_tlevel(vg_engine *engine, uint64_t job, uint64_t *level);
vg_outcome vorgushan_trestarts(vg_engine *engine, uint64_t job, uint64_t *restarts);
vg_outcome vorgushan_outcome_name(uint32_t outcome, char *name, size_t name_size, size_t *name_length);

/* ---- Engines ---- */

/* Makes an engine with an empty database where none is. VG_ENGINE_THERE, VG_OUT_OF_MEMORY. */
static inline vg_outcome vg_new(vg_engine *engine) {
    return engine ? vorgushan_new(engine) : (vg_outcome)VG_NO_ENGINE;
}

/* Makes an engine of a listing where none is. Each line is a reference, = and a value, as ^A(1)=5, and comes to be a
 * command: SET of job 1. What vg_list_next copies is one, line after line. Empty lines are skipped, and so is a header
 * of two lines, as other systems write it.
 *
 * The refusal of the first line that sets nothing: `fault` tells where that is and what is expected there; no engine is
 * there, and nothing of the listing is kept. VG_OUT_OF_MEMORY, VG_ENGINE_THERE: then its line is 0. */
static inline vg_outcome vg_load(vg_engine *engine, const char *text, size_t text_length, vg_fault *fault) {
    char nothing = 0;
    vg_fault told = {0, 0, 0, {0}};
    vg_outcome outcome = VG_NO_ENGINE;
    if (engine)
        outcome = vorgushan_load(engine, text ? text : &nothing, text ? text_length : 0, &told.line, &told.column,
                                 told.expected, sizeof told.expected, &told.expected_length);
    if (fault)
        *fault = told;
    return outcome;
}

/* Ends an engine and gives its memory back; from then on calls on it return VG_NO_ENGINE. */
static inline vg_outcome vg_end(vg_engine *engine) {
    return engine ? vorgushan_end(engine) : (vg_outcome)VG_NO_ENGINE;
}

/* ---- Lines ---- */

/* Runs a line, as "1 SET ^A(1)=5", and copies its reply with a byte 10 at its end, as "1 ok\n". The line comes without
 * its end: with it, or empty, it is refused.
 *
 * The outcome is the reply's: VG_DONE, VG_RESTARTED, or its refusal. Where the reply is longer than the buffer it is
 * VG_BUFFER_TOO_SHORT, or VG_REPLY_KEPT where memory is refused for its text: the line was run, and may have been
 * refused or have restarted its transaction. Then nothing is copied, reply_length is the length that is needed (0 with
 * VG_REPLY_KEPT), and vg_reply copies the reply and returns its own outcome. After VG_REPLY_KEPT that
 * outcome may be VG_OUT_OF_MEMORY: then nothing was done, and the line may be sent again. The buffer may not overlap
 * the line. */
static inline vg_outcome vg_line(vg_engine *engine, const char *line, size_t line_length, char *reply,
                                 size_t reply_size, size_t *reply_length) {
    char nothing = 0;
    size_t length = 0;
    vg_outcome outcome = VG_NO_ENGINE;
    if (engine)
        outcome = vorgushan_line(engine, line ? line : &nothing, line ? line_length : 0, reply ? reply : &nothing,
                                 reply ? reply_size : 0, &length);
    if (reply_length)
        *reply_length = length;
    return outcome;
}

/* Copies the reply to the last line, or to the last step of a typed call, as often as it is called, and returns that
 * reply's outcome; VG_BUFFER_TOO_SHORT, VG_REPLY_KEPT as vg_line. VG_NO_REPLY before the first line or step. */
static inline vg_outcome vg_reply(vg_engine *engine, char *reply, size_t reply_size, size_t *reply_length) {
    char nothing = 0;
    size_t length = 0;
    vg_outcome outcome = VG_NO_ENGINE;
    if (engine)
        outcome = vorgushan_reply(engine, reply ? reply : &nothing, reply ? reply_size : 0, &length);
    if (reply_length)
        *reply_length = length;
    return outcome;
}

/* ---- The listing ---- */

/* The listing begins with the first node. */
static inline vg_outcome vg_list_from_start(vg_engine *engine) {
    return engine ? vorgushan_list_from_start(engine) : (vg_outcome)VG_NO_ENGINE;
}

/* As vg_list_next, in a view. */
static inline vg_outcome vg_view_list_next(vg_engine *engine, uint64_t view, char *node, size_t node_size,
                                           size_t *node_length) {
    char nothing = 0;
    size_t length = 0;
    vg_outcome outcome = VG_NO_ENGINE;
    if (engine)
        outcome = vorgushan_list_next(engine, view, node ? node : &nothing, node ? node_size : 0, &length);
    if (node_length)
        *node_length = length;
    return outcome;
}

/* Copies the line of the node after the one that was listed last (at first of the first node), in the database as it is
 * now, with a byte 10 at its end. VG_AT_END after the last. After VG_BUFFER_TOO_SHORT or VG_OUT_OF_MEMORY the node is
 * still the next. */
static inline vg_outcome vg_list_next(vg_engine *engine, char *node, size_t node_size, size_t *node_length) {
    return vg_view_list_next(engine, VG_NOW, node, node_size, node_length);
}

/* ---- The journal ---- */

/* The next lines of vg_journal_next are those of the units after so many: 0 for all, as in a new engine, or what
 * vg_units tells for those that are still to come. Give a number at which no transaction is open that took a LOCK: the
 * lines that follow would begin it once more. Who runs the lines goes on by vg_journal_next alone. */
static inline vg_outcome vg_journal_from(vg_engine *engine, uint64_t units) {
    return engine ? vorgushan_journal_from(engine, units) : (vg_outcome)VG_NO_ENGINE;
}

/* Copies the lines of the journal's next unit, each with a byte 10 at its end, and of as many more units as the buffer
 * has room for. Run in order they do again what was done: a transaction is written where it was committed, and a line
 * TRESTART returns VG_RESTARTED, as it should. It is no command. Each call passes over all units since the last
 * vg_checkpoint, so a long buffer makes for few of them.
 *
 * VG_AT_END where no unit is left. VG_GONE where vg_checkpoint has dropped the next one. VG_BUFFER_TOO_SHORT where its
 * lines are longer than the buffer: lines_length is the length that is needed. VG_OUT_OF_MEMORY. Then nothing is
 * copied, and that unit is still the next. */
static inline vg_outcome vg_journal_next(vg_engine *engine, char *lines, size_t lines_size, size_t *lines_length) {
    char nothing = 0;
    size_t length = 0;
    vg_outcome outcome = VG_NO_ENGINE;
    if (engine)
        outcome = vorgushan_journal_next(engine, lines ? lines : &nothing, lines ? lines_size : 0, &length);
    if (lines_length)
        *lines_length = length;
    return outcome;
}

/* ---- Upkeep ---- */

/* Lets the collector, which drops old versions of values, look at this number of nodes, from where it stopped. No reply
 * and no listing depends on it. VG_OUT_OF_MEMORY, and then nothing has changed. */
static inline vg_outcome vg_collect(vg_engine *engine, size_t nodes) {
    return engine ? vorgushan_collect(engine, nodes) : (vg_outcome)VG_NO_ENGINE;
}

/* Lets the journal, which keeps each command, drop those before the start of the oldest open transaction, or all where
 * none is open: what they leave is kept in their place. No reply and no listing depends on it. VG_OUT_OF_MEMORY, and
 * then nothing has changed. */
static inline vg_outcome vg_checkpoint(vg_engine *engine) {
    return engine ? vorgushan_checkpoint(engine) : (vg_outcome)VG_NO_ENGINE;
}

/* What the engine holds. Walks over all nodes. */
static inline vg_outcome vg_count(vg_engine *engine, vg_statistics *statistics) {
    vg_statistics unwanted = {0, 0, 0};
    return engine ? vorgushan_statistics(engine, statistics ? statistics : &unwanted) : (vg_outcome)VG_NO_ENGINE;
}

/* How many units the journal has, those too that vg_checkpoint dropped: after a command that leaves one, such as a
 * commit, its place in the journal, counted from 1. It walks over nothing. */
static inline vg_outcome vg_units(vg_engine *engine, uint64_t *units) {
    uint64_t told = 0;
    vg_outcome outcome = engine ? vorgushan_units(engine, &told) : (vg_outcome)VG_NO_ENGINE;
    if (units)
        *units = told;
    return outcome;
}

/* ---- Keys ---- */

/* Makes the key of a name without subscripts and without its caret, as "Account", in place of what was there.
 * VG_BAD_NAME, VG_OUT_OF_MEMORY. */
static inline vg_outcome vg_key_name(vg_key *key, const char *name, size_t name_length) {
    char nothing = 0;
    return key ? vorgushan_key_name(key, name ? name : &nothing, name ? name_length : 0) : (vg_outcome)VG_NO_KEY;
}

/* Adds one subscript at the end of a key, its bytes as they are: 1.5 is a number; 1.50, which a line would read as 1.5,
 * is a string. VG_TOO_MANY_SUBSCRIPTS over 31, VG_EMPTY_SUBSCRIPT, VG_SUBSCRIPT_TOO_LONG over 255 bytes,
 * VG_OUT_OF_MEMORY: then the key is as it was. */
static inline vg_outcome vg_key_subscript(vg_key *key, const char *subscript, size_t subscript_length) {
    char nothing = 0;
    return key ? vorgushan_key_subscript(key, subscript ? subscript : &nothing, subscript ? subscript_length : 0)
               : (vg_outcome)VG_NO_KEY;
}

/* Makes the key of a name and subscripts by one call, in place of what was there: the same key as by vg_key_name and
 * then a vg_key_subscript for each. It returns the first refusal that these would, and then the key is as it was. NULL
 * subscripts are none, and one whose bytes are NULL is empty. The texts are read during the call alone.
 *
 * A key that was spelled before is spelled again without memory, unless it is longer than each time before, or over 38
 * bytes: the name and 1, and for each subscript its bytes and 2 (a byte 0 or 1 counts twice), or a number's digits and
 * at most 4. */
static inline vg_outcome vg_key_spell(vg_key *key, const char *name, size_t name_length, const vg_text *subscripts,
                                      size_t count) {
    char nothing = 0;
    vg_text given[32]; /* one more than a key has: if there are more the answer is the same */
    size_t i;
    if (!key)
        return VG_NO_KEY;
    if (!subscripts)
        count = 0;
    if (count > 32)
        count = 32;
    given[0].bytes = &nothing;
    given[0].length = 0;
    for (i = 0; i < count; i++) {
        given[i].bytes = subscripts[i].bytes ? subscripts[i].bytes : &nothing;
        given[i].length = subscripts[i].bytes ? subscripts[i].length : 0;
    }
    return vorgushan_key_spell(key, &key->draft, name ? name : &nothing, name ? name_length : 0, given, count);
}

/* Copies a key's own bytes, which sort as references do: the bytes that vg_walk has of a node. Its parts are read by
 * vg_part_next, of a vg_node whose `key` and `key_length` they are. VG_BUFFER_TOO_SHORT. */
static inline vg_outcome vg_key_bytes(vg_key *key, char *bytes, size_t bytes_size, size_t *bytes_length) {
    char nothing = 0;
    size_t length = 0;
    vg_outcome outcome = VG_NO_KEY;
    if (key)
        outcome = vorgushan_key_bytes(key, bytes ? bytes : &nothing, bytes ? bytes_size : 0, &length);
    if (bytes_length)
        *bytes_length = length;
    return outcome;
}

/* Ends a key and gives its memory back. VG_NO_KEY where none was made. */
static inline vg_outcome vg_key_end(vg_key *key) {
    if (!key)
        return VG_NO_KEY;
    vorgushan_draft_end(&key->draft);
    return vorgushan_key_end(key);
}

/* ---- Data ---- */

/* SET of a key's reference by a job from 1 to 4,096. The value's bytes are copied as they are: 1.50 stays 1.50, where a
 * line's bare 1.50 is 1.5. VG_BAD_JOB, VG_VALUE_TOO_LONG over 32,767 bytes, and the refusals of SET. */
static inline vg_outcome vg_set(vg_engine *engine, uint64_t job, vg_key *key, const char *value, size_t value_length) {
    char nothing = 0;
    if (!engine)
        return VG_NO_ENGINE;
    return key ? vorgushan_set(engine, job, key, value ? value : &nothing, value ? value_length : 0)
               : (vg_outcome)VG_NO_KEY;
}

/* KILL of a key's reference and all below it. */
static inline vg_outcome vg_kill(vg_engine *engine, uint64_t job, vg_key *key) {
    if (!engine)
        return VG_NO_ENGINE;
    return key ? vorgushan_kill(engine, job, key) : (vg_outcome)VG_NO_KEY;
}

/* KVALUE: a key's reference has no value from then on; what is below it stays. */
static inline vg_outcome vg_kill_value(vg_engine *engine, uint64_t job, vg_key *key) {
    if (!engine)
        return VG_NO_ENGINE;
    return key ? vorgushan_kill_value(engine, job, key) : (vg_outcome)VG_NO_KEY;
}

/* KSUBSCRIPTS: nothing below a key's reference has a value from then on; its own stays. */
static inline vg_outcome vg_kill_subscripts(vg_engine *engine, uint64_t job, vg_key *key) {
    if (!engine)
        return VG_NO_ENGINE;
    return key ? vorgushan_kill_subscripts(engine, job, key) : (vg_outcome)VG_NO_KEY;
}

/* $INCREMENT of a key's reference by a number in its shortest decimal text, as 1, -2.5 or .5: the exact sum of it and
 * of the number that the value begins with (0 where there is none) is the new value, and its bytes are copied.
 * VG_BAD_LINE where the text is no such number, VG_SUM_TOO_LONG where the sum would have over 32,767 bytes: then
 * nothing has changed. After VG_BUFFER_TOO_SHORT it is done, and vg_reply copies the sum as the reply of a line. */
static inline vg_outcome vg_increment(vg_engine *engine, uint64_t job, vg_key *key, const char *number,
                                      size_t number_length, char *sum, size_t sum_size, size_t *sum_length) {
    char nothing = 0;
    size_t length = 0;
    vg_outcome outcome = VG_NO_ENGINE;
    if (engine)
        outcome = key ? vorgushan_increment(engine, job, key, number ? number : &nothing, number ? number_length : 0,
                                            sum ? sum : &nothing, sum ? sum_size : 0, &length)
                      : (vg_outcome)VG_NO_KEY;
    if (sum_length)
        *sum_length = length;
    return outcome;
}

/* $GET of a key's reference: the value's own bytes, at most 32,767; none where it has no value, and VG_DONE too. An
 * empty value is answered alike (vg_data and vg_look tell them apart). After VG_BUFFER_TOO_SHORT vg_reply copies it as
 * the reply of a line, a literal; vg_get once more, which is one more command, copies its bytes. Each vg_get stays in
 * the journal until vg_checkpoint; vg_look copies the same value and leaves nothing there. */
static inline vg_outcome vg_get(vg_engine *engine, uint64_t job, vg_key *key, char *value, size_t value_size,
                                size_t *value_length) {
    char nothing = 0;
    size_t length = 0;
    vg_outcome outcome = VG_NO_ENGINE;
    if (engine)
        outcome = key ? vorgushan_get(engine, job, key, value ? value : &nothing, value ? value_size : 0, &length)
                      : (vg_outcome)VG_NO_KEY;
    if (value_length)
        *value_length = length;
    return outcome;
}

/* MERGE: copies what is at and under one key's reference to the same places under another's. VG_MERGE_OVERLAP also
 * where both are one vg_key: then there is no step. */
static inline vg_outcome vg_merge(vg_engine *engine, uint64_t job, vg_key *to, vg_key *from) {
    if (!engine)
        return VG_NO_ENGINE;
    if (!to || !from)
        return VG_NO_KEY;
    return to == from ? (vg_outcome)VG_MERGE_OVERLAP : vorgushan_merge(engine, job, to, from);
}

/* $DATA: number is 1 where a key's reference has a value, and 10 more where a descendant has one. */
static inline vg_outcome vg_data(vg_engine *engine, uint64_t job, vg_key *key, uint64_t *number) {
    uint64_t told = 0;
    vg_outcome outcome = VG_NO_ENGINE;
    if (engine)
        outcome = key ? vorgushan_data(engine, job, key, &told) : (vg_outcome)VG_NO_KEY;
    if (number)
        *number = told;
    return outcome;
}

/* ---- Walks by commands ---- */

/* Copies a start, so that it and the answer may be the same bytes. In place of one over 255 bytes, which is refused
 * whatever they are, 256 are put. */
static inline size_t vg_start_copied(char from[256], const char *start, size_t start_length) {
    size_t length = start ? start_length : 0;
    if (length > 255) {
        memset(from, 0, 256);
        return 256;
    }
    if (length)
        memcpy(from, start, length);
    return length;
}

/* $ORDER one level below a key: copies the subscript that comes next after `start` (before it, where direction is
 * VG_BACKWARD), which need not be there: at most 255 bytes, and none, with VG_DONE, where no other follows. An empty
 * start asks for the first, backward for the last. `start` and `subscript` may be the same bytes.
 * VG_SUBSCRIPT_TOO_LONG over 255 bytes, VG_TOO_MANY_SUBSCRIPTS below a key with 31; VG_BUFFER_TOO_SHORT as vg_get. */
static inline vg_outcome vg_order(vg_engine *engine, uint64_t job, vg_key *key, const char *start, size_t start_length,
                                  uint32_t direction, char *subscript, size_t subscript_size,
                                  size_t *subscript_length) {
    char from[256];
    char nothing = 0;
    size_t length = 0;
    size_t from_length = vg_start_copied(from, start, start_length);
    vg_outcome outcome = engine ? VG_NO_KEY : VG_NO_ENGINE;
    if (engine && key)
        outcome = vorgushan_order(engine, job, key, from, from_length, direction, subscript ? subscript : &nothing,
                                  subscript ? subscript_size : 0, &length);
    if (subscript_length)
        *subscript_length = length;
    return outcome;
}

/* $ORDER of names: copies the name of the next global after `start` that has a node, as vg_look_name does, in a step of
 * a job. VG_AT_END where no name is left, VG_BAD_NAME where `start` is neither empty nor a name; after
 * VG_BUFFER_TOO_SHORT it is done, and nothing is copied. */
static inline vg_outcome vg_next_name(vg_engine *engine, uint64_t job, const char *start, size_t start_length,
                                      uint32_t direction, char *name, size_t name_size, size_t *name_length) {
    char from[256];
    char nothing = 0;
    size_t length = 0;
    size_t from_length = vg_start_copied(from, start, start_length);
    vg_outcome outcome = VG_NO_ENGINE;
    if (engine)
        outcome = vorgushan_next_name(engine, job, from, from_length, direction, name ? name : &nothing,
                                      name ? name_size : 0, &length);
    if (name_length)
        *name_length = length;
    return outcome;
}

/* $QUERY: moves a key to the nearest node with a value in its name, from VG_AT_KEY, or from VG_BELOW_KEY, which
 * backward is after all under the key. VG_TOO_MANY_SUBSCRIPTS from VG_BELOW_KEY where the key has 31 subscripts, as for
 * vg_order; VG_AT_END where no node is left, VG_REPLY_KEPT where memory is refused for a long key: after these, as after
 * any refusal, the key is as it was. vg_reply copies the reference as the reply of a line. */
static inline vg_outcome vg_query(vg_engine *engine, uint64_t job, vg_key *key, uint32_t from, uint32_t direction) {
    if (!engine)
        return VG_NO_ENGINE;
    return key ? vorgushan_query(engine, job, key, from, direction) : (vg_outcome)VG_NO_KEY;
}

/* ---- Views ---- */

/* A view is a moment that is looked at. It shows the database as it was when it was begun, whatever is set, killed,
 * committed, collected or dropped by checkpoints since. It is never restarted, has no limit of looks, and leaves
 * nothing in the journal; while it lasts the engine keeps what it shows. It goes by the number of a job, 1 to 4,096,
 * that does nothing else meanwhile: it is this job's transaction, looked at as it began, and ends with it. So the calls
 * below take any open transaction of a job for a view of its start, and vg_view_end drops it.
 *
 * Where the calls below are given VG_NOW in place of a view they look at the database as it is now. They return
 * VG_NO_TRANSACTION where no view of that number is there, or it was ended, and VG_BAD_JOB over 4,096. */

/* Begins a view by this number, of the database as it is now. VG_TRANSACTION_OPEN where one is there, or the job of
 * that number has an open transaction; VG_OUT_OF_MEMORY, VG_BAD_JOB. */
static inline vg_outcome vg_view_begin(vg_engine *engine, uint64_t view) {
    return engine ? vorgushan_view_begin(engine, view) : (vg_outcome)VG_NO_ENGINE;
}

/* Ends a view. VG_NO_TRANSACTION where none is there, VG_BAD_JOB. */
static inline vg_outcome vg_view_end(vg_engine *engine, uint64_t view) {
    uint64_t told = 0;
    return engine ? vorgushan_trollback(engine, view, &told) : (vg_outcome)VG_NO_ENGINE;
}

/* As vg_look, in a view. */
static inline vg_outcome vg_view_look(vg_engine *engine, uint64_t view, vg_key *key, char *value, size_t value_size,
                                      size_t *value_length) {
    char nothing = 0;
    size_t length = 0;
    vg_outcome outcome = VG_NO_ENGINE;
    if (engine)
        outcome = key ? vorgushan_look(engine, view, key, value ? value : &nothing, value ? value_size : 0, &length)
                      : (vg_outcome)VG_NO_KEY;
    if (value_length)
        *value_length = length;
    return outcome;
}

/* As vg_look_data, in a view. */
static inline vg_outcome vg_view_data(vg_engine *engine, uint64_t view, vg_key *key, uint64_t *number) {
    uint64_t told = 0;
    vg_outcome outcome = VG_NO_ENGINE;
    if (engine)
        outcome = key ? vorgushan_look_data(engine, view, key, &told) : (vg_outcome)VG_NO_KEY;
    if (number)
        *number = told;
    return outcome;
}

/* As vg_look_order, in a view. */
static inline vg_outcome vg_view_order(vg_engine *engine, uint64_t view, vg_key *key, const char *start,
                                       size_t start_length, uint32_t direction, char *subscript, size_t subscript_size,
                                       size_t *subscript_length) {
    char from[256];
    char nothing = 0;
    size_t length = 0;
    size_t from_length = vg_start_copied(from, start, start_length);
    vg_outcome outcome = engine ? VG_NO_KEY : VG_NO_ENGINE;
    if (engine && key)
        outcome = vorgushan_look_order(engine, view, key, from, from_length, direction,
                                       subscript ? subscript : &nothing, subscript ? subscript_size : 0, &length);
    if (subscript_length)
        *subscript_length = length;
    return outcome;
}

/* As vg_look_query, in a view. */
static inline vg_outcome vg_view_query(vg_engine *engine, uint64_t view, vg_key *key, uint32_t from,
                                       uint32_t direction) {
    if (!engine)
        return VG_NO_ENGINE;
    return key ? vorgushan_look_query(engine, view, key, from, direction) : (vg_outcome)VG_NO_KEY;
}

/* As vg_look_name, in a view. */
static inline vg_outcome vg_view_name(vg_engine *engine, uint64_t view, const char *start, size_t start_length,
                                      uint32_t direction, char *name, size_t name_size, size_t *name_length) {
    char from[256];
    char nothing = 0;
    size_t length = 0;
    size_t from_length = vg_start_copied(from, start, start_length);
    vg_outcome outcome = VG_NO_ENGINE;
    if (engine)
        outcome = vorgushan_look_name(engine, view, from, from_length, direction, name ? name : &nothing,
                                      name ? name_size : 0, &length);
    if (name_length)
        *name_length = length;
    return outcome;
}

/* As vg_children, in a view. */
static inline vg_outcome vg_view_children(vg_engine *engine, uint64_t view, vg_key *key, const char *start,
                                          size_t start_length, char *children, size_t children_size,
                                          size_t *children_length) {
    char from[256];
    char nothing = 0;
    size_t length = 0;
    size_t from_length = vg_start_copied(from, start, start_length);
    vg_outcome outcome = engine ? VG_NO_KEY : VG_NO_ENGINE;
    if (engine && key)
        outcome = vorgushan_look_children(engine, view, key, from, from_length, children ? children : &nothing,
                                          children ? children_size : 0, &length);
    if (children_length)
        *children_length = length;
    return outcome;
}

/* As vg_walk, in a view. */
static inline vg_outcome vg_view_walk(vg_engine *engine, uint64_t view, vg_key *root, vg_key *place, char *nodes,
                                      size_t nodes_size, size_t *nodes_length) {
    char nothing = 0;
    size_t length = 0;
    vg_key all = VG_KEY_NONE;
    vg_outcome outcome = VG_NO_ENGINE;
    if (engine)
        outcome = place && place != root ? vorgushan_walk(engine, view, root ? root : &all, place,
                                                          nodes ? nodes : &nothing, nodes ? nodes_size : 0, &length)
                                         : (vg_outcome)VG_NO_KEY;
    if (nodes_length)
        *nodes_length = length;
    return outcome;
}

/* ---- Looks ---- */

/* Copies the value that a key's reference has in the database as it is now, without a command of a job: the journal
 * gets no unit, vg_reply copies what it did before, and what a transaction does shows once it is committed.
 * VG_NO_VALUE, VG_BUFFER_TOO_SHORT. */
static inline vg_outcome vg_look(vg_engine *engine, vg_key *key, char *value, size_t value_size, size_t *value_length) {
    return vg_view_look(engine, VG_NOW, key, value, value_size, value_length);
}

/* As vg_data, without a command of a job. */
static inline vg_outcome vg_look_data(vg_engine *engine, vg_key *key, uint64_t *number) {
    return vg_view_data(engine, VG_NOW, key, number);
}

/* As vg_order, without a command of a job: after VG_BUFFER_TOO_SHORT it is called again. */
static inline vg_outcome vg_look_order(vg_engine *engine, vg_key *key, const char *start, size_t start_length,
                                       uint32_t direction, char *subscript, size_t subscript_size,
                                       size_t *subscript_length) {
    return vg_view_order(engine, VG_NOW, key, start, start_length, direction, subscript, subscript_size,
                         subscript_length);
}

/* As vg_query, with its VG_TOO_MANY_SUBSCRIPTS, without a command of a job: VG_OUT_OF_MEMORY where memory is refused for
 * a long key. vg_key_bytes copies what was found. */
static inline vg_outcome vg_look_query(vg_engine *engine, vg_key *key, uint32_t from, uint32_t direction) {
    return vg_view_query(engine, VG_NOW, key, from, direction);
}

/* Copies the name of the next global after `start` (before it, where direction is VG_BACKWARD) that has a node, without
 * its caret, at most 31 bytes. No global need have the name `start`; an empty one asks for the first, backward for the
 * last. `start` and `name` may be the same bytes. It is no command, as vg_look.
 *
 * VG_AT_END where no name is left. VG_BAD_NAME where `start` is neither empty nor a name; VG_OUT_OF_MEMORY,
 * VG_BUFFER_TOO_SHORT: then nothing is copied. */
static inline vg_outcome vg_look_name(vg_engine *engine, const char *start, size_t start_length, uint32_t direction,
                                      char *name, size_t name_size, size_t *name_length) {
    return vg_view_name(engine, VG_NOW, start, start_length, direction, name, name_size, name_length);
}

/* Copies as many nodes as the buffer has room for, in order, without a command of a job, as vg_look: those at and under
 * `root`, or all of the database where it is NULL or VG_KEY_NONE. They are the first ones where `place` is VG_KEY_NONE,
 * else those after it; `place` then becomes the key of the last of them. vg_node_next reads them.
 *
 * VG_AT_END where no node is left. VG_BUFFER_TOO_SHORT where the next alone is longer than the buffer: nodes_length is
 * the length that is needed, at most 48,687. VG_OUT_OF_MEMORY. Then nothing is copied, and `place` is as it was.
 * VG_NO_KEY where it is NULL or the same as `root`. */
static inline vg_outcome vg_walk(vg_engine *engine, vg_key *root, vg_key *place, char *nodes, size_t nodes_size,
                                 size_t *nodes_length) {
    return vg_view_walk(engine, VG_NOW, root, place, nodes, nodes_size, nodes_length);
}

/* A node that vg_walk copied: its key's bytes, which sort as references do, and its value, both in the buffer. */
typedef struct vg_node {
    const char *key;
    size_t key_length;
    const char *value;
    size_t value_length;
} vg_node;

/* A length in eight bytes, the lowest first, as x86-64 has them. */
static inline size_t vg_length_at(const char *at) {
    uint64_t length = 0;
    memcpy(&length, at, sizeof length);
    return (size_t)length;
}

/* Reads the node at *at, which is the start of the buffer first, and moves *at after it. Returns 0 where *at is `end`,
 * the start and nodes_length bytes, else 1. */
static inline int vg_node_next(const char **at, const char *end, vg_node *node) {
    if (*at >= end)
        return 0;
    node->key = *at + 16;
    node->key_length = vg_length_at(*at);
    node->value = node->key + node->key_length;
    node->value_length = vg_length_at(*at + 8);
    *at = node->value + node->value_length;
    return 1;
}

/* Reads a part of a node's key at *at, which is node->key first: the name, then subscript after subscript; and moves
 * *at after it. Writes the part's own bytes to `part`, which has room for 255, and returns their number: 0 after the
 * last. */
static inline size_t vg_part_next(const vg_node *node, const char **at, char *part) {
    const unsigned char *from = (const unsigned char *)*at;
    size_t length = 0;
    int tag = 5, place, digits;
    if (*at == node->key + node->key_length)
        return 0;
    if (*at != node->key)
        tag = *from++;
    if (tag == 3) {
        part[length++] = '0';
    } else if (tag == 5) {
        for (; *from; from++)
            part[length++] = (char)(*from == 1 ? *++from - 1 : *from);
        from++;
    } else { /* a number: 0.d1 d2 .. times 10^place, below zero where the tag is 2 */
        place = from[0] * 256 + from[1];
        place = tag == 4 ? place - 256 : 255 - place;
        if (tag == 2)
            part[length++] = '-';
        if (place <= 0)
            part[length++] = '.';
        for (digits = place; digits < 0; digits++)
            part[length++] = '0';
        digits = 0;
        for (from += 2; *from != (tag == 4 ? 0 : 255); from++) {
            if (place > 0 && digits == place)
                part[length++] = '.';
            part[length++] = (char)(tag == 4 ? '0' + *from - 1 : '0' + 10 - *from);
            digits++;
        }
        for (from++; digits < place; digits++)
            part[length++] = '0';
    }
    *at = (const char *)from;
    return length;
}

/* Copies as many children of a key as the buffer has room for, in order, without a command of a job, as vg_look: the
 * subscripts one level below it, each with its value and what $DATA tells of it. They are those after `start`, which
 * need not be there; an empty one asks for the first. What lies below a child is passed over. vg_child_next reads them;
 * the last one's subscript is the next `start`, and may lie in the buffer.
 *
 * VG_AT_END where no child is left. VG_BUFFER_TOO_SHORT where the next alone is longer than the buffer: children_length
 * is the length that is needed, at most 33,046. VG_SUBSCRIPT_TOO_LONG, VG_TOO_MANY_SUBSCRIPTS as vg_order;
 * VG_OUT_OF_MEMORY. Then nothing is copied. */
static inline vg_outcome vg_children(vg_engine *engine, vg_key *key, const char *start, size_t start_length,
                                     char *children, size_t children_size, size_t *children_length) {
    return vg_view_children(engine, VG_NOW, key, start, start_length, children, children_size, children_length);
}

/* A child that vg_children copied: its subscript and its value, both in the buffer. data is 1 where it has a value, 10
 * where a node below it has one, 11 for both. */
typedef struct vg_child {
    const char *subscript;
    size_t subscript_length;
    const char *value;
    size_t value_length;
    uint64_t data;
} vg_child;

/* Reads the child at *at, which is the start of the buffer first, and moves *at after it. Returns 0 where *at is `end`,
 * the start and children_length bytes, else 1. */
static inline int vg_child_next(const char **at, const char *end, vg_child *child) {
    if (*at >= end)
        return 0;
    child->subscript = *at + 24;
    child->subscript_length = vg_length_at(*at);
    child->value = child->subscript + child->subscript_length;
    child->value_length = vg_length_at(*at + 8);
    child->data = vg_length_at(*at + 16);
    *at = child->value + child->value_length;
    return 1;
}

/* ---- Locks ---- */

/* LOCK of a key's name, with its caret: the job's names are released, and then this one is asked for. Nobody waits: had
 * is 1 where it was granted, and 0, with VG_DONE too, where another job is in the way. */
static inline vg_outcome vg_lock(vg_engine *engine, uint64_t job, vg_key *key, uint64_t *had) {
    uint64_t told = 0;
    vg_outcome outcome = VG_NO_ENGINE;
    if (engine)
        outcome = key ? vorgushan_lock(engine, job, key, &told) : (vg_outcome)VG_NO_KEY;
    if (had)
        *had = told;
    return outcome;
}

/* LOCK with +: the name is asked for in addition to those that the job has. VG_LOCK_COUNT_FULL. */
static inline vg_outcome vg_lock_more(vg_engine *engine, uint64_t job, vg_key *key, uint64_t *had) {
    uint64_t told = 0;
    vg_outcome outcome = VG_NO_ENGINE;
    if (engine)
        outcome = key ? vorgushan_lock_more(engine, job, key, &told) : (vg_outcome)VG_NO_KEY;
    if (had)
        *had = told;
    return outcome;
}

/* LOCK with -: one count of the name is released. */
static inline vg_outcome vg_lock_fewer(vg_engine *engine, uint64_t job, vg_key *key) {
    uint64_t told = 0;
    if (!engine)
        return VG_NO_ENGINE;
    return key ? vorgushan_lock_fewer(engine, job, key, &told) : (vg_outcome)VG_NO_KEY;
}

/* LOCK of the names of several keys at once, in a form: had is 1 where all of them were granted, and 0, with VG_DONE
 * too, where another job is in the way of one, and then none was. VG_LOCK_COUNT_FULL. VG_NO_KEY where no key is given,
 * or one isn't there: then the job's names are as they were. */
static inline vg_outcome vg_lock_all(vg_engine *engine, uint64_t job, uint32_t form, vg_key keys[], size_t count,
                                     uint64_t *had) {
    uint64_t told = 0;
    vg_outcome outcome = VG_NO_ENGINE;
    if (engine)
        outcome = keys ? vorgushan_lock_all(engine, job, form, keys, count, &told) : (vg_outcome)VG_NO_KEY;
    if (had)
        *had = told;
    return outcome;
}

/* LOCK without names: all names of the job are released. */
static inline vg_outcome vg_unlock(vg_engine *engine, uint64_t job) {
    uint64_t told = 0;
    return engine ? vorgushan_unlock(engine, job, &told) : (vg_outcome)VG_NO_ENGINE;
}

/* ---- Transactions ---- */

/* TSTART: opens a transaction of the job, or raises its level, and gives the level. VG_LEVEL_TOO_DEEP. */
static inline vg_outcome vg_tstart(vg_engine *engine, uint64_t job, uint64_t *level) {
    uint64_t told = 0;
    vg_outcome outcome = engine ? vorgushan_tstart(engine, job, &told) : (vg_outcome)VG_NO_ENGINE;
    if (level)
        *level = told;
    return outcome;
}

/* TCOMMIT: VG_DONE where all that the transaction did is done, and number is 0; above level 1 it lowers the level, and
 * number is that. VG_RESTARTED where another job has since set or removed something that it had read: nothing of it is
 * done, it restarts at level 1, the job does its calls after the first TSTART again, and number is how often it has
 * restarted. VG_NO_TRANSACTION. */
static inline vg_outcome vg_tcommit(vg_engine *engine, uint64_t job, uint64_t *number) {
    uint64_t told = 0;
    vg_outcome outcome = engine ? vorgushan_tcommit(engine, job, &told) : (vg_outcome)VG_NO_ENGINE;
    if (number)
        *number = told;
    return outcome;
}

/* TROLLBACK, at any level: drops all that the transaction did, and ends it. VG_NO_TRANSACTION. */
static inline vg_outcome vg_trollback(vg_engine *engine, uint64_t job) {
    uint64_t told = 0;
    return engine ? vorgushan_trollback(engine, job, &told) : (vg_outcome)VG_NO_ENGINE;
}

/* TRESTART: drops what was done since the start, and restarts: VG_RESTARTED. VG_NO_TRANSACTION. */
static inline vg_outcome vg_trestart(vg_engine *engine, uint64_t job, uint64_t *restarts) {
    uint64_t told = 0;
    vg_outcome outcome = engine ? vorgushan_trestart(engine, job, &told) : (vg_outcome)VG_NO_ENGINE;
    if (restarts)
        *restarts = told;
    return outcome;
}

/* HALT: ends the job. Its transaction is dropped, and its names are released. */
static inline vg_outcome vg_halt(vg_engine *engine, uint64_t job) {
    uint64_t told = 0;
    return engine ? vorgushan_halt(engine, job, &told) : (vg_outcome)VG_NO_ENGINE;
}

/* $TLEVEL: how deep the job's transaction is, and 0 where it has none. It is no command, as vg_look. VG_BAD_JOB. */
static inline vg_outcome vg_tlevel(vg_engine *engine, uint64_t job, uint64_t *level) {
    uint64_t told = 0;
    vg_outcome outcome = engine ? vorgushan_tlevel(engine, job, &told) : (vg_outcome)VG_NO_ENGINE;
    if (level)
        *level = told;
    return outcome;
}

/* $TRESTART: how often the job's transaction was restarted, and 0 where it has none, as vg_tlevel. */
static inline vg_outcome vg_trestarts(vg_engine *engine, uint64_t job, uint64_t *restarts) {
    uint64_t told = 0;
    vg_outcome outcome = engine ? vorgushan_trestarts(engine, job, &told) : (vg_outcome)VG_NO_ENGINE;
    if (restarts)
        *restarts = told;
    return outcome;
}

/* ---- Names of outcomes ---- */

/* Copies the name of an outcome, as "OutOfMemory". VG_UNKNOWN_NUMBER. */
static inline vg_outcome vg_refusal_text(uint32_t outcome, char *name, size_t name_size, size_t *name_length) {
    char nothing = 0;
    size_t length = 0;
    vg_outcome told = vorgushan_outcome_name(outcome, name ? name : &nothing, name ? name_size : 0, &length);
    if (name_length)
        *name_length = length;
    return told;
}

#ifdef __cplusplus
}
#endif

#endif
