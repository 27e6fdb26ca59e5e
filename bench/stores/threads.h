/* What threads.c asks of a store: nodes of a kind and a number, each with a value, for several threads at once. What a
 * store can't do ends the program. */
#ifndef THREADS_H
#define THREADS_H

#include <stddef.h>
#include <stdint.h>

#include "must.h"

enum kind { RECORD, ACCOUNT, OWN, KINDS };

/* A session names as many nodes at once: `place` is below. */
enum { PLACES = 2 };

/* What a store keeps for a thread. */
struct session;

void open_store(void);
void close_store(void);

/* Opened, used and closed by the same thread. The numbers of sessions that are open at once differ; the first is 0. */
struct session *open_session(unsigned number);
void close_session(struct session *session);

/* Names the node that the calls below take at this place. */
void name_node(struct session *session, int place, enum kind kind, uint32_t number);

/* Round reads of one moment, which leave nothing behind. */
void begin_reads(struct session *session);
void end_reads(struct session *session);

/* Round reads and writes that take place together. Where the commit returns 0 others were quicker: all of them are made
 * again, and then the commit. */
void begin_changes(struct session *session);
int commit_changes(struct session *session);

/* In either of the two: how long the node's value is, which lies in `value` then. */
size_t get(struct session *session, int place, char *value, size_t size);

/* Between begin_changes and commit_changes. */
void set(struct session *session, int place, const char *value, size_t length);

/* By itself, committed when it returns. */
void set_alone(struct session *session, int place, const char *value, size_t length);

#endif
