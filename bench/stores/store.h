/* What records.c asks of a store: records of a number and a field, each with a value. */
#ifndef STORE_H
#define STORE_H

#include <stddef.h>
#include <stdint.h>

#include "must.h"

void open_store(void);
void close_store(void);

/* One transaction round all that is done up to end_work. */
void begin_work(void);
void end_work(void);

void put(uint32_t number, const char *field, const char *value, size_t length);

/* How long the record's value is, which lies in `value` then. */
size_t get(uint32_t number, const char *field, char *value, size_t size);

/* The bytes of all values together, in the order of the records. */
uint64_t walk(void);

#endif
