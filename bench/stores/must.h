/* How the programs of this folder end where something isn't as it has to be. */
#ifndef MUST_H
#define MUST_H

#include <stdio.h>
#include <stdlib.h>

/* Ends the program with status 2 where a call failed, or a check. */
static inline void must(int ok, const char *what) {
    if (!ok) {
        fprintf(stderr, "%s failed\n", what);
        exit(2);
    }
}

#endif
