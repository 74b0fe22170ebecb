/* cases.h - what the benchmark has: the blocks of the table. */
#ifndef CASES_H
#define CASES_H

#include "table.h"

/* What of it is wanted: null, or 0, for all. */
typedef struct {
    const char *part, *row;
    uint32_t side;
} wanted_t;

/* Makes the table of what is wanted. */
void make_cases(table_t *table, const wanted_t *wanted);

#endif
