/* table.h - the cells that are timed, in blocks of rows and columns, and how they are printed. */
#ifndef TABLE_H
#define TABLE_H

#include "bench.h"
#include "data.h"
#include <stdio.h>

enum { BUILDS = 2, COLUMNS = 4, ROWS = 16, BLOCKS = 64 };

/* What the times are compared with. */
typedef enum { NONE, PIXMAN, PLAIN } peer_t;

typedef enum { COMPOSITE, CONVERSION, RASTER } work_t;

/* A time of the library and its peer for each build, in nanoseconds a pixel: 0 where there is none. */
typedef struct {
    int is_there;          /* whether it was timed */
    shape_t shape;
    job_t job;             /* of a composite */
    conversion_t conversion;
    uint32_t number;       /* of the work on rasters */
    double ns[BUILDS], peer_ns[BUILDS];
    int differs;           /* whether an outcome is another than the peer's */
} cell_t;

typedef struct {
    const char *name;
    cell_t cells[COLUMNS];
} row_t;

typedef struct {
    const char *part;
    char title[64];
    work_t work;
    peer_t peer;
    const char *columns[COLUMNS];
    int row_count;
    row_t rows[ROWS];
} block_t;

typedef struct {
    int count;
    block_t blocks[BLOCKS];
} table_t;

/* The names of the builds, for the head of columns. */
typedef struct {
    int count;
    const char *names[BUILDS];
} builds_t;

/* Prints the blocks, and the means; and, where it is asked for, each case that takes longer than its peer. */
void print_table(const table_t *table, const builds_t *builds, int is_above);

/* Prints which outcomes are others than the peer's, and answers how many. */
int print_differences(const table_t *table);

/* Writes a line for each cell. Answers whether the file was written. */
int write_csv(const char *path, const table_t *table, const builds_t *builds);

#endif
