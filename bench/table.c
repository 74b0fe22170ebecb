/* table.c - see table.h. */
#include "table.h"
#include <math.h>
#include <stdlib.h>
#include <string.h>

static const char *const peer_names[] = {"", "pixman", "plain C"};

static double ratio(const cell_t *cell, int build) {
    return cell->peer_ns[build] > 0 ? cell->ns[build] / cell->peer_ns[build] : 0;
}

/* Whether a cell counts in the means: `Dest` changes nothing, and then a ratio is one of two calls that do nothing. */
static int counts(const block_t *block, const cell_t *cell) {
    return cell->is_there && (block->work != COMPOSITE || cell->job.source >= COPY || cell->job.op != DEST);
}

static void print_cell(const block_t *block, const cell_t *cell, const builds_t *builds) {
    printf("  ");
    if (!cell->is_there || block->peer == NONE)
        printf("%9s", "");
    else
        printf("%9.3f", cell->peer_ns[0]);
    for (int i = 0; i < builds->count; i++) {
        if (!cell->is_there)
            printf("%8s", "");
        else if (block->peer == NONE)
            printf("%8.3f", cell->ns[i]);
        else
            printf("%8.2f", ratio(cell, i));
    }
}

static void print_block(const block_t *block, const builds_t *builds) {
    const int wide = 9 + 8 * builds->count;
    printf("\n%-30s", block->title);
    for (int k = 0; k < COLUMNS; k++)
        if (block->columns[k])
            printf("  %*s", wide, block->columns[k]);
    printf("\n%-30s", "");
    for (int k = 0; k < COLUMNS; k++)
        if (block->columns[k]) {
            printf("  %9s", peer_names[block->peer]);
            for (int i = 0; i < builds->count; i++)
                printf("%8s", builds->names[i]);
        }
    printf("\n");
    for (int j = 0; j < block->row_count; j++) {
        printf("%-30s", block->rows[j].name);
        for (int k = 0; k < COLUMNS; k++)
            if (block->columns[k])
                print_cell(block, &block->rows[j].cells[k], builds);
        printf("\n");
    }
}

/* A cell and where it stands. */
typedef struct {
    const block_t *block;
    const row_t *row;
    int column;
    double ratio;
} place_t;

static int by_ratio(const void *one, const void *other) {
    double a = ((const place_t *)one)->ratio, b = ((const place_t *)other)->ratio;
    return (a < b) - (a > b);
}

/* The cells of a part and a column that count, those of the greatest ratio first. */
static int places_of(const table_t *table, const char *part, int column, int build, place_t *places) {
    int count = 0;
    for (int i = 0; i < table->count; i++)
        for (int j = 0; j < table->blocks[i].row_count; j++) {
            const block_t *block = &table->blocks[i];
            const cell_t *cell = &block->rows[j].cells[column];
            if (strcmp(block->part, part) == 0 && block->peer != NONE && counts(block, cell))
                places[count++] = (place_t){block, &block->rows[j], column, ratio(cell, build)};
        }
    qsort(places, (size_t)count, sizeof *places, by_ratio);
    return count;
}

static void print_summary(const table_t *table, const block_t *block, int column, const builds_t *builds) {
    static place_t places[BLOCKS * ROWS];
    for (int build = 0; build < builds->count; build++) {
        int count = places_of(table, block->part, column, build, places), above = 0;
        double sum = 0;
        for (int i = 0; i < count; i++) {
            sum += log(places[i].ratio);
            above += places[i].ratio > 1;
        }
        if (count)
            printf("%-10s %-8s %-4s %4d cases  mean %5.2f  above 1.0: %3d  worst %5.2f  %s, %s\n", block->part,
                   block->columns[column], builds->names[build], count, exp(sum / count), above, places[0].ratio,
                   places[0].block->title, places[0].row->name);
    }
}

/* The cases of a part and a column that take longer than their peer, the worst first. */
static void print_above(const table_t *table, const block_t *block, int column, const builds_t *builds) {
    static place_t places[BLOCKS * ROWS];
    for (int build = 0; build < builds->count; build++) {
        int count = places_of(table, block->part, column, build, places);
        for (int i = 0; i < count && places[i].ratio > 1; i++)
            printf("%-10s %-8s %-4s %6.2f  %s, %s\n", block->part, block->columns[column], builds->names[build],
                   places[i].ratio, places[i].block->title, places[i].row->name);
    }
}

/* Whether a block is the first one of its part. */
static int is_first(const table_t *table, int at) {
    return at == 0 || strcmp(table->blocks[at].part, table->blocks[at - 1].part) != 0;
}

typedef void (*print_t)(const table_t *table, const block_t *block, int column, const builds_t *builds);

/* Prints something of each part and column. */
static void print_parts(const table_t *table, const builds_t *builds, print_t print) {
    for (int i = 0; i < table->count; i++)
        for (int k = 0; k < COLUMNS; k++)
            if (is_first(table, i) && table->blocks[i].columns[k] && table->blocks[i].peer != NONE)
                print(table, &table->blocks[i], k, builds);
}

void print_table(const table_t *table, const builds_t *builds, int is_above) {
    for (int i = 0; i < table->count; i++)
        print_block(&table->blocks[i], builds);
    printf("\nRatios: geometric means and the worst, without Dest, which changes nothing\n");
    print_parts(table, builds, print_summary);
    if (is_above) {
        printf("\nAbove 1.0\n");
        print_parts(table, builds, print_above);
    }
}

int print_differences(const table_t *table) {
    int cells = 0, differing = 0;
    for (int i = 0; i < table->count; i++)
        for (int j = 0; j < table->blocks[i].row_count; j++)
            for (int k = 0; k < COLUMNS; k++) {
                const block_t *block = &table->blocks[i];
                const cell_t *cell = &block->rows[j].cells[k];
                if (!cell->is_there || block->peer == NONE)
                    continue;
                cells++;
                differing += cell->differs;
                if (cell->differs)
                    printf("DIFFERS: %s, %s, %s\n", block->title, block->rows[j].name, block->columns[k]);
            }
    printf("\n%d outcomes compared byte by byte, %d differ\n", cells, differing);
    return differing;
}

int write_csv(const char *path, const table_t *table, const builds_t *builds) {
    FILE *file = fopen(path, "w");
    if (!file)
        return 0;
    fprintf(file, "part,block,row,column,build,ns,peer,peer_ns,ratio,differs\n");
    for (int i = 0; i < table->count; i++)
        for (int j = 0; j < table->blocks[i].row_count; j++)
            for (int k = 0; k < COLUMNS; k++)
                for (int build = 0; build < builds->count; build++) {
                    const block_t *block = &table->blocks[i];
                    const cell_t *cell = &block->rows[j].cells[k];
                    if (cell->is_there)
                        fprintf(file, "%s,\"%s\",%s,%s,%s,%.4f,%s,%.4f,%.3f,%d\n", block->part, block->title,
                                block->rows[j].name, block->columns[k], builds->names[build], cell->ns[build],
                                peer_names[block->peer], cell->peer_ns[build], ratio(cell, build), cell->differs);
                }
    return fclose(file) == 0;
}
