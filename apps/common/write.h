/* write.h - files that are written whole, or not at all. */
#ifndef WRITE_H
#define WRITE_H

#include <stdio.h>

/* A file that is being written beside the one whose place it takes when it is whole. A device, and
 * what else is no plain file, is written itself. */
typedef struct {
    FILE *file;
    char *name, *beside;
} file_new;

/* Opens a file to write, and answers whether that went well; else errno says why. */
int file_new_open(file_new *it, const char *name);

/* Closes it, and puts it in its place if it is whole; else what was there stays. Answers whether it
 * is there now; where it was whole and is not, errno says why. */
int file_new_close(file_new *it, int is_whole);

#endif
