/* album.h - the pictures that next and previous go through. */
#ifndef ALBUM_H
#define ALBUM_H

#include <stddef.h>

/* Names of files, in memory of malloc, and which of them is shown; `is_of_file` says whether that
 * one was named alone. */
typedef struct {
    char **names;
    size_t count, at;
    int is_of_file;
} album;

/* The files that are named: each itself, and of a folder all that are named as pictures, in the
 * order of their names, where numbers count as numbers. Where a single file is named, all of its
 * folder, beginning at it. Ends the program where a folder can't be read, or has none. */
album album_of(char **words, int count);
void album_free(album *it);

#endif
