/* readers.h - what the readers of files.c share: one for each kind of file, built where its
 * library is there. */
#ifndef READERS_H
#define READERS_H

#include "files.h"
#include <stdio.h>

#define NO_MEMORY "there is no memory for a picture of this size"

/* Writes a sentence about a file, and answers 0. */
int file_refuse(char sentence[FILE_SENTENCE], const char *name, const char *what);

/* Takes memory for clear pixels of a picture of this size, at most 4 GiB. Answers whether there is
 * any. */
int file_make(file_picture *picture, uint32_t width, uint32_t height);

/* Reads an open file from its start, as file_read does, but as the picture lies there;
 * `orientation`, which is 1 before, is set where EXIF says another one. */
typedef int file_reader(FILE *file, const char *name, file_picture *picture, int *orientation,
                        char sentence[FILE_SENTENCE]);

file_reader file_read_png, file_read_jpeg;
#ifdef HAS_GIF
file_reader file_read_gif;
#endif
#ifdef HAS_WEBP
file_reader file_read_webp;
#endif

/* The orientation that the bytes of EXIF name, from 1 to 8; 1 where they name none. */
int exif_orientation(const uint8_t *bytes, size_t size);

#endif
