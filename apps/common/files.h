/* files.h - pictures in files, as pictures mostly are there: sRGB, with a straight alpha. */
#ifndef FILES_H
#define FILES_H

#include <stddef.h>
#include <stdint.h>

#ifdef __cplusplus
extern "C" {
#endif

/* A picture in memory of malloc: rows without padding, of four bytes a pixel: red, green, blue and
 * alpha. */
typedef struct {
    uint8_t *bytes;
    uint32_t width, height;
} file_picture;

/* Room for a sentence that says what is wrong. */
enum { FILE_SENTENCE = 256 };

/* Reads a PNG, JPEG, GIF or WebP file, which is told by its first bytes, whatever its name is. The
 * picture is upright: what EXIF says of its orientation is done. Of several frames the first one
 * is read, of 16 bits a channel the nearest of 8, and of CMYK what is left of the paper's white:
 * (255 - ink) * (255 - black) / 255 for each color. The caller frees `bytes`. Answers 1, or 0 with
 * a sentence, and then `bytes` is null. */
int file_read(const char *name, file_picture *picture, char sentence[FILE_SENTENCE]);

/* Which kinds of files the program was built to read, as "PNG, JPEG, GIF and WebP". GIF and WebP
 * take libraries that a machine may lack. */
const char *file_kinds(void);

/* Whether a name ends as those of such files do, in letters of either case. */
int file_is_named_so(const char *name);

/* Copies the pixels of a picture, `size` bytes each, so that it stands upright where it lies as
 * this orientation of EXIF says: 2 mirrors it, 3 turns it by a half, 6 to the right, 8 to the
 * left; from 5 to 8 width and height change places. */
void file_turn(const void *from, uint32_t width, uint32_t height, size_t size, int orientation,
               void *to);

/* Writes a PNG file. Answers 1, or 0 with a sentence, and then a file that was there is as it was. */
int file_write_png(const char *name, const file_picture *picture, char sentence[FILE_SENTENCE]);

/* Keeps the numbers of the standard files from others: where one is closed, what is written there
 * fails. Call it first. */
void file_begin(void);

/* Prints what waits on standard output. Answers 1, or 0 with a sentence where something could not be
 * printed. */
int file_end_output(char sentence[FILE_SENTENCE]);

#ifdef __cplusplus
}
#endif
#endif
