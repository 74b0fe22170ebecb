/* font.h - the glyphs of a font, and of others for what it lacks, rasterized by FreeType into an atlas of masks. */
#ifndef FONT_H
#define FONT_H

#include "pix.h"
#include <ft2build.h>
#include FT_FREETYPE_H
#include <hb.h>

/* FreeType and HarfBuzz count in 64ths of a pixel. */
enum { PIXEL = 64 };

/* A mask of a glyph in the atlas, and where it lies beside the pen: to the right, and upwards. */
typedef struct {
    size_t face;
    FT_UInt glyph;
    int size,
        quarter; /* the size in pixels, and by how many quarters of a pixel the pen stands to the right of a pixel */
    pix_region cell;
    int left, top;
} mask;

/* A font file. */
typedef struct {
    FT_Face face;
    hb_font_t *shaper;
} font_face;

/* The faces, of which the first is the one that was chosen; the masks that were made of them: rows of a fixed width, to
 * which more are added; and the characters that no font has, each once. */
typedef struct {
    FT_Library library;
    font_face *faces;
    size_t face_count;
    int size;
    uint8_t *values;
    uint32_t height, shelf_top, shelf_right, shelf_height;
    mask *masks;
    size_t count;
    uint32_t *lacking;
    size_t lacking_count;
} font;

enum { ATLAS_WIDTH = 1024 };

/* A mask, and where its cell lies in a picture. */
typedef struct {
    pix_region to, from;
} placed_mask;

/* A list of them, of malloc. */
typedef struct {
    placed_mask *masks;
    size_t count;
} placed_masks;

/* Opens a font by its number in a file, mostly 0. Answers null, or a sentence that says why the file is no font. */
const char *font_open(font *it, const char *name, int index);
void font_close(font *it);

/* Sets the size of all faces, in pixels. Answers null, or a sentence. */
const char *font_set_size(font *it, int size);

/* The number of a face that has the character: the chosen one, or one that was found, or else one that is looked for
 * now. Where there is none it is the chosen one, which has a box, and the character is noted. */
size_t font_face_of(font *it, uint32_t character);

/* Whether a face has a glyph for a character. */
int font_has(const font *it, size_t face, uint32_t character);

/* All masks as one. It holds until more are made. */
pix_matte font_atlas(const font *it);

/* Appends the masks of a run that was shaped in a face, from where the pen stands, in 64ths of a pixel, and moves the
 * pen on. Answers null, or a sentence. */
const char *font_place(font *it, size_t face, hb_buffer_t *run, FT_Vector *pen, placed_masks *list);

#endif
