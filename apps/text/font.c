#include "font.h"
#include "fallback.h"
#include <hb-ft.h>
#include <stdio.h>
#include <stdlib.h>
#include FT_OUTLINE_H

enum { QUARTER = PIXEL / 4, HOW = FT_LOAD_NO_HINTING | FT_LOAD_NO_BITMAP };

static const char no_memory[] = "there is not enough memory";

/* Answers why a file is no font. */
static const char *what_is_wrong(const char *name) {
    FILE *file = fopen(name, "rb");
    if (!file)
        return "there is no such font: name a file or a family by --font, or install Debian's fonts-dejavu-core";
    fclose(file);
    return "this is no font file that can be read: name another one by --font";
}

/* Adds a face of a file, and answers null, or a sentence. */
static const char *add_face(font *it, const char *name, int index) {
    font_face made;
    if (FT_New_Face(it->library, name, index, &made.face))
        return what_is_wrong(name);
    font_face *faces = realloc(it->faces, (it->face_count + 1) * sizeof *faces);
    if (faces)
        it->faces = faces;
    if (!faces || !FT_IS_SCALABLE(made.face)) {
        FT_Done_Face(made.face);
        return faces ? "this font has no outlines: name another one by --font" : no_memory;
    }
    made.shaper = hb_ft_font_create_referenced(made.face);
    hb_ft_font_set_load_flags(made.shaper, HOW);
    it->faces[it->face_count++] = made;
    return NULL;
}

const char *font_open(font *it, const char *name, int index) {
    memset(it, 0, sizeof *it);
    if (FT_Init_FreeType(&it->library))
        return "FreeType doesn't start";
    return add_face(it, name, index);
}

void font_close(font *it) {
    for (size_t i = 0; i < it->face_count; i++) {
        hb_font_destroy(it->faces[i].shaper);
        FT_Done_Face(it->faces[i].face);
    }
    FT_Done_FreeType(it->library);
    free(it->faces);
    free(it->values);
    free(it->masks);
    free(it->lacking);
}

static int set_face_size(font_face *face, int size) {
    if (FT_Set_Pixel_Sizes(face->face, 0, (FT_UInt)size))
        return 0;
    hb_ft_font_changed(face->shaper);
    return 1;
}

const char *font_set_size(font *it, int size) {
    it->size = size;
    for (size_t i = 0; i < it->face_count; i++)
        if (!set_face_size(&it->faces[i], size))
            return "the font has no such size";
    return NULL;
}

int font_has(const font *it, size_t face, uint32_t character) {
    return FT_Get_Char_Index(it->faces[face].face, character) != 0;
}

/* Notes a character that no font has, once. */
static void note_lacking(font *it, uint32_t character) {
    uint32_t *lacking = realloc(it->lacking, (it->lacking_count + 1) * sizeof *lacking);
    if (!lacking)
        return;
    it->lacking = lacking;
    it->lacking[it->lacking_count++] = character;
}

/* Adds a face that has the character, and answers whether there is one. */
static int add_fallback(font *it, uint32_t character) {
    char *file;
    int index;
    if (!fallback_find(it->faces[0].face->family_name, character, &file, &index))
        return 0;
    int is_added = !add_face(it, file, index);
    free(file);
    if (!is_added)
        return 0;
    size_t last = it->face_count - 1;
    if (font_has(it, last, character) && set_face_size(&it->faces[last], it->size))
        return 1;
    hb_font_destroy(it->faces[last].shaper);
    FT_Done_Face(it->faces[last].face);
    it->face_count--;
    return 0;
}

size_t font_face_of(font *it, uint32_t character) {
    for (size_t i = 0; i < it->face_count; i++)
        if (font_has(it, i, character))
            return i;
    for (size_t i = 0; i < it->lacking_count; i++)
        if (it->lacking[i] == character)
            return 0;
    if (add_fallback(it, character))
        return it->face_count - 1;
    note_lacking(it, character);
    return 0;
}

pix_matte font_atlas(const font *it) {
    return pix_matte_of(it->values, ATLAS_WIDTH, it->height);
}

/* Finds a place in the atlas for so many columns and rows: to the right of the last one, or below all. */
static const char *find_cell(font *it, uint32_t width, uint32_t height, pix_region *cell) {
    if (width > ATLAS_WIDTH)
        return "a glyph is wider than the atlas: take a smaller size";
    if (it->shelf_right + width > ATLAS_WIDTH) {
        it->shelf_top += it->shelf_height;
        it->shelf_right = it->shelf_height = 0;
    }
    if (height > it->shelf_height)
        it->shelf_height = height;
    uint32_t needed = it->shelf_top + it->shelf_height;
    if (needed > it->height) {
        uint8_t *values = realloc(it->values, (size_t)ATLAS_WIDTH * needed);
        if (!values)
            return no_memory;
        memset(values + (size_t)ATLAS_WIDTH * it->height, 0, (size_t)ATLAS_WIDTH * (needed - it->height));
        it->values = values;
        it->height = needed;
    }
    *cell = pix_region_of((int32_t)it->shelf_right, (int32_t)it->shelf_top, width, height);
    it->shelf_right += width;
    return NULL;
}

/* Rasterizes a glyph, as it is where the pen stands so many quarters beside a pixel, and copies its rows to the atlas.
 */
static const char *rasterize(font *it, mask *made) {
    FT_Face face = it->faces[made->face].face;
    FT_GlyphSlot slot = face->glyph;
    if (FT_Load_Glyph(face, made->glyph, HOW))
        return "a glyph of the font can't be read";
    FT_Outline_Translate(&slot->outline, made->quarter * QUARTER, 0);
    if (FT_Render_Glyph(slot, FT_RENDER_MODE_NORMAL))
        return "a glyph of the font can't be drawn";
    const FT_Bitmap *bitmap = &slot->bitmap;
    const char *sentence = find_cell(it, bitmap->width, bitmap->rows, &made->cell);
    if (sentence)
        return sentence;
    for (uint32_t row = 0; row < bitmap->rows; row++)
        memcpy(it->values + ((size_t)made->cell.y + row) * ATLAS_WIDTH + made->cell.x,
               bitmap->buffer + (ptrdiff_t)row * bitmap->pitch, bitmap->width);
    made->left = slot->bitmap_left;
    made->top = slot->bitmap_top;
    return NULL;
}

/* Looks a glyph up in the atlas, and rasterizes it at first. */
static const char *find_mask(font *it, mask wanted, mask *found) {
    for (size_t i = 0; i < it->count; i++) {
        const mask *one = &it->masks[i];
        if (one->face == wanted.face && one->glyph == wanted.glyph && one->size == wanted.size &&
            one->quarter == wanted.quarter) {
            *found = *one;
            return NULL;
        }
    }
    const char *sentence = rasterize(it, &wanted);
    if (sentence)
        return sentence;
    mask *masks = realloc(it->masks, (it->count + 1) * sizeof *masks);
    if (!masks)
        return no_memory;
    it->masks = masks;
    it->masks[it->count++] = *found = wanted;
    return NULL;
}

const char *font_place(font *it, size_t face, hb_buffer_t *run, FT_Vector *pen, placed_masks *list) {
    unsigned count;
    const hb_glyph_info_t *glyphs = hb_buffer_get_glyph_infos(run, &count);
    const hb_glyph_position_t *steps = hb_buffer_get_glyph_positions(run, NULL);
    placed_mask *longer = realloc(list->masks, (list->count + count + 1) * sizeof *longer);
    if (!longer)
        return no_memory;
    list->masks = longer;
    for (unsigned i = 0; i < count; i++) {
        int at_x = (int)pen->x + steps[i].x_offset + QUARTER / 2, at_y = (int)pen->y - steps[i].y_offset + PIXEL / 2;
        mask wanted = {face, glyphs[i].codepoint, it->size, (at_x & (PIXEL - 1)) / QUARTER, {0, 0, 0, 0}, 0, 0};
        mask found;
        const char *sentence = find_mask(it, wanted, &found);
        if (sentence)
            return sentence;
        pix_region to = {(at_x >> 6) + found.left, (at_y >> 6) - found.top, found.cell.width, found.cell.height};
        placed_mask placed = {to, found.cell};
        list->masks[list->count++] = placed;
        pen->x += steps[i].x_advance;
        pen->y -= steps[i].y_advance;
    }
    return NULL;
}
