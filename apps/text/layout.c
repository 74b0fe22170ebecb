#include "layout.h"
#include "breaks.h"
#include "direction.h"
#include <stdlib.h>

static const char no_memory[] = "there is not enough memory";

/* The characters of a paragraph, and for each its level, odd from right to left; its face; its script; and how far it
 * moves the pen, in 64ths of a pixel. */
typedef struct {
    uint32_t *text;
    size_t count;
    uint8_t *levels, base;
    size_t *faces;
    hb_script_t *scripts;
    int *advances;
} paragraph;

/* A part of a paragraph of one level, face and script. */
typedef struct {
    size_t from, end;
    uint8_t level;
} part;

static void free_paragraph(paragraph *it) {
    free(it->text);
    free(it->levels);
    free(it->faces);
    free(it->scripts);
    free(it->advances);
}

/* Decodes UTF-8, whose wrong bytes become U+FFFD; other controls are spaces. */
static int read_paragraph(paragraph *it, const char *text, size_t length) {
    hb_buffer_t *buffer = hb_buffer_create();
    hb_buffer_set_replacement_codepoint(buffer, 0xfffd);
    hb_buffer_add_utf8(buffer, text, (int)length, 0, (int)length);
    unsigned count;
    const hb_glyph_info_t *characters = hb_buffer_get_glyph_infos(buffer, &count);
    memset(it, 0, sizeof *it);
    it->count = count;
    it->text = calloc(count + 1, sizeof *it->text);
    it->levels = calloc(count + 1, sizeof *it->levels);
    it->faces = calloc(count + 1, sizeof *it->faces);
    it->scripts = calloc(count + 1, sizeof *it->scripts);
    it->advances = calloc(count + 1, sizeof *it->advances);
    int is_read = it->text && it->levels && it->faces && it->scripts && it->advances;
    for (unsigned i = 0; is_read && i < count; i++)
        it->text[i] = characters[i].codepoint < ' ' ? ' ' : characters[i].codepoint;
    hb_buffer_destroy(buffer);
    return is_read && direction_levels(it->text, it->count, it->levels, &it->base);
}

/* Whether a character belongs to the one before it, if that's face has it: marks, joiners and spaces. */
static int goes_on(uint32_t character) {
    switch (hb_unicode_general_category(hb_unicode_funcs_get_default(), character)) {
    case HB_UNICODE_GENERAL_CATEGORY_FORMAT:
    case HB_UNICODE_GENERAL_CATEGORY_ENCLOSING_MARK:
    case HB_UNICODE_GENERAL_CATEGORY_NON_SPACING_MARK:
    case HB_UNICODE_GENERAL_CATEGORY_SPACING_MARK:
    case HB_UNICODE_GENERAL_CATEGORY_SPACE_SEPARATOR: return 1;
    default: return 0;
    }
}

/* Whether a character is never seen, so that no font needs a glyph for it: formats and variation selectors. */
static int is_unseen(uint32_t character) {
    return (character >= 0xfe00 && character <= 0xfe0f) || (character >= 0xe0000 && character <= 0xe0fff) ||
           hb_unicode_general_category(hb_unicode_funcs_get_default(), character) ==
               HB_UNICODE_GENERAL_CATEGORY_FORMAT;
}

/* Chooses a face and a script for each character. What is of no script is of that before it, and at first of that
 * behind it. */
static void choose_faces(paragraph *it, font *letters) {
    hb_script_t script = HB_SCRIPT_COMMON;
    for (size_t i = 0; i < it->count; i++) {
        size_t before = i ? it->faces[i - 1] : 0;
        if (is_unseen(it->text[i]) || (i && goes_on(it->text[i]) && font_has(letters, before, it->text[i])))
            it->faces[i] = before;
        else
            it->faces[i] = font_face_of(letters, it->text[i]);
        hb_script_t own = hb_unicode_script(hb_unicode_funcs_get_default(), it->text[i]);
        if (own != HB_SCRIPT_COMMON && own != HB_SCRIPT_INHERITED)
            script = own;
        it->scripts[i] = script;
    }
    for (size_t i = it->count; i-- > 1;)
        if (it->scripts[i - 1] == HB_SCRIPT_COMMON)
            it->scripts[i - 1] = it->scripts[i];
}

static part part_at(const paragraph *it, size_t from, size_t end) {
    part found = {from, from + 1, it->levels[from]};
    while (found.end < end && it->levels[found.end] == it->levels[from] && it->faces[found.end] == it->faces[from] &&
           it->scripts[found.end] == it->scripts[from])
        found.end++;
    return found;
}

/* Shapes a part, with what stands around it in view. The caller destroys the answer. */
static hb_buffer_t *shape(const font *letters, const paragraph *it, part of, int has_kerning) {
    hb_feature_t kerning = {HB_TAG('k', 'e', 'r', 'n'), has_kerning != 0, HB_FEATURE_GLOBAL_START,
                            HB_FEATURE_GLOBAL_END};
    hb_buffer_t *run = hb_buffer_create();
    hb_buffer_add_utf32(run, it->text, (int)it->count, (unsigned)of.from, (int)(of.end - of.from));
    hb_buffer_set_direction(run, of.level & 1 ? HB_DIRECTION_RTL : HB_DIRECTION_LTR);
    hb_buffer_set_script(run, it->scripts[of.from]);
    hb_buffer_set_language(run, hb_language_get_default());
    hb_shape(letters->faces[it->faces[of.from]].shaper, run, &kerning, 1);
    return run;
}

/* Finds how far each character moves the pen; those of one cluster do it by the first. */
static void measure(paragraph *it, const font *letters, int has_kerning) {
    for (size_t from = 0; from < it->count;) {
        part of = part_at(it, from, it->count);
        hb_buffer_t *run = shape(letters, it, of, has_kerning);
        unsigned count;
        const hb_glyph_info_t *glyphs = hb_buffer_get_glyph_infos(run, &count);
        const hb_glyph_position_t *steps = hb_buffer_get_glyph_positions(run, NULL);
        for (unsigned i = 0; i < count; i++)
            it->advances[glyphs[i].cluster] += steps[i].x_advance;
        hb_buffer_destroy(run);
        from = of.end;
    }
}

/* Returns where a row ends that begins at `from` and is at most so wide: at the last place for a break, or else before
 * the first character that is too much. Spaces at its end may stand out. */
static size_t row_end(const paragraph *it, size_t from, int most) {
    size_t last = from;
    int width = 0;
    for (size_t i = from; i < it->count; i++) {
        if (i > from && break_may_be(it->text[i - 1], it->text[i]))
            last = i;
        width += it->advances[i];
        if (width > most && i > from && it->advances[i] && !break_is_space(it->text[i]))
            return last > from ? last : i;
    }
    return it->count;
}

/* Puts the parts of a row in the order in which they are seen: from the highest level down, parts that follow each other
 * and have that level or a higher one are turned round. */
static void order(part *parts, size_t count) {
    uint8_t highest = 0;
    for (size_t i = 0; i < count; i++)
        highest = parts[i].level > highest ? parts[i].level : highest;
    for (uint8_t level = highest; level > 0; level--)
        for (size_t from = 0, end; from < count; from = end + 1) {
            for (end = from; end < count && parts[end].level >= level;)
                end++;
            for (size_t i = from, j = end; j > i + 1; i++) {
                part kept = parts[i];
                parts[i] = parts[--j];
                parts[j] = kept;
            }
        }
}

/* Shapes the parts of a row as they are seen, and places their masks, from the left column on or up to the right one. */
static const char *place_row(font *letters, const paragraph *it, size_t from, size_t end, layout_frame frame,
                             int baseline, layout_line *made) {
    while (end > from && break_is_space(it->text[end - 1]))
        end--;
    part *parts = malloc((end - from + 1) * sizeof *parts);
    if (!parts)
        return no_memory;
    size_t count = 0;
    FT_Pos width = 0;
    for (size_t at = from; at < end; at = parts[count - 1].end)
        parts[count++] = part_at(it, at, end);
    for (size_t i = from; i < end; i++)
        width += it->advances[i];
    order(parts, count);
    FT_Vector pen = {it->base ? frame.right * PIXEL - width : frame.left * PIXEL, baseline * PIXEL};
    const char *sentence = NULL;
    for (size_t i = 0; i < count && !sentence; i++) {
        hb_buffer_t *run = shape(letters, it, parts[i], frame.has_kerning);
        sentence = font_place(letters, it->faces[parts[i].from], run, &pen, &made->list);
        hb_buffer_destroy(run);
    }
    free(parts);
    return sentence;
}

/* Widens what is said of a line by its newest row, which begins at this mask. */
static void widen(layout_line *made, size_t first) {
    if (made->list.count == first)
        return;
    int left = made->list.masks[first].to.x, right = left;
    for (size_t i = first; i < made->list.count; i++) {
        const pix_region *to = &made->list.masks[i].to;
        left = to->x < left ? to->x : left;
        right = to->x + (int)to->width > right ? to->x + (int)to->width : right;
    }
    made->width = right - left > made->width ? right - left : made->width;
}

/* Sets a paragraph: a text without newlines. */
static const char *set_paragraph(font *letters, paragraph *it, int step, layout_frame frame, int *baseline,
                                 layout_line *made) {
    const char *sentence = NULL;
    size_t from = 0;
    made->is_mixed |= !direction_is_there() && direction_is_mixed(it->text, it->count);
    choose_faces(it, letters);
    measure(it, letters, frame.has_kerning);
    do {
        size_t end = row_end(it, from, (frame.right - frame.left) * PIXEL), first = made->list.count;
        *baseline += step;
        made->rows++;
        sentence = place_row(letters, it, from, end, frame, *baseline, made);
        if (!sentence)
            widen(made, first);
        from = end;
    } while (from < it->count && !sentence);
    return sentence;
}

const char *layout_text(font *it, const char *text, int size, layout_frame frame, int *baseline, layout_line *made) {
    const char *sentence = font_set_size(it, size);
    memset(made, 0, sizeof *made);
    while (!sentence) {
        paragraph read;
        size_t length = strcspn(text, "\n");
        if (read_paragraph(&read, text, length))
            sentence = set_paragraph(it, &read, size + size / 4, frame, baseline, made);
        else
            sentence = no_memory;
        free_paragraph(&read);
        if (!text[length])
            break;
        text += length + 1;
    }
    return sentence;
}
