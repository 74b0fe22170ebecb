/* layout.h - text in rows: shaped by HarfBuzz, broken where a row ends, and in its directions. */
#ifndef LAYOUT_H
#define LAYOUT_H

#include "font.h"

/* Where text goes: between two columns, and how. */
typedef struct {
    int left, right, has_kerning;
} layout_frame;

/* A line of text that was set: its masks, how many rows it takes, how many pixels the widest of them is wide, and
 * whether it mixes directions that could not be put in order. */
typedef struct {
    placed_masks list;
    int rows, width, is_mixed;
} layout_line;

/* Sets a line of UTF-8 in a size in pixels, with its first row below `*baseline`, which is moved to that of its last
 * row. It is broken into rows between words, and in words that are too long; a newline in it begins a new row. What goes
 * from right to left ends at the right column. Answers null, or a sentence. */
const char *layout_text(font *it, const char *text, int size, layout_frame frame, int *baseline, layout_line *made);

#endif
