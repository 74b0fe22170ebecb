/* Compares the lists of pix.h with its enumerations, its functions and the plain models: each name stands at its number, and none is
 * left out. What the compiler can tell is refused by it: a name that a list lacks, and a model that has fewer. */
#include "each.h"
#include "plain.h"
#include "plain_bitmap.h"
#include <stdio.h>

/* Where the plain models have fewer or more, an array has a negative size. */
typedef char plain_h_has_all_operators[PLAIN_OPERATORS == PIX_OP_COUNT && sizeof plain_dest_by == sizeof plain_source_by ? 1 : -1];
typedef char plain_h_has_all_kinds[PLAIN_KINDS == PIX_KIND_COUNT ? 1 : -1];
typedef char plain_h_has_all_formats_of_buffers[PLAIN_FORMATS == PIX_FORMAT_SGRAY8 + 1 ? 1 : -1];
typedef char plain_bitmap_h_has_all_formats[PLAIN_STORED == PIX_FORMAT_COUNT ? 1 : -1];

/* The place of a number in its list. A number of the enumeration that the list lacks is one that no case has. */
#define COUNTED_(NAME, MORE) PLACE_##NAME,
enum { PIX_EACH_OP(COUNTED_) OPERATORS };
#undef COUNTED_
#define CASE_(NAME, WORD)                                                                                              \
    case PIX_OP_##NAME: return PLACE_##NAME;

static int place_of_op(pix_op op) {
    switch (op) { PIX_EACH_OP(CASE_) }
    return OPERATORS;
}
#undef CASE_

#define COUNTED_(NAME, MAKER) KIND_##NAME,
enum { PIX_EACH_KIND(COUNTED_) KINDS };
#undef COUNTED_
#define CASE_(NAME, MAKER)                                                                                             \
    case PIX_KIND_##NAME: return KIND_##NAME;

static int place_of_kind(pix_kind kind) {
    switch (kind) { PIX_EACH_KIND(CASE_) }
    return KINDS;
}
#undef CASE_

#define COUNTED_(NAME, MODEL) FORMAT_##NAME,
enum { PIX_EACH_FORMAT(COUNTED_) FORMATS };
#undef COUNTED_
#define CASE_(NAME, MODEL)                                                                                             \
    case PIX_FORMAT_##NAME: return FORMAT_##NAME;

static int place_of_format(pix_format format) {
    switch (format) { PIX_EACH_FORMAT(CASE_) }
    return FORMATS;
}
#undef CASE_

static int failures;

static void expect(int is_well, const char *list, const char *name, const char *what) {
    if (!is_well) {
        fprintf(stderr, "lists: %s %s: %s\n", list, name, what);
        failures++;
    }
}

static void expect_operator(pix_op op, const char *name) {
    expect(place_of_op(op) == (int)op, "operator", name, "not at its number");
    expect(pix_do(pix_image_of(NULL, 0, 0), pix_composite_color(pix_region_of(0, 0, 1, 1), pix_rgba8_of(0, 0, 0, 0), op)) == PIX_OK,
           "operator", name, "refused");
}

static void expect_kind(pix_kind kind, const char *name) {
    const pix_region one = pix_region_of(0, 0, 1, 1);
    const pix_command made = command_of(kind, one, pix_view_of(NULL, 0, 0), one, pix_matte_of(NULL, 0, 0), one,
                                        pix_rgba8_of(0, 0, 0, 0), 9, PIX_OP_SRC);
    expect(place_of_kind(kind) == (int)kind, "kind", name, "not at its number");
    expect(made.kind == (uint32_t)kind, "kind", name, "made as another one");
    expect(pix_do(pix_image_of(NULL, 0, 0), made) == PIX_OK, "kind", name, "refused");
}

static void expect_format(pix_format format, const char *name, plain_model model) {
    const plain_stored plain = plain_stored_of((uint32_t)format);
    expect(place_of_format(format) == (int)format, "format", name, "not at its number");
    expect(plain.model == model, "format", name, "of another model than the plain one");
    expect(pix_format_size(format) == plain_stored_size(&plain), "format", name, "of another size than the plain one");
}

int main(void) {
#define EXPECT_(NAME, WORD) expect_operator(PIX_OP_##NAME, #WORD);
    PIX_EACH_OP(EXPECT_)
#undef EXPECT_
#define EXPECT_(NAME, MAKER) expect_kind(PIX_KIND_##NAME, #MAKER);
    PIX_EACH_KIND(EXPECT_)
#undef EXPECT_
#define EXPECT_(NAME, MODEL) expect_format(PIX_FORMAT_##NAME, #NAME, MODEL_##MODEL);
    PIX_EACH_FORMAT(EXPECT_)
    expect(pix_format_size((pix_format)PIX_FORMAT_COUNT) == 0, "format", "past the last", "has a size");
    printf("lists: %d operators, %d kinds and %d formats, %d failures\n", PIX_OP_COUNT, PIX_KIND_COUNT, PIX_FORMAT_COUNT, failures);
    return failures != 0;
}
