#include "breaks.h"
#include <stddef.h>

/* What closes, and so begins no line; and what opens, and so ends none. */
static const uint16_t closing[] = {'!',    ')',    ',',    '.',    ':',    ';',    '?',    ']',    '}',    0x2019,
                                   0x201d, 0x3001, 0x3002, 0x3005, 0x3009, 0x300b, 0x300d, 0x300f, 0x3011, 0x3015,
                                   0x3017, 0x30fb, 0x30fc, 0xff01, 0xff09, 0xff0c, 0xff0e, 0xff1a, 0xff1b, 0xff1f,
                                   0xff3d, 0xff5d};
static const uint16_t opening[] = {'(',    '[',    '{',    0x2018, 0x201c, 0x3008, 0x300a, 0x300c,
                                   0x300e, 0x3010, 0x3014, 0x3016, 0xff08, 0xff3b, 0xff5b};

static int is_of(uint32_t character, const uint16_t *list, size_t count) {
    for (size_t i = 0; i < count; i++)
        if (list[i] == character)
            return 1;
    return 0;
}

static int is_ideographic(uint32_t character) {
    return (character >= 0x2e80 && character <= 0x9fff) || (character >= 0xac00 && character <= 0xd7af) ||
           (character >= 0xf900 && character <= 0xfaff) || (character >= 0xff00 && character <= 0xffef) ||
           (character >= 0x20000 && character <= 0x3fffd);
}

int break_is_space(uint32_t character) {
    return character == ' ' || character == 0x1680 || character == 0x3000 || character == 0x205f ||
           (character >= 0x2000 && character <= 0x200b && character != 0x2007);
}

int break_may_be(uint32_t before, uint32_t after) {
    if (break_is_space(after))
        return 0;
    if (break_is_space(before))
        return 1;
    if (is_of(after, closing, sizeof closing / sizeof *closing) ||
        is_of(before, opening, sizeof opening / sizeof *opening))
        return 0;
    if (before == '-')
        return after < '0' || after > '9';
    return before == 0x2010 || before == 0x2013 || before == 0x2014 || is_ideographic(before) ||
           is_ideographic(after);
}
