#include "direction.h"
#include <hb.h>
#include <string.h>

/* The direction of a letter, or invalid for what has none of its own. */
static hb_direction_t direction_of(uint32_t character) {
    hb_script_t script = hb_unicode_script(hb_unicode_funcs_get_default(), character);
    if (script == HB_SCRIPT_COMMON || script == HB_SCRIPT_INHERITED || script == HB_SCRIPT_UNKNOWN)
        return HB_DIRECTION_INVALID;
    return hb_script_get_horizontal_direction(script);
}

int direction_is_mixed(const uint32_t *text, size_t count) {
    int has_left = 0, has_right = 0;
    for (size_t i = 0; i < count; i++) {
        has_left |= direction_of(text[i]) == HB_DIRECTION_LTR;
        has_right |= direction_of(text[i]) == HB_DIRECTION_RTL;
    }
    return has_left && has_right;
}

#ifdef HAS_FRIBIDI

#include <fribidi.h>
#include <stdlib.h>

int direction_is_there(void) {
    return 1;
}

int direction_levels(const uint32_t *text, size_t count, uint8_t *levels, uint8_t *base) {
    FriBidiCharType *types = malloc((count + 1) * sizeof *types);
    FriBidiBracketType *brackets = malloc((count + 1) * sizeof *brackets);
    FriBidiLevel *found = malloc((count + 1) * sizeof *found);
    FriBidiParType paragraph = FRIBIDI_PAR_ON;
    FriBidiStrIndex length = (FriBidiStrIndex)count;
    int is_done = types && brackets && found;
    *base = 0;
    if (is_done && count) {
        fribidi_get_bidi_types(text, length, types);
        fribidi_get_bracket_types(text, length, types, brackets);
        is_done = fribidi_get_par_embedding_levels_ex(types, brackets, length, &paragraph, found) != 0;
        for (size_t i = 0; is_done && i < count; i++)
            levels[i] = (uint8_t)found[i];
        *base = FRIBIDI_IS_RTL(paragraph) ? 1 : 0;
    }
    free(types);
    free(brackets);
    free(found);
    return is_done;
}

#else

int direction_is_there(void) {
    return 0;
}

int direction_levels(const uint32_t *text, size_t count, uint8_t *levels, uint8_t *base) {
    hb_direction_t direction = HB_DIRECTION_INVALID;
    for (size_t i = 0; i < count && direction == HB_DIRECTION_INVALID; i++)
        direction = direction_of(text[i]);
    *base = direction == HB_DIRECTION_RTL;
    memset(levels, *base, count);
    return 1;
}

#endif
