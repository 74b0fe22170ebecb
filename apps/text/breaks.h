/* breaks.h - where a line may be broken. */
#ifndef BREAKS_H
#define BREAKS_H

#include <stdint.h>

/* Whether a character is a space at which a line is broken, and which then isn't seen. */
int break_is_space(uint32_t character);

/* Whether a line may be broken between two characters: behind spaces and hyphens, and beside the letters of Chinese,
 * Japanese and Korean, but not before what closes and not behind what opens. */
int break_may_be(uint32_t before, uint32_t after);

#endif
