/* direction.h - which parts of a text go from right to left, by FriBidi where that was there at the build. */
#ifndef DIRECTION_H
#define DIRECTION_H

#include <stddef.h>
#include <stdint.h>

/* Whether parts of both directions are put in order: a program that was built without FriBidi takes each paragraph as
 * of one direction, that of its first letter. */
int direction_is_there(void);

/* Writes the level of each character of a paragraph, odd where it goes from right to left, and into `base` that of the
 * paragraph. Answers 0 where there is not enough memory. */
int direction_levels(const uint32_t *text, size_t count, uint8_t *levels, uint8_t *base);

/* Whether a paragraph has letters of both directions. */
int direction_is_mixed(const uint32_t *text, size_t count);

#endif
