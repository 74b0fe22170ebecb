/* fallback.h - other fonts for what a font lacks, by fontconfig where that was there at the build. */
#ifndef FALLBACK_H
#define FALLBACK_H

#include <stdint.h>

/* Whether other fonts can be found: a program that was built without fontconfig has the chosen one alone. */
int fallback_is_there(void);

/* Finds a font with outlines that has a character, the more alike a family the better. Answers whether there is one,
 * and then its file, which the caller frees, and its number in that. */
int fallback_find(const char *family, uint32_t character, char **file, int *index);

/* Finds a font of a family, and answers as fallback_find. */
int fallback_named(const char *family, char **file, int *index);

#endif
