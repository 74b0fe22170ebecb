#include "fallback.h"

#ifdef HAS_FONTCONFIG

#include <fontconfig/fontconfig.h>
#include <stdlib.h>
#include <string.h>

int fallback_is_there(void) {
    return 1;
}

/* What is asked for: a character, outlines without colors of their own, and a family. */
static FcPattern *pattern_of(const char *family, uint32_t character) {
    FcPattern *pattern = FcPatternCreate();
    FcCharSet *characters = FcCharSetCreate();
    if (pattern && characters && FcCharSetAddChar(characters, character)) {
        FcPatternAddCharSet(pattern, FC_CHARSET, characters);
        FcPatternAddBool(pattern, FC_OUTLINE, FcTrue);
        FcPatternAddBool(pattern, FC_COLOR, FcFalse);
        if (family)
            FcPatternAddString(pattern, FC_FAMILY, (const FcChar8 *)family);
        FcConfigSubstitute(NULL, pattern, FcMatchPattern);
        FcDefaultSubstitute(pattern);
    }
    if (characters)
        FcCharSetDestroy(characters);
    return pattern;
}

/* The font that is nearest to what is asked for. The caller destroys it. */
static FcPattern *nearest(const char *family, uint32_t character) {
    FcPattern *pattern = pattern_of(family, character);
    FcResult result;
    FcPattern *found = pattern ? FcFontMatch(NULL, pattern, &result) : NULL;
    if (pattern)
        FcPatternDestroy(pattern);
    return found;
}

/* Copies the name of a font's file, and answers whether there is one. */
static int file_of(const FcPattern *found, char **file, int *index) {
    FcChar8 *name;
    if (FcPatternGetString(found, FC_FILE, 0, &name) != FcResultMatch)
        return 0;
    if (FcPatternGetInteger(found, FC_INDEX, 0, index) != FcResultMatch)
        *index = 0;
    *file = malloc(strlen((const char *)name) + 1);
    if (*file)
        strcpy(*file, (const char *)name);
    return *file != NULL;
}

int fallback_find(const char *family, uint32_t character, char **file, int *index) {
    FcPattern *found = nearest(family, character);
    FcCharSet *has;
    if (!found)
        return 0;
    int is_found = FcPatternGetCharSet(found, FC_CHARSET, 0, &has) == FcResultMatch &&
                   FcCharSetHasChar(has, character) && file_of(found, file, index);
    FcPatternDestroy(found);
    return is_found;
}

int fallback_named(const char *family, char **file, int *index) {
    FcPattern *found = nearest(family, ' ');
    FcChar8 *name;
    int is_found = 0;
    for (int i = 0; found && !is_found && FcPatternGetString(found, FC_FAMILY, i, &name) == FcResultMatch; i++)
        is_found = !FcStrCmpIgnoreCase(name, (const FcChar8 *)family) && file_of(found, file, index);
    if (found)
        FcPatternDestroy(found);
    return is_found;
}

#else

int fallback_is_there(void) {
    return 0;
}

int fallback_find(const char *family, uint32_t character, char **file, int *index) {
    (void)family, (void)character, (void)file, (void)index;
    return 0;
}

int fallback_named(const char *family, char **file, int *index) {
    (void)family, (void)file, (void)index;
    return 0;
}

#endif
