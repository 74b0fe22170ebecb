/* Sees that pix_check_library refuses a library of which one fact is another: it is linked with other.c. */
#include "pix.h"
#include <stdio.h>

extern size_t other_fact;

int main(void) {
    size_t count = 0, i;
    int failures = pix_check_library() != PIX_OK;
    while (pix_layout(count) != UINT32_MAX)
        count++;
    /* Fact number `count` is one that the header does not have. */
    for (i = 0; i <= count; i++) {
        other_fact = i;
        if (pix_check_library() != PIX_BAD_LIBRARY) {
            fprintf(stderr, "library: fact %u is another, and is not refused\n", (unsigned)i);
            failures++;
        }
    }
    printf("library: %u facts, %d failures\n", (unsigned)count, failures);
    return failures != 0 || count != 65;
}
