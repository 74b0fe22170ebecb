#include <stddef.h>
char *getenv(const char *name);
unsigned long strtoul(const char *text, char **end, int base);
void *malloc(size_t size);
void *calloc(size_t count, size_t size);
void free(void *memory);
_Noreturn void abort(void);
