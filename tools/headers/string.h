/* What is used here of C's header of this name, for the kit's compiler, which has no headers of its own. */
#ifndef STRING_H
#define STRING_H
#include <stddef.h>
int memcmp(const void *a, const void *b, size_t size);
void *memcpy(void *restrict to, const void *restrict from, size_t size);
void *memset(void *to, int byte, size_t size);
int strcmp(const char *a, const char *b);
size_t strlen(const char *text);
size_t strspn(const char *text, const char *letters);
#endif
