/* What is used here of C's header of this name, for the kit's compiler, which has no headers of its own. */
#ifndef STDIO_H
#define STDIO_H
#include <stddef.h>
typedef struct _IO_FILE FILE;
extern FILE *stdin, *stdout, *stderr;
FILE *fopen(const char *restrict name, const char *restrict mode);
int fclose(FILE *file);
int ferror(FILE *file);
int fflush(FILE *file);
size_t fread(void *restrict to, size_t size, size_t count, FILE *restrict file);
size_t fwrite(const void *restrict from, size_t size, size_t count, FILE *restrict file);
int fprintf(FILE *restrict file, const char *restrict format, ...);
int printf(const char *restrict format, ...);
int snprintf(char *restrict to, size_t size, const char *restrict format, ...);
#endif
