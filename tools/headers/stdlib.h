/* What is used here of C's header of this name, for the kit's compiler, which has no headers of its own. */
#ifndef STDLIB_H
#define STDLIB_H
int atoi(const char *text);
void exit(int status) __attribute__((noreturn));
#endif
