/* What is used here of C's header of this name, for the kit's compiler, which has no headers of its own. */
#ifndef STDDEF_H
#define STDDEF_H
typedef __SIZE_TYPE__ size_t;
#ifdef __cplusplus
#define NULL 0
#else
#define NULL ((void *)0)
#endif
#endif
