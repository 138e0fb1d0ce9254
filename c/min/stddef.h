/* What the programs here need of <stddef.h>, from the compiler's own macros: the toolchain's clang has
 * no headers beside it, and a machine need not have any. Only the builds here put this folder in the path. */
#ifndef MIN_STDDEF_H
#define MIN_STDDEF_H

typedef __SIZE_TYPE__ size_t;

#define NULL ((void *)0)
#define offsetof(type, member) __builtin_offsetof(type, member)

#endif
