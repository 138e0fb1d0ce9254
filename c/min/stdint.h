/* What the programs here need of <stdint.h>; stddef.h beside it says why. */
#ifndef MIN_STDINT_H
#define MIN_STDINT_H

typedef __UINT8_TYPE__ uint8_t;
typedef __UINT16_TYPE__ uint16_t;
typedef __UINT32_TYPE__ uint32_t;
typedef __UINT64_TYPE__ uint64_t;
typedef __INT64_TYPE__ int64_t;
typedef __UINTPTR_TYPE__ uintptr_t;

#define UINT32_C(c) __UINT32_C(c)
#define UINT64_C(c) __UINT64_C(c)
#define INT64_C(c) __INT64_C(c)
#define UINT32_MAX __UINT32_MAX__
#define SIZE_MAX __SIZE_MAX__
#define INT64_MAX __INT64_MAX__
#define INT64_MIN (-INT64_MAX - 1)

#endif
