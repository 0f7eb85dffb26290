/* What the sources here need of <stddef.h>: the kit's compiler comes with no headers. */
typedef __SIZE_TYPE__ size_t;
#define NULL ((void *)0)
