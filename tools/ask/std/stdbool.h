/* What the sources here need of <stdbool.h>: the kit's compiler comes with no headers. */
#define bool _Bool
#define true 1
#define false 0
