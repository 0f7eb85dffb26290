/* What the sources here need of <stdlib.h>: the kit's compiler comes with no headers. */
unsigned long strtoul(const char *text, char **end, int base);
