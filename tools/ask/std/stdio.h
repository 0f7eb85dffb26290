/* What the sources here need of <stdio.h>: the kit's compiler comes with no headers. */
typedef __SIZE_TYPE__ size_t;
#define NULL ((void *)0)
typedef struct _IO_FILE FILE;
FILE *fopen(const char *path, const char *mode);
size_t fread(void *to, size_t size, size_t n, FILE *from);
int fclose(FILE *file);
int printf(const char *format, ...);
int puts(const char *text);
