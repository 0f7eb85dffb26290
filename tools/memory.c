/* memory.c: what a compiler calls for large copies. The library brings its own, so that it needs no C library:
 * as weak hidden symbols of the archive for Linux (MEMORY_WEAK), and elsewhere inside the one module, seen by nothing else. The
 * DLL's C code has them too, as plain functions (MEMORY empty). */
typedef __SIZE_TYPE__ size_t;

#ifdef MEMORY_WEAK
#define MEMORY __attribute__((weak, visibility("hidden")))
#elif !defined MEMORY
#define MEMORY __attribute__((used)) static
#endif

MEMORY void *memcpy(void *to, const void *from, size_t n)
{
    for (size_t i = 0; i < n; i++)
        ((char *)to)[i] = ((const char *)from)[i];
    return to;
}

MEMORY void *memmove(void *to, const void *from, size_t n)
{
    char *t = to;
    const char *f = from;
    if ((size_t)t - (size_t)f < n) /* `to` is after the start of `from`, and inside it */
        while (n--)
            t[n] = f[n];
    else
        for (size_t i = 0; i < n; i++)
            t[i] = f[i];
    return to;
}

MEMORY void *memset(void *to, int byte, size_t n)
{
    for (size_t i = 0; i < n; i++)
        ((char *)to)[i] = (char)byte;
    return to;
}
