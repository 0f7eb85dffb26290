/* ask: answers each line of standard input by a line of standard output (request.h).
 *
 *   load PATH     ok LENGTH, and `@` is that file from now on; `?` and why it cannot be read, and then no file is loaded
 *
 * It ends with status 0 at the end of the input, and with 1 and a message where the input cannot be read or the output written. */
#include "request.h"

/* What it uses of the C library for x86-64 Linux, in place of its headers. */
int open(const char *path, int flags, ...);
int close(int fd);
long lseek(int fd, long offset, int whence);
void *mmap(void *addr, size_t length, int prot, int flags, int fd, long offset);
int munmap(void *addr, size_t length);
long read(int fd, void *buf, size_t n);
long write(int fd, const void *buf, size_t n);
void *memchr(const void *s, int c, size_t n);
void *memcpy(void *to, const void *from, size_t n);
void *memmove(void *to, const void *from, size_t n);
size_t strlen(const char *text);
char *strerror(int number);
int *__errno_location(void);
void (*signal(int number, void (*handler)(int)))(int);
struct pollfd {
    int fd;
    short events, revents;
};
int poll(struct pollfd *fds, unsigned long count, int timeout);
#define errno (*__errno_location())
#define SIG_IGN ((void (*)(int))1)
enum { O_RDONLY = 0, O_NONBLOCK = 04000, O_CLOEXEC = 02000000, SEEK_END = 2, PROT_READ = 1, MAP_PRIVATE = 2 };
enum { EINTR = 4, EAGAIN = 11, POLLIN = 1, POLLOUT = 4, SIGPIPE = 13 };

enum { IN_ROOM = 1 << 20, OUT_ROOM = 4 << 20 };
static char in[IN_ROOM + 1], out[OUT_ROOM], path[LONGEST_LINE + 1];
static size_t out_length;

static int fail(const char *what, const char *why)
{
    const char *parts[] = {"ask: ", what, why ? ": " : "", why ? why : "", "\n"};
    for (size_t i = 0; i < sizeof parts / sizeof *parts; i++)
        if (write(2, parts[i], strlen(parts[i])) < 0)
            break;
    return 1;
}

/* Whether a call that failed is to be made again, once the file is ready. */
static bool again(int fd, short events)
{
    if (errno == EAGAIN) {
        struct pollfd ready = {fd, events, 0};
        return poll(&ready, 1, -1) >= 0 || errno == EINTR;
    }
    return errno == EINTR;
}

static bool flush(void)
{
    for (size_t done = 0; done < out_length;) {
        long n = write(1, out + done, out_length - done);
        if (n >= 0)
            done += (size_t)n;
        else if (!again(1, POLLOUT))
            return false;
    }
    out_length = 0;
    return true;
}

/* Loads the file of this path, and gives its length, or -1 and why not. */
static long load(const char *name, const char **why)
{
    static void *mapped;
    static size_t mapped_length;
    char first;
    if (mapped)
        munmap(mapped, mapped_length);
    mapped = NULL;
    request_unload();
    int fd = open(name, O_RDONLY | O_NONBLOCK | O_CLOEXEC);
    if (fd < 0) {
        *why = strerror(errno);
        return -1;
    }
    long got, size = -1;
    do
        got = read(fd, &first, 1); /* of a directory it fails, and of what has no bytes now */
    while (got < 0 && errno == EINTR);
    if (got < 0)
        *why = strerror(errno);
    else if ((size = lseek(fd, 0, SEEK_END)) < 0 || (size == 0) != (got == 0)) {
        *why = "not a file with a length";
        size = -1;
    } else if (size > 0 && (mapped = mmap(NULL, (size_t)size, PROT_READ, MAP_PRIVATE, fd, 0)) == (void *)-1) {
        *why = strerror(errno);
        mapped = NULL;
        size = -1;
    } else {
        mapped_length = (size_t)size;
        request_load(mapped, mapped_length); /* no bytes: a null pointer and length 0 */
    }
    close(fd);
    return size;
}

/* Writes the answer to a line. */
static void answer(const char *line, size_t length)
{
    char *to = out + out_length;
    if (length >= 5 && length <= LONGEST_LINE && line[0] == 'l' && line[1] == 'o' && line[2] == 'a' && line[3] == 'd' && line[4] == ' ') {
        struct reply r = {to, to + ANSWER_ROOM, false};
        const char *why;
        memcpy(path, line + 5, length - 5);
        path[length - 5] = 0;
        bool cut = memchr(path, 0, length - 5) != NULL;
        long size = load(cut ? "" : path, &why); /* no file is called "" */
        if (size < 0)
            reply_wrong(&r, cut ? "a path has no byte 0" : why);
        else
            reply_ok(&r), reply_number(&r, (uint64_t)size);
        out_length += (size_t)(r.at - to);
    } else
        out_length += request_answer(line, length, to, ANSWER_ROOM);
    out[out_length++] = '\n';
}

int main(int argc, char **argv)
{
    (void)argv;
    if (argc != 1)
        return fail("usage: ask <REQUESTS >ANSWERS", NULL), 2;
    signal(SIGPIPE, SIG_IGN); /* a write then fails, and is told of */
    size_t kept = 0;
    bool skipping = false; /* the rest of a line that is too long */
    for (;;) {
        long got = read(0, in + kept, IN_ROOM - kept);
        if (got < 0) {
            if (again(0, POLLIN))
                continue;
            return fail("the input cannot be read", strerror(errno));
        }
        char *at = in, *end = in + kept + got, *newline;
        if (got == 0 && (kept > 0 || skipping))
            *end++ = '\n'; /* a last line that no newline ends */
        while ((newline = memchr(at, '\n', (size_t)(end - at)))) {
            if (skipping)
                skipping = false;
            else {
                if (OUT_ROOM - out_length <= ANSWER_ROOM && !flush())
                    return fail("the output cannot be written", strerror(errno));
                answer(at, (size_t)(newline - at));
            }
            at = newline + 1;
        }
        kept = (size_t)(end - at);
        if (kept > LONGEST_LINE && !skipping) {
            if (OUT_ROOM - out_length <= ANSWER_ROOM && !flush())
                return fail("the output cannot be written", strerror(errno));
            answer(at, kept);
            skipping = true;
        }
        if (skipping)
            kept = 0;
        memmove(in, at, kept);
        if (!flush())
            return fail("the output cannot be written", strerror(errno));
        if (got == 0)
            return 0;
    }
}
