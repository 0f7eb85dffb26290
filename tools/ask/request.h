/* request.h: a line of text in, a line of text out. Shared by the program `ask` (main.c) and the DLL (dll.c).
 *
 * A line is a word, then what its request takes, with one space between: numbers (decimal), byte orders (`le`, `be`), and last
 * bytes: `x00ff`, at most MOST_BYTES of them, or `@`, the loaded file. The answer has no newline:
 *
 *   ok VALUE..     accepted
 *   no NUMBER ..   refused
 *   part VALUE..   what was found up to bad bytes
 *   ? TEXT         the line is no request */
#ifndef REQUEST_H
#define REQUEST_H

#include <stdbool.h>
#include <stddef.h>
#include <stdint.h>

enum {
    MOST_NUMBERS = 16,
    MOST_BYTES = 32768,
    LONGEST_LINE = 65535,
    ANSWER_ROOM = 1 << 20 /* no answer is longer */
};

/* A line that was read. */
struct request {
    uint64_t number[MOST_NUMBERS]; /* of an order: 0 is `le`, 1 is `be` */
    const uint8_t *bytes;
    size_t length;
};

/* The answer, as it is written. What does not fit makes it `? the answer is too long`. */
struct reply {
    char *at, *end;
    bool over;
};

void reply_text(struct reply *r, const char *text);
void reply_number(struct reply *r, uint64_t n);                     /* ` 17` */
void reply_bytes(struct reply *r, const uint8_t *bytes, size_t n);  /* ` x00ff` */
void reply_ok(struct reply *r);
void reply_no(struct reply *r, uint64_t number);
void reply_part(struct reply *r);
void reply_wrong(struct reply *r, const char *text);

/* The bytes of a request as bytes of its own, for a function that writes to them. NULL, and `?` is answered: they are more than MOST_BYTES. */
uint8_t *request_own_bytes(const struct request *q, struct reply *r);

/* A row of the table of requests, in doors.c. `takes` has a letter for each word that follows the name:
 *   o a byte order    1 2 4 8 a number of so many bytes    b bytes, and they come last */
struct door {
    const char *name, *takes;
    void (*answer)(const struct request *q, struct reply *r);
};
extern const struct door doors[];
extern const size_t door_count;

/* What `@` is from now on. */
void request_load(const uint8_t *bytes, size_t length);
void request_unload(void);

/* Answers a line; gives how long the answer is. It needs a room of 64 and more. */
size_t request_answer(const char *line, size_t length, char *out, size_t room);

#endif
