/* request.c: see request.h. It uses no C library but memcpy. */
#include "request.h"

void *memcpy(void *to, const void *from, size_t n);

static uint8_t own[MOST_BYTES];
static const uint8_t *file;
static size_t file_length;
static bool loaded;

void request_load(const uint8_t *bytes, size_t length)
{
    file = bytes;
    file_length = length;
    loaded = true;
}

void request_unload(void)
{
    file = NULL;
    file_length = 0;
    loaded = false;
}

/* ---- four bytes and their eight digits, at once: each byte of a uint64_t is worked on by itself */

#define EACH(byte) ((uint64_t)(byte) * 0x0101010101010101u)

/* The digits of four bytes. */
static uint64_t to_digits(uint32_t four)
{
    uint64_t x = four;
    x = (x | x << 16) & 0x0000ffff0000ffffu;
    x = (x | x << 8) & 0x00ff00ff00ff00ffu;
    x = (x >> 4 | x << 8) & EACH(15);                     /* halves of bytes, in the order of the text */
    uint64_t letters = (x + EACH(6)) >> 4 & EACH(1);      /* 1 where it is 10 or more */
    return x + EACH('0') + letters * ('a' - '0' - 10);
}

/* The four bytes of eight digits; `bad` is not 0 where a character is no digit. */
static uint32_t of_digits(uint64_t text, uint64_t *bad)
{
    uint64_t letters = text >> 6 & EACH(1);               /* 1 where it is a letter */
    uint64_t x = (text & EACH(15)) + letters * 9;
    *bad |= (x & EACH(0xf0)) | (((x + EACH(6)) >> 4 & EACH(1)) ^ letters) | (text ^ (x + EACH('0') + letters * ('a' - '0' - 10)));
    x = (x << 4 | x >> 8) & 0x00ff00ff00ff00ffu;
    x = (x | x >> 8) & 0x0000ffff0000ffffu;
    return (uint32_t)(x | x >> 16);
}

/* ---- answers */

void reply_text(struct reply *r, const char *text)
{
    for (; *text; text++) {
        if (r->at == r->end) {
            r->over = true;
            return;
        }
        *r->at++ = *text;
    }
}

void reply_number(struct reply *r, uint64_t n)
{
    char text[21];
    size_t i = sizeof text;
    do
        text[--i] = (char)('0' + n % 10);
    while (n /= 10);
    text[--i] = ' ';
    if ((size_t)(r->end - r->at) < sizeof text - i) {
        r->over = true;
        return;
    }
    while (i < sizeof text)
        *r->at++ = text[i++];
}

void reply_bytes(struct reply *r, const uint8_t *bytes, size_t n)
{
    if (n > MOST_BYTES || (size_t)(r->end - r->at) < 2 + 2 * n) {
        r->over = true;
        return;
    }
    char *at = r->at;
    size_t i = 0;
    *at++ = ' ';
    *at++ = 'x';
    for (; n - i >= 4; i += 4, at += 8) {
        uint32_t four;
        __builtin_memcpy(&four, bytes + i, 4);
        uint64_t eight = to_digits(four);
        __builtin_memcpy(at, &eight, 8);
    }
    for (; i < n; i++) {
        *at++ = "0123456789abcdef"[bytes[i] >> 4];
        *at++ = "0123456789abcdef"[bytes[i] & 15];
    }
    r->at = at;
}

void reply_ok(struct reply *r)
{
    reply_text(r, "ok");
}

void reply_no(struct reply *r, uint64_t number)
{
    reply_text(r, "no");
    reply_number(r, number);
}

void reply_part(struct reply *r)
{
    reply_text(r, "part");
}

void reply_wrong(struct reply *r, const char *text)
{
    reply_text(r, "? ");
    reply_text(r, text);
}

/* ---- requests */

uint8_t *request_own_bytes(const struct request *q, struct reply *r)
{
    if (q->bytes == own)
        return own;
    if (q->length > MOST_BYTES) {
        reply_wrong(r, "the file is longer than the 32768 bytes that can be written to");
        return NULL;
    }
    if (q->length > 0)
        memcpy(own, q->bytes, q->length);
    return own;
}

/* Each reads one word, and gives NULL or what is wrong with it. */

static const char *read_number(const char *word, size_t n, char width, uint64_t *value)
{
    uint64_t most = width == '1' ? UINT8_MAX : width == '2' ? UINT16_MAX : width == '4' ? UINT32_MAX : UINT64_MAX, v = 0;
    if (n == 0)
        return "a number is missing";
    for (size_t i = 0; i < n; i++) {
        uint64_t digit = (uint64_t)word[i] - '0';
        if (digit > 9)
            return "a number is not decimal";
        if (n >= 19 && (v > UINT64_MAX / 10 || v * 10 > UINT64_MAX - digit))
            return "a number passes 64 bits";
        v = v * 10 + digit;
    }
    *value = v;
    return v <= most ? NULL : width == '1' ? "a number passes 8 bits" : width == '2' ? "a number passes 16 bits" : "a number passes 32 bits";
}

static const char *read_order(const char *word, size_t n, uint64_t *value)
{
    if (n != 2 || word[1] != 'e' || (word[0] != 'l' && word[0] != 'b'))
        return "a byte order is le or be";
    *value = word[0] == 'b';
    return NULL;
}

static const char *read_bytes(const char *word, size_t n, struct request *q)
{
    if (n == 1 && word[0] == '@') {
        q->bytes = file;
        q->length = file_length;
        return loaded ? NULL : "no file is loaded";
    }
    if (n == 0 || word[0] != 'x')
        return "bytes are x and pairs of digits 0-9 a-f, or @";
    if (n % 2 == 0)
        return "the bytes are no whole pairs of digits";
    if (n / 2 > MOST_BYTES)
        return "more than 32768 bytes";
    uint64_t eight, bad = 0;
    uint32_t four;
    size_t count = n / 2, i = 0;
    for (word++; count - i >= 4; i += 4, word += 8) {
        __builtin_memcpy(&eight, word, 8);
        four = of_digits(eight, &bad);
        __builtin_memcpy(own + i, &four, 4);
    }
    eight = EACH('0'); /* the last, and zeros after them */
    for (size_t j = 0; j < 2 * (count - i); j++)
        ((char *)&eight)[j] = word[j];
    four = of_digits(eight, &bad);
    for (size_t j = 0; i < count; i++, j++)
        own[i] = (uint8_t)(four >> 8 * j);
    q->bytes = own;
    q->length = count;
    return bad ? "the bytes are not digits 0-9 a-f" : NULL;
}

/* Whether a word is this name. */
static bool same(const char *word, size_t n, const char *name)
{
    size_t i = 0;
    while (i < n && name[i] && word[i] == name[i])
        i++;
    return i == n && !name[n];
}

static const char *answer(const char *line, size_t length, struct reply *r)
{
    const char *at = line, *end = line + length, *next = at;
    static const struct door *last = doors; /* a request is often like the one before */
    const struct door *door = last, *past = doors + door_count;
    struct request q;
    size_t count = 0;
    q.bytes = NULL;
    q.length = 0;
    while (next < end && *next != ' ')
        next++;
    if (!same(at, (size_t)(next - at), door->name))
        for (door = doors; door < past && !same(at, (size_t)(next - at), door->name);)
            door++;
    if (door == past)
        return "no such request";
    last = door;
    for (const char *take = door->takes; *take; take++) {
        const char *wrong;
        if (next == end)
            return "too few words";
        at = ++next;
        if (*take == 'b')
            next = end; /* bytes are the last word, and a space is no digit */
        while (next < end && *next != ' ')
            next++;
        size_t n = (size_t)(next - at);
        if (*take == 'b')
            wrong = read_bytes(at, n, &q);
        else if (*take == 'o')
            wrong = read_order(at, n, &q.number[count++]);
        else
            wrong = read_number(at, n, *take, &q.number[count++]);
        if (wrong)
            return wrong;
    }
    if (next < end)
        return "too many words";
    door->answer(&q, r);
    return NULL;
}

size_t request_answer(const char *line, size_t length, char *out, size_t room)
{
    struct reply r = {out, out + room, false};
    const char *wrong = length > LONGEST_LINE ? "line too long" : answer(line, length, &r);
    if (r.over)
        wrong = "the answer is too long";
    if (wrong) {
        r.at = out;
        reply_wrong(&r, wrong);
    }
    return (size_t)(r.at - out);
}
