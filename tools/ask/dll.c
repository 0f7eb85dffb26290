/* dll.c: the request layer for Windows, so that what runs there can be asked by lines (tools/emulate). It reads no files. */
#include "request.h"

/* Answers a line, without its newline; gives how long the answer is, or -1 where the room is less than 64 bytes. */
__declspec(dllexport) int64_t ask_line(const char *line, size_t length, char *out, size_t room)
{
    return room < 64 ? -1 : (int64_t)request_answer(line, length, out, room);
}

/* What `@` is from now on: these bytes, or with a null pointer and length 1 none. */
__declspec(dllexport) void ask_load(const uint8_t *bytes, size_t length)
{
    if (!bytes && length)
        request_unload();
    else
        request_load(bytes, length);
}
