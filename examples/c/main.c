/* Prints the operations that unwind an address of an x64 image, along the chain of its unwind infos. `tools/examples` builds and runs it; by hand:
 *   cc -Iinclude examples/c/main.c target/library/linux/libhullsift.a -o unwind && ./unwind IMAGE ADDRESS */
#include <stdio.h>
#include <stdlib.h>
#include "hullsift.h"

static void put(const uint8_t *text, int length) /* which spaces fill up */
{
    while (length > 0 && text[length - 1] == ' ')
        length--;
    printf("%.*s", length, (const char *)text);
}

static void put_register(uint64_t number)
{
    uint8_t name[6];
    hullsift_register_name((uint8_t)number, name);
    put(name, sizeof name);
}

static int refused(const char *what, uint8_t answer)
{
    uint8_t words[64];
    hullsift_words(answer, words);
    printf("%s: refused with %u: ", what, (unsigned)answer);
    put(words, sizeof words);
    return puts(""), 1;
}

static void put_code(const struct hullsift_code *code, const struct hullsift_unwind_info *info)
{
    unsigned amount = (unsigned)code->amount;
    printf("  %3u ", (unsigned)code->code_offset);
    switch (code->kind) {
    case HULLSIFT_PUSH: printf("push "), put_register(code->reg); break;
    case HULLSIFT_ALLOC: printf("alloc %u", amount); break;
    case HULLSIFT_SET_FRAME: printf("set "), put_register(info->frame_register), printf(" to $rsp + %u", (unsigned)info->frame_offset); break;
    case HULLSIFT_SAVE: case HULLSIFT_SAVE_LOW_XMM: case HULLSIFT_SAVE_XMM:
        printf("save "), put_register(code->reg), printf(" at "), put_register(code->base ? info->frame_register : 4), printf(" + %u", amount);
        break;
    case HULLSIFT_MACHINE_FRAME: printf("machine frame%s", amount ? " with an error code" : ""); break;
    default: printf("no effect here"); /* an epilog, or an operation that does nothing */
    }
    puts("");
}

int main(int argc, char **argv)
{
    static uint8_t file[HULLSIFT_FILE_LIMIT + 1]; /* of a longer file so much is read that it is refused */
    FILE *from = argc == 3 ? fopen(argv[1], "rb") : NULL;
    if (!from)
        return puts("usage: unwind IMAGE ADDRESS"), 2;
    size_t length = fread(file, 1, sizeof file, from);
    fclose(from);

    struct hullsift_exception_data opened;
    struct hullsift_found_function found;
    struct hullsift_reached_info here;
    struct hullsift_code code;
    uint8_t answer;
    if ((answer = hullsift_exceptions_open(file, length, &opened)))
        return refused("exceptions_open", answer);
    if ((answer = hullsift_find_function(file, length, &opened, (uint32_t)strtoul(argv[2], NULL, 0), &found)))
        return refused("find_function", answer);
    printf("function 0x%x to 0x%x\n", (unsigned)found.begin, (unsigned)found.end);
    if ((answer = hullsift_first_info(file, length, &opened.sections, (uint32_t)found.begin, (uint32_t)found.end, (uint32_t)found.unwind, &here)))
        return refused("first_info", answer);
    for (;;) {
        printf("info of 0x%x after %u links\n", (unsigned)here.begin, (unsigned)here.links);
        for (size_t i = 0; !(answer = hullsift_read_code(file, length, (size_t)here.offset, i, &code)); i++)
            put_code(&code, &here.info);
        if (answer != HULLSIFT_NOT_FOUND) /* the answer to the index after the last */
            return refused("read_code", answer);
        const struct hullsift_unwind_info *info = &here.info;
        if (info->follows != HULLSIFT_CHAINED)
            return 0;
        if ((answer = hullsift_next_info(file, length, &opened.sections, (size_t)here.links, (uint32_t)info->a, (uint32_t)info->b, (uint32_t)info->c, &here)))
            return refused("next_info", answer);
    }
}
