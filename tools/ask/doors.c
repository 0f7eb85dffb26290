/* doors.c: the requests (docs/ASK.md), each a row of the table at the end and a function that asks the library.
 *
 * What a function writes holds a pattern before. A refusal must set every number that goes out to 0, and no function may write to a list
 * after its rows: the answer is `?` where that is not so. */
#include "hullsift.h"
#include "request.h"

#define BYTES q->bytes, q->length
#define N(i) q->number[i]
#define WORDS(out) (const uint64_t *)&(out), sizeof(out) / sizeof(uint64_t)

enum { PATTERN = 0xA5 };

/* ---- answers: `no NUMBER`, or `ok` and numbers of what came out: all of them, or `count` from `first` on */

static void numbers(struct reply *r, const uint64_t *n, size_t count)
{
    for (size_t i = 0; i < count; i++)
        reply_number(r, n[i]);
}

/* Whether a function has refused, which is then answered. */
static bool refused(struct reply *r, uint8_t answer, const uint64_t *out, size_t count)
{
    if (!answer)
        return false;
    for (size_t i = 0; i < count; i++)
        if (out[i]) {
            reply_wrong(r, "a refusal left a number");
            return true;
        }
    reply_no(r, answer);
    return true;
}

static void told(struct reply *r, uint8_t answer, const uint64_t *out, size_t of, size_t first, size_t count)
{
    if (refused(r, answer, out, of))
        return;
    reply_ok(r);
    numbers(r, out + first, count);
}

/* A request that is answered by `count` numbers of TYPE, from `first` on; by all of them. */
#define SOME(name, type, first, count, call) \
    static void name(const struct request *q, struct reply *r) \
    { \
        type out; \
        __builtin_memset(&out, PATTERN, sizeof out); \
        uint8_t answer = call; \
        told(r, answer, WORDS(out), first, count); \
    }
#define ALL(name, type, call) SOME(name, type, 0, sizeof(type) / sizeof(uint64_t), call)

/* A request that writes to bytes of its own, and is answered by the bytes then, also where it refused. */
#define WRITE(name, call) \
    static void name(const struct request *q, struct reply *r) \
    { \
        uint8_t *own = request_own_bytes(q, r); \
        if (own) \
            written(q, r, own, call); \
    }

static void written(const struct request *q, struct reply *r, const uint8_t *own, uint8_t answer)
{
    if (answer)
        reply_no(r, answer);
    else
        reply_ok(r);
    reply_bytes(r, own, q->length);
}

/* ---- fields */

ALL(read_u8, uint64_t, hullsift_read_u8(BYTES, N(0), &out))
ALL(read_u16, uint64_t, hullsift_read_u16(BYTES, N(1), N(0), &out))
ALL(read_u32, uint64_t, hullsift_read_u32(BYTES, N(1), N(0), &out))
ALL(read_u64, uint64_t, hullsift_read_u64(BYTES, N(1), N(0), &out))
ALL(next_u8, struct hullsift_next, hullsift_next_u8(BYTES, N(0), &out))
ALL(next_u16, struct hullsift_next, hullsift_next_u16(BYTES, N(1), N(0), &out))
ALL(next_u32, struct hullsift_next, hullsift_next_u32(BYTES, N(1), N(0), &out))
ALL(next_u64, struct hullsift_next, hullsift_next_u64(BYTES, N(1), N(0), &out))
WRITE(write_u8, hullsift_write_u8(own, q->length, N(0), N(1)))
WRITE(write_u16, hullsift_write_u16(own, q->length, N(1), N(2), N(0)))
WRITE(write_u32, hullsift_write_u32(own, q->length, N(1), N(2), N(0)))
WRITE(write_u64, hullsift_write_u64(own, q->length, N(1), N(2), N(0)))

static void fits(const struct request *q, struct reply *r)
{
    reply_ok(r);
    reply_number(r, hullsift_fits(N(0), N(1), N(2)));
}

static void words(const struct request *q, struct reply *r)
{
    uint8_t row[64];
    hullsift_words(N(0), row);
    reply_ok(r);
    reply_bytes(r, row, sizeof row);
}

/* ---- fat files */

ALL(fat, uint64_t, hullsift_fat_open(BYTES, &out))
ALL(fat_member, struct hullsift_fat_arch, hullsift_fat_arch(BYTES, N(0), &out))
ALL(fat_arch_at, struct hullsift_fat_arch, hullsift_read_fat_arch(BYTES, N(0), &out))

static void fat_bytes(const struct request *q, struct reply *r)
{
    struct hullsift_fat_arch out;
    uint8_t answer = hullsift_fat_arch(BYTES, N(0), &out);
    if (refused(r, answer, WORDS(out)))
        return;
    if (!hullsift_fits(q->length, out.offset, out.size))
        return reply_wrong(r, "the member does not lie in the file");
    reply_ok(r);
    reply_bytes(r, q->bytes + out.offset, out.size);
}

/* ---- headers and sections */

ALL(coff, struct hullsift_coff_header, hullsift_read_coff_header(BYTES, N(0), &out))
ALL(optional, struct hullsift_optional_header, hullsift_read_optional_header(BYTES, N(0), N(1), &out))
ALL(pe, struct hullsift_pe_header, hullsift_pe_open(BYTES, &out))

static void dos(const struct request *q, struct reply *r)
{
    uint16_t halves[30];
    uint32_t pe_pointer = -1;
    uint64_t out[31];
    __builtin_memset(halves, PATTERN, sizeof halves);
    uint8_t answer = hullsift_read_dos_header(BYTES, N(0), halves, &pe_pointer);
    for (size_t i = 0; i < 30; i++)
        out[i] = halves[i];
    out[30] = pe_pointer;
    told(r, answer, WORDS(out), 0, 31);
}

/* The header that is at the third number, with the first for its signature, to the second. */
static uint8_t move_dos(const struct request *q, uint8_t *own)
{
    uint16_t halves[30];
    uint32_t pe_pointer;
    uint8_t answer = hullsift_read_dos_header(own, q->length, N(2), halves, &pe_pointer);
    halves[0] = (uint16_t)N(0);
    return answer ? answer : hullsift_write_dos_header(own, q->length, N(1), halves, pe_pointer);
}
WRITE(dos_put, move_dos(q, own))

static void section(const struct request *q, struct reply *r)
{
    struct hullsift_section out;
    uint8_t name[8], answer = hullsift_section(BYTES, N(0), N(1), N(2), &out);
    if (refused(r, answer, WORDS(out)))
        return;
    for (size_t i = 0; i < sizeof name; i++)
        name[i] = (uint8_t)(out.name >> 8 * i);
    reply_ok(r);
    reply_bytes(r, name, sizeof name);
    numbers(r, &out.virtual_size, sizeof out / sizeof(uint64_t) - 1);
}

/* The first three numbers of a request. */
#define SECTIONS &(const struct hullsift_sections){N(0), N(1), N(2)}
ALL(find_offset, uint64_t, hullsift_find_offset(BYTES, SECTIONS, N(3), &out))

/* ---- exception data */

/* A table by two numbers of a request from the i-th on. The sections of an opened table play no part in lookups: they hold a pattern. */
#define OPENED(machine, i) &(const struct hullsift_exception_data){machine, N(i), N(i + 1), {-1, -1, -1}}
#define X64 0x8664

SOME(exceptions, struct hullsift_exception_data, 1, 5, hullsift_exceptions_open(BYTES, &out))
ALL(exceptions_all, struct hullsift_exception_data, hullsift_exceptions_open(BYTES, &out))
ALL(runtime, struct hullsift_runtime_function, hullsift_read_runtime_function(BYTES, N(0), &out))
WRITE(runtime_put, hullsift_write_runtime_function(own, q->length, N(0), N(1), N(2), N(3)))
ALL(record, struct hullsift_runtime_function, hullsift_get_function(BYTES, OPENED(X64, 0), N(2), &out))
SOME(lookup, struct hullsift_found_function, 0, 3, hullsift_find_function(BYTES, OPENED(X64, 0), N(2), &out))
ALL(lookup_reads, struct hullsift_found_function, hullsift_find_function(BYTES, OPENED(X64, 0), N(2), &out))
ALL(lookup_checked, struct hullsift_checked_function, hullsift_check_and_find(BYTES, OPENED(X64, 0), N(2), &out))
ALL(record_as, struct hullsift_runtime_function, hullsift_get_function(BYTES, OPENED(N(0), 1), N(3), &out))
ALL(lookup_as, struct hullsift_found_function, hullsift_find_function(BYTES, OPENED(N(0), 1), N(3), &out))
ALL(lookup_checked_as, struct hullsift_checked_function, hullsift_check_and_find(BYTES, OPENED(N(0), 1), N(3), &out))

static void table_check(const struct request *q, struct reply *r)
{
    told(r, hullsift_check_table(BYTES, N(0), N(1)), NULL, 0, 0, 0);
}

/* ---- unwind info */

SOME(codes, struct hullsift_checked_info, 0, 1, hullsift_check_info(BYTES, N(0), &out))

/* Version, prolog, frame register and offset, then what follows the codes. */
static void put_info(struct reply *r, const struct hullsift_unwind_info *info)
{
    reply_ok(r);
    numbers(r, (const uint64_t[]){info->version, info->size_of_prolog, info->frame_register, info->frame_offset, info->follows}, 5);
    if (info->follows != HULLSIFT_NOTHING)
        numbers(r, &info->a, 3);
}

static void unwind(const struct request *q, struct reply *r)
{
    struct hullsift_unwind_info out;
    uint8_t answer = hullsift_read_info(BYTES, N(0), &out);
    if (!refused(r, answer, WORDS(out)))
        put_info(r, &out);
}

static void slots(const struct request *q, struct reply *r)
{
    struct hullsift_unwind_info out;
    uint8_t answer = hullsift_read_info(BYTES, N(0), &out);
    if (refused(r, answer, WORDS(out)))
        return;
    reply_ok(r);
    numbers(r, (const uint64_t[]){out.flags, out.count_of_codes, out.code_start}, 3);
}

/* The numbers that its kind has. */
static void code(const struct request *q, struct reply *r)
{
    struct hullsift_code out;
    uint8_t answer = hullsift_read_code(BYTES, N(0), N(1), &out);
    if (refused(r, answer, WORDS(out)))
        return;
    reply_ok(r);
    numbers(r, &out.code_offset, 2);
    switch (out.kind) {
    case HULLSIFT_PUSH:
        return numbers(r, &out.reg, 1);
    case HULLSIFT_SAVE:
    case HULLSIFT_SAVE_LOW_XMM:
    case HULLSIFT_SAVE_XMM:
        return numbers(r, &out.reg, 3);
    case HULLSIFT_EPILOG:
        return numbers(r, (const uint64_t[]){out.amount, out.base}, 2);
    case HULLSIFT_ALLOC:
    case HULLSIFT_MACHINE_FRAME:
        return numbers(r, &out.amount, 1);
    }
}

static void register_name(const struct request *q, struct reply *r)
{
    uint8_t name[6];
    hullsift_register_name(N(0), name);
    reply_ok(r);
    reply_bytes(r, name, sizeof name);
}

/* ---- links */

ALL(record_at, struct hullsift_runtime_function, hullsift_record_at(BYTES, SECTIONS, N(3), &out))
ALL(next_info, struct hullsift_reached_info, hullsift_next_info(BYTES, SECTIONS, N(3), N(4), N(5), N(6), &out))
ALL(all_codes, struct hullsift_totals, hullsift_count_all_codes(BYTES, SECTIONS, N(3), N(4), N(5), &out))

/* The info at an index of the chain of a record, and whether it was reached; else that is answered. */
static bool reached(const struct request *q, struct reply *r, struct hullsift_reached_info *out)
{
    uint8_t answer = hullsift_first_info(BYTES, SECTIONS, N(3), N(4), N(5), out);
    for (uint64_t left = N(6); left > 0 && !answer; left--) {
        if (out->info.follows != HULLSIFT_CHAINED) {
            reply_no(r, HULLSIFT_NOT_FOUND);
            return false;
        }
        struct hullsift_reached_info from = *out;
        answer = hullsift_next_info(BYTES, SECTIONS, from.links, from.info.a, from.info.b, from.info.c, out);
    }
    return !refused(r, answer, WORDS(*out));
}

static void info_of(const struct request *q, struct reply *r)
{
    struct hullsift_reached_info out;
    if (reached(q, r, &out))
        put_info(r, &out.info);
}

static void link_of(const struct request *q, struct reply *r)
{
    struct hullsift_reached_info out;
    if (reached(q, r, &out))
        told(r, 0, WORDS(out), 0, 3);
}

/* ---- scope tables */

ALL(scopes, uint64_t, hullsift_count_scopes_in(BYTES, &out))
ALL(scope, struct hullsift_scope, hullsift_scope_in(BYTES, N(0), &out))
ALL(scopes_at, uint64_t, hullsift_count_scopes_at(BYTES, N(0), &out))
ALL(scope_at, struct hullsift_scope, hullsift_scope_at(BYTES, N(0), N(1), &out))
ALL(scope_read, struct hullsift_scope, hullsift_read_scope(BYTES, N(0), &out))
WRITE(scope_put, hullsift_write_scope(own, q->length, N(0), N(1), N(2), N(3), N(4)))

/* ---- symbol versions: ORDER START SIZE, then what differs */

ALL(versym, struct hullsift_versym, hullsift_versym(BYTES, N(1), N(2), N(3), N(0), &out))

/* Answer 1 of a section that lies in the file is no refusal: `part`. */
static bool cut(const struct request *q, uint8_t answer)
{
    return answer == HULLSIFT_SHORT && hullsift_fits(q->length, N(1), N(2));
}

static void versym_count(const struct request *q, struct reply *r)
{
    uint64_t count = -1;
    uint8_t answer = hullsift_count_versym(BYTES, N(1), N(2), &count);
    if (cut(q, answer))
        reply_part(r);
    else if (refused(r, answer, &count, 1))
        return;
    else
        reply_ok(r);
    reply_number(r, count);
}

/* A list that was lent, with a pattern in it, and the answer that it came with. */
struct list {
    uint32_t *numbers;
    size_t room, row; /* in numbers */
    uint8_t answer;
    uint64_t count;
};
enum { MOST_ROWS = HULLSIFT_RECORD_LIMIT, LONGEST_ROW = 8 }; /* more rows than this are not lent: no list has more */
static uint32_t record_list[MOST_ROWS * LONGEST_ROW], auxiliary_list[MOST_ROWS * LONGEST_ROW];

static uint32_t unwritten(size_t i)
{
    return (uint32_t)PATTERN << 24 | (uint32_t)i;
}

static struct list lent(uint32_t *numbers, size_t row, uint64_t room)
{
    struct list l = {numbers, room < MOST_ROWS * row ? room : MOST_ROWS * row, row, 0, -1};
    for (size_t i = 0; i < l.room; i++)
        l.numbers[i] = unwritten(i);
    return l;
}

/* How many numbers so many rows have. */
static size_t numbers_in(uint64_t rows, size_t row)
{
    return rows < MOST_ROWS ? rows * row : MOST_ROWS * row;
}

/* Which function asks for the list, and how long its rows are. */
struct listing {
    uint8_t (*records)(const uint8_t *, size_t, size_t, size_t, size_t, bool, uint32_t *, size_t, uint64_t *);
    uint8_t (*auxiliaries)(const uint8_t *, size_t, size_t, size_t, uint32_t, uint32_t, uint32_t, bool, uint32_t *, size_t, uint64_t *);
    size_t row, auxiliary_row, aux, cnt; /* and where a row has its offset to the auxiliaries, and their number */
};
static const struct listing definitions = {hullsift_verdefs, hullsift_verdauxs, 8, 3, 6, 4};
static const struct listing needs = {hullsift_verneeds, hullsift_vernauxs, 6, 6, 4, 2};

static struct list list_records(const struct request *q, const struct listing *by, uint64_t room)
{
    struct list l = lent(record_list, by->row, room);
    l.answer = by->records(BYTES, N(1), N(2), N(3), N(0), l.numbers, l.room, &l.count);
    return l;
}

static struct list list_auxiliaries(const struct request *q, const struct listing *by, uint32_t place, uint32_t aux, uint32_t cnt, uint64_t room)
{
    struct list l = lent(auxiliary_list, by->auxiliary_row, room);
    l.answer = by->auxiliaries(BYTES, N(1), N(2), place, aux, cnt, N(0), l.numbers, l.room, &l.count);
    return l;
}

/* How many rows, and the fields of each; or, where `whole`, all numbers of the list, with places and with what was left. */
static void put_list(const struct request *q, struct reply *r, const struct list *l, bool whole)
{
    bool no = l->answer && !cut(q, l->answer);
    size_t used = no ? 0 : l->count * l->row;
    if (l->count > MOST_ROWS || used > l->room || (no && l->count))
        return reply_wrong(r, "the count is not that of the list");
    for (size_t i = used; i < l->room && !whole; i++)
        if (l->numbers[i] != unwritten(i))
            return reply_wrong(r, "the list was written to after its end");
    if (no)
        reply_no(r, l->answer);
    else if (l->answer)
        reply_part(r);
    else
        reply_ok(r);
    if (!no)
        reply_number(r, l->count);
    for (size_t i = 0; i < (whole ? l->room : used); i++)
        if (whole || i % l->row)
            reply_number(r, l->numbers[i]);
}

/* COUNT ROWS */
static void records(const struct request *q, struct reply *r, const struct listing *by)
{
    struct list l = list_records(q, by, numbers_in(N(4), by->row));
    put_list(q, r, &l, false);
}

/* COUNT ROOM */
static void records_list(const struct request *q, struct reply *r, const struct listing *by)
{
    struct list l = list_records(q, by, N(4));
    put_list(q, r, &l, true);
}

/* PLACE AUX CNT ROWS */
static void auxiliaries_at(const struct request *q, struct reply *r, const struct listing *by)
{
    struct list l = list_auxiliaries(q, by, N(3), N(4), N(5), numbers_in(N(6), by->auxiliary_row));
    put_list(q, r, &l, false);
}

/* PLACE AUX CNT ROOM */
static void auxiliaries_list(const struct request *q, struct reply *r, const struct listing *by)
{
    struct list l = list_auxiliaries(q, by, N(3), N(4), N(5), N(6));
    put_list(q, r, &l, true);
}

/* COUNT INDEX: of the record with that index in the list. */
static void auxiliaries(const struct request *q, struct reply *r, const struct listing *by)
{
    struct list l = list_records(q, by, numbers_in(N(3), by->row)); /* room for as many as it states */
    if (l.answer && !cut(q, l.answer))
        return put_list(q, r, &l, false);
    if (N(4) >= l.count)
        return reply_no(r, HULLSIFT_NOT_FOUND);
    const uint32_t *row = l.numbers + N(4) * by->row;
    struct list found = list_auxiliaries(q, by, row[0], row[by->aux], row[by->cnt], numbers_in(row[by->cnt], by->auxiliary_row));
    put_list(q, r, &found, false);
}

#define LISTS(name, of, by) \
    static void name(const struct request *q, struct reply *r) { of(q, r, &by); }
LISTS(verdefs, records, definitions)
LISTS(verneeds, records, needs)
LISTS(verdefs_list, records_list, definitions)
LISTS(verneeds_list, records_list, needs)
LISTS(verdauxs, auxiliaries, definitions)
LISTS(vernauxs, auxiliaries, needs)
LISTS(verdauxs_at, auxiliaries_at, definitions)
LISTS(vernauxs_at, auxiliaries_at, needs)
LISTS(verdauxs_list, auxiliaries_list, definitions)
LISTS(vernauxs_list, auxiliaries_list, needs)

const struct door doors[] = {
    {"u8", "8b", read_u8}, /* AT BYTES */
    {"u16", "o8b", read_u16}, /* ORDER AT BYTES */
    {"u32", "o8b", read_u32},
    {"u64", "o8b", read_u64},
    {"put8", "81b", write_u8}, /* AT NUMBER BYTES */
    {"put16", "o82b", write_u16}, /* ORDER AT NUMBER BYTES */
    {"put32", "o84b", write_u32},
    {"put64", "o88b", write_u64},
    {"fits", "888", fits}, /* LENGTH AT WIDTH */
    {"next8", "8b", next_u8}, /* AT BYTES */
    {"next16", "o8b", next_u16}, /* ORDER AT BYTES */
    {"next32", "o8b", next_u32},
    {"next64", "o8b", next_u64},
    {"words", "1", words}, /* NUMBER */
    {"fat", "b", fat}, /* BYTES */
    {"fat_member", "8b", fat_member}, /* INDEX BYTES */
    {"fat_bytes", "8b", fat_bytes}, /* INDEX BYTES */
    {"fat_arch_at", "8b", fat_arch_at}, /* AT BYTES */
    {"dos", "8b", dos}, /* AT BYTES */
    {"dos_put", "288b", dos_put}, /* SIGNATURE AT FROM BYTES */
    {"coff", "8b", coff}, /* AT BYTES */
    {"optional", "88b", optional}, /* AT SIZE BYTES */
    {"pe", "b", pe}, /* BYTES */
    {"section", "888b", section}, /* TABLE COUNT INDEX BYTES */
    {"find_offset", "8888b", find_offset}, /* TABLE COUNT ALIGNMENT ADDRESS BYTES */
    {"exceptions", "b", exceptions}, /* BYTES */
    {"exceptions_all", "b", exceptions_all}, /* BYTES */
    {"runtime", "8b", runtime}, /* AT BYTES */
    {"runtime_put", "8444b", runtime_put}, /* AT BEGIN END UNWIND BYTES */
    {"record", "888b", record}, /* TABLE COUNT INDEX BYTES */
    {"record_as", "8888b", record_as}, /* MACHINE TABLE COUNT INDEX BYTES */
    {"lookup", "884b", lookup}, /* TABLE COUNT ADDRESS BYTES */
    {"lookup_reads", "884b", lookup_reads},
    {"lookup_checked", "884b", lookup_checked},
    {"lookup_as", "8884b", lookup_as}, /* MACHINE TABLE COUNT ADDRESS BYTES */
    {"lookup_checked_as", "8884b", lookup_checked_as},
    {"table_check", "88b", table_check}, /* TABLE COUNT BYTES */
    {"unwind", "8b", unwind}, /* AT BYTES */
    {"slots", "8b", slots}, /* AT BYTES */
    {"codes", "8b", codes}, /* AT BYTES */
    {"code", "88b", code}, /* AT INDEX BYTES */
    {"register", "1", register_name}, /* NUMBER */
    {"record_at", "8884b", record_at}, /* TABLE COUNT ALIGNMENT ADDRESS BYTES */
    {"info_of", "8884448b", info_of}, /* TABLE COUNT ALIGNMENT BEGIN END UNWIND INDEX BYTES */
    {"link_of", "8884448b", link_of},
    {"next_info", "8888444b", next_info}, /* TABLE COUNT ALIGNMENT LINKS BEGIN END UNWIND BYTES */
    {"all_codes", "888444b", all_codes}, /* TABLE COUNT ALIGNMENT BEGIN END UNWIND BYTES */
    {"scopes", "b", scopes}, /* BYTES */
    {"scope", "8b", scope}, /* INDEX BYTES */
    {"scope_read", "8b", scope_read}, /* AT BYTES */
    {"scope_put", "84444b", scope_put}, /* AT BEGIN END HANDLER TARGET BYTES */
    {"scopes_at", "8b", scopes_at}, /* AT BYTES */
    {"scope_at", "88b", scope_at}, /* AT INDEX BYTES */
    {"versym_count", "o88b", versym_count}, /* ORDER START SIZE BYTES */
    {"versym", "o888b", versym}, /* ORDER START SIZE INDEX BYTES */
    {"verdefs", "o8888b", verdefs}, /* ORDER START SIZE COUNT ROWS BYTES */
    {"verneeds", "o8888b", verneeds},
    {"verdefs_list", "o8888b", verdefs_list}, /* ORDER START SIZE COUNT ROOM BYTES */
    {"verneeds_list", "o8888b", verneeds_list},
    {"verdauxs", "o8888b", verdauxs}, /* ORDER START SIZE COUNT INDEX BYTES */
    {"vernauxs", "o8888b", vernauxs},
    {"verdauxs_at", "o884448b", verdauxs_at}, /* ORDER START SIZE PLACE AUX CNT ROWS BYTES */
    {"vernauxs_at", "o884448b", vernauxs_at},
    {"verdauxs_list", "o884448b", verdauxs_list}, /* ORDER START SIZE PLACE AUX CNT ROOM BYTES */
    {"vernauxs_list", "o884448b", vernauxs_list},
};
const size_t door_count = sizeof doors / sizeof *doors;
