/* hullsift.h: the functions that Hullsift exports to C. Each is proved to answer as docs/SPEC.md says, on every input.
 *
 * Answers. A function that can refuse returns the number of its answer: HULLSIFT_ACCEPTED (0), or why it refused. Values go out through
 * the last pointer, those of a DOS header through the last two. A refusal sets all of them to 0, and leaves lent bytes and lists as they
 * were. One answer 1 is no refusal: a list of version records that stops at bad bytes is written as far as it goes, and `count` says how
 * many entries that is.
 *
 * What the caller sees to. Bytes, and lists of numbers, are lent as a pointer and a length; with length 0 the pointer may be null. Every
 * other pointer leads to one whole object. Each is aligned for its type; what a function writes overlaps nothing else that is passed to it;
 * and nothing else writes to any of it before the function returns: do not lend memory that another program can change meanwhile, as a
 * driver would with a user's buffer. Nothing else is asked: offsets, counts, addresses and opened tables may be any numbers at all.
 *
 * The functions call nothing but each other, allocate nothing, and keep no state. tools/header compares this file with the source. */
#ifndef HULLSIFT_H
#define HULLSIFT_H

#include <stdbool.h>
#include <stddef.h>
#include <stdint.h>

#ifdef __cplusplus
extern "C" {
#endif

/* ---- answers ---- */

enum hullsift_answer {
    HULLSIFT_ACCEPTED = 0,
    HULLSIFT_SHORT = 1,          /* the bytes end before a needed field */
    HULLSIFT_MAGIC = 2,          /* a magic number or a signature is wrong */
    HULLSIFT_LIMIT = 3,          /* one of the limits below is passed */
    HULLSIFT_CONTRADICTION = 4,  /* a size or a count contradicts its table */
    HULLSIFT_NO_SECTION = 5,     /* no section maps the address */
    HULLSIFT_VERSION = 6,        /* the version of an unwind info is not 1 or 2 */
    HULLSIFT_OPERATION = 7,      /* an operation is unknown, or its info is */
    HULLSIFT_LINKS = 8,          /* more than 32 links */
    HULLSIFT_ORDER = 9,          /* a runtime table is not in order */
    HULLSIFT_NOT_FOUND = 10,     /* what was asked for is not there */
    HULLSIFT_NOT_STRICT = 11,    /* the prolog is not strict */
    HULLSIFT_STACK = 12,         /* a stack word is out of reach, or an address leaves 64 bits */
    HULLSIFT_ROOM = 13,          /* what the caller lent is too small */
    HULLSIFT_PAST_FILE = 14,     /* a fat member reaches past the file */
    HULLSIFT_MACHINE = 15        /* the machine is not x64 */
};

/* ---- limits ---- */

#define HULLSIFT_FILE_LIMIT 268435456u  /* bytes of a file */
#define HULLSIFT_SECTION_LIMIT 96u      /* sections of an image */
#define HULLSIFT_MEMBER_LIMIT 32u       /* members of a fat file */
#define HULLSIFT_RECORD_LIMIT 65535u    /* version records that a section states */
#define HULLSIFT_LINK_LIMIT 32u         /* links followed from one runtime record */
#define HULLSIFT_READ_LIMIT 26u         /* runtime records that a lookup reads */

/* The words for an answer, 64 bytes filled up with spaces; for a number above 15, those of no answer. */
void hullsift_words(uint8_t number, uint8_t words[64]);

/* ---- fields: numbers of 8 to 64 bits at an offset, big-endian where `big` ---- */

uint8_t hullsift_read_u8(const uint8_t *bytes, size_t bytes_len, size_t at, uint64_t *out);
uint8_t hullsift_read_u16(const uint8_t *bytes, size_t bytes_len, size_t at, bool big, uint64_t *out);
uint8_t hullsift_read_u32(const uint8_t *bytes, size_t bytes_len, size_t at, bool big, uint64_t *out);
uint8_t hullsift_read_u64(const uint8_t *bytes, size_t bytes_len, size_t at, bool big, uint64_t *out);

/* The same, with the offset after the field. */
struct hullsift_next {
    uint64_t value;
    uint64_t next;
};

uint8_t hullsift_next_u8(const uint8_t *bytes, size_t bytes_len, size_t at, struct hullsift_next *out);
uint8_t hullsift_next_u16(const uint8_t *bytes, size_t bytes_len, size_t at, bool big, struct hullsift_next *out);
uint8_t hullsift_next_u32(const uint8_t *bytes, size_t bytes_len, size_t at, bool big, struct hullsift_next *out);
uint8_t hullsift_next_u64(const uint8_t *bytes, size_t bytes_len, size_t at, bool big, struct hullsift_next *out);

/* ROOM where the field does not fit; then no byte is written. */
uint8_t hullsift_write_u8(uint8_t *bytes, size_t bytes_len, size_t at, uint8_t number);
uint8_t hullsift_write_u16(uint8_t *bytes, size_t bytes_len, size_t at, uint16_t number, bool big);
uint8_t hullsift_write_u32(uint8_t *bytes, size_t bytes_len, size_t at, uint32_t number, bool big);
uint8_t hullsift_write_u64(uint8_t *bytes, size_t bytes_len, size_t at, uint64_t number, bool big);

/* Whether `width` bytes from `at` lie within `length` bytes; the sum does not wrap. */
bool hullsift_fits(size_t length, size_t at, size_t width);

/* ---- fat Mach-O files ---- */

/* How many members a fat file has, all of them checked. */
uint8_t hullsift_fat_open(const uint8_t *file, size_t file_len, uint64_t *out);

/* A member. Its bytes are the `size` bytes of the file from `offset` on, and lie in the file. */
struct hullsift_fat_arch {
    uint64_t cputype;
    uint64_t cpusubtype;   /* without its top 8 bits */
    uint64_t capabilities; /* those 8 bits */
    uint64_t offset;
    uint64_t size;
    uint64_t align;
    uint64_t is_64;        /* 1 or 0 */
};

uint8_t hullsift_fat_arch(const uint8_t *file, size_t file_len, size_t index, struct hullsift_fat_arch *out);

/* The member whose 20 bytes are at `at`, by itself: `bytes` are taken for the whole file. */
uint8_t hullsift_read_fat_arch(const uint8_t *bytes, size_t bytes_len, size_t at, struct hullsift_fat_arch *out);

/* ---- PE headers, sections, mapping ---- */

/* The 64 bytes of a DOS header: 30 numbers of two bytes, in file order, and the PE pointer. */
uint8_t hullsift_read_dos_header(const uint8_t *bytes, size_t bytes_len, size_t at, uint16_t halves[30], uint32_t *pe_pointer);

/* MAGIC where the first half is not 0x5A4D, then ROOM. */
uint8_t hullsift_write_dos_header(uint8_t *bytes, size_t bytes_len, size_t at, const uint16_t halves[30], uint32_t pe_pointer);

struct hullsift_coff_header {
    uint64_t machine;
    uint64_t number_of_sections;
    uint64_t time_date_stamp;
    uint64_t pointer_to_symbol_table;
    uint64_t number_of_symbols;
    uint64_t size_of_optional_header;
    uint64_t characteristics;
};

uint8_t hullsift_read_coff_header(const uint8_t *bytes, size_t bytes_len, size_t at, struct hullsift_coff_header *out);

/* The exception directory is zeros where the header has three directories or fewer. */
struct hullsift_optional_header {
    uint64_t magic;
    uint64_t file_alignment;
    uint64_t number_of_directories;
    uint64_t exception_address;
    uint64_t exception_size;
};

uint8_t hullsift_read_optional_header(const uint8_t *bytes, size_t bytes_len, size_t at, size_t size,
                                      struct hullsift_optional_header *out);

/* What the headers of an image say, all header and section checks made. */
struct hullsift_pe_header {
    uint64_t pe_pointer;
    uint64_t machine;
    uint64_t number_of_sections;
    uint64_t optional_offset;
    uint64_t optional_size;
    uint64_t magic;
    uint64_t file_alignment;
    uint64_t number_of_directories;
    uint64_t exception_address;
    uint64_t exception_size;
    uint64_t section_table;
};

uint8_t hullsift_pe_open(const uint8_t *file, size_t file_len, struct hullsift_pe_header *out);

/* A row of the section table. The eight bytes of the name are one number, the first byte the least significant. */
struct hullsift_section {
    uint64_t name;
    uint64_t virtual_size;
    uint64_t virtual_address;
    uint64_t size_of_raw_data;
    uint64_t pointer_to_raw_data;
    uint64_t pointer_to_relocations;
    uint64_t pointer_to_linenumbers;
    uint64_t number_of_relocations;
    uint64_t number_of_linenumbers;
    uint64_t characteristics;
};

uint8_t hullsift_section(const uint8_t *file, size_t file_len, size_t table, size_t count, size_t index, struct hullsift_section *out);

/* Where the section table is, how many rows it has, and the file alignment; an alignment of 2^32 or more maps nothing (NO_SECTION). */
struct hullsift_sections {
    uint64_t table;
    uint64_t count;
    uint64_t alignment;
};

/* The file offset of an address; it may lie past the file. */
uint8_t hullsift_find_offset(const uint8_t *file, size_t file_len, const struct hullsift_sections *sections, uint64_t address,
                             uint64_t *out);

/* ---- exception data: opening, records, lookup ---- */

/* An opened table. `machine` is 0x8664; with any other number every function on the table answers MACHINE. */
struct hullsift_exception_data {
    uint64_t machine;
    uint64_t table;
    uint64_t count;
    struct hullsift_sections sections;
};

uint8_t hullsift_exceptions_open(const uint8_t *file, size_t file_len, struct hullsift_exception_data *out);

struct hullsift_runtime_function {
    uint64_t begin;
    uint64_t end;
    uint64_t unwind;
};

/* The record whose 12 bytes are at `at`; written there. */
uint8_t hullsift_read_runtime_function(const uint8_t *bytes, size_t bytes_len, size_t at, struct hullsift_runtime_function *out);
uint8_t hullsift_write_runtime_function(uint8_t *bytes, size_t bytes_len, size_t at, uint32_t begin, uint32_t end, uint32_t unwind);

/* The record at an index of the table. */
uint8_t hullsift_get_function(const uint8_t *file, size_t file_len, const struct hullsift_exception_data *opened, size_t index,
                              struct hullsift_runtime_function *out);

/* Whether a table lies in the file and is in order. */
uint8_t hullsift_check_table(const uint8_t *file, size_t file_len, size_t table, size_t count);

/* The record that holds an address, its index, and how many records were read: 1 to 26. */
struct hullsift_found_function {
    uint64_t begin;
    uint64_t end;
    uint64_t unwind;
    uint64_t index;
    uint64_t reads;
};

uint8_t hullsift_find_function(const uint8_t *file, size_t file_len, const struct hullsift_exception_data *opened, uint32_t address,
                               struct hullsift_found_function *out);

/* The same of a table that is checked first, without a bound on the records read. */
struct hullsift_checked_function {
    uint64_t begin;
    uint64_t end;
    uint64_t unwind;
    uint64_t index;
};

uint8_t hullsift_check_and_find(const uint8_t *file, size_t file_len, const struct hullsift_exception_data *opened, uint32_t address,
                                struct hullsift_checked_function *out);

/* ---- unwind info and its operations ---- */

enum hullsift_follows {
    HULLSIFT_NOTHING = 0,
    HULLSIFT_CHAINED = 1,             /* a: begin, b: end, c: unwind address of a runtime record */
    HULLSIFT_EXCEPTION_HANDLER = 2,   /* a: address of the handler, b: start and c: length of its data in the file */
    HULLSIFT_TERMINATION_HANDLER = 3  /* the same */
};

struct hullsift_unwind_info {
    uint64_t version;
    uint64_t flags;
    uint64_t size_of_prolog;
    uint64_t count_of_codes; /* in slots of two bytes */
    uint64_t frame_register;
    uint64_t frame_offset;   /* in bytes */
    uint64_t code_start;     /* where the slots are in the file */
    uint64_t follows_at;     /* where what follows them is */
    uint64_t follows;        /* enum hullsift_follows */
    uint64_t a;
    uint64_t b;
    uint64_t c;
};

/* The unwind info at an offset of the file. No code is decoded. */
uint8_t hullsift_read_info(const uint8_t *file, size_t file_len, size_t at, struct hullsift_unwind_info *out);

/* The same, with all of its codes decoded, and their number. */
struct hullsift_checked_info {
    uint64_t codes;
    struct hullsift_unwind_info info;
};

uint8_t hullsift_check_info(const uint8_t *file, size_t file_len, size_t at, struct hullsift_checked_info *out);

enum hullsift_kind {
    HULLSIFT_PUSH = 0,          /* reg */
    HULLSIFT_ALLOC = 1,         /* amount */
    HULLSIFT_SET_FRAME = 2,
    HULLSIFT_SAVE = 3,          /* reg, base, amount: the offset */
    HULLSIFT_SAVE_LOW_XMM = 4,  /* the same, of the low half of an XMM register */
    HULLSIFT_EPILOG = 5,        /* amount: offset or size, base: offset or flags */
    HULLSIFT_SAVE_XMM = 6,      /* reg, base, amount */
    HULLSIFT_MACHINE_FRAME = 7, /* amount: 1 with an error code */
    HULLSIFT_NO_EFFECT = 8
};

struct hullsift_code {
    uint64_t code_offset;
    uint64_t kind;   /* enum hullsift_kind */
    uint64_t reg;    /* 0 to 15 general registers, 17 to 32 XMM registers */
    uint64_t base;   /* of a save: 0 for RSP, 1 for the frame register */
    uint64_t amount; /* in bytes */
};

/* The code at an index of the unwind info at an offset of the file. */
uint8_t hullsift_read_code(const uint8_t *file, size_t file_len, size_t at, size_t index, struct hullsift_code *out);

/* The name of a register, six bytes filled up with spaces; for a number above 32, spaces. */
void hullsift_register_name(uint8_t number, uint8_t name[6]);

/* ---- links: from a runtime record to its infos ---- */

/* An info, the begin of the record that names it, where it is in the file, and how many links led there. */
struct hullsift_reached_info {
    uint64_t begin;
    uint64_t offset;
    uint64_t links;
    struct hullsift_unwind_info info;
};

/* The info of a runtime record, odd addresses followed. */
uint8_t hullsift_first_info(const uint8_t *file, size_t file_len, const struct hullsift_sections *sections, uint32_t begin, uint32_t end,
                            uint32_t unwind, struct hullsift_reached_info *out);

/* The info that another one is chained to. `links` of the other one and the record that it is chained to go in. */
uint8_t hullsift_next_info(const uint8_t *file, size_t file_len, const struct hullsift_sections *sections, size_t links, uint32_t begin,
                           uint32_t end, uint32_t unwind, struct hullsift_reached_info *out);

/* The runtime record at an address. */
uint8_t hullsift_record_at(const uint8_t *file, size_t file_len, const struct hullsift_sections *sections, uint32_t address,
                           struct hullsift_runtime_function *out);

/* How many links and codes all infos of a runtime record have, every code decoded. */
struct hullsift_totals {
    uint64_t links;
    uint64_t codes;
};

uint8_t hullsift_count_all_codes(const uint8_t *file, size_t file_len, const struct hullsift_sections *sections, uint32_t begin,
                                 uint32_t end, uint32_t unwind, struct hullsift_totals *out);

/* ---- C scope tables ---- */

struct hullsift_scope {
    uint64_t begin;
    uint64_t end;
    uint64_t handler;
    uint64_t target;
};

/* Of a handler's data, lent by itself: how many entries, and the entry at an index. */
uint8_t hullsift_count_scopes_in(const uint8_t *data, size_t data_len, uint64_t *out);
uint8_t hullsift_scope_in(const uint8_t *data, size_t data_len, size_t index, struct hullsift_scope *out);

/* Of the exception handler of the unwind info at an offset of the file. */
uint8_t hullsift_count_scopes_at(const uint8_t *file, size_t file_len, size_t at, uint64_t *out);
uint8_t hullsift_scope_at(const uint8_t *file, size_t file_len, size_t at, size_t index, struct hullsift_scope *out);

/* The entry whose 16 bytes are at `at`; written there. */
uint8_t hullsift_read_scope(const uint8_t *bytes, size_t bytes_len, size_t at, struct hullsift_scope *out);
uint8_t hullsift_write_scope(uint8_t *bytes, size_t bytes_len, size_t at, uint32_t begin, uint32_t end, uint32_t handler, uint32_t target);

/* ---- GNU symbol versions: a section of the file, from `start`, of `size` bytes ---- */

/* How many symbol entries it has; SHORT beside the number where an odd byte is left. */
uint8_t hullsift_count_versym(const uint8_t *file, size_t file_len, size_t start, size_t size, uint64_t *out);

struct hullsift_versym {
    uint64_t hidden; /* 1 or 0 */
    uint64_t version;
};

uint8_t hullsift_versym(const uint8_t *file, size_t file_len, size_t start, size_t size, size_t index, bool big, struct hullsift_versym *out);

/* Lists of records, of which the section states `stated`. A row of `list` is the record's place in the section, then its fields:
 * 8 numbers for a definition, 6 for a need, 3 for a definition's auxiliary, 6 for a need's. `count` is how many rows were written. */
uint8_t hullsift_verdefs(const uint8_t *file, size_t file_len, size_t start, size_t size, size_t stated, bool big, uint32_t *list,
                         size_t list_len, uint64_t *count);
uint8_t hullsift_verneeds(const uint8_t *file, size_t file_len, size_t start, size_t size, size_t stated, bool big, uint32_t *list,
                          size_t list_len, uint64_t *count);

/* The auxiliaries of one record: its place, its offset to the first of them, and how many there are, as its row has them. */
uint8_t hullsift_verdauxs(const uint8_t *file, size_t file_len, size_t start, size_t size, uint32_t place, uint32_t aux, uint32_t cnt,
                          bool big, uint32_t *list, size_t list_len, uint64_t *count);
uint8_t hullsift_vernauxs(const uint8_t *file, size_t file_len, size_t start, size_t size, uint32_t place, uint32_t aux, uint32_t cnt,
                          bool big, uint32_t *list, size_t list_len, uint64_t *count);

#ifdef __cplusplus
}
#endif

#endif
