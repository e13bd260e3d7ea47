/* Dumps of `sux`, built from keys in memory, opened where their words lie, and asked.
 *
 * Nothing is kept between calls: the words of a dump, its handle, the room beside it and the lines are
 * the caller's, and there is nothing to free. Only sux_build, and sux_open of a hollow trie, take memory,
 * from malloc, and they give all of it back. Threads may share one open handle to ask.
 *
 * What a caller owes, and no proof covers:
 * - A pointer and a count name that many elements that may be read (or written, where the pointer is
 *   not const). With the count 0 such an argument may be null; a pointer inside a struct never is.
 * - Every other pointer names one aligned value of its own, which the call alone uses while it runs.
 *   No two of a call's arguments that it may write overlap, or overlap what it reads.
 * - The words of a dump are aligned to eight bytes, as a mapped file and memory from malloc are, and
 *   stay where and as they are while the handle is used. Asking reads without tests what sux_open
 *   has tested, so words that change behind it make reads out of bounds possible: where another
 *   process may write or shorten a mapped file, copy it first.
 * - So does the room that sux_open has filled for a hollow trie. It is given to one handle and its
 *   copies.
 * - A handle begins as SUX_DUMP_CLOSED, and only sux_open writes it. It may be copied.
 * - Words are read as the machine keeps them: lowest byte first, as the bytes of a dump are.
 */
#ifndef SUX_H
#define SUX_H

#include <stdbool.h>
#include <stddef.h>
#include <stdint.h>

#ifdef __cplusplus
extern "C" {
#endif

/* what a call comes to */
enum sux_status {
    SUX_DONE = 0,
    SUX_TOO_LONG = 1,   /* the line is longer than 8,191 bytes */
    SUX_BAD_COUNT = 2,  /* not as many words, places, values or seeds as there have to be */
    SUX_NO_NUMBER = 3,  /* the dump knows no number for the line */
    SUX_NO_DUMP = 4,    /* a check of the words fails, or the handle isn't open */
    SUX_BAD_KEY = 6,    /* a key breaks a rule */
    SUX_BAD_PLAN = 7,   /* no such kind or method, or an option out of its range or not the kind's */
    SUX_NO_SEED = 8,    /* no seed works */
    SUX_NO_ROOM = 9,    /* there are more words than there is room for */
    SUX_NO_MEMORY = 10  /* no memory is found */
};

/* the code of a dump's kind */
enum sux_kind_code {
    SUX_FUNC = 0,
    SUX_LCP = 1,
    SUX_LCP2 = 2,
    SUX_HOLLOW = 3,
    SUX_HOLLOWDIST = 4,
    SUX_ZFAST = 5,
    SUX_NO_KIND = 255 /* the handle isn't open */
};

/* ---- a handle; its fields are for the library alone */

typedef struct sux_place {
    uint32_t what;
    uint32_t width;
    uint64_t count;
    uint64_t below;
    size_t body;
    size_t after;
} sux_place;

typedef struct sux_header {
    uint64_t seed;
    uint32_t keys;
    uint32_t sig_bits;
    uint32_t log_bucket;
    uint32_t signed_bits;
    uint32_t handle_bits;
    uint8_t kind;
    uint8_t method;
} sux_header;

typedef struct sux_found {
    sux_header header;
    size_t count;
    sux_place places[11];
    uint32_t longest;
} sux_found;

/* words in the caller's room */
typedef struct sux_part {
    const uint64_t *words;
    size_t count;
} sux_part;

typedef struct sux_rooms {
    sux_part left_directory;
    sux_part left_groups;
    sux_part left_places;
    sux_part skip_directory;
    sux_part skip_groups;
    sux_part skip_places;
    sux_part top;
} sux_rooms;

typedef struct sux_dump {
    const uint64_t *words;
    size_t word_count;
    sux_rooms rooms;
    sux_found found;
    bool opened;
} sux_dump;

/* memory for the pointers of a handle that isn't open, which must not be null */
static const uint64_t sux_no_words[1] = {0};

/* a handle that isn't open */
#define SUX_NO_PART { sux_no_words, 0 }
#define SUX_NO_ROOMS { SUX_NO_PART, SUX_NO_PART, SUX_NO_PART, SUX_NO_PART, SUX_NO_PART, SUX_NO_PART, SUX_NO_PART }
#define SUX_NOTHING_FOUND { { 0, 0, 0, 0, 0, 0, 0, 0 }, 0, { { 0, 0, 0, 0, 0, 0 } }, 0 }
#define SUX_DUMP_CLOSED { sux_no_words, 0, SUX_NO_ROOMS, SUX_NOTHING_FOUND, false }

/* a line: `size` bytes at `bytes`, without the line feed. The pointer is not null, with 0 bytes either */
typedef struct sux_line {
    const uint8_t *bytes;
    size_t size;
} sux_line;

/* ---- a build */

/* What is built. The options are those of `sux build`; one that doesn't go with the kind is 0. */
typedef struct sux_plan {
    uint32_t log_bucket;  /* of lcp, lcp2, hollowdist and zfast: blocks of 2 to the power of it, 0 to 12 */
    uint32_t sig_bits;    /* how many bits of a signature are kept, 0 to 192; 192 in most cases */
    uint32_t handle_bits; /* of zfast: how many bits are kept of each handle's signature, 0 to 64 */
    uint32_t signed_bits; /* how many bits are kept of each key's signature, 0 to 64 */
    uint8_t kind;         /* a sux_kind_code */
    uint8_t method;       /* 0: peeling; 1: linear systems. Of hollow 0 */
} sux_plan;

/* Why a seed doesn't work: its first part that can't be built, counted from 0 in the order of README.md */
typedef struct sux_failure {
    uint32_t part;
    uint32_t cause;  /* 1: two strings of the part have one signature; 2: no try works for a chunk */
    uint32_t first;  /* the first of the two strings, or the chunk */
    uint32_t second; /* the second of the two strings, else 0 */
} sux_failure;

typedef struct sux_failures {
    size_t count;
    sux_failure list[16]; /* the first `count`, of seeds in their order */
} sux_failures;

/* What a build tells; only what its status speaks of counts */
typedef struct sux_told {
    uint64_t words;  /* how many words the dump has */
    uint64_t seed;   /* the seed that it is built with */
    uint64_t number; /* the key that is refused, counted from 0 */
    uint32_t rule;   /* 1: longer than 8,191 bytes; 2: holds a zero byte; 3: equal to the key before it;
                        4: below it; 5: one of more than 4,194,304 keys; 6: of more than 268,435,456 bytes */
    sux_failures failures; /* of the seeds that don't work, before the one that does */
} sux_told;

/* ---- calls */

/* Opens the dump that a file of so many bytes is; `words` are those bytes, eight a word, and the last
 * one filled up with zero bytes, as a mapped file's is. Makes every check of docs/FORMAT.md.
 *
 * A dump of kind hollow or hollowdist is answered by directories of its lists too, which are put to the
 * front of `room`, and stay there while the handle is used. Other dumps want no room, so `room` may be
 * null with the count 0.
 *
 * SUX_DONE: the handle is open, and stands for the one dump that the bytes are.
 * SUX_NO_DUMP: `check` is the number of the first check that fails; any other status leaves it.
 * SUX_NO_ROOM: the bytes pass every check, and `wanted` words of room are wanted, more than
 * `room_count`; any other status leaves `wanted`. SUX_NO_MEMORY: they pass every check.
 * SUX_BAD_COUNT: `count` isn't bytes / 8, rounded up.
 * With any status but SUX_DONE the handle isn't open, also where it was before. */
uint8_t sux_open(const uint64_t *words, size_t count, uint64_t bytes, uint64_t *room, size_t room_count,
                 sux_dump *dump, uint8_t *check, uint64_t *wanted);

/* The reply to a line of `length` bytes, without its line feed: what `sux query` prints for it.
 *
 * SUX_DONE: `value` is the number; any other status leaves it.
 * SUX_NO_NUMBER (where `sux query` prints -1), SUX_TOO_LONG, SUX_NO_DUMP.
 * Each call makes a view of the dump anew, so many lines are asked sooner by one call of sux_replies. */
uint8_t sux_reply(const sux_dump *dump, const uint8_t *line, size_t length, uint64_t *value);

/* The replies to lines, in order: statuses[i] is what sux_reply would say of lines[i], and values[i]
 * the number, 0 where there is none.
 *
 * SUX_DONE: all are answered, each with its own status.
 * SUX_BAD_COUNT: there are more or fewer values or statuses than lines. SUX_NO_DUMP: the handle isn't
 * open. Both leave values and statuses as they were. */
uint8_t sux_replies(const sux_dump *dump, const sux_line *lines, size_t line_count,
                    uint64_t *values, size_t value_count, uint8_t *statuses, size_t status_count);

/* The code of an open dump's kind, else SUX_NO_KIND. */
uint8_t sux_kind(const sux_dump *dump);

/* How many keys an open dump was built from, else 0. */
uint64_t sux_keys(const sux_dump *dump);

/* How many words of eight bytes an open dump has, else 0. */
uint64_t sux_words(const sux_dump *dump);

/* Builds the dump of the keys, which rise in byte order, by the first of 1 to 16 seeds that works, and
 * puts its words at the front of `out`; they are what `sux build` writes. Kind func gives each key its
 * value where there are as many values as keys, without signed_bits; no values (`value_count` 0) are
 * the keys' numbers.
 *
 * SUX_DONE: the first told->words words of `out` are the dump's; the others are as they were.
 * SUX_NO_ROOM: the dump has told->words words, more than `out_count`.
 * SUX_NO_SEED: told->failures says of each seed why.
 * SUX_BAD_KEY: key told->number is the first that breaks a rule, told->rule.
 * SUX_BAD_COUNT: not 1 to 16 seeds, or values that aren't as many as keys or that the plan doesn't
 * take. SUX_BAD_PLAN, SUX_NO_MEMORY.
 * With any status but SUX_DONE `out` is as it was. */
uint8_t sux_build(const sux_line *keys, size_t key_count, const uint64_t *values, size_t value_count,
                  const sux_plan *plan, const uint64_t *seeds, size_t seed_count, uint64_t *out,
                  size_t out_count, sux_told *told);

/* ---- the layouts that the library was built with */

#ifdef __cplusplus
#define SUX_LAYOUT(name, holds) static_assert(holds, name)
#else
#define SUX_LAYOUT(name, holds) _Static_assert(holds, name)
#endif
SUX_LAYOUT("pointers and sizes of 64 bits", sizeof(void *) == 8 && sizeof(size_t) == 8);
SUX_LAYOUT("bool of one byte", sizeof(bool) == 1);
SUX_LAYOUT("sux_place", sizeof(sux_place) == 40 && offsetof(sux_place, width) == 4
                            && offsetof(sux_place, count) == 8 && offsetof(sux_place, after) == 32);
SUX_LAYOUT("sux_header", sizeof(sux_header) == 32 && offsetof(sux_header, keys) == 8
                             && offsetof(sux_header, kind) == 28 && offsetof(sux_header, method) == 29);
SUX_LAYOUT("sux_found", sizeof(sux_found) == 488 && offsetof(sux_found, count) == 32
                            && offsetof(sux_found, places) == 40 && offsetof(sux_found, longest) == 480);
SUX_LAYOUT("sux_rooms", sizeof(sux_rooms) == 112 && offsetof(sux_rooms, top) == 96);
SUX_LAYOUT("sux_dump", sizeof(sux_dump) == 624 && offsetof(sux_dump, word_count) == 8
                           && offsetof(sux_dump, rooms) == 16 && offsetof(sux_dump, found) == 128
                           && offsetof(sux_dump, opened) == 616);
SUX_LAYOUT("sux_line", sizeof(sux_line) == 16 && offsetof(sux_line, size) == 8);
SUX_LAYOUT("sux_plan", sizeof(sux_plan) == 20 && offsetof(sux_plan, kind) == 16
                           && offsetof(sux_plan, method) == 17);
SUX_LAYOUT("sux_failures", sizeof(sux_failures) == 264 && offsetof(sux_failures, list) == 8);
SUX_LAYOUT("sux_told", sizeof(sux_told) == 296 && offsetof(sux_told, rule) == 24
                           && offsetof(sux_told, failures) == 32);
#undef SUX_LAYOUT

#ifdef __cplusplus
}
#endif
#endif
