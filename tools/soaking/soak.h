/* What the parts of the soak share: main.c tells what it is. */
#ifndef SOAK_H
#define SOAK_H

#include "pktfmt.h"

#define MOST_HEADER 4194303
#define MOST_SHEET (104 * PKTFMT_BLOCK) /* a sheet by chance, which can be longer than any that is one */

/* ---- chance: numbers that depend on a seed alone */

struct chance {
    uint64_t state;
};

uint64_t any_number(struct chance *chance);
uint64_t below(struct chance *chance, uint64_t bound); /* 0 for a bound of 0 */
bool one_in(struct chance *chance, uint64_t times);
uint64_t some_number(struct chance *chance);           /* mostly one beside a boundary */
uint64_t near(struct chance *chance, uint64_t number); /* mostly the number itself, or one beside it */

/* ---- memory that is lent to the library, between pages that nobody can touch */

/* What the library is only to read is lent where it cannot be written; `ours` is the same memory. */
struct arena {
    uint8_t *ours;
    uint8_t *lent;
    size_t size;
    bool writable;
};

struct slice {
    struct arena *arena;
    uint8_t *ours;
    uint8_t *lent;
    size_t len;
};

void open_arena(struct arena *arena, size_t size, bool writable);

/* A part of an arena: at its front, at its end, or now and then inside. One of no bytes is NULL, or any
 * pointer. What stands beside a part that is writable is held by `is_whole` to be as it was. */
struct slice lend(struct chance *chance, struct arena *arena, size_t len);
bool is_whole(const struct slice *slice);

/* ---- sheets: those that are stored, and changed ones */

struct stored_sheet {
    const uint8_t *bytes;
    size_t len;
    bool has_answer;
    struct pktfmt_refusal answer; /* zeros where it is accepted */
};

struct sheets {
    struct stored_sheet *all;
    size_t count;
    const struct stored_sheet **small; /* of up to four blocks */
    size_t small_count;
    const struct stored_sheet **good; /* of these, the accepted ones */
    size_t good_count;
    const struct stored_sheet **with_bytes; /* of these, the ones with a field that holds bytes */
    size_t with_bytes_count;
};

void load_stored(struct sheets *sheets, const char *path); /* the file of crates/test_stored */
void load_plain(struct sheets *sheets, const char *path);  /* a file that is a sheet */
void sort_out(struct sheets *sheets);

/* Writes a sheet by chance to `out`, which has room for MOST_SHEET bytes: how many they are. */
size_t sheet_by_chance(struct chance *chance, const struct sheets *sheets, uint8_t *out);

/* ---- what has to come out, worked out here anew and simply */

bool can_stand(const struct pktfmt_locator *at);
uint64_t largest_of(uint64_t bits);
uint64_t spelled(const uint8_t *buf, uint64_t first_bit, uint64_t bits);
void spell(uint8_t *buf, uint64_t first_bit, uint64_t bits, uint64_t value);
bool length_of(const struct pktfmt_length *length, uint64_t x, uint64_t *y);
bool value_of(const struct pktfmt_length *length, uint64_t y, uint64_t *x);

/* ---- what was called, and what was answered */

enum function {
    VERSION, CHECK, FIELD_BY_INDEX, FIELD_BY_NAME, FIELDS, LENGTHS, CONDITIONS, TEMPLATE, READ_NUMBER,
    READ_BYTES, WRITE_NUMBER, WRITE_BYTES, LIST, READ_NUMBER_AT, READ_BYTES_AT, WRITE_NUMBER_AT, WRITE_BYTES_AT,
    FORWARD, BACK, FUNCTIONS
};

#define GROUPS 16
#define NUMBERS 16

struct tally {
    uint64_t accepted[FUNCTIONS];
    uint64_t refused[FUNCTIONS];
    uint64_t seen[GROUPS][NUMBERS];
};

const char *function_name(enum function function);
bool is_reason(uint64_t group, uint64_t number);
void add_tally(struct tally *to, const struct tally *from);
bool print_tally(const struct tally *tally); /* false where a refusal that can be given was not */

/* ---- a thread of the soak, and the round that it is at */

struct soak {
    struct chance chance;
    struct tally tally;
    uint64_t seed, round, rounds;
    size_t thread, threads;
    const struct sheets *sheets;
    struct arena sheet_arena, name_arena, read_arena, write_arena, bytes_arena, out_arena, input_arena,
        header_arena, answer_arena, refusal_arena;
    uint8_t *shadow; /* what a buffer has to be, as long as the arenas of buffers */

    /* The sheet of the round and what the library says of it; of a refused one `said` alone. */
    struct slice sheet;
    bool accepted;
    struct pktfmt_refusal said;
    struct pktfmt_header header;
    struct pktfmt_field fields[PKTFMT_MAX_FIELDS];
    struct pktfmt_length lengths[PKTFMT_SLOTS];

    /* The call at hand. */
    enum function function;
    struct slice answer, refusal;
    uint8_t filling;
};

/* The sheet of the round, as two arguments of a call. */
#define SHEET(soak) (soak)->sheet.lent, (soak)->sheet.len

/* Ends the run, with all that is needed to see the fault again, where a condition does not hold. */
void hold(const struct soak *soak, bool condition, const char *words);

/* Lends an answer of so many bytes, and a refusal. After the call `answered` holds them to what the header
 * says of all answers, and counts the call. */
void ask(struct soak *soak, enum function function, size_t answer_len);
struct pktfmt_refusal *refusal_of(const struct soak *soak);
void answered(struct soak *soak, bool accepted);

/* Holds a refusal to be this one: of the sheet, or of an access at a place. */
void refused_as_checked(const struct soak *soak, bool accepted);
void refused_as(const struct soak *soak, bool accepted, uint64_t group, uint64_t number, uint64_t place);

/* The calls of a round. */
void ask_the_sheet(struct soak *soak);
void ask_for_accesses(struct soak *soak);
void ask_for_lengths(struct soak *soak);

#endif
