/* Checked definitions of packet fields, for C and C++, and for whoever calls as C does.
 *
 *     tools/library target/library                       builds libpktfmt.a, with this header beside it
 *     cc -Itarget/library prog.c -Ltarget/library -lpktfmt
 *
 * A definition is a sheet: blocks of 512 bytes for fields, lengths and conditions. docs/RULES.md has the format
 * and the rules, include/example.c the use of nearly all of this.
 *
 * Arguments. Every function answers on every argument; none has to be checked before. A pointer with a count
 * is a slice: so many elements, all of them readable, and writable where the pointer is not const; a slice of
 * 0 elements may have any pointer, NULL too. Every other pointer is to one struct, one number, or as many as
 * stand in the brackets, and is not NULL. What is written overlaps nothing else that is passed with it.
 *
 * Answers. A function that returns bool returns true where it accepts. Then its answer is all written, with
 * zeros where there is nothing to tell, and the refusal is as it was. Where it refuses it returns false, the
 * refusal is told, and the answer is all zeros: a locator of zeros is no field's, a length of zeros has no
 * form, a span of zeros is empty. No other byte that was lent is then changed.
 *
 * Threads. Nothing is kept between calls, and nothing allocated: any number of threads may call at once, so
 * long as none writes what another reads or writes. Stack: at most 64 KiB (pktfmt_list; 16 KiB for all others).
 *
 * Numbers are 64 bits wide, codes too, so that none is cut on its way; one that stands for nothing is refused. */
#ifndef PKTFMT_H
#define PKTFMT_H

#include <stdbool.h>
#include <stddef.h>
#include <stdint.h>

#if SIZE_MAX != UINT64_MAX
#error "pktfmt.h is for machines on which an address has 64 bits"
#endif

#ifdef __cplusplus
extern "C" {
#endif

/* ---- the version */

#define PKTFMT_VERSION_MAJOR 0
#define PKTFMT_VERSION_MINOR 2
#define PKTFMT_VERSION_PATCH 0
#define PKTFMT_VERSION (PKTFMT_VERSION_MAJOR * 1000000 + PKTFMT_VERSION_MINOR * 1000 + PKTFMT_VERSION_PATCH)

/* The library's PKTFMT_VERSION. Structs and codes are those of this header where the two are equal. */
uint64_t pktfmt_version(void);

/* ---- limits */

#define PKTFMT_BLOCK 512         /* bytes of a block */
#define PKTFMT_MAX_BLOCKS 99     /* of a sheet */
#define PKTFMT_MAX_FIELDS 64     /* of a sheet */
#define PKTFMT_MAX_CONDITIONS 8  /* of an accepted sheet */
#define PKTFMT_MAX_RANGES 24     /* of a condition */
#define PKTFMT_MAX_NAME 64       /* bytes of a name, which has no zero at its end */
#define PKTFMT_MAX_LISTING 40000 /* bytes of a listing */

/* ---- refusals */

/* Why something was refused: a group, a number in it, and a place (docs/RULES.md): mostly the index of the
 * block at fault; for the group access the index of the field that was asked for. */
struct pktfmt_refusal {
    uint64_t group;  /* enum pktfmt_group */
    uint64_t number; /* an enum of the group, below */
    uint64_t place;
};

/* reasons: begin. Written by tools/reasons from the table in docs/RULES.md. */

/* The groups. */
enum pktfmt_group {
    PKTFMT_GROUP_NUMBER = 1,
    PKTFMT_GROUP_TYPE = 2,
    PKTFMT_GROUP_SHEET = 3,
    PKTFMT_GROUP_FIELD = 4,
    PKTFMT_GROUP_HEADER = 5,
    PKTFMT_GROUP_LENGTH = 6,
    PKTFMT_GROUP_COND = 7,
    PKTFMT_GROUP_POSITION = 8,
    PKTFMT_GROUP_BOUND = 9,
    PKTFMT_GROUP_ACCESS = 10,
    PKTFMT_GROUP_ROOM = 11
};

/* A number is no byte. */
enum pktfmt_number_fault {
    /* a number over 255 is no byte */
    PKTFMT_NUMBER_OVER_A_BYTE = 1
};

/* A word is no type's name. */
enum pktfmt_type_fault {
    /* the word is the name of no type */
    PKTFMT_TYPE_UNKNOWN_NAME = 1
};

/* Step 1: bytes are no sheet. */
enum pktfmt_sheet_fault {
    /* the bytes are no whole blocks of 512, or over 99 of them */
    PKTFMT_SHEET_WRONG_LENGTH = 1,
    /* the block's check does not hold */
    PKTFMT_SHEET_BAD_CHECK = 2,
    /* the block's kind is unknown, or out of its turn */
    PKTFMT_SHEET_UNKNOWN_OR_MISPLACED_KIND = 3,
    /* there are over 64 fields, or over 32 conditions */
    PKTFMT_SHEET_TOO_MANY_OF_A_KIND = 4,
    /* the block has a byte that the layout does not allow */
    PKTFMT_SHEET_BYTE_OUTSIDE_LAYOUT = 5,
    /* the length's slot was given before */
    PKTFMT_SHEET_SLOT_GIVEN_TWICE = 6
};

/* Step 2: a field cannot be. */
enum pktfmt_field_fault {
    /* the field has no bits, over 33,554,424, or over 64 that are no whole bytes */
    PKTFMT_FIELD_WIDTH_NOT_ALLOWED = 1,
    /* the representation is neither that of the width, nor a byte slice of two or more whole bytes */
    PKTFMT_FIELD_REPR_NOT_ALLOWED = 2,
    /* the argument type is neither the representation, nor bool on 1 bit, nor code */
    PKTFMT_FIELD_ARG_NOT_ALLOWED = 3,
    /* the default of a bool is neither 0 nor 1 */
    PKTFMT_FIELD_BOOL_DEFAULT_NOT_ZERO_OR_ONE = 4,
    /* the default of a byte slice is not as many bytes as the field has */
    PKTFMT_FIELD_SLICE_DEFAULT_NOT_ITS_BYTES = 5,
    /* the default is no number within the field's width */
    PKTFMT_FIELD_NUMBER_DEFAULT_NOT_IN_WIDTH = 6,
    /* a default of bytes is fixed */
    PKTFMT_FIELD_BYTES_DEFAULT_FIXED = 7
};

/* Step 3: fields make no header. */
enum pktfmt_header_fault {
    /* a field before it has the same name */
    PKTFMT_HEADER_NAME_USED_BEFORE = 1,
    /* the field is named type, which is kept for other use */
    PKTFMT_HEADER_NAME_RESERVED = 2,
    /* the field has at most 64 bits and touches over 8 bytes */
    PKTFMT_HEADER_TOUCHES_OVER_EIGHT_BYTES = 3,
    /* the byte slice does not start on a byte boundary */
    PKTFMT_HEADER_SLICE_OFF_BYTE_BOUNDARY = 4,
    /* the header is over 4,194,303 bytes */
    PKTFMT_HEADER_TOO_LONG = 5,
    /* the header's bits are no whole bytes */
    PKTFMT_HEADER_NOT_WHOLE_BYTES = 6
};

/* Step 4: a length cannot be worked out of a field. */
enum pktfmt_length_fault {
    /* both the payload's and the packet's length are given */
    PKTFMT_LENGTH_PAYLOAD_AND_PACKET_GIVEN = 1,
    /* the length is worked out of a field that there is not */
    PKTFMT_LENGTH_NO_SUCH_FIELD = 3,
    /* the length's field is over 64 bits */
    PKTFMT_LENGTH_FIELD_OVER_64_BITS = 4,
    /* the length's field is generated */
    PKTFMT_LENGTH_FIELD_GENERATED = 5,
    /* the length's field is a byte slice, or its argument type is not its representation */
    PKTFMT_LENGTH_ARG_NOT_THE_REPR = 6,
    /* the length's field is fixed to its default */
    PKTFMT_LENGTH_FIELD_FIXED = 7,
    /* the length of the field's largest value cannot be worked out in 64 bits */
    PKTFMT_LENGTH_LARGEST_LENGTH_OVERFLOWS = 8,
    /* the length of the field's largest value is over 4,194,303 */
    PKTFMT_LENGTH_LARGEST_LENGTH_TOO_LONG = 9,
    /* the length of the field's default is less than the header */
    PKTFMT_LENGTH_DEFAULT_LENGTH_UNDER_HEADER = 10,
    /* the length's tree is none of the five forms */
    PKTFMT_LENGTH_TREE_NOT_A_FORM = 12,
    /* the length of the field's default cannot be worked out */
    PKTFMT_LENGTH_DEFAULT_LENGTH_OVERFLOWS = 13
};

/* Step 5: conditions that cannot be. */
enum pktfmt_cond_fault {
    /* the condition is on a field that there is not */
    PKTFMT_COND_NO_SUCH_FIELD = 1,
    /* the condition is on a byte slice */
    PKTFMT_COND_FIELD_IS_BYTE_SLICE = 2,
    /* a range holds no number that the field can have */
    PKTFMT_COND_RANGE_EMPTY = 4,
    /* a range meets an earlier one */
    PKTFMT_COND_RANGES_MEET = 6,
    /* a condition before it is on the same field */
    PKTFMT_COND_FIELD_LISTED_BEFORE = 7,
    /* there are over 8 conditions */
    PKTFMT_COND_OVER_EIGHT_ENTRIES = 8
};

/* A run of bits has no end position. */
enum pktfmt_position_fault {
    /* the run of bits has no end position */
    PKTFMT_POSITION_RUN_HAS_NO_END = 1
};

/* A range begins with an excluded number. */
enum pktfmt_bound_fault {
    /* the range's start is excluded */
    PKTFMT_BOUND_START_EXCLUDED = 1
};

/* A field cannot be read or written so. */
enum pktfmt_access_fault {
    /* there is no such field */
    PKTFMT_ACCESS_NO_SUCH_FIELD = 1,
    /* the buffer is shorter than the header */
    PKTFMT_ACCESS_BUFFER_UNDER_HEADER = 2,
    /* a number was asked of a byte slice, or bytes of a number */
    PKTFMT_ACCESS_FIELD_OF_OTHER_KIND = 3,
    /* the value is over the field's width, or the bytes are not as many as it has */
    PKTFMT_ACCESS_VALUE_NOT_THE_WIDTH = 4,
    /* the field is fixed to its default */
    PKTFMT_ACCESS_FIXED_TO_ITS_DEFAULT = 5
};

/* A lent buffer is too short for what goes into it. */
enum pktfmt_room_fault {
    /* the buffer is shorter than the header */
    PKTFMT_ROOM_BUFFER_UNDER_HEADER = 1
};

/* The name of a group; "no such group" where there is none. */
static inline const char *pktfmt_group_name(uint64_t group)
{
    switch (group) {
    case PKTFMT_GROUP_NUMBER: return "number";
    case PKTFMT_GROUP_TYPE: return "type";
    case PKTFMT_GROUP_SHEET: return "sheet";
    case PKTFMT_GROUP_FIELD: return "field";
    case PKTFMT_GROUP_HEADER: return "header";
    case PKTFMT_GROUP_LENGTH: return "length";
    case PKTFMT_GROUP_COND: return "cond";
    case PKTFMT_GROUP_POSITION: return "position";
    case PKTFMT_GROUP_BOUND: return "bound";
    case PKTFMT_GROUP_ACCESS: return "access";
    case PKTFMT_GROUP_ROOM: return "room";
    default: return "no such group";
    }
}

/* The words of docs/RULES.md for a refusal, wherever it points; "no such refusal" where there is none. */
static inline const char *pktfmt_reason(uint64_t group, uint64_t number)
{
    static const struct {
        uint64_t group, number;
        const char *words;
    } reasons[] = {
        {1, 1, "a number over 255 is no byte"},
        {2, 1, "the word is the name of no type"},
        {3, 1, "the bytes are no whole blocks of 512, or over 99 of them"},
        {3, 2, "the block's check does not hold"},
        {3, 3, "the block's kind is unknown, or out of its turn"},
        {3, 4, "there are over 64 fields, or over 32 conditions"},
        {3, 5, "the block has a byte that the layout does not allow"},
        {3, 6, "the length's slot was given before"},
        {4, 1, "the field has no bits, over 33,554,424, or over 64 that are no whole bytes"},
        {4, 2, "the representation is neither that of the width, nor a byte slice of two or more whole bytes"},
        {4, 3, "the argument type is neither the representation, nor bool on 1 bit, nor code"},
        {4, 4, "the default of a bool is neither 0 nor 1"},
        {4, 5, "the default of a byte slice is not as many bytes as the field has"},
        {4, 6, "the default is no number within the field's width"},
        {4, 7, "a default of bytes is fixed"},
        {5, 1, "a field before it has the same name"},
        {5, 2, "the field is named type, which is kept for other use"},
        {5, 3, "the field has at most 64 bits and touches over 8 bytes"},
        {5, 4, "the byte slice does not start on a byte boundary"},
        {5, 5, "the header is over 4,194,303 bytes"},
        {5, 6, "the header's bits are no whole bytes"},
        {6, 1, "both the payload's and the packet's length are given"},
        {6, 3, "the length is worked out of a field that there is not"},
        {6, 4, "the length's field is over 64 bits"},
        {6, 5, "the length's field is generated"},
        {6, 6, "the length's field is a byte slice, or its argument type is not its representation"},
        {6, 7, "the length's field is fixed to its default"},
        {6, 8, "the length of the field's largest value cannot be worked out in 64 bits"},
        {6, 9, "the length of the field's largest value is over 4,194,303"},
        {6, 10, "the length of the field's default is less than the header"},
        {6, 12, "the length's tree is none of the five forms"},
        {6, 13, "the length of the field's default cannot be worked out"},
        {7, 1, "the condition is on a field that there is not"},
        {7, 2, "the condition is on a byte slice"},
        {7, 4, "a range holds no number that the field can have"},
        {7, 6, "a range meets an earlier one"},
        {7, 7, "a condition before it is on the same field"},
        {7, 8, "there are over 8 conditions"},
        {8, 1, "the run of bits has no end position"},
        {9, 1, "the range's start is excluded"},
        {10, 1, "there is no such field"},
        {10, 2, "the buffer is shorter than the header"},
        {10, 3, "a number was asked of a byte slice, or bytes of a number"},
        {10, 4, "the value is over the field's width, or the bytes are not as many as it has"},
        {10, 5, "the field is fixed to its default"},
        {11, 1, "the buffer is shorter than the header"}
    };
    for (size_t i = 0; i < sizeof reasons / sizeof reasons[0]; i++)
        if (reasons[i].group == group && reasons[i].number == number)
            return reasons[i].words;
    return "no such refusal";
}

/* reasons: end */

/* ---- what an accepted sheet says */

/* What its header has, and how many conditions there are. */
struct pktfmt_header {
    uint64_t bytes;
    uint64_t fields;
    uint64_t conditions;
};

/* What a field holds: a number; a number that is fixed to its default; bytes. */
enum pktfmt_held {
    PKTFMT_HOLDS_NUMBER = 0,
    PKTFMT_HOLDS_FIXED = 1,
    PKTFMT_HOLDS_BYTES = 2
};

/* Where a field stands. Worked out once, it serves any number of buffers. Bit 0 is the most significant one of
 * byte 0.
 *
 * Anyone can make one up. One that no field can have is access 1, whatever is asked, and nothing is read or
 * written there: 0 bits; a number that touches over 8 bytes; bytes that are fewer than two or off a byte
 * boundary; a default over the field's bits, or one for bytes; an end past the header; a header over 4,194,303
 * bytes; another `held`. At any others reads and writes stay inside the field, and the field inside the
 * header. */
struct pktfmt_locator {
    uint64_t index;          /* the field's, which is the place of refusals */
    uint64_t header_bytes;
    uint64_t first_bit;
    uint64_t bits;
    uint64_t held;           /* enum pktfmt_held */
    uint64_t default_number; /* 0 for bytes */
};

/* Bytes of a sheet or a buffer: the index of the first, and how many they are. */
struct pktfmt_span {
    uint64_t at;
    uint64_t count;
};

/* How a field is held, and how it is handed over (that can also be by code of the reader's own). */
enum pktfmt_type {
    PKTFMT_U8 = 1,
    PKTFMT_U16 = 2,
    PKTFMT_U32 = 3,
    PKTFMT_U64 = 4,
    PKTFMT_BYTE_SLICE = 5,
    PKTFMT_BOOL = 6,
    PKTFMT_CODE = 7
};

/* A field's record, with every item that the sheet leaves out resolved. */
struct pktfmt_field {
    struct pktfmt_locator at;
    uint64_t repr;                    /* enum pktfmt_type */
    uint64_t arg;                     /* enum pktfmt_type */
    uint64_t generated;               /* 1 where gen is true */
    uint64_t guarded;                 /* 1 where a write needs a guard */
    struct pktfmt_span name;          /* in the sheet */
    struct pktfmt_span default_bytes; /* in the sheet; 0 and 0 where it states none: then they are zeros */
};

/* The lengths that a sheet can give, by which an array of them is indexed. */
enum pktfmt_slot {
    PKTFMT_HEADER_LEN = 0,
    PKTFMT_PAYLOAD_LEN = 1,
    PKTFMT_PACKET_LEN = 2,
    PKTFMT_SLOTS = 3
};

/* How a length is worked out of the value x of a field. */
enum pktfmt_form {
    PKTFMT_UNDEFINED = 0,  /* given, and not how */
    PKTFMT_X = 1,          /* x */
    PKTFMT_X_PLUS = 2,     /* x + first */
    PKTFMT_X_TIMES = 3,    /* x * first */
    PKTFMT_PLUS_TIMES = 4, /* (x + first) * second */
    PKTFMT_TIMES_PLUS = 5, /* x * first + second */
    PKTFMT_ABSENT = 6      /* not given */
};

/* A length; 0 for what it lacks. */
struct pktfmt_length {
    uint64_t form;    /* enum pktfmt_form */
    uint64_t first;
    uint64_t second;
    uint64_t field;   /* the index of the field */
    uint64_t largest; /* the length of its largest value */
};

/* The numbers from the first to the last, both included. */
struct pktfmt_range {
    uint64_t first;
    uint64_t last;
};

/* A condition: the values that a field may have. Ranges are cut at the field's largest value, and none meets
 * another. */
struct pktfmt_condition {
    uint64_t field; /* the index of the field */
    uint64_t count; /* of its ranges */
    struct pktfmt_range ranges[PKTFMT_MAX_RANGES];
};

/* ---- by the sheet. Each of these makes the whole check, steps 1 to 5, first */

/* The check. */
bool pktfmt_check(const uint8_t *sheet, size_t sheet_len, struct pktfmt_header *header,
                  struct pktfmt_refusal *refusal);

/* A field by its index, or access 1. */
bool pktfmt_field_by_index(const uint8_t *sheet, size_t sheet_len, uint64_t index, struct pktfmt_field *field,
                           struct pktfmt_refusal *refusal);

/* A field by its name, or access 1; the place is then the number of fields. */
bool pktfmt_field_by_name(const uint8_t *sheet, size_t sheet_len, const char *name, size_t name_len,
                          struct pktfmt_field *field, struct pktfmt_refusal *refusal);

/* The check, and all fields, in order: as many as the header has. */
bool pktfmt_fields(const uint8_t *sheet, size_t sheet_len, struct pktfmt_header *header,
                   struct pktfmt_field fields[PKTFMT_MAX_FIELDS], struct pktfmt_refusal *refusal);

/* All lengths, by their slots. */
bool pktfmt_lengths(const uint8_t *sheet, size_t sheet_len, struct pktfmt_length lengths[PKTFMT_SLOTS],
                    struct pktfmt_refusal *refusal);

/* All conditions, in the order of the sheet: as many as the header tells. */
bool pktfmt_conditions(const uint8_t *sheet, size_t sheet_len,
                       struct pktfmt_condition conditions[PKTFMT_MAX_CONDITIONS], struct pktfmt_refusal *refusal);

/* The template, or room 1: the front of the buffer is what the header starts as, the rest as it was. */
bool pktfmt_template(const uint8_t *sheet, size_t sheet_len, uint8_t *buf, size_t buf_len,
                     struct pktfmt_refusal *refusal);

/* Reads and writes a field by its index, or access 1 to 5. Of bytes it is told where in the buffer they stand. */
bool pktfmt_read_number(const uint8_t *sheet, size_t sheet_len, uint64_t index, const uint8_t *buf, size_t buf_len,
                        uint64_t *value, struct pktfmt_refusal *refusal);
bool pktfmt_read_bytes(const uint8_t *sheet, size_t sheet_len, uint64_t index, const uint8_t *buf, size_t buf_len,
                       struct pktfmt_span *bytes, struct pktfmt_refusal *refusal);
bool pktfmt_write_number(const uint8_t *sheet, size_t sheet_len, uint64_t index, uint8_t *buf, size_t buf_len,
                         uint64_t value, struct pktfmt_refusal *refusal);
bool pktfmt_write_bytes(const uint8_t *sheet, size_t sheet_len, uint64_t index, uint8_t *buf, size_t buf_len,
                        const uint8_t *bytes, size_t bytes_len, struct pktfmt_refusal *refusal);

/* The listing of a sheet, or the line of its refusal, from the front of `out` on, as far as there is room: how
 * many bytes it has in all, which can be more than `out` has. */
size_t pktfmt_list(const uint8_t *sheet, size_t sheet_len, char *out, size_t out_len);

/* ---- at a locator, worked out before: the same reads and writes without the sheet */

bool pktfmt_read_number_at(const struct pktfmt_locator *at, const uint8_t *buf, size_t buf_len, uint64_t *value,
                           struct pktfmt_refusal *refusal);
bool pktfmt_read_bytes_at(const struct pktfmt_locator *at, const uint8_t *buf, size_t buf_len,
                          struct pktfmt_span *bytes, struct pktfmt_refusal *refusal);
bool pktfmt_write_number_at(const struct pktfmt_locator *at, uint8_t *buf, size_t buf_len, uint64_t value,
                            struct pktfmt_refusal *refusal);
bool pktfmt_write_bytes_at(const struct pktfmt_locator *at, uint8_t *buf, size_t buf_len, const uint8_t *bytes,
                           size_t bytes_len, struct pktfmt_refusal *refusal);

/* ---- by a length: its form, first and second number; nothing else of it is looked at */

/* The length y of the value x, and the value x whose length is y: true where there is one. There is no length
 * where a step passes 2^64 - 1; no value where none has the length, or a multiplier is 0; and neither where the
 * form is none of the five, or a number is given that it lacks. */
bool pktfmt_forward(const struct pktfmt_length *length, uint64_t x, uint64_t *y);
bool pktfmt_back(const struct pktfmt_length *length, uint64_t y, uint64_t *x);

#ifdef __cplusplus
}
#endif

#endif
