/* The sheets: the stored ones of the tests and the examples, and what chance makes of them. */
#include "soak.h"

#include <stdio.h>
#include <stdlib.h>
#include <string.h>

#define SMALL_BLOCKS 4
#define STORED_HEAD 9 /* bytes before the packed sheet of a record */

/* ---- files */

static void stop(const char *path, const char *words)
{
    fprintf(stderr, "soak: %s: %s\n", path, words);
    exit(EXIT_FAILURE);
}

static void *room_for(size_t count, size_t each)
{
    void *memory = calloc(count + 1, each);
    if (memory == NULL)
        stop("memory", "there is not enough");
    return memory;
}

static uint8_t *read_whole(const char *path, size_t *len)
{
    FILE *file = fopen(path, "rb");
    if (file == NULL || fseek(file, 0, SEEK_END) != 0)
        stop(path, "cannot be read");
    const long end = ftell(file);
    if (end < 0 || fseek(file, 0, SEEK_SET) != 0)
        stop(path, "cannot be read");
    uint8_t *bytes = room_for((size_t)end, 1);
    *len = fread(bytes, 1, (size_t)end, file);
    if (*len != (size_t)end || fclose(file) != 0)
        stop(path, "cannot be read to its end");
    return bytes;
}

static void add_sheet(struct sheets *sheets, struct stored_sheet sheet)
{
    if ((sheets->count & (sheets->count + 1)) == 0) {
        struct stored_sheet *more = room_for(2 * sheets->count + 1, sizeof *more);
        if (sheets->count > 0)
            memcpy(more, sheets->all, sheets->count * sizeof *more);
        free(sheets->all);
        sheets->all = more;
    }
    sheets->all[sheets->count++] = sheet;
}

void load_plain(struct sheets *sheets, const char *path)
{
    struct stored_sheet sheet = {0};
    sheet.bytes = read_whole(path, &sheet.len);
    if (sheet.len > MOST_SHEET)
        stop(path, "too long for a sheet");
    add_sheet(sheets, sheet);
}

static size_t pair(const uint8_t *bytes)
{
    return (size_t)bytes[0] << 8 | bytes[1];
}

/* Unpacks runs between gaps of zeros; tools/stored_sheets tells the format. */
static const uint8_t *unpacked(const char *path, const uint8_t *packed, size_t packed_len, size_t len)
{
    uint8_t *sheet = room_for(len, 1);
    for (size_t done = 0, from = 0; from < packed_len;) {
        if (packed_len - from < 3)
            stop(path, "a run has no beginning");
        const size_t gap = pair(packed + from), count = packed[from + 2];
        from += 3;
        done += gap;
        if (count > packed_len - from || done > len || count > len - done)
            stop(path, "a run does not fit");
        memcpy(sheet + done, packed + from, count);
        from += count;
        done += count;
    }
    return sheet;
}

void load_stored(struct sheets *sheets, const char *path)
{
    size_t left;
    for (const uint8_t *record = read_whole(path, &left); left > 0;) {
        if (left < STORED_HEAD)
            stop(path, "a record has no beginning");
        const size_t packed_len = pair(record), facts_len = pair(record + 7);
        struct stored_sheet sheet = {0};
        sheet.len = pair(record + 2);
        sheet.has_answer = true;
        sheet.answer = (struct pktfmt_refusal){record[4], record[5], record[6]};
        const size_t whole = STORED_HEAD + packed_len + facts_len;
        if (left < whole || sheet.len > MOST_SHEET)
            stop(path, "a record does not fit");
        sheet.bytes = unpacked(path, record + STORED_HEAD, packed_len, sheet.len);
        add_sheet(sheets, sheet);
        record += whole;
        left -= whole;
    }
}

/* Whether a field is stated that holds bytes: its repr says so, or its bits are over 64. */
static bool has_bytes(const struct stored_sheet *sheet)
{
    for (size_t at = 0; at + PKTFMT_BLOCK <= sheet->len; at += PKTFMT_BLOCK) {
        const uint8_t *block = sheet->bytes + at;
        if (block[0] == 'F' && (block[70] == PKTFMT_BYTE_SLICE || pair(block + 66) > 0 || pair(block + 68) > 64))
            return true;
    }
    return false;
}

void sort_out(struct sheets *sheets)
{
    sheets->small = room_for(sheets->count, sizeof *sheets->small);
    sheets->good = room_for(sheets->count, sizeof *sheets->good);
    sheets->with_bytes = room_for(sheets->count, sizeof *sheets->with_bytes);
    for (size_t i = 0; i < sheets->count; i++) {
        const struct stored_sheet *sheet = &sheets->all[i];
        if (sheet->len > SMALL_BLOCKS * PKTFMT_BLOCK)
            continue;
        sheets->small[sheets->small_count++] = sheet;
        if (!sheet->has_answer || sheet->answer.group != 0)
            continue;
        sheets->good[sheets->good_count++] = sheet;
        if (has_bytes(sheet))
            sheets->with_bytes[sheets->with_bytes_count++] = sheet;
    }
}

/* ---- changes */

/* Mends the check of a block: RFC 1071's sum of its words has to be 65,535. */
static void mend(uint8_t *block)
{
    uint64_t sum = 0;
    for (size_t at = 0; at < PKTFMT_BLOCK - 2; at += 2)
        sum += pair(block + at);
    while (sum > 65535)
        sum = (sum & 65535) + (sum >> 16);
    block[PKTFMT_BLOCK - 2] = (uint8_t)((65535 - sum) >> 8);
    block[PKTFMT_BLOCK - 1] = (uint8_t)(65535 - sum);
}

/* An offset in a block, mostly one where something stands in most blocks. */
static size_t some_offset(struct chance *chance)
{
    switch (below(chance, 8)) {
    case 0: return below(chance, PKTFMT_BLOCK);
    case 1: return below(chance, 4);
    case 2: return 84 + below(chance, 60);
    default: return 66 + below(chance, 22);
    }
}

static uint8_t some_byte(struct chance *chance, uint8_t now)
{
    switch (below(chance, 4)) {
    case 0: return (uint8_t)(now ^ 1u << below(chance, 8));
    case 1: return (uint8_t)any_number(chance);
    case 2: return (uint8_t)(now + 1);
    default: return (uint8_t)below(chance, 9);
    }
}

static void change_bytes(struct chance *chance, uint8_t *sheet, size_t len)
{
    for (uint64_t times = 1 + below(chance, 2); times > 0 && len >= PKTFMT_BLOCK; times--) {
        uint8_t *block = sheet + PKTFMT_BLOCK * below(chance, len / PKTFMT_BLOCK);
        const size_t offset = some_offset(chance);
        block[offset] = some_byte(chance, block[offset]);
        if (!one_in(chance, 8))
            mend(block);
    }
}

/* Drops a block, doubles one, or exchanges two. */
static size_t change_blocks(struct chance *chance, uint8_t *sheet, size_t len)
{
    const size_t blocks = len / PKTFMT_BLOCK;
    if (blocks == 0)
        return len;
    uint8_t *one = sheet + PKTFMT_BLOCK * below(chance, blocks);
    uint8_t *other = sheet + PKTFMT_BLOCK * below(chance, blocks);
    uint8_t kept[PKTFMT_BLOCK];
    const size_t from_one = len - (size_t)(one - sheet);
    switch (below(chance, 3)) {
    case 0:
        memmove(one, one + PKTFMT_BLOCK, from_one - PKTFMT_BLOCK);
        return len - PKTFMT_BLOCK;
    case 1:
        if (len + PKTFMT_BLOCK > MOST_SHEET)
            return len;
        memmove(one + PKTFMT_BLOCK, one, from_one);
        return len + PKTFMT_BLOCK;
    default:
        memcpy(kept, one, PKTFMT_BLOCK);
        memmove(one, other, PKTFMT_BLOCK);
        memcpy(other, kept, PKTFMT_BLOCK);
        return len;
    }
}

/* Cuts a sheet off, or has another go on behind it. */
static size_t change_end(struct chance *chance, const struct sheets *sheets, uint8_t *sheet, size_t len)
{
    if (one_in(chance, 2))
        return below(chance, len + 1);
    const struct stored_sheet *more = sheets->small[below(chance, sheets->small_count)];
    if (len + more->len > MOST_SHEET)
        return len;
    memcpy(sheet + len, more->bytes, more->len);
    return len + more->len;
}

static const struct stored_sheet *some_stored(struct chance *chance, const struct sheets *sheets)
{
    if (one_in(chance, 64))
        return &sheets->all[below(chance, sheets->count)];
    switch (below(chance, 4)) {
    case 0: return sheets->small[below(chance, sheets->small_count)];
    case 1: return sheets->with_bytes[below(chance, sheets->with_bytes_count)];
    default: return sheets->good[below(chance, sheets->good_count)];
    }
}

size_t sheet_by_chance(struct chance *chance, const struct sheets *sheets, uint8_t *out)
{
    const struct stored_sheet *stored = some_stored(chance, sheets);
    size_t len = stored->len;
    memcpy(out, stored->bytes, len);
    switch (below(chance, 10)) {
    case 0: case 1: case 2: change_bytes(chance, out, len); break;
    case 3: len = change_blocks(chance, out, len); break;
    case 4: len = change_end(chance, sheets, out, len); break;
    default: break;
    }
    return len;
}
