/* The template, and reads and writes of fields: by the sheet, and at locators of its fields or made up. */
#include "soak.h"

#include <string.h>

#define FEW_BYTES 256

/* ---- buffers */

/* Long headers take long to compare, and come up less often: most buffers are then too short. */
static size_t some_length(struct soak *soak, uint64_t header_bytes)
{
    const size_t most = soak->write_arena.size;
    const uint64_t len = near(&soak->chance, header_bytes);
    if (len < FEW_BYTES || (len <= most && one_in(&soak->chance, len < 65536 ? 8 : 256)))
        return (size_t)len;
    return below(&soak->chance, FEW_BYTES);
}

/* A buffer with any bytes, about as long as a header: one to read, or one to write. */
static struct slice some_buffer(struct soak *soak, struct arena *arena, uint64_t header_bytes)
{
    struct slice buf = lend(&soak->chance, arena, some_length(soak, header_bytes));
    const size_t few = buf.len < FEW_BYTES ? buf.len : FEW_BYTES;
    memset(buf.ours, (int)below(&soak->chance, 256), buf.len);
    for (size_t i = 0; i < few; i += sizeof(uint64_t)) {
        const uint64_t number = any_number(&soak->chance);
        memcpy(buf.ours + i, &number, few - i < sizeof number ? few - i : sizeof number);
    }
    memcpy(soak->shadow, buf.ours, buf.len);
    return buf;
}

/* Holds a buffer to be what it has to be after a call, with what stands beside it. */
static void hold_buffer(const struct soak *soak, const struct slice *buf)
{
    hold(soak, is_whole(buf), "a byte beside the buffer was written");
    hold(soak, memcmp(buf->ours, soak->shadow, buf->len) == 0, "the buffer is another");
}

/* ---- the template */

static void shadow_default(const struct soak *soak, const struct pktfmt_field *field)
{
    uint8_t *first = soak->shadow + field->at.first_bit / 8;
    if (field->at.held != PKTFMT_HOLDS_BYTES)
        spell(soak->shadow, field->at.first_bit, field->at.bits, field->at.default_number);
    else if (field->default_bytes.count == 0)
        memset(first, 0, field->at.bits / 8);
    else
        memcpy(first, soak->sheet.ours + field->default_bytes.at, field->default_bytes.count);
}

static void ask_template(struct soak *soak)
{
    struct slice buf = some_buffer(soak, &soak->write_arena, soak->header.bytes);
    ask(soak, TEMPLATE, 0);
    const bool accepted = pktfmt_template(SHEET(soak), buf.lent, buf.len, refusal_of(soak));
    answered(soak, accepted);
    if (!soak->accepted)
        refused_as_checked(soak, accepted);
    else if (buf.len < soak->header.bytes)
        refused_as(soak, accepted, PKTFMT_GROUP_ROOM, PKTFMT_ROOM_BUFFER_UNDER_HEADER,
                   soak->sheet.len / PKTFMT_BLOCK);
    else {
        hold(soak, accepted, "refused, where there is room");
        for (uint64_t i = 0; i < soak->header.fields; i++)
            shadow_default(soak, &soak->fields[i]);
    }
    hold_buffer(soak, &buf);
}

/* ---- what is read or written */

/* An access: by the sheet with an index, or at a locator. `there` tells whether a field is there, or can be. */
struct target {
    bool by_sheet;
    bool there;
    uint64_t place;
    struct pktfmt_locator at;
    const struct pktfmt_locator *lent;
};

/* A field of the sheet, mostly one that holds bytes or a number as it is wanted. */
static uint64_t some_field(struct soak *soak, bool as_bytes)
{
    const uint64_t count = soak->header.fields;
    uint64_t index = below(&soak->chance, count);
    for (uint64_t tried = 0; tried < count && !one_in(&soak->chance, 8); tried++) {
        if (as_bytes == (soak->fields[index].at.held == PKTFMT_HOLDS_BYTES))
            break;
        index = (index + 1) % count;
    }
    return index;
}

static struct target by_sheet(struct soak *soak, bool as_bytes)
{
    struct target target = {0};
    target.by_sheet = true;
    target.place = some_field(soak, as_bytes);
    if (one_in(&soak->chance, 4))
        target.place = near(&soak->chance, target.place);
    target.there = target.place < soak->header.fields;
    if (target.there)
        target.at = soak->fields[target.place].at;
    else
        target.at.header_bytes = soak->header.bytes;
    return target;
}

/* One of the numbers of a locator is made another, or two. */
static void change_locator(struct soak *soak, struct pktfmt_locator *at)
{
    uint64_t *const numbers[] = {&at->index, &at->header_bytes, &at->first_bit, &at->bits, &at->held,
                                 &at->default_number};
    for (uint64_t times = 1 + below(&soak->chance, 2); times > 0; times--) {
        uint64_t *number = numbers[below(&soak->chance, sizeof numbers / sizeof numbers[0])];
        *number = near(&soak->chance, near(&soak->chance, *number));
    }
}

/* A locator of no sheet, that mostly could be a field's. */
static struct pktfmt_locator made_up(struct chance *chance, bool bytes)
{
    struct pktfmt_locator at = {0};
    at.index = some_number(chance);
    at.held = bytes ? PKTFMT_HOLDS_BYTES : below(chance, 2);
    at.first_bit = bytes ? 8 * below(chance, 40) : below(chance, 100);
    at.bits = bytes ? 16 + 8 * below(chance, 30) : 1 + below(chance, 64 - at.first_bit % 8);
    at.header_bytes = (at.first_bit + at.bits + 7) / 8 + below(chance, 4);
    at.default_number = bytes ? 0 : any_number(chance) & largest_of(at.bits);
    return at;
}

static struct target at_locator(struct soak *soak, bool as_bytes)
{
    struct target target = {0};
    if (soak->header.fields > 0 && !one_in(&soak->chance, 3))
        target.at = soak->fields[some_field(soak, as_bytes)].at;
    else
        target.at = made_up(&soak->chance, one_in(&soak->chance, 8) ? !as_bytes : as_bytes);
    if (one_in(&soak->chance, 3))
        change_locator(soak, &target.at);
    struct slice input = lend(&soak->chance, &soak->input_arena, sizeof target.at);
    memcpy(input.ours, &target.at, sizeof target.at);
    target.lent = (const struct pktfmt_locator *)(const void *)input.lent;
    target.there = can_stand(&target.at);
    target.place = target.at.index;
    return target;
}

/* Access 1 to 3, or 0: whether a field can be reached, as a number or as bytes. */
static uint64_t unreached(const struct target *target, size_t buf_len, bool as_bytes)
{
    if (!target->there)
        return PKTFMT_ACCESS_NO_SUCH_FIELD;
    if (buf_len < target->at.header_bytes)
        return PKTFMT_ACCESS_BUFFER_UNDER_HEADER;
    if (as_bytes != (target->at.held == PKTFMT_HOLDS_BYTES))
        return PKTFMT_ACCESS_FIELD_OF_OTHER_KIND;
    return 0;
}

/* Holds the answer to be this one: whether it was accepted. */
static bool hold_access(const struct soak *soak, const struct target *target, bool accepted, uint64_t number)
{
    if (target->by_sheet && !soak->accepted)
        refused_as_checked(soak, accepted);
    else if (number > 0)
        refused_as(soak, accepted, PKTFMT_GROUP_ACCESS, number, target->place);
    else
        hold(soak, accepted, "refused, where it is allowed");
    return accepted;
}

/* ---- reads */

static void read_number(struct soak *soak, struct target target)
{
    struct slice buf = some_buffer(soak, &soak->read_arena, target.at.header_bytes);
    ask(soak, target.by_sheet ? READ_NUMBER : READ_NUMBER_AT, sizeof(uint64_t));
    uint64_t *value = (uint64_t *)(void *)soak->answer.lent;
    const bool accepted = target.by_sheet
        ? pktfmt_read_number(SHEET(soak), target.place, buf.lent, buf.len, value, refusal_of(soak))
        : pktfmt_read_number_at(target.lent, buf.lent, buf.len, value, refusal_of(soak));
    answered(soak, accepted);
    if (hold_access(soak, &target, accepted, unreached(&target, buf.len, false)))
        hold(soak, *value == spelled(buf.ours, target.at.first_bit, target.at.bits), "another number was read");
}

static void read_bytes(struct soak *soak, struct target target)
{
    struct slice buf = some_buffer(soak, &soak->read_arena, target.at.header_bytes);
    ask(soak, target.by_sheet ? READ_BYTES : READ_BYTES_AT, sizeof(struct pktfmt_span));
    struct pktfmt_span *span = (struct pktfmt_span *)(void *)soak->answer.lent;
    const bool accepted = target.by_sheet
        ? pktfmt_read_bytes(SHEET(soak), target.place, buf.lent, buf.len, span, refusal_of(soak))
        : pktfmt_read_bytes_at(target.lent, buf.lent, buf.len, span, refusal_of(soak));
    answered(soak, accepted);
    if (hold_access(soak, &target, accepted, unreached(&target, buf.len, true)))
        hold(soak, span->at == target.at.first_bit / 8 && span->count == target.at.bits / 8,
             "other bytes were read");
}

/* ---- writes */

/* Zeros, the largest value, one beside it or the default, or anything. */
static uint64_t some_value(struct soak *soak, const struct pktfmt_locator *at)
{
    switch (below(&soak->chance, 4)) {
    case 0: return near(&soak->chance, at->default_number);
    case 1: return near(&soak->chance, largest_of(at->bits));
    case 2: return any_number(&soak->chance) & largest_of(at->bits);
    default: return some_number(&soak->chance);
    }
}

static uint64_t unsuited_number(const struct pktfmt_locator *at, uint64_t value)
{
    if (value > largest_of(at->bits))
        return PKTFMT_ACCESS_VALUE_NOT_THE_WIDTH;
    return at->held == PKTFMT_HOLDS_FIXED && value != at->default_number ? PKTFMT_ACCESS_FIXED_TO_ITS_DEFAULT : 0;
}

static void read_number_again(struct soak *soak, const struct target *target, const struct slice *buf,
                              uint64_t value)
{
    ask(soak, READ_NUMBER_AT, sizeof(uint64_t));
    uint64_t *again = (uint64_t *)(void *)soak->answer.lent;
    const bool accepted = pktfmt_read_number_at(&target->at, buf->lent, buf->len, again, refusal_of(soak));
    answered(soak, accepted);
    hold(soak, accepted && *again == value, "what was written is not read again");
}

static void write_number(struct soak *soak, struct target target)
{
    struct slice buf = some_buffer(soak, &soak->write_arena, target.at.header_bytes);
    const uint64_t value = some_value(soak, &target.at);
    ask(soak, target.by_sheet ? WRITE_NUMBER : WRITE_NUMBER_AT, 0);
    const bool accepted = target.by_sheet
        ? pktfmt_write_number(SHEET(soak), target.place, buf.lent, buf.len, value, refusal_of(soak))
        : pktfmt_write_number_at(target.lent, buf.lent, buf.len, value, refusal_of(soak));
    answered(soak, accepted);
    uint64_t number = unreached(&target, buf.len, false);
    if (number == 0)
        number = unsuited_number(&target.at, value);
    if (hold_access(soak, &target, accepted, number))
        spell(soak->shadow, target.at.first_bit, target.at.bits, value);
    hold_buffer(soak, &buf);
    if (accepted)
        read_number_again(soak, &target, &buf, value);
}

static void read_bytes_again(struct soak *soak, const struct target *target, const struct slice *buf,
                             const struct slice *bytes)
{
    ask(soak, READ_BYTES_AT, sizeof(struct pktfmt_span));
    struct pktfmt_span *span = (struct pktfmt_span *)(void *)soak->answer.lent;
    const bool accepted = pktfmt_read_bytes_at(&target->at, buf->lent, buf->len, span, refusal_of(soak));
    answered(soak, accepted);
    hold(soak, accepted && span->count == bytes->len && span->at <= buf->len - span->count &&
                   memcmp(buf->ours + span->at, bytes->ours, bytes->len) == 0,
         "what was written is not read again");
}

static struct slice some_bytes(struct soak *soak, uint64_t count)
{
    const uint64_t len = near(&soak->chance, count);
    const size_t most = soak->bytes_arena.size;
    struct slice bytes = lend(&soak->chance, &soak->bytes_arena, len <= most ? (size_t)len
                                                                          : below(&soak->chance, FEW_BYTES));
    const uint8_t other = (uint8_t)any_number(&soak->chance);
    memset(bytes.ours, (int)below(&soak->chance, 256), bytes.len);
    if (bytes.len > 0)
        bytes.ours[below(&soak->chance, bytes.len)] = other;
    return bytes;
}

static void write_bytes(struct soak *soak, struct target target)
{
    struct slice buf = some_buffer(soak, &soak->write_arena, target.at.header_bytes);
    const struct slice bytes = some_bytes(soak, target.at.bits / 8);
    ask(soak, target.by_sheet ? WRITE_BYTES : WRITE_BYTES_AT, 0);
    const bool accepted = target.by_sheet
        ? pktfmt_write_bytes(SHEET(soak), target.place, buf.lent, buf.len, bytes.lent, bytes.len, refusal_of(soak))
        : pktfmt_write_bytes_at(target.lent, buf.lent, buf.len, bytes.lent, bytes.len, refusal_of(soak));
    answered(soak, accepted);
    uint64_t number = unreached(&target, buf.len, true);
    if (number == 0 && bytes.len != target.at.bits / 8)
        number = PKTFMT_ACCESS_VALUE_NOT_THE_WIDTH;
    if (hold_access(soak, &target, accepted, number))
        memcpy(soak->shadow + target.at.first_bit / 8, bytes.ours, bytes.len);
    hold_buffer(soak, &buf);
    if (accepted)
        read_bytes_again(soak, &target, &buf, &bytes);
}

void ask_for_accesses(struct soak *soak)
{
    ask_template(soak);
    read_number(soak, by_sheet(soak, false));
    read_bytes(soak, by_sheet(soak, true));
    write_number(soak, by_sheet(soak, false));
    write_bytes(soak, by_sheet(soak, true));
    read_number(soak, at_locator(soak, false));
    read_bytes(soak, at_locator(soak, true));
    write_number(soak, at_locator(soak, false));
    write_bytes(soak, at_locator(soak, true));
}
