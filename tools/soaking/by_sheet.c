/* What is asked of a sheet: the verdict, and what it says of fields, lengths and conditions. */
#include "soak.h"

#include <stdio.h>
#include <string.h>

static bool is_zero(const void *memory, size_t len)
{
    const uint8_t *bytes = memory;
    return len == 0 || (bytes[0] == 0 && memcmp(bytes, bytes + 1, len - 1) == 0);
}

/* Where a refusal of a sheet points: at a block, or with the number of blocks at none. */
static bool is_place(const struct soak *soak, const struct pktfmt_refusal *refusal)
{
    const uint64_t blocks = soak->sheet.len / PKTFMT_BLOCK;
    const uint64_t group = refusal->group, number = refusal->number;
    if (group == PKTFMT_GROUP_SHEET && number == PKTFMT_SHEET_WRONG_LENGTH)
        return refusal->place == 0;
    if ((group == PKTFMT_GROUP_HEADER && number == PKTFMT_HEADER_NOT_WHOLE_BYTES) ||
        (group == PKTFMT_GROUP_LENGTH && number == PKTFMT_LENGTH_PAYLOAD_AND_PACKET_GIVEN) ||
        (group == PKTFMT_GROUP_COND && number == PKTFMT_COND_OVER_EIGHT_ENTRIES))
        return refusal->place == blocks;
    return group >= PKTFMT_GROUP_SHEET && group <= PKTFMT_GROUP_COND && refusal->place < blocks;
}

static void ask_check(struct soak *soak)
{
    ask(soak, CHECK, sizeof(struct pktfmt_header));
    struct pktfmt_header *header = (struct pktfmt_header *)(void *)soak->answer.lent;
    soak->accepted = pktfmt_check(SHEET(soak), header, refusal_of(soak));
    answered(soak, soak->accepted);
    soak->header = *header;
    memset(&soak->said, 0, sizeof soak->said);
    if (soak->accepted) {
        hold(soak, header->bytes <= MOST_HEADER && header->fields <= PKTFMT_MAX_FIELDS &&
                       header->conditions <= PKTFMT_MAX_CONDITIONS, "a limit of the header is passed");
    } else {
        soak->said = *refusal_of(soak);
        hold(soak, is_place(soak, &soak->said), "the place is none of the refusal's");
    }
}

/* A field by itself, after those before it, which have so many bits. */
static void hold_field(const struct soak *soak, uint64_t index, uint64_t bits_before)
{
    const struct pktfmt_field *field = &soak->fields[index];
    const bool bytes = field->repr == PKTFMT_BYTE_SLICE;
    hold(soak, field->at.index == index && field->at.first_bit == bits_before, "a field stands elsewhere");
    hold(soak, field->at.header_bytes == soak->header.bytes && can_stand(&field->at), "no field can stand there");
    hold(soak, bytes == (field->at.held == PKTFMT_HOLDS_BYTES), "a field holds what its type does not");
    hold(soak, field->repr - PKTFMT_U8 <= PKTFMT_BYTE_SLICE - PKTFMT_U8 && field->arg - PKTFMT_U8 < 7 &&
                   field->generated <= 1 && field->guarded <= 1, "a code is out of its range");
    hold(soak, field->name.at == index * PKTFMT_BLOCK + 2 && field->name.count - 1 < PKTFMT_MAX_NAME,
         "the name does not stand in the field's block");
    hold(soak, field->default_bytes.count == 0 ? field->default_bytes.at == 0
                   : bytes && field->default_bytes.at == index * PKTFMT_BLOCK + 86 &&
                         field->default_bytes.count == field->at.bits / 8,
         "the default bytes do not stand in the field's block");
}

/* Asks for the header and all fields. The header has to be that of the check: zeros, where it refuses. */
static bool call_fields(struct soak *soak)
{
    ask(soak, FIELDS, sizeof soak->fields);
    struct pktfmt_field *fields = (struct pktfmt_field *)(void *)soak->answer.lent;
    struct slice header = lend(&soak->chance, &soak->header_arena, sizeof soak->header);
    memset(header.ours, soak->filling, header.len);
    const bool accepted = pktfmt_fields(SHEET(soak), (struct pktfmt_header *)(void *)header.lent, fields,
                                        refusal_of(soak));
    answered(soak, accepted);
    hold(soak, is_whole(&header), "a byte beside the header was written");
    hold(soak, memcmp(header.ours, &soak->header, header.len) == 0, "the header is not that of the check");
    memcpy(soak->fields, fields, sizeof soak->fields);
    return accepted;
}

static void ask_fields(struct soak *soak)
{
    const bool accepted = call_fields(soak);
    if (!soak->accepted) {
        refused_as_checked(soak, accepted);
        return;
    }
    hold(soak, accepted, "refused, where the check accepts");
    uint64_t bits = 0, index = 0;
    for (; index < soak->header.fields; bits += soak->fields[index++].at.bits)
        hold_field(soak, index, bits);
    hold(soak, bits == 8 * soak->header.bytes, "the fields have not the bits of the header");
    hold(soak, is_zero(&soak->fields[index], (PKTFMT_MAX_FIELDS - index) * sizeof soak->fields[0]),
         "there is something past the last field");
}

/* Holds the answer to be a field of those that were told at once, or access 1 at a place. */
static void hold_one_field(const struct soak *soak, bool accepted, uint64_t index, uint64_t place)
{
    if (!soak->accepted)
        refused_as_checked(soak, accepted);
    else if (index >= soak->header.fields)
        refused_as(soak, accepted, PKTFMT_GROUP_ACCESS, PKTFMT_ACCESS_NO_SUCH_FIELD, place);
    else
        hold(soak, accepted && memcmp(soak->answer.lent, &soak->fields[index], sizeof soak->fields[0]) == 0,
             "it is not the field of the list");
}

static void ask_by_index(struct soak *soak)
{
    const uint64_t index = near(&soak->chance, below(&soak->chance, soak->header.fields));
    ask(soak, FIELD_BY_INDEX, sizeof(struct pktfmt_field));
    struct pktfmt_field *field = (struct pktfmt_field *)(void *)soak->answer.lent;
    const bool accepted = pktfmt_field_by_index(SHEET(soak), index, field, refusal_of(soak));
    answered(soak, accepted);
    hold_one_field(soak, accepted, index, index);
}

/* The name of a field, mostly; now and then one byte longer, shorter or changed, or anything. */
static struct slice some_name(struct soak *soak)
{
    const struct pktfmt_field *field = &soak->fields[below(&soak->chance, soak->header.fields)];
    const size_t known = field->name.count;
    size_t len = (size_t)near(&soak->chance, known);
    if (len > 2 * PKTFMT_MAX_NAME)
        len = below(&soak->chance, 2 * PKTFMT_MAX_NAME);
    const uint8_t flipped = (uint8_t)(1u << below(&soak->chance, 8));
    struct slice name = lend(&soak->chance, &soak->name_arena, len);
    memset(name.ours, 'n', len);
    memcpy(name.ours, soak->sheet.ours + field->name.at, len < known ? len : known);
    if (len > 0 && one_in(&soak->chance, 8))
        name.ours[below(&soak->chance, len)] ^= flipped;
    return name;
}

static uint64_t index_named(const struct soak *soak, const struct slice *name)
{
    uint64_t index = 0;
    for (; index < soak->header.fields; index++) {
        const struct pktfmt_span span = soak->fields[index].name;
        if (span.count == name->len && memcmp(soak->sheet.ours + span.at, name->ours, name->len) == 0)
            break;
    }
    return index;
}

static void ask_by_name(struct soak *soak)
{
    struct slice name = some_name(soak);
    ask(soak, FIELD_BY_NAME, sizeof(struct pktfmt_field));
    struct pktfmt_field *field = (struct pktfmt_field *)(void *)soak->answer.lent;
    const bool accepted = pktfmt_field_by_name(SHEET(soak), (const char *)name.lent, name.len, field,
                                               refusal_of(soak));
    answered(soak, accepted);
    hold_one_field(soak, accepted, index_named(soak, &name), soak->header.fields);
}

static void hold_length(const struct soak *soak, const struct pktfmt_length *length)
{
    uint64_t largest;
    if (length->form == PKTFMT_UNDEFINED || length->form == PKTFMT_ABSENT) {
        hold(soak, is_zero(&length->first, sizeof *length - sizeof length->form), "a length has what it lacks");
        return;
    }
    hold(soak, length->field < soak->header.fields, "a length is of no field");
    const struct pktfmt_locator *at = &soak->fields[length->field].at;
    hold(soak, at->held != PKTFMT_HOLDS_BYTES && length_of(length, largest_of(at->bits), &largest) &&
                   largest == length->largest && largest <= MOST_HEADER, "the largest length is another");
}

static void ask_lengths(struct soak *soak)
{
    ask(soak, LENGTHS, sizeof soak->lengths);
    struct pktfmt_length *lengths = (struct pktfmt_length *)(void *)soak->answer.lent;
    const bool accepted = pktfmt_lengths(SHEET(soak), lengths, refusal_of(soak));
    answered(soak, accepted);
    memcpy(soak->lengths, lengths, sizeof soak->lengths);
    if (!soak->accepted) {
        refused_as_checked(soak, accepted);
        return;
    }
    hold(soak, accepted, "refused, where the check accepts");
    for (int slot = 0; slot < PKTFMT_SLOTS; slot++)
        hold_length(soak, &soak->lengths[slot]);
}

/* Every range has numbers that the field can have, and none has one of another. */
static void hold_condition(const struct soak *soak, const struct pktfmt_condition *condition)
{
    const struct pktfmt_range *ranges = condition->ranges;
    hold(soak, condition->field < soak->header.fields && condition->count <= PKTFMT_MAX_RANGES,
         "a condition is of no field, or has too many ranges");
    const uint64_t most = largest_of(soak->fields[condition->field].at.bits);
    for (uint64_t i = 0; i < condition->count; i++) {
        hold(soak, ranges[i].first <= ranges[i].last && ranges[i].last <= most, "a range is not in the field");
        for (uint64_t k = 0; k < i; k++)
            hold(soak, ranges[k].last < ranges[i].first || ranges[i].last < ranges[k].first, "two ranges meet");
    }
    hold(soak, is_zero(&ranges[condition->count], (PKTFMT_MAX_RANGES - condition->count) * sizeof *ranges),
         "there is something past the last range");
}

static void ask_conditions(struct soak *soak)
{
    ask(soak, CONDITIONS, PKTFMT_MAX_CONDITIONS * sizeof(struct pktfmt_condition));
    struct pktfmt_condition *conditions = (struct pktfmt_condition *)(void *)soak->answer.lent;
    const bool accepted = pktfmt_conditions(SHEET(soak), conditions, refusal_of(soak));
    answered(soak, accepted);
    if (!soak->accepted) {
        refused_as_checked(soak, accepted);
        return;
    }
    hold(soak, accepted, "refused, where the check accepts");
    const uint64_t count = soak->header.conditions;
    for (uint64_t i = 0; i < count; i++)
        hold_condition(soak, &conditions[i]);
    hold(soak, is_zero(&conditions[count], (PKTFMT_MAX_CONDITIONS - count) * sizeof *conditions),
         "there is something past the last condition");
}

/* The first line of the listing tells what the check says, but that headers over 8,192 bytes are not listed. */
static void hold_first_line(const struct soak *soak, const char *text, size_t len)
{
    struct pktfmt_refusal told = soak->said;
    if (soak->accepted && soak->header.bytes > 8192)
        told = (struct pktfmt_refusal){PKTFMT_GROUP_ROOM, PKTFMT_ROOM_BUFFER_UNDER_HEADER,
                                       soak->sheet.len / PKTFMT_BLOCK};
    char line[80];
    const int count = told.group == 0
        ? snprintf(line, sizeof line, "header %llu\n", (unsigned long long)soak->header.bytes)
        : snprintf(line, sizeof line, "refused %s %llu %llu\n", pktfmt_group_name(told.group),
                   (unsigned long long)told.number, (unsigned long long)told.place);
    hold(soak, count > 0 && len >= (size_t)count && memcmp(text, line, (size_t)count) == 0,
         "the first line is another");
}

/* The listing whole, and as far as there is room for it. */
static void ask_list(struct soak *soak)
{
    static _Thread_local char whole[PKTFMT_MAX_LISTING];
    soak->function = LIST;
    const size_t len = pktfmt_list(SHEET(soak), whole, sizeof whole);
    hold(soak, len <= sizeof whole, "the listing is too long");
    hold_first_line(soak, whole, len);
    const size_t most = soak->out_arena.size - PKTFMT_BLOCK;
    const size_t room = below(&soak->chance, len > most / 2 ? most : 2 * len + 2);
    struct slice out = lend(&soak->chance, &soak->out_arena, room);
    memset(out.ours, 0xee, room);
    hold(soak, pktfmt_list(SHEET(soak), (char *)out.lent, room) == len, "the length depends on the room");
    const size_t front = room < len ? room : len;
    hold(soak, is_whole(&out), "a byte beside the room was written");
    hold(soak, front == 0 || memcmp(out.ours, whole, front) == 0, "the front is another");
    hold(soak, room <= front || (out.ours[front] == 0xee &&
         memcmp(out.ours + front, out.ours + front + 1, room - front - 1) == 0), "the rest was written");
    soak->tally.accepted[LIST] += 2;
}

void ask_the_sheet(struct soak *soak)
{
    ask_check(soak);
    ask_fields(soak);
    ask_by_index(soak);
    ask_by_name(soak);
    ask_lengths(soak);
    ask_conditions(soak);
    ask_list(soak);
}
