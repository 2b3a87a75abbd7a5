/* What pktfmt.h tells of sheets, and how it is asked: example SHEET..
 *
 *     tools/library target/library
 *     cc -std=c11 -Itarget/library include/example.c -Ltarget/library -lpktfmt -o target/example
 *     target/example examples/rfc791.sheet examples/ethernet.sheet
 *
 * It is C, and C++ as well. Its status is 0 where every file was read and every sheet answered, refused ones
 * too; include/example.expected is what it prints for some. */
#include "pktfmt.h"

#include <inttypes.h>
#include <stdio.h>
#include <stdlib.h>
#include <string.h>

/* A sheet as it stands in its file. There is room for a byte more than any sheet has, so that a file that is
 * too long is refused, and its front not taken for a sheet. */
struct sheet {
    size_t len;
    uint8_t bytes[PKTFMT_MAX_BLOCKS * PKTFMT_BLOCK + 1];
};

/* The bytes of a packet's header. */
struct packet {
    size_t len;
    uint8_t *bytes;
};

/* ---- refusals, bytes and names */

/* A refusal in words: its group, number and place, and the reason. */
static void print_refusal(const struct pktfmt_refusal *refusal)
{
    printf("refused %s %" PRIu64 " at %" PRIu64 ": %s\n", pktfmt_group_name(refusal->group), refusal->number,
           refusal->place, pktfmt_reason(refusal->group, refusal->number));
}

/* For calls that a checked sheet makes good: a refusal is told, and ends the work on the sheet. */
static bool accepted(bool answer, const struct pktfmt_refusal *refusal)
{
    if (!answer) {
        printf("  ");
        print_refusal(refusal);
    }
    return answer;
}

/* Bytes in hexadecimal, as far as they fit on a line. */
static void print_bytes(const uint8_t *bytes, uint64_t count)
{
    const uint64_t most = 40;
    for (uint64_t i = 0; i < count && i < most; i++)
        printf("%02x", (unsigned)bytes[i]);
    printf("%s", count > most ? ".." : "");
}

/* The name of a field. In the sheet it has no zero at its end; here it gets one. */
static const char *name_of(const struct sheet *sheet, const struct pktfmt_field *field,
                           char name[PKTFMT_MAX_NAME + 1])
{
    memcpy(name, sheet->bytes + field->name.at, (size_t)field->name.count);
    name[field->name.count] = '\0';
    return name;
}

/* ---- what the sheet says */

static const char *type_name(uint64_t type)
{
    switch (type) {
    case PKTFMT_U8: return "u8";
    case PKTFMT_U16: return "u16";
    case PKTFMT_U32: return "u32";
    case PKTFMT_U64: return "u64";
    case PKTFMT_BYTE_SLICE: return "bytes";
    case PKTFMT_BOOL: return "bool";
    case PKTFMT_CODE: return "code";
    default: return "no type";
    }
}

/* A field: where it stands, how it is held and handed over, and its default. A default of bytes stands in the
 * sheet; where the sheet states none, it is zeros. */
static void print_field(const struct sheet *sheet, const struct pktfmt_field *field)
{
    char name[PKTFMT_MAX_NAME + 1];
    printf("  field %s: %" PRIu64 " bits from byte %" PRIu64 ", bit %" PRIu64 ", %s", name_of(sheet, field, name),
           field->at.bits, field->at.first_bit / 8, field->at.first_bit % 8, type_name(field->repr));
    if (field->arg != field->repr)
        printf(" as %s", type_name(field->arg));
    if (field->at.held != PKTFMT_HOLDS_BYTES)
        printf(", %s %" PRIu64 "\n", field->at.held == PKTFMT_HOLDS_FIXED ? "always" : "default",
               field->at.default_number);
    else if (field->default_bytes.count == 0)
        printf(", default zeros\n");
    else {
        printf(", default ");
        print_bytes(sheet->bytes + field->default_bytes.at, field->default_bytes.count);
        printf("\n");
    }
}

/* The formula of a length, over the name of its field. */
static void print_formula(const struct pktfmt_length *length, const char *name)
{
    const uint64_t first = length->first, second = length->second;
    switch (length->form) {
    case PKTFMT_X: printf("%s", name); break;
    case PKTFMT_X_PLUS: printf("%s + %" PRIu64, name, first); break;
    case PKTFMT_X_TIMES: printf("%s * %" PRIu64, name, first); break;
    case PKTFMT_PLUS_TIMES: printf("(%s + %" PRIu64 ") * %" PRIu64, name, first, second); break;
    case PKTFMT_TIMES_PLUS: printf("%s * %" PRIu64 " + %" PRIu64, name, first, second); break;
    default: printf("no formula"); break;
    }
}

/* A length that the sheet gives: its formula, forward from its field's default, and from that length back. There
 * is no way back where more than one value has the length. */
static void print_length(const struct sheet *sheet, const struct pktfmt_field *fields, const char *slot,
                         const struct pktfmt_length *length)
{
    if (length->form == PKTFMT_ABSENT)
        return;
    if (length->form == PKTFMT_UNDEFINED) {
        printf("  length %s: given, and not how\n", slot);
        return;
    }
    char name[PKTFMT_MAX_NAME + 1];
    uint64_t y = 0, x = 0;
    printf("  length %s: ", slot);
    print_formula(length, name_of(sheet, &fields[length->field], name));
    printf(", at most %" PRIu64, length->largest);
    if (pktfmt_forward(length, fields[length->field].at.default_number, &y))
        printf(", by default %" PRIu64, y);
    if (pktfmt_back(length, y, &x))
        printf(", which is that of %" PRIu64, x);
    printf("\n");
}

static bool print_lengths(const struct sheet *sheet, const struct pktfmt_field *fields)
{
    static const char *const slots[PKTFMT_SLOTS] = {"header_len", "payload_len", "packet_len"};
    struct pktfmt_length lengths[PKTFMT_SLOTS];
    struct pktfmt_refusal refusal;
    if (!accepted(pktfmt_lengths(sheet->bytes, sheet->len, lengths, &refusal), &refusal))
        return false;
    for (int slot = 0; slot < PKTFMT_SLOTS; slot++)
        print_length(sheet, fields, slots[slot], &lengths[slot]);
    return true;
}

/* The conditions: the values that each lets its field have. */
static bool print_conditions(const struct sheet *sheet, const struct pktfmt_header *header,
                             const struct pktfmt_field *fields)
{
    struct pktfmt_condition conditions[PKTFMT_MAX_CONDITIONS];
    struct pktfmt_refusal refusal;
    if (!accepted(pktfmt_conditions(sheet->bytes, sheet->len, conditions, &refusal), &refusal))
        return false;
    for (uint64_t i = 0; i < header->conditions; i++) {
        char name[PKTFMT_MAX_NAME + 1];
        printf("  condition %s:", name_of(sheet, &fields[conditions[i].field], name));
        for (uint64_t k = 0; k < conditions[i].count; k++)
            printf("%s %" PRIu64 " to %" PRIu64, k > 0 ? "," : "", conditions[i].ranges[k].first,
                   conditions[i].ranges[k].last);
        printf("\n");
    }
    return true;
}

/* A field looked up by its name. That there is none is an answer, not a fault of the sheet. */
static void print_named(const struct sheet *sheet, const char *name)
{
    struct pktfmt_field field;
    struct pktfmt_refusal refusal;
    printf("  named %s: ", name);
    if (pktfmt_field_by_name(sheet->bytes, sheet->len, name, strlen(name), &field, &refusal))
        printf("field %" PRIu64 "\n", field.at.index);
    else
        print_refusal(&refusal);
}

/* ---- reading and writing */

/* What a field holds in a packet, read by the sheet. The sheet is checked anew each time: for one packet that
 * will do, for many there are the locators. */
static bool print_read(const struct sheet *sheet, const struct pktfmt_locator *at, const struct packet *packet)
{
    struct pktfmt_refusal refusal;
    if (at->held == PKTFMT_HOLDS_BYTES) {
        struct pktfmt_span span;
        if (!accepted(pktfmt_read_bytes(sheet->bytes, sheet->len, at->index, packet->bytes, packet->len, &span,
                                        &refusal), &refusal))
            return false;
        print_bytes(packet->bytes + span.at, span.count);
        return true;
    }
    uint64_t value;
    if (!accepted(pktfmt_read_number(sheet->bytes, sheet->len, at->index, packet->bytes, packet->len, &value,
                                     &refusal), &refusal))
        return false;
    printf("%" PRIu64, value);
    return true;
}

/* The largest value of a field that holds a number, written at its locator and read back. */
static bool write_largest_number(const struct pktfmt_locator *at, const struct packet *packet)
{
    const uint64_t largest = UINT64_MAX >> (64 - at->bits);
    uint64_t value;
    struct pktfmt_refusal refusal;
    if (!accepted(pktfmt_write_number_at(at, packet->bytes, packet->len, largest, &refusal), &refusal) ||
        !accepted(pktfmt_read_number_at(at, packet->bytes, packet->len, &value, &refusal), &refusal))
        return false;
    printf(", then %" PRIu64 "\n", value);
    return value == largest;
}

/* The same for bytes; `ones` has as many as the field at least. Where they stand is told, not what they are. */
static bool write_largest_bytes(const struct pktfmt_locator *at, const struct packet *packet, const uint8_t *ones)
{
    const size_t count = (size_t)at->bits / 8;
    struct pktfmt_span span;
    struct pktfmt_refusal refusal;
    if (!accepted(pktfmt_write_bytes_at(at, packet->bytes, packet->len, ones, count, &refusal), &refusal) ||
        !accepted(pktfmt_read_bytes_at(at, packet->bytes, packet->len, &span, &refusal), &refusal))
        return false;
    printf(", then ");
    print_bytes(packet->bytes + span.at, span.count);
    printf("\n");
    return span.count == count && memcmp(packet->bytes + span.at, ones, count) == 0;
}

/* Reads a field of a packet, and writes its largest value there. A fixed one takes its default alone. */
static bool read_and_write(const struct sheet *sheet, const struct pktfmt_field *field, const struct packet *packet,
                           const uint8_t *ones)
{
    char name[PKTFMT_MAX_NAME + 1];
    printf("  value of %s: ", name_of(sheet, field, name));
    if (!print_read(sheet, &field->at, packet))
        return false;
    if (field->at.held == PKTFMT_HOLDS_NUMBER)
        return write_largest_number(&field->at, packet);
    if (field->at.held == PKTFMT_HOLDS_BYTES)
        return write_largest_bytes(&field->at, packet, ones);
    printf(", fixed\n");
    return true;
}

/* The template: what every packet starts as. Then each field of it in turn is read, and written. */
static bool use_packet(const struct sheet *sheet, uint64_t field_count, const struct pktfmt_field *fields,
                       const struct packet *packet, uint8_t *ones)
{
    struct pktfmt_refusal refusal;
    if (!accepted(pktfmt_template(sheet->bytes, sheet->len, packet->bytes, packet->len, &refusal), &refusal))
        return false;
    printf("  template ");
    print_bytes(packet->bytes, packet->len);
    printf("\n");
    memset(ones, 0xff, packet->len);
    for (uint64_t i = 0; i < field_count; i++)
        if (!read_and_write(sheet, &fields[i], packet, ones))
            return false;
    printf("  at the end ");
    print_bytes(packet->bytes, packet->len);
    printf("\n");
    return true;
}

/* A header can have 4,194,303 bytes, and none; malloc may give NULL for none. */
static bool with_packet(const struct sheet *sheet, const struct pktfmt_header *header,
                        const struct pktfmt_field *fields)
{
    struct packet packet;
    packet.len = (size_t)header->bytes;
    packet.bytes = (uint8_t *)malloc(packet.len + 1);
    uint8_t *ones = (uint8_t *)malloc(packet.len + 1);
    bool done = packet.bytes != NULL && ones != NULL;
    if (done)
        done = use_packet(sheet, header->fields, fields, &packet, ones);
    else
        fprintf(stderr, "example: there is no memory for %zu bytes\n", packet.len);
    free(packet.bytes);
    free(ones);
    return done;
}

/* ---- sheets */

/* All that a sheet says. One call checks it, and tells its header and fields. Where it is accepted, so is every
 * question after that, but for the name. */
static bool show_sheet(const struct sheet *sheet)
{
    struct pktfmt_header header;
    struct pktfmt_field fields[PKTFMT_MAX_FIELDS];
    struct pktfmt_refusal refusal;
    if (!pktfmt_fields(sheet->bytes, sheet->len, &header, fields, &refusal)) {
        print_refusal(&refusal);
        return true;
    }
    printf("header of %" PRIu64 " bytes, fields: %" PRIu64 ", conditions: %" PRIu64 "\n", header.bytes,
           header.fields, header.conditions);
    for (uint64_t i = 0; i < header.fields; i++)
        print_field(sheet, &fields[i]);
    if (!print_lengths(sheet, fields) || !print_conditions(sheet, &header, fields))
        return false;
    print_named(sheet, "source");
    return with_packet(sheet, &header, fields);
}

static bool read_sheet(const char *path, struct sheet *sheet)
{
    FILE *file = fopen(path, "rb");
    if (file == NULL) {
        perror(path);
        return false;
    }
    sheet->len = fread(sheet->bytes, 1, sizeof sheet->bytes, file);
    const bool read = ferror(file) == 0;
    if (!read)
        perror(path);
    fclose(file); /* it was only read: nothing can be lost here */
    return read;
}

int main(int argc, char **argv)
{
    static struct sheet sheet;
    int status = EXIT_SUCCESS;
    if (argc < 2) {
        fprintf(stderr, "usage: example SHEET..\n");
        return 2;
    }
    if (pktfmt_version() != PKTFMT_VERSION) {
        fprintf(stderr, "example: the library is not the one of the header that this was compiled with\n");
        return EXIT_FAILURE;
    }
    for (int i = 1; i < argc; i++) {
        if (!read_sheet(argv[i], &sheet)) {
            status = EXIT_FAILURE;
            continue;
        }
        printf("%s: ", argv[i]);
        if (!show_sheet(&sheet))
            status = EXIT_FAILURE;
    }
    if (fflush(stdout) != 0 || ferror(stdout)) {
        perror("example: standard output");
        return EXIT_FAILURE;
    }
    return status;
}
