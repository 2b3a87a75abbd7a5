/* Measures how much stack each function of pktfmt.h needs: stack STORED SHEET..
 *
 * Each call has a thread of its own, on a stack that is painted before; afterwards the deepest byte that is no
 * paint any more is looked for. What the thread needs without a call is left out. The sheets are those that are
 * accepted or have over four blocks, and fields are asked for by the first index and the last. It fails where
 * a function needs more than the header says. */
#define _GNU_SOURCE
#include "soak.h"

#include <pthread.h>
#include <stdio.h>
#include <stdlib.h>
#include <string.h>

#define STACK 131072
#define PAINT 0xa5
#define MOST_OF_LIST 65536
#define MOST_OF_OTHERS 16384

/* What a thread is to call, and what came of it. */
struct errand {
    enum function function; /* FUNCTIONS stands for no call at all */
    const struct stored_sheet *sheet;
    const uint8_t *stack;
    size_t used;
};

/* All that the functions are lent, so that none of it lies on the stack that is measured. */
static struct pktfmt_header header;
static struct pktfmt_field fields[PKTFMT_MAX_FIELDS], field;
static struct pktfmt_length lengths[PKTFMT_SLOTS];
static struct pktfmt_condition conditions[PKTFMT_MAX_CONDITIONS];
static struct pktfmt_refusal refusal;
static struct pktfmt_span span;
static uint64_t number;
static uint8_t buf[MOST_HEADER], bytes[MOST_HEADER];
static char text[PKTFMT_MAX_LISTING];

/* The calls without an index: whether the function is one of these. */
static bool call_once(enum function function, const uint8_t *sheet, size_t len)
{
    switch (function) {
    case VERSION: number = pktfmt_version(); return true;
    case CHECK: (void)pktfmt_check(sheet, len, &header, &refusal); return true;
    case FIELDS: (void)pktfmt_fields(sheet, len, &header, fields, &refusal); return true;
    case LENGTHS: (void)pktfmt_lengths(sheet, len, lengths, &refusal); return true;
    case CONDITIONS: (void)pktfmt_conditions(sheet, len, conditions, &refusal); return true;
    case TEMPLATE: (void)pktfmt_template(sheet, len, buf, sizeof buf, &refusal); return true;
    case LIST: (void)(pktfmt_list(sheet, len, text, sizeof text) + pktfmt_list(sheet, len, text, 1)); return true;
    default: return false;
    }
}

static void call_with_index(enum function function, const uint8_t *sheet, size_t len, uint64_t index)
{
    const struct pktfmt_locator *at = &fields[index].at;
    const char *name = (const char *)sheet + fields[index].name.at;
    const size_t count = at->bits / 8, name_len = fields[index].name.count;
    switch (function) {
    case FIELD_BY_INDEX: (void)pktfmt_field_by_index(sheet, len, index, &field, &refusal); break;
    case FIELD_BY_NAME: (void)pktfmt_field_by_name(sheet, len, name, name_len, &field, &refusal); break;
    case READ_NUMBER: (void)pktfmt_read_number(sheet, len, index, buf, sizeof buf, &number, &refusal); break;
    case READ_BYTES: (void)pktfmt_read_bytes(sheet, len, index, buf, sizeof buf, &span, &refusal); break;
    case WRITE_NUMBER: (void)pktfmt_write_number(sheet, len, index, buf, sizeof buf, 0, &refusal); break;
    case WRITE_BYTES:
        (void)pktfmt_write_bytes(sheet, len, index, buf, sizeof buf, bytes, count, &refusal);
        break;
    case READ_NUMBER_AT: (void)pktfmt_read_number_at(at, buf, sizeof buf, &number, &refusal); break;
    case READ_BYTES_AT: (void)pktfmt_read_bytes_at(at, buf, sizeof buf, &span, &refusal); break;
    case WRITE_NUMBER_AT: (void)pktfmt_write_number_at(at, buf, sizeof buf, 0, &refusal); break;
    case WRITE_BYTES_AT: (void)pktfmt_write_bytes_at(at, buf, sizeof buf, bytes, count, &refusal); break;
    default: break;
    }
}

static void call_by_length(enum function function)
{
    for (int slot = 0; slot < PKTFMT_SLOTS; slot++)
        (void)(function == FORWARD ? pktfmt_forward(&lengths[slot], 5, &number)
                                   : pktfmt_back(&lengths[slot], 20, &number));
}

static void call(enum function function, const uint8_t *sheet, size_t len)
{
    if (function == FUNCTIONS || call_once(function, sheet, len))
        return;
    if (function == FORWARD || function == BACK) {
        call_by_length(function);
        return;
    }
    call_with_index(function, sheet, len, 0);
    if (header.fields > 0)
        call_with_index(function, sheet, len, header.fields - 1);
}

/* The thread: what lies below its own frame is what the call needed. */
static void *run_errand(void *argument)
{
    struct errand *errand = argument;
    const uint8_t *frame = __builtin_frame_address(0);
    const uint8_t *deepest = errand->stack;
    call(errand->function, errand->sheet->bytes, errand->sheet->len);
    while (*deepest == PAINT)
        deepest++;
    errand->used = deepest < frame ? (size_t)(frame - deepest) : 0;
    return NULL;
}

static void stop(const char *words)
{
    fprintf(stderr, "stack: %s\n", words);
    exit(EXIT_FAILURE);
}

static size_t used_by(enum function function, const struct stored_sheet *sheet, uint8_t *stack)
{
    struct errand errand = {function, sheet, stack, 0};
    pthread_attr_t attributes;
    pthread_t thread;
    memset(stack, PAINT, STACK);
    if (pthread_attr_init(&attributes) != 0 || pthread_attr_setstack(&attributes, stack, STACK) != 0 ||
        pthread_create(&thread, &attributes, run_errand, &errand) != 0 || pthread_join(thread, NULL) != 0 ||
        pthread_attr_destroy(&attributes) != 0)
        stop("a thread cannot be run");
    return errand.used;
}

/* What the calls are told of a sheet, asked for on the stack of the program: of a refused one it is zeros. */
static void learn(const struct stored_sheet *sheet)
{
    const bool accepted = pktfmt_fields(sheet->bytes, sheet->len, &header, fields, &refusal);
    if (pktfmt_lengths(sheet->bytes, sheet->len, lengths, &refusal) != accepted)
        stop("one function accepts what another refuses");
}

static void measure(const struct stored_sheet *sheet, uint8_t *stack, size_t most[FUNCTIONS])
{
    learn(sheet);
    const size_t without = used_by(FUNCTIONS, sheet, stack);
    for (int i = 0; i < FUNCTIONS; i++) {
        const size_t used = used_by((enum function)i, sheet, stack);
        if (used > without + most[i])
            most[i] = used - without;
    }
}

static bool print_most(const size_t most[FUNCTIONS])
{
    bool holds = true;
    for (int i = 0; i < FUNCTIONS; i++) {
        const bool too_much = most[i] > (i == LIST ? MOST_OF_LIST : MOST_OF_OTHERS);
        printf("%-24s %6zu bytes of stack%s\n", function_name((enum function)i), most[i],
               too_much ? ", MORE than the header says" : "");
        holds = holds && !too_much;
    }
    return holds;
}

int main(int argc, char **argv)
{
    static size_t most[FUNCTIONS];
    struct sheets sheets = {0};
    struct arena stack;
    if (argc < 2)
        stop("usage: stack STORED SHEET..");
    load_stored(&sheets, argv[1]);
    for (int i = 2; i < argc; i++)
        load_plain(&sheets, argv[i]);
    open_arena(&stack, STACK, true);
    for (size_t i = 0; i < sheets.count; i++)
        if (sheets.all[i].len > 4 * PKTFMT_BLOCK || sheets.all[i].answer.group == 0)
            measure(&sheets.all[i], stack.lent, most);
    return print_most(most) ? EXIT_SUCCESS : EXIT_FAILURE;
}
