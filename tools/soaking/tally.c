/* How often each function was called, and which refusals it told. */
#include "soak.h"

#include <inttypes.h>
#include <stdio.h>
#include <string.h>

const char *function_name(enum function function)
{
    static const char *const names[FUNCTIONS] = {
        "pktfmt_version", "pktfmt_check", "pktfmt_field_by_index", "pktfmt_field_by_name", "pktfmt_fields",
        "pktfmt_lengths", "pktfmt_conditions", "pktfmt_template", "pktfmt_read_number", "pktfmt_read_bytes",
        "pktfmt_write_number", "pktfmt_write_bytes", "pktfmt_list", "pktfmt_read_number_at",
        "pktfmt_read_bytes_at", "pktfmt_write_number_at", "pktfmt_write_bytes_at", "pktfmt_forward",
        "pktfmt_back"};
    return names[function];
}

bool is_reason(uint64_t group, uint64_t number)
{
    return group < GROUPS && number < NUMBERS && strcmp(pktfmt_reason(group, number), "no such refusal") != 0;
}

/* The groups number, type, position and bound answer questions that the header has not, and no sheet comes to
 * length 13 (docs/RULES.md). */
static bool can_be_given(uint64_t group, uint64_t number)
{
    switch (group) {
    case PKTFMT_GROUP_NUMBER: case PKTFMT_GROUP_TYPE: case PKTFMT_GROUP_POSITION: case PKTFMT_GROUP_BOUND:
        return false;
    case PKTFMT_GROUP_LENGTH: return is_reason(group, number) && number != PKTFMT_LENGTH_DEFAULT_LENGTH_OVERFLOWS;
    default: return is_reason(group, number);
    }
}

void add_tally(struct tally *to, const struct tally *from)
{
    for (int i = 0; i < FUNCTIONS; i++) {
        to->accepted[i] += from->accepted[i];
        to->refused[i] += from->refused[i];
    }
    for (int group = 0; group < GROUPS; group++)
        for (int number = 0; number < NUMBERS; number++)
            to->seen[group][number] += from->seen[group][number];
}

bool print_tally(const struct tally *tally)
{
    bool all_seen = true;
    printf("%-24s %12s %12s\n", "function", "accepted", "refused");
    for (int i = 0; i < FUNCTIONS; i++)
        printf("%-24s %12" PRIu64 " %12" PRIu64 "\n", function_name((enum function)i), tally->accepted[i],
               tally->refused[i]);
    for (uint64_t group = 0; group < GROUPS; group++)
        for (uint64_t number = 0; number < NUMBERS; number++) {
            const uint64_t seen = tally->seen[group][number];
            if (seen > 0 || can_be_given(group, number))
                printf("%-6s %2" PRIu64 " %12" PRIu64 "%s  %s\n", pktfmt_group_name(group), number, seen,
                       seen > 0 ? "" : " NOT SEEN", pktfmt_reason(group, number));
            all_seen = all_seen && (seen > 0 || !can_be_given(group, number));
        }
    return all_seen;
}
