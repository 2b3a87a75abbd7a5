/* Lengths forward and back: by those of the sheet, and by others. */
#include "soak.h"

#include <string.h>

/* The form and the numbers of a length. Of what is not to be looked at there is anything. */
static struct pktfmt_length some_length(struct soak *soak)
{
    struct chance *chance = &soak->chance;
    struct pktfmt_length length = soak->lengths[below(chance, PKTFMT_SLOTS)];
    if (!soak->accepted || !one_in(chance, 3)) {
        length.form = one_in(chance, 8) ? some_number(chance) : 1 + below(chance, 5);
        length.first = one_in(chance, 4) ? some_number(chance) : below(chance, 10);
        length.second = one_in(chance, 4) ? some_number(chance) : below(chance, 10);
        if (length.form == PKTFMT_X && !one_in(chance, 8))
            length.first = 0;
        if (length.form <= PKTFMT_X_TIMES && !one_in(chance, 8))
            length.second = 0;
    }
    length.field = some_number(chance);
    length.largest = some_number(chance);
    return length;
}

static void ask_forward(struct soak *soak, const struct pktfmt_length *length, const struct pktfmt_length *lent,
                        uint64_t x)
{
    uint64_t y = 0;
    const bool has_length = length_of(length, x, &y);
    ask(soak, FORWARD, sizeof y);
    uint64_t *told = (uint64_t *)(void *)soak->answer.lent;
    const bool accepted = pktfmt_forward(lent, x, told);
    answered(soak, accepted);
    hold(soak, accepted == has_length && *told == (has_length ? y : 0), "the length is another");
}

static void ask_back(struct soak *soak, const struct pktfmt_length *length, const struct pktfmt_length *lent,
                     uint64_t y)
{
    uint64_t x = 0;
    const bool has_value = value_of(length, y, &x);
    ask(soak, BACK, sizeof x);
    uint64_t *told = (uint64_t *)(void *)soak->answer.lent;
    const bool accepted = pktfmt_back(lent, y, told);
    answered(soak, accepted);
    hold(soak, accepted == has_value && *told == (has_value ? x : 0), "the value is another");
}

void ask_for_lengths(struct soak *soak)
{
    const struct pktfmt_length length = some_length(soak);
    struct slice input = lend(&soak->chance, &soak->input_arena, sizeof length);
    memcpy(input.ours, &length, sizeof length);
    const struct pktfmt_length *lent = (const struct pktfmt_length *)(const void *)input.lent;
    const uint64_t x = some_number(&soak->chance);
    uint64_t y = 0;
    ask_forward(soak, &length, lent, x);
    if (!length_of(&length, x, &y))
        y = 0;
    ask_back(soak, &length, lent, near(&soak->chance, y));
}
