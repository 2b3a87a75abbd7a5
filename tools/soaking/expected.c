/* What the header promises of locators, bits and lengths, worked out bit by bit and step by step. */
#include "soak.h"

uint64_t largest_of(uint64_t bits)
{
    return bits >= 64 ? UINT64_MAX : (UINT64_C(1) << bits) - 1;
}

/* Whether a field can stand at a locator: the comment on struct pktfmt_locator, in its order. */
bool can_stand(const struct pktfmt_locator *at)
{
    const uint64_t start_in_byte = at->first_bit % 8;
    if (at->held > PKTFMT_HOLDS_BYTES || at->header_bytes > MOST_HEADER || at->bits == 0)
        return false;
    if (at->bits > 8 * at->header_bytes || at->first_bit > 8 * at->header_bytes - at->bits)
        return false;
    if (at->held == PKTFMT_HOLDS_BYTES)
        return at->bits >= 16 && at->bits % 8 == 0 && start_in_byte == 0 && at->default_number == 0;
    return start_in_byte + at->bits <= 64 && at->default_number <= largest_of(at->bits);
}

uint64_t spelled(const uint8_t *buf, uint64_t first_bit, uint64_t bits)
{
    uint64_t value = 0;
    for (uint64_t bit = first_bit; bit < first_bit + bits; bit++)
        value = value << 1 | (buf[bit / 8] >> (7 - bit % 8) & 1);
    return value;
}

void spell(uint8_t *buf, uint64_t first_bit, uint64_t bits, uint64_t value)
{
    for (uint64_t bit = first_bit + bits; bit > first_bit; bit--, value >>= 1) {
        const unsigned weight = 1u << (7 - (bit - 1) % 8);
        uint8_t *byte = &buf[(bit - 1) / 8];
        *byte = (uint8_t)(value & 1 ? *byte | weight : *byte & ~weight);
    }
}

/* Whether a length has a form, and no number that the form lacks. */
static bool is_form(const struct pktfmt_length *length)
{
    switch (length->form) {
    case PKTFMT_X: return length->first == 0 && length->second == 0;
    case PKTFMT_X_PLUS: case PKTFMT_X_TIMES: return length->second == 0;
    case PKTFMT_PLUS_TIMES: case PKTFMT_TIMES_PLUS: return true;
    default: return false;
    }
}

/* The numbers of a form as one of the shape (x + plus) * times + then. */
static void shape_of(const struct pktfmt_length *length, uint64_t *plus, uint64_t *times, uint64_t *then)
{
    const bool adds_first = length->form == PKTFMT_X_PLUS || length->form == PKTFMT_PLUS_TIMES;
    *plus = adds_first ? length->first : 0;
    *times = length->form == PKTFMT_PLUS_TIMES ? length->second : 1;
    *then = 0;
    if (length->form == PKTFMT_X_TIMES || length->form == PKTFMT_TIMES_PLUS) {
        *times = length->first;
        *then = length->second;
    }
}

bool length_of(const struct pktfmt_length *length, uint64_t x, uint64_t *y)
{
    uint64_t plus, times, then;
    shape_of(length, &plus, &times, &then);
    return is_form(length) && !__builtin_add_overflow(x, plus, y) && !__builtin_mul_overflow(*y, times, y) &&
           !__builtin_add_overflow(*y, then, y);
}

bool value_of(const struct pktfmt_length *length, uint64_t y, uint64_t *x)
{
    uint64_t plus, times, then;
    shape_of(length, &plus, &times, &then);
    if (!is_form(length) || times == 0 || y < then || (y - then) % times != 0 || (y - then) / times < plus)
        return false;
    *x = (y - then) / times - plus;
    return true;
}
