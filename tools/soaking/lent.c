/* Memory for slices. The library is not compiled with the checks of a sanitizer, so what is lent to it lies
 * right against pages that cannot be touched: a read or a write of one byte beside it ends the run. */
#define _GNU_SOURCE
#include "soak.h"

#include <stdio.h>
#include <stdlib.h>
#include <string.h>
#include <sys/mman.h>
#include <unistd.h>

#define BESIDE 32
#define CANARY 0xc5

static void *mapped(void *memory)
{
    if (memory == MAP_FAILED) {
        perror("soak: mmap");
        exit(EXIT_FAILURE);
    }
    return memory;
}

void open_arena(struct arena *arena, size_t size, bool writable)
{
    const size_t page = (size_t)sysconf(_SC_PAGESIZE);
    const size_t whole = (size + page - 1) / page * page;
    const int file = memfd_create("soak", 0);
    if (file < 0 || ftruncate(file, (off_t)whole) != 0) {
        perror("soak: memfd_create");
        exit(EXIT_FAILURE);
    }
    uint8_t *around = mapped(mmap(NULL, whole + 2 * page, PROT_NONE, MAP_PRIVATE | MAP_ANONYMOUS, -1, 0));
    arena->size = whole;
    arena->writable = writable;
    arena->lent = mapped(mmap(around + page, whole, writable ? PROT_READ | PROT_WRITE : PROT_READ,
                              MAP_SHARED | MAP_FIXED, file, 0));
    arena->ours = mapped(mmap(NULL, whole, PROT_READ | PROT_WRITE, MAP_SHARED, file, 0));
    if (close(file) != 0)
        perror("soak: close");
}

/* Where a part may point to that has no bytes. */
static uint8_t *pointer_to_nothing(struct chance *chance, const struct arena *arena)
{
    switch (below(chance, 4)) {
    case 0: return arena->lent - 1;
    case 1: return arena->lent + arena->size;
    default: return NULL;
    }
}

/* How many bytes there are beside a part, before and after it, up to BESIDE. */
static void beside(const struct slice *slice, size_t *before, size_t *after)
{
    const size_t start = (size_t)(slice->ours - slice->arena->ours);
    const size_t rest = slice->arena->size - start - slice->len;
    *before = start < BESIDE ? start : BESIDE;
    *after = rest < BESIDE ? rest : BESIDE;
}

static size_t start_of(struct chance *chance, size_t room)
{
    switch (below(chance, 8)) {
    case 0: return room < 8 ? room : 8 * below(chance, room < 512 ? room / 8 : 64);
    case 1: case 2: return 0;
    default: return room;
    }
}

struct slice lend(struct chance *chance, struct arena *arena, size_t len)
{
    if (len > arena->size) {
        fprintf(stderr, "soak: %zu bytes are more than an arena has\n", len);
        exit(EXIT_FAILURE);
    }
    const size_t start = start_of(chance, arena->size - len);
    struct slice slice = {arena, arena->ours + start, arena->lent + start, len};
    if (len == 0)
        slice.lent = pointer_to_nothing(chance, arena);
    size_t before, after;
    beside(&slice, &before, &after);
    if (arena->writable) {
        memset(slice.ours - before, CANARY, before);
        memset(slice.ours + len, CANARY, after);
    }
    return slice;
}

static bool is_canary(const uint8_t *bytes, size_t count)
{
    for (size_t i = 0; i < count; i++)
        if (bytes[i] != CANARY)
            return false;
    return true;
}

bool is_whole(const struct slice *slice)
{
    size_t before, after;
    beside(slice, &before, &after);
    return is_canary(slice->ours - before, before) && is_canary(slice->ours + slice->len, after);
}
