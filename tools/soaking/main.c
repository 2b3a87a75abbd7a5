/* Calls every function of pktfmt.h by chance: soak CALLS SEED STORED SHEET..
 *
 * A round takes a sheet, and calls each function at least once: so there are CALLS rounds. First come the
 * sheets of the file STORED and the other SHEETs as they are, then such as chance makes of them. Two threads
 * share the rounds. What is lent to the library lies beside pages that cannot be touched (lent.c), and each
 * answer is held to what the header says of all answers (here), and to what this program works out by itself
 * (by_sheet.c, accesses.c, lengths.c, expected.c). The same CALLS and SEED make the same calls. */
#include "soak.h"

#include <inttypes.h>
#include <pthread.h>
#include <sanitizer/common_interface_defs.h>
#include <stdio.h>
#include <stdlib.h>
#include <string.h>

#define THREADS 2

/* What a thread is at, for when the sanitizer ends the run. */
static _Thread_local const struct soak *at_work;

/* ---- a call and its answer */

/* Tells of the call at hand what is needed to see it again. */
static void tell_call(const struct soak *soak, const char *words)
{
    FILE *file = fopen("target/failed_sheet", "wb");
    fprintf(stderr, "soak: %s: %s (seed %" PRIu64 ", thread %zu, round %" PRIu64 ")\n",
            function_name(soak->function), words, soak->seed, soak->thread, soak->round);
    if (file == NULL || fwrite(soak->sheet.ours, 1, soak->sheet.len, file) != soak->sheet.len || fclose(file) != 0)
        perror("target/failed_sheet");
    else
        fprintf(stderr, "soak: the sheet is now in target/failed_sheet\n");
}

void hold(const struct soak *soak, bool condition, const char *words)
{
    if (condition)
        return;
    tell_call(soak, words);
    exit(EXIT_FAILURE);
}

static void tell_death(void)
{
    if (at_work)
        tell_call(at_work, "memory that was not lent, or an arithmetic that C does not define");
}

struct pktfmt_refusal *refusal_of(const struct soak *soak)
{
    return (struct pktfmt_refusal *)(void *)soak->refusal.lent;
}

void ask(struct soak *soak, enum function function, size_t answer_len)
{
    soak->function = function;
    soak->filling = (uint8_t)(1 + below(&soak->chance, 255));
    soak->answer = lend(&soak->chance, &soak->answer_arena, answer_len);
    soak->refusal = lend(&soak->chance, &soak->refusal_arena, sizeof(struct pktfmt_refusal));
    memset(soak->answer.ours, soak->filling, answer_len);
    memset(soak->refusal.ours, soak->filling, soak->refusal.len);
}

static bool is_all(const struct slice *slice, uint8_t byte)
{
    return slice->len == 0 ||
           (slice->ours[0] == byte && memcmp(slice->ours, slice->ours + 1, slice->len - 1) == 0);
}

/* Of a refusal the answer is zeros and the reason one of the table; else the refusal is as it was. Lengths have
 * no refusals, so that theirs stays as it was too. */
void answered(struct soak *soak, bool accepted)
{
    const bool of_length = soak->function == FORWARD || soak->function == BACK;
    hold(soak, is_whole(&soak->answer) && is_whole(&soak->refusal), "a byte beside the answer was written");
    hold(soak, accepted || is_all(&soak->answer, 0), "the answer of a refusal is not zeros");
    hold(soak, !(accepted || of_length) || is_all(&soak->refusal, soak->filling), "the refusal was written");
    if (accepted) {
        soak->tally.accepted[soak->function]++;
        return;
    }
    soak->tally.refused[soak->function]++;
    if (of_length)
        return;
    const struct pktfmt_refusal *refusal = refusal_of(soak);
    hold(soak, is_reason(refusal->group, refusal->number), "the reason is none of the table");
    soak->tally.seen[refusal->group][refusal->number]++;
}

void refused_as_checked(const struct soak *soak, bool accepted)
{
    refused_as(soak, accepted, soak->said.group, soak->said.number, soak->said.place);
}

void refused_as(const struct soak *soak, bool accepted, uint64_t group, uint64_t number, uint64_t place)
{
    const struct pktfmt_refusal *refusal = refusal_of(soak);
    hold(soak, !accepted, "accepted, where it has to be refused");
    hold(soak, refusal->group == group && refusal->number == number && refusal->place == place,
         "the refusal is another");
}

/* ---- rounds and threads */

/* The sheet of a round: a stored one as long as there are such, then any. */
static const struct stored_sheet *lend_sheet(struct soak *soak)
{
    static _Thread_local uint8_t made[MOST_SHEET];
    const uint64_t index = soak->round * soak->threads + soak->thread;
    const struct stored_sheet *stored = index < soak->sheets->count ? &soak->sheets->all[index] : NULL;
    const size_t len = stored ? stored->len : sheet_by_chance(&soak->chance, soak->sheets, made);
    soak->sheet = lend(&soak->chance, &soak->sheet_arena, len);
    memcpy(soak->sheet.ours, stored ? stored->bytes : made, len);
    return stored;
}

static void round_of(struct soak *soak)
{
    const struct stored_sheet *stored = lend_sheet(soak);
    soak->function = VERSION;
    hold(soak, pktfmt_version() == PKTFMT_VERSION, "the library is not of this header");
    soak->tally.accepted[VERSION]++;
    ask_the_sheet(soak);
    soak->function = CHECK;
    hold(soak, !stored || !stored->has_answer || memcmp(&soak->said, &stored->answer, sizeof soak->said) == 0,
         "the stored answer is another");
    ask_for_accesses(soak);
    ask_for_lengths(soak);
}

static void *soak_thread(void *argument)
{
    struct soak *soak = argument;
    const uint64_t step = soak->rounds / 10 + 1;
    at_work = soak;
    for (soak->round = 0; soak->round < soak->rounds; soak->round++) {
        round_of(soak);
        if (soak->thread == 0 && soak->rounds > 100000 && (soak->round + 1) % step == 0)
            fprintf(stderr, "soak: %" PRIu64 " of %" PRIu64 " rounds\n", soak->threads * (soak->round + 1),
                    soak->threads * soak->rounds);
    }
    return NULL;
}

static struct soak *open_soak(size_t thread, uint64_t rounds, uint64_t seed, const struct sheets *sheets)
{
    struct soak *soak = calloc(1, sizeof *soak);
    uint8_t *shadow = malloc(MOST_HEADER + 65536);
    if (soak == NULL || shadow == NULL) {
        fprintf(stderr, "soak: there is not enough memory\n");
        exit(EXIT_FAILURE);
    }
    soak->thread = thread;
    soak->threads = THREADS;
    soak->seed = seed;
    soak->chance.state = seed * THREADS + thread;
    soak->rounds = (rounds + THREADS - 1) / THREADS;
    soak->sheets = sheets;
    soak->shadow = shadow;
    open_arena(&soak->sheet_arena, MOST_SHEET, false);
    open_arena(&soak->name_arena, 2 * PKTFMT_MAX_NAME, false);
    open_arena(&soak->bytes_arena, 65536, false);
    open_arena(&soak->input_arena, sizeof(struct pktfmt_locator), false);
    open_arena(&soak->read_arena, MOST_HEADER + 1, false);
    open_arena(&soak->write_arena, MOST_HEADER + 1, true);
    open_arena(&soak->out_arena, PKTFMT_MAX_LISTING + 1024, true);
    open_arena(&soak->header_arena, sizeof soak->header, true);
    open_arena(&soak->answer_arena, sizeof soak->fields, true);
    open_arena(&soak->refusal_arena, sizeof(struct pktfmt_refusal), true);
    return soak;
}

static bool run_threads(uint64_t rounds, uint64_t seed, const struct sheets *sheets)
{
    pthread_t threads[THREADS];
    struct soak *soaks[THREADS];
    struct tally tally = {0};
    for (size_t i = 0; i < THREADS; i++) {
        soaks[i] = open_soak(i, rounds, seed, sheets);
        if (pthread_create(&threads[i], NULL, soak_thread, soaks[i]) != 0)
            return false;
    }
    for (size_t i = 0; i < THREADS; i++) {
        if (pthread_join(threads[i], NULL) != 0)
            return false;
        add_tally(&tally, &soaks[i]->tally);
    }
    return print_tally(&tally);
}

int main(int argc, char **argv)
{
    struct sheets sheets = {0};
    if (argc < 4) {
        fprintf(stderr, "usage: soak CALLS SEED STORED SHEET..\n");
        return 2;
    }
    __sanitizer_set_death_callback(tell_death);
    load_stored(&sheets, argv[3]);
    for (int i = 4; i < argc; i++)
        load_plain(&sheets, argv[i]);
    sort_out(&sheets);
    const bool all_seen = run_threads(strtoull(argv[1], NULL, 10), strtoull(argv[2], NULL, 10), &sheets);
    printf("soak: seed %s: %s\n", argv[2], all_seen ? "every answer holds" : "a refusal was not seen");
    return all_seen ? EXIT_SUCCESS : EXIT_FAILURE;
}
