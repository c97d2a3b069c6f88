/* Maintenance between two runs of the arm (include/marble.h). In each pause one short call: a plan, then one generation rewritten, then the
   next, at the end a prune; then from the front again. Each run saves two decks that are soon saved again and one that stays, so that a third
   of every file stays live. Left alone, the 16 slots are full after 16 runs and the next save is refused with 5; here are 40 runs.
   Exit code 0: every save was accepted, and every deck reads as it was last saved. tests/c/run builds and runs it. */
#include "marble.h"

#define SLOTS 16
#define ENTRIES 64
#define WORDS MARBLE_TABLE_WORDS(ENTRIES)
#define RUNS 40
#define DECK 100 /* bytes */

static const marble_settings s = {4096, 50, 2, 2048, 8, 1024}; /* the defaults, but small files are gathered from 8 files on, not from 64 on */
static uint8_t heap[SLOTS * 4096];
static uint64_t table[WORDS];
static uint32_t places[MARBLE_NOTES(ENTRIES)], pieces[MARBLE_NOTES(ENTRIES)]; /* nothing is kept in them between calls */
static marble_state state;
static marble_claims claims;
static uint64_t moved;

/* What the next pause is for. */
enum { PLAN, GENERATION_1, GENERATION_2, GENERATION_3, PRUNE };
static uint64_t next_step = PLAN;
static marble_planned planned;

/* One call; a refused one has changed nothing, and the next pause plans again. */
static uint64_t in_a_pause(void) {
    uint64_t n;
    /* no pause for a generation without a group */
    while (GENERATION_1 <= next_step && next_step <= GENERATION_3 && planned.groups[next_step - 1].count == 0) next_step++;
    if (next_step == PLAN) {
        n = marble_plan(s, &state, &claims, heap, sizeof heap, table, WORDS, places, ENTRIES, pieces, ENTRIES, &planned);
    } else if (next_step == PRUNE) {
        n = marble_prune(s, &state, &claims, heap, sizeof heap, table, WORDS);
    } else {
        /* mark and count are the plan's: a deck saved since then waits for the next plan */
        marble_request request = {next_step, planned.mark, planned.count, 0};
        n = marble_rewrite(s, &state, &claims, heap, sizeof heap, table, WORDS, places, ENTRIES, pieces, ENTRIES, &request);
        moved += request.moved;
    }
    if (n != MARBLE_OK || next_step == PRUNE) next_step = PLAN;
    else next_step++;
    return n;
}

/* A run saves three decks, all bytes the number of the run. */
static uint64_t saved(uint64_t run, const uint64_t deck[3]) {
    uint8_t batch[MARBLE_BATCH_LENGTH_MAX(3, 3 * DECK, 0)], body[DECK];
    size_t i, len = 0;
    for (i = 0; i < DECK; i++) body[i] = (uint8_t)run;
    for (i = 0; i < 3; i++)
        if (!marble_batch_put(batch, sizeof batch, &len, deck[i], body, DECK)) return MARBLE_E_BATCH_BYTES;
    return marble_write(s, &state, heap, sizeof heap, table, WORDS, batch, len);
}

int main(void) {
    static uint64_t last[5 + RUNS]; /* the run that saved each deck last */
    uint64_t run, deck, i, kind, offset, size;
    if (marble_version() != MARBLE_VERSION) return 1;
    if (marble_reopen(s, &state, &claims, heap, sizeof heap, table, WORDS) != MARBLE_OK) return 2;
    for (run = 0; run < RUNS; run++) {
        const uint64_t decks[3] = {run % 3, 3 + run % 2, 5 + run};
        if (saved(run, decks) != MARBLE_OK) return 3;
        for (i = 0; i < 3; i++) last[decks[i]] = run;
        if (in_a_pause() != MARBLE_OK) return 4;
    }
    if (moved == 0) return 5;
    for (deck = 0; deck < 5 + RUNS; deck++) {
        if (marble_read(s, &state, heap, sizeof heap, table, WORDS, deck, &kind, &offset, &size) != MARBLE_OK) return 6;
        if (kind != MARBLE_OBJECT || size != DECK) return 7;
        for (i = 0; i < size; i++)
            if (heap[offset + i] != last[deck]) return 8;
    }
    return 0;
}
