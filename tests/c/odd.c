/* A table of an odd number of words (request P12): 1 from every call, and the last word, which is in no place, is neither looked at nor
   changed. That a refused call leaves state, table, heap and claims, and zeroes its out-parameters, is checked behind every call. */
#include "harness.h"

void *mmap(void *, size_t, int, int, int, long);
int mprotect(void *, size_t, int);
#define PAGE 4096
#define ENTRIES 8

static void every_call(void) {
    expect("reopen", reopen(), MARBLE_E_LIMITS);
    expect("write", put(1, 1, 'x'), MARBLE_E_LIMITS);
    expect("an empty batch", write_batch(NULL, 0), MARBLE_E_LIMITS);
    expect("read", read_id(1), MARBLE_E_LIMITS);
    expect("claim", claim(0), MARBLE_E_LIMITS);
    expect("release", release(0), MARBLE_E_LIMITS);
    expect("prune", prune(), MARBLE_E_LIMITS);
    expect("plan", plan(), MARBLE_E_LIMITS);
    expect("rewrite", rewrite(1, 1, 1), MARBLE_E_LIMITS);
    expect("maintain", maintain(), MARBLE_E_LIMITS);
    expect("counts", counts(), MARBLE_E_LIMITS);
    expect("check", check(LISTING_MOST), MARBLE_E_LIMITS);
    expect("salvage", salvage(), MARBLE_E_LIMITS);
    expect("load", load(1), MARBLE_E_LIMITS);
    expect("store", store_at(1, 2), MARBLE_E_LIMITS);
    expect("store of raw 0", store_at(1, 0), MARBLE_E_LIMITS);
    expect("compare-and-store", compare_and_store(1, 2, 4), MARBLE_E_LIMITS);
    expect("store-if-greater", store_if_greater(1, 2), MARBLE_E_LIMITS);
}

/* a store of 8 entries with an object, a claim and a scratched label, in a buffer that has a word behind them */
static void opened(void) {
    fresh(defaults(), 4, ENTRIES + 1);
    w.words = MARBLE_TABLE_WORDS(ENTRIES);
    expect("reopen", reopen(), MARBLE_OK);
    expect("write", put(1, 10, 'a'), MARBLE_OK);
    expect("claim", claim(0), MARBLE_OK);
}

/* each last word, behind as many entries as the state has and behind one less: nothing but the odd length is wrong with the first */
static void last_words(void) {
    static const uint64_t last[] = {0, 2, UINT64_MAX};
    opened();
    for (size_t k = 0; k < 3; k++) {
        w.table[MARBLE_TABLE_WORDS(ENTRIES)] = last[k];
        w.words = MARBLE_TABLE_WORDS(ENTRIES) + 1;
        every_call();
        w.words = MARBLE_TABLE_WORDS(ENTRIES) - 1;
        every_call();
        w.words = 1;
        every_call();
        w.words = MARBLE_TABLE_WORDS(ENTRIES);
        holds(1, 10, 'a');
        expect("the last word stays", w.table[w.words], last[k]);
    }
    w.heap[w.s.slot_bytes] = 0xFF;
    w.words += 1;
    every_call();
    w.words -= 1;
    expect("even again: the scratched label", reopen(), MARBLE_E_LABEL);
    expect("the word behind the table stays", w.table[w.words], UINT64_MAX);
}

/* the last word where there is no memory: a call that looks at it does not come back */
static void no_memory(void) {
    uint8_t *pages = mmap(NULL, 2 * PAGE, 3 /* read and write */, 0x22 /* private, no file */, -1, 0);
    opened();
    expect("two pages", pages != (uint8_t *)-1 && mprotect(pages + PAGE, PAGE, 0) == 0, 1);
    if (pages == (uint8_t *)-1) return;
    uint64_t *at = (uint64_t *)(pages + PAGE) - MARBLE_TABLE_WORDS(ENTRIES);
    memcpy(at, w.table, 8 * w.words);
    w.table = at;
    holds(1, 10, 'a');
    w.words += 1;
    every_call();
    w.words -= 1;
    holds(1, 10, 'a');
}

void odd(void) {
    last_words();
    no_memory();
}
