/* Request P6: what has reached the flash. */
#include "harness.h"

/* of the state's own records */
static void counts_as(uint64_t files) {
    expect("unsynced", unsynced(w.state->records, MARBLE_SLOTS_MAX), MARBLE_OK);
    expect("files not synced", out[0], files);
}

static void synced_with(uint64_t changed) {
    expect("sync", sync(w.state->records, MARBLE_SLOTS_MAX), MARBLE_OK);
    expect("a mark changed", out[0], changed);
}

/* clear on writing, set by a sync, set on reopening; kept over a write of another file, cleared where a slot is written again */
static void life_of_marks(void) {
    fresh(defaults(), 8, 16);
    expect("reopen", reopen(), MARBLE_OK);
    counts_as(0); /* empty records are never counted or marked */
    synced_with(0);
    expect("put", put(1, 3, 'a'), MARBLE_OK);
    expect("put", put(2, 4, 'b'), MARBLE_OK);
    counts_as(2);
    synced_with(1);
    expect("marked", w.state->records[0].synced & w.state->records[1].synced, 1);
    counts_as(0);
    synced_with(0);
    expect("put", put(1, 5, 'c'), MARBLE_OK);
    counts_as(1);
    expect("the new file's is clear", w.state->records[2].synced, 0);
    expect("the other's stays, its live count does not", w.state->records[0].synced == 1 && w.state->records[0].live == 0, 1);
    expect("prune", prune(), MARBLE_OK);
    expect("no mark without a file", w.state->records[0].synced, 0);
    counts_as(1);
    synced_with(1);
    expect("put", put(3, 1, 'd'), MARBLE_OK);
    expect("the pruned slot is taken, its mark clear", w.state->records[0].lsn != 0 && w.state->records[0].synced == 0, 1);
    counts_as(1);
    expect("reopen", reopen(), MARBLE_OK);
    counts_as(0);
    expect("one word a file", w.state->records[0].synced == 1 && w.state->records[3].synced == 0, 1);
}

/* a rewritten file is a written one */
static void after_a_rewrite(void) {
    marble_settings s = defaults();
    s.small_file_cleanup_threshold = 0;
    fresh(s, 8, 16);
    expect("reopen", reopen(), MARBLE_OK);
    expect("put", put(1, 3, 'a'), MARBLE_OK);
    expect("put", put(2, 3, 'b'), MARBLE_OK);
    synced_with(1);
    expect("maintain", maintain(), MARBLE_OK);
    expect("ids moved", out[1], 2);
    counts_as(1);
    expect("marks of the files that are gone", w.state->records[0].synced | w.state->records[1].synced, 0);
}

/* any list of records, also shorter; 257 are refused and unchanged */
static void lists(void) {
    static marble_record list[RECORDS_MOST];
    memset(list, 0, sizeof list);
    for (size_t k = 0; k < RECORDS_MOST; k++) list[k].lsn = k + 1;
    expect("none", unsynced(list, 0), MARBLE_OK);
    expect("of none", out[0], 0);
    expect("none", sync(list, 0), MARBLE_OK);
    expect("nothing changed", out[0], 0);
    expect("257", unsynced(list, RECORDS_MOST), MARBLE_E_LIMITS);
    expect("257", sync(list, RECORDS_MOST), MARBLE_E_LIMITS);
    expect("256", unsynced(list, MARBLE_SLOTS_MAX), MARBLE_OK);
    expect("all of them", out[0], MARBLE_SLOTS_MAX);
    list[2].lsn = 0; /* empty now */
    list[3].synced = 1;
    list[4].synced = 2; /* set, as far as these two calls go */
    expect("the first five", unsynced(list, 5), MARBLE_OK);
    expect("two of them", out[0], 2);
    expect("the first five", sync(list, 5), MARBLE_OK);
    expect("changed", out[0], 1);
    for (size_t k = 0; k < 6; k++) {
        static const uint64_t want[6] = {1, 1, 0, 1, 2, 0};
        expect("the mark of each", list[k].synced, want[k]);
        expect("the lsn", list[k].lsn, k == 2 ? 0 : k + 1);
        expect("nothing else", list[k].live | list[k].generation | list[k].present_objects | list[k].file_size | list[k].trailer_offset, 0);
    }
}

/* a mark of 2, and a record with nothing but the mark: 1 in every call that takes the state; the harness sees that nothing changes */
static void strange(void) {
    static const uint8_t batch[] = {7, 1, 1, 'a'};
    expect("read", read_id(1), MARBLE_E_LIMITS);
    expect("read through", read_through(batch, sizeof batch, 7), MARBLE_E_LIMITS);
    expect("write", write_batch(batch, sizeof batch), MARBLE_E_LIMITS);
    expect("claim", claim(0), MARBLE_E_LIMITS);
    expect("release", release(0), MARBLE_E_LIMITS);
    expect("prune", prune(), MARBLE_E_LIMITS);
    expect("plan", plan(), MARBLE_E_LIMITS);
    expect("rewrite", rewrite(1, 1, 1), MARBLE_E_LIMITS);
    expect("maintain", maintain(), MARBLE_E_LIMITS);
    expect("counts", counts(), MARBLE_E_LIMITS);
}

static void strange_marks(void) {
    fresh(defaults(), 8, 16);
    expect("reopen", reopen(), MARBLE_OK);
    expect("put", put(1, 3, 'a'), MARBLE_OK);
    w.state->records[0].synced = 2;
    strange();
    w.state->records[0].synced = UINT64_MAX;
    strange();
    w.state->records[0].synced = 1;
    expect("counts", counts(), MARBLE_OK);
    w.state->records[1].synced = 1;
    strange();
    w.state->records[1].synced = 0;
    expect("counts", counts(), MARBLE_OK);
}

void flushed(void) {
    life_of_marks();
    after_a_rewrite();
    lists();
    strange_marks();
}
