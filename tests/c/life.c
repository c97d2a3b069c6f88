/* A store's whole life, and hosts that give what they should not. */
#include "harness.h"

static void whole_life(void) {
    const uint8_t batch[] = {1, 1, 3, 'a', 'a', 'a', 2, 1, 0, 3, 1, 2, 'c', 'c', 2, 1, 4, 'b', 'b', 'b', 'b'};
    fresh(defaults(), 8, 16);
    expect("not reopened: write", put(1, 3, 'a'), MARBLE_E_LIMITS);
    expect("not reopened: read", read_id(1), MARBLE_E_LIMITS);
    expect("reopen", reopen(), MARBLE_OK);
    expect("an empty batch", write_batch(NULL, 0), MARBLE_OK);
    expect("a batch of three ids", write_batch(batch, sizeof batch), MARBLE_OK);
    holds(1, 3, 'a');
    holds(2, 4, 'b');
    holds(3, 2, 'c');
    never_written(4);
    expect("counts", counts(), MARBLE_OK);
    expect("files", totals.files, 1);
    expect("bytes", totals.bytes, 3 * 20 + 9 + 12 + 3 * 16);
    expect("present", totals.present, 3);
    expect("live", totals.live, 3);

    /* all three replaced: the first file is dead, but claimed */
    expect("replaced", put(1, 1000, 'A'), MARBLE_OK);
    expect("replaced", put(2, 1, 'B'), MARBLE_OK);
    expect("deleted", drop(3), MARBLE_OK);
    expect("live of the first file", w.state->records[0].live, 0);
    expect("claim", claim(0), MARBLE_OK);
    expect("claimed", w.claims->word[0], 1);
    expect("prune leaves it", prune(), MARBLE_OK);
    expect("label stays", w.heap[0] != 0, 1);
    expect("record stays", w.state->records[0].present_objects, 3);
    expect("release", release(0), MARBLE_OK);
    expect("released", w.claims->word[0], 0);
    uint8_t second = w.heap[1];
    expect("prune", prune(), MARBLE_OK);
    expect("label byte", w.heap[0], 0);
    expect("only that byte", w.heap[1], second);
    expect("record emptied", w.state->records[0].lsn | w.state->records[0].present_objects, 0);
    holds(1, 1000, 'A');
    holds(2, 1, 'B');
    deleted(3);
    expect("counts", counts(), MARBLE_OK);
    expect("files", totals.files, 3);
    expect("live", totals.live, 3);

    /* power is lost: heap alone */
    uint64_t next = w.state->next_position;
    memset(w.state, 0, sizeof *w.state);
    memset(w.table, 0, 8 * w.words);
    expect("reopen", reopen(), MARBLE_OK);
    expect("next not lower", w.state->next_position >= next, 1);
    holds(1, 1000, 'A');
    holds(2, 1, 'B');
    deleted(3);
    expect("the lowest empty slot", put(5, 2, 'e'), MARBLE_OK);
    expect("it is slot 0", w.state->records[0].lsn & ~BATCH_BIT, w.state->next_position - 23);
    holds(5, 2, 'e');
}

/* an object, an empty one, a delete of an object, a delete of an id never put, and an id in no batch */
static void each_kind(void) {
    holds(1, 10, 'a');
    holds(5, 0, 0);
    deleted(2);
    deleted(3);
    never_written(4);
}

/* request P1: told apart by load and read, and neither prune nor maintenance nor a reopening from the heap alone changes it */
static void kinds(void) {
    fresh(defaults(), 8, 16);
    w.s.small_file_cleanup_threshold = 0;
    expect("reopen", reopen(), MARBLE_OK);
    for (uint64_t id = 1; id < 6; id++) never_written(id);
    expect("put", put(1, 10, 'a'), MARBLE_OK);
    expect("an empty body", put(5, 0, 0), MARBLE_OK);
    expect("put", put(2, 10, 'b'), MARBLE_OK);
    expect("deleted", drop(2), MARBLE_OK);
    expect("deleted, never put", drop(3), MARBLE_OK);
    expect("refused", put(4, 2000, 'd'), MARBLE_E_OBJECT_SIZE);
    each_kind();
    expect("prune", prune(), MARBLE_OK);
    expect("the file of the deleted object is gone", w.state->records[2].lsn, 0);
    each_kind();
    for (int again = 0; again < 2; again++) {
        memset(w.state, 0, sizeof *w.state);
        memset(w.table, 0, 8 * w.words);
        expect("reopen", reopen(), MARBLE_OK);
        each_kind();
        expect("maintain", maintain(), MARBLE_OK);
        expect("objects and deletes moved", out[1], 4);
        each_kind();
    }
    expect("put again", put(3, 1, 'c'), MARBLE_OK);
    holds(3, 1, 'c');
    expect("deleted again", drop(3), MARBLE_OK);
    each_kind();
}

static void table_calls(void) {
    fresh(defaults(), 1, 2);
    expect("load of nothing", load(9), MARBLE_OK);
    expect("never written", kind | out[0], 0);
    expect("store", store_at(9, 30), MARBLE_OK);
    expect("store before it", store_at(4, 20), MARBLE_OK);
    expect("id and location by turns", w.table[0] == 4 && w.table[1] == 20 && w.table[2] == 9 && w.table[3] == 30, 1);
    expect("the second place", MARBLE_TABLE_ID(w.table, 1) == 9 && MARBLE_TABLE_LOCATION(w.table, 1) == 30, 1);
    expect("compare that differs", compare_and_store(9, 31, 50), MARBLE_OK);
    expect("the current one", out[0], 30);
    expect("compare that holds", compare_and_store(9, 30, 50), MARBLE_OK);
    expect("nothing given", out[0], 0);
    expect("greater", store_if_greater(9, 60), MARBLE_OK);
    expect("held before", out[0], 50);
    expect("lower", store_if_greater(9, 40), MARBLE_OK);
    expect("held before", out[0], 60);
    expect("load", load(9), MARBLE_OK);
    expect("the greatest", out[0], 60);
    expect("an object", kind, MARBLE_OBJECT);
    expect("a delete above it", store_if_greater(9, 61), MARBLE_OK);
    expect("held before", out[0], 60);
    expect("load", load(9), MARBLE_OK);
    expect("a delete, with its location", kind == MARBLE_DELETED && out[0] == 61, 1);
    expect("above the delete", store_if_greater(9, 70), MARBLE_OK);
    expect("held before, a delete's too", out[0], 61);
    expect("full", store_if_greater(5, 40), MARBLE_E_TABLE_ROOM);
    expect("full", store_at(5, 40), MARBLE_E_TABLE_ROOM);
}

/* Every call with no buffers at all, another length, other settings, a table out of form: 1, and nothing changes. */
static void every_call(void) {
    expect("write", put(1, 1, 'x'), MARBLE_E_LIMITS);
    expect("read", read_id(1), MARBLE_E_LIMITS);
    expect("read through a batch", read_through(NULL, 0, 1), MARBLE_E_LIMITS);
    expect("claim", claim(0), MARBLE_E_LIMITS);
    expect("release", release(0), MARBLE_E_LIMITS);
    expect("prune", prune(), MARBLE_E_LIMITS);
    expect("plan", plan(), MARBLE_E_LIMITS);
    expect("rewrite", rewrite(1, 1, 1), MARBLE_E_LIMITS);
    expect("rewrite of no generation", rewrite(4, 1, 1), MARBLE_E_LIMITS);
    expect("maintain", maintain(), MARBLE_E_LIMITS);
    expect("counts", counts(), MARBLE_E_LIMITS);
}

static void every_table_call(void) {
    expect("load", load(1), MARBLE_E_LIMITS);
    expect("store", store_at(1, 2), MARBLE_E_LIMITS);
    expect("compare", compare_and_store(1, 2, 4), MARBLE_E_LIMITS);
    expect("greater", store_if_greater(1, 2), MARBLE_E_LIMITS);
}

static void bad_hosts(void) {
    fresh(defaults(), 2, 8);
    expect("reopen", reopen(), MARBLE_OK);
    store good = w;
    w.heap = NULL, w.heap_len = 0;
    every_call();
    expect("no heap", reopen(), MARBLE_E_LIMITS);
    w = good;
    w.table = NULL, w.words = 0;
    every_call();
    every_table_call();
    expect("no table", reopen(), MARBLE_E_LIMITS);
    w = good;
    w.words = MARBLE_TABLE_WORDS(7);
    every_call();
    w = good;
    w.heap_len -= 1;
    every_call();
    expect("no whole slots", reopen(), MARBLE_E_LIMITS);
    w = good;
    w.s.max_object_size += 1;
    every_call();
    w = good;
    w.s.slot_bytes = UINT64_MAX;
    every_call();
    expect("settings out of range", reopen(), MARBLE_E_LIMITS);
    w = good;
    MARBLE_TABLE_LOCATION(w.table, 1) = 2;
    every_call();
    every_table_call();
    MARBLE_TABLE_LOCATION(w.table, 1) = 0;
    w.state->next_position = 0;
    every_call();
    w.state->next_position = 1;
    w.state->records[2].lsn = 1;
    every_call();
    w.state->records[2].lsn = 0;
    expect("all as it was", put(1, 1, 'x'), MARBLE_OK);
}

void life(void) {
    whole_life();
    kinds();
    table_calls();
    bad_hosts();
}
