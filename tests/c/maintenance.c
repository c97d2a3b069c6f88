/* Maintenance, by the nightly job: lines P6 to P9, the default percentage, what it moves and leaves, and where it stops. */
#include "harness.h"

/* one group is enough, and no file is small */
static marble_settings alone_at(uint64_t percent) {
    marble_settings s = defaults();
    s.file_compaction_percent = percent;
    s.min_compaction_files = 1;
    s.small_file_cleanup_threshold = 256;
    return s;
}

/* document 01's percentage, which its lines name themselves */
static marble_settings alone(void) { return alone_at(75); }

static void opened(marble_settings s, size_t slots, size_t table) {
    fresh(s, slots, table);
    expect("reopen", reopen(), MARBLE_OK);
}

/* ids 1 to n in one file, a byte each; then the last k of them again, each in a file of its own */
static void of_which_replaced(uint64_t n, uint64_t k) {
    uint8_t batch[4 * 16];
    for (uint64_t i = 0; i < n; i++) {
        batch[4 * i] = (uint8_t)(i + 1);
        batch[4 * i + 1] = batch[4 * i + 2] = 1;
        batch[4 * i + 3] = 'a';
    }
    expect("write", write_batch(batch, 4 * n), MARBLE_OK);
    for (uint64_t i = n - k; i < n; i++) expect("replaced", put(i + 1, 1, 'b'), MARBLE_OK);
}

/* Line P6: 3 live of 4 at 75: no candidate; 2 of 3 (66): a candidate. */
static void p6(void) {
    opened(alone(), 8, 16);
    of_which_replaced(4, 1);
    expect("line P6 maintain", maintain(), MARBLE_OK);
    expect("line P6 3 of 4: none moved", out[1], 0);
    expect("line P6 3 of 4: stays", w.state->records[0].live, 3);
    opened(alone(), 8, 16);
    of_which_replaced(3, 1);
    expect("line P6 maintain", maintain(), MARBLE_OK);
    expect("line P6 2 of 3: moved", out[1], 2);
    expect("line P6 2 of 3: pruned", w.state->records[0].lsn, 0);
    expect("line P6 the new file", w.state->records[2].live, 2);
    holds(1, 1, 'a');
    holds(2, 1, 'a');
    holds(3, 1, 'b');
}

/* Request P10: at the default, 50, half live is no candidate, and nor are line P6's 2 of 3; 1 of 3 (33) is. */
static void at_the_default(void) {
    const marble_settings s = alone_at(defaults().file_compaction_percent);
    opened(s, 8, 16);
    of_which_replaced(2, 1);
    expect("the default maintain", maintain(), MARBLE_OK);
    expect("the default 1 of 2: none moved", out[1], 0);
    opened(s, 8, 16);
    of_which_replaced(3, 1);
    expect("the default maintain", maintain(), MARBLE_OK);
    expect("the default 2 of 3: none moved", out[1], 0);
    expect("the default 2 of 3: stays", w.state->records[0].live, 2);
    opened(s, 8, 16);
    of_which_replaced(3, 2);
    expect("the default maintain", maintain(), MARBLE_OK);
    expect("the default 1 of 3: moved", out[1], 1);
    expect("the default 1 of 3: pruned", w.state->records[0].lsn, 0);
    holds(1, 1, 'a');
    holds(2, 1, 'b');
    holds(3, 1, 'b');
}

/* Line P7: generations 0, 3, 255 give 1, 3, 3. */
static void p7(uint64_t generation, uint64_t want) {
    uint8_t two[42], one[21];
    const uint8_t a = 'a', b = 'b';
    const entry first[] = {{1, 0}, {2, 2 * 21}}, later[] = {{2, 0}};
    fresh(alone(), 4, 8);
    object(two, 1, &a, 1);
    object(two + 21, 2, &a, 1);
    file_in(0, sound(5, generation, two, 42, first, 2));
    file_in(1, sound(BATCH_BIT + 1000, 0, one, object(one, 2, &b, 1), later, 1));
    expect("line P7 reopen", reopen(), MARBLE_OK);
    expect("line P7 maintain", maintain(), MARBLE_OK);
    expect("line P7 moved", out[1], 1);
    expect("line P7 no stop", out[0], 0);
    expect("line P7 generation", w.state->records[2].generation, want);
    expect("line P7 no batch bit", w.state->records[2].lsn < BATCH_BIT, 1);
    holds(1, 1, 'a');
    holds(2, 1, 'b');
}

/* ids 1 to n of these lengths in one file, and n + 1 to n + k, of no bytes, in it and then in another */
static void of_lengths(const size_t *lengths, uint64_t n, uint64_t k) {
    static uint8_t batch[BATCH_MOST];
    size_t at = 0;
    for (uint64_t i = 0; i < n + k; i++) {
        size_t len = i < n ? lengths[i] : 0;
        batch[at++] = (uint8_t)(i + 1);
        batch[at++] = 1;
        at += groups(batch + at, len);
        memset(batch + at, (int)('a' + i), len);
        at += len;
    }
    expect("write", write_batch(batch, at), MARBLE_OK);
    at = 0;
    for (uint64_t i = n; i < n + k; i++) {
        batch[at++] = (uint8_t)(i + 1);
        batch[at++] = 0;
    }
    expect("deleted", write_batch(batch, at), MARBLE_OK);
}

/* Line P8: lengths 0, 1, 60, 255, 256: shards 0, 1, 6, 8, 9. A file each, in that order. */
static void p8(void) {
    const size_t lengths[] = {256, 255, 60, 1, 0}, want[] = {20, 21, 80, 275, 276};
    opened(alone(), 8, 16);
    of_lengths(lengths, 5, 2);
    expect("line P8 maintain", maintain(), MARBLE_OK);
    expect("line P8 moved", out[1], 5);
    for (size_t i = 0; i < 5; i++) {
        expect("line P8 one entry", w.state->records[2 + i].present_objects, 1);
        expect("line P8 by ascending shard", w.state->records[2 + i].trailer_offset, want[i]);
    }
    for (size_t i = 0; i < 5; i++) holds(i + 1, lengths[i], (uint8_t)('a' + i));
}

static uint64_t entry_id(size_t slot, uint64_t k) {
    return from_le(w.heap + slot * w.s.slot_bytes + MARBLE_LABEL_BYTES + w.state->records[slot].trailer_offset + 12 + 16 * k, 8);
}

/* Line P9: target 100, ids 1, 2, 3 of 60 bytes each: files {3}, then {1, 2}. */
static void p9(void) {
    const size_t lengths[] = {60, 60, 60};
    marble_settings s = alone();
    s.target_file_size = 100;
    opened(s, 8, 16);
    of_lengths(lengths, 3, 2);
    expect("line P9 maintain", maintain(), MARBLE_OK);
    expect("line P9 moved", out[1], 3);
    expect("line P9 the rest first", w.state->records[2].present_objects, 1);
    expect("line P9 it is 3", entry_id(2, 0), 3);
    expect("line P9 then the fragment", w.state->records[3].present_objects, 2);
    expect("line P9 it has 1", entry_id(3, 0), 1);
    expect("line P9 and 2", entry_id(3, 1), 2);
    expect("line P9 no third", w.state->records[4].lsn, 0);
    for (size_t i = 0; i < 3; i++) holds(i + 1, 60, (uint8_t)('a' + i));
}

/* a claimed file is let alone; a released one is gathered with another, deletes too, and a reopening finds the same */
static void gathered(void) {
    opened(defaults(), 8, 16);
    w.s.small_file_cleanup_threshold = 0;
    expect("reopen with it", reopen(), MARBLE_OK);
    expect("write", put(1, 10, 'a'), MARBLE_OK);
    expect("write", put(2, 10, 'b'), MARBLE_OK);
    expect("deleted", drop(3), MARBLE_OK);
    expect("claim", claim(0), MARBLE_OK);
    expect("maintain", maintain(), MARBLE_OK);
    expect("moved without the claimed one", out[1], 2);
    expect("it stays", w.state->records[0].live, 1);
    expect("release", release(0), MARBLE_OK);
    expect("write", put(4, 10, 'd'), MARBLE_OK);
    expect("maintain", maintain(), MARBLE_OK);
    expect("moved", out[1] >= 2, 1);
    expect("prune finds nothing more", prune(), MARBLE_OK);
    expect("counts", counts(), MARBLE_OK);
    expect("live", totals.live, 4);
    expect("reopen", reopen(), MARBLE_OK);
    expect("counts", counts(), MARBLE_OK);
    expect("live", totals.live, 4);
    holds(1, 10, 'a');
    holds(2, 10, 'b');
    deleted(3);
    holds(4, 10, 'd');
}

/* the group of generation 1 has no room: number, generation, ids moved before it; nothing is pruned */
static void stops(void) {
    opened(alone(), 2, 16);
    of_which_replaced(3, 1);
    expect("no empty slot", maintain(), MARBLE_E_NO_EMPTY_SLOT);
    expect("generation", out[0], 1);
    expect("moved so far", out[1], 0);
    opened(alone(), 8, 16);
    of_which_replaced(3, 1);
    w.heap[MARBLE_LABEL_BYTES + 20] ^= 1;
    expect("a bit of a body", maintain(), MARBLE_E_CHECKSUM);
    expect("generation", out[0], 1);
    w.heap[MARBLE_LABEL_BYTES + 20] ^= 1;
    w.state->next_position = BATCH_BIT;
    expect("positions end", maintain(), MARBLE_E_POSITIONS_SPENT);
    expect("generation", out[0], 1);
    w.state->next_position = 0;
    expect("refused with 1", maintain(), MARBLE_E_LIMITS);
    expect("0 and 0", out[0] | out[1], 0);
}

/* an object and a delete in a file, the object replaced; then the delete's entry is damaged, its checksum right */
static void stops_at_a_position(void) {
    const uint8_t batch[] = {1, 1, 1, 'a', 2, 0};
    opened(alone(), 8, 16);
    expect("write", write_batch(batch, sizeof batch), MARBLE_OK);
    expect("replaced", put(1, 1, 'b'), MARBLE_OK);
    uint8_t *trailer = w.heap + MARBLE_LABEL_BYTES + w.state->records[0].trailer_offset;
    le(trailer + 12 + 16 + 8, 8, UINT64_MAX);
    le(trailer, 4, crc(trailer + 4, 8 + 2 * 16));
    expect("a delete past 2^63", maintain(), MARBLE_E_LOCATION);
    expect("generation", out[0], 1);
    expect("moved so far", out[1], 0);
    expect("a reopening says 12", reopen(), MARBLE_E_ENTRY_POSITION);
}

/* Copies of the file map go by groups and by files that come out, not by slots, entries or objects. */
#define PLAN_COPIES(groups) (5 + (groups))
#define REWRITE_COPIES(groups, files) (1 + 6 * (groups) + 3 * (files))
#define NIGHTLY_COPIES(groups, files) (4 + 6 * (groups) + 3 * (files))

static void copied(const char *call, uint64_t groups, uint64_t files, uint64_t most) {
    printf("%s, %llu groups, %llu files: copies of the file map %llu of %llu\n", call, (unsigned long long)groups, (unsigned long long)files, (unsigned long long)copies_made(), (unsigned long long)most);
    expect("copies within the figure", copies_made() <= most, 1);
}

static void by_night(uint64_t groups, uint64_t files) {
    expect("plan", plan(), MARBLE_OK);
    copied("marble_plan", groups, files, PLAN_COPIES(groups));
    expect("maintain", maintain(), MARBLE_OK);
    copied("marble_nightly", groups, files, NIGHTLY_COPIES(groups, files));
}

static void by_day(uint64_t groups, uint64_t files) {
    expect("rewrite", rewrite(1, UINT64_MAX, 0), MARBLE_OK);
    copied("marble_rewrite", groups, files, REWRITE_COPIES(groups, files));
}

/* two objects in a file, of which the second is replaced by a later one, in generations 0, 1 and 2 */
static void three_groups(void) {
    const uint8_t a = 'a', b = 'b';
    uint8_t two[42], one[3 * 21];
    entry later[3];
    fresh(alone(), 8, 16);
    for (uint64_t g = 0; g < 3; g++) {
        const entry both[] = {{2 * g + 1, 0}, {2 * g + 2, 2 * 21}};
        object(two, 2 * g + 1, &a, 1);
        object(two + 21, 2 * g + 2, &a, 1);
        file_in(g, sound(1000 * (g + 1), g, two, 42, both, 2));
        object(one + 21 * g, 2 * g + 2, &b, 1);
        later[g].id = 2 * g + 2;
        later[g].raw = 2 * 21 * g;
    }
    file_in(3, sound(BATCH_BIT + 9000, 0, one, 3 * 21, later, 3));
    expect("reopen", reopen(), MARBLE_OK);
    by_night(3, 3);
    expect("moved", out[1], 3);
    for (uint64_t g = 0; g < 3; g++) {
        holds(2 * g + 1, 1, 'a');
        holds(2 * g + 2, 1, 'b');
    }
}

/* 99 of 100 ids of a file moved into one: from 64 on the files are put in order first */
static void many(void) {
    static uint8_t batch[4 * 100];
    for (uint64_t i = 0; i < 100; i++) {
        batch[4 * i] = (uint8_t)(i + 1);
        batch[4 * i + 1] = batch[4 * i + 2] = 1;
        batch[4 * i + 3] = 'a';
    }
    marble_settings s = alone_at(100);
    s.target_file_size = 4096;
    opened(s, 8, 128);
    expect("write", write_batch(batch, sizeof batch), MARBLE_OK);
    expect("one replaced", put(100, 1, 'b'), MARBLE_OK);
    expect("maintain", maintain(), MARBLE_OK);
    expect("moved", out[1], 99);
    holds(1, 1, 'a');
    holds(99, 1, 'a');
    holds(100, 1, 'b');
}

static void costs(void (*of)(uint64_t groups, uint64_t files)) {
    const size_t lengths[] = {256, 255, 60, 1, 0};
    opened(alone(), 8, 16);
    of_which_replaced(4, 1);
    of(0, 0);
    opened(alone(), 8, 16);
    of_which_replaced(3, 1);
    of(1, 1);
    opened(alone(), 8, 16);
    of_lengths(lengths, 5, 2);
    of(1, 5);
}

void maintenance(void) {
    p6();
    at_the_default();
    p7(0, 1);
    p7(3, 3);
    p7(255, 3);
    p8();
    p9();
    gathered();
    many();
    stops();
    stops_at_a_position();
    costs(by_night);
    costs(by_day);
    three_groups();
}
