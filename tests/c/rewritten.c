/* Request P7, maintenance in two calls: plan, rewrite of 1, 2, 3 and prune leave what the nightly job leaves; what a plan says is what then
   happens; mark, count and generation; the notes. That a refused call changes nothing, and what the notes are after it, is checked behind
   every call. */
#include "harness.h"

/* every file with a dead id is a candidate, alone, and no file is small */
static marble_settings alone(void) {
    marble_settings s = defaults();
    s.file_compaction_percent = 100;
    s.min_compaction_files = 1;
    s.small_file_cleanup_threshold = 256;
    return s;
}

/* every file is small, whatever is live in it */
static marble_settings gathering(uint64_t least) {
    marble_settings s = defaults();
    s.slot_bytes = 1024;
    s.file_compaction_percent = 0;
    s.min_compaction_files = least;
    s.small_file_cleanup_threshold = 0;
    return s;
}

static void opened(marble_settings s, size_t slots, size_t entries) {
    fresh(s, slots, entries);
    expect("reopen", reopen(), MARBLE_OK);
}

/* ---- a store kept aside */
typedef struct kept {
    uint8_t heap[HEAP_MOST];
    uint64_t table[MARBLE_TABLE_WORDS(MARBLE_TABLE_MAX)];
    marble_state state;
    marble_claims claims;
} kept;
static kept start, by_night;

static void keep(kept *k) {
    memcpy(k->heap, w.heap, w.heap_len);
    memcpy(k->table, w.table, 8 * w.words);
    k->state = *w.state;
    k->claims = *w.claims;
}

static void put_back(const kept *k) {
    memcpy(w.heap, k->heap, w.heap_len);
    memcpy(w.table, k->table, 8 * w.words);
    *w.state = k->state;
    *w.claims = k->claims;
}

static void as_kept(const char *what, const kept *k) {
    expect(what, (uint64_t)memcmp(w.heap, k->heap, w.heap_len), 0);
    expect(what, (uint64_t)memcmp(w.table, k->table, 8 * w.words), 0);
    expect(what, (uint64_t)memcmp(w.state, &k->state, sizeof k->state), 0);
    expect(what, (uint64_t)memcmp(w.claims, &k->claims, sizeof k->claims), 0);
}

/* ---- the job and the calls */
static uint64_t masked(uint64_t lsn) { return lsn & ~BATCH_BIT; }

/* the files from a position on, and their bytes of file_size */
static uint64_t files_from(uint64_t mark, uint64_t *bytes) {
    uint64_t files = 0;
    *bytes = 0;
    for (size_t i = 0; i < MARBLE_SLOTS_MAX; i++) {
        const marble_record *r = &w.state->records[i];
        if (r->lsn == 0 || masked(r->lsn) < mark) continue;
        files++;
        *bytes += r->file_size;
    }
    return files;
}

/* a group: slots of files below the mark, ascending, zeros behind them; none or at least min_compaction_files */
static void group_is_sound(uint64_t generation) {
    const marble_group *g = &planned.groups[generation - 1];
    expect("no group, or enough files", g->count == 0 || g->count >= w.s.min_compaction_files, 1);
    for (uint64_t k = 0; k < MARBLE_SLOTS_MAX; k++) {
        if (k >= g->count) {
            expect("zeros behind the last slot", g->slots[k], 0);
            continue;
        }
        const marble_record *r = &w.state->records[g->slots[k]];
        expect("ascending", k == 0 || g->slots[k - 1] < g->slots[k], 1);
        expect("a live file below the mark", r->lsn != 0 && r->live != 0 && masked(r->lsn) < planned.mark, 1);
        expect("of the generation below", r->generation >= 2 ? generation == 3 : generation == r->generation + 1, 1);
    }
}

/* the slots of a group after its rewrite: no id is live in them, and nothing is pruned */
static void emptied_of_live(uint64_t generation) {
    const marble_group *g = &planned.groups[generation - 1];
    for (uint64_t k = 0; k < g->count; k++) {
        expect("still there", w.state->records[g->slots[k]].lsn != 0, 1);
        expect("its label too", w.heap[g->slots[k] * w.s.slot_bytes] != 0, 1);
        expect("none live", w.state->records[g->slots[k]].live, 0);
    }
}

/* The job on the store as it stands gives this number and generation. Then the calls, one by one, on the same store: the plan's mark, count and
   groups; what it foretold is what happens; answers, state, table, heap and claims are the job's. The store stays as the job leaves it. */
static void one_by_one(uint64_t number, uint64_t generation) {
    keep(&start);
    expect("the job", maintain(), number);
    expect("where it stops", out[0], generation);
    const uint64_t moved = out[1];
    keep(&by_night);
    put_back(&start);
    expect("counts", counts(), MARBLE_OK);
    expect("plan", plan(), MARBLE_OK);
    expect("the mark is the next position", planned.mark, w.state->next_position);
    expect("the file count", planned.count, totals.files);
    uint64_t answer = MARBLE_OK, stopped = 0, sum = 0, bytes;
    for (uint64_t g = 1; g <= MARBLE_GENERATIONS; g++) group_is_sound(g);
    for (uint64_t g = 1; g <= MARBLE_GENERATIONS && answer == MARBLE_OK; g++) {
        answer = rewrite(g, planned.mark, planned.count);
        if (answer != MARBLE_OK) {
            stopped = g;
            continue;
        }
        sum += out[0];
        expect("ids moved, exactly if there is a group", out[0] != 0, planned.groups[g - 1].count != 0);
        emptied_of_live(g);
    }
    expect("the number foretold", planned.number, answer);
    expect("its generation", planned.generation, stopped);
    expect("files foretold", planned.files, files_from(planned.mark, &bytes));
    expect("bytes foretold", planned.bytes, bytes);
    if (answer == MARBLE_OK) expect("prune", prune(), MARBLE_OK);
    expect("the job's number", answer, number);
    expect("the job's generation", stopped, generation);
    expect("ids moved", sum, moved);
    as_kept("as the job leaves it", &by_night);
}

/* ---- stores */
/* ids 1 to n in one file, so many bytes each; then the last of them again */
static void one_replaced(uint64_t n, size_t bytes) {
    static uint8_t batch[BATCH_MOST];
    size_t len = 0, added = 1;
    static uint8_t body[BATCH_MOST];
    memset(body, 'a', sizeof body);
    for (uint64_t id = 1; id <= n; id++) added = added && marble_batch_put(batch, sizeof batch, &len, id, body, bytes);
    expect("it fits", added, 1);
    expect("write", write_batch(batch, len), MARBLE_OK);
    expect("replaced", put(n, bytes, 'b'), MARBLE_OK);
}

/* In slots 0, 1 and 2 a file of generation 0, 1 and 2: two objects, of which the second is replaced by a later file in slot 3. */
static void three_generations(marble_settings s, size_t slots) {
    const uint8_t a = 'a', b = 'b';
    uint8_t two[42], one[3 * 21];
    entry later[3];
    fresh(s, slots, 16);
    for (uint64_t g = 0; g < 3; g++) {
        const entry both[] = {{2 * g + 1, 0}, {2 * g + 2, 2 * 21}};
        object(two, 2 * g + 1, &a, 1);
        object(two + 21, 2 * g + 2, &a, 1);
        file_in(g, sound(1000 * (g + 1), g, two, 42, both, 2));
        object(one + 21 * g, 2 * g + 2, &b, 1);
        later[g].id = 2 * g + 2;
        later[g].raw = 2 * 21 * g;
    }
    file_in(3, sound(BATCH_BIT + 9000, 0, one, 3 * 21, later, 3));
    expect("reopen", reopen(), MARBLE_OK);
}

static void as_by_night(void) {
    opened(alone(), 4, 8);
    one_by_one(MARBLE_OK, 0);
    expect("a fresh store: nothing planned", planned.count | planned.files | planned.bytes, 0);
    opened(alone(), 8, 16);
    one_replaced(3, 60);
    one_by_one(MARBLE_OK, 0);
    expect("one file comes out", planned.files, 1);
    expect("its bytes", planned.bytes, MARBLE_FILE_SIZE(2, 2 * 60, 0));
    holds(1, 60, 'a');
    holds(3, 60, 'b');
    three_generations(alone(), 8);
    one_by_one(MARBLE_OK, 0);
    for (uint64_t g = 1; g <= MARBLE_GENERATIONS; g++) expect("a group each", planned.groups[g - 1].count == 1 && planned.groups[g - 1].slots[0] == g - 1, 1);
    expect("a file each", planned.files, 3);
    for (uint64_t id = 1; id <= 6; id++) holds(id, 1, id % 2 ? 'a' : 'b');
}

/* the first group goes through, the second or the third does not */
static void as_by_night_refused(void) {
    three_generations(alone(), 5);
    one_by_one(MARBLE_E_NO_EMPTY_SLOT, 2);
    expect("the first group's file", planned.files, 1);
    expect("the refused group is told too, and the one behind it", planned.groups[1].count == 1 && planned.groups[2].count == 1, 1);
    three_generations(alone(), 6);
    one_by_one(MARBLE_E_NO_EMPTY_SLOT, 3);
    three_generations(alone(), 4);
    one_by_one(MARBLE_E_NO_EMPTY_SLOT, 1);
    expect("nothing comes out", planned.files | planned.bytes, 0);
    /* a group takes 21 + 1 positions */
    three_generations(alone(), 8);
    w.state->next_position = BATCH_BIT - 22;
    one_by_one(MARBLE_E_POSITIONS_SPENT, 2);
    three_generations(alone(), 8);
    w.heap[w.s.slot_bytes + MARBLE_LABEL_BYTES + 20] ^= 1;
    one_by_one(MARBLE_E_CHECKSUM, 2);
    three_generations(alone(), 8);
    w.heap[2 * w.s.slot_bytes + MARBLE_LABEL_BYTES + 42] ^= 1;
    one_by_one(MARBLE_E_CHECKSUM, 3);
    /* two ids of 40 bytes do not fit a slot of 200 bytes with the trailer */
    marble_settings s = gathering(2);
    s.slot_bytes = 200;
    opened(s, 8, 16);
    expect("write", put(1, 40, 'a'), MARBLE_OK);
    expect("write", put(2, 40, 'b'), MARBLE_OK);
    one_by_one(MARBLE_E_SLOT_ROOM, 1);
}

/* lives of writes, deletes, claims, reopenings and jobs, by a generator of numbers; each job also one by one */
static uint64_t seed;

static uint64_t any(uint64_t below) {
    seed = seed * 6364136223846793005ull + 1442695040888963407ull;
    return (seed >> 33) % below;
}

static void lives(void) {
    uint64_t jobs = 0, refused = 0, moved = 0;
    for (uint64_t life = 0; life < 24; life++) {
        seed = life;
        marble_settings s = defaults();
        s.slot_bytes = 512;
        s.file_compaction_percent = 25 * any(5);
        s.min_compaction_files = 1 + any(3);
        s.target_file_size = 64 << any(4);
        s.small_file_cleanup_threshold = any(8);
        opened(s, 8 + any(24), 24);
        for (uint64_t step = 0; step < 60; step++) {
            const uint64_t id = 1 + any(20), slot = any(4), what = any(10);
            if (what < 5) put(id, any(80), (uint8_t)id);
            else if (what == 5) drop(id);
            else if (what == 6 && claim(slot) != MARBLE_OK) release(slot);
            else if (what == 7) prune();
            else if (what == 8) expect("reopen", reopen(), MARBLE_OK);
            else {
                keep(&start);
                const uint64_t n = maintain(), at = out[0];
                jobs++, refused += n != MARBLE_OK, moved += out[1];
                put_back(&start);
                one_by_one(n, at);
            }
        }
    }
    expect("jobs, refused ones, ids moved", jobs > 200 && refused > 50 && moved > 500, 1);
}

/* ---- mark, count, generation */
/* A file written between plan and rewrite is kept out by the mark; the next plan takes it in. */
static void the_mark(void) {
    opened(gathering(1), 8, 16);
    expect("write", put(1, 10, 'a'), MARBLE_OK);
    expect("write", put(2, 10, 'b'), MARBLE_OK);
    expect("plan", plan(), MARBLE_OK);
    expect("both files", planned.groups[0].count, 2);
    const marble_planned old = planned;
    expect("write", put(3, 10, 'c'), MARBLE_OK);
    expect("at the mark", masked(w.state->records[2].lsn), old.mark);
    keep(&start);
    expect("rewrite", rewrite(1, old.mark, old.count), MARBLE_OK);
    expect("the new file is left", out[0], 2);
    expect("with its id", w.state->records[2].live, 1);
    expect("rewrite again", rewrite(1, old.mark, old.count), MARBLE_OK);
    expect("nothing below the mark is left", out[0], 0);
    expect("rewrite 2", rewrite(2, old.mark, old.count), MARBLE_OK);
    expect("nor what the rewrite wrote", out[0], 0);
    expect("plan", plan(), MARBLE_OK);
    expect("now it is in", planned.groups[0].count == 1 && planned.groups[0].slots[0] == 2, 1);
    expect("and the rewritten file is", planned.groups[1].count, 1);
    /* the mark is compared with the position without the batch bit: one above takes the file too */
    put_back(&start);
    expect("one above", rewrite(1, old.mark + 1, old.count), MARBLE_OK);
    expect("all three", out[0], 3);
    put_back(&start);
    expect("mark 0", rewrite(1, 0, old.count), MARBLE_OK);
    expect("none", out[0], 0);
    expect("mark 2^64 - 1", rewrite(1, UINT64_MAX, old.count), MARBLE_OK);
    expect("all three", out[0], 3);
    expect("prune", prune(), MARBLE_OK);
    holds(1, 10, 'a');
    holds(2, 10, 'b');
    holds(3, 10, 'c');
}

/* The threshold goes by the count given, not by the files that there are. */
static void the_count(void) {
    marble_settings s = gathering(1);
    s.small_file_cleanup_threshold = 3;
    opened(s, 8, 16);
    expect("write", put(1, 10, 'a'), MARBLE_OK);
    expect("write", put(2, 10, 'b'), MARBLE_OK);
    expect("plan", plan(), MARBLE_OK);
    expect("two files, no group", planned.count == 2 && planned.groups[0].count == 0, 1);
    const marble_planned old = planned;
    expect("write", put(3, 10, 'c'), MARBLE_OK);
    keep(&start);
    expect("rewrite", rewrite(1, UINT64_MAX, old.count), MARBLE_OK);
    expect("three files, but a count of 2", out[0], 0);
    expect("rewrite", rewrite(1, UINT64_MAX, 3), MARBLE_OK);
    expect("a count of 3", out[0], 3);
    put_back(&start);
    expect("rewrite", rewrite(1, UINT64_MAX, UINT64_MAX), MARBLE_OK);
    expect("a count of 2^64 - 1", out[0], 3);
    put_back(&start);
    expect("rewrite", rewrite(1, UINT64_MAX, 0), MARBLE_OK);
    expect("a count of 0", out[0], 0);
}

static void the_generation(void) {
    static const uint64_t outside[] = {0, 4, 255, UINT64_MAX};
    three_generations(alone(), 8);
    expect("plan", plan(), MARBLE_OK);
    for (size_t k = 0; k < 4; k++) expect("outside 1 to 3", rewrite(outside[k], planned.mark, planned.count), MARBLE_E_GENERATION);
    w.s.max_object_size += 1;
    expect("1 comes first", rewrite(4, planned.mark, planned.count), MARBLE_E_LIMITS);
    w.s.max_object_size -= 1;
    /* each by itself, in any order */
    for (uint64_t g = MARBLE_GENERATIONS; g >= 1; g--) {
        expect("rewrite", rewrite(g, planned.mark, planned.count), MARBLE_OK);
        expect("its file", out[0], 1);
        emptied_of_live(g);
    }
    for (uint64_t g = 1; g <= MARBLE_GENERATIONS; g++) expect("a file of it", w.state->records[7 - g].generation, g);
}

/* ---- what a rewrite works out afresh, and what it leaves */
static void too_few(void) {
    opened(gathering(2), 8, 16);
    expect("write", put(1, 10, 'a'), MARBLE_OK);
    expect("plan", plan(), MARBLE_OK);
    expect("one file is too few", planned.groups[0].count | planned.files | planned.number, 0);
    expect("rewrite", rewrite(1, planned.mark, planned.count), MARBLE_OK);
    expect("none moved", out[0], 0);
    expect("write", put(2, 10, 'b'), MARBLE_OK);
    expect("plan", plan(), MARBLE_OK);
    expect("two are enough", planned.groups[0].count == 2 && planned.files == 1, 1);
    expect("claim since", claim(0), MARBLE_OK);
    expect("rewrite", rewrite(1, planned.mark, planned.count), MARBLE_OK);
    expect("a claimed one is none", out[0], 0);
    expect("release", release(0), MARBLE_OK);
    expect("deleted since", drop(2), MARBLE_OK);
    expect("rewrite", rewrite(1, planned.mark, planned.count), MARBLE_OK);
    expect("nor is one with nothing live", out[0], 0);
    expect("it keeps its slot", w.state->records[1].lsn != 0 && w.heap[w.s.slot_bytes] != 0, 1);
    holds(1, 10, 'a');
    deleted(2);
}

/* a foretold refusal stops nothing: there is room when the rewrite comes */
static void only_foretold(void) {
    opened(gathering(1), 2, 16);
    expect("write", put(1, 10, 'a'), MARBLE_OK);
    expect("replaced", put(1, 10, 'b'), MARBLE_OK);
    expect("plan", plan(), MARBLE_OK);
    expect("no empty slot", planned.number == MARBLE_E_NO_EMPTY_SLOT && planned.generation == 1, 1);
    expect("refused", rewrite(1, planned.mark, planned.count), MARBLE_E_NO_EMPTY_SLOT);
    expect("prune", prune(), MARBLE_OK);
    expect("rewrite", rewrite(1, planned.mark, planned.count), MARBLE_OK);
    expect("moved", out[0], 1);
    holds(1, 10, 'b');
}

/* ---- the notes */
static void every_call(void) {
    expect("plan", plan(), MARBLE_E_LIMITS);
    expect("rewrite", rewrite(1, UINT64_MAX, 256), MARBLE_E_LIMITS);
    expect("rewrite of no generation", rewrite(0, UINT64_MAX, 256), MARBLE_E_LIMITS);
    expect("the job", maintain(), MARBLE_E_LIMITS);
}

static void notes(void) {
    three_generations(alone(), 8);
    const store good = w;
    w.places_len -= 1;
    every_call();
    w = good;
    w.pieces_len -= 1;
    every_call();
    w.places_len = w.pieces_len = 0;
    every_call();
    w = good;
    one_by_one(MARBLE_OK, 0);
    /* longer ones are zeroed to their ends */
    fresh(gathering(1), 8, 17);
    w.words = MARBLE_TABLE_WORDS(16);
    expect("reopen", reopen(), MARBLE_OK);
    expect("write", put(1, 10, 'a'), MARBLE_OK);
    one_by_one(MARBLE_OK, 0);
    expect("one of the two only", planned.files, 1);
}

/* The longest table, 256 slots: files of four ids, one of them dead, and stack as with a short one. */
static void longest_table(void) {
    marble_settings s = alone();
    s.slot_bytes = 1024;
    s.target_file_size = 256;
    opened(s, MARBLE_SLOTS_MAX, MARBLE_TABLE_MAX);
    for (uint64_t f = 0; f < 100; f++) {
        uint8_t batch[4 * 8];
        size_t len = 0, added = 1;
        for (uint64_t k = 0; k < 4; k++) added = added && marble_batch_put(batch, sizeof batch, &len, 3 * f + k, "xx", 2);
        expect("it fits", added != 0, 1);
        expect("write", write_batch(batch, len), MARBLE_OK);
    }
    one_by_one(MARBLE_OK, 0);
    expect("99 files taken", planned.groups[0].count, 99);
    holds(0, 2, 'x');
}

void rewritten(void) {
    as_by_night();
    as_by_night_refused();
    lives();
    the_mark();
    the_count();
    the_generation();
    too_few();
    only_foretold();
    notes();
    longest_table();
}
