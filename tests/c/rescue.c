/* The salvage of a damaged heap: what it gives up, line by line, and what a reopening then says. */
#include "harness.h"

/* these slots are given up, for these refusals; nothing more by a second salvage; the reopening behind them answers as said */
static void gives_up(const char *what, const marble_loss *want, uint64_t count, uint64_t reopening) {
    expect(what, salvage(), MARBLE_OK);
    expect(what, out[0], count);
    for (uint64_t k = 0; k < count && k < out[0]; k++) {
        expect("slot", given_up[k].slot, want[k].slot);
        expect("number", given_up[k].number, want[k].number);
        expect("emptied", w.heap[want[k].slot * w.s.slot_bytes], 0);
    }
    expect("again", salvage(), MARBLE_OK);
    expect("nothing more", out[0], 0);
    expect("the reopening", reopen(), reopening);
}
#define GIVES_UP(what, ...) gives_up(what, (const marble_loss[]){__VA_ARGS__}, sizeof((marble_loss[]){__VA_ARGS__}) / sizeof(marble_loss), MARBLE_OK)

/* an object of an id from the start of a file, one byte; the file ends 21 behind its position */
static file one(uint64_t masked, uint64_t id, uint8_t *bytes, entry *e) {
    const uint8_t a = 'a';
    e->id = id, e->raw = 0;
    return sound(BATCH_BIT + masked, 0, bytes, object(bytes, id, &a, 1), e, 1);
}

static void put_one(size_t slot, uint64_t masked, uint64_t id) {
    uint8_t bytes[21];
    entry e;
    file_in(slot, one(masked, id, bytes, &e));
}

/* nothing is given up where a reopening accepts */
static void clean(void) {
    fresh(defaults(), 4, 8);
    gives_up("a blank heap", NULL, 0, MARBLE_OK);
    expect("write", put(1, 10, 'a'), MARBLE_OK);
    expect("write", put(2, 0, 'b'), MARBLE_OK);
    expect("deleted", drop(1), MARBLE_OK);
    gives_up("a store of these calls", NULL, 0, MARBLE_OK);
    deleted(1);
    holds(2, 0, 'b');
    /* of the table only the number of words counts, and it need not be in form */
    MARBLE_TABLE_ID(w.table, 0) = 9, MARBLE_TABLE_ID(w.table, 1) = 3, MARBLE_TABLE_LOCATION(w.table, 1) = 7;
    gives_up("any table", NULL, 0, MARBLE_OK);
    /* what a reopening does not look at is not touched */
    w.heap[MARBLE_LABEL_BYTES + 20] ^= 1;
    gives_up("a bit of a body", NULL, 0, MARBLE_OK);
}

/* a slot that fails by itself, beside one that does not */
static void alone(const char *what, file f, uint64_t number) {
    fresh(defaults(), 3, 8);
    put_one(0, 1000, 5);
    file_in(2, f);
    const marble_loss it = {2, number};
    gives_up(what, &it, 1, MARBLE_OK);
    holds(5, 1, 'a');
}

static void by_themselves(void) {
    static const entry twice[] = {{1, 0}, {1, 0}}, past[] = {{1, 2 * 2}};
    uint8_t bytes[21];
    entry e;
    file f = one(1, 7, bytes, &e);
    alone("a file longer than its slot", (file){f.lsn, f.trailer_offset, 5000, 1, 0, 1, f.entries, 1, bytes}, MARBLE_E_LABEL);
    alone("a trailer of 19 bytes", (file){f.lsn, 21, 21 + 19, 1, 0, 1, f.entries, 0, bytes}, MARBLE_E_TRAILER_SHORT);
    alone("two entries in the room of one", (file){f.lsn, 21, f.file_size, 1, 0, 2, f.entries, 1, bytes}, MARBLE_E_ENTRY_COUNT);
    alone("an object that begins too late", sound(f.lsn, 0, bytes, 21, past, 1), MARBLE_E_ENTRY_POSITION);
    alone("a count of two", (file){f.lsn, 21, f.file_size, 2, 0, 1, f.entries, 1, bytes}, MARBLE_E_PRESENT_COUNT);
    alone("an id twice at one position", sound(f.lsn, 0, bytes, 21, twice, 2), MARBLE_E_NOT_RISING);
    fresh(defaults(), 3, 8);
    put_one(0, 1, 7);
    w.heap[MARBLE_LABEL_BYTES + 21 + 12] ^= 1;
    GIVES_UP("a bit of a trailer", {0, MARBLE_E_CHECKSUM});
    never_written(7);
}

/* files whose ranges meet: by position, not by slot */
static void in_order(void) {
    fresh(defaults(), 4, 8);
    put_one(0, 30, 1);
    put_one(1, 10, 2);
    GIVES_UP("the later range in the lower slot", {0, MARBLE_E_OVERLAP});
    holds(2, 1, 'a');
    fresh(defaults(), 4, 8);
    put_one(0, 10, 1);
    put_one(1, 10, 2);
    put_one(2, 10, 3);
    GIVES_UP("equal positions by slot", {1, MARBLE_E_OVERLAP}, {2, MARBLE_E_OVERLAP});
    holds(1, 1, 'a');
    fresh(defaults(), 4, 8);
    put_one(3, 10, 1);
    put_one(0, 31, 2);
    put_one(1, 52, 3);
    GIVES_UP("at the end of the last kept one", {0, MARBLE_E_OVERLAP});
    fresh(defaults(), 4, 8);
    put_one(3, 10, 1);
    put_one(0, 32, 2);
    put_one(1, 54, 3);
    gives_up("one above it", NULL, 0, MARBLE_OK);
    fresh(defaults(), 4, 8);
    put_one(0, 30, 1);
    put_one(1, 10, 2);
    put_one(2, 50, 3);
    put_one(3, 31, 4);
    w.heap[4096 + 8] = 0xFF;
    GIVES_UP("both kinds", {1, MARBLE_E_LABEL}, {3, MARBLE_E_OVERLAP}, {2, MARBLE_E_OVERLAP});
    holds(1, 1, 'a');
}

/* the hazard: an older version read, a delete undone */
static void older(void) {
    fresh(defaults(), 4, 8);
    expect("reopen", reopen(), MARBLE_OK);
    expect("write", put(7, 1, 41), MARBLE_OK);
    expect("write", put(7, 1, 42), MARBLE_OK);
    expect("write", drop(7), MARBLE_OK);
    deleted(7);
    w.heap[2 * 4096 + 8] = 0xFF;
    expect("scratched", reopen(), MARBLE_E_LABEL);
    GIVES_UP("the delete", {2, MARBLE_E_LABEL});
    holds(7, 1, 42);
    w.heap[4096 + 8] = 0xFF;
    GIVES_UP("the second put", {1, MARBLE_E_LABEL});
    holds(7, 1, 41);
    expect("write", put(7, 1, 43), MARBLE_OK);
    holds(7, 1, 43);
}

/* every slot in use: room for 256 lines is enough */
static void many(void) {
    static marble_loss want[MARBLE_SLOTS_MAX];
    fresh(small(128), MARBLE_SLOTS_MAX, MARBLE_SLOTS_MAX);
    for (uint64_t slot = 0; slot < MARBLE_SLOTS_MAX; slot++) put_one(slot, 100 * (MARBLE_SLOTS_MAX - slot), slot + 1);
    gives_up("256 files apart, the last first", NULL, 0, MARBLE_OK);
    w.words = MARBLE_TABLE_WORDS(MARBLE_SLOTS_MAX - 1);
    gives_up("for a table of 255", NULL, 0, MARBLE_E_TABLE_ROOM);
    fresh(small(128), MARBLE_SLOTS_MAX, MARBLE_SLOTS_MAX);
    for (uint64_t slot = 0; slot < MARBLE_SLOTS_MAX; slot++) put_one(slot, MARBLE_SLOTS_MAX - slot, slot + 1);
    /* of positions 1 to 256 those 22 apart are kept: slots 255, 233, .. */
    uint64_t count = 0;
    for (uint64_t k = 0; k < MARBLE_SLOTS_MAX - 1; k++)
        if ((k + 1) % 22) want[count++] = (marble_loss){MARBLE_SLOTS_MAX - 2 - k, MARBLE_E_OVERLAP};
    gives_up("256 files over each other", want, count, MARBLE_OK);
    fresh(small(128), MARBLE_SLOTS_MAX, MARBLE_SLOTS_MAX);
    for (uint64_t slot = 0; slot < MARBLE_SLOTS_MAX; slot++) w.heap[128 * slot] = 0xFF, want[slot] = (marble_loss){slot, MARBLE_E_LABEL};
    gives_up("256 scratched labels", want, MARBLE_SLOTS_MAX, MARBLE_OK);
}

/* 1, as of a reopening, and of nothing else */
static void out_of_range(void) {
    fresh(defaults(), 2, 8);
    put_one(1, 1, 7);
    w.heap[4096 + 8] = 0xFF;
    const store good = w;
    w.heap_len -= 1;
    expect("no whole slots", salvage(), MARBLE_E_LIMITS);
    w = good;
    w.heap = NULL, w.heap_len = 0;
    expect("no heap", salvage(), MARBLE_E_LIMITS);
    w = good;
    w.words -= 1;
    expect("an odd number of words", salvage(), MARBLE_E_LIMITS);
    w = good;
    w.table = NULL, w.words = 0;
    expect("no table", salvage(), MARBLE_E_LIMITS);
    w = good;
    w.s.slot_bytes = UINT64_MAX;
    expect("settings out of range", salvage(), MARBLE_E_LIMITS);
    w = good;
    GIVES_UP("all as it was", {1, MARBLE_E_LABEL});
}

void rescue(void) {
    clean();
    by_themselves();
    in_order();
    older();
    many();
    out_of_range();
}
