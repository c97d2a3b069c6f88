/* Each refusal number at least once, from bytes that a host can meet. */
#include "harness.h"

static uint8_t seen[23];

static void refused(const char *what, uint64_t got, uint64_t want) {
    expect(what, got, want);
    if (got < sizeof seen) seen[got] = 1;
}

/* a fresh store, reopened */
static void opened(marble_settings s, size_t slots, size_t table) {
    fresh(s, slots, table);
    expect("reopen", reopen(), MARBLE_OK);
}

static void of_writes(void) {
    const uint8_t cut[] = {1, 1, 5, 'a'}, two[] = {1, 0, 2, 0};
    opened(defaults(), 1, 1);
    w.s.target_file_size = 0;
    refused("settings out of range", put(1, 1, 'a'), MARBLE_E_LIMITS);
    w.s = defaults();
    refused("a body cut short", write_batch(cut, sizeof cut), MARBLE_E_BATCH_BYTES);
    refused("max_object_size", put(1, 1024, 'a'), MARBLE_E_OBJECT_SIZE);
    refused("two ids, one entry", write_batch(two, sizeof two), MARBLE_E_TABLE_ROOM);
    expect("one byte less", put(1, 1023, 'a'), MARBLE_OK);
    refused("one slot", put(1, 1, 'a'), MARBLE_E_NO_EMPTY_SLOT);
    opened(small(128), 1, 1);
    refused("17 bytes in 128", put(1, 17, 'a'), MARBLE_E_SLOT_ROOM);
    expect("16 fit", put(1, 16, 'a'), MARBLE_OK);
    opened(defaults(), 1, 1);
    w.state->next_position = BATCH_BIT - 21;
    refused("positions end at 2^62", put(1, 1, 'a'), MARBLE_E_POSITIONS_SPENT);
    w.state->next_position -= 1;
    expect("the last position", put(1, 1, 'a'), MARBLE_OK);
}

/* a file of one object, damaged in one number, and what reopening says */
static void damaged(const char *what, file f, uint64_t want) {
    fresh(defaults(), 2, 8);
    file_in(1, f);
    refused(what, reopen(), want);
}

static void of_reopenings(void) {
    uint8_t bytes[21];
    const uint8_t body = 'x';
    const entry one = {1, 0}, past = {1, 2 * 22}, twice[] = {{1, 0}, {1, 1}};
    const file good = sound(BATCH_BIT + 1, 0, bytes, object(bytes, 1, &body, 1), &one, 1);
    file f = good;
    fresh(defaults(), 2, 8);
    file_in(1, f);
    expect("nothing wrong", reopen(), MARBLE_OK);
    holds(1, 1, 'x');

    f = good, f.lsn = 0;
    damaged("lsn 0 is an empty slot: its first byte", f, MARBLE_OK);
    f = good, f.lsn = BATCH_BIT;
    damaged("masked lsn 0", f, MARBLE_E_LABEL);
    f = good, f.generation = 256;
    damaged("generation 256", f, MARBLE_E_LABEL);
    f = good, f.file_size = f.trailer_offset + 19, f.count = f.stored = 0;
    damaged("a trailer of 19 bytes", f, MARBLE_E_TRAILER_SHORT);
    f = good, f.count = 2;
    damaged("two entries, room for one", f, MARBLE_E_ENTRY_COUNT);
    f = good, f.entries = &past;
    damaged("position 22 of 21", f, MARBLE_E_ENTRY_POSITION);
    f = good, f.present = 2;
    damaged("present 2, count 1", f, MARBLE_E_PRESENT_COUNT);
    damaged("one position twice", sound(BATCH_BIT + 1, 0, bytes, 21, twice, 2), MARBLE_E_NOT_RISING);

    fresh(defaults(), 2, 8);
    file_in(1, good);
    w.heap[4096 + 64 + 21 + 12] ^= 1;
    refused("a bit of the trailer", reopen(), MARBLE_E_CHECKSUM);
    fresh(defaults(), 2, 8);
    file_in(0, good);
    file_in(1, good);
    refused("one file in two slots", reopen(), MARBLE_E_OVERLAP);
    const entry two[] = {{1, 0}, {2, 43}};
    fresh(defaults(), 2, 1);
    file_in(0, sound(BATCH_BIT + 1, 0, bytes, 21, two, 2));
    refused("two ids, one entry", reopen(), MARBLE_E_TABLE_ROOM);

    /* decision D4: a write after a refused reopening takes slot 0 */
    fresh(defaults(), 2, 8);
    file_in(0, good);
    f = good, f.lsn += 100, f.present = 2;
    file_in(1, f);
    refused("the second file is wrong", reopen(), MARBLE_E_PRESENT_COUNT);
    expect("a write all the same", put(1, 1, 'y'), MARBLE_OK);
    expect("slot 0 is written over", w.heap[64 + 20], 'y');
}

static void of_reads(void) {
    opened(defaults(), 2, 8);
    expect("write", put(1, 4, 'x'), MARBLE_OK);
    expect("location below every file", store_at(2, 2), MARBLE_OK);
    refused("no file at or below", read_id(2), MARBLE_E_NOT_THERE);
    holds(1, 4, 'x');
    uint8_t *o = w.heap + MARBLE_LABEL_BYTES;
    o[20] ^= 1;
    refused("a bit of the body", read_id(1), MARBLE_E_CHECKSUM);
    o[20] ^= 1;
    le(o + 12, 8, 1u << 20);
    refused("a length past the file", read_id(1), MARBLE_E_CUT_SHORT);
    object(o, 7, o + 20, 4);
    refused("another id", read_id(1), MARBLE_E_OTHER_ID);
    object(o, 1, o + 20, 4);
    holds(1, 4, 'x');
}

static void of_claims(void) {
    opened(small(256), 100, 8);
    refused("an empty slot", claim(0), MARBLE_E_CLAIM);
    expect("write", put(1, 4, 'x'), MARBLE_OK);
    refused("out of range", claim(100), MARBLE_E_CLAIM);
    refused("far out of range", claim(UINT64_MAX), MARBLE_E_CLAIM);
    refused("not claimed", release(0), MARBLE_E_CLAIM);
    expect("claim", claim(0), MARBLE_OK);
    refused("claimed", claim(0), MARBLE_E_CLAIM);
    expect("release", release(0), MARBLE_OK);
    refused("released", release(0), MARBLE_E_CLAIM);
    refused("an empty slot", release(99), MARBLE_E_CLAIM);
}

static void of_rewrites(void) {
    opened(defaults(), 2, 8);
    refused("generation 0", rewrite(0, 1, 0), MARBLE_E_GENERATION);
    refused("generation 4", rewrite(4, 1, 0), MARBLE_E_GENERATION);
}

static void of_the_table(void) {
    fresh(defaults(), 1, 1);
    refused("raw 0", store_at(1, 0), MARBLE_E_LOCATION);
    refused("raw 0", compare_and_store(1, 0, 4), MARBLE_E_LOCATION);
    refused("raw 0", compare_and_store(1, 4, 0), MARBLE_E_LOCATION);
    refused("raw 0", store_if_greater(1, 0), MARBLE_E_LOCATION);
    refused("unmapped", compare_and_store(1, 2, 4), MARBLE_E_NOT_THERE);
    expect("store", store_at(1, 2), MARBLE_OK);
    refused("equal", store_if_greater(1, 2), MARBLE_E_EQUAL_LOCATION);
    refused("full", store_at(2, 2), MARBLE_E_TABLE_ROOM);
    refused("full", store_if_greater(2, 2), MARBLE_E_TABLE_ROOM);
}

void refusals(void) {
    of_writes();
    of_reopenings();
    of_reads();
    of_claims();
    of_rewrites();
    of_the_table();
    for (unsigned n = 1; n < sizeof seen; n++) {
        if (!seen[n]) printf("tests/c: number %u was never given\n", n);
        expect("a number given", seen[n], 1);
    }
}
