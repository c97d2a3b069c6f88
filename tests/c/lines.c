/* "Lines to hold, both sides", as far as the calls show them. */
#include "harness.h"

/* Line P1: position 5: raw 10; delete: 11. A rewritten file at 5 with an object and a delete at its start. */
static void p1(void) {
    uint8_t bytes[21];
    const uint8_t body = 'x';
    const entry entries[] = {{1, 0}, {2, 1}};
    fresh(defaults(), 2, 8);
    file_in(0, sound(5, 1, bytes, object(bytes, 1, &body, 1), entries, 2));
    expect("line P1 reopen", reopen(), MARBLE_OK);
    expect("line P1 load", load(1), MARBLE_OK);
    expect("line P1 object at 5", out[0], 10);
    expect("line P1 load", load(2), MARBLE_OK);
    expect("line P1 delete at 5", out[0], 11);
    holds(1, 1, 'x');
    deleted(2);
}

/* Line P2: absolute position 0, object: 20; position 0, delete: raw 1. */
static void p2(void) {
    fresh(defaults(), 2, 8);
    expect("line P2 object at 0", store_at(4, 0), MARBLE_E_LOCATION);
    expect("line P2 delete at 0", store_at(4, 1), MARBLE_OK);
    expect("line P2 load", load(4), MARBLE_OK);
    expect("line P2 raw 1", out[0], 1);
    expect("line P2 a delete", kind, MARBLE_DELETED);
}

/* Line P3: position 2^63 - 1, delete: raw 2^64 - 1; 2^63: refused, here as a label's lsn. */
static void p3(void) {
    const entry e = {1, 1};
    fresh(defaults(), 2, 8);
    expect("line P3 greatest", store_at(4, UINT64_MAX), MARBLE_OK);
    expect("line P3 load", load(4), MARBLE_OK);
    expect("line P3 raw", out[0], UINT64_MAX);
    expect("line P3 a delete", kind, MARBLE_DELETED);
    fresh(defaults(), 2, 8);
    file_in(0, sound(1ull << 63, 0, NULL, 0, &e, 1));
    expect("line P3 2^63", reopen(), MARBLE_E_LABEL);
}

/* Line P4: groups: 300 is AC 02; 80 00 is refused. */
static void p4(void) {
    const uint8_t batch[] = {0xAC, 0x02, 1, 1, 'q'}, longer[] = {0x80, 0x00, 0};
    fresh(defaults(), 2, 8);
    expect("line P4 reopen", reopen(), MARBLE_OK);
    expect("line P4 write", write_batch(batch, sizeof batch), MARBLE_OK);
    holds(300, 1, 'q');
    expect("line P4 not the shortest", write_batch(longer, sizeof longer), MARBLE_E_BATCH_BYTES);
}

/* Line P5: masked 205 without the bit is later than masked 101 with it. */
static void p5(void) {
    uint8_t old[21], new[22];
    const uint8_t a = 'a', bb[2] = {'b', 'b'};
    const entry e = {1, 0};
    fresh(defaults(), 2, 8);
    file_in(0, sound(BATCH_BIT + 101, 0, old, object(old, 1, &a, 1), &e, 1));
    file_in(1, sound(205, 1, new, object(new, 1, bb, 2), &e, 1));
    expect("line P5 reopen", reopen(), MARBLE_OK);
    expect("line P5 load", load(1), MARBLE_OK);
    expect("line P5 the later one", out[0], 2 * 205);
    holds(1, 2, 'b');
    expect("line P5 live of the older", w.state->records[0].live, 0);
    expect("line P5 live of the later", w.state->records[1].live, 1);
}

/* Line P10: fresh store, batch 07 01 01 41 09 00: T 21, entries (7, 0) and (9, 43), file_size 65, next position 23; after reopening 67. */
static void p10(void) {
    const uint8_t batch[] = {0x07, 1, 1, 0x41, 0x09, 0};
    fresh(defaults(), 16, 64);
    expect("line P10 reopen", reopen(), MARBLE_OK);
    expect("line P10 fresh next", w.state->next_position, 1);
    expect("line P10 write", write_batch(batch, sizeof batch), MARBLE_OK);
    const marble_record *r = &w.state->records[0];
    const uint8_t *trailer = w.heap + MARBLE_LABEL_BYTES + 21;
    expect("line P10 lsn", r->lsn, BATCH_BIT + 1);
    expect("line P10 T", r->trailer_offset, 21);
    expect("line P10 file_size", r->file_size, 65);
    expect("line P10 present", r->present_objects, 2);
    expect("line P10 generation", r->generation, 0);
    expect("line P10 live", r->live, 2);
    expect("line P10 next", w.state->next_position, 23);
    expect("line P10 checksum", from_le(trailer, 4), crc(trailer + 4, 40));
    expect("line P10 count", from_le(trailer + 4, 8), 2);
    expect("line P10 first id", from_le(trailer + 12, 8), 7);
    expect("line P10 first location", from_le(trailer + 20, 8), 0);
    expect("line P10 second id", from_le(trailer + 28, 8), 9);
    expect("line P10 second location", from_le(trailer + 36, 8), 43);
    holds(7, 1, 0x41);
    expect("line P10 the part's start", out[0], 84);
    deleted(9);
    expect("line P10 again", reopen(), MARBLE_OK);
    expect("line P10 next after reopening", w.state->next_position, 67);
    holds(7, 1, 0x41);
    deleted(9);
}

void lines(void) {
    p1();
    p2();
    p3();
    p4();
    p5();
    p10();
}
