/* The checker: what is wrong with a heap, line by line, in the room that is lent; and whether a reopening accepts it. */
#include "harness.h"

/* as many faults as these, which all fit; a reopening accepts exactly if each has a position */
static void finds(const char *what, const marble_fault *want, uint64_t count) {
    uint64_t without = 0;
    expect(what, check(LISTING_MOST), MARBLE_OK);
    expect(what, out[0], count);
    for (uint64_t k = 0; k < count; k++) {
        expect("slot", listed[k].slot, want[k].slot);
        expect("number", listed[k].number, want[k].number);
        expect("has a position", listed[k].has_position, want[k].has_position);
        expect("position", listed[k].position, want[k].position);
        without += !want[k].has_position;
    }
    expect("a reopening accepts", reopen() == MARBLE_OK, without == 0);
}
#define FINDS(what, ...) finds(what, (const marble_fault[]){__VA_ARGS__}, sizeof((marble_fault[]){__VA_ARGS__}) / sizeof(marble_fault))

/* objects 1 and 2 of a byte each, at 0 and 21 */
static file two(uint8_t *bytes) {
    static const entry both[] = {{1, 0}, {2, 2 * 21}};
    const uint8_t a = 'a';
    object(bytes, 1, &a, 1);
    object(bytes + 21, 2, &a, 1);
    return sound(BATCH_BIT + 1, 0, bytes, 42, both, 2);
}

static void clean(void) {
    fresh(defaults(), 4, 8);
    finds("a blank heap", NULL, 0);
    expect("write", put(1, 10, 'a'), MARBLE_OK);
    expect("write", put(2, 0, 'b'), MARBLE_OK);
    expect("deleted", drop(1), MARBLE_OK);
    expect("pruned", prune(), MARBLE_OK);
    finds("a store of these calls", NULL, 0);
    /* of the table only the number of words counts, and it need not be in form */
    MARBLE_TABLE_ID(w.table, 0) = 9, MARBLE_TABLE_ID(w.table, 1) = 3, MARBLE_TABLE_LOCATION(w.table, 1) = 7;
    finds("any table", NULL, 0);
}

static void one_by_one(void) {
    uint8_t bytes[42];
    fresh(defaults(), 2, 8);
    uint8_t *const stored = w.heap + 4096 + MARBLE_LABEL_BYTES;
    file_in(1, two(bytes));
    finds("nothing wrong", NULL, 0);
    stored[20] ^= 1;
    FINDS("a bit of the first body", {1, MARBLE_E_CHECKSUM, 1, 0});
    stored[21 + 20] ^= 1;
    FINDS("and of the second", {1, MARBLE_E_CHECKSUM, 1, 0}, {1, MARBLE_E_CHECKSUM, 1, 21});
    w.heap[4096 + 8] = 0xFF;
    FINDS("its label scratched", {1, MARBLE_E_LABEL, 0, 0});
    w.heap[4096] = 0;
    finds("the slot emptied", NULL, 0);

    file_in(1, two(bytes));
    object(stored + 21, 7, stored + 41, 1);
    FINDS("another id", {1, MARBLE_E_OTHER_ID, 1, 21}, {1, MARBLE_E_OTHER_ID, 1, 21});
    stored[21 + 20] ^= 1;
    FINDS("and a bit of it", {1, MARBLE_E_CHECKSUM, 1, 21}, {1, MARBLE_E_OTHER_ID, 1, 21}, {1, MARBLE_E_OTHER_ID, 1, 21});
    file_in(1, two(bytes));
    le(stored + 12, 8, UINT64_MAX);
    FINDS("a length past the trailer", {1, MARBLE_E_CUT_SHORT, 1, 0}, {1, MARBLE_E_OTHER_ID, 1, 0}, {1, MARBLE_E_OTHER_ID, 1, 21});
    file_in(1, two(bytes));
    stored[42 + 12] ^= 1;
    FINDS("a bit of the trailer", {1, MARBLE_E_CHECKSUM, 0, 0});

    file_in(0, two(bytes));
    file_in(1, two(bytes));
    FINDS("one file in two slots", {1, MARBLE_E_OVERLAP, 0, 0});
    w.words = MARBLE_TABLE_WORDS(1);
    FINDS("and a table of one entry", {1, MARBLE_E_OVERLAP, 0, 0}, {2, MARBLE_E_TABLE_ROOM, 0, 0});
}

/* three faults in room for each number of words up to four lines: the lines that fit, and all of them counted */
static void room(void) {
    uint8_t bytes[42];
    fresh(defaults(), 2, 1);
    file_in(0, two(bytes));
    file_in(1, two(bytes));
    w.heap[MARBLE_LABEL_BYTES + 20] ^= 1;
    for (size_t words = 0; words <= 16; words++) {
        const uint64_t numbers[] = {MARBLE_E_CHECKSUM, MARBLE_E_OVERLAP, MARBLE_E_TABLE_ROOM};
        expect("check", check(words), MARBLE_OK);
        expect("the full number", out[0], 3);
        for (size_t k = 0; k < 3 && k < words / 4; k++) expect("the lines that fit", listed[k].number, numbers[k]);
    }
    marble_fault lines[3] = {{0, 0, 0, 0}, {0, 0, 0, 0}, {77, 77, 77, 77}};
    uint64_t found = 77;
    uint64_t n = marble_check_lines(w.s, w.heap, w.heap_len, w.table, w.words, lines, 2, &found);
    expect("by lines", n, MARBLE_OK);
    expect("the full number", found, 3);
    expect("the first", lines[0].slot == 0 && lines[0].number == MARBLE_E_CHECKSUM && lines[0].has_position == 1 && lines[0].position == 0, 1);
    expect("the second", lines[1].slot == 1 && lines[1].number == MARBLE_E_OVERLAP && lines[1].has_position == 0 && lines[1].position == 0, 1);
    expect("no third", lines[2].slot == 77 && lines[2].number == 77 && lines[2].has_position == 77 && lines[2].position == 77, 1);
    n = marble_check_lines(w.s, w.heap, w.heap_len, w.table, w.words, NULL, 0, &found);
    expect("no room", n == MARBLE_OK && found == 3, 1);
}

/* every slot in use, an id each; copies of the labels: five, and one for each slot */
static void many(void) {
    uint8_t bytes[21];
    const uint8_t a = 'a';
    fresh(small(128), MARBLE_SLOTS_MAX, MARBLE_SLOTS_MAX);
    for (uint64_t slot = 0; slot < MARBLE_SLOTS_MAX; slot++) {
        const entry one = {slot + 1, 0};
        file_in(slot, sound(BATCH_BIT + 100 * (slot + 1), 0, bytes, object(bytes, slot + 1, &a, 1), &one, 1));
    }
    finds("256 ids in a table of as many", NULL, 0);
    w.words = MARBLE_TABLE_WORDS(MARBLE_SLOTS_MAX - 1);
    FINDS("in one of 255", {MARBLE_SLOTS_MAX, MARBLE_E_TABLE_ROOM, 0, 0});
    w.words = MARBLE_TABLE_WORDS(MARBLE_SLOTS_MAX);
    w.heap[255 * 128 + MARBLE_LABEL_BYTES + 20] ^= 1;
    FINDS("a bit of the last body", {255, MARBLE_E_CHECKSUM, 1, 0});
}

/* 1, as of a reopening, and of nothing else */
static void out_of_range(void) {
    uint8_t bytes[42];
    fresh(defaults(), 2, 8);
    file_in(1, two(bytes));
    w.heap[4096 + MARBLE_LABEL_BYTES + 20] ^= 1;
    const store good = w;
    w.heap_len -= 1;
    expect("no whole slots", check(LISTING_MOST), MARBLE_E_LIMITS);
    w = good;
    w.heap = NULL, w.heap_len = 0;
    expect("no heap", check(LISTING_MOST), MARBLE_E_LIMITS);
    w = good;
    w.words -= 1;
    expect("an odd number of words", check(LISTING_MOST), MARBLE_E_LIMITS);
    w = good;
    w.table = NULL, w.words = 0;
    expect("no table", check(LISTING_MOST), MARBLE_E_LIMITS);
    w = good;
    w.s.slot_bytes = UINT64_MAX;
    expect("settings out of range", check(LISTING_MOST), MARBLE_E_LIMITS);
    w = good;
    FINDS("all as it was", {1, MARBLE_E_CHECKSUM, 1, 0});
}

void faults(void) {
    clean();
    one_by_one();
    room();
    many();
    out_of_range();
}
