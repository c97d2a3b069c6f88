/* What the header brings beside the calls: version, batches made, sizes, locations. */
#include "harness.h"

static void version(void) {
    uint64_t linked = marble_version();
    expect("the archive's version", linked, MARBLE_VERSION);
    expect("major and minor", linked, 1000 * MARBLE_VERSION_MAJOR + MARBLE_VERSION_MINOR);
}

/* ---- batches made */
#define ROOM (MARBLE_BATCH_LENGTH_MAX(1, MARBLE_MAX_OBJECT_SIZE_MAX - 1, 0))
static uint8_t batch[ROOM + 1], body[MARBLE_MAX_OBJECT_SIZE_MAX];

static uint64_t others(const uint8_t *bytes, size_t from, size_t to, uint8_t b) {
    uint64_t n = 0;
    for (; from < to; from++) n += bytes[from] != b;
    return n;
}

/* One operation with the head given by hand, and, if it is a put, size bytes of 'q' behind it: exactly so long, behind what is there, and
   not with a byte less of room. */
static void made(const char *what, uint64_t id, int put, size_t size, const uint8_t *head, size_t head_len) {
    const size_t before = 3, whole = before + head_len + size;
    for (size_t less = 0; less < 2; less++) {
        size_t len = before, room = whole - less;
        memset(batch, 'Z', whole + 1);
        size_t added = put ? marble_batch_put(batch, room, &len, id, size ? body : NULL, size) : marble_batch_delete(batch, room, &len, id);
        expect(what, added, less ? 0 : whole - before);
        expect(what, len, less ? before : whole);
        expect("no other byte", others(batch, 0, before, 'Z') + others(batch, less ? before : whole, whole + 1, 'Z'), 0);
        if (less) continue;
        expect(what, (uint64_t)memcmp(batch + before, head, head_len), 0);
        expect("its body", others(batch, before + head_len, whole, 'q'), 0);
    }
}

static void by_hand(void) {
    const uint8_t most[] = {0xFF, 0xFF, 0xFF, 0xFF, 0xFF, 0xFF, 0xFF, 0xFF, 0xFF, 0x01, 1, 0xFF, 0xFF, 0x3F};
    const uint8_t none[] = {0xFF, 0xFF, 0xFF, 0xFF, 0xFF, 0xFF, 0xFF, 0xFF, 0xFF, 0x01, 1, 0};
    const uint8_t gone[] = {0xFF, 0xFF, 0xFF, 0xFF, 0xFF, 0xFF, 0xFF, 0xFF, 0xFF, 0x01, 0};
    const uint8_t half[] = {0x80, 0x80, 0x80, 0x80, 0x80, 0x80, 0x80, 0x80, 0x80, 0x01, 0};
    memset(body, 'q', sizeof body);
    made("put 7, 5 bytes", 7, 1, 5, (const uint8_t[]){7, 1, 5}, 3);
    made("put 0, 127 bytes", 0, 1, 127, (const uint8_t[]){0, 1, 0x7F}, 3);
    made("put 127, 128 bytes", 127, 1, 128, (const uint8_t[]){0x7F, 1, 0x80, 0x01}, 4);
    made("put 128, 300 bytes", 128, 1, 300, (const uint8_t[]){0x80, 0x01, 1, 0xAC, 0x02}, 5);
    made("put 300, 16,384 bytes", 300, 1, 16384, (const uint8_t[]){0xAC, 0x02, 1, 0x80, 0x80, 0x01}, 6);
    made("put 2^64 - 1, nothing", UINT64_MAX, 1, 0, none, sizeof none);
    made("delete 9", 9, 0, 0, (const uint8_t[]){9, 0}, 2);
    made("delete 300", 300, 0, 0, (const uint8_t[]){0xAC, 0x02, 0}, 3);
    made("delete 2^63", 1ull << 63, 0, 0, half, sizeof half);
    made("delete 2^64 - 1", UINT64_MAX, 0, 0, gone, sizeof gone);
    expect("the longest delete", sizeof gone, MARBLE_BATCH_LENGTH_MAX(0, 0, 1));
    /* the longest put of the greatest id fills the worst case to the last byte */
    size_t len = 0;
    size_t added = marble_batch_put(batch, ROOM - 1, &len, UINT64_MAX, body, sizeof body - 1);
    expect("a byte too little for the longest put", added | len, 0);
    added = marble_batch_put(batch, ROOM, &len, UINT64_MAX, body, sizeof body - 1);
    expect("the longest put", added, ROOM);
    expect("its length", len, ROOM);
    expect("its head", (uint64_t)memcmp(batch, most, sizeof most), 0);
}

static void no_room(void) {
    uint8_t one[] = {'Z'};
    size_t len = 2;
    size_t added = marble_batch_delete(one, 1, &len, 1);
    expect("a length past the room", added, 0);
    len = 1;
    added = marble_batch_put(batch, ROOM, &len, 1, body, SIZE_MAX);
    expect("a size that wraps around", added, 0);
    len = 0;
    added = marble_batch_put(NULL, 0, &len, 1, NULL, 0);
    expect("no buffer", added, 0);
    expect("nothing changed", one[0] != 'Z' || len != 0, 0);
}

/* ---- as the store takes them */
/* one batch: deletes of ids of 3 to 64 bits, two of each, and puts of ids of one group, two and ten */
static void parsed(void) {
    static const uint64_t ids[] = {127, 128, 300, UINT64_MAX - 1};
    static const size_t sizes[] = {127, 128, 300, 0};
    size_t len = 0, added = 1, deletes = 0;
    fresh(defaults(), 2, 256);
    expect("reopen", reopen(), MARBLE_OK);
    for (unsigned k = 2; k < 64; k++)
        for (uint64_t d = 0; d < 2; d++, deletes++) added = added && marble_batch_delete(batch, BATCH_MOST, &len, (1ull << k) + 1 + d);
    for (size_t k = 0; k < 4; k++) added = added && marble_batch_put(batch, BATCH_MOST, &len, ids[k], body, sizes[k]);
    added = added && marble_batch_delete(batch, BATCH_MOST, &len, UINT64_MAX);
    deletes++;
    expect("all of them fit", added != 0, 1);
    expect("written", write_batch(batch, len), MARBLE_OK);
    for (size_t k = 0; k < 4; k++) holds(ids[k], sizes[k], 'q');
    for (unsigned k = 2; k < 64; k++)
        for (uint64_t d = 0; d < 2; d++) deleted((1ull << k) + 1 + d);
    deleted(UINT64_MAX);
    expect("all its ids", w.state->records[0].present_objects, deletes + 4);
    expect("file_size", w.state->records[0].file_size, MARBLE_FILE_SIZE(4, 127 + 128 + 300, deletes));
    /* once more: every id is held, and the files are put in order first */
    expect("written again", write_batch(batch, len), MARBLE_OK);
    expect("none live in the first file", w.state->records[0].live, 0);
    expect("all in the second", w.state->records[1].live, deletes + 4);
}

/* two puts and a delete in a slot that is just long enough, and in one a byte too short */
static void sized(void) {
    for (uint64_t less = 0; less < 2; less++) {
        size_t len = 0, room = MARBLE_BATCH_LENGTH_MAX(2, 200 + 37, 1);
        fresh(small(MARBLE_SLOT_NEED(2, 200 + 37, 1) - less), 2, 8);
        expect("reopen", reopen(), MARBLE_OK);
        size_t added = marble_batch_put(batch, room, &len, 1, body, 200);
        added = added && marble_batch_put(batch, room, &len, 2, body, 37);
        added = added && marble_batch_delete(batch, room, &len, 3);
        expect("all of them fit", added, 1);
        expect("slot room", write_batch(batch, len), less ? MARBLE_E_SLOT_ROOM : MARBLE_OK);
        if (!less) expect("file_size", w.state->records[0].file_size, MARBLE_FILE_SIZE(2, 200 + 37, 1));
    }
}

/* Lines P1 to P3, and where line P10's batch put its object and its delete */
static void located(void) {
    const uint8_t p10[] = {0x07, 1, 1, 0x41, 0x09, 0};
    expect("raw 10", MARBLE_LOCATION_POSITION(10), 5);
    expect("an object", MARBLE_LOCATION_IS_DELETE(10), 0);
    expect("raw 11", MARBLE_LOCATION_POSITION(11), 5);
    expect("a delete", MARBLE_LOCATION_IS_DELETE(11), 1);
    expect("raw 2^64 - 1", MARBLE_LOCATION_POSITION(UINT64_MAX), (1ull << 63) - 1);
    fresh(defaults(), 2, 8);
    expect("reopen", reopen(), MARBLE_OK);
    expect("write", write_batch(p10, sizeof p10), MARBLE_OK);
    expect("load", load(7), MARBLE_OK);
    expect("7 at 1, batch bit", MARBLE_LOCATION_POSITION(out[0]), BATCH_BIT + 1);
    expect("7 is an object", MARBLE_LOCATION_IS_DELETE(out[0]), 0);
    expect("load", load(9), MARBLE_OK);
    expect("9 behind it", MARBLE_LOCATION_POSITION(out[0]), BATCH_BIT + 1 + 21);
    expect("9 is a delete", MARBLE_LOCATION_IS_DELETE(out[0]), 1);
}

void header(void) {
    version();
    by_hand();
    no_room();
    parsed();
    sized();
    located();
}
