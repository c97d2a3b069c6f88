/* Request P3: reads through a batch that is not written yet. */
#include "harness.h"

static uint8_t batch[BATCH_MOST];
static size_t len;

static void adds(uint64_t id, const char *body, size_t size) {
    expect("added", marble_batch_put(batch, sizeof batch, &len, id, body, size) != 0, 1);
}

static void drops(uint64_t id) { expect("added", marble_batch_delete(batch, sizeof batch, &len, id) != 0, 1); }

/* the bytes are at that offset, of the heap or of the batch */
static void shows(uint64_t id, uint64_t of_batch, const char *body, size_t size) {
    expect("read through", read_through(batch, len, id), MARBLE_OK);
    expect("an object", piece.kind, MARBLE_OBJECT);
    expect("whose", piece.of_batch, of_batch);
    expect("length", piece.size, size);
    const uint8_t *from = (piece.of_batch ? batch : w.heap) + piece.offset;
    expect("other bytes", size != 0 && piece.size == size && memcmp(from, body, size) != 0, 0);
}

static void is_kind(uint64_t id, uint64_t kind) {
    expect("read through", read_through(batch, len, id), MARBLE_OK);
    expect("kind", piece.kind, kind);
}

/* what a read through the batch shows of each id is what a read gives once it is written */
static void foreseen(uint64_t most) {
    static marble_piece was[16];
    static uint8_t bodies[16][64];
    for (uint64_t id = 0; id < most; id++) {
        expect("read through", read_through(batch, len, id), MARBLE_OK);
        was[id] = piece;
        if (piece.size) memcpy(bodies[id], (piece.of_batch ? batch : w.heap) + piece.offset, piece.size);
    }
    expect("written", write_batch(batch, len), MARBLE_OK);
    for (uint64_t id = 0; id < most; id++) {
        expect("read", read_id(id), MARBLE_OK);
        expect("the kind foreseen", kind, was[id].kind);
        expect("the length foreseen", out[1], was[id].size);
        expect("other bytes", out[1] != 0 && memcmp(w.heap + out[0], bodies[id], out[1]) != 0, 0);
    }
}

static void edited(void) {
    fresh(defaults(), 8, 16);
    expect("reopen", reopen(), MARBLE_OK);
    len = 0;
    is_kind(1, MARBLE_NEVER_WRITTEN);
    expect("put", put(1, 3, 'a'), MARBLE_OK);
    expect("put", put(2, 4, 'b'), MARBLE_OK);
    expect("put", put(3, 5, 'c'), MARBLE_OK);
    expect("deleted", drop(4), MARBLE_OK);
    shows(1, 0, "aaa", 3); /* no batch yet: the heap's own */
    is_kind(4, MARBLE_DELETED);
    adds(2, "new", 3);
    drops(3);
    adds(4, "", 0);
    adds(5, "first", 5);
    drops(5);
    adds(5, "last", 4);
    adds(6, "x", 1);
    drops(6);
    drops(7);
    shows(1, 0, "aaa", 3);
    shows(2, 1, "new", 3);
    is_kind(3, MARBLE_DELETED);
    shows(4, 1, "", 0); /* a put of no bytes is an object, and the batch's */
    shows(5, 1, "last", 4);
    is_kind(6, MARBLE_DELETED);
    is_kind(7, MARBLE_DELETED);
    is_kind(8, MARBLE_NEVER_WRITTEN);
    foreseen(16);
}

/* also what a write would refuse is shown, but for a malformed batch */
static void refused(void) {
    static char large[1024];
    fresh(defaults(), 1, 2);
    expect("reopen", reopen(), MARBLE_OK);
    expect("put", put(1, 3, 'a'), MARBLE_OK);
    len = 0;
    adds(1, large, sizeof large);
    shows(1, 1, large, sizeof large);
    expect("a write refuses it", write_batch(batch, len), MARBLE_E_OBJECT_SIZE);
    batch[len++] = 9; /* an id with no tag behind it */
    expect("malformed, of an id in it", read_through(batch, len, 1), MARBLE_E_BATCH_BYTES);
    expect("malformed, of an id that is not", read_through(batch, len, 2), MARBLE_E_BATCH_BYTES);
    w.heap[MARBLE_LABEL_BYTES + 20] ^= 1; /* the body of 1 */
    len = 0;
    expect("a read's own refusal", read_through(batch, len, 1), MARBLE_E_CHECKSUM);
    drops(1);
    is_kind(1, MARBLE_DELETED); /* the batch decides, whatever the heap has */
    len = 0;
    adds(1, "new", 3);
    shows(1, 1, "new", 3);
    w.state->next_position = 0;
    batch[len++] = 9;
    expect("1 before 2", read_through(batch, len, 1), MARBLE_E_LIMITS);
}

void through(void) {
    edited();
    refused();
}
