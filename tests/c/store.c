#include "harness.h"

/* ---- checks */
static uint64_t done, wrong;

void expect(const char *what, uint64_t got, uint64_t want) {
    done++;
    if (got == want) return;
    wrong++;
    printf("tests/c: %s: got %llu, not %llu\n", what, (unsigned long long)got, (unsigned long long)want);
}

int failed(void) { return wrong != 0; }
uint64_t checks(void) { return done; }

/* ---- guarded places */
#define GUARD 64
#define PAINT 0xA5
#define GUARDED(name, most) static _Alignas(16) uint8_t name[GUARD + (most) + GUARD]
GUARDED(heap_area, HEAP_MOST);
GUARDED(table_area, 8 * MARBLE_TABLE_WORDS(MARBLE_TABLE_MAX));
GUARDED(batch_area, BATCH_MOST);
GUARDED(state_area, sizeof(marble_state));
GUARDED(claims_area, sizeof(marble_claims));
GUARDED(out_area, 4 * GUARD);
GUARDED(totals_area, sizeof(marble_totals));
GUARDED(piece_area, sizeof(marble_piece));
GUARDED(records_area, RECORDS_MOST * sizeof(marble_record));
GUARDED(listing_area, 8 * LISTING_MOST);
GUARDED(report_area, MARBLE_SLOTS_MAX * sizeof(marble_loss));
GUARDED(places_area, 4 * MARBLE_TABLE_MAX);
GUARDED(pieces_area, 4 * MARBLE_TABLE_MAX);
GUARDED(planned_area, sizeof(marble_planned));
GUARDED(request_area, sizeof(marble_request));
GUARDED(stop_area, sizeof(marble_stop));
/* what stood there before a call */
static uint8_t heap_was[HEAP_MOST], table_was[8 * MARBLE_TABLE_WORDS(MARBLE_TABLE_MAX)], state_was[sizeof(marble_state)], claims_was[sizeof(marble_claims)];

store w;
/* how much of the areas is the store's, whatever lengths a test then gives */
static size_t heap_room, table_room, notes_room;
uint64_t out[2], kind;
marble_totals totals;
marble_piece piece;
marble_planned planned;
const marble_fault *listed = (const marble_fault *)(listing_area + GUARD);
const marble_loss *given_up = (const marble_loss *)(report_area + GUARD);
#define BATCH (batch_area + GUARD)
/* the out-parameters, with guards between them too; the third is the kind */
#define OUT(k) ((uint64_t *)(out_area + GUARD + (k) * (8 + GUARD)))
#define KIND OUT(2)
#define TOTALS ((marble_totals *)(totals_area + GUARD))
#define PIECE ((marble_piece *)(piece_area + GUARD))
#define RECORDS ((marble_record *)(records_area + GUARD))
#define LISTING ((uint64_t *)(listing_area + GUARD))
#define REPORT ((marble_loss *)(report_area + GUARD))
#define PLANNED ((marble_planned *)(planned_area + GUARD))
#define REQUEST ((marble_request *)(request_area + GUARD))
#define STOP ((marble_stop *)(stop_area + GUARD))
/* a table and its notes may be long: a guard behind them, not the rest of the area */
#define TABLE_AREA (GUARD + table_room + GUARD)
#define NOTES_AREA (GUARD + notes_room + GUARD)

static void paint(uint8_t *area, size_t len, size_t whole) {
    memset(area, PAINT, GUARD);
    memset(area + GUARD + len, PAINT, whole - GUARD - len);
}

static void guard(const char *call, const char *name, const uint8_t *area, size_t len, size_t whole) {
    size_t touched = 0;
    for (size_t i = 0; i < GUARD; i++) touched += area[i] != PAINT;
    for (size_t i = GUARD + len; i < whole; i++) touched += area[i] != PAINT;
    if (touched) printf("tests/c: %s wrote outside %s\n", call, name);
    expect("bytes touched outside", touched, 0);
}

void fresh(marble_settings s, size_t slots, size_t entries) {
    w.s = s;
    w.state = (marble_state *)(state_area + GUARD);
    w.claims = (marble_claims *)(claims_area + GUARD);
    w.heap = heap_area + GUARD;
    w.heap_len = heap_room = slots * s.slot_bytes;
    w.table = (uint64_t *)(table_area + GUARD);
    w.words = MARBLE_TABLE_WORDS(entries);
    table_room = 8 * w.words;
    w.places = (uint32_t *)(places_area + GUARD);
    w.pieces = (uint32_t *)(pieces_area + GUARD);
    w.places_len = w.pieces_len = MARBLE_NOTES(entries);
    notes_room = 4 * w.places_len;
    memset(w.state, 0, sizeof *w.state);
    memset(w.claims, 0, sizeof *w.claims);
    memset(w.heap, 0, w.heap_len);
    memset(w.table, 0, table_room);
    paint(heap_area, w.heap_len, sizeof heap_area);
    paint(table_area, table_room, TABLE_AREA);
    paint(places_area, notes_room, NOTES_AREA);
    paint(pieces_area, notes_room, NOTES_AREA);
    paint(state_area, sizeof *w.state, sizeof state_area);
    paint(claims_area, sizeof *w.claims, sizeof claims_area);
    paint(totals_area, sizeof totals, sizeof totals_area);
    paint(piece_area, sizeof piece, sizeof piece_area);
    paint(planned_area, sizeof planned, sizeof planned_area);
    paint(request_area, sizeof *REQUEST, sizeof request_area);
    paint(stop_area, sizeof *STOP, sizeof stop_area);
    memset(out_area, PAINT, sizeof out_area);
}

marble_settings defaults(void) {
    const marble_settings s = MARBLE_DEFAULTS;
    return s;
}

marble_settings small(uint64_t slot_bytes) {
    marble_settings s = defaults();
    s.slot_bytes = slot_bytes;
    return s;
}

/* ---- stack: painted before each call, looked at behind it */
#define DEPTH (256 * 1024)
enum { REOPEN, WRITE, READ, READ_THROUGH, CLAIM, RELEASE, PRUNE, PLAN, REWRITE, NIGHTLY, COUNTS, UNSYNCED, SYNC, CHECK, SALVAGE, LOAD, STORE, COMPARE, GREATER, CALLS };
static const char *const names[CALLS] = {"reopen", "write", "read", "read_through", "claim", "release", "prune", "plan", "rewrite", "nightly", "counts", "unsynced", "sync", "check", "salvage", "load", "store", "compare_and_store", "store_if_greater"};
/* a call that needs more than the header says fails here */
static const size_t allowed[CALLS] = {
    MARBLE_STACK_REOPEN, MARBLE_STACK_WRITE,  MARBLE_STACK_READ,  MARBLE_STACK_READ_THROUGH, MARBLE_STACK_CLAIM, MARBLE_STACK_RELEASE, MARBLE_STACK_PRUNE, MARBLE_STACK_PLAN,
    MARBLE_STACK_REWRITE, MARBLE_STACK_NIGHTLY, MARBLE_STACK_COUNTS, MARBLE_STACK_UNSYNCED, MARBLE_STACK_SYNC, MARBLE_STACK_CHECK,  MARBLE_STACK_SALVAGE, MARBLE_STACK_TABLE, MARBLE_STACK_TABLE, MARBLE_STACK_TABLE, MARBLE_STACK_TABLE,
};
static size_t used[CALLS];

/* ---- copies of the file map, and of a reopening's labels: the archive's memcpy is this one, so each is counted in a run. Handing it in
   and out is a loop over words that is no copy of this kind. docs/ARCHITECTURE.md, "Stack and copies", says what each is for; maintenance.c has those of plan, rewrite and the nightly job by groups and files. */
/* 256 labels, five numbers each: a file map is longer */
#define LABELS_BYTES (256 * 5 * sizeof(uint64_t))
static const size_t copies_allowed[CALLS] = {13, 7, 0, 0, 0, 0, 1, 8, 82, 85, 1, 0, 0, 1, 0, 0, 0, 0, 0};
static size_t copies, copied[CALLS], last_copied;

void *memcpy(void *to, const void *from, size_t len) {
    void *at = to;
    copies += len >= LABELS_BYTES;
    __asm__ volatile("rep movsb" : "+D"(at), "+S"(from), "+c"(len) : : "memory");
    return to;
}

/* Both from the same frame, so that the bytes are the same ones: painted, and how deep the paint is gone. */
__attribute__((noinline)) static void stack_below(int call, int painting) {
    volatile uint8_t below[DEPTH];
    size_t i = 0;
    if (painting) {
        for (; i < DEPTH; i++) below[i] = PAINT;
        copies = 0;
        return;
    }
    while (i < DEPTH && below[i] == PAINT) i++;
    size_t deep = (size_t)((uint8_t *)__builtin_frame_address(0) + 16 - (uint8_t *)&below[i]);
    if (used[call] < deep) used[call] = deep;
    last_copied = copies;
    if (copied[call] < copies) copied[call] = copies;
    expect("deep enough", i > 0, 1);
}

uint64_t copies_made(void) { return last_copied; }

void costs_told(void) {
    for (int k = 0; k < CALLS; k++) {
        printf("marble_%s: stack %llu of %llu, copies of the file map %llu of %llu\n", names[k], (unsigned long long)used[k], (unsigned long long)allowed[k], (unsigned long long)copied[k], (unsigned long long)copies_allowed[k]);
        if (used[k] > allowed[k]) printf("tests/c: marble_%s needs more stack than the header says\n", names[k]);
        if (copied[k] > copies_allowed[k]) printf("tests/c: marble_%s copies the file map more often than docs/ARCHITECTURE.md says\n", names[k]);
        expect("stack within the figure", used[k] <= allowed[k], 1);
        expect("copies within the figure", copied[k] <= copies_allowed[k], 1);
    }
}

/* ---- before and behind a call */
static void before(void) {
    memcpy(heap_was, heap_area + GUARD, heap_room);
    memcpy(table_was, table_area + GUARD, table_room);
    memcpy(state_was, w.state, sizeof *w.state);
    memcpy(claims_was, w.claims, sizeof *w.claims);
    *OUT(0) = *OUT(1) = *KIND = 77;
}

static void same(const char *call, const char *name, const void *now, const void *was, size_t len) {
    int differs = len && memcmp(now, was, len) != 0;
    if (differs) printf("tests/c: %s changed %s\n", call, name);
    expect("changed", differs, 0);
}

enum { HEAP = 1, TABLE = 2, STATE = 4, CLAIMS = 8, ALL = 15 };

static void behind(int call, unsigned kept) {
    const char *name = names[call];
    guard(name, "heap", heap_area, heap_room, sizeof heap_area);
    guard(name, "table", table_area, table_room, TABLE_AREA);
    guard(name, "state", state_area, sizeof *w.state, sizeof state_area);
    guard(name, "claims", claims_area, sizeof *w.claims, sizeof claims_area);
    guard(name, "totals", totals_area, sizeof totals, sizeof totals_area);
    guard(name, "piece", piece_area, sizeof piece, sizeof piece_area);
    guard(name, "first out-parameter", out_area, 8, 8 + 2 * GUARD);
    guard(name, "second out-parameter", out_area + 8 + GUARD, 8, 8 + 2 * GUARD);
    guard(name, "the kind", out_area + 2 * (8 + GUARD), 8, 8 + 2 * GUARD);
    if (kept & HEAP) same(name, "heap", heap_area + GUARD, heap_was, heap_room);
    if (kept & TABLE) same(name, "table", table_area + GUARD, table_was, table_room);
    if (kept & STATE) same(name, "state", w.state, state_was, sizeof *w.state);
    if (kept & CLAIMS) same(name, "claims", w.claims, claims_was, sizeof *w.claims);
    out[0] = *OUT(0);
    out[1] = *OUT(1);
    kind = *KIND;
}

/* ---- the calls */
uint64_t reopen(void) {
    before();
    stack_below(REOPEN, 1);
    uint64_t n = marble_reopen(w.s, w.state, w.claims, w.heap, w.heap_len, w.table, w.words);
    stack_below(REOPEN, 0);
    behind(REOPEN, n == MARBLE_E_LIMITS ? ALL : HEAP);
    if (n != MARBLE_E_LIMITS) {
        const marble_claims none = {{0, 0, 0, 0}};
        same("reopen", "no claims", w.claims, &none, sizeof none);
    }
    if (n != MARBLE_E_LIMITS && n != MARBLE_OK) {
        uint64_t left = 0;
        for (size_t i = 0; i < w.words; i++) left |= w.table[i];
        for (size_t i = 0; i < MARBLE_SLOTS_MAX; i++) {
            const marble_record *r = &w.state->records[i];
            left |= r->lsn | r->trailer_offset | r->file_size | r->present_objects | r->generation | r->live | r->synced;
        }
        expect("refused reopening: zeroed", left, 0);
        expect("refused reopening: next position", w.state->next_position, 1);
    }
    return n;
}

uint64_t write_batch(const uint8_t *batch, size_t len) {
    paint(batch_area, len, sizeof batch_area);
    if (len) memcpy(BATCH, batch, len);
    before();
    stack_below(WRITE, 1);
    uint64_t n = marble_write(w.s, w.state, w.heap, w.heap_len, w.table, w.words, len ? BATCH : NULL, len);
    stack_below(WRITE, 0);
    behind(WRITE, n == MARBLE_OK && len ? CLAIMS : ALL);
    guard("write", "batch", batch_area, len, sizeof batch_area);
    same("write", "batch", BATCH, batch, len);
    return n;
}

uint64_t read_id(uint64_t id) {
    before();
    stack_below(READ, 1);
    uint64_t n = marble_read(w.s, w.state, w.heap, w.heap_len, w.table, w.words, id, KIND, OUT(0), OUT(1));
    stack_below(READ, 0);
    behind(READ, ALL);
    if (n != MARBLE_OK) expect("refused read: kind 0, no part", kind | out[0] | out[1], 0);
    return n;
}

uint64_t read_through(const uint8_t *batch, size_t len, uint64_t id) {
    paint(batch_area, len, sizeof batch_area);
    if (len) memcpy(BATCH, batch, len);
    before();
    stack_below(READ_THROUGH, 1);
    uint64_t n = marble_read_through(w.s, w.state, w.heap, w.heap_len, w.table, w.words, len ? BATCH : NULL, len, id, PIECE);
    stack_below(READ_THROUGH, 0);
    behind(READ_THROUGH, ALL);
    guard("read_through", "batch", batch_area, len, sizeof batch_area);
    same("read_through", "batch", BATCH, batch, len);
    piece = *PIECE;
    expect("one of the three kinds", piece.kind <= MARBLE_OBJECT && piece.of_batch <= 1, 1);
    expect("within its buffer", piece.offset + piece.size <= (piece.of_batch ? len : w.heap_len), 1);
    if (n != MARBLE_OK || piece.kind != MARBLE_OBJECT) expect("no part", piece.of_batch | piece.offset | piece.size, 0);
    if (n != MARBLE_OK) expect("refused: kind 0", piece.kind, 0);
    return n;
}

uint64_t claim(uint64_t slot) {
    before();
    stack_below(CLAIM, 1);
    uint64_t n = marble_claim(w.s, w.state, w.claims, w.heap, w.heap_len, w.table, w.words, slot);
    stack_below(CLAIM, 0);
    behind(CLAIM, n == MARBLE_OK ? HEAP | TABLE | STATE : ALL);
    return n;
}

uint64_t release(uint64_t slot) {
    before();
    stack_below(RELEASE, 1);
    uint64_t n = marble_release(w.s, w.state, w.claims, w.heap, w.heap_len, w.table, w.words, slot);
    stack_below(RELEASE, 0);
    behind(RELEASE, n == MARBLE_OK ? HEAP | TABLE | STATE : ALL);
    return n;
}

uint64_t prune(void) {
    before();
    stack_below(PRUNE, 1);
    uint64_t n = marble_prune(w.s, w.state, w.claims, w.heap, w.heap_len, w.table, w.words);
    stack_below(PRUNE, 0);
    behind(PRUNE, n == MARBLE_OK ? TABLE | CLAIMS : ALL);
    return n;
}

/* the notes before one of the three calls: anything; behind it: zeros, on 1 as they were */
#define NOTED 0xC3

static void notes_before(void) {
    memset(places_area + GUARD, NOTED, notes_room);
    memset(pieces_area + GUARD, NOTED, notes_room);
}

static void notes_behind(int call, const char *which, const uint8_t *area, size_t lent, uint64_t n) {
    size_t other = 0;
    guard(names[call], which, area, notes_room, NOTES_AREA);
    for (size_t i = 0; i < notes_room; i++) other += area[GUARD + i] != (n == MARBLE_E_LIMITS || i >= 4 * lent ? NOTED : 0);
    if (other) printf("tests/c: %s leaves other notes in %s\n", names[call], which);
    expect("notes left", other, 0);
}

static void noted(int call, uint64_t n) {
    notes_behind(call, "places", places_area, w.places_len, n);
    notes_behind(call, "pieces", pieces_area, w.pieces_len, n);
    guard(names[call], "the plan", planned_area, sizeof planned, sizeof planned_area);
    guard(names[call], "the request", request_area, sizeof *REQUEST, sizeof request_area);
    guard(names[call], "the stop", stop_area, sizeof *STOP, sizeof stop_area);
}

#define NOTES w.places_len ? w.places : NULL, w.places_len, w.pieces_len ? w.pieces : NULL, w.pieces_len

uint64_t plan(void) {
    memset(PLANNED, PAINT, sizeof *PLANNED);
    notes_before();
    before();
    stack_below(PLAN, 1);
    uint64_t n = marble_plan(w.s, w.state, w.claims, w.heap, w.heap_len, w.table, w.words, NOTES, PLANNED);
    stack_below(PLAN, 0);
    behind(PLAN, ALL);
    noted(PLAN, n);
    planned = *PLANNED;
    expect("refused with 1 only", n == MARBLE_OK || n == MARBLE_E_LIMITS, 1);
    if (n != MARBLE_OK) {
        static const marble_planned none;
        same("plan", "zeros", &planned, &none, sizeof none);
    }
    return n;
}

uint64_t rewrite(uint64_t generation, uint64_t mark, uint64_t count) {
    const marble_request asked = {generation, mark, count, 77};
    *REQUEST = asked;
    notes_before();
    before();
    stack_below(REWRITE, 1);
    uint64_t n = marble_rewrite(w.s, w.state, w.claims, w.heap, w.heap_len, w.table, w.words, NOTES, REQUEST);
    stack_below(REWRITE, 0);
    behind(REWRITE, n == MARBLE_OK && REQUEST->moved ? CLAIMS : ALL);
    noted(REWRITE, n);
    same("rewrite", "what is asked", REQUEST, &asked, sizeof asked - sizeof asked.moved);
    out[0] = REQUEST->moved;
    if (n != MARBLE_OK) expect("refused rewrite: none moved", out[0], 0);
    return n;
}

uint64_t maintain(void) {
    memset(STOP, PAINT, sizeof *STOP);
    notes_before();
    before();
    stack_below(NIGHTLY, 1);
    uint64_t n = marble_nightly(w.s, w.state, w.claims, w.heap, w.heap_len, w.table, w.words, NOTES, STOP);
    stack_below(NIGHTLY, 0);
    behind(NIGHTLY, n == MARBLE_E_LIMITS ? ALL : CLAIMS);
    noted(NIGHTLY, n);
    out[0] = STOP->generation;
    out[1] = STOP->moved;
    if (n == MARBLE_E_LIMITS) expect("refused with 1: 0 and 0", out[0] | out[1], 0);
    return n;
}

uint64_t counts(void) {
    before();
    stack_below(COUNTS, 1);
    uint64_t n = marble_counts(w.s, w.state, w.heap, w.heap_len, w.table, w.words, TOTALS);
    stack_below(COUNTS, 0);
    behind(COUNTS, ALL);
    totals = *TOTALS;
    if (n != MARBLE_OK) expect("refused counts: zeros", totals.files | totals.bytes | totals.present | totals.live, 0);
    return n;
}

/* the list is lent from a guarded place */
uint64_t unsynced(const marble_record *records, size_t count) {
    paint(records_area, count * sizeof *records, sizeof records_area);
    if (count) memcpy(RECORDS, records, count * sizeof *records);
    before();
    stack_below(UNSYNCED, 1);
    uint64_t n = marble_unsynced(count ? RECORDS : NULL, count, OUT(0));
    stack_below(UNSYNCED, 0);
    behind(UNSYNCED, ALL);
    guard("unsynced", "records", records_area, count * sizeof *records, sizeof records_area);
    same("unsynced", "records", RECORDS, records, count * sizeof *records);
    if (n != MARBLE_OK) expect("refused: none", out[0], 0);
    return n;
}

/* and comes back from there */
uint64_t sync(marble_record *records, size_t count) {
    paint(records_area, count * sizeof *records, sizeof records_area);
    if (count) memcpy(RECORDS, records, count * sizeof *records);
    before();
    stack_below(SYNC, 1);
    uint64_t n = marble_sync(count ? RECORDS : NULL, count, OUT(0));
    stack_below(SYNC, 0);
    behind(SYNC, ALL);
    guard("sync", "records", records_area, count * sizeof *records, sizeof records_area);
    if (n != MARBLE_OK) expect("refused: no mark changed", out[0], 0);
    if (n != MARBLE_OK || !out[0]) same("sync", "records", RECORDS, records, count * sizeof *records);
    if (count) memcpy(records, RECORDS, count * sizeof *records);
    return n;
}

uint64_t check(size_t words) {
    const size_t lines = words / 4;
    memset(listing_area, PAINT, sizeof listing_area);
    before();
    stack_below(CHECK, 1);
    uint64_t n = marble_check(w.s, w.heap, w.heap_len, w.table, w.words, words ? LISTING : NULL, words, OUT(0));
    stack_below(CHECK, 0);
    behind(CHECK, ALL);
    if (n != MARBLE_OK) expect("refused check: no faults", out[0], 0);
    guard("check", "the lines", listing_area, 32 * (out[0] < lines ? out[0] : lines), sizeof listing_area);
    return n;
}

/* of the heap only the first label byte of the slots told changes, to 0 */
uint64_t salvage(void) {
    memset(report_area, PAINT, sizeof report_area);
    before();
    stack_below(SALVAGE, 1);
    uint64_t n = marble_salvage(w.s, w.heap, w.heap_len, w.table, w.words, REPORT, OUT(0));
    stack_below(SALVAGE, 0);
    behind(SALVAGE, TABLE | STATE | CLAIMS);
    if (n != MARBLE_OK) expect("refused salvage: nothing given up", out[0], 0);
    guard("salvage", "the lines", report_area, sizeof(marble_loss) * (size_t)out[0], sizeof report_area);
    for (uint64_t k = 0; k < out[0]; k++) heap_was[given_up[k].slot * w.s.slot_bytes] = 0;
    same("salvage", "another byte of the heap", heap_area + GUARD, heap_was, heap_room);
    return n;
}

uint64_t load(uint64_t id) {
    before();
    stack_below(LOAD, 1);
    uint64_t n = marble_load(w.table, w.words, id, KIND, OUT(0));
    stack_below(LOAD, 0);
    behind(LOAD, ALL);
    if (n != MARBLE_OK) expect("refused load: kind 0, location 0", kind | out[0], 0);
    return n;
}

uint64_t store_at(uint64_t id, uint64_t location) {
    before();
    stack_below(STORE, 1);
    uint64_t n = marble_store(w.table, w.words, id, location);
    stack_below(STORE, 0);
    behind(STORE, n == MARBLE_OK ? HEAP | STATE | CLAIMS : ALL);
    return n;
}

uint64_t compare_and_store(uint64_t id, uint64_t old, uint64_t location) {
    before();
    stack_below(COMPARE, 1);
    uint64_t n = marble_compare_and_store(w.table, w.words, id, old, location, OUT(0));
    stack_below(COMPARE, 0);
    behind(COMPARE, n == MARBLE_OK && *OUT(0) == 0 ? HEAP | STATE | CLAIMS : ALL);
    if (n != MARBLE_OK) expect("refused compare: 0", out[0], 0);
    return n;
}

uint64_t store_if_greater(uint64_t id, uint64_t location) {
    before();
    stack_below(GREATER, 1);
    uint64_t n = marble_store_if_greater(w.table, w.words, id, location, OUT(0));
    stack_below(GREATER, 0);
    behind(GREATER, n == MARBLE_OK && *OUT(0) < location ? HEAP | STATE | CLAIMS : ALL);
    if (n != MARBLE_OK) expect("refused store-if-greater: 0", out[0], 0);
    return n;
}

/* ---- batches of one operation */
uint64_t put(uint64_t id, size_t len, uint8_t b) {
    static uint8_t batch[BATCH_MOST];
    size_t n = groups(batch, id);
    batch[n++] = 1;
    n += groups(batch + n, len);
    memset(batch + n, b, len);
    return write_batch(batch, n + len);
}

uint64_t drop(uint64_t id) {
    uint8_t batch[16];
    size_t n = groups(batch, id);
    batch[n++] = 0;
    return write_batch(batch, n);
}

/* load and read of an id tell this kind */
static void told(uint64_t id, uint64_t want) {
    expect("load", load(id), MARBLE_OK);
    expect("kind loaded", kind, want);
    expect("a location", out[0] != 0, want != MARBLE_NEVER_WRITTEN);
    expect("its delete mark", MARBLE_LOCATION_IS_DELETE(out[0]), want == MARBLE_DELETED);
    expect("read", read_id(id), MARBLE_OK);
    expect("kind read", kind, want);
}

void holds(uint64_t id, size_t len, uint8_t b) {
    told(id, MARBLE_OBJECT);
    expect("found", out[0] != 0, 1);
    expect("length read", out[1], len);
    expect("within the heap", out[0] + out[1] <= w.heap_len, 1);
    uint64_t other = 0;
    for (size_t i = 0; i < len && out[0] + i < w.heap_len; i++) other += w.heap[out[0] + i] != b;
    expect("other bytes read", other, 0);
}

void deleted(uint64_t id) {
    told(id, MARBLE_DELETED);
    expect("no part", out[0] | out[1], 0);
}

void never_written(uint64_t id) {
    told(id, MARBLE_NEVER_WRITTEN);
    expect("no part", out[0] | out[1], 0);
}

/* ---- bytes */
uint32_t crc(const uint8_t *bytes, size_t len) {
    uint32_t c = 0xFFFFFFFF;
    for (size_t i = 0; i < len; i++) {
        c ^= bytes[i];
        for (int k = 0; k < 8; k++) c = c & 1 ? c >> 1 ^ 0xEDB88320 : c >> 1;
    }
    return ~c;
}

size_t groups(uint8_t *to, uint64_t n) {
    size_t i = 0;
    for (; n >= 128; n >>= 7) to[i++] = (uint8_t)(n | 128);
    to[i++] = (uint8_t)n;
    return i;
}

void le(uint8_t *to, size_t width, uint64_t n) {
    for (size_t i = 0; i < width; i++, n >>= 8) to[i] = (uint8_t)n;
}

uint64_t from_le(const uint8_t *from, size_t width) {
    uint64_t n = 0;
    while (width--) n = n << 8 | from[width];
    return n;
}

size_t object(uint8_t *to, uint64_t id, const uint8_t *body, size_t len) {
    static uint8_t summed[16 + BATCH_MOST];
    le(summed, 8, len);
    le(summed + 8, 8, id);
    if (len) memcpy(summed + 16, body, len);
    le(to, 4, crc(summed, 16 + len));
    le(to + 4, 8, id);
    le(to + 12, 8, len);
    if (len) memcpy(to + 20, body, len);
    return 20 + len;
}

file sound(uint64_t lsn, uint64_t generation, const uint8_t *objects, uint64_t len, const entry *entries, uint64_t count) {
    file f = {lsn, len, len + 12 + 16 * count, count, generation, count, entries, count, objects};
    return f;
}

void file_in(size_t slot, file f) {
    uint8_t *label = w.heap + slot * w.s.slot_bytes, *bytes = label + MARBLE_LABEL_BYTES;
    memset(label, 0, MARBLE_LABEL_BYTES);
    size_t n = groups(label, f.lsn);
    n += groups(label + n, f.trailer_offset);
    n += groups(label + n, f.file_size);
    n += groups(label + n, f.present);
    groups(label + n, f.generation);
    if (f.objects) memcpy(bytes, f.objects, f.trailer_offset);
    uint8_t *trailer = bytes + f.trailer_offset;
    le(trailer + 4, 8, f.count);
    for (uint64_t i = 0; i < f.stored; i++) {
        le(trailer + 12 + 16 * i, 8, f.entries[i].id);
        le(trailer + 20 + 16 * i, 8, f.entries[i].raw);
    }
    if (f.file_size >= f.trailer_offset + 4) le(trailer, 4, crc(trailer + 4, f.file_size - f.trailer_offset - 4));
}
