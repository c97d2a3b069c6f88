/* How long the calls take at several sizes: times [NUMBER ..], the rows of these numbers from 0 on, or all where none is given. A line for each
   size of a row, by tabs: name, what the size counts, size, nanoseconds of one call, and of the same work in plain C (plain.h).
   Processor time, the least of five samples or, until they took 12 ms, of more: one call first, then as many as take a millisecond, where calls
   can follow each other without the store put back as it was. Every call must be accepted, and plain C must answer the same and leave the same
   store. tests/growth.py builds it and judges what it prints. */
#include "marble.h"

int printf(const char *, ...);
/* the build is freestanding, where these would be functions like any other; a host's compiler knows them */
#define memcpy __builtin_memcpy
#define memmove __builtin_memmove
#define memset __builtin_memset
int memcmp(const void *, const void *, size_t);
unsigned long long strtoull(const char *, char **, int);
void qsort(void *, size_t, size_t, int (*)(const void *, const void *));
_Noreturn void exit(int);
struct timespec {
    long seconds, nanoseconds;
};
int clock_gettime(int, struct timespec *);
#define CLOCK_PROCESS_CPUTIME_ID 2

#define SAMPLES 5
#define SAMPLE_NANOSECONDS 1e6
#define ALL_NANOSECONDS 12e6

/* ---- the store */
#define SLOT_MOST 131072
#define BODY_MOST 65000
static uint8_t heap[MARBLE_SLOTS_MAX * SLOT_MOST], heap_was[sizeof heap], batch[1 << 20], body[BODY_MOST];
static uint64_t table[MARBLE_TABLE_WORDS(MARBLE_TABLE_MAX)], table_was[sizeof table / 8];
static marble_state state, state_was;
static marble_claims claims;
static uint32_t places[MARBLE_NOTES(MARBLE_TABLE_MAX)], pieces[MARBLE_NOTES(MARBLE_TABLE_MAX)];
static marble_settings settings;
static size_t heap_len, words, batch_len;
/* what the last call answered */
static union {
    uint64_t word[4];
    marble_piece piece;
    marble_totals totals;
    marble_stop stop;
} answer;

static void accepted(const char *call, uint64_t number) {
    if (number == MARBLE_OK) return;
    printf("times: a %s is refused with %llu\n", call, (unsigned long long)number);
    exit(1);
}

static void same(const char *what, uint64_t got, uint64_t want) {
    if (got == want) return;
    printf("times: %s: %llu, not %llu\n", what, (unsigned long long)got, (unsigned long long)want);
    exit(1);
}

static void reopened(void) {
    uint64_t n = marble_reopen(settings, &state, &claims, heap, heap_len, table, words);
    accepted("reopening", n);
}

/* a store of 256 empty slots */
static void fresh(uint64_t slot_bytes, size_t entries) {
    const marble_settings defaults = MARBLE_DEFAULTS;
    settings = defaults;
    settings.slot_bytes = slot_bytes;
    settings.max_object_size = MARBLE_MAX_OBJECT_SIZE_MAX;
    heap_len = MARBLE_SLOTS_MAX * slot_bytes;
    words = MARBLE_TABLE_WORDS(entries);
    for (size_t at = 0; at < heap_len; at += slot_bytes) heap[at] = 0;
    batch_len = 0;
    reopened();
}

static void put(uint64_t id, size_t len) { same("room in the batch", marble_batch_put(batch, sizeof batch, &batch_len, id, body, len) != 0, 1); }

static void drop(uint64_t id) { same("room in the batch", marble_batch_delete(batch, sizeof batch, &batch_len, id) != 0, 1); }

static void written(void) {
    uint64_t n = marble_write(settings, &state, heap, heap_len, table, words, batch, batch_len);
    accepted("write", n);
}

/* ids 1 to n in files of so many: which file has which */
enum order { ASCENDING, IN_TURN, DESCENDING };

static void files(uint64_t ids, uint64_t in_a_file, enum order order, int puts) {
    const uint64_t count = (ids + in_a_file - 1) / in_a_file;
    for (uint64_t f = 0; f < count; f++) {
        const uint64_t block = order == DESCENDING ? count - 1 - f : f;
        batch_len = 0;
        for (uint64_t k = 0; k < in_a_file; k++) {
            const uint64_t id = 1 + (order == IN_TURN ? k * count + f : block * in_a_file + k);
            if (id > ids) break;
            if (puts) put(id, 0);
            else drop(id);
        }
        written();
    }
    batch_len = 0;
}

/* ---- the rows: how the store and the batch are prepared, and the call */
/* a table of 1,024 with 1,000 ids; the batch has the operations */
static void held(uint64_t operations, uint64_t step) {
    fresh(65536, 1024);
    files(1000, 1000, ASCENDING, 1);
    for (uint64_t k = 0; k < operations; k++) put(1 + k * step % operations, 1);
}

static void held_rising(uint64_t operations) { held(operations, 1); }
/* 7,919 is prime, so every id comes once */
static void held_in_any_order(uint64_t operations) { held(operations, 7919); }
/* from 1 the ids fall */
static void held_falling(uint64_t operations) { held(operations, operations - 1); }

static void new_rising(uint64_t operations) {
    fresh(65536, 65536);
    for (uint64_t k = 0; k < operations; k++) put(1 + k, 1);
}

static void new_between(uint64_t operations) {
    fresh(65536, 65536);
    for (uint64_t f = 0; f < 10; f++) {
        batch_len = 0;
        for (uint64_t k = 0; k < 4000; k++) drop(2 * (4000 * f + k));
        written();
    }
    batch_len = 0;
    for (uint64_t k = 0; k < operations; k++) put(80000 / operations * k + 1, 1);
}

static void write(uint64_t operations) {
    (void)operations;
    written();
}

/* the least table of 1,024 times a power of two */
static size_t room_for(uint64_t ids) {
    size_t entries = 1024;
    while (entries < ids) entries *= 2;
    return entries;
}

/* the ids deleted, in files of so many; a reopening finds every location again */
static void reopening_of(uint64_t ids, uint64_t in_a_file, enum order order, size_t entries) {
    fresh(65536, entries);
    files(ids, in_a_file, order, 0);
    memcpy(table_was, table, 8 * words);
    reopened();
    same("a table other than before the reopening", memcmp(table, table_was, 8 * words) != 0, 0);
    same("ids in the table", MARBLE_TABLE_LOCATION(table, ids - 1) != 0, 1);
}

static void ascending(uint64_t ids) { reopening_of(ids, 4000, ASCENDING, room_for(ids)); }
static void in_turn(uint64_t ids) { reopening_of(ids, 4000, IN_TURN, room_for(ids)); }
static void descending(uint64_t ids) { reopening_of(ids, 4000, DESCENDING, room_for(ids)); }
static void many_files(uint64_t ids) { reopening_of(ids, 100, ASCENDING, room_for(ids)); }
static void wide(uint64_t entries) { reopening_of(1000, 4000, ASCENDING, entries); }

static void reopening(uint64_t ids) {
    (void)ids;
    reopened();
}

/* puts of no bytes */
static void ascending_puts(uint64_t ids) {
    fresh(65536, room_for(ids));
    files(ids, 1800, ASCENDING, 1);
}

static void descending_puts(uint64_t ids) {
    fresh(65536, room_for(ids));
    files(ids, 1800, DESCENDING, 1);
}

/* each id in two files, and no more room in the table than for the ids */
static void put_twice(uint64_t ids) {
    fresh(65536, ids);
    files(ids, 1800, DESCENDING, 1);
    files(ids, 1800, DESCENDING, 1);
}

static void check(uint64_t ids) {
    uint64_t n = marble_check(settings, heap, heap_len, table, words, NULL, 0, &answer.word[0]);
    (void)ids;
    accepted("check", n);
    same("faults", answer.word[0], 0);
}

static marble_loss report[MARBLE_SLOTS_MAX];

static void salvage(uint64_t ids) {
    uint64_t n = marble_salvage(settings, heap, heap_len, table, words, report, &answer.word[0]);
    (void)ids;
    accepted("salvage", n);
    same("slots given up", answer.word[0], 0);
}

/* a table of 65,536; files of 250 objects of one byte, one of them deleted since */
static void deleted_from(uint64_t ids) {
    fresh(32768, 65536);
    settings.file_compaction_percent = 100;
    settings.target_file_size = 16384;
    settings.small_file_cleanup_threshold = MARBLE_SMALL_FILE_CLEANUP_THRESHOLD_MAX;
    reopened();
    for (uint64_t first = 1; first <= ids; first += 250) {
        batch_len = 0;
        for (uint64_t k = 0; k < 250; k++) put(first + k, 1);
        written();
    }
    batch_len = 0;
    for (uint64_t first = 1; first <= ids; first += 250) drop(first);
    written();
}

static void maintenance(uint64_t ids) {
    const size_t notes = words / 2;
    uint64_t n = marble_nightly(settings, &state, &claims, heap, heap_len, table, words, places, notes, pieces, notes, &answer.stop);
    accepted("nightly job", n);
    same("ids moved", answer.stop.moved, ids - ids / 250);
}

/* a full table, the ids deleted; then the greatest put again, of so many bytes */
static void full(uint64_t entries, size_t bytes) {
    fresh(SLOT_MOST, entries);
    files(entries, 4000, ASCENDING, 0);
    put(entries, bytes);
    written();
}

static void full_table(uint64_t entries) { full(entries, 64); }

static void read(uint64_t id) {
    marble_piece *p = &answer.piece;
    uint64_t n = marble_read(settings, &state, heap, heap_len, table, words, id, &p->kind, &p->offset, &p->size);
    accepted("read", n);
    same("kind read", p->kind, MARBLE_OBJECT);
}

static void large_object(uint64_t bytes) { full(1024, bytes); }

static void large_read(uint64_t bytes) {
    (void)bytes;
    read(1024);
}

static void claim_and_release(uint64_t entries) {
    uint64_t n = marble_claim(settings, &state, &claims, heap, heap_len, table, words, 0);
    (void)entries;
    accepted("claim", n);
    answer.word[0] = claims.word[0];
    n = marble_release(settings, &state, &claims, heap, heap_len, table, words, 0);
    accepted("release", n);
}

static void prune(uint64_t entries) {
    uint64_t n = marble_prune(settings, &state, &claims, heap, heap_len, table, words);
    (void)entries;
    accepted("prune", n);
}

static void counts(uint64_t entries) {
    uint64_t n = marble_counts(settings, &state, heap, heap_len, table, words, &answer.totals);
    accepted("counts", n);
    same("live", answer.totals.live, entries);
}

static void load(uint64_t entries) {
    uint64_t n = marble_load(table, words, entries / 2, &answer.word[0], &answer.word[1]);
    accepted("load", n);
    same("kind loaded", answer.word[0], MARBLE_DELETED);
}

/* 100 places unused, and 100 ids below all held ones */
#define STORES 100
static void nearly_full(uint64_t entries) {
    fresh(65536, entries);
    for (uint64_t k = 0; k < entries - STORES; k++) MARBLE_TABLE_ID(table, k) = STORES + k, MARBLE_TABLE_LOCATION(table, k) = 2 * (k + 1);
}

static void store(uint64_t entries) {
    (void)entries;
    uint64_t n = marble_store(table, words, MARBLE_TABLE_ID(table, 0) - 1, 2);
    accepted("store", n);
}

static void read_through(uint64_t operations) {
    uint64_t n = marble_read_through(settings, &state, heap, heap_len, table, words, batch, batch_len, operations, &answer.piece);
    accepted("read through a batch", n);
    same("of the batch", answer.piece.of_batch, 1);
}

/* ---- the same in plain C */
#include "plain.h"

static void plainly_accepted(uint64_t number) { accepted("call in plain C", number); }

static void write_plainly(uint64_t operations) {
    (void)operations;
    plainly_accepted(plain_write());
}

static void reopen_plainly(uint64_t ids) {
    (void)ids;
    plainly_accepted(plain_reopen());
}

static void maintain_plainly(uint64_t ids) {
    (void)ids;
    plainly_accepted(plain_nightly(&answer.stop));
}

static void check_plainly(uint64_t ids) {
    (void)ids;
    plainly_accepted(plain_check(NULL, 0, &answer.word[0]));
}

static void salvage_plainly(uint64_t ids) {
    (void)ids;
    plainly_accepted(plain_salvage(report, &answer.word[0]));
}

static void read_plainly(uint64_t id) { plainly_accepted(plain_read(id, &answer.piece)); }

static void large_read_plainly(uint64_t bytes) {
    (void)bytes;
    read_plainly(1024);
}

static void claim_and_release_plainly(uint64_t entries) {
    (void)entries;
    plainly_accepted(plain_claim(0, 1));
    answer.word[0] = claims.word[0];
    plainly_accepted(plain_claim(0, 0));
}

static void prune_plainly(uint64_t entries) {
    (void)entries;
    plainly_accepted(plain_prune());
}

static void count_plainly(uint64_t entries) {
    (void)entries;
    plainly_accepted(plain_counts(&answer.totals));
}

static void load_plainly(uint64_t entries) { plainly_accepted(plain_load(entries / 2, &answer.word[0], &answer.word[1])); }

static void store_plainly(uint64_t entries) {
    (void)entries;
    plainly_accepted(plain_store(MARBLE_TABLE_ID(table, 0) - 1, 2));
}

static void read_through_plainly(uint64_t operations) { plainly_accepted(plain_read_through(operations, &answer.piece)); }

/* ---- the table of rows */
typedef struct row {
    const char *name, *unit;
    void (*prepare)(uint64_t size), (*call)(uint64_t size);
    uint64_t calls; /* so many at most before the store is put back as it was prepared */
    int heap;       /* the heap too */
    uint64_t sizes[6];
    void (*plain)(uint64_t size);
} row;

static const row rows[] = {
    {"write, held ids rising, table of 1,024", "operations", held_rising, write, 200, 0, {1, 10, 100, 500, 1000}, write_plainly},
    {"write, held ids in any order, table of 1,024", "operations", held_in_any_order, write, 200, 0, {10, 100, 500, 1000}, write_plainly},
    {"write, held ids falling, table of 1,024", "operations", held_falling, write, 200, 0, {10, 100, 500, 1000}, write_plainly},
    {"write, new ids rising, table of 65,536", "operations", new_rising, write, 1, 0, {10, 100, 500, 1000}, write_plainly},
    {"write, new ids rising between 40,000, table of 65,536", "operations", new_between, write, 1, 0, {10, 100, 500, 1000}, write_plainly},
    {"reopening, ids ascend from file to file", "ids", ascending, reopening, 200, 0, {1000, 10000, 20000, 40000}, reopen_plainly},
    {"reopening, ids dealt out over the files in turn", "ids", in_turn, reopening, 200, 0, {1000, 10000, 20000, 40000}, reopen_plainly},
    {"reopening, later files have lower ids", "ids", descending, reopening, 200, 0, {1000, 10000, 20000, 40000}, reopen_plainly},
    {"reopening, 100 ids to a file", "ids", many_files, reopening, 200, 0, {6400, 12800, 25600}, reopen_plainly},
    {"reopening of 1,000 ids", "table entries", wide, reopening, 200, 0, {1024, 32768, 65536}, reopen_plainly},
    {"maintenance, table of 65,536", "ids", deleted_from, maintenance, 1, 1, {10000, 20000, 40000}, maintain_plainly},
    {"check, ids ascend from file to file", "ids", ascending_puts, check, 200, 0, {10000, 20000, 40000}, check_plainly},
    {"check, later files have lower ids", "ids", descending_puts, check, 200, 0, {10000, 20000, 40000}, check_plainly},
    {"check, each id twice, later files have lower ids, table full", "ids", put_twice, check, 200, 0, {10000, 20000, 40000}, check_plainly},
    {"salvage", "ids", ascending_puts, salvage, 200, 0, {10000, 20000, 40000}, salvage_plainly},
    {"read of 64 bytes, full table", "table entries", full_table, read, 1000, 0, {1024, 32768, 65536}, read_plainly},
    {"claim and release, full table", "table entries", full_table, claim_and_release, 1000, 0, {1024, 32768, 65536}, claim_and_release_plainly},
    {"prune, full table", "table entries", full_table, prune, 1000, 0, {1024, 32768, 65536}, prune_plainly},
    {"counts, full table", "table entries", full_table, counts, 1000, 0, {1024, 32768, 65536}, count_plainly},
    {"load, full table", "table entries", full_table, load, 10000, 0, {1024, 32768, 65536}, load_plainly},
    {"store of a new id below all, full table", "table entries", nearly_full, store, STORES, 0, {1024, 32768, 65536}, store_plainly},
    {"read, table of 1,024", "bytes", large_object, large_read, 1000, 0, {64, 16250, 32500, 65000}, large_read_plainly},
    {"read through a batch, table of 1,024", "operations", held_rising, read_through, 1000, 0, {10, 100, 500, 1000}, read_through_plainly},
};
#define ROWS (sizeof rows / sizeof rows[0])

/* ---- the clock */
static double now(void) {
    struct timespec t;
    same("the clock", (uint64_t)clock_gettime(CLOCK_PROCESS_CPUTIME_ID, &t), 0);
    return 1e9 * (double)t.seconds + (double)t.nanoseconds;
}

static void put_back(const row *r) {
    memcpy(&state, &state_was, sizeof state);
    memcpy(table, table_was, 8 * words);
    if (r->heap) memcpy(heap, heap_was, heap_len);
}

/* nanoseconds of one call, of so many from the store as prepared on */
static double sample(const row *r, void (*call)(uint64_t), uint64_t size, uint64_t calls) {
    put_back(r);
    const double began = now();
    for (uint64_t k = 0; k < calls; k++) call(size);
    return (now() - began) / (double)calls;
}

static double least(const row *r, void (*call)(uint64_t), uint64_t size) {
    double best = sample(r, call, size, 1);
    uint64_t calls = r->calls;
    if (best * (double)calls > SAMPLE_NANOSECONDS) calls = best < SAMPLE_NANOSECONDS ? (uint64_t)(SAMPLE_NANOSECONDS / best) : 1;
    double all = best;
    for (int k = 1; k < SAMPLES || all < ALL_NANOSECONDS; k++) {
        const double took = sample(r, call, size, calls);
        if (took < best) best = took;
        all += took * (double)calls;
    }
    return best;
}

/* zeros in those of the first slots that have no file, so that what is not written is seen */
static void blank(size_t first) {
    for (size_t at = 0; at < first && at < heap_len; at++) {
        if (!state_was.records[at / settings.slot_bytes].lsn) heap[at] = 0;
    }
}

/* the first slots, or all where the heap is put back */
static size_t compared(const row *r) { return r->heap ? heap_len : 16 * settings.slot_bytes; }

/* the store as prepared, and one call from it on */
static void one_call(const row *r, void (*call)(uint64_t), uint64_t size) {
    put_back(r);
    if (r->call == write) blank(compared(r));
    memset(&answer, 0, sizeof answer);
    call(size);
}

/* plain C answers as the call does and leaves state, claims, table and these slots as it does */
static void agreed(const row *r, uint64_t size) {
    static uint8_t heap_then[sizeof heap];
    static uint64_t table_then[sizeof table / 8];
    static marble_state state_then;
    one_call(r, r->call, size);
    const marble_claims claims_then = claims;
    uint64_t answer_then[4];
    memcpy(answer_then, &answer, sizeof answer);
    memcpy(&state_then, &state, sizeof state);
    memcpy(table_then, table, 8 * words);
    memcpy(heap_then, heap, compared(r));
    one_call(r, r->plain, size);
    same("another answer in plain C", memcmp(answer_then, &answer, sizeof answer) != 0, 0);
    same("other claims in plain C", memcmp(&claims_then, &claims, sizeof claims) != 0, 0);
    same("another state in plain C", memcmp(&state_then, &state, sizeof state) != 0, 0);
    same("another table in plain C", memcmp(table_then, table, 8 * words) != 0, 0);
    same("another heap in plain C", memcmp(heap_then, heap, compared(r)) != 0, 0);
}

static void told(const row *r) {
    for (size_t k = 0; k < sizeof r->sizes / sizeof r->sizes[0] && r->sizes[k]; k++) {
        const uint64_t size = r->sizes[k];
        r->prepare(size);
        memcpy(&state_was, &state, sizeof state);
        memcpy(table_was, table, 8 * words);
        if (r->heap) memcpy(heap_was, heap, heap_len);
        const double ours = least(r, r->call, size);
        agreed(r, size);
        printf("%s\t%s\t%llu\t%.0f\t%.0f\n", r->name, r->unit, (unsigned long long)size, ours, least(r, r->plain, size));
    }
}

int main(int count, char **given) {
    checksums_made();
    for (size_t k = 0; k < sizeof body; k++) body[k] = (uint8_t)(k * 31);
    for (size_t k = 0; count == 1 && k < ROWS; k++) told(&rows[k]);
    for (int k = 1; k < count; k++) {
        const unsigned long long number = strtoull(given[k], NULL, 10);
        same("a row's number", number < ROWS, 1);
        told(&rows[number]);
    }
    return 0;
}
