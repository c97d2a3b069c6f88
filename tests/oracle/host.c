/* The C library behind the console's script, for heaps and lines that the console has no room for. It reads what compare.py writes: each
   line is right. tests/oracle/host builds it. */
#include "marble.h"

int printf(const char *, ...);
int putchar(int);
void *calloc(size_t, size_t);
void free(void *);
void *memset(void *, int, size_t);
int strcmp(const char *, const char *);
char *strtok(char *, const char *);
unsigned long long strtoull(const char *, char **, int);
long getline(char **, size_t *, void *);
extern void *stdin;

static marble_settings s;
static marble_state state;
static marble_claims claims;
static uint8_t *heap, *bytes;
static uint64_t *table;
static size_t heap_len, words, bytes_len;
static uint32_t places[MARBLE_TABLE_MAX], pieces[MARBLE_TABLE_MAX];

#define TABLE table, words
#define LENT heap, heap_len, TABLE
#define NOTES places, MARBLE_NOTES(words / 2), pieces, MARBLE_NOTES(words / 2)

static uint64_t number(void) { return strtoull(strtok(0, " "), 0, 10); }

static uint8_t digit(char c) { return (uint8_t)(c <= '9' ? c - '0' : c - 'a' + 10); }

/* the next word's bytes, in place */
static void hex(void) {
    char *word = strtok(0, " ");
    bytes = (uint8_t *)word;
    bytes_len = 0;
    if (word[0] == '-') return;
    for (; word[2 * bytes_len] != 0; bytes_len++)
        bytes[bytes_len] = (uint8_t)(digit(word[2 * bytes_len]) << 4 | digit(word[2 * bytes_len + 1]));
}

/* CRC-32 of the heap, a byte at a time */
static uint32_t heap_sum(void) {
    static uint32_t sums[256];
    uint32_t sum = 0xffffffff;
    for (uint32_t k = 0; sums[255] == 0 && k < 256; k++) {
        sums[k] = k;
        for (int bit = 0; bit < 8; bit++) sums[k] = sums[k] >> 1 ^ (sums[k] & 1 ? 0xedb88320 : 0);
    }
    for (size_t k = 0; k < heap_len; k++) sum = sum >> 8 ^ sums[(sum ^ heap[k]) & 255];
    return ~sum;
}

static void dump(void) {
    printf("next %llu\n", (unsigned long long)state.next_position);
    for (unsigned k = 0; k < 256; k++) {
        const marble_record *f = &state.records[k];
        if (f->lsn | f->trailer_offset | f->file_size | f->present_objects | f->generation | f->live | f->synced)
            printf("record %u %llu %llu %llu %llu %llu %llu %llu\n", k, (unsigned long long)f->lsn, (unsigned long long)f->trailer_offset,
                   (unsigned long long)f->file_size, (unsigned long long)f->present_objects, (unsigned long long)f->generation,
                   (unsigned long long)f->live, (unsigned long long)f->synced);
    }
    for (unsigned k = 0; k < 256; k++)
        if (claims.word[k / 64] >> k % 64 & 1) printf("claimed %u\n", k);
    for (size_t k = 0; k < words / 2; k++) {
        uint64_t id = MARBLE_TABLE_ID(table, k), location = MARBLE_TABLE_LOCATION(table, k);
        if (id | location) printf("entry %zu %llu %llu\n", k, (unsigned long long)id, (unsigned long long)location);
    }
    printf("heap %u\nend\n", heap_sum());
}

static void said(uint64_t refusal) {
    if (refusal == 0) printf("ok\n");
    else printf("refused %llu\n", (unsigned long long)refusal);
}

/* ok with a number, a word for 0, or refused */
static void found(uint64_t refusal, const char *words, const char *none, uint64_t value) {
    if (refusal != 0 || value == 0) {
        if (refusal != 0) said(refusal);
        else printf("%s\n", none);
    } else {
        printf("%s %llu\n", words, (unsigned long long)value);
    }
}

/* a word and a part, or the kind, or refused */
static void piece(uint64_t refusal, uint64_t kind, const char *word, const uint8_t *part, uint64_t size) {
    if (refusal != 0 || kind != MARBLE_OBJECT) {
        if (refusal != 0) said(refusal);
        else printf(kind == MARBLE_DELETED ? "deleted\n" : "never\n");
        return;
    }
    printf(size == 0 ? "%s -" : "%s ", word);
    for (uint64_t k = 0; k < size; k++) {
        putchar("0123456789abcdef"[part[k] >> 4]);
        putchar("0123456789abcdef"[part[k] & 15]);
    }
    printf("\n");
}

static void read(uint64_t id) {
    uint64_t kind, offset, size, refusal = marble_read(s, &state, LENT, id, &kind, &offset, &size);
    piece(refusal, kind, "ok", heap + offset, size);
}

static void through(uint64_t id) {
    marble_piece p;
    uint64_t refusal = marble_read_through(s, &state, LENT, bytes, bytes_len, id, &p);
    piece(refusal, p.kind, p.of_batch ? "batch" : "heap", (p.of_batch ? bytes : heap) + p.offset, p.size);
}

static void plan(void) {
    static marble_planned p;
    uint64_t refusal = marble_plan(s, &state, &claims, LENT, NOTES, &p);
    if (refusal != 0) {
        said(refusal);
        return;
    }
    for (unsigned g = 0; g < MARBLE_GENERATIONS; g++) {
        if (p.groups[g].count != 0) printf("group %u", g + 1);
        for (uint64_t k = 0; k < p.groups[g].count; k++) printf(" %llu", (unsigned long long)p.groups[g].slots[k]);
        if (p.groups[g].count != 0) printf("\n");
    }
    if (p.number != 0) printf("foretold %llu %llu\n", (unsigned long long)p.number, (unsigned long long)p.generation);
    printf("ok %llu %llu %llu %llu\n", (unsigned long long)p.mark, (unsigned long long)p.count, (unsigned long long)p.files,
           (unsigned long long)p.bytes);
}

static void rewrite(void) {
    marble_request r = {0, 0, 0, 0};
    r.generation = number(), r.mark = number(), r.count = number();
    uint64_t refusal = marble_rewrite(s, &state, &claims, LENT, NOTES, &r);
    found(refusal, "ok", "ok 0", r.moved);
}

static void maintain(void) {
    marble_stop stop;
    uint64_t refusal = marble_nightly(s, &state, &claims, LENT, NOTES, &stop);
    if (refusal == 0) printf("ok %llu\n", (unsigned long long)stop.moved);
    else printf("refused %llu %llu %llu\n", (unsigned long long)refusal, (unsigned long long)stop.generation, (unsigned long long)stop.moved);
}

static int is(const char *word, const char *other) { return strcmp(word, other) == 0; }

static void line(const char *word) {
    uint64_t a, b, c, refusal;
    marble_totals t;
    if (is(word, "settings")) {
        s.slot_bytes = number(), s.file_compaction_percent = number(), s.min_compaction_files = number();
        s.target_file_size = number(), s.small_file_cleanup_threshold = number(), s.max_object_size = number();
        said(0);
    } else if (is(word, "claims")) {
        for (int k = 0; k < 4; k++) claims.word[k] = number();
        said(0);
    } else if (is(word, "heap")) {
        free(heap);
        heap = calloc(heap_len = number(), 1);
        said(0);
    } else if (is(word, "table")) {
        free(table);
        table = calloc(words = number(), 8);
        said(0);
    } else if (is(word, "poke")) {
        a = number(), hex();
        for (size_t k = 0; k < bytes_len; k++) heap[a + k] = bytes[k];
        said(0);
    } else if (is(word, "dump")) {
        dump();
    } else if (is(word, "reopen")) {
        said(marble_reopen(s, &state, &claims, LENT));
    } else if (is(word, "write")) {
        hex();
        said(marble_write(s, &state, LENT, bytes, bytes_len));
    } else if (is(word, "read")) {
        read(number());
    } else if (is(word, "through")) {
        a = number(), hex();
        through(a);
    } else if (is(word, "claim")) {
        said(marble_claim(s, &state, &claims, LENT, number()));
    } else if (is(word, "release")) {
        said(marble_release(s, &state, &claims, LENT, number()));
    } else if (is(word, "prune")) {
        said(marble_prune(s, &state, &claims, LENT));
    } else if (is(word, "plan")) {
        plan();
    } else if (is(word, "rewrite")) {
        rewrite();
    } else if (is(word, "maintain")) {
        maintain();
    } else if (is(word, "counts")) {
        refusal = marble_counts(s, &state, LENT, &t);
        if (refusal != 0) said(refusal);
        else printf("ok %llu %llu %llu %llu\n", (unsigned long long)t.files, (unsigned long long)t.bytes, (unsigned long long)t.present, (unsigned long long)t.live);
    } else if (is(word, "unsynced")) {
        refusal = marble_unsynced(state.records, MARBLE_SLOTS_MAX, &a);
        found(refusal, "ok", "ok 0", a);
    } else if (is(word, "sync")) {
        refusal = marble_sync(state.records, MARBLE_SLOTS_MAX, &a);
        found(refusal, "ok", "ok 0", a);
    } else if (is(word, "load")) {
        a = number(), refusal = marble_load(TABLE, a, &c, &b);
        found(refusal, c == MARBLE_DELETED ? "deleted" : "ok", "never", b);
    } else if (is(word, "store")) {
        a = number(), b = number();
        said(marble_store(TABLE, a, b));
    } else if (is(word, "cas")) {
        a = number(), b = number(), c = number(), refusal = marble_compare_and_store(TABLE, a, b, c, &a);
        found(refusal, "differs", "ok", a);
    } else if (is(word, "max")) {
        a = number(), b = number(), refusal = marble_store_if_greater(TABLE, a, b, &c);
        found(refusal, "ok", "ok nothing", c);
    } else {
        printf("bad line\n");
    }
}

int main(void) {
    static char *text;
    static size_t room;
    long length;
    while ((length = getline(&text, &room, stdin)) > 0) {
        text[length - 1] = 0;
        line(strtok(text, " "));
    }
    return 0;
}
