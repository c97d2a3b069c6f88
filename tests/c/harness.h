/* What the tests in C share: one store in guarded buffers, a call of each function, and a file made byte by byte. */
#include "marble.h"

int printf(const char *, ...);
void *memcpy(void *, const void *, size_t);
void *memset(void *, int, size_t);
int memcmp(const void *, const void *, size_t);

#define HEAP_MOST (256 * 1024)
#define BATCH_MOST 4096
#define BATCH_BIT (1ull << 62)
#define LISTING_MOST (4 * 16)
#define RECORDS_MOST (MARBLE_SLOTS_MAX + 1)

/* ---- checks */
void expect(const char *what, uint64_t got, uint64_t want);
int failed(void);
uint64_t checks(void);

/* ---- the store that all tests use */
typedef struct store {
    marble_settings s;
    marble_state *state;
    marble_claims *claims;
    uint8_t *heap;
    size_t heap_len;
    uint64_t *table;
    size_t words;
    /* the notes, as many as the table has entries */
    uint32_t *places;
    size_t places_len;
    uint32_t *pieces;
    size_t pieces_len;
} store;
extern store w;

/* zeros everywhere, so many slots and table entries, guards anew */
void fresh(marble_settings s, size_t slots, size_t entries);
marble_settings defaults(void);
marble_settings small(uint64_t slot_bytes);

/* ---- a call each; guards, and what the call must leave, are checked behind it */
uint64_t reopen(void);
uint64_t write_batch(const uint8_t *batch, size_t len);
uint64_t read_id(uint64_t id);
/* of an id, through a batch of so many bytes */
uint64_t read_through(const uint8_t *batch, size_t len, uint64_t id);
uint64_t claim(uint64_t slot);
uint64_t release(uint64_t slot);
uint64_t prune(void);
uint64_t plan(void);
/* the ids moved are the first out-parameter */
uint64_t rewrite(uint64_t generation, uint64_t mark, uint64_t count);
/* the nightly job; the generation where it stopped is the first out-parameter, the ids moved are the second */
uint64_t maintain(void);
uint64_t counts(void);
/* of so many records */
uint64_t unsynced(const marble_record *records, size_t count);
uint64_t sync(marble_record *records, size_t count);
/* a listing of so many words */
uint64_t check(size_t words);
uint64_t salvage(void);
uint64_t load(uint64_t id);
uint64_t store_at(uint64_t id, uint64_t location);
uint64_t compare_and_store(uint64_t id, uint64_t old, uint64_t location);
uint64_t store_if_greater(uint64_t id, uint64_t location);
/* the out-parameters of the last call; the kind of a read or a load has its own */
extern uint64_t out[2], kind;
extern marble_totals totals;
/* what the last read through a batch found */
extern marble_piece piece;
/* what the last plan gave */
extern marble_planned planned;
/* the lines of the last check */
extern const marble_fault *listed;
/* the lines of the last salvage */
extern const marble_loss *given_up;

/* put of len bytes, all of them b; delete */
uint64_t put(uint64_t id, size_t len, uint8_t b);
uint64_t drop(uint64_t id);
/* the object is there, len bytes of b; a delete is; nothing ever was: by load and by read */
void holds(uint64_t id, size_t len, uint8_t b);
void deleted(uint64_t id);
void never_written(uint64_t id);

/* ---- bytes */
uint32_t crc(const uint8_t *bytes, size_t len);
size_t groups(uint8_t *to, uint64_t n);
void le(uint8_t *to, size_t width, uint64_t n);
uint64_t from_le(const uint8_t *from, size_t width);
/* an object; its length in bytes */
size_t object(uint8_t *to, uint64_t id, const uint8_t *body, size_t len);

typedef struct entry {
    uint64_t id, raw;
} entry;

/* a file as a label and bytes say it; what does not agree is up to the test */
typedef struct file {
    uint64_t lsn, trailer_offset, file_size, present, generation;
    uint64_t count;
    const entry *entries;
    uint64_t stored;
    const uint8_t *objects;
} file;
/* a file of these objects and entries with nothing wrong in it */
file sound(uint64_t lsn, uint64_t generation, const uint8_t *objects, uint64_t len, const entry *entries, uint64_t count);
void file_in(size_t slot, file f);

/* ---- stack: bytes touched below each call, and copies of the file map in it: the most seen, held to what is allowed */
void costs_told(void);
/* copies in the last call */
uint64_t copies_made(void);

/* ---- the tests */
void header(void);
void lines(void);
void life(void);
void odd(void);
void maintenance(void);
void rewritten(void);
void refusals(void);
void faults(void);
void rescue(void);
void through(void);
void flushed(void);
