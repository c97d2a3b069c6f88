/* marble.h: Tumrezask for a host in C or C++. A store of numbered objects in a lent buffer, by the rules of document 01.

   Example, whole; it compiles as it stands:

   #include "marble.h"

   #define WORDS MARBLE_TABLE_WORDS(256)      // a table of 256 entries: 512 words
   static uint8_t heap[16 * 4096];            // 16 slots of 4,096 bytes; all zeros is a fresh store
   static uint64_t table[WORDS];              // id and location by turns
   static marble_state state;                 // all zeros: not reopened yet
   static marble_claims claims;

   int main(void) {
       const marble_settings s = MARBLE_DEFAULTS;
       uint8_t batch[MARBLE_BATCH_LENGTH_MAX(1, 5, 1)];  // one put, its 5 bytes, one delete
       size_t len = 0;
       uint64_t kind, offset, size;
       if (marble_version() != MARBLE_VERSION)
           return 1;                          // the archive is another than this header's
       if (marble_reopen(s, &state, &claims, heap, sizeof heap, table, WORDS) != MARBLE_OK)
           return 2;                          // do not write now: four steps below
       if (!marble_batch_put(batch, sizeof batch, &len, 7, "hello", 5) || !marble_batch_delete(batch, sizeof batch, &len, 9))
           return 3;                          // the batch is full
       if (marble_write(s, &state, heap, sizeof heap, table, WORDS, batch, len) != MARBLE_OK)
           return 4;
       if (marble_read(s, &state, heap, sizeof heap, table, WORDS, 7, &kind, &offset, &size) != MARBLE_OK)
           return 5;
       return kind == MARBLE_OBJECT && size == 5 && heap[offset] == 'h' ? 0 : 6;
   }

   End of the example.

   Every call answers with a number: MARBLE_OK, or the refusal's number in document 01's table. A refusal changes nothing, except
   where a call says so below. Every number, length and byte is answered; an empty buffer may be (NULL, 0).

   What the host must do:
   - Lend buffers that do not overlap, u64 buffers and records aligned for uint64_t, notes for uint32_t; out-parameters and state are real
     places, never NULL. A length counts elements: bytes of the heap and the batch, uint64_t of the table and of a listing, uint32_t of
     notes, records of a list of them.
   - Lend the table as one buffer of words that alternate id and location: place k has its id at word 2k and its location at word 2k + 1.
     Its entries are words / 2, 1 to 65,536. An odd number of words is refused with 1 by every call, nothing changes, and the last word,
     which is in no place, is never looked at or changed. MARBLE_TABLE_WORDS, MARBLE_TABLE_ID and MARBLE_TABLE_LOCATION below.
   - Lend marble_plan, marble_rewrite and marble_nightly two buffers of notes, places and pieces, each at least as many uint32_t as the table
     has entries (MARBLE_NOTES). They hold nothing between calls, whatever stands in them; one pair serves all three calls.
   - Keep a batch out of the heap, also behind its files: the file is written while the batch is read. A body that a read found is put
     again through a batch buffer, into which marble_batch_put copies it.
   - Keep heap, table and state unchanged between calls (the four table calls are there for the table, marble_sync
     for the marks in the state), and one caller at a time.
   - Give every call the settings and lengths of the accepted reopening. Others are refused with 1.
   - After power comes back, heap alone is enough: zero the rest and reopen.
   - A reopening refused with any number but 1 leaves an empty store that a write would use, from slot 0 on, over files that are
     still in the heap. Do not write before an accepted reopening. Four steps: copy the heap away; see by marble_check what is wrong
     with it; marble_salvage, on the copy, gives up the slots that make it refuse, and names them; reopen the copy. After that a
     reopening is accepted, or refused with 6: then lend a larger table, and still do not write.

   When power fails. Promised, and proved of the rules (request P8 of document 02: docs/requests/P8.md): power gone after any number of the
   single-byte stores of any call, a reopening with the same settings and table entries is accepted and gives every read as before the call,
   or every read as after it. It is as after it only where all of a write's stores have landed; the last is the first byte of the label.
   Prune, rewrite and the nightly job change no read. Presumed: these calls alone have written the heap, since every slot of it began with a
   byte 0; stores land in the order in which the calls make them, which a compiler, memcpy, a cache or a flash driver could change; a byte
   is stored whole or not at all.

   Processor and libraries. The archive is code for x86-64 (System V calling convention, position independent, SSE2 and nothing newer), so
   size_t has 64 bits. It needs memcpy and memset from the host, and nothing else: no allocation, no input or output, no data of its own.
   Stack: MARBLE_STACK_.. below, for each call. */
#ifndef MARBLE_H
#define MARBLE_H

#include <stddef.h>
#include <stdint.h>

#ifdef __cplusplus
extern "C" {
#endif

/* ---- version: the header's. marble_version() is the archive's; a host stops where they differ. A new major number: a host must change. */
#define MARBLE_VERSION_MAJOR 5
#define MARBLE_VERSION_MINOR 0
#define MARBLE_VERSION (MARBLE_VERSION_MAJOR * 1000 + MARBLE_VERSION_MINOR)

/* ---- limits: the column "Range" */
#define MARBLE_SLOT_BYTES_MIN 128
#define MARBLE_SLOT_BYTES_MAX 1048576
#define MARBLE_SLOTS_MIN 1
#define MARBLE_SLOTS_MAX 256
#define MARBLE_TABLE_MIN 1 /* entries, of two words each */
#define MARBLE_TABLE_MAX 65536
#define MARBLE_FILE_COMPACTION_PERCENT_MIN 0
#define MARBLE_FILE_COMPACTION_PERCENT_MAX 100
#define MARBLE_MIN_COMPACTION_FILES_MIN 1
#define MARBLE_MIN_COMPACTION_FILES_MAX 256
#define MARBLE_TARGET_FILE_SIZE_MIN 1
#define MARBLE_TARGET_FILE_SIZE_MAX 1048576
#define MARBLE_SMALL_FILE_CLEANUP_THRESHOLD_MIN 0
#define MARBLE_SMALL_FILE_CLEANUP_THRESHOLD_MAX 256
#define MARBLE_MAX_OBJECT_SIZE_MIN 1
#define MARBLE_MAX_OBJECT_SIZE_MAX 1048576
#define MARBLE_LABEL_BYTES 64
#define MARBLE_GENERATIONS 3 /* a rewritten file is of generation 1, 2 or 3 */

/* ---- the column "Port's default": marble_settings s = MARBLE_DEFAULTS; file_compaction_percent is 50 by request P10 of document 02, where
   document 01 had 75. */
#define MARBLE_DEFAULTS {4096, 50, 2, 2048, 64, 1024}

/* ---- sizes. An argument is a number of things or of bytes; bodies are the bytes of all bodies together. */
/* A buffer of so many bytes takes every batch of these puts and deletes: id 10 bytes at most, tag 1, length 3 at most, as every body that a
   write accepts is shorter than MARBLE_MAX_OBJECT_SIZE_MAX. */
#define MARBLE_BATCH_LENGTH_MAX(puts, bodies, deletes) (14 * (size_t)(puts) + (size_t)(bodies) + 11 * (size_t)(deletes))
/* file_size of a file: trailer 12, an entry 16, for each put and each delete; an object 20 and its body, for each put. Of operations on
   one id the last alone counts. */
#define MARBLE_FILE_SIZE(puts, bodies, deletes) (12 + 36 * (uint64_t)(puts) + (uint64_t)(bodies) + 16 * (uint64_t)(deletes))
/* What it takes of its slot, with the label. A write is refused with 4 where this is over slot_bytes. */
#define MARBLE_SLOT_NEED(puts, bodies, deletes) (MARBLE_LABEL_BYTES + MARBLE_FILE_SIZE(puts, bodies, deletes))

/* ---- the table: how many words so many entries take; the id and the location of place k, to be read. A location 0 is an unused place. */
#define MARBLE_TABLE_WORDS(entries) (2 * (size_t)(entries))
#define MARBLE_TABLE_ID(table, k) ((table)[2 * (size_t)(k)])
#define MARBLE_TABLE_LOCATION(table, k) ((table)[2 * (size_t)(k) + 1])
/* How many notes, uint32_t each, so many entries take: so many places, and so many pieces. */
#define MARBLE_NOTES(entries) ((size_t)(entries))

/* ---- a raw location: twice the position, plus 1 for a delete. Bit 62 of a position is the batch bit: set in a file that a write made,
   clear in a rewritten one. */
#define MARBLE_LOCATION_POSITION(raw) ((uint64_t)(raw) >> 1)
#define MARBLE_LOCATION_IS_DELETE(raw) ((uint64_t)(raw) & 1)

/* ---- stack: bytes below the caller that each call was never seen to pass in the tests (tests/c fails where one does). Measured on x86-64,
   not proved; what interrupts take comes on top. */
#define MARBLE_STACK_REOPEN 130048
#define MARBLE_STACK_WRITE 93184
#define MARBLE_STACK_READ 17408
#define MARBLE_STACK_READ_THROUGH 17408
#define MARBLE_STACK_CLAIM 15360
#define MARBLE_STACK_RELEASE 15360
#define MARBLE_STACK_PRUNE 29696
#define MARBLE_STACK_PLAN 97280
#define MARBLE_STACK_REWRITE 107520
#define MARBLE_STACK_NIGHTLY 137216
#define MARBLE_STACK_COUNTS 29696
#define MARBLE_STACK_UNSYNCED 128
#define MARBLE_STACK_SYNC 128
#define MARBLE_STACK_CHECK 21504
#define MARBLE_STACK_SALVAGE 7168
#define MARBLE_STACK_TABLE 128 /* each of the four table calls */

/* ---- answers: success, and the refusal numbers */
#define MARBLE_OK 0                      /* accepted; a delete, or nothing, found is a success too */
#define MARBLE_E_LIMITS 1                /* settings, lengths, table or state out of their ranges, or not those of the state */
#define MARBLE_E_BATCH_BYTES 2           /* batch bytes malformed */
#define MARBLE_E_OBJECT_SIZE 3           /* a put of max_object_size or more */
#define MARBLE_E_SLOT_ROOM 4             /* 64 + file_size > slot_bytes */
#define MARBLE_E_NO_EMPTY_SLOT 5         /* fewer empty slots than new files */
#define MARBLE_E_TABLE_ROOM 6            /* more distinct ids than table entries */
#define MARBLE_E_POSITIONS_SPENT 7       /* positions would pass 2^62 */
#define MARBLE_E_LABEL 8                 /* label */
#define MARBLE_E_TRAILER_SHORT 9         /* trailer under 20 bytes */
#define MARBLE_E_CHECKSUM 10             /* checksum */
#define MARBLE_E_ENTRY_COUNT 11          /* more entries than the trailer has room for */
#define MARBLE_E_ENTRY_POSITION 12       /* entry position, or an object's position + 20, over trailer_offset */
#define MARBLE_E_PRESENT_COUNT 13        /* present_objects is not the count */
#define MARBLE_E_OVERLAP 14              /* overlapping files */
#define MARBLE_E_NOT_RISING 15           /* repeated id not rising */
#define MARBLE_E_CUT_SHORT 16            /* bytes cut short */
#define MARBLE_E_OTHER_ID 17             /* stored id is another */
#define MARBLE_E_NOT_THERE 18            /* no file at or below, or id unmapped */
#define MARBLE_E_EQUAL_LOCATION 19       /* equal location */
#define MARBLE_E_LOCATION 20             /* a table call: raw location 0 given; a rewrite: a delete's position + lsn is 2^63 or more */
#define MARBLE_E_CLAIM 21                /* claim or release of a slot that cannot be */
#define MARBLE_E_GENERATION 22           /* a rewrite of a generation outside 1 to 3 */

/* ---- the kind: what a read or a load found of the id. A refused call leaves 0 there, so look at its number first. */
#define MARBLE_NEVER_WRITTEN 0 /* no put and no delete of it */
#define MARBLE_DELETED 1       /* a delete came last, also of an id never put */
#define MARBLE_OBJECT 2

/* ---- an answer that nobody looks at is a warning, where the compiler can */
#if defined(__GNUC__)
#define MARBLE_MUST_USE __attribute__((warn_unused_result))
#elif (defined(__cplusplus) && __cplusplus >= 201703L) || (defined(__STDC_VERSION__) && __STDC_VERSION__ >= 202311L)
#define MARBLE_MUST_USE [[nodiscard]]
#else
#define MARBLE_MUST_USE
#endif

/* ---- what is lent */
typedef struct marble_settings {
    uint64_t slot_bytes;
    uint64_t file_compaction_percent;
    uint64_t min_compaction_files;
    uint64_t target_file_size;
    uint64_t small_file_cleanup_threshold;
    uint64_t max_object_size;
} marble_settings;

/* A file: its label's five numbers, its live count, and whether it is known to be on the flash: synced is 0 from its writing on, 1 from a
   marble_sync or a reopening on. Any other number, and a record of nothing but the mark, is refused with 1 by every call that takes the
   state, but for marble_reopen, which makes it anew. All zeros: the slot is empty. */
typedef struct marble_record {
    uint64_t lsn;
    uint64_t trailer_offset;
    uint64_t file_size;
    uint64_t present_objects;
    uint64_t generation;
    uint64_t live;
    uint64_t synced;
} marble_record;

/* 14,408 bytes, the host's to keep and to read, the calls' to change. All zeros before the first reopening. */
typedef struct marble_state {
    marble_settings settings;
    uint64_t heap_len;  /* bytes */
    uint64_t table_len; /* entries, not words */
    marble_record records[MARBLE_SLOTS_MAX];
    uint64_t next_position;
} marble_state;

/* Slot s is bit s % 64 of word s / 64. */
typedef struct marble_claims {
    uint64_t word[4];
} marble_claims;

typedef struct marble_totals {
    uint64_t files;
    uint64_t bytes;
    uint64_t present;
    uint64_t live;
} marble_totals;

/* What a read through a batch found: the kind; of an object, of_batch 1 where its bytes are in the batch and 0 where they are in the heap,
   and size bytes from offset on, in that buffer. Else of_batch, offset and size are 0. */
typedef struct marble_piece {
    uint64_t kind;
    uint64_t of_batch;
    uint64_t offset;
    uint64_t size;
} marble_piece;

/* A line of the checker: a refusal's number and, where has_position is 1, an object's position in the slot's file, which may be 0. Where it
   is 0, so is position. */
typedef struct marble_fault {
    uint64_t slot;
    uint64_t number;
    uint64_t has_position;
    uint64_t position;
} marble_fault;

/* A line of a salvage's report: a slot that it gave up, and the number of the refusal that it gave it up for. */
typedef struct marble_loss {
    uint64_t slot;
    uint64_t number;
} marble_loss;

/* The slots of a group, ascending, zeros behind the last. */
typedef struct marble_group {
    uint64_t count;
    uint64_t slots[MARBLE_SLOTS_MAX];
} marble_group;

/* A plan. mark and count go into each request. files and bytes, of file_size, are what would come out of generations 1, 2, 3 before the first
   refusal; number and generation are that refusal, foretold, or 0 and 0. groups[g - 1] are the files that a rewrite of generation g takes:
   none where there are fewer than min_compaction_files. */
typedef struct marble_planned {
    uint64_t mark;
    uint64_t count;
    uint64_t files;
    uint64_t bytes;
    uint64_t number;
    uint64_t generation;
    marble_group groups[MARBLE_GENERATIONS];
} marble_planned;

/* A rewrite: the generation, and a plan's mark and count, are asked and stay as they are; moved is told. */
typedef struct marble_request {
    uint64_t generation;
    uint64_t mark;
    uint64_t count;
    uint64_t moved;
} marble_request;

/* The end of the nightly job: the generation whose rewrite was refused, or 0, and the ids moved. */
typedef struct marble_stop {
    uint64_t generation;
    uint64_t moved;
} marble_stop;

/* ---- the archive's sizes, held against the host's compiler */
#if defined(__cplusplus)
#define MARBLE_HOLDS(name, what) static_assert(what, #name)
#elif defined(__STDC_VERSION__) && __STDC_VERSION__ >= 201112L
#define MARBLE_HOLDS(name, what) _Static_assert(what, #name)
#else
#define MARBLE_HOLDS(name, what) typedef char marble_holds_##name[(what) ? 1 : -1]
#endif
MARBLE_HOLDS(lengths_of_64_bits, sizeof(size_t) == 8 && sizeof(void *) == 8);
MARBLE_HOLDS(settings_of_six_words, sizeof(marble_settings) == 48);
MARBLE_HOLDS(record_of_seven_words, sizeof(marble_record) == 56);
MARBLE_HOLDS(state_of_1801_words, sizeof(marble_state) == 14408);
MARBLE_HOLDS(records_from_word_8, offsetof(marble_state, records) == 64);
MARBLE_HOLDS(next_position_last, offsetof(marble_state, next_position) == 14400);
MARBLE_HOLDS(claims_of_four_words, sizeof(marble_claims) == 32);
MARBLE_HOLDS(totals_of_four_words, sizeof(marble_totals) == 32);
MARBLE_HOLDS(piece_of_four_words, sizeof(marble_piece) == 32);
MARBLE_HOLDS(fault_of_four_words, sizeof(marble_fault) == 32);
MARBLE_HOLDS(loss_of_two_words, sizeof(marble_loss) == 16);
MARBLE_HOLDS(group_of_257_words, sizeof(marble_group) == 2056);
MARBLE_HOLDS(planned_of_777_words, sizeof(marble_planned) == 6216);
MARBLE_HOLDS(groups_from_word_6, offsetof(marble_planned, groups) == 48);
MARBLE_HOLDS(request_of_four_words, sizeof(marble_request) == 32);
MARBLE_HOLDS(stop_of_two_words, sizeof(marble_stop) == 16);
#undef MARBLE_HOLDS

/* MARBLE_VERSION of the archive. */
uint64_t marble_version(void);

/* ---- the store */
/* "Reopen": records and table from the heap alone, which is only read; a file's live count is the ids mapped into it. 1, then 8 to 13
   slot by slot, then 14, 15, 6. Refused with any number but 1: the table's buffer zeroed, no records, no claims, next position 1. */
MARBLE_MUST_USE uint64_t marble_reopen(marble_settings settings, marble_state *state, marble_claims *claims, const uint8_t *heap,
                                       size_t heap_len, uint64_t *table, size_t words);

/* "Write": a batch whole or not at all, decided 1 to 7 in order. Batch bytes: id in seven-bit groups, then 0 (delete) or 1 (put) with the
   length in groups and the body; the last operation on an id counts. An empty batch succeeds and changes nothing. marble_batch_put and
   marble_batch_delete make them. */
MARBLE_MUST_USE uint64_t marble_write(marble_settings settings, marble_state *state, uint8_t *heap, size_t heap_len, uint64_t *table,
                                      size_t words, const uint8_t *batch, size_t batch_len);

/* "Read": the kind; an object is size bytes from heap + offset on, until the next call that changes the heap. Deleted or never written:
   offset 0, which no object has, and size 0. 1, 18, 16, 10, 17; refused: kind, offset and size 0. */
MARBLE_MUST_USE uint64_t marble_read(marble_settings settings, const marble_state *state, const uint8_t *heap, size_t heap_len,
                                     const uint64_t *table, size_t words, uint64_t id, uint64_t *kind, uint64_t *offset, uint64_t *size);

/* A read through a batch that is not written yet: what a read gives after the batch is written, where a write accepts it. The last operation
   on the id in the batch decides; where there is none it is marble_read's answer. The bytes are never copied: they are a part of the batch or
   of the heap, good until that buffer is changed, by a call or by the host. The batch is only looked at; one that a write would refuse is
   shown too, but for 2. 1, 2, then those of marble_read where the batch has no operation on the id; refused: four zeros. */
MARBLE_MUST_USE uint64_t marble_read_through(marble_settings settings, const marble_state *state, const uint8_t *heap, size_t heap_len,
                                             const uint64_t *table, size_t words, const uint8_t *batch, size_t batch_len, uint64_t id,
                                             marble_piece *piece);

/* "Claim": the slot's file is left alone by prune, rewrite and the nightly job. 21 for a slot out of range, an empty one or a claimed one. */
MARBLE_MUST_USE uint64_t marble_claim(marble_settings settings, const marble_state *state, marble_claims *claims, const uint8_t *heap,
                                      size_t heap_len, const uint64_t *table, size_t words, uint64_t slot);

/* "Release": 21 for a slot out of range, an empty one or an unclaimed one. */
MARBLE_MUST_USE uint64_t marble_release(marble_settings settings, const marble_state *state, marble_claims *claims, const uint8_t *heap,
                                        size_t heap_len, const uint64_t *table, size_t words, uint64_t slot);

/* "Prune": every unclaimed file with live 0: first label byte set to 0, record emptied. No other heap byte changes. 1. */
MARBLE_MUST_USE uint64_t marble_prune(marble_settings settings, marble_state *state, const marble_claims *claims, uint8_t *heap,
                                      size_t heap_len, const uint64_t *table, size_t words);

/* ---- maintenance, in two calls or as one job. Live objects and deletes of mostly dead or small files are gathered into new ones, by the
   generation of these: 1, 2 or 3. Between two runs of the arm: marble_plan, then marble_rewrite of one generation in each pause, then
   marble_prune, which frees the slots; writes, reads and claims may come between them (examples/between-runs.c). At night, with the arm at
   rest: marble_nightly does it all. Each of the three is lent the notes; fewer of either than the table has entries: 1. After the call
   both are zeros, to their ends; on 1 they are as they were. The claim record stays. */
/* "Plan": which files the rewrites would take, what would come out, and the first refusal, as the store stands now. Nothing changes but the
   notes. A refusal foretold stops nothing: it is given by the rewrite, if it still holds then. 1; refused: planned is zeros. */
MARBLE_MUST_USE uint64_t marble_plan(marble_settings settings, const marble_state *state, const marble_claims *claims, const uint8_t *heap,
                                     size_t heap_len, const uint64_t *table, size_t words, uint32_t *places, size_t places_len,
                                     uint32_t *pieces, size_t pieces_len, marble_planned *planned);

/* "Rewrite": one generation, whole or not at all; moved is the count of ids moved, 0 where there is no group. Of a plan it takes the mark,
   which keeps out every file written since, by a write or by a rewrite, and the count, which small_file_cleanup_threshold is held against;
   all else it works out afresh, so that a plan may be old. Any mark and count are answered; plan again after a reopening. It prunes
   nothing: files that it emptied of live ids keep their slots until marble_prune. 1, then 22 for a generation outside 1 to 3, then 3, 4, 5,
   7, 9, 10, 11, 16, 18, 20; refused: nothing changes but the notes, moved 0. 20 is a delete's position in a damaged trailer that is 2^63
   or more with the file's lsn added; a reopening refuses such a file with 12. */
MARBLE_MUST_USE uint64_t marble_rewrite(marble_settings settings, marble_state *state, const marble_claims *claims, uint8_t *heap,
                                        size_t heap_len, uint64_t *table, size_t words, uint32_t *places, size_t places_len, uint32_t *pieces,
                                        size_t pieces_len, marble_request *request);

/* The nightly job: plan, rewrite 1, 2, 3, prune. moved is the count of ids moved, generation 0. A refused rewrite (its numbers, but for 22)
   ends it and keeps the generations rewritten before: generation is where, moved is the count so far, and nothing is pruned. 1: both 0,
   nothing changes. */
MARBLE_MUST_USE uint64_t marble_nightly(marble_settings settings, marble_state *state, const marble_claims *claims, uint8_t *heap,
                                        size_t heap_len, uint64_t *table, size_t words, uint32_t *places, size_t places_len, uint32_t *pieces,
                                        size_t pieces_len, marble_stop *stop);

/* ---- sums over the files */
/* "Counts": files, bytes, present, live, summed over files. Refused with 1: four zeros. */
MARBLE_MUST_USE uint64_t marble_counts(marble_settings settings, const marble_state *state, const uint8_t *heap, size_t heap_len,
                                       const uint64_t *table, size_t words, marble_totals *counts);

/* ---- what has reached the flash. A host that keeps the heap on flash flushes it from time to time. These two calls look at records alone:
   lend state.records and MARBLE_SLOTS_MAX, or fewer of them; lent a copy, a sync marks the copy alone. An empty record is never counted or
   marked. A list of more than MARBLE_SLOTS_MAX records is refused with 1; nothing else is asked of them. A reopening leaves no file
   unsynced, but where it is refused with 1, which changes nothing. Flush, then marble_sync; no write, rewrite or nightly job between the
   flush and the mark: it would mark a file that is not on the flash. */
/* How many of the records are of files that are not synced. 1; refused: unsynced 0. */
MARBLE_MUST_USE uint64_t marble_unsynced(const marble_record *records, size_t count, uint64_t *unsynced);

/* Has them marked; changed is 1 if a mark changed, else 0. 1; refused: no record changes, changed 0. */
MARBLE_MUST_USE uint64_t marble_sync(marble_record *records, size_t count, uint64_t *changed);

/* ---- the checker: for a heap that another hand made. It is lent what a reopening is, all of it only to be read; no state, no claims. */
/* "Check": everything wrong with the heap, ascending by slot. The first of 8 to 13 and 15 is a slot's only line. A slot without one has its
   objects walked: 10 for a bad checksum, then 17 where no object entry has its id and position; one that passes trailer_offset has 16 alone
   and ends the walk. Then 17 for each object entry without its object, and 14 where its range meets that of an earlier such slot. At the
   end 6, with the number of slots as its slot, where those slots have more distinct ids than the table has entries: of the table only the
   number of words counts. listing takes four words to a line, as marble_fault has them: the lines that fit, in order, and every other word
   of it stays as it was. faults is how many there are, also of those that do not fit; 0: nothing is wrong. A reopening is accepted exactly
   if every line has a position. 1 only, as of a reopening; refused: listing stays, faults 0. */
MARBLE_MUST_USE uint64_t marble_check(marble_settings settings, const uint8_t *heap, size_t heap_len, const uint64_t *table, size_t words,
                                      uint64_t *listing, size_t listing_len, uint64_t *faults);

/* The same with room for so many lines. The host's compiler compiles it; it is tested, not proved. */
MARBLE_MUST_USE static inline uint64_t marble_check_lines(marble_settings settings, const uint8_t *heap, size_t heap_len,
                                                          const uint64_t *table, size_t words, marble_fault *lines, size_t room,
                                                          uint64_t *faults) {
    return marble_check(settings, heap, heap_len, table, words, (uint64_t *)lines, 4 * room, faults);
}

/* ---- the rescue of a damaged heap. It is lent what the checker is, the heap to be changed; no state, no claims. */
/* "Salvage": the slots that make a reopening refuse are emptied. First every slot that fails 8, 9, 10, 11, 12, 13 or 15 by itself, ascending
   by slot, with the first of these numbers; then, with 14, of the files left, taken by ascending position without the batch bit and equal
   ones by ascending slot, each that does not begin above the end (that position + trailer_offset) of the last one kept. A slot is emptied
   by setting the first byte of its label to 0; no other byte of the heap changes. report has room for every slot: a line for each emptied
   one, in the order emptied; what no line needs stays as it was. lost is how many lines there are, 0 where a reopening accepts the
   heap. After it a reopening is accepted, or refused with 6: then lend a larger table, and do not write.
   State, claims and table that the host has still name the emptied slots: nothing but a reopening makes sense now.
   Hazard: as soon as one slot is given up, any id may read as an older version than it had, and a delete may be undone.
   1 only, as of a reopening; refused: heap and report stay, lost 0. */
MARBLE_MUST_USE uint64_t marble_salvage(marble_settings settings, uint8_t *heap, size_t heap_len, const uint64_t *table, size_t words,
                                        marble_loss report[MARBLE_SLOTS_MAX], uint64_t *lost);

/* ---- the table alone: raw locations by id. A held location is never 0. Order: 1, 20 (a given raw 0), 18, 19, 6. */
/* "Load": the kind, and the location of the object or of the delete, or 0 where never written. 1; refused: kind and location 0 too. */
MARBLE_MUST_USE uint64_t marble_load(const uint64_t *table, size_t words, uint64_t id, uint64_t *kind, uint64_t *location);

/* "Store". 1, 20, 6. */
MARBLE_MUST_USE uint64_t marble_store(uint64_t *table, size_t words, uint64_t id, uint64_t location);

/* "Compare-and-store": stored, and current 0; or it differs, nothing is stored, and current is the location held. 1, 20, 18; refused:
   current 0 too, and nothing is stored. */
MARBLE_MUST_USE uint64_t marble_compare_and_store(uint64_t *table, size_t words, uint64_t id, uint64_t old, uint64_t location,
                                                  uint64_t *current);

/* "Store-if-greater": held is the location before, a delete's too, or 0; a lower one is not stored. 1, 20, 19 (equal), 6; refused: held 0
   too, and nothing is stored. */
MARBLE_MUST_USE uint64_t marble_store_if_greater(uint64_t *table, size_t words, uint64_t id, uint64_t location, uint64_t *held);

/* ---- a batch made: operations put behind each other into a buffer of room bytes, of which *len are used, 0 at first. The host's compiler
   compiles these four; they are tested, not proved. */
/* A number in seven-bit groups, from to on: how many bytes, 10 at most. */
static inline size_t marble_groups(uint8_t *to, uint64_t n) {
    size_t count = 0;
    for (; n > 127; n >>= 7) to[count++] = (uint8_t)(n | 128);
    to[count++] = (uint8_t)n;
    return count;
}

/* An operation's head, then its body, behind *len. The bytes added; 0 where they do not fit, and then nothing changes. */
static inline size_t marble_appended(uint8_t *batch, size_t room, size_t *len, const uint8_t *head, size_t head_len, const uint8_t *body,
                                     size_t body_len) {
    size_t i;
    if (*len > room || head_len > room - *len || body_len > room - *len - head_len) return 0;
    for (i = 0; i < head_len; i++) batch[*len + i] = head[i];
    for (i = 0; i < body_len; i++) batch[*len + head_len + i] = body[i];
    *len += head_len + body_len;
    return head_len + body_len;
}

/* A put of an id: at most 14 + size bytes where the size can be accepted. body may be NULL where size is 0, and lie in the heap, but not in
   the batch. The bytes added; 0 where they do not fit: nothing changes, and the batch holds the operations before it. */
MARBLE_MUST_USE static inline size_t marble_batch_put(uint8_t *batch, size_t room, size_t *len, uint64_t id, const void *body,
                                                      size_t size) {
    uint8_t head[21];
    size_t count = marble_groups(head, id);
    head[count++] = 1;
    count += marble_groups(head + count, size);
    return marble_appended(batch, room, len, head, count, (const uint8_t *)body, size);
}

/* A delete of an id, at most 11 bytes. As above. */
MARBLE_MUST_USE static inline size_t marble_batch_delete(uint8_t *batch, size_t room, size_t *len, uint64_t id) {
    uint8_t head[11];
    size_t count = marble_groups(head, id);
    head[count++] = 0;
    return marble_appended(batch, room, len, head, count, head, 0);
}

#ifdef __cplusplus
}
#endif

#endif
