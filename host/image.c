/* A heap image looked at from a bench, or rescued: image check|map IMAGE [S [TABLE]], image rescue IMAGE RESCUED [S [TABLE]], which ./bench
   builds and calls. The image is read whole and lent to the calls of marble.h, which decide everything that is said to be wrong and every
   slot that is given up; the file is never written to. Words, rows and bars are this program's own: tested, not proved. */
#include "marble.h"

/* the kit's compiler brings no headers: what is taken from the C library */
int printf(const char *, ...);
int fprintf(void *, const char *, ...);
int fflush(void *);
void *fopen(const char *, const char *);
int fclose(void *);
size_t fread(void *, size_t, size_t, void *);
size_t fwrite(const void *, size_t, size_t, void *);
int ferror(void *);
int fileno(void *);
int fsync(int);
int access(const char *, int);
int remove(const char *);
void *calloc(size_t, size_t);
void free(void *);
void *memcpy(void *, const void *, size_t);
void qsort(void *, size_t, size_t, int (*)(const void *, const void *));
int strcmp(const char *, const char *);
char *strerror(int);
int *__errno_location(void);
int isatty(int);
extern void *stderr, *stdout;

typedef unsigned long long word;

enum { CLEAN = 0, FAULTS = 1, USAGE = 2, UNSAVED = 3 }; /* of a rescue: nothing given up, slots given up, as of the others, nothing saved */
#define IMAGE_MOST (16u << 20)
#define LINES_AT_FIRST 4096
#define BAR 32

static marble_settings s = MARBLE_DEFAULTS;
static uint8_t *heap;
static size_t heap_len, table_len = 1024;
static uint64_t *table;
static marble_state state;
static marble_claims claims;
static marble_fault *list;
static uint64_t faults;

/* ---- what is given */

/* NULL and a message, or memory of so many zeros */
static void *room_for(size_t count, size_t size) {
    void *room = calloc(count == 0 ? 1 : count, size);
    if (room == NULL) fprintf(stderr, "bench: not enough memory\n");
    return room;
}

/* what the C library says of a file, and 0 */
static int failed(const char *path) {
    fprintf(stderr, "bench: %s: %s\n", path, strerror(*__errno_location()));
    return 0;
}

/* 1: the word is a number from least to most; else a message */
static int number(const char *what, const char *text, uint64_t least, uint64_t most, uint64_t *to) {
    const char *at = text;
    *to = 0;
    for (; *at >= '0' && *at <= '9' && *to <= most; at++) *to = 10 * *to + (uint64_t)(*at - '0');
    if (at == text || (*at != 0 && (*at < '0' || *at > '9'))) {
        fprintf(stderr, "bench: %s is no number: %s\n", what, text);
        return 0;
    }
    if (*to < least || *to > most) {
        fprintf(stderr, "bench: %s is %s, and must be %llu to %llu\n", what, text, (word)least, (word)most);
        return 0;
    }
    return 1;
}

/* 1: the whole image is in heap; else a message */
static int image_read(const char *path) {
    void *file = fopen(path, "rb");
    if (file == NULL) return failed(path);
    heap = room_for(IMAGE_MOST + 1, 1);
    if (heap == NULL) return 0;
    heap_len = fread(heap, 1, IMAGE_MOST + 1, file);
    if (ferror(file)) return failed(path);
    fclose(file);
    return 1;
}

/* 1: the image is slots of S bytes, and not too many; else a message */
static int image_fits(const char *path) {
    if (heap_len > IMAGE_MOST) {
        fprintf(stderr, "bench: %s is longer than %u bytes, the most that is looked at\n", path, IMAGE_MOST);
    } else if (heap_len == 0) {
        fprintf(stderr, "bench: %s is empty: there is no slot in it\n", path);
    } else if (heap_len % s.slot_bytes != 0) {
        fprintf(stderr, "bench: %s has %llu bytes, which is no multiple of the slot's %llu\n", path, (word)heap_len, (word)s.slot_bytes);
    } else if (heap_len / s.slot_bytes > MARBLE_SLOTS_MAX) {
        fprintf(stderr, "bench: %s has %llu slots of %llu bytes, and %d are the most\n", path, (word)(heap_len / s.slot_bytes), (word)s.slot_bytes,
                MARBLE_SLOTS_MAX);
    } else {
        return 1;
    }
    return 0;
}

/* ---- what is wrong */

/* the checker's list in room for so many lines */
static uint64_t check_into(uint64_t room) {
    list = room_for(room, sizeof *list);
    if (list == NULL) return MARBLE_E_LIMITS;
    return marble_check(s, heap, heap_len, table, MARBLE_TABLE_WORDS(table_len), (uint64_t *)list, 4 * room, &faults);
}

/* 1: every fault is in list; else a message */
static int checked(void) {
    uint64_t refusal = check_into(LINES_AT_FIRST);
    if (refusal == MARBLE_OK && faults > LINES_AT_FIRST) {
        free(list);
        refusal = check_into(faults);
    }
    if (refusal != MARBLE_OK) fprintf(stderr, "bench: the check was refused with %llu\n", (word)refusal);
    return refusal == MARBLE_OK;
}

static const char *meaning(uint64_t number, int of_an_object) {
    switch (number) {
    case MARBLE_E_TABLE_ROOM: return "more distinct ids than its";
    case MARBLE_E_LABEL: return "label";
    case MARBLE_E_TRAILER_SHORT: return "trailer under 20 bytes";
    case MARBLE_E_CHECKSUM: return of_an_object ? "checksum" : "checksum of the trailer";
    case MARBLE_E_ENTRY_COUNT: return "more entries than the trailer has room for";
    case MARBLE_E_ENTRY_POSITION: return "an entry stands behind the last object";
    case MARBLE_E_PRESENT_COUNT: return "the label counts other than the trailer";
    case MARBLE_E_OVERLAP: return "overlaps the range of an earlier slot";
    case MARBLE_E_NOT_RISING: return "a repeated id whose positions do not rise";
    case MARBLE_E_CUT_SHORT: return "bytes cut short";
    case MARBLE_E_OTHER_ID: return "object and entry do not agree on the id";
    default: return "unknown";
    }
}

static int on_a_terminal;
static const char *colour(const char *code) { return on_a_terminal ? code : ""; }
#define RED colour("\033[31m")
#define GREEN colour("\033[32m")
#define YELLOW colour("\033[33m")
#define FAINT colour("\033[2m")
#define PLAIN colour("\033[0m")

/* a fault in words, without its slot */
static void tell(const marble_fault *f) {
    printf("%s%s", RED, meaning(f->number, f->has_position != 0));
    if (f->number == MARBLE_E_TABLE_ROOM) printf(" %llu entries", (word)table_len);
    printf(" (%llu)", (word)f->number);
    if (f->has_position) printf(" at object position %llu", (word)f->position);
    printf("%s", PLAIN);
}

static void told_list(void) {
    for (uint64_t k = 0; k < faults; k++) {
        if (list[k].number == MARBLE_E_TABLE_ROOM) printf("table: ");
        else printf("slot %llu: ", (word)list[k].slot);
        tell(&list[k]);
        printf("\n");
    }
}

/* ---- the map */

/* the label's numbers, where 8 has been ruled out */
static marble_record label_at(const uint8_t *at) {
    uint64_t numbers[5];
    for (int k = 0; k < 5; k++) {
        numbers[k] = 0;
        for (unsigned shift = 0;; shift += 7) {
            numbers[k] |= (uint64_t)(*at & 127) << shift;
            if (*at++ < 128) break;
        }
    }
    return (marble_record){
        .lsn = numbers[0], .trailer_offset = numbers[1], .file_size = numbers[2], .present_objects = numbers[3], .generation = numbers[4]};
}

/* eight bytes of a slot's file, the lowest first */
static uint64_t stored(size_t slot, uint64_t position) {
    const uint8_t *at = heap + slot * s.slot_bytes + MARBLE_LABEL_BYTES + position;
    uint64_t number = 0;
    for (int k = 7; k >= 0; k--) number = number << 8 | at[k];
    return number;
}

static uint64_t reopened(void) { return marble_reopen(s, &state, &claims, heap, heap_len, table, MARBLE_TABLE_WORDS(table_len)); }

/* how many ids an accepted reopening found */
static uint64_t ids_found(void) {
    size_t used = 0;
    while (used < table_len && MARBLE_TABLE_LOCATION(table, used) != 0) used++;
    return used;
}

static void told_accepted(void) { printf("reopening: accepted, %llu ids in a table of %llu\n", (word)ids_found(), (word)table_len); }

/* live bytes of each file by the table that an accepted reopening made: objects and entries at their id's current location, and the head of
   the trailer that lists them */
static void count_live(uint64_t *live) {
    for (size_t k = 0; k < table_len && MARBLE_TABLE_LOCATION(table, k) != 0; k++) {
        uint64_t kind, raw, found = MARBLE_SLOTS_MAX;
        if (marble_load(table, MARBLE_TABLE_WORDS(table_len), MARBLE_TABLE_ID(table, k), &kind, &raw) != MARBLE_OK) continue;
        uint64_t position = MARBLE_LOCATION_POSITION(raw);
        for (uint64_t slot = 0; slot < MARBLE_SLOTS_MAX; slot++) {
            uint64_t lsn = state.records[slot].lsn;
            if (lsn != 0 && lsn <= position && (found == MARBLE_SLOTS_MAX || lsn > state.records[found].lsn)) found = slot;
        }
        if (found == MARBLE_SLOTS_MAX) continue;
        const marble_record *file = &state.records[found];
        live[found] += live[found] == 0 ? 12 + 16 : 16;
        if (kind == MARBLE_OBJECT) {
            uint64_t at = position - file->lsn, length = stored(found, at + 12), most = file->trailer_offset - at - 20;
            live[found] += 20 + (length < most ? length : most);
        }
        if (live[found] > file->file_size) live[found] = file->file_size; /* objects that lie in each other */
    }
}

/* a bar of all bytes behind the label; each kind of which there is a byte has a cell */
static void bar(uint64_t live, uint64_t dead, uint64_t unknown) {
    uint64_t whole = s.slot_bytes - MARBLE_LABEL_BYTES, cells[4], used = 0, widest = 0;
    uint64_t bytes[4] = {live, dead, unknown, whole - live - dead - unknown};
    const char *paint[4] = {GREEN, YELLOW, RED, FAINT};
    for (int k = 0; k < 4; k++) {
        cells[k] = bytes[k] * BAR / whole;
        if (cells[k] == 0 && bytes[k] > 0) cells[k] = 1;
        used += cells[k];
        if (cells[k] > cells[widest]) widest = (uint64_t)k;
    }
    cells[widest] = cells[widest] + BAR - used;
    for (int k = 0; k < 4; k++) {
        if (cells[k] == 0) continue;
        printf("%s", paint[k]);
        for (uint64_t c = 0; c < cells[k]; c++) printf("%c", "#-?."[k]);
        printf("%s", PLAIN);
    }
}

typedef struct row {
    const marble_fault *first; /* its first fault, or NULL */
    uint64_t faults;
    enum { EMPTY, UNLABELLED, LABELLED } kind;
    marble_record file;
} row;

#define BATCH_BIT ((uint64_t)1 << 62)

/* a number as text, one for each column */
static const char *text(int column, uint64_t n) {
    static char places[5][21];
    char *at = places[column] + 20;
    do *--at = (char)('0' + n % 10);
    while ((n /= 10) != 0);
    return at;
}

static void columns(const char *slot, int width, const char *lsn, const char *kind, const char *generation, const char *entries, const char *live) {
    printf("%4s %*s %-9s %3s %7s %5s  ", slot, width, lsn, kind, generation, entries, live);
}

/* every slot with its faults, and how many digits the longest lsn has */
static int rows_of(row *rows, size_t slots) {
    int width = 3;
    uint64_t at = 0;
    for (size_t slot = 0; slot < slots; slot++) {
        row *r = &rows[slot];
        r->first = at < faults && list[at].slot == slot ? &list[at] : NULL;
        while (at < faults && list[at].slot == slot) r->faults++, at++;
        if (heap[slot * s.slot_bytes] == 0) r->kind = EMPTY;
        else if (r->first != NULL && r->first->number == MARBLE_E_LABEL) r->kind = UNLABELLED;
        else r->kind = LABELLED, r->file = label_at(heap + slot * s.slot_bytes);
        for (uint64_t n = (r->file.lsn & ~BATCH_BIT) / 1000, digits = 4; n > 0; n /= 10, digits++)
            if ((int)digits > width) width = (int)digits;
    }
    return width;
}

static void draw(size_t slot, const row *r, int width, int accepted, uint64_t live_ids, uint64_t live) {
    const marble_record *file = &r->file;
    const char *number = text(0, slot), *kind = file->lsn & BATCH_BIT ? "batch" : "rewritten";
    if (r->kind == EMPTY) columns(number, width, "", "empty", "", "", "");
    else if (r->kind == UNLABELLED) columns(number, width, "?", "?", "?", "?", "?");
    else
        columns(number, width, text(1, file->lsn & ~BATCH_BIT), kind, text(2, file->generation), text(3, file->present_objects),
                accepted ? text(4, live_ids) : "?");
    if (r->kind == UNLABELLED) bar(0, 0, s.slot_bytes - MARBLE_LABEL_BYTES);
    else if (accepted) bar(live, file->file_size - live, 0);
    else bar(0, 0, file->file_size);
    if (r->first != NULL) {
        printf("  ");
        tell(r->first);
        if (r->faults > 1) printf(", %llu more", (word)(r->faults - 1));
    }
    printf("\n");
}

static void map(void) {
    static uint64_t live[MARBLE_SLOTS_MAX];
    static row rows[MARBLE_SLOTS_MAX];
    size_t slots = heap_len / s.slot_bytes;
    uint64_t refusal = reopened();
    int width = rows_of(rows, slots);
    if (refusal == MARBLE_OK) count_live(live);
    columns("slot", width, "lsn", "file", "gen", "entries", "live");
    printf("# live  - dead  ? either  . free  wrong\n");
    for (size_t slot = 0; slot < slots; slot++) draw(slot, &rows[slot], width, refusal == MARBLE_OK, state.records[slot].live, live[slot]);
    if (refusal == MARBLE_OK) told_accepted();
    else printf("reopening: %srefused with %llu%s, so what is live is not known\n", RED, (word)refusal, PLAIN);
    if (faults > 0 && list[faults - 1].number == MARBLE_E_TABLE_ROOM) {
        printf("table: ");
        tell(&list[faults - 1]);
        printf("\n");
    }
}

/* ---- the rescue */

static marble_loss report[MARBLE_SLOTS_MAX];
static uint64_t losses;

/* what a file says of an id: where, by masked position, and whether it deletes it */
typedef struct version {
    uint64_t id, position, deletes;
} version;

/* ascending by id, of one id the newest first, of one position a delete */
static int in_order(const void *one, const void *other) {
    const version *a = one, *b = other;
    if (a->id != b->id) return a->id < b->id ? -1 : 1;
    if (a->position != b->position) return a->position > b->position ? -1 : 1;
    return (int)b->deletes - (int)a->deletes;
}

/* the trailer's entries of a slot that was given up with another number than 8 and 9: as many as it lists or, where it is damaged, as the
   label says and fit. The first byte is what the salvage has emptied */
static size_t entries_of(const marble_loss *loss, uint8_t first, version *to) {
    uint8_t label[MARBLE_LABEL_BYTES];
    memcpy(label, heap + loss->slot * s.slot_bytes, sizeof label);
    label[0] = first;
    marble_record file = label_at(label);
    int damaged = loss->number == MARBLE_E_CHECKSUM || loss->number == MARBLE_E_ENTRY_COUNT;
    uint64_t fit = (file.file_size - file.trailer_offset - 12) / 16;
    uint64_t count = damaged ? file.present_objects : stored(loss->slot, file.trailer_offset + 4);
    if (count > fit) count = fit;
    for (uint64_t k = 0; k < count; k++) {
        uint64_t at = file.trailer_offset + 12 + 16 * k, raw = stored(loss->slot, at + 8), position = raw / 2;
        if (position > file.trailer_offset) position = file.trailer_offset; /* 12, or a damaged one */
        to[k] = (version){stored(loss->slot, at), (file.lsn & ~BATCH_BIT) + position, raw % 2};
    }
    return count;
}

/* what became of an id that stood in a slot that was given up */
static void told_id(const version *lost) {
    uint64_t kind, raw, offset, size, position;
    const char *was = lost->deletes ? "deleted here" : "put here";
    printf("  id %llu: ", (word)lost->id);
    if (marble_load(table, MARBLE_TABLE_WORDS(table_len), lost->id, &kind, &raw) != MARBLE_OK || kind == MARBLE_NEVER_WRITTEN) {
        printf("%s, nothing reads now\n", was);
        return;
    }
    position = MARBLE_LOCATION_POSITION(raw) & ~BATCH_BIT;
    uint64_t refusal = marble_read(s, &state, heap, heap_len, table, MARBLE_TABLE_WORDS(table_len), lost->id, &kind, &offset, &size);
    if (position > lost->position) printf("a newer version is kept\n");
    else if (position == lost->position) printf("kept in another slot, at the same position\n");
    else if (kind == MARBLE_DELETED) printf("%s, %san older delete counts now%s\n", was, YELLOW, PLAIN);
    else if (refusal != MARBLE_OK) printf("%s, %san older version is kept, and its read is refused with %llu%s\n", was, RED, (word)refusal, PLAIN);
    else printf("%s, %san older version reads now%s\n", was, YELLOW, PLAIN);
}

/* 1: what is known of the ids of a slot that was given up is told; else a message */
static int told_ids(const marble_loss *loss, uint8_t first) {
    version *versions;
    size_t count;
    if (loss->number == MARBLE_E_LABEL || loss->number == MARBLE_E_TRAILER_SHORT) {
        printf("  which ids it had cannot be told\n");
        return 1;
    }
    versions = room_for(s.slot_bytes / 16, sizeof *versions);
    if (versions == NULL) return 0;
    count = entries_of(loss, first, versions);
    if (loss->number == MARBLE_E_CHECKSUM || loss->number == MARBLE_E_ENTRY_COUNT) printf("  its trailer is damaged, and so may be these ids\n");
    qsort(versions, count, sizeof *versions, in_order);
    for (size_t k = 0; k < count; k++)
        if (k == 0 || versions[k].id != versions[k - 1].id) told_id(&versions[k]);
    free(versions);
    return 1;
}

/* 1: the slots given up are told, and what became of their ids where a reopening was accepted; else a message */
static int told_losses(const uint8_t *first, int accepted) {
    for (uint64_t k = 0; k < losses; k++) {
        const char *why = report[k].number == MARBLE_E_OVERLAP ? "overlaps the range of a kept file" : meaning(report[k].number, 0);
        printf("slot %llu: %sgiven up%s, %s (%llu)\n", (word)report[k].slot, RED, PLAIN, why, (word)report[k].number);
        if (accepted && !told_ids(&report[k], first[report[k].slot])) return 0;
    }
    if (losses > 0)
        printf("%swarning: with a slot given up any id may read as an older version than it had, and a delete may be undone%s\n", YELLOW, PLAIN);
    return 1;
}

/* A reopening was refused, with 6, since a salvage leaves nothing else. 1: a larger table would do; how large, by the largest there is */
static int told_too_small(uint64_t refusal) {
    printf("reopening: %srefused with %llu%s, more distinct ids than a table of %llu takes\n", RED, (word)refusal, PLAIN, (word)table_len);
    table_len = MARBLE_TABLE_MAX;
    table = room_for(MARBLE_TABLE_WORDS(table_len), sizeof *table);
    if (table == NULL) return 0;
    int larger = reopened() == MARBLE_OK;
    if (larger) printf("table: one of %llu would do\n", (word)ids_found());
    else printf("table: none would do, %d entries are the most\n", MARBLE_TABLE_MAX);
    return larger;
}

/* 1: the heap is in a new file, on its medium; else a message, and no file */
static int saved(const char *path) {
    void *file = fopen(path, "wbx");
    if (file == NULL) return failed(path);
    int whole = fwrite(heap, 1, heap_len, file) == heap_len && fflush(file) == 0 && fsync(fileno(file)) == 0;
    if (!whole) failed(path);
    if (fclose(file) != 0 && whole) whole = failed(path);
    if (!whole && remove(path) != 0) failed(path);
    return whole;
}

/* 1: all that was said is written; else a message */
static int told(void) {
    if (fflush(stdout) == 0 && !ferror(stdout)) return 1;
    fprintf(stderr, "bench: what was found could not be written\n");
    return 0;
}

static int rescue(const char *path, const char *to) {
    static uint8_t first[MARBLE_SLOTS_MAX];
    for (size_t slot = 0; slot < heap_len / s.slot_bytes; slot++) first[slot] = heap[slot * s.slot_bytes];
    uint64_t refusal = marble_salvage(s, heap, heap_len, table, MARBLE_TABLE_WORDS(table_len), report, &losses);
    if (refusal != MARBLE_OK) {
        fprintf(stderr, "bench: the salvage was refused with %llu\n", (word)refusal);
        return USAGE;
    }
    refusal = reopened();
    int accepted = refusal == MARBLE_OK, larger = 0;
    if (!told_losses(first, accepted)) return USAGE;
    if (accepted) told_accepted();
    else larger = told_too_small(refusal);
    if (!told() || (accepted && !saved(to))) return USAGE;
    if (losses == 0) printf("%s: nothing given up, ", path);
    else printf("%s: %s%llu slot%s given up%s, ", path, RED, (word)losses, losses == 1 ? "" : "s", PLAIN);
    if (accepted) printf("saved as %s\n", to);
    else printf("nothing saved%s\n", larger ? ": give a larger table, and write nothing before" : "");
    if (!told()) {
        if (accepted && remove(to) != 0) failed(to);
        return USAGE;
    }
    return !accepted ? UNSAVED : losses == 0 ? CLEAN : FAULTS;
}

/* ---- the words it is called with */

static int look(const char *path, int draws) {
    if (!checked()) return USAGE;
    if (draws) map();
    else told_list();
    if (faults == 0) printf("%s: nothing wrong\n", path);
    else printf("%s: %s%llu fault%s%s\n", path, RED, (word)faults, faults == 1 ? "" : "s", PLAIN);
    return !told() ? USAGE : faults == 0 ? CLEAN : FAULTS;
}

int main(int count, char **words) {
    uint64_t entries = table_len;
    int draws = count > 1 && strcmp(words[1], "map") == 0, rescues = count > 1 && strcmp(words[1], "rescue") == 0;
    int sizes = rescues ? 4 : 3; /* where S stands */
    if (count < sizes || count > sizes + 2 || (!draws && !rescues && strcmp(words[1], "check") != 0)) {
        fprintf(stderr, "usage: image check|map IMAGE [S [TABLE]], image rescue IMAGE RESCUED [S [TABLE]]\n");
        return USAGE;
    }
    if (count > sizes && !number("S", words[sizes], MARBLE_SLOT_BYTES_MIN, MARBLE_SLOT_BYTES_MAX, &s.slot_bytes)) return USAGE;
    if (count > sizes + 1 && !number("TABLE", words[sizes + 1], MARBLE_TABLE_MIN, MARBLE_TABLE_MAX, &entries)) return USAGE;
    if (rescues && access(words[3], 0) == 0) {
        fprintf(stderr, "bench: %s is there already, and is not written over\n", words[3]);
        return USAGE;
    }
    if (!image_read(words[2]) || !image_fits(words[2])) return USAGE;
    table_len = entries;
    table = room_for(MARBLE_TABLE_WORDS(table_len), sizeof *table);
    if (table == NULL) return USAGE;
    on_a_terminal = isatty(1);
    return rescues ? rescue(words[2], words[3]) : look(words[2], draws);
}
