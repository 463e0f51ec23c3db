/* Makes the library's calls for a program on another processor. It reads
 * batches of cases from standard input and writes what the calls returned and
 * left in their rooms to standard output; all numbers have the low byte first.
 *
 *   batch:  u32 length of what follows, then cases
 *   case:   u8 kind, u8 placement of each slice, u32 numbers[6],
 *           u32 lengths[4], then the bytes of the four slices: three that are
 *           read, and the room
 *   reply:  u32 length of what follows, then for each case
 *           u64 returned, u32 faults, u32 length, the bytes of the room
 *
 * Kinds, numbers and slices are those of the list in src/interface.rs, in its
 * order. Placement: 0 flush with the start of the memory, 255 flush with its
 * end, else so many bytes from the start. The memory lies between two pages
 * that may not be touched. Faults: 1 guard bytes changed, 2 bytes lent for
 * reading changed.
 *
 * It is compiled with no C header at hand but stddef.h and stdint.h beside it,
 * so it declares what it uses. */

#include "folvkin.h"

typedef uint8_t u8;
typedef uint32_t u32;
typedef uint64_t u64;
typedef size_t usize;

long read(int file, void *to, usize length);
long write(int file, const void *from, usize length);
void *mmap(void *address, usize length, int protection, int flags, int file, long offset);
int mprotect(void *address, usize length, int protection);
void *memcpy(void *to, const void *from, usize length);
int memcmp(const void *one, const void *other, usize length);
void _exit(int status);

enum { PAGE = 4096, LOOKED_AT = 64 };
enum { SMALL = 2 * PAGE, LARGE = 512 * PAGE, BATCH = 16 << 20 };
enum { NUMBERS = 6, READ = 3, ROOM = READ, SLICES };
enum { GUARDS_CHANGED = 1, READ_CHANGED = 2 };

struct lent {
    u8 *memory;
    usize size, start, length;
};

static struct lent lent[SLICES];

/* The guard bytes, by their place in a memory. */
static u8 guards[LARGE];

static void make_guards(void) {
    for (usize at = 0; at < LARGE; at++) guards[at] = (u8)(at * 167 >> 1) ^ 0x5a;
}

static u8 *pages(usize size) {
    u8 *whole = mmap(0, size + 2 * PAGE, 0, 0x02 | 0x20, -1, 0);
    if ((long)whole == -1 || mprotect(whole + PAGE, size, 1 | 2) != 0) _exit(3);
    return whole + PAGE;
}

static void make_all(void) {
    for (int k = 0; k < SLICES; k++) {
        lent[k].size = k == ROOM ? LARGE : SMALL;
        lent[k].memory = pages(lent[k].size);
        lent[k].start = lent[k].length = 0;
        memcpy(lent[k].memory, guards, lent[k].size);
    }
}

static void lend(struct lent *to, const u8 *bytes, usize length, u8 placement) {
    if (length > to->size) _exit(4);
    memcpy(to->memory + to->start, guards + to->start, to->length);
    usize last = to->size - length;
    to->start = placement == 255 || placement > last ? last : placement;
    to->length = length;
    memcpy(to->memory + to->start, bytes, length);
}

static u8 *bytes_of(int k) { return lent[k].memory + lent[k].start; }

/* Whether so many guard bytes on each side are as they were. */
static int guarded(const struct lent *one, usize far) {
    usize end = one->start + one->length;
    usize from = one->start > far ? one->start - far : 0;
    usize to = one->size - end > far ? end + far : one->size;
    return memcmp(one->memory + from, guards + from, one->start - from) == 0 &&
           memcmp(one->memory + end, guards + end, to - end) == 0;
}

static int read_all(u8 *to, usize length) {
    while (length > 0) {
        long got = read(0, to, length);
        if (got <= 0) return 0;
        to += got;
        length -= got;
    }
    return 1;
}

static void write_all(const u8 *from, usize length) {
    while (length > 0) {
        long put = write(1, from, length);
        if (put <= 0) _exit(5);
        from += put;
        length -= put;
    }
}

/* A slice crosses as pointer and length. */
#define SLICE(k) bytes_of(k), lent[k].length

static u64 call(u8 kind, const u32 *x) {
    switch (kind) {
    case 0: return folvkin_plan(SLICE(0));
    case 1: return folvkin_situation(SLICE(0), SLICE(1));
    case 2: return folvkin_event(SLICE(0), SLICE(1), SLICE(2), SLICE(ROOM));
    case 3: return folvkin_aspects(SLICE(0), SLICE(1), SLICE(ROOM));
    case 4: return folvkin_reading(SLICE(0), SLICE(1), SLICE(2));
    case 5: return folvkin_question(SLICE(0));
    case 6: return folvkin_key(SLICE(0), SLICE(1), SLICE(ROOM));
    case 7: return folvkin_run(SLICE(0), SLICE(1));
    case 8: return folvkin_mark(x[0], x[1], x[2], x[3], x[4], x[5], SLICE(ROOM));
    }
    _exit(6);
    return 0;
}

/* What was touched that should not be, after a call on slices that held these
 * bytes. */
static u32 faults_after(const u8 *const *bytes, usize far) {
    u32 faults = 0;
    for (int k = 0; k < SLICES; k++) {
        if (!guarded(&lent[k], far)) faults |= GUARDS_CHANGED;
        if (k != ROOM && memcmp(bytes_of(k), bytes[k], lent[k].length) != 0) faults |= READ_CHANGED;
    }
    return faults;
}

/* Runs the case at *in and writes its reply to *out; both move on. */
static void run_case(const u8 **in, const u8 *end, u8 **out) {
    u32 x[NUMBERS], n[SLICES];
    const u8 *head = *in, *bytes[SLICES];
    memcpy(x, head + 1 + SLICES, sizeof x);
    memcpy(n, head + 1 + SLICES + sizeof x, sizeof n);
    *in += 1 + SLICES + sizeof x + sizeof n;
    for (int k = 0; k < SLICES; k++) {
        bytes[k] = *in;
        *in += n[k];
        lend(&lent[k], bytes[k], n[k], head[1 + k]);
    }
    u64 returned = call(head[0], x);
    /* All guards at the last case of a batch. */
    u32 faults = faults_after(bytes, *in < end ? LOOKED_AT : LARGE);
    memcpy(*out, &returned, 8);
    memcpy(*out + 8, &faults, 4);
    memcpy(*out + 12, &n[ROOM], 4);
    memcpy(*out + 16, bytes_of(ROOM), n[ROOM]);
    *out += 16 + n[ROOM];
    if (faults & GUARDS_CHANGED) make_all();
}

int main(void) {
    u8 *batch = pages(BATCH), *reply = pages(BATCH);
    u32 length;
    make_guards();
    make_all();
    while (read_all((u8 *)&length, 4)) {
        if (length > BATCH || !read_all(batch, length)) return 7;
        const u8 *in = batch;
        u8 *out = reply + 4;
        while (in < batch + length) run_case(&in, batch + length, &out);
        u32 written = out - (reply + 4);
        memcpy(reply, &written, 4);
        write_all(reply, 4 + (usize)written);
    }
    return 0;
}
