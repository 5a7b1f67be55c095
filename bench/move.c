/* The move and the use map of document 01 in plain C, over the check of check.c: what the proved ones are measured against.
   Nothing here is checked but what the document asks. */
#include "move.h"
#include "check.h"
#include <string.h>

enum { D = 7, D_WORDS = 8000, WORK = 7900 };
enum { READ = 1, WRITTEN = 2 };

/* How many D words each operand takes, and how they are used. */
struct use {
    uint8_t words[3], use[3];
};

#define TWO_READ {{1, 1}, {READ, READ}}
#define TO(n) {{n, n}, {READ, WRITTEN}}
#define OF_TWO(n, to) {{n, n, to}, {READ, READ, WRITTEN}}
#define CHANGED(n) {{n}, {READ | WRITTEN}}

static const struct use table[256] = {
    [15] = TWO_READ, [16] = TWO_READ, [17] = TWO_READ,
    [32] = TO(1), [33] = OF_TWO(1, 1), [34] = OF_TWO(1, 1), [35] = OF_TWO(1, 2),
    [36] = TO(1), [37] = CHANGED(1), [38] = CHANGED(1), [39] = TO(1), [40] = TO(1),
    [48] = TO(2), [49] = OF_TWO(2, 2), [50] = OF_TWO(2, 2), [51] = OF_TWO(2, 2), [52] = OF_TWO(2, 4),
    [53] = TO(2), [54] = CHANGED(2), [55] = CHANGED(2),
};

static uint32_t u32_at(const uint8_t *p) { return p[0] | p[1] << 8 | p[2] << 16 | (uint32_t)p[3] << 24; }

/* The extent of operand i of the record: its start is told, and its length given, 0 where it is not D. */
static uint32_t extent(const uint8_t *r, int i, uint32_t *start) {
    const uint8_t *p = r + 2 + 6 * i;
    if (p[0] != D) return 0;
    *start = u32_at(p + 2);
    return table[r[0]].words[i];
}

/* n words from w on, four at most: they lie in one byte of the map or in two. */
static void mark(uint8_t *map, uint32_t w, uint32_t n) {
    uint32_t bits = ((1u << n) - 1) << w % 8;
    map[w / 8] |= (uint8_t)bits;
    if (bits > 255) map[w / 8 + 1] |= (uint8_t)(bits >> 8);
}

void c_map(const uint8_t *file, size_t size, size_t told[2], uint8_t read[1000], uint8_t written[1000]) {
    uint64_t verdict[4];
    uint32_t start;
    memset(read, 0, 1000);
    memset(written, 0, 1000);
    c_check(file, size, verdict);
    told[0] = verdict[0], told[1] = verdict[1];
    if (verdict[0]) return;
    const uint8_t *r = file + size - 8 - 20 * verdict[2];
    for (uint64_t k = 0; k < verdict[2]; k++, r += 20)
        for (int i = 0; i < 3; i++) {
            uint32_t n = extent(r, i, &start), use = table[r[0]].use[i];
            if (n == 0) continue;
            if (use & READ) mark(read, start, n);
            if (use & WRITTEN) mark(written, start, n);
        }
}

/* The first record with an extent that is partly in the block, or -1. */
static int split(const uint8_t *r, int count, uint32_t start, uint32_t length) {
    uint32_t a;
    for (int k = 0; k < count; k++, r += 20)
        for (int i = 0; i < 3; i++) {
            uint32_t n = extent(r, i, &a), end = start + length;
            if (n && a < end && start < a + n && (a < start || end < a + n)) return k;
        }
    return -1;
}

/* The lowest place, or -1. */
static int lowest(const uint8_t *r, int count, uint32_t start, uint32_t length, uint32_t from, uint32_t end) {
    uint8_t used[D_WORDS] = {0};
    uint32_t a, free = 0;
    memset(used + WORK, 1, D_WORDS - WORK);
    memset(used + start, 1, length);
    for (int k = 0; k < count; k++, r += 20)
        for (int i = 0; i < 3; i++) {
            uint32_t n = extent(r, i, &a);
            while (n > 0) used[a + --n] = 1;
        }
    for (uint32_t w = from; w < end; w++) {
        free = used[w] ? 0 : free + 1;
        if (free == length) return w + 1 - length;
    }
    return -1;
}

static void rename_block(uint8_t *r, int count, uint32_t start, uint32_t length, uint32_t place) {
    uint32_t a;
    for (int k = 0; k < count; k++, r += 20)
        for (int i = 0; i < 3; i++)
            if (extent(r, i, &a) && a >= start && a < start + length) {
                a = a - start + place;
                for (int j = 0; j < 4; j++) r[4 + 6 * i + j] = a >> 8 * j;
            }
}

static void refuse(size_t told[3], size_t number, size_t record) { told[0] = number, told[1] = record, told[2] = 0; }

void c_move(uint8_t *file, size_t size, uint32_t start, uint32_t length, uint32_t from, uint32_t end, size_t told[3]) {
    uint64_t verdict[4];
    int k;
    c_check(file, size, verdict);
    if (verdict[0]) return refuse(told, verdict[0], verdict[1]);
    int count = verdict[2];
    uint8_t *r = file + size - 8 - 20 * count;
    if (length == 0 || start > D_WORDS || length > D_WORDS - start) return refuse(told, 10, 0);
    if (from > end || end > D_WORDS) return refuse(told, 11, 0);
    if (start + length > WORK) return refuse(told, 12, 0);
    if ((k = split(r, count, start, length)) >= 0) return refuse(told, 13, k);
    if ((k = lowest(r, count, start, length, from, end)) < 0) return refuse(told, 14, 0);
    rename_block(r, count, start, length, k);
    told[0] = told[1] = 0;
    told[2] = k;
}
