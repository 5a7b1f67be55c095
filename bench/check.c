/* The check of document 01, refusals 1 to 8, in plain C: what the proved check is measured against.
   Nothing here is checked but what the document asks. */
#include "check.h"
#include "table.h"

static uint32_t u16_at(const uint8_t *p) { return p[0] | p[1] << 8; }

/* The operand is allowed; does it write to D7900 to D7999? */
static int in_work(struct place place, const uint8_t *p) {
    return (place.role == TARGET || place.role == QUOTIENT) && p[0] == D && u32_at(p + 2) + place.words > 7900;
}

/* Refusals 2, 3 and 4 of one record. */
static int fault(const uint8_t *r) {
    const struct row *row = &table[r[0]];
    if (!row->known || r[1] != 0) return 2;
    for (int i = 0; i < 3; i++)
        if (!allowed(row->place[i], r + 2 + 6 * i)) return 3;
    for (int i = 0; i < 3; i++)
        if (in_work(row->place[i], r + 2 + 6 * i)) return 4;
    return 0;
}

/* The first record that breaks the rung rule, or -1. */
static int rungs(const uint8_t *r, int count) {
    int present = 0, action = 0, blocks = 0, branches = 0;
    for (int k = 0; k < count; k++, r += 20) {
        unsigned kind = table[r[0]].kind;
        switch (kind) {
        case IDLE:
            continue;
        case LOAD:
            if (!present || action) {
                if (blocks || branches) return k;
            } else if (++blocks > 8) return k;
            break;
        case LINK:
            if (!present) return k;
            break;
        case JOIN:
            if (!present || blocks-- == 0) return k;
            break;
        case PUSH:
            if (!present || blocks || ++branches > 8) return k;
            break;
        case PEEK:
            if (!present || blocks || branches == 0) return k;
            break;
        case POP:
            if (!present || blocks || branches-- == 0) return k;
            break;
        case ACTION:
            if (!present || blocks) return k;
            break;
        case JUMP:
            if (!present) return k;
            /* fall through */
        case BREAK:
            if (blocks || branches) return k;
            break;
        }
        present = kind != BREAK && kind != JUMP;
        action = kind == ACTION;
    }
    return -1;
}

enum { CAP = 10000001 };

/* The first record that breaks the structure, or -1. Told besides: W, or CAP if it is larger; of each record the FOR that it stands in directly,
   or -1; and of each label one more than its first LBL, or 0. */
static int loops(const uint8_t *r, int count, int16_t *body, uint16_t *place, uint64_t *w) {
    uint64_t outer[8], passes[8], steps = 0;
    int16_t start[9];
    int depth = 0;
    start[0] = -1;
    for (int k = 0; k < count; k++, r += 20) {
        switch (r[0]) {
        case FOR:
            body[k] = start[depth];
            if (k == count - 1 || depth == 8) return k;
            outer[depth] = steps;
            passes[depth] = u32_at(r + 4);
            steps = 0;
            start[++depth] = k;
            continue;
        case NEXT:
            if (k == count - 1 || depth == 0) return k;
            depth--;
            steps = outer[depth] + 1 + passes[depth] * (steps + 1);
            break;
        case END:
            if (k != count - 1 || depth) return k;
            steps++;
            break;
        case LBL:
            if (place[r[4]] == 0) place[r[4]] = k + 1;
            /* fall through */
        default:
            if (k == count - 1) return k;
            steps++;
        }
        if (steps > CAP) steps = CAP;
        body[k] = start[depth];
    }
    *w = steps;
    return -1;
}

/* The first record that sets a label twice or jumps where it must not, or -1. */
static int labels(const uint8_t *r, int count, const int16_t *body, const uint16_t *place) {
    for (int k = 0; k < count; k++, r += 20) {
        if (r[0] == LBL && place[r[4]] != k + 1) return k;
        if (r[0] == CJ) {
            int to = place[r[4]] - 1;
            if (to < k || body[to] != body[k]) return k;
        }
    }
    return -1;
}

static void refuse(uint64_t out[4], uint64_t number, uint64_t record) {
    out[0] = number;
    out[1] = record;
    out[2] = out[3] = 0;
}

void c_check(const uint8_t *file, size_t size, uint64_t out[4]) {
    int16_t body[2000];
    uint16_t place[128] = {0};
    uint64_t w = 0;
    int k;
    if (size < 8) return refuse(out, 1, 0);
    const uint8_t *trailer = file + size - 8;
    int count = u16_at(trailer + 2);
    uint32_t distance = u32_at(trailer + 4);
    if (u16_at(trailer) != 1 || count < 1 || count > 2000 || distance != 20 * (uint32_t)count + 8 || distance > size ||
        size - distance > 4096)
        return refuse(out, 1, 0);
    const uint8_t *r = file + size - distance;
    for (k = 0; k < count; k++) {
        int n = fault(r + 20 * k);
        if (n) return refuse(out, n, k);
    }
    if ((k = rungs(r, count)) >= 0) return refuse(out, 5, k);
    if ((k = loops(r, count, body, place, &w)) >= 0) return refuse(out, 6, k);
    if ((k = labels(r, count, body, place)) >= 0) return refuse(out, 7, k);
    if (w > 10000000) return refuse(out, 8, 0);
    out[0] = out[1] = 0;
    out[2] = count;
    out[3] = w;
}
