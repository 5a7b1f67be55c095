/* The instruction table of document 01 in plain C, and what it allows of an operand: check.c and salvage.c have it in common. */
#include <stdint.h>

enum { NONE, CONSTANT, X, Y, M, SM, T, D, LABEL };

static const uint32_t limit[9] = {0, 0, 256, 256, 2000, 256, 256, 8000, 128};

/* What an operand must be. */
enum role { UNUSED, CONTACT, COIL, SOURCE, TARGET, QUOTIENT, TIMER, UNITS, PASSES, MARK };

/* What a record does to the rung. */
enum kind { IDLE, LOAD, LINK, JOIN, PUSH, PEEK, POP, ACTION, BREAK, JUMP };

enum { FOR = 19, NEXT = 20, CJ = 21, LBL = 22, END = 23 };

struct place {
    uint8_t role, bits, words;
};

struct row {
    uint8_t known, kind;
    struct place place[3];
};

#define S16 {SOURCE, 16, 1}
#define S32 {SOURCE, 32, 2}
#define T16 {TARGET, 16, 1}
#define T32 {TARGET, 32, 2}
#define BIT(k) {1, k, {{CONTACT, 1, 0}}}
#define BARE(k) {1, k, {{UNUSED, 0, 0}}}
#define OUTPUT {1, ACTION, {{COIL, 1, 0}}}
#define COMPARE {1, LOAD, {S16, S16}}

static const struct row table[256] = {
    [0] = BARE(IDLE),
    [1] = BIT(LOAD), [2] = BIT(LOAD), [3] = BIT(LINK), [4] = BIT(LINK), [5] = BIT(LINK), [6] = BIT(LINK),
    [7] = BARE(JOIN), [8] = BARE(JOIN), [9] = BARE(PUSH), [10] = BARE(PEEK), [11] = BARE(POP),
    [12] = OUTPUT, [13] = OUTPUT, [14] = OUTPUT,
    [15] = COMPARE, [16] = COMPARE, [17] = COMPARE,
    [18] = {1, ACTION, {{TIMER, 16, 0}, {UNITS, 16, 0}}},
    [FOR] = {1, BREAK, {{PASSES, 16, 0}}},
    [NEXT] = BARE(BREAK),
    [CJ] = {1, JUMP, {{MARK, 0, 0}}},
    [LBL] = {1, BREAK, {{MARK, 0, 0}}},
    [END] = BARE(BREAK),
    [32] = {1, ACTION, {S16, T16}},
    [33] = {1, ACTION, {S16, S16, T16}}, [34] = {1, ACTION, {S16, S16, T16}},
    [35] = {1, ACTION, {S16, S16, {QUOTIENT, 16, 2}}},
    [36] = {1, ACTION, {S16, T16}},
    [37] = {1, ACTION, {T16}}, [38] = {1, ACTION, {T16}},
    [39] = {1, ACTION, {S16, T16}}, [40] = {1, ACTION, {S16, T16}},
    [48] = {1, ACTION, {S32, T32}},
    [49] = {1, ACTION, {S32, S32, T32}}, [50] = {1, ACTION, {S32, S32, T32}}, [51] = {1, ACTION, {S32, S32, T32}},
    [52] = {1, ACTION, {S32, S32, {QUOTIENT, 32, 4}}},
    [53] = {1, ACTION, {S32, T32}},
    [54] = {1, ACTION, {T32}}, [55] = {1, ACTION, {T32}},
};

static uint32_t u32_at(const uint8_t *p) { return p[0] | p[1] << 8 | p[2] << 16 | (uint32_t)p[3] << 24; }

static int in_range(unsigned kind, uint32_t value, uint32_t n) { return (uint64_t)value + n <= limit[kind]; }

static int is_group(unsigned kind, unsigned group, uint32_t value, unsigned bits) {
    return group >= 1 && 4 * group <= bits && in_range(kind, value, 4 * group);
}

/* Is the operand of six bytes as the table allows? */
static int allowed(struct place place, const uint8_t *p) {
    unsigned kind = p[0], group = p[1];
    uint32_t value = u32_at(p + 2);
    int32_t number = (int32_t)value;
    switch (place.role) {
    case UNUSED:
        return kind == NONE && group == 0 && value == 0;
    case CONTACT:
        return kind >= X && kind <= T && group == 0 && in_range(kind, value, 1);
    case COIL:
        return (kind == Y || kind == M) && group == 0 && in_range(kind, value, 1);
    case SOURCE:
        switch (kind) {
        case CONSTANT:
            return group == 0 && (place.bits == 32 || (number >= -32768 && number <= 32767));
        case X:
        case Y:
        case M:
            return is_group(kind, group, value, place.bits);
        case T:
            return place.bits == 16 && group == 0 && in_range(T, value, 1);
        case D:
            return group == 0 && in_range(D, value, place.words);
        }
        return 0;
    case TARGET:
        if (kind == D) return group == 0 && in_range(D, value, place.words);
        return (kind == Y || kind == M) && is_group(kind, group, value, place.bits);
    case QUOTIENT:
        return kind == D && group == 0 && in_range(D, value, place.words);
    case TIMER:
        return kind == T && group == 0 && in_range(T, value, 1);
    case UNITS:
        return kind == CONSTANT && group == 0 && number >= 1 && number <= 32767;
    case PASSES:
        return kind == CONSTANT && group == 0 && number >= 0 && number <= 32767;
    case MARK:
        return kind == LABEL && group == 0 && in_range(LABEL, value, 1);
    }
    return 0;
}
