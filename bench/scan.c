/* The scan of documents 01 and 02 in plain C: what the proved scan is measured against. The program has passed the check, so of it nothing is checked
   here; leftovers and elapsed are.
   Each record is decoded once, before the run. It is written for speed, as one would for a machine with the lowest byte first: a group is one number
   of eight bytes where its table has them, the three flags are put at once, and a root is the processor's own. */
#include "scan.h"
#include <math.h>
#include <stddef.h>
#include <string.h>

enum { CONSTANT = 1, X, Y, M, SM, T, D };
enum { NOP, LD, LDI, AND, ANI, OR, ORI, ANB, ORB, MPS, MRD, MPP, OUT, SET, RST, LDEQ, LDGT, LDLT, TON, FOR, NEXT, CJ, LBL, END };
enum { MOV = 32, ADD, SUB, DIV, SQT, INC, DEC, VABS, NEG, DMOV = 48, DADD, DSUB, DMUL, DDIV, DSQT, DINC, DDEC };

struct operand {
    uint8_t kind, group;
    int32_t value;
};

struct instruction {
    uint8_t number;
    uint16_t place; /* FOR: its NEXT. CJ: its label. TON: its base */
    struct operand a, b, c;
};

struct machine {
    struct memory *memory;
    int flow; /* absent counts as off */
    int fresh; /* the next LD starts a rung */
    uint8_t blocks, branches;
    int units[3]; /* of each base */
};

static int32_t i32_at(const uint8_t *p) { return p[0] | p[1] << 8 | p[2] << 16 | (int32_t)((uint32_t)p[3] << 24); }

static struct operand operand_at(const uint8_t *p) { return (struct operand){p[0], p[1], i32_at(p + 2)}; }

/* ---- memory */

static int bit(const uint8_t *bits, int k) { return bits[k >> 3] >> (k & 7) & 1; }

static void put(uint8_t *bits, int k, int on) { bits[k >> 3] = (bits[k >> 3] & ~(1 << (k & 7))) | on << (k & 7); }

/* Where the bits of each kind begin in the memory, and how many bytes they have. */
static const uint16_t begin[] = {[X] = offsetof(struct memory, x), [Y] = offsetof(struct memory, y), [M] = offsetof(struct memory, m),
                                 [SM] = offsetof(struct memory, sm), [T] = offsetof(struct memory, t)};
static const uint8_t bytes[] = {[X] = 32, [Y] = 32, [M] = 250, [SM] = 32, [T] = 32};

static uint8_t *bits_of(struct memory *m, int kind) { return (uint8_t *)m + begin[kind]; }

/* The bytes from p on as one number: eight, or as many as there are left in the table. */
static uint64_t bytes_at(const uint8_t *p, int left) {
    uint64_t v = 0;
    if (left >= 8)
        memcpy(&v, p, 8);
    else
        while (left-- > 0) v = v << 8 | p[left];
    return v;
}

static void put_bytes(uint8_t *p, int left, uint64_t v) {
    if (left >= 8)
        memcpy(p, &v, 8);
    else
        for (; left > 0; left--, v >>= 8) *p++ = (uint8_t)v;
}

/* A group of n times four bits touches five bytes at most. */
static uint32_t gather(struct memory *m, struct operand o) {
    int at = o.value >> 3;
    uint64_t v = bytes_at(bits_of(m, o.kind) + at, bytes[o.kind] - at);
    return v >> (o.value & 7) & ((1ull << 4 * o.group) - 1);
}

static void scatter(struct memory *m, struct operand o, uint32_t v) {
    int at = o.value >> 3, shift = o.value & 7, left = bytes[o.kind] - at;
    uint8_t *p = bits_of(m, o.kind) + at;
    uint64_t mask = ((1ull << 4 * o.group) - 1) << shift;
    put_bytes(p, left, (bytes_at(p, left) & ~mask) | ((uint64_t)v << shift & mask));
}

static int32_t load16(struct memory *m, struct operand o) {
    switch (o.kind) {
    case CONSTANT:
        return o.value;
    case D:
        return m->d[o.value];
    case T:
        return m->tv[o.value];
    default:
        return (int16_t)gather(m, o);
    }
}

static int32_t load32(struct memory *m, struct operand o) {
    switch (o.kind) {
    case CONSTANT:
        return o.value;
    case D:
        return (int32_t)((uint32_t)(uint16_t)m->d[o.value] << 16 | (uint16_t)m->d[o.value + 1]);
    default:
        return (int32_t)gather(m, o);
    }
}

static void store16(struct memory *m, struct operand o, int32_t v) {
    if (o.kind == D)
        m->d[o.value] = (int16_t)v;
    else
        scatter(m, o, v);
}

static void put32(struct memory *m, int k, int32_t v) {
    m->d[k] = (int16_t)((uint32_t)v >> 16);
    m->d[k + 1] = (int16_t)v;
}

static void store32(struct memory *m, struct operand o, int32_t v) {
    if (o.kind == D)
        put32(m, o.value, v);
    else
        scatter(m, o, v);
}

/* SM180, SM181 and SM182 are bits 4, 5 and 6 of one byte. */
static void flags(struct memory *m, int zero, int above, int below) {
    m->sm[22] = (m->sm[22] & ~0x70) | zero << 4 | above << 5 | below << 6;
}

static void sum16(struct memory *m, struct operand o, int32_t v) {
    flags(m, v == 0, v > 32767, v < -32768);
    store16(m, o, v);
}

static void sum32(struct memory *m, struct operand o, int64_t v) {
    flags(m, v == 0, v > INT32_MAX, v < INT32_MIN);
    store32(m, o, (int32_t)v);
}

/* v is not below 0. A double holds it, and the root of it rounded down is exact. */
static int32_t root(int32_t v) { return (int32_t)sqrt(v); }

static int32_t rooted(struct memory *m, int32_t v) {
    int32_t r = root(v);
    flags(m, r == 0, 0, (int64_t)r * r != v);
    return r;
}

/* ---- one instruction */

static void load(struct machine *s, int on) {
    if (!s->fresh) s->blocks = s->blocks << 1 | s->flow;
    s->flow = on;
    s->fresh = 0;
}

static int pop(uint8_t *stack) {
    int on = *stack & 1;
    *stack >>= 1;
    return on;
}

static void timer(struct machine *s, int k, int units, int limit) {
    struct memory *m = s->memory;
    int v = 0;
    if (s->flow) {
        v = (m->tv[k] < 0 ? 0 : m->tv[k]) + units;
        if (v > limit) v = limit;
    }
    m->tv[k] = (int16_t)v;
    put(m->t, k, s->flow && v == limit);
}

/* With flow. Gives the error, or 0. */
static int word(struct memory *m, const struct instruction *i) {
    int32_t a, b;
    switch (i->number) {
    case MOV:
        store16(m, i->b, load16(m, i->a));
        break;
    case ADD:
        sum16(m, i->c, load16(m, i->a) + load16(m, i->b));
        break;
    case SUB:
        sum16(m, i->c, load16(m, i->a) - load16(m, i->b));
        break;
    case DIV:
        a = load16(m, i->a), b = load16(m, i->b);
        if (b == 0) return 1;
        m->d[i->c.value] = (int16_t)(a / b);
        m->d[i->c.value + 1] = (int16_t)(a % b);
        break;
    case SQT:
        a = load16(m, i->a);
        if (a < 0) return 2;
        store16(m, i->b, rooted(m, a));
        break;
    case INC:
        store16(m, i->a, load16(m, i->a) + 1);
        break;
    case DEC:
        store16(m, i->a, load16(m, i->a) - 1);
        break;
    case VABS:
        a = load16(m, i->a);
        if (a == -32768) return 2;
        store16(m, i->b, a < 0 ? -a : a);
        break;
    case NEG:
        a = load16(m, i->a);
        if (a == -32768) return 2;
        store16(m, i->b, -a);
        break;
    case DMOV:
        store32(m, i->b, load32(m, i->a));
        break;
    case DADD:
        sum32(m, i->c, (int64_t)load32(m, i->a) + load32(m, i->b));
        break;
    case DSUB:
        sum32(m, i->c, (int64_t)load32(m, i->a) - load32(m, i->b));
        break;
    case DMUL:
        store32(m, i->c, (int32_t)((uint32_t)load32(m, i->a) * (uint32_t)load32(m, i->b)));
        break;
    case DDIV:
        a = load32(m, i->a), b = load32(m, i->b);
        if (b == 0) return 1;
        put32(m, i->c.value, (int32_t)((int64_t)a / b));
        put32(m, i->c.value + 2, (int32_t)((int64_t)a % b));
        break;
    case DSQT:
        a = load32(m, i->a);
        if (a < 0) return 2;
        store32(m, i->b, rooted(m, a));
        break;
    case DINC:
        store32(m, i->a, (int32_t)((uint32_t)load32(m, i->a) + 1));
        break;
    case DDEC:
        store32(m, i->a, (int32_t)((uint32_t)load32(m, i->a) - 1));
        break;
    }
    return 0;
}

/* ---- the time */

enum { LONGEST = 10000 };
enum { HUNDREDS, TENS, ONES };

static int base(int k) { return k < 210 ? HUNDREDS : k < 252 ? TENS : ONES; }

static int in_range(const uint8_t rest[2], uint32_t elapsed) { return rest[0] < 10 && rest[1] < 100 && elapsed <= LONGEST; }

/* The units that a timer of each base is given in this scan. Sets the leftovers. */
static void tick(uint8_t rest[2], int elapsed, int units[3]) {
    int tens = rest[0] + elapsed, hundreds = rest[1] + elapsed;
    units[HUNDREDS] = hundreds / 100, units[TENS] = tens / 10, units[ONES] = elapsed;
    rest[0] = (uint8_t)(tens % 10), rest[1] = (uint8_t)(hundreds % 100);
}

/* ---- the run */

static void decode(const uint8_t *r, int count, struct instruction *code) {
    int open[8], depth = 0;
    uint16_t labels[128] = {0};
    for (int k = 0; k < count; k++, r += 20) {
        code[k] = (struct instruction){r[0], 0, operand_at(r + 2), operand_at(r + 8), operand_at(r + 14)};
        if (r[0] == FOR) open[depth++] = k;
        if (r[0] == NEXT) code[open[--depth]].place = k;
        if (r[0] == LBL) labels[r[4]] = k;
        if (r[0] == TON) code[k].place = base(code[k].a.value);
    }
    for (int k = 0; k < count; k++)
        if (code[k].number == CJ) code[k].place = labels[code[k].a.value];
}

void c_scan(const uint8_t *file, size_t size, struct memory *m, uint32_t elapsed, uint32_t budget, size_t told[7]) {
    struct instruction code[2000];
    int left[8], back[8], depth = 0, ended = 0, error = 0, at = 0;
    uint32_t pc = 0, steps = 0;
    int count = file[size - 6] | file[size - 5] << 8;
    if (!in_range(m->rest, elapsed)) {
        memcpy(told, (size_t[7]){9}, 7 * sizeof *told);
        return;
    }
    decode(file + size - 20 * count - 8, count, code);
    struct machine s = {m, 0, 1, 0, 0, {0}};
    tick(m->rest, elapsed, s.units);
    put(m->sm, 0, 1);
    while (steps < budget && !ended) {
        const struct instruction *i = &code[pc];
        steps++;
        switch (i->number) {
        case NOP:
            break;
        case LD:
            load(&s, bit(bits_of(m, i->a.kind), i->a.value));
            break;
        case LDI:
            load(&s, !bit(bits_of(m, i->a.kind), i->a.value));
            break;
        case AND:
            s.flow &= bit(bits_of(m, i->a.kind), i->a.value);
            s.fresh = 0;
            break;
        case ANI:
            s.flow &= !bit(bits_of(m, i->a.kind), i->a.value);
            s.fresh = 0;
            break;
        case OR:
            s.flow |= bit(bits_of(m, i->a.kind), i->a.value);
            s.fresh = 0;
            break;
        case ORI:
            s.flow |= !bit(bits_of(m, i->a.kind), i->a.value);
            s.fresh = 0;
            break;
        case ANB:
            s.flow &= pop(&s.blocks);
            s.fresh = 0;
            break;
        case ORB:
            s.flow |= pop(&s.blocks);
            s.fresh = 0;
            break;
        case MPS:
            s.branches = s.branches << 1 | s.flow;
            s.fresh = 0;
            break;
        case MRD:
            s.flow = s.branches & 1;
            s.fresh = 0;
            break;
        case MPP:
            s.flow = pop(&s.branches);
            s.fresh = 0;
            break;
        case OUT:
            put(bits_of(m, i->a.kind), i->a.value, s.flow);
            s.fresh = 1;
            break;
        case SET:
            if (s.flow) put(bits_of(m, i->a.kind), i->a.value, 1);
            s.fresh = 1;
            break;
        case RST:
            if (s.flow) put(bits_of(m, i->a.kind), i->a.value, 0);
            s.fresh = 1;
            break;
        case LDEQ:
            load(&s, load16(m, i->a) == load16(m, i->b));
            break;
        case LDGT:
            load(&s, load16(m, i->a) > load16(m, i->b));
            break;
        case LDLT:
            load(&s, load16(m, i->a) < load16(m, i->b));
            break;
        case TON:
            timer(&s, i->a.value, s.units[i->place], i->b.value);
            s.fresh = 1;
            break;
        case FOR:
            s.flow = 0, s.fresh = 1;
            if (i->a.value == 0)
                pc = i->place;
            else
                left[depth] = i->a.value, back[depth++] = pc;
            break;
        case NEXT:
            s.flow = 0, s.fresh = 1;
            if (--left[depth - 1])
                pc = back[depth - 1];
            else
                depth--;
            break;
        case CJ:
            if (s.flow) pc = i->place - 1;
            s.flow = 0, s.fresh = 1;
            break;
        case LBL:
            s.flow = 0, s.fresh = 1;
            break;
        case END:
            ended = 1;
            continue;
        default:
            if (s.flow) {
                int e = word(m, i);
                if (e && !error) error = e, at = pc;
            }
            s.fresh = 1;
        }
        pc++;
    }
    told[0] = told[1] = 0;
    told[2] = ended ? 1 : 2;
    told[3] = steps;
    told[4] = pc;
    told[5] = error;
    told[6] = at;
}
