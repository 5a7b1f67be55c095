/* Writes the programs that the scans are timed on, each by its name, into the folder that it is given. Most are a body of rungs in a loop, or in
   loops, that makes about 10,000,000 steps, the most that a program may. Those whose names end in a number show the growth: straight-N goes once
   over its N records, steps-N makes about N steps, all by the same records but for the passes of FOR, and roots-N takes roots of N. On timers,
   which has those of all three bases, the scans are only compared. */
#include "compose.h"

enum { MOST_STEPS = 10000000, ROOT_STEPS = 1000000, TIMER_STEPS = 100000 };

/* The body stands at the start of the file: it is put into a loop, or in two, that make as many passes as come to at most so many steps. */
static void looped(int steps) {
    int body = count, outer = 1, passes = (steps - 2) / (body + 1);
    if (passes > 32767) outer = 100, passes = ((steps - 2) / outer - 2) / (body + 1);
    memmove(file + 40, file, 20 * count);
    count = 0;
    put1(FOR, CONSTANT, outer);
    put1(FOR, CONSTANT, passes);
    count = body + 2;
    put(NEXT);
    put(NEXT);
    put(END);
}

enum { BIT_RUNGS = 22, WORD_RUNGS = 15 };

/* Coils with a hold, blocks in series and in parallel, branches, timers: 22 records. */
static void bit_rungs(int i) {
    put1(LD, X, 9 * i);
    put1(OR, Y, 5 * i);
    put1(ANI, X, 7 * i + 1);
    put1(OUT, Y, 5 * i);
    put1(LD, M, 31 * i);
    put1(ANI, T, i);
    put1(LDI, M, 31 * i + 1);
    put1(AND, X, 3 * i + 2);
    put(ORB);
    put1(LD, SM, 2 * i);
    put1(ORI, Y, 5 * i + 1);
    put(ANB);
    put1(OUT, M, 31 * i + 2);
    put1(LD, M, 31 * i + 2);
    put(MPS);
    put1(AND, X, 11 * i);
    put1(SET, M, 31 * i + 3);
    put(MRD);
    put1(ANI, X, 11 * i);
    put1(RST, M, 31 * i + 3);
    put(MPP);
    put2(TON, T, i, CONSTANT, 200 + i);
}

/* The first and the last timer of each base, with flow and without. */
static void timers(void) {
    static const int edges[] = {0, 209, 210, 251, 252, 255};
    for (int i = 0; i < 6; i++) {
        put1(LDI, M, i);
        put2(TON, T, edges[i], CONSTANT, 100 + 900 * i);
        put1(LD, T, edges[i]);
        put1(OUT, M, i);
    }
    looped(TIMER_STEPS);
}

/* 16-bit words: moves, sums, a quotient, comparisons, counts: 15 records. */
static void word_rungs(int i) {
    int d = 20 * i;
    put1(LD, SM, 0);
    put3(ADD, D, d, D, d + 1, D, d + 2);
    put3(SUB, D, d + 2, CONSTANT, 77, D, d + 3);
    put2(MOV, D, d + 3, D, d);
    put1(INC, D, d + 1);
    put1(DEC, D, d + 4);
    put3(DIV, D, d + 2, CONSTANT, 10, D, d + 5);
    put2(VABS, D, d + 5, D, d + 7);
    put2(NEG, D, d + 7, D, d + 8);
    put2(LDGT, D, d + 2, CONSTANT, 1000);
    put2(MOV, CONSTANT, 12, D, d + 9);
    put2(LDLT, D, d + 3, D, d + 4);
    put1(INC, D, d + 10);
    put2(LDEQ, D, d + 1, T, i);
    put1(DEC, D, d + 11);
}

static void bits(void) {
    for (int i = 0; i < 8; i++) bit_rungs(i);
    looped(MOST_STEPS);
}

static void words(void) {
    for (int i = 0; i < 8; i++) word_rungs(i);
    looped(MOST_STEPS);
}

/* Both in turn, once over: n records. */
static void straight(int n) {
    for (int i = 0; count + WORD_RUNGS < n; i++) {
        if (count + BIT_RUNGS < n) bit_rungs(i % 8);
        if (count + WORD_RUNGS < n) word_rungs(i % 8);
    }
    fill(n);
}

/* Both in turn, 296 records in a loop that comes to about so many steps. */
static void mixed(int steps) {
    for (int i = 0; i < 8; i++) {
        bit_rungs(i);
        word_rungs(i);
    }
    looped(steps);
}

/* 32-bit words with divisions, and with roots or without. */
static void sums(int roots) {
    for (int i = 0; i < 8; i++) {
        int d = 40 * i;
        put1(LD, SM, 0);
        put3(DADD, D, d, D, d + 2, D, d + 4);
        put3(DSUB, D, d + 4, CONSTANT, 100000, D, d + 6);
        put3(DMUL, D, d + 4, D, d + 6, D, d + 8);
        put3(DDIV, D, d + 8, CONSTANT, 2000, D, d + 10);
        put2(DMOV, D, d + 10, D, d);
        put1(DINC, D, d + 2);
        put1(DDEC, D, d + 14);
        if (roots) put2(DSQT, CONSTANT, 83000 + 1000 * i, D, d + 16);
        put2(DMOV, D, d + 12, D, d + 18);
    }
    looped(MOST_STEPS);
}

static void pairs(void) { sums(1); }
static void rootless(void) { sums(0); }

/* The root of one number, at 24 records of 26 in a loop. */
static void roots(int number) {
    put1(LD, SM, 0);
    for (int i = 0; i < 24; i++) put2(DSQT, CONSTANT, number, D, 2 * i);
    looped(ROOT_STEPS);
}

/* Groups of bits as numbers of both widths. */
static void groups(void) {
    for (int i = 0; i < 8; i++) {
        put1(LD, SM, 0);
        put2(MOV, X, 16 * i, D, i);
        with(0, X, 4, 16 * i);
        put2(MOV, D, i, M, 40 * i + 3);
        with(1, M, 4, 40 * i + 3);
        put3(ADD, M, 40 * i, CONSTANT, 3, Y, 8 * i);
        with(0, M, 2, 40 * i);
        with(2, Y, 2, 8 * i);
        put2(DMOV, M, 40 * i + 5, D, 100 + 2 * i);
        with(0, M, 8, 40 * i + 5);
        put1(DINC, M, 40 * i + 500);
        with(0, M, 8, 40 * i + 500);
    }
    looped(MOST_STEPS);
}

/* FOR 1000, FOR 9997, NEXT, NEXT, 998 NOP, END: W is 10,000,000. */
static void loops(void) {
    put1(FOR, CONSTANT, 1000);
    put1(FOR, CONSTANT, 9997);
    put(NEXT);
    put(NEXT);
    for (int i = 0; i < 998; i++) put(NOP);
    put(END);
}

/* Eight loops in one another around a jump and a rung. */
static void deep(void) {
    for (int i = 0; i < 8; i++) put1(FOR, CONSTANT, i < 3 ? 5 : 6);
    put1(LDI, SM, 0);
    put1(CJ, LABEL, 1);
    put1(LD, SM, 0);
    put1(INC, D, 0);
    put1(LD, SM, 0);
    put1(CJ, LABEL, 1);
    put1(LD, SM, 0);
    put1(LBL, LABEL, 1);
    for (int i = 0; i < 8; i++) put(NEXT);
    put(END);
}

int main(int arguments, char **argument) {
    static const struct {
        const char *name;
        void (*compose)(void);
    } all[] = {{"bits", bits}, {"words", words}, {"pairs", pairs}, {"rootless", rootless}, {"groups", groups}, {"loops", loops}, {"deep", deep},
               {"timers", timers}};
    static const int sizes[] = {100, 500, MOST}, numbers[] = {0, 100, 83000, INT32_MAX};
    if (arguments != 2) {
        fprintf(stderr, "usage: programs FOLDER\n");
        return 1;
    }
    for (size_t i = 0; i < sizeof all / sizeof *all; i++) {
        all[i].compose();
        write_file(argument[1], all[i].name);
    }
    for (int i = 0; i < 3; i++) {
        straight(sizes[i]);
        write_numbered(argument[1], "straight", sizes[i]);
    }
    for (int i = 0; i < 4; i++) {
        roots(numbers[i]);
        write_numbered(argument[1], "roots", numbers[i]);
    }
    for (int steps = 10000; steps <= MOST_STEPS; steps *= 10) {
        mixed(steps);
        write_numbered(argument[1], "steps", steps);
    }
    return 0;
}
