/* Writes the program files that checks, maps and moves are timed on, each by its name, into the folder that it is given. */
#include "compose.h"

/* Twenty-five records of an ordinary program: coils with a hold, a branch, a timer, a block in parallel, words of both widths, a compare. */
static void rungs(int i) {
    put1(LD, X, i % 256);
    put1(OR, Y, i % 256);
    put1(ANI, X, (i + 1) % 256);
    put1(OUT, Y, i % 256);
    put1(LD, M, i * 7 % 2000);
    put(MPS);
    put1(AND, X, (i + 2) % 256);
    put1(SET, M, i * 3 % 2000);
    put(MPP);
    put1(ANI, T, i % 256);
    put2(TON, T, i % 256, CONSTANT, 50 + i);
    put1(LD, X, (i + 3) % 256);
    put1(LDI, M, i * 5 % 2000);
    put1(AND, SM, 1);
    put(ORB);
    put2(MOV, CONSTANT, -100 - i, D, i * 20);
    put3(ADD, D, i * 20, D, i * 20 + 1, D, i * 20 + 2);
    put1(INC, D, i * 20 + 3);
    put2(LDGT, D, i * 20 + 2, CONSTANT, 1000);
    put1(AND, T, i % 256);
    put3(DIV, D, i * 20 + 2, CONSTANT, 10, D, i * 20 + 4);
    put2(LDEQ, D, i * 20 + 4, T, i % 256);
    put2(DMOV, M, i * 16, D, i * 20 + 6);
    with(0, M, 4, i * 16);
    put3(DADD, D, i * 20 + 6, CONSTANT, 100000, D, i * 20 + 8);
    put1(RST, M, i * 3 % 2000);
}

/* A loop of 16 records. */
static void loop(int i) {
    put1(FOR, CONSTANT, 10);
    put1(LD, SM, 0);
    put3(SUB, D, 7000 + i, CONSTANT, 1, D, 7000 + i);
    put1(LD, M, i);
    put1(AND, X, 5);
    put1(OUT, Y, i);
    put1(LDI, M, i);
    put1(CJ, LABEL, i);
    put1(LD, X, 1);
    put1(SET, M, 100);
    put1(LD, X, 2);
    put1(RST, M, 100);
    put1(LBL, LABEL, i);
    put1(LD, SM, 0);
    put1(DEC, D, 7100 + i);
    put(NEXT);
}

/* The rungs again and again, a loop after each twelve; where there is room for it, a loop more: n records. Of 2,000, 76 times the rungs and six
   loops. */
static void plain(int n) {
    int i = 0;
    for (; count + 25 < n; i++) {
        rungs(i);
        if (i % 12 == 11) loop(i / 12);
    }
    if (count + 16 < n) loop(i / 12);
    fill(n);
}

/* Pairs of LD and CJ, all to the one LBL ahead of END: n records, an even number. It is what the proved check has most to do with. */
static void jumps(int n) {
    while (count + 2 < n) {
        put1(LD, SM, 0);
        put1(CJ, LABEL, 0);
    }
    put1(LBL, LABEL, 0);
    put(END);
}

/* As many pairs of LD and CJ as stand before so many LBL, and all jump to the last: the longest searches. */
static void labels(int n) {
    while (count + 2 + n + 1 <= MOST) {
        put1(LD, SM, 0);
        put1(CJ, LABEL, n - 1);
    }
    while (count + n + 1 < MOST) put(NOP);
    for (int i = 0; i < n; i++) put1(LBL, LABEL, i);
    put(END);
}

/* Loops in loops, eight deep, with one rung in the innermost, again and again. */
static void deep(void) {
    while (count + 18 + 1 <= MOST) {
        for (int i = 0; i < 8; i++) put1(FOR, CONSTANT, 2);
        put1(LD, SM, 0);
        put1(INC, D, 0);
        for (int i = 0; i < 8; i++) put(NEXT);
    }
    while (count + 1 < MOST) put(NOP);
    put(END);
}

enum { GAP = 7200, GAP_WORDS = 12 };

/* An LD, then 32-bit sums, each over six D words of its own, then END: n records. Words GAP on, as many as GAP_WORDS, stay free. */
static void dense(int n) {
    put1(LD, SM, 0);
    for (uint32_t w = 0; count < n - 1; w += 6) {
        if (w >= GAP && w < GAP + GAP_WORDS) w = GAP + GAP_WORDS;
        if (w + 6 > 7900) w = 0;
        put3(DADD, D, w, D, w + 2, D, w + 4);
    }
    put(END);
}

int main(int words, char **word) {
    static const int sizes[] = {100, 500, MOST};
    if (words != 2) {
        fprintf(stderr, "usage: files FOLDER\n");
        return 1;
    }
    for (int i = 0; i < 3; i++) {
        plain(sizes[i]);
        write_numbered(word[1], "plain", sizes[i]);
        jumps(sizes[i]);
        write_numbered(word[1], "jumps", sizes[i]);
        dense(sizes[i]);
        write_numbered(word[1], "dense", sizes[i]);
    }
    labels(127);
    write_file(word[1], "labels");
    deep();
    write_file(word[1], "deep");
    put(END);
    write_file(word[1], "shortest");
    plain(MOST);
    with(2, CONSTANT, 0, 0);
    write_file(word[1], "damaged");
    return 0;
}
