/* jobs-driver: a job of 1, 8 and 64 lines over a program of 2,000 records, and the same moves and exchanges as calls of their own; both have to leave the
   same file and table. Each line has its name first, then the processor time of the calls and of the job in microseconds, the least of 200 turns, and how
   many times as long the job takes last. */
#include "../include/ninhalto.h"
#include <stdio.h>
#include <string.h>
#include <time.h>

enum { RECORDS = 2000, SIZE = 20 * RECORDS + 8, WORDS = 10, THERE = 2000, TURNS = 200 };
enum { LD = 1, END = 23, ADD = 33, SM = 5, D = 7 };

static uint8_t file[SIZE], one[SIZE], two[SIZE];
static int16_t table[NINHALTO_D], d1[NINHALTO_D], d2[NINHALTO_D];
static uint32_t lines[NINHALTO_LINES][3];

static void put(uint8_t *at, uint32_t value, int bytes) {
    for (int i = 0; i < bytes; i++) at[i] = (uint8_t)(value >> 8 * i);
}

static void word(uint8_t *operand, uint32_t number) {
    operand[0] = D;
    put(operand + 2, number, 4);
}

/* LD SM0; sums in 64 blocks of ten words, one after the other; END */
static void compose(void) {
    file[0] = LD, file[2] = SM;
    for (uint32_t k = 1; k < RECORDS - 1; k++) {
        uint8_t *at = file + 20 * k;
        uint32_t block = k % NINHALTO_LINES * WORDS;
        at[0] = ADD;
        word(at + 2, block), word(at + 8, block + 3), word(at + 14, block + 5);
    }
    file[20 * (RECORDS - 1)] = END;
    put(file + 20 * RECORDS, 1, 2), put(file + 20 * RECORDS + 2, RECORDS, 2), put(file + 20 * RECORDS + 4, SIZE, 4);
    for (int i = 0; i < NINHALTO_D; i++) table[i] = (int16_t)(7 * i);
    for (uint32_t i = 0; i < NINHALTO_LINES; i++) lines[i][0] = i * WORDS, lines[i][1] = WORDS, lines[i][2] = THERE + i * WORDS;
}

static size_t calls(size_t n) {
    size_t number = 0, at, place;
    for (size_t i = 0; i < n && !number; i++) {
        ninhalto_move(one, SIZE, lines[i][0], WORDS, lines[i][2], lines[i][2] + WORDS, &number, &at, &place);
        if (!number) ninhalto_exchange(d1, NINHALTO_D, lines[i][0], WORDS, lines[i][2], &number, &at);
    }
    return number;
}

static size_t job(size_t n) {
    size_t number, at, line, other;
    ninhalto_job(two, SIZE, d2, NINHALTO_D, lines, n, &number, &at, &line, &other);
    return number;
}

static double now(void) {
    struct timespec t;
    clock_gettime(CLOCK_PROCESS_CPUTIME_ID, &t);
    return (double)t.tv_sec * 1e6 + (double)t.tv_nsec * 1e-3;
}

/* Microseconds of a call over a fresh file and table, the least of all turns; negative where it is refused. */
static double least(size_t (*run)(size_t), size_t n) {
    double best = 1e12;
    for (int turn = 0; turn < TURNS; turn++) {
        memcpy(one, file, SIZE), memcpy(two, file, SIZE);
        memcpy(d1, table, sizeof table), memcpy(d2, table, sizeof table);
        double from = now();
        if (run(n)) return -1;
        double took = now() - from;
        if (took < best) best = took;
    }
    return best;
}

int main(void) {
    static const size_t sizes[] = {1, 8, 64};
    compose();
    for (int i = 0; i < 3; i++) {
        double alone = least(calls, sizes[i]), whole = least(job, sizes[i]);
        calls(sizes[i]);
        if (alone < 0 || whole < 0 || memcmp(one, two, SIZE) || memcmp(d1, d2, sizeof d1)) {
            printf("job-%zu differs\n", sizes[i]);
            return 1;
        }
        printf("job-%zu %.1f %.1f %.2f\n", sizes[i], alone, whole, whole / alone);
    }
    return 0;
}
