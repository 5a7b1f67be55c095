/* longest FILE..: the milliseconds of a scan, the slowest of five, of the scope's program of 10,000,000 steps and of each file. */
#define _POSIX_C_SOURCE 199309L
#include "../bench/compose.h"
#include "../include/ninhalto.h"
#include <time.h>

static uint8_t x[NINHALTO_X], y[NINHALTO_Y], m[NINHALTO_M], sm[NINHALTO_SM], t[NINHALTO_T];
static int16_t d[NINHALTO_D], tv[NINHALTO_TV];
static uint8_t rest[NINHALTO_REST];

static double now(void) {
    struct timespec at;
    clock_gettime(CLOCK_PROCESS_CPUTIME_ID, &at);
    return at.tv_sec * 1e3 + at.tv_nsec / 1e6;
}

static void measure(const char *name, const uint8_t *program, size_t size) {
    size_t told[NINHALTO_TOLD];
    double slowest = 0;
    for (int round = 0; round < 5; round++) {
        for (int i = 0; i < NINHALTO_D; i++) d[i] = (int16_t)(i * 31 + 7);
        double from = now();
        ninhalto_scan(program, size, x, sizeof x, y, sizeof y, m, sizeof m, sm, sizeof sm, t, sizeof t, d, NINHALTO_D, tv, NINHALTO_TV, rest, sizeof rest,
                      100, 4294967295u, told);
        double took = now() - from;
        if (took > slowest) slowest = took;
    }
    printf("%-10s refusal %zu, kind %zu, steps %8zu, %7.1f ms\n", name, told[0], told[2], told[3], slowest);
}

/* FOR 1000, FOR 9997, NEXT, NEXT, 998 NOP, END */
static void compose(void) {
    put1(FOR, CONSTANT, 1000);
    put1(FOR, CONSTANT, 9997);
    put(NEXT);
    put(NEXT);
    for (int i = 0; i < 998; i++) put(NOP);
    put(END);
}

int main(int words, char **word) {
    static uint8_t read[65536];
    compose();
    size_t size = 20 * count + 8;
    uint8_t *trailer = file + 20 * count;
    trailer[0] = 1, trailer[2] = count, trailer[3] = count >> 8, trailer[4] = size, trailer[5] = size >> 8;
    measure("most", file, size);
    for (int i = 1; i < words; i++) {
        FILE *in = fopen(word[i], "rb");
        if (!in) {
            perror(word[i]);
            return 1;
        }
        size = fread(read, 1, sizeof read, in);
        fclose(in);
        measure(strrchr(word[i], '/') ? strrchr(word[i], '/') + 1 : word[i], read, size);
    }
    return 0;
}
