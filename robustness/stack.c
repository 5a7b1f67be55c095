/* stack FILE..: how many bytes of stack each function takes at most, on a file whose check calls itself most deeply and on the files given. Each call runs on a painted stack of its own; what is no longer
   painted was used. */
#include "../include/ninhalto.h"
#include <stdio.h>
#include <stdlib.h>
#include <string.h>
#include <ucontext.h>

enum { STACK = 1 << 20, LONGEST = 65536, PAINT = 0xA7 };

static uint8_t stack[STACK] __attribute__((aligned(4096)));
static uint8_t file[LONGEST], copy[LONGEST];
static size_t size;
static uint8_t x[NINHALTO_X], y[NINHALTO_Y], m[NINHALTO_M], sm[NINHALTO_SM], t[NINHALTO_T], read_map[NINHALTO_MAP], written_map[NINHALTO_MAP];
static int16_t d[NINHALTO_D], tv[NINHALTO_TV];
static uint8_t rest[NINHALTO_REST], salvaged[NINHALTO_SALVAGED];
static size_t told[NINHALTO_TOLD], number, at, other, last;

static void nothing(void) {}

static void check(void) {
    ninhalto_check(file, size, &number, &at, &other, &last);
}

static void scan(void) {
    ninhalto_scan(file, size, x, NINHALTO_X, y, NINHALTO_Y, m, NINHALTO_M, sm, NINHALTO_SM, t, NINHALTO_T, d, NINHALTO_D, tv, NINHALTO_TV, rest,
                  NINHALTO_REST, 123, 100000, told);
}

static void plain_scan(void) {
    ninhalto_scan_unbudgeted(file, size, x, NINHALTO_X, y, NINHALTO_Y, m, NINHALTO_M, sm, NINHALTO_SM, t, NINHALTO_T, d, NINHALTO_D, tv, NINHALTO_TV,
                             rest, NINHALTO_REST, 123, told);
}

static void map(void) {
    ninhalto_map(file, size, &number, &at, read_map, written_map);
}

static void move(void) {
    memcpy(copy, file, size);
    ninhalto_move(copy, size, 100, 10, 0, 8000, &number, &at, &other);
}

static void exchange(void) {
    ninhalto_exchange(d, NINHALTO_D, 100, 10, 200, &number, &at);
}

/* A job of as many lines as there may be, each of one word. */
static void job(void) {
    static uint32_t lines[NINHALTO_LINES][3];
    size_t line;
    for (uint32_t i = 0; i < NINHALTO_LINES; i++) lines[i][0] = 7000 + i, lines[i][1] = 1, lines[i][2] = 7100 + i;
    memcpy(copy, file, size);
    ninhalto_job(copy, size, d, NINHALTO_D, lines, NINHALTO_LINES, &number, &at, &line, &other);
}

/* As it is, and half of it, which gets an END. */
static void salvage(void) {
    size_t kept, added;
    ninhalto_salvage(file, size, salvaged, sizeof salvaged, &number, &at, &kept, &added, &last);
    ninhalto_salvage(file, size / 2, salvaged, sizeof salvaged, &number, &at, &kept, &added, &last);
    if (number || !added) exit(1);
}

/* The most that a frame can write and read: 1,968 coils from 13 on, which is no multiple of 8, and 2,000 coils. */
static void answer(void) {
    static const uint8_t head[2][7] = {{1, 15, 0, 13, 1968 >> 8, 1968 & 255, 246}, {1, 1, 0, 0, 2000 >> 8, 2000 & 255}};
    static uint8_t frame[255], reply[256];
    for (int k = 0; k < 2; k++) {
        size_t n = k ? 8 : 255;
        uint16_t sum = 0xFFFF;
        memcpy(frame, head[k], 7);
        for (size_t i = 0; i < n - 2; i++) {
            sum ^= frame[i];
            for (int bit = 0; bit < 8; bit++) sum = sum & 1 ? sum >> 1 ^ 0xA001 : sum >> 1;
        }
        frame[n - 2] = (uint8_t)sum, frame[n - 1] = sum >> 8;
        ninhalto_answer(1, frame, n, m, NINHALTO_M, d, NINHALTO_D, reply, sizeof reply, &number, &at, &other);
        if (at != 2) exit(1);
    }
}

/* The longest list, in which every two clash. */
static void clashes(void) {
    static struct ninhalto_declaration list[NINHALTO_DECLARATIONS];
    static uint32_t report[NINHALTO_PAIRS][2];
    for (uint32_t i = 0; i < NINHALTO_DECLARATIONS; i++) list[i] = (struct ninhalto_declaration){i, "MIXER", i, 64};
    ninhalto_clashes(list, NINHALTO_DECLARATIONS, report, NINHALTO_PAIRS, &number, &other);
    if (number || other != NINHALTO_PAIRS) exit(1);
}

static void longer(void) {
    static const uint8_t one[] = "MIXER    7000 100\n", two[] = "FILLER   7000 1000\n";
    ninhalto_longer(one, sizeof one - 1, two, sizeof two - 1, &other, &last);
    if (other != NINHALTO_TEXT_SECOND) exit(1);
}

/* Bytes used of a painted stack by a context that runs this. */
static size_t used(void (*run)(void)) {
    static ucontext_t here, there;
    memset(stack, PAINT, STACK);
    if (getcontext(&there)) exit(1);
    there.uc_stack.ss_sp = stack;
    there.uc_stack.ss_size = STACK;
    there.uc_link = &here;
    makecontext(&there, run, 0);
    if (swapcontext(&here, &there)) exit(1);
    size_t free = 0;
    while (free < STACK && stack[free] == PAINT) free++;
    return STACK - free;
}

/* Eight loops, one in the other, with a NOP ahead of each inner one, so that each is entered from a sequence of its own. */
static void deepest(void) {
    enum { FOR = 19, NEXT = 20, END = 23, LOOPS = 8, RECORDS = 3 * LOOPS + 1 };
    memset(file, 0, sizeof file);
    for (int i = 0; i < LOOPS; i++) {
        file[40 * i] = FOR;
        file[40 * i + 2] = 1;
        file[40 * i + 4] = 2;
        file[40 * LOOPS + 20 * i] = NEXT;
    }
    file[60 * LOOPS] = END;
    size = 20 * RECORDS + 8;
    uint8_t *trailer = file + 20 * RECORDS;
    trailer[0] = 1, trailer[2] = RECORDS, trailer[4] = (uint8_t)size, trailer[5] = (uint8_t)(size >> 8);
}

static void (*const run[])(void) = {check, scan, plain_scan, map, move, exchange, job, salvage, answer, clashes, longer};
enum { FUNCTIONS = sizeof run / sizeof *run };
static size_t most[FUNCTIONS];

static void measure(void) {
    for (int f = 0; f < FUNCTIONS; f++) {
        size_t more = used(run[f]) - used(nothing);
        if (more > most[f]) most[f] = more;
    }
}

int main(int words, char **word) {
    static const char *const name[] = {"check", "scan", "scan_unbudgeted", "map", "move", "exchange", "job", "salvage", "answer", "clashes", "longer"};
    deepest();
    check();
    if (number) return 1;
    measure();
    for (int i = 1; i < words; i++) {
        FILE *in = fopen(word[i], "rb");
        if (!in) {
            perror(word[i]);
            return 1;
        }
        size = fread(file, 1, LONGEST, in);
        fclose(in);
        measure();
    }
    for (int f = 0; f < FUNCTIONS; f++) printf("%s %zu\n", name[f], most[f]);
    return 0;
}
