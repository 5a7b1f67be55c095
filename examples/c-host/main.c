/* A host in C: it checks a program, scans it, answers a Modbus request, prints which words of a block it uses, moves the block, exchanges its words, and
   scans again. The two scans do the same. Then it moves the block's two halves at once, in either order, and back. Last it tells which declarations of a
   list clash, and which of two declaration texts holds the longer block.
   The program stands in memory; a real host reads it from a file. */
#include "../../include/ninhalto.h"
#include <stdio.h>
#include <string.h>

/* The memory of a controller. */
struct memory {
    uint8_t x[NINHALTO_X], y[NINHALTO_Y], m[NINHALTO_M], sm[NINHALTO_SM], t[NINHALTO_T];
    int16_t d[NINHALTO_D], tv[NINHALTO_TV];
    uint8_t rest[NINHALTO_REST];
};

enum { CONSTANT = 1, Y = 3, SM = 5, D = 7 };
enum { LD = 1, OUT = 12, LD_ABOVE = 16, END = 23, ADD = 33, DIV = 35, INC = 37 };
enum { RECORDS = 7, SIZE = 20 * RECORDS + 8 };
enum { BLOCK = 100, LENGTH = 10, POOL = 200, POOL_END = 300 };

/* ---- the program */

static void put(uint8_t *at, uint32_t value, int bytes) {
    for (int i = 0; i < bytes; i++) at[i] = (uint8_t)(value >> 8 * i);
}

/* A record: its instruction, then kind and value of three operands. */
static void record(uint8_t *file, int k, int instruction, const uint32_t operand[6]) {
    uint8_t *at = file + 20 * k;
    memset(at, 0, 20);
    at[0] = (uint8_t)instruction;
    for (int i = 0; i < 3; i++) {
        at[2 + 6 * i] = (uint8_t)operand[2 * i];
        put(at + 4 + 6 * i, operand[2 * i + 1], 4);
    }
}

static void compose(uint8_t file[SIZE]) {
    record(file, 0, LD, (uint32_t[6]){SM, 0});
    record(file, 1, INC, (uint32_t[6]){D, 100});
    record(file, 2, ADD, (uint32_t[6]){D, 100, CONSTANT, 1000, D, 104});
    record(file, 3, DIV, (uint32_t[6]){D, 104, CONSTANT, 7, D, 106});
    record(file, 4, LD_ABOVE, (uint32_t[6]){D, 104, CONSTANT, 500});
    record(file, 5, OUT, (uint32_t[6]){Y, 3});
    record(file, 6, END, (uint32_t[6]){0});
    put(file + 20 * RECORDS, 1, 2);
    put(file + 20 * RECORDS + 2, RECORDS, 2);
    put(file + 20 * RECORDS + 4, SIZE, 4);
}

/* ---- the nine calls */

static size_t check(const uint8_t *file, size_t size) {
    size_t number, at, records, steps;
    ninhalto_check(file, size, &number, &at, &records, &steps);
    if (number)
        printf("refused %zu record %zu\n", number, at);
    else
        printf("accepted records %zu steps %zu\n", records, steps);
    return number;
}

/* 100 ms have gone by; the budget is 1000 steps. */
static void scan(const uint8_t *file, struct memory *c, size_t told[NINHALTO_TOLD]) {
    ninhalto_scan(file, SIZE, c->x, NINHALTO_X, c->y, NINHALTO_Y, c->m, NINHALTO_M, c->sm, NINHALTO_SM, c->t, NINHALTO_T, c->d, NINHALTO_D, c->tv,
                  NINHALTO_TV, c->rest, NINHALTO_REST, 100, 1000, told);
    printf("refusal %zu at %zu, kind %zu, steps %zu, stopped at %zu, error %zu at %zu\n", told[0], told[1], told[2], told[3], told[4], told[5], told[6]);
}

static int marks(const uint8_t *read, const uint8_t *written, int word) {
    return (read[word / 8] >> word % 8 & 1) | (written[word / 8] >> word % 8 & 1) << 1;
}

/* The longest runs of words of the block with the same marks. */
static void map(const uint8_t *file) {
    static const char *const used[4] = {"", "read", "written", "read written"};
    uint8_t read[NINHALTO_MAP], written[NINHALTO_MAP];
    size_t number, at;
    ninhalto_map(file, SIZE, &number, &at, read, written);
    for (int from = BLOCK, end; from < BLOCK + LENGTH; from = end) {
        int here = marks(read, written, from);
        for (end = from + 1; end < BLOCK + LENGTH && marks(read, written, end) == here;) end++;
        if (here) printf("D%d to D%d %s\n", from, end - 1, used[here]);
    }
}

static size_t move(uint8_t *file) {
    size_t number, at, place;
    ninhalto_move(file, SIZE, BLOCK, LENGTH, POOL, POOL_END, &number, &at, &place);
    printf("move: refusal %zu at %zu, place %zu\n", number, at, place);
    return place;
}

static void exchange(struct memory *c, size_t place) {
    size_t number, at;
    ninhalto_exchange(c->d, NINHALTO_D, BLOCK, LENGTH, (uint32_t)place, &number, &at);
    printf("exchange: refusal %zu at %zu\n", number, at);
}

/* The block's two halves, each to a place of its own, and the same lines the other way round: both give the same file and the same table. Then every
   place goes back to its block. */
static int job(const uint8_t *file, const struct memory *c) {
    static const uint32_t lines[][3] = {{100, 5, 400}, {105, 5, 300}}, turned[][3] = {{105, 5, 300}, {100, 5, 400}}, back[][3] = {{400, 5, 100}, {300, 5, 105}};
    static int16_t one[NINHALTO_D], two[NINHALTO_D];
    uint8_t first[SIZE], second[SIZE];
    size_t number, at, line, other;
    memcpy(first, file, SIZE);
    memcpy(second, file, SIZE);
    memcpy(one, c->d, sizeof one);
    memcpy(two, c->d, sizeof two);
    ninhalto_job(first, SIZE, one, NINHALTO_D, lines, 2, &number, &at, &line, &other);
    printf("job: refusal %zu at %zu, line %zu, other %zu\n", number, at, line, other);
    ninhalto_job(second, SIZE, two, NINHALTO_D, turned, 2, &number, &at, &line, &other);
    int same = !number && !memcmp(first, second, SIZE) && !memcmp(one, two, sizeof one) && memcmp(first, file, SIZE);
    ninhalto_job(first, SIZE, one, NINHALTO_D, back, 2, &number, &at, &line, &other);
    same = same && !number && !memcmp(first, file, SIZE) && !memcmp(one, c->d, sizeof one);
    puts(same ? "in either order the same, and back again" : "the order shows");
    return same;
}

/* A master reads the first five words of the block: station 1, function 3, address, quantity, CRC. */
static void answer(struct memory *c) {
    static const uint8_t request[] = {0x01, 0x03, 0x00, 0x64, 0x00, 0x05, 0xc4, 0x16};
    uint8_t reply[NINHALTO_REPLY];
    size_t number, kind, length;
    ninhalto_answer(1, request, sizeof request, c->m, NINHALTO_M, c->d, NINHALTO_D, reply, NINHALTO_REPLY, &number, &kind, &length);
    if (kind == NINHALTO_ANSWER_REFUSED) printf("refused %zu\n", number);
    if (kind == NINHALTO_ANSWER_SILENT) puts("silent");
    if (kind != NINHALTO_ANSWER_REPLY) return;
    printf("reply");
    for (size_t i = 0; i < length; i++) printf(" %02x", reply[i]);
    puts("");
}

/* Three units declare blocks: the second gives the first one's block another length, and the third one's block overlaps both. */
static void clashes(void) {
    static const struct ninhalto_declaration list[] = {{1, "MIXER", 100, 10}, {2, "MIXER", 100, 12}, {3, "FILLER", 108, 5}};
    static uint32_t report[NINHALTO_PAIRS][2];
    size_t number, count;
    ninhalto_clashes(list, sizeof list / sizeof *list, report, NINHALTO_PAIRS, &number, &count);
    printf("clashes: refusal %zu, count %zu\n", number, count);
    for (size_t i = 0; i < count; i++) printf("%u %u\n", (unsigned)report[i][0], (unsigned)report[i][1]);
}

static void longer(void) {
    static const char one[] = "MIXER    100 10\n", two[] = "MIXER    100 12\nFILLER   108 5\n";
    size_t text, size;
    ninhalto_longer((const uint8_t *)one, sizeof one - 1, (const uint8_t *)two, sizeof two - 1, &text, &size);
    printf("longer: text %zu, ", text);
    fwrite(text == NINHALTO_TEXT_SECOND ? two : one, 1, size, stdout);
}

static void words(const struct memory *c, size_t from) {
    for (size_t i = from; i < from + LENGTH; i++) printf("%d%c", c->d[i], i + 1 < from + LENGTH ? ' ' : '\n');
}

int main(void) {
    static struct memory before, after;
    uint8_t file[SIZE], moved[SIZE];
    size_t told[NINHALTO_TOLD], told_after[NINHALTO_TOLD];
    compose(file);
    check(file, SIZE - 1);
    if (check(file, SIZE)) return 1;
    before.d[BLOCK] = 41;
    before.d[POOL] = 77;
    memcpy(moved, file, SIZE);
    after = before;
    scan(file, &before, told);
    words(&before, BLOCK);
    answer(&before);
    map(file);
    size_t place = move(moved);
    if (check(moved, SIZE)) return 1;
    exchange(&after, place);
    scan(moved, &after, told_after);
    words(&after, place);
    exchange(&after, place);
    int same = !memcmp(&before, &after, sizeof before) && !memcmp(told, told_after, sizeof told);
    puts(same ? "the moved program does the same" : "the moved program does otherwise");
    same = job(file, &before) && same;
    clashes();
    longer();
    return !same;
}
