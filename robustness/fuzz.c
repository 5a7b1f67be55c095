/* A driver for clang's fuzzer: the input is eight bytes, from which block, pool, elapsed milliseconds, leftovers and budget are taken, then a file. Five
   functions run on it; what their promises say of each other is asserted, and so is, of a refusal, that nothing changed.
   The library is not instrumented: the fuzzer is led by the answers, which are counted where it looks. */
#include "../include/ninhalto.h"
#include <stdlib.h>
#include <string.h>

struct memory {
    uint8_t x[NINHALTO_X], y[NINHALTO_Y], m[NINHALTO_M], sm[NINHALTO_SM], t[NINHALTO_T];
    int16_t d[NINHALTO_D], tv[NINHALTO_TV];
    uint8_t rest[NINHALTO_REST];
};

static struct memory before, after;

/* One for each refusal of the check and record told, each end and error of a scan, each refusal of a move and record told. */
__attribute__((section("__libfuzzer_extra_counters"))) static uint8_t answers[16 * 64 + 64 + 16 * 64];

static void hold(int condition) {
    if (!condition) abort();
}

static void scan(const uint8_t *file, size_t size, struct memory *c, uint32_t elapsed, uint32_t budget, size_t told[NINHALTO_TOLD]) {
    ninhalto_scan(file, size, c->x, NINHALTO_X, c->y, NINHALTO_Y, c->m, NINHALTO_M, c->sm, NINHALTO_SM, c->t, NINHALTO_T, c->d, NINHALTO_D, c->tv,
                  NINHALTO_TV, c->rest, NINHALTO_REST, elapsed, budget, told);
}

/* Whether leftovers and elapsed are in their ranges. */
static int in_range(const uint8_t rest[NINHALTO_REST], uint32_t elapsed) {
    return rest[0] <= 9 && rest[1] <= 99 && elapsed <= 10000;
}

/* Any budget leaves these leftovers. */
static int advanced(const uint8_t old[NINHALTO_REST], const uint8_t left[NINHALTO_REST], uint32_t elapsed) {
    return left[0] == (old[0] + elapsed) % 10 && left[1] == (old[1] + elapsed) % 100;
}

int LLVMFuzzerTestOneInput(const uint8_t *data, size_t size) {
    if (size < 8) return 0;
    uint32_t start = data[0] | data[1] << 8, length = data[2], from = data[3] << 5, end = from + (data[4] << 3);
    uint32_t elapsed = data[5] * 40 + data[7] % 40, budget = data[6] << 4;
    size -= 8;
    uint8_t *file = malloc(size ? size : 1), *moved = malloc(size ? size : 1);
    memcpy(file, data + 8, size);
    memcpy(moved, file, size);
    size_t number, at, records, steps, told[NINHALTO_TOLD], again[NINHALTO_TOLD], other, other_at, place;
    uint8_t read[NINHALTO_MAP], written[NINHALTO_MAP];
    for (size_t i = 0; i < sizeof before; i++) ((uint8_t *)&before)[i] = (uint8_t)(i * 7 + data[7]);
    before.rest[0] %= 11, before.rest[1] %= 101;
    after = before;

    ninhalto_check(file, size, &number, &at, &records, &steps);
    scan(file, size, &after, elapsed, budget, told);
    answers[told[0] * 64 + (number ? at : records) % 64]++;
    answers[16 * 64 + told[NINHALTO_TOLD_KIND] * 16 + told[NINHALTO_TOLD_ERROR] * 4]++;
    hold(told[0] == (number || in_range(before.rest, elapsed) ? number : 9) && told[1] == at);
    hold(told[0] ? !memcmp(&before, &after, sizeof before) : advanced(before.rest, after.rest, elapsed));
    hold(told[NINHALTO_TOLD_STEPS] <= steps && told[NINHALTO_TOLD_STEPS] <= budget);
    ninhalto_map(file, size, &other, &other_at, read, written);
    hold(other == number && other_at == at);
    for (int i = 0; i < NINHALTO_D; i++) hold(before.d[i] == after.d[i] || written[i / 8] >> i % 8 & 1);
    ninhalto_move(moved, size, start, length, from, end, &other, &other_at, &place);
    if (number)
        hold(other == number && other_at == at);
    else
        answers[16 * 64 + 64 + other * 64 + other_at % 64]++;
    if (other) {
        hold(!memcmp(moved, file, size));
    } else {
        ninhalto_exchange(before.d, NINHALTO_D, start, length, (uint32_t)place, &number, &at);
        hold(!number);
        scan(moved, size, &before, elapsed, budget, again);
        ninhalto_exchange(before.d, NINHALTO_D, start, length, (uint32_t)place, &number, &at);
        hold(!memcmp(told, again, sizeof told) && !memcmp(&before, &after, sizeof before));
    }
    free(file);
    free(moved);
    return 0;
}
