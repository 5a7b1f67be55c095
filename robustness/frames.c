/* The fuzzer's driver for frames, on inputs that are drawn: where clang's fuzzer is not, and under an emulator. It tells how often each refusal,
   silence, each reply and each exception came, and ends at once where library and C differ.

   frames [SEED COUNT]    by default 1 and 1000000 */
#include "fuzz-answer.c"
#include <stdio.h>

static uint64_t state;

static uint32_t draw(void) {
    state = state * 6364136223846793005u + 1442695040888963407u;
    return (uint32_t)(state >> 33);
}

/* One input: a known function in seven of eight, and of these a length and a CRC that fit in most. */
static size_t drawn(uint8_t *p) {
    static const uint8_t known[8] = {1, 3, 5, 6, 15, 16, 15, 16};
    size_t n = HEAD + draw() % 300;
    for (size_t i = 0; i < n; i++) p[i] = (uint8_t)draw();
    if (draw() % 8) p[HEAD + 1] = known[draw() % 8];
    if (draw() % 8) p[0] = 1 + draw() % 247;
    if (draw() % 4) p[1] = (p[1] & 4) | 3, p[3] |= 3;
    if (draw() % 2) p[HEAD + 2] %= 32, p[HEAD + 4] = 0;
    if (p[HEAD + 1] == 5 && draw() % 2) p[HEAD + 4] = draw() % 2 ? 0xff : 0, p[HEAD + 5] = 0;
    return n < HEAD + 8 ? HEAD + 8 : n;
}

int main(int count, char **words) {
    static uint8_t input[MOST];
    static unsigned long met[32 + 256 + 4 * 256];
    state = count > 1 ? strtoul(words[1], 0, 10) : 1;
    unsigned long turns = count > 2 ? strtoul(words[2], 0, 10) : 1000000;
    for (unsigned long k = 0; k < turns; k++) {
        LLVMFuzzerTestOneInput(input, drawn(input));
        for (size_t i = 0; i < sizeof answers; i++) met[i] += answers[i], answers[i] = 0;
    }
    unsigned long replies = 0, exceptions[4] = {0};
    for (size_t i = 32; i < 32 + 256; i++) replies += i > 32 ? met[i] : 0;
    for (size_t i = 32 + 256; i < sizeof answers; i++) exceptions[i % 4] += met[i];
    printf("%lu frames alike: refused by 9 %lu, by 16 %lu; silent %lu; replies %lu, of them exceptions 01 %lu, 02 %lu, 03 %lu\n", turns, met[9], met[16],
           met[32] - met[9] - met[16], replies, exceptions[1], exceptions[2], exceptions[3]);
    for (size_t f = 1; f < 17; f++)
        if (met[32 + 256 + 4 * f]) printf("function %zu replied to: %lu\n", f, met[32 + 256 + 4 * f]);
    return 0;
}
