/* Tables by rule, and the checksum of what they hold after a call, as the files of cases have them (reference/FORMAT.md). */
#include <stddef.h>
#include <stdint.h>

static uint32_t state;

static uint8_t draw(void) { return (state = state * 1664525 + 1013904223) >> 24; }

/* Byte i of a table by its rule: of M, or the bytes of D, whose words come at the even ones. */
static uint8_t by_rule(uint32_t rule, uint32_t seed, int words, size_t i) {
    static const int16_t edges[8] = {0, 1, -1, 32767, -32768, 2, 1000, -31072};
    static uint16_t word;
    switch (rule) {
    case 1: return 0xFF;
    case 2: return draw();
    case 3: case 5:
        if (!words) return draw();
        if (i % 2) return word >> 8;
        word = rule == 3 ? draw() % 16 - 4 : edges[draw() % 8];
        return (uint8_t)word;
    case 4: return seed + 37 * i;
    default: return 0;
    }
}

static uint32_t checksum(const uint8_t *p, size_t n) {
    uint32_t a = 1, b = 0;
    while (n-- > 0) a = (a + *p++) % 65521, b = (b + a) % 65521;
    return b << 16 | a;
}
