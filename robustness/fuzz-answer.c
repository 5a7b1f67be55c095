/* A driver for clang's fuzzer: the input is four bytes, from which station, sizes, memory and the shape of the frame are taken, then a frame. The
   Modbus slave runs on it, and the one in C of bench/answer.c beside it, which bench/run-answer holds to the cases of the reference: every number,
   table and byte that they leave is the same, and nothing past a lent part is written.
   The library is not instrumented: the fuzzer is led by the branches of the C, and by the answers, which are counted where it looks.

   clang -g -O1 -fsanitize=fuzzer,address,undefined robustness/fuzz-answer.c crates/host/out/libhost.a */
#include "../bench/answer.c"
#include <stdlib.h>

enum { GUARD = 64, LONGER = 300, HEAD = 4, MOST = 1024 };

/* The lent parts, each with room for one entry more, and guards between them. */
struct lent {
    uint8_t first[GUARD], m[M_BYTES + 1], second[GUARD];
    int16_t d[D_WORDS + 1];
    uint8_t third[GUARD], reply[LONGER], last[GUARD];
};

static struct lent before, proved, plain;

/* One for each refusal, each length of a reply, each function replied to with each exception or none. */
__attribute__((section("__libfuzzer_extra_counters"))) static uint8_t answers[32 + 256 + 4 * 256];

static void hold(int condition) {
    if (!condition) abort();
}

/* What the input's first two bytes say. The bits of the second: 1 the CRC is made right, 2 the frame goes to the own station, 4 to all, 8 and 16 M and
   D are lent one short or one longer, 32 which of these, 64 the buffer is one short, 128 the station is above a byte. */
struct call {
    uint32_t own;
    size_t m, d, buffer;
};

static struct call called(uint8_t station, uint8_t ways) {
    int wrong = ways & 32 ? 1 : -1;
    return (struct call){station + (ways & 128 ? 256u : 0), M_BYTES + (ways & 8 ? wrong : 0), D_WORDS + (ways & 16 ? wrong : 0),
                         ways & 64 ? BUFFER - 1 : ways & 32 ? LONGER : BUFFER};
}

static void put(uint8_t *p, unsigned number) { p[0] = number >> 8, p[1] = (uint8_t)number; }

/* Quantity and address at the edges, which are rarely met: the bits 4 and 8 are for the most that the function takes, and one more; the three bits
   from 16 on for a last coil or register that is the last before an edge, or the first behind it. */
static void at_edges(uint8_t *f, uint8_t ways) {
    static const unsigned most[17] = {[1] = 2000, [3] = 125, [15] = 1968, [16] = 123};
    static const unsigned ends[8] = {0, 2000, 2001, 7900, 7901, 8000, 8001, 65535};
    unsigned function = f[1] % 17, end = ends[ways >> 4 & 7];
    if (ways & 4 && most[function]) put(f + 4, most[function] + (ways >> 3 & 1));
    if (end) put(f + 2, end - (most[function] ? pair(f + 4) : 1));
}

/* The frame of n bytes in room for more, of a length and a byte count as its function has them, if the bits 1 and 2 say so: else few frames would get
   by their length. The length is given. */
static size_t shaped(uint8_t *f, size_t n, uint8_t ways) {
    int many = f[1] == 15 || f[1] == 16;
    if (ways & 1) at_edges(f, ways);
    if (many && ways & 2) f[6] = f[1] == 15 ? (pair(f + 4) + 7) / 8 : 2 * pair(f + 4);
    if (!(ways & 1)) return n;
    return many ? 9u + f[6] : 8;
}

static void address(uint8_t *f, size_t n, uint8_t station, uint8_t ways) {
    if (n > 0 && ways & 2) f[0] = station;
    if (n > 0 && ways & 4) f[0] = 0;
    if (n > 1 && ways & 1) {
        uint16_t sum = crc(f, n - 2);
        f[n - 2] = (uint8_t)sum, f[n - 1] = sum >> 8;
    }
}

static void count(const size_t told[3], const uint8_t *reply) {
    answers[told[0] % 32]++;
    answers[32 + told[2] % 256]++;
    if (told[1] == REPLY) answers[32 + 256 + 4 * reply[1] + (reply[1] & 128 ? reply[2] & 3 : 0)]++;
}

int LLVMFuzzerTestOneInput(const uint8_t *data, size_t size) {
    static uint8_t room[MOST];
    if (size < HEAD || size > MOST) return 0;
    struct call c = called(data[0], data[1]);
    size_t told[3] = {77, 77, 77}, wanted[3];
    memset(room, data[2], MOST);
    memcpy(room, data + HEAD, size - HEAD);
    size_t n = shaped(room, size - HEAD, data[3]);
    /* A part of its own, so that a read past its end is told where the library is watched. */
    uint8_t *f = malloc(n ? n : 1), *same = malloc(n ? n : 1);
    memcpy(f, room, n);
    address(f, n, data[0], data[1]);
    memcpy(same, f, n);
    for (size_t i = 0; i < sizeof before; i++) ((uint8_t *)&before)[i] = (uint8_t)(i * 7 + (i >> 8) + data[2]);
    proved = plain = before;

    ninhalto_answer(c.own, f, n, proved.m, c.m, proved.d, c.d, proved.reply, c.buffer, &told[0], &told[1], &told[2]);
    c_answer(c.own, f, n, plain.m, c.m, plain.d, c.d, plain.reply, c.buffer, wanted);
    count(told, proved.reply);
    hold(!memcmp(told, wanted, sizeof told) && !memcmp(&proved, &plain, sizeof plain) && !memcmp(f, same, n));
    /* What must hold of both: nothing past the reply, no word of WORK and, of a refused call, nothing at all is written. */
    hold(told[2] <= BUFFER && !memcmp(proved.reply + told[2], before.reply + told[2], LONGER - told[2]));
    hold(!memcmp(proved.d + WORK, before.d + WORK, sizeof before.d - 2 * WORK));
    hold(!memcmp(proved.first, before.first, GUARD) && !memcmp(proved.second, before.second, GUARD));
    hold(!memcmp(proved.third, before.third, GUARD) && !memcmp(proved.last, before.last, GUARD));
    hold(told[1] != REFUSED || !memcmp(&proved, &before, sizeof before));
    hold(told[1] != REPLY || (told[2] >= 5 && proved.reply[0] == c.own && crc(proved.reply, told[2]) == 0));
    free(f);
    free(same);
    return 0;
}
