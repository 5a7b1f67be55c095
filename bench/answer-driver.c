/* answer-driver                 for each of the frames below one line: the name, the nanoseconds of a call, the ratio to the Rust reference, the
                                 ratio to C
   answer-driver --agree CASES   holds the three slaves to the answers of a file of cases (reference/FORMAT.md, "Requests") */
#include "driver.h"
#include "answer.h"
#include "rules.h"

enum { ROUNDS = 41, STATION = 17, MOST = 512, MOST_WORDS = 8192, BUFFER = 256 };

typedef void answer(uint32_t station, const uint8_t *frame, size_t size, uint8_t *m, size_t m_size, int16_t *d, size_t d_size, uint8_t *reply,
                    size_t reply_size, size_t told[3]);

static void proved_answer(uint32_t station, const uint8_t *f, size_t n, uint8_t *m, size_t m_size, int16_t *d, size_t d_size, uint8_t *reply,
                          size_t reply_size, size_t told[3]) {
    ninhalto_answer(station, f, n, m, m_size, d, d_size, reply, reply_size, &told[0], &told[1], &told[2]);
}

static answer *const answers[3] = {c_answer, proved_answer, IF_REFERENCE(reference_answer)};

/* Each side has a memory and a reply buffer of its own. */
static struct lent {
    uint8_t m[MOST];
    int16_t d[MOST_WORDS];
    uint8_t reply[MOST];
} lent[3];

static double timed_answer(int s, long n) {
    struct lent *l = &lent[s];
    size_t told[3];
    double from = now();
    for (long i = 0; i < n; i++) {
        answers[s](STATION, file, size, l->m, NINHALTO_M, l->d, NINHALTO_D, l->reply, BUFFER, told);
        __asm__ volatile("" : : "r"(told), "r"(l) : "memory");
    }
    return now() - from;
}

/* ---- the frames */

/* The CRC by shifts, as the serial line document has it. */
static void seal(uint8_t *f, size_t n) {
    uint16_t sum = 0xFFFF;
    for (size_t i = 0; i < n; i++) {
        sum ^= f[i];
        for (int bit = 0; bit < 8; bit++) sum = sum & 1 ? sum >> 1 ^ 0xA001 : sum >> 1;
    }
    f[n] = (uint8_t)sum, f[n + 1] = sum >> 8;
}

/* One frame more: so many bytes after the address and the quantity or value. The first of them is how many follow it. */
static void add(const char *name, int function, unsigned start, unsigned quantity, size_t more) {
    struct subject *f = &subjects[loaded];
    const uint8_t head[6] = {STATION, function, start >> 8, start, quantity >> 8, quantity};
    memcpy(f->bytes, head, sizeof head);
    for (size_t i = 0; i < more; i++) f->bytes[6 + i] = i ? 37 * i : more - 1;
    seal(f->bytes, 6 + more);
    f->name = name;
    f->size = 6 + more + 2;
    choose(loaded++);
}

/* 13 is no multiple of 8. */
static void frames(void) {
    add("write-123", 16, 100, 123, 1 + 246);
    add("read-125", 3, 100, 125, 0);
    add("coils-1968", 15, 13, 1968, 1 + 246);
    add("coils-2000", 1, 0, 2000, 0);
    add("unknown-256", 43, 0, 0, 248);
    add("single", 6, 100, 4711, 0);
}

/* All sides give the same answer, and leave the same memory and reply. */
static void agreed(const char *name, uint32_t station, size_t m, size_t d, size_t buffer, size_t told[3][3]) {
    for (int s = 0; s < SIDES; s++) {
        answers[s](station, file, size, lent[s].m, m, lent[s].d, d, lent[s].reply, buffer, told[s]);
        if (memcmp(told[0], told[s], sizeof told[0]) || memcmp(&lent[0], &lent[s], sizeof lent[0])) differ(name, s);
    }
}

static void measure(void) {
    timed *const parts[1] = {timed_answer};
    size_t told[3][3];
    frames();
    for (int s = 0; s < 3; s++)
        for (int i = 0; i < NINHALTO_D; i++) lent[s].m[i % NINHALTO_M] = lent[s].d[i] = (int16_t)(i * 31 + 7);
    for (int i = 0; i < loaded; i++) {
        choose(i);
        agreed(subjects[i].name, STATION, NINHALTO_M, NINHALTO_D, BUFFER, told);
        if (told[0][1] != 2) differ(subjects[i].name, 0);
    }
    take_turns(1, parts, ROUNDS);
    for (int i = 0; i < loaded; i++) {
        printf("%-12s", subjects[i].name);
        tell(subjects[i].best[0]);
    }
}

/* ---- the cases */

/* The tables before a case, the same for all sides; rule 6 leaves them. */
static void make_tables(uint32_t rule, uint32_t seed) {
    if (rule > 5) return;
    state = seed;
    for (size_t i = 0; i < NINHALTO_M; i++) lent[0].m[i] = by_rule(rule, seed, 0, i);
    state = seed;
    for (size_t i = 0; i < NINHALTO_D; i++) {
        uint8_t low = by_rule(rule, seed, 1, 2 * i);
        lent[0].d[i] = (int16_t)(low | by_rule(rule, seed, 1, 2 * i + 1) << 8);
    }
}

/* One case: each side gives the answer told there and leaves the same; of the first side it is what is told there. */
static void agree_case(FILE *in, uint32_t i) {
    static int16_t after[MOST_WORDS];
    uint8_t asked[28], want[22], change[4];
    size_t told[3][3];
    next_bytes(in, asked, sizeof asked);
    next_file(in, u32_at(asked + 24));
    next_bytes(in, want, sizeof want);
    make_tables(u32_at(asked), u32_at(asked + 4));
    for (size_t k = 0; k < MOST; k++) lent[0].reply[k] = u32_at(asked + 4) + 37 * k;
    for (int s = 1; s < 3; s++) lent[s] = lent[0];
    memcpy(after, lent[0].d, sizeof after);
    for (int k = want[20] | want[21] << 8; k > 0; k--) {
        next_bytes(in, change, 4);
        after[(change[0] | change[1] << 8) % MOST_WORDS] = (int16_t)(change[2] | change[3] << 8);
    }
    agreed("a case", u32_at(asked + 16), u32_at(asked + 8), u32_at(asked + 12), u32_at(asked + 20), told);
    int same = !memcmp(after, lent[0].d, sizeof after);
    for (int k = 0; k < 3; k++) same &= told[0][k] == u32_at(want + 4 * k);
    same &= checksum(lent[0].m, u32_at(asked + 8)) == u32_at(want + 12);
    same &= checksum(lent[0].reply, u32_at(asked + 20)) == u32_at(want + 16);
    if (!same) differ_in_case(i, 0);
}

int main(int words, char **word) {
    if (words == 3 && !strcmp(word[1], "--agree"))
        all_cases(word[2], agree_case, "answers");
    else
        measure();
    return 0;
}
