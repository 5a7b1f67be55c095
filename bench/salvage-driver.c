/* salvage-driver LONG SHORT       for each of the torn files below, made of a file of 2,000 records and one of 500, one line: the name, the answer, the
                                   nanoseconds of a salvage, the ratio to C
   salvage-driver --agree CASES    holds both sides to the answers of a file of cases (reference/FORMAT.md, "Salvages") */
#include "driver.h"
#include "rules.h"
#include "salvage.h"

enum { ROUNDS = 41, ROOM = 65536, TRAILER = 8, KEPT = 300, ZEROS = 1 << 20 };

typedef void salvage(const uint8_t *torn, size_t size, uint8_t *out, size_t room, size_t told[5]);

static void proved_salvage(const uint8_t *torn, size_t size, uint8_t *out, size_t room, size_t told[5]) {
    ninhalto_salvage(torn, size, out, room, &told[0], &told[1], &told[2], &told[3], &told[4]);
}

/* The reference is not timed here: it reads all records of a file first, whatever they are. */
enum { BOTH = 2 };
static salvage *const salvages[BOTH] = {c_salvage, proved_salvage};

/* Each side has an output of its own. */
static uint8_t out[BOTH][ROOM];
static const uint8_t zeros[ZEROS];

static const uint8_t *torn(void) { return size > LONGEST ? zeros : file; }

static double timed_salvage(int s, long n) {
    size_t told[5];
    double from = now();
    if (s >= BOTH) return 1;
    for (long i = 0; i < n; i++) {
        salvages[s](torn(), size, out[s], NINHALTO_SALVAGED, told);
        __asm__ volatile("" : : "r"(told), "r"(out) : "memory");
    }
    return now() - from;
}

/* ---- the torn files */

static struct subject *any_bytes(const char *name, size_t n) {
    struct subject *f = &subjects[loaded];
    f->name = name, f->size = n;
    choose(loaded++);
    return f;
}

/* 2,000 records with a scrambled trailer; 300 that are cut in the next one; any bytes, of which no record is kept; and more NOPs than a file may have. */
static void tear(const char *longer, const char *shorter) {
    state = 4711;
    struct subject *f = load(longer);
    f->name = "scrambled";
    for (size_t i = f->size - TRAILER; i < f->size; i++) f->bytes[i] = draw();
    f = load(shorter);
    f->name = "cut", f->size = 20 * KEPT + 10;
    f = any_bytes("garbage", LONGEST);
    for (size_t i = 0; i < LONGEST; i++) f->bytes[i] = draw();
    any_bytes("zeros", ZEROS);
}

/* Both sides give the same answer, and leave the same output. */
static void agreed(const char *name, size_t told[5]) {
    size_t other[5];
    c_salvage(torn(), size, out[0], NINHALTO_SALVAGED, told);
    proved_salvage(torn(), size, out[1], NINHALTO_SALVAGED, other);
    if (memcmp(told, other, sizeof other) || memcmp(out[0], out[1], ROOM)) differ(name, 1);
}

static void measure(const char *longer, const char *shorter) {
    size_t told[MOST_FILES][5];
    timed *const part[1] = {timed_salvage};
    tear(longer, shorter);
    for (int i = 0; i < loaded; i++) {
        choose(i);
        agreed(subjects[i].name, told[i]);
    }
    take_turns(1, part, ROUNDS);
    for (int i = 0; i < loaded; i++) {
        const double *best = subjects[i].best[0];
        if (told[i][0])
            printf("%-10s  refused by %zu", subjects[i].name, told[i][0]);
        else
            printf("%-10s  kept %zu, added %zu, rest %zu", subjects[i].name, told[i][2], told[i][3], told[i][4]);
        printf("  C %.0f ns  Ninhalto %.0f ns  to C %.2f\n", best[0], best[1], best[1] / best[0]);
    }
}

/* ---- the cases */

static void agree_case(FILE *in, uint32_t i) {
    static uint8_t before[ROOM];
    uint8_t b[36];
    size_t told[5];
    next_bytes(in, b, 4);
    next_file(in, u32_at(b));
    next_bytes(in, b, sizeof b);
    uint32_t rule = u32_at(b), seed = u32_at(b + 4), room = u32_at(b + 8);
    state = seed;
    for (uint32_t k = 0; k < room; k++) before[k] = by_rule(rule, seed, 1, k);
    for (int s = 0; s < BOTH; s++) {
        memcpy(out[s], before, room);
        salvages[s](file, size, out[s], room, told);
        for (int j = 0; j < 5; j++)
            if (told[j] != u32_at(b + 12 + 4 * j)) differ_in_case(i, s);
        if (checksum(out[s], room) != u32_at(b + 32)) differ_in_case(i, s);
    }
}

int main(int words, char **word) {
    if (words != 3) return 1;
    if (!strcmp(word[1], "--agree"))
        all_cases(word[2], agree_case, "salvages");
    else
        measure(word[1], word[2]);
    return 0;
}
