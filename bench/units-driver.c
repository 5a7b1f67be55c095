/* units-driver                        for each of the lists and texts below one line: the name, the nanoseconds of a call, the ratio to C
   units-driver --agree LISTS TEXTS    holds both sides to the answers of two files of cases (reference/FORMAT.md, "Lists" and "Texts") */
#include "driver.h"
#include "units.h"

enum { ROUNDS = 41, ROOM = 2100, TEXT = 64, MOST = 70 };

typedef void clashes(const struct ninhalto_declaration *list, size_t count, uint32_t (*report)[2], size_t room, size_t told[2]);
typedef void longer(const uint8_t *one, size_t one_size, const uint8_t *two, size_t two_size, size_t told[2]);

static void proved_clashes(const struct ninhalto_declaration *list, size_t count, uint32_t (*report)[2], size_t room, size_t told[2]) {
    ninhalto_clashes(list, count, report, room, &told[0], &told[1]);
}

static void proved_longer(const uint8_t *one, size_t one_size, const uint8_t *two, size_t two_size, size_t told[2]) {
    ninhalto_longer(one, one_size, two, two_size, &told[0], &told[1]);
}

/* The reference is not timed here: it takes its lists otherwise. */
enum { BOTH = 2 };
static clashes *const reports[BOTH] = {c_clashes, proved_clashes};
static longer *const longers[BOTH] = {c_longer, proved_longer};
static uint32_t report[BOTH][ROOM][2];

/* A subject is a list, of 20 bytes a declaration, or two texts of TEXT bytes each. */
static int is_text;

static double timed_call(int s, long n) {
    size_t told[2];
    double from = now();
    if (s >= BOTH) return 1;
    for (long i = 0; i < n; i++) {
        if (is_text)
            longers[s](file, strlen((char *)file), file + TEXT, strlen((char *)file + TEXT), told);
        else
            reports[s]((struct ninhalto_declaration *)file, size / 20, report[s], NINHALTO_PAIRS, told);
        __asm__ volatile("" : : "r"(told), "r"(report) : "memory");
    }
    return now() - from;
}

/* ---- what is timed */

/* A list of so many: names one apart, blocks `step` words apart and of `length` and i times `more` words. */
static void add(const char *name, unsigned count, int one_name, unsigned step, unsigned length, unsigned more) {
    struct subject *f = &subjects[loaded];
    struct ninhalto_declaration *list = (struct ninhalto_declaration *)f->bytes;
    for (unsigned i = 0; i < count; i++) {
        list[i] = (struct ninhalto_declaration){i, "BLOCK   ", step * i, length + more * i};
        if (!one_name) list[i].name[6] = '0' + i / 10, list[i].name[7] = '0' + i % 10;
    }
    f->name = name, f->size = 20 * count;
    choose(loaded++);
}

static void add_texts(const char *name, const char *one, const char *two) {
    struct subject *f = &subjects[loaded];
    strcpy((char *)f->bytes, one);
    strcpy((char *)f->bytes + TEXT, two);
    f->name = name, f->size = 2 * TEXT;
    choose(loaded++);
}

static void tell_all(void) {
    timed *const parts[1] = {timed_call};
    for (int i = 0; i < loaded; i++) {
        size_t told[BOTH][2];
        choose(i);
        for (int s = 0; s < BOTH; s++) {
            if (is_text)
                longers[s](file, strlen((char *)file), file + TEXT, strlen((char *)file + TEXT), told[s]);
            else
                reports[s]((struct ninhalto_declaration *)file, size / 20, report[s], NINHALTO_PAIRS, told[s]);
        }
        if (memcmp(told[0], told[1], sizeof told[0]) || memcmp(report[0], report[1], sizeof report[0])) differ(subjects[i].name, 1);
    }
    take_turns(1, parts, ROUNDS);
    for (int i = 0; i < loaded; i++) {
        const double *best = subjects[i].best[0];
        printf("%-12s  C %.0f ns  Ninhalto %.0f ns  to C %.2f\n", subjects[i].name, best[0], best[1], best[1] / best[0]);
    }
    loaded = 0;
}

static void measure(void) {
    add("apart-64", 64, 0, 10, 10, 0);
    add("next-64", 64, 0, 10, 11, 0);
    add("all-64", 64, 1, 0, 1, 1);
    add("apart-8", 8, 0, 10, 10, 0);
    tell_all();
    is_text = 1;
    add_texts("texts", "MIXER    100 6\n", "MIXER    100 7\nand more\n");
    add_texts("misspelt", "MIXER    100 06\n", "MIXER    100 7\n");
    tell_all();
}

/* ---- the cases */

static void one_list(FILE *in, uint32_t i) {
    static struct ninhalto_declaration list[MOST];
    static uint8_t pairs[4 * NINHALTO_PAIRS];
    static uint32_t wanted[ROOM][2];
    uint8_t b[20], asked[20];
    next_bytes(in, b, 4);
    uint32_t count = u32_at(b);
    for (uint32_t k = 0; k < count && k < MOST; k++) {
        next_bytes(in, b, 20);
        list[k] = (struct ninhalto_declaration){.unit = u32_at(b), .start = u32_at(b + 12), .length = u32_at(b + 16)};
        memcpy(list[k].name, b + 4, 8);
    }
    next_bytes(in, asked, 20);
    uint32_t room = u32_at(asked), seed = u32_at(asked + 4), clashes = u32_at(asked + 16);
    next_bytes(in, pairs, 4 * clashes);
    for (int s = -1; s < BOTH; s++)
        for (uint32_t k = 0; k < ROOM; k++) (s < 0 ? wanted : report[s])[k][0] = seed + 2 * k, (s < 0 ? wanted : report[s])[k][1] = seed + 2 * k + 1;
    for (uint32_t k = 0; k < clashes; k++) wanted[k][0] = pairs[4 * k] | pairs[4 * k + 1] << 8, wanted[k][1] = pairs[4 * k + 2] | pairs[4 * k + 3] << 8;
    for (int s = 0; s < BOTH; s++) {
        size_t told[2];
        reports[s](list, count, report[s], room, told);
        if (told[0] != u32_at(asked + 8) || told[1] != clashes || memcmp(report[s], wanted, sizeof wanted)) differ_in_case(i, s);
    }
}

static void one_pair(FILE *in, uint32_t i) {
    uint8_t b[8], text[2][TEXT];
    uint32_t n[2];
    for (int k = 0; k < 2; k++) {
        next_bytes(in, b, 4);
        next_bytes(in, text[k], n[k] = u32_at(b));
    }
    next_bytes(in, b, 8);
    for (int s = 0; s < BOTH; s++) {
        size_t told[2];
        longers[s](text[0], n[0], text[1], n[1], told);
        if (told[0] != u32_at(b) || told[1] != u32_at(b + 4)) differ_in_case(i, s);
    }
}

int main(int argc, char **argv) {
    if (argc == 4 && !strcmp(argv[1], "--agree")) {
        all_cases(argv[2], one_list, "reports");
        all_cases(argv[3], one_pair, "texts");
        return 0;
    }
    measure();
    return 0;
}
