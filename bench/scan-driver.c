/* scan-driver PROGRAM.. [--alike PROGRAM..] [--growth PROGRAM..] [--agree PROGRAM..]

   One line for each program: its name, the steps of a scan, the nanoseconds of a step, the ratio to the Rust reference, the ratio to C.
   The proved scan and the reference check the program first, at each call, and C does not: with millions of steps that does not count.

   After --alike the same, of programs whose steps should take the same time, and then a line for all of them: the dearest step as a multiple of the
   cheapest, of each side.

   After --growth, C checks the program at each call too, and the nanoseconds are of the whole call. Ahead of them stand, of C and of Ninhalto,
   those of the check alone, and those of a call with a budget of 0 ("ready"), which checks, decodes and makes no step.

   Before that, all sides run with a budget of 0, of 1, of some steps between and of all, with elapsed milliseconds and leftovers in their ranges and
   past them, and must give the same answers and leave the same eight tables. After --agree they do that alone. */
#include "driver.h"
#include "scan.h"

enum { ROUNDS = 9, GROWTH_ROUNDS = 21, ELAPSED = 100 };

/* So many scans of the file, one after the other over the same memory. */
typedef void scans(const uint8_t *f, size_t n, struct memory *m, uint32_t elapsed, uint32_t budget, size_t times, size_t told[7]);

static void c_scans(const uint8_t *f, size_t n, struct memory *m, uint32_t elapsed, uint32_t budget, size_t times, size_t told[7]) {
    for (; times; times--) c_scan(f, n, m, elapsed, budget, told);
}

static void c_checked_scans(const uint8_t *f, size_t n, struct memory *m, uint32_t elapsed, uint32_t budget, size_t times, size_t told[7]) {
    uint64_t answer[4];
    for (; times; times--) {
        c_check(f, n, answer);
        if (!answer[0]) c_scan(f, n, m, elapsed, budget, told);
    }
}

static void proved_scans(const uint8_t *f, size_t n, struct memory *m, uint32_t elapsed, uint32_t budget, size_t times, size_t told[7]) {
    for (; times; times--)
        ninhalto_scan(f, n, m->x, sizeof m->x, m->y, sizeof m->y, m->m, sizeof m->m, m->sm, sizeof m->sm, m->t, sizeof m->t, m->d, 8000, m->tv,
                      256, m->rest, sizeof m->rest, elapsed, budget, told);
}

static scans *const sides[3] = {c_scans, proved_scans, IF_REFERENCE(reference_scans)};
static scans *const checked[3] = {c_checked_scans, proved_scans, IF_REFERENCE(reference_scans)};

/* Bytes drawn as reference/FORMAT.md says, the leftovers brought into their ranges. */
static void draw(struct memory *m, uint32_t seed) {
    uint8_t *b = (uint8_t *)m;
    for (size_t i = 0; i < sizeof *m; i++) {
        seed = seed * 1664525 + 1013904223;
        b[i] = seed >> 24;
    }
    m->rest[0] %= 10, m->rest[1] %= 100;
}

/* The memory before a scan: zeros, or drawn. */
static struct memory before;

static void begin(uint32_t seed) {
    memset(&before, 0, sizeof before);
    if (seed) draw(&before, seed);
}

/* All scans give the same answer and leave the same memory. Gives the steps. */
static size_t agreed(const char *name, uint32_t elapsed, uint32_t budget) {
    static struct memory memory[3];
    size_t told[3][7];
    for (int s = 0; s < SIDES; s++) {
        memory[s] = before;
        sides[s](file, size, &memory[s], elapsed, budget, 1, told[s]);
        if (memcmp(told[0], told[s], sizeof told[0]) || memcmp(&memory[0], &memory[s], sizeof memory[0])) {
            fprintf(stderr, "leftovers %d and %d, elapsed %u, budget %u: ", before.rest[0], before.rest[1], elapsed, budget);
            differ(name, s);
        }
    }
    return told[0][3];
}

/* Leftovers and elapsed in their ranges and past them. */
static void times_agreed(const char *name) {
    static const uint8_t rests[][2] = {{0, 0}, {9, 99}, {4, 56}, {10, 0}, {0, 100}, {255, 255}};
    static const uint32_t times[] = {0, 1, 9, 10, 99, 100, 101, 9999, 10000, 10001, 65536, UINT32_MAX};
    begin(1);
    for (size_t r = 0; r < sizeof rests / sizeof *rests; r++) {
        memcpy(before.rest, rests[r], sizeof before.rest);
        for (size_t i = 0; i < sizeof times / sizeof *times; i++) {
            agreed(name, times[i], 0);
            agreed(name, times[i], 1001);
        }
    }
}

static size_t all_agreed(const char *name) {
    static const uint32_t budgets[] = {0, 1, 2, 17, 100, 1001, 65537};
    times_agreed(name);
    for (uint32_t seed = 0; seed < 4; seed++) {
        begin(seed);
        for (size_t i = 0; i < sizeof budgets / sizeof *budgets; i++) agreed(name, ELAPSED, budgets[i]);
    }
    begin(0);
    agreed(name, ELAPSED, UINT32_MAX);
    begin(1);
    return agreed(name, ELAPSED, UINT32_MAX);
}

static double timed_scans(scans *f, uint32_t budget, long n) {
    static struct memory memory;
    size_t told[7];
    draw(&memory, 1);
    double from = now();
    f(file, size, &memory, ELAPSED, budget, n, told);
    return now() - from;
}

static double timed_scan(int s, long n) { return timed_scans(sides[s], UINT32_MAX, n); }
static double timed_whole(int s, long n) { return timed_scans(checked[s], UINT32_MAX, n); }
static double timed_ready(int s, long n) { return timed_scans(checked[s], 0, n); }

static double timed_check(int s, long n) {
    uint64_t answer[4];
    double from = now();
    for (long i = 0; i < n; i++) checks[s](file, size, answer);
    return now() - from;
}

static void load_all(int files, char **path) {
    loaded = 0;
    for (int i = 0; i < files; i++) {
        struct subject *f = load(path[i]);
        f->steps = all_agreed(f->name);
    }
}

static void measure(int files, char **path) {
    timed *const part[1] = {timed_scan};
    load_all(files, path);
    take_turns(1, part, ROUNDS);
    for (int i = 0; i < files; i++) {
        struct subject *f = &subjects[i];
        for (int s = 0; s < SIDES; s++) f->best[0][s] /= f->steps;
        printf("%-14s  steps %8zu  a step", f->name, f->steps);
        tell(f->best[0]);
    }
}

static double spread(int s) {
    double least = subjects[0].best[0][s], most = least;
    for (int i = 1; i < loaded; i++) {
        double t = subjects[i].best[0][s];
        if (t < least) least = t;
        if (t > most) most = t;
    }
    return most / least;
}

static void measure_alike(int files, char **path) {
    measure(files, path);
    printf("the dearest step to the cheapest");
    for (int s = 0; s < SIDES; s++) printf("  %s %.2f", called[s], spread(s));
    printf("\n");
}

static void measure_growth(int files, char **path) {
    enum { CHECK, READY, WHOLE, PARTS };
    timed *const parts[PARTS] = {timed_check, timed_ready, timed_whole};
    load_all(files, path);
    take_turns(PARTS, parts, GROWTH_ROUNDS);
    for (int i = 0; i < files; i++) {
        struct subject *f = &subjects[i];
        printf("%-14s  steps %8zu  check %.0f and %.0f ns  ready %.0f and %.0f ns  whole", f->name, f->steps, f->best[CHECK][0], f->best[CHECK][1],
               f->best[READY][0], f->best[READY][1]);
        tell(f->best[WHOLE]);
    }
}

static void agree(int files, char **path) {
    load_all(files, path);
    for (int i = 0; i < files; i++) printf("%-14s  steps %8zu  all sides agree\n", subjects[i].name, subjects[i].steps);
}

/* What is measured of the programs after this word, and up to the next of its kind. */
typedef void measured(int files, char **path);

static measured *section(const char *word) {
    if (!strcmp(word, "--alike")) return measure_alike;
    if (!strcmp(word, "--growth")) return measure_growth;
    if (!strcmp(word, "--agree")) return agree;
    return NULL;
}

int main(int words, char **word) {
    measured *what = measure;
    for (int from = 1, to = 1; from <= words; from = ++to) {
        while (to < words && !section(word[to])) to++;
        if (from < to) what(to - from, word + from);
        if (to < words) what = section(word[to]);
    }
    return 0;
}
