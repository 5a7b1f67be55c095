/* What the drivers share: the sides that are compared, the file, the clock and the turns, the files of cases. To be included first. */
#define _POSIX_C_SOURCE 199309L
#include "check.h"
#include <stdio.h>
#include <stdlib.h>
#include <string.h>
#include <time.h>

/* The sides are C, the proved function and the reference, in this order. Without -DREFERENCE the last is left out, and told as "-". */
#ifdef REFERENCE
enum { SIDES = 3 };
#define IF_REFERENCE(function) function
#else
enum { SIDES = 2 };
#define IF_REFERENCE(function) NULL
#endif
static const char *const called[3] = {"C", "Ninhalto", "reference"};

static inline void differ(const char *what, int s) {
    fprintf(stderr, "%s: %s answers otherwise\n", what, called[s]);
    exit(1);
}

/* The three checks, which the scan's driver times too. */
typedef void check(const uint8_t *file, size_t size, uint64_t out[4]);

static inline void proved_check(const uint8_t *file, size_t size, uint64_t out[4]) {
    size_t number, at, records, steps;
    ninhalto_check(file, size, &number, &at, &records, &steps);
    out[0] = number, out[1] = at, out[2] = records, out[3] = steps;
}

static check *const checks[3] = {c_check, proved_check, IF_REFERENCE(reference_check)};

/* ---- the files */

enum { LONGEST = 65536, MOST_FILES = 16, MOST_PARTS = 3 };

/* A file that is timed: its name without folders, its bytes, and the best time of each part and side. */
static struct subject {
    const char *name;
    uint8_t bytes[LONGEST];
    size_t size, steps;
    double best[MOST_PARTS][3];
} subjects[MOST_FILES];
static int loaded;

/* The file that all sides run on. */
static uint8_t *file = subjects[0].bytes;
static size_t size;

static inline void choose(int i) {
    file = subjects[i].bytes;
    size = subjects[i].size;
}

static inline FILE *opened(const char *path) {
    FILE *in = fopen(path, "rb");
    if (!in) {
        perror(path);
        exit(1);
    }
    return in;
}

/* Reads one file more, and chooses it. */
static inline struct subject *load(const char *path) {
    if (loaded == MOST_FILES) {
        fprintf(stderr, "%s: one file too many\n", path);
        exit(1);
    }
    struct subject *f = &subjects[loaded];
    FILE *in = opened(path);
    f->name = strrchr(path, '/') ? strrchr(path, '/') + 1 : path;
    f->size = fread(f->bytes, 1, LONGEST, in);
    fclose(in);
    choose(loaded++);
    return f;
}

/* ---- the clock and the turns */

/* Nanoseconds of the process, so what else runs on the machine matters less. */
static inline double now(void) {
    struct timespec t;
    clock_gettime(CLOCK_PROCESS_CPUTIME_ID, &t);
    return t.tv_sec * 1e9 + t.tv_nsec;
}

/* Nanoseconds of n calls of side s. */
typedef double timed(int s, long n);

/* So many calls that C takes five milliseconds. */
static inline long enough(timed *f) {
    long n = 1;
    while (f(0, n) < 5e6) n *= 2;
    return n;
}

/* Files, what is timed of each, and sides take turns, so that all see the same machine; of each the best time of one call is kept.
   The reference may be slow: it has a turn in every fourth round, with fewer calls. */
static inline void take_turns(int parts, timed *const f[], int rounds) {
    static long n[MOST_FILES][MOST_PARTS];
    for (int round = 0; round < rounds; round++)
        for (int i = 0; i < loaded; i++)
            for (int p = 0; p < parts; p++) {
                choose(i);
                if (round == 0) n[i][p] = enough(f[p]);
                for (int s = 0; s < SIDES; s++) {
                    if (s == 2 && round % 4) continue;
                    long calls = s == 2 ? n[i][p] / 4 + 1 : n[i][p];
                    double t = f[p](s, calls) / calls, *best = &subjects[i].best[p][s];
                    if (round == 0 || t < *best) *best = t;
                }
            }
}

/* The end of each line: the nanoseconds of each side, the ratio to the reference, the ratio to C. */
static inline void tell(const double best[3]) {
    for (int s = 0; s < SIDES; s++) printf("  %s %.*f ns", called[s], best[s] < 1000 ? 2 : 0, best[s]);
    if (SIDES == 3)
        printf("  to the reference %.3f", best[1] / best[2]);
    else
        printf("  reference -  to the reference -");
    printf("  to C %.2f\n", best[1] / best[0]);
    fflush(stdout);
}

/* ---- files of cases (reference/FORMAT.md) */

static inline uint32_t u32_at(const uint8_t *p) { return p[0] | p[1] << 8 | p[2] << 16 | (uint32_t)p[3] << 24; }

static inline void next_bytes(FILE *in, uint8_t *to, size_t n) {
    if (fread(to, 1, n, in) != n) {
        fprintf(stderr, "the file of cases ends early\n");
        exit(1);
    }
}

/* The file of a case, of n bytes; UINT32_MAX stands for the file of the case before. */
static inline void next_file(FILE *in, uint32_t n) {
    if (n == UINT32_MAX) return;
    if (n > LONGEST) {
        fprintf(stderr, "a case has too long a file\n");
        exit(1);
    }
    next_bytes(in, file, size = n);
}

/* Goes through the cases, each read and judged by `one`, and says how many they were. */
static inline void all_cases(const char *path, void (*one)(FILE *in, uint32_t i), const char *what) {
    uint8_t head[12];
    FILE *in = opened(path);
    next_bytes(in, head, sizeof head);
    for (uint32_t i = 0; i < u32_at(head + 8); i++) one(in, i);
    fclose(in);
    printf("%u cases: all %s agree\n", u32_at(head + 8), what);
}

static inline void differ_in_case(uint32_t i, int s) {
    fprintf(stderr, "case %u: ", i);
    differ("an answer of the file of cases", s);
}
