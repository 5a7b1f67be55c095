/* move-driver FILE..          for each file one line of its use map and one of its move: the name, the nanoseconds of a call, the ratio to the
                               Rust reference, the ratio to C
   move-driver --agree CASES   holds the three moves to the answers of a file of cases (reference/FORMAT.md, "Moves")
   A move goes there and back: the block of 12 words at D102 to the lowest place in all of D, and from there to the lowest place, which is D102
   again. */
#include "driver.h"
#include "move.h"

enum { ROUNDS = 41, START = 102, LENGTH = 12 };

typedef void move(uint8_t *file, size_t size, uint32_t start, uint32_t length, uint32_t from, uint32_t end, size_t told[3]);
typedef void map(const uint8_t *file, size_t size, size_t told[2], uint8_t read[1000], uint8_t written[1000]);

static void proved_move(uint8_t *f, size_t n, uint32_t start, uint32_t length, uint32_t from, uint32_t end, size_t told[3]) {
    ninhalto_move(f, n, start, length, from, end, &told[0], &told[1], &told[2]);
}

static void proved_map(const uint8_t *f, size_t n, size_t told[2], uint8_t read[1000], uint8_t written[1000]) {
    ninhalto_map(f, n, &told[0], &told[1], read, written);
}

static move *const moves[3] = {c_move, proved_move, IF_REFERENCE(reference_move)};
static map *const maps[3] = {c_map, proved_map, IF_REFERENCE(reference_map)};

static double timed_map(int s, long n) {
    static uint8_t read[1000], written[1000];
    size_t told[2];
    double from = now();
    for (long i = 0; i < n; i++) {
        maps[s](file, size, told, read, written);
        __asm__ volatile("" : : "r"(told), "r"(read), "r"(written) : "memory");
    }
    return now() - from;
}

/* There and back are two moves; the time of one is given. */
static double timed_move(int s, long n) {
    size_t told[3];
    double from = now();
    for (long i = 0; i < n; i++) {
        moves[s](file, size, START, LENGTH, 0, 8000, told);
        moves[s](file, size, told[2], LENGTH, 0, 8000, told);
        if (told[0] || told[2] != START) differ("there and back", s);
    }
    return (now() - from) / 2;
}

/* All sides give the same map, and the same file and place of the move. */
static void agreed(const char *name) {
    static uint8_t read[3][1000], written[3][1000], moved[3][LONGEST];
    size_t told[3][3];
    for (int s = 0; s < SIDES; s++) {
        maps[s](file, size, told[s], read[s], written[s]);
        if (told[s][0] || memcmp(read[0], read[s], 1000) || memcmp(written[0], written[s], 1000)) differ(name, s);
        memcpy(moved[s], file, size);
        moves[s](moved[s], size, START, LENGTH, 0, 8000, told[s]);
        if (memcmp(told[0], told[s], sizeof told[0]) || memcmp(moved[0], moved[s], size)) differ(name, s);
    }
}

static void measure(int files, char **path) {
    timed *const parts[2] = {timed_map, timed_move};
    for (int i = 0; i < files; i++) agreed(load(path[i])->name);
    take_turns(2, parts, ROUNDS);
    for (int i = 0; i < files; i++) {
        printf("map-%-11s", subjects[i].name);
        tell(subjects[i].best[0]);
        printf("move-%-10s", subjects[i].name);
        tell(subjects[i].best[1]);
    }
}

/* One case: each side gives the answer told there, and makes the changes named there and no other. */
static void agree_case(FILE *in, uint32_t i) {
    static uint8_t after[LONGEST], moved[LONGEST];
    uint8_t head[30], change[5];
    size_t told[3];
    next_bytes(in, head, 4);
    next_file(in, u32_at(head));
    next_bytes(in, head, sizeof head);
    memcpy(after, file, size);
    for (int k = head[28] | head[29] << 8; k > 0; k--) {
        next_bytes(in, change, 5);
        if (u32_at(change) < size) after[u32_at(change)] = change[4];
    }
    for (int s = 0; s < SIDES; s++) {
        memcpy(moved, file, size);
        moves[s](moved, size, u32_at(head), u32_at(head + 4), u32_at(head + 8), u32_at(head + 12), told);
        int same = !memcmp(moved, after, size);
        for (int j = 0; j < 3; j++) same &= told[j] == u32_at(head + 16 + 4 * j);
        if (!same) differ_in_case(i, s);
    }
}

int main(int words, char **word) {
    if (words == 3 && !strcmp(word[1], "--agree"))
        all_cases(word[2], agree_case, "moves");
    else
        measure(words - 1, word + 1);
    return 0;
}
