/* check-driver FILE..          one line for each file: its name, the answer, the nanoseconds of each check, the ratio to the Rust reference, the
                                ratio to C
   check-driver --agree CASES   holds the three checks to the answers of a file of cases (reference/FORMAT.md, "Checks") */
#include "driver.h"

enum { ROUNDS = 41 };

static double timed_check(int s, long n) {
    uint64_t out[4];
    double from = now();
    for (long i = 0; i < n; i++) {
        checks[s](file, size, out);
        __asm__ volatile("" : : "r"(out) : "memory");
    }
    return now() - from;
}

static void agreed(const char *name, uint64_t answer[4]) {
    uint64_t other[4];
    c_check(file, size, answer);
    for (int s = 1; s < SIDES; s++) {
        checks[s](file, size, other);
        if (memcmp(answer, other, sizeof other)) differ(name, s);
    }
}

static void measure(int files, char **path) {
    static uint64_t answer[MOST_FILES][4];
    timed *const part[1] = {timed_check};
    for (int i = 0; i < files; i++) agreed(load(path[i])->name, answer[i]);
    take_turns(1, part, ROUNDS);
    for (int i = 0; i < files; i++) {
        if (answer[i][0])
            printf("%-10s  refused by %llu at record %llu", subjects[i].name, (unsigned long long)answer[i][0], (unsigned long long)answer[i][1]);
        else
            printf("%-10s  accepted, W %llu", subjects[i].name, (unsigned long long)answer[i][3]);
        tell(subjects[i].best[0]);
    }
}

static void agree_case(FILE *in, uint32_t i) {
    uint8_t head[20];
    uint64_t out[4];
    next_bytes(in, head, sizeof head);
    next_file(in, u32_at(head));
    for (int s = 0; s < SIDES; s++) {
        checks[s](file, size, out);
        for (int j = 0; j < 4; j++)
            if (out[j] != u32_at(head + 4 + 4 * j)) differ_in_case(i, s);
    }
}

int main(int words, char **word) {
    if (words == 3 && !strcmp(word[1], "--agree"))
        all_cases(word[2], agree_case, "checks");
    else
        measure(words - 1, word + 1);
    return 0;
}
