/* The report of clashes, and the longer of two declaration texts, as one would write them in C: each pair is looked at once, names are compared as
   numbers of eight bytes, and what clashes is written at once. */
#include "units.h"
#include <string.h>

static int clash(const struct ninhalto_declaration *a, const struct ninhalto_declaration *b) {
    uint64_t one, two;
    memcpy(&one, a->name, 8);
    memcpy(&two, b->name, 8);
    if (one == two) return a->start != b->start || a->length != b->length;
    return a->start < b->start + b->length && b->start < a->start + a->length;
}

void c_clashes(const struct ninhalto_declaration *list, size_t count, uint32_t (*report)[2], size_t room, size_t told[2]) {
    size_t k = 0;
    told[0] = 10, told[1] = 0;
    if (count > NINHALTO_DECLARATIONS) return;
    for (size_t i = 0; i < count; i++)
        if (list[i].length == 0 || (uint64_t)list[i].start + list[i].length > NINHALTO_D) return;
    told[0] = 16;
    if (room < NINHALTO_PAIRS) return;
    for (uint32_t i = 0; i < count; i++)
        for (uint32_t j = i + 1; j < count; j++)
            if (clash(&list[i], &list[j])) report[k][0] = i, report[k++][1] = j;
    told[0] = 0, told[1] = k;
}

/* The number at *at, 8000 at most; the place goes behind it. 0 where it is misspelt. */
static int number(const uint8_t *s, size_t n, size_t *at, unsigned *value) {
    size_t from = *at, i = from;
    unsigned v = 0;
    for (; i < n && s[i] >= '0' && s[i] <= '9' && v <= 8000; i++) v = v * 10 + (s[i] - '0');
    *at = i, *value = v;
    return i > from && v <= 8000 && !(s[from] == '0' && i > from + 1);
}

/* How many bytes the first line has; 0 where it is misspelt. */
static size_t line(const uint8_t *s, size_t n, unsigned *length) {
    size_t at = 9;
    unsigned start;
    if (n < 9 || s[8] != ' ' || memchr(s, '\n', 8)) return 0;
    if (!number(s, n, &at, &start) || at >= n || s[at++] != ' ') return 0;
    if (!number(s, n, &at, length) || at >= n || s[at] != '\n') return 0;
    return at + 1;
}

void c_longer(const uint8_t *one, size_t one_size, const uint8_t *two, size_t two_size, size_t told[2]) {
    unsigned m, n;
    size_t e = line(one, one_size, &m), f = line(two, two_size, &n);
    told[0] = told[1] = 0;
    if (e == 0 || f == 0) return;
    if (m < n)
        told[0] = 2, told[1] = f;
    else
        told[0] = 1, told[1] = e;
}
