/* Lists of declarations and pairs of declaration texts. The library is held to the cases of the reference, and then, on lists and texts that are drawn,
   to the plain C below: the refusal, the count, the whole report, and that list and texts stay as they were. A lent part ends where its page does, and
   the next page cannot be touched. It tells how often each answer came, and ends at once where they differ. It runs in the repository's folder.

   lists [SEED COUNT]    by default 1 and 200000 */
#define _DEFAULT_SOURCE
#include "../include/ninhalto.h"
#include <stdio.h>
#include <stdlib.h>
#include <string.h>
#include <sys/mman.h>

enum { MOST_LIST = 70, MOST_ROOM = 2100, MOST_TEXT = 96, PAGE = 4096, WORDS = 8000 };

typedef struct ninhalto_declaration declaration;
typedef uint32_t pair[2];

static const char *kind;
static unsigned long turn;

static void hold(int condition, const char *what) {
    if (condition) return;
    printf("%s %lu: %s differs\n", kind, turn, what);
    exit(1);
}

/* ---- lent parts */

/* Where a part of up to so many bytes has to end. */
static uint8_t *end_of_pages(size_t most) {
    size_t pages = (most + PAGE - 1) / PAGE * PAGE;
    uint8_t *p = mmap(0, pages + PAGE, PROT_READ | PROT_WRITE, MAP_PRIVATE | MAP_ANONYMOUS, -1, 0);
    if (p == MAP_FAILED || mprotect(p + pages, PAGE, PROT_NONE)) exit(2);
    return p + pages;
}

static uint8_t *list_end, *report_end, *one_end, *two_end;

static void make_parts(void) {
    list_end = end_of_pages(sizeof(declaration[MOST_LIST]));
    report_end = end_of_pages(sizeof(pair[MOST_ROOM + 1]));
    one_end = end_of_pages(MOST_TEXT);
    two_end = end_of_pages(MOST_TEXT);
}

/* ---- what the library leaves */

struct clashes {
    size_t number, count;
    pair report[MOST_ROOM];
};

/* The report before the call, which each case has by its seed. */
static void fresh(pair *report, size_t room, uint32_t seed) {
    for (size_t k = 0; k < room; k++) report[k][0] = seed + 2 * (uint32_t)k, report[k][1] = report[k][0] + 1;
}

/* The pair ahead of the report is never lent. */
static void proved_clashes(struct clashes *c, const declaration *list, size_t n, size_t room, uint32_t seed) {
    declaration *lent = (declaration *)list_end - n;
    pair *report = (pair *)report_end - room;
    if (n) memcpy(lent, list, n * sizeof *list);
    fresh(report - 1, room + 1, seed - 2);
    c->number = c->count = 77777;
    ninhalto_clashes(lent, n, report, room, &c->number, &c->count);
    hold(report[-1][0] == seed - 2 && report[-1][1] == seed - 1, "what is not lent");
    hold(!n || !memcmp(lent, list, n * sizeof *list), "the list");
    memcpy(c->report, report, room * sizeof *report);
}

struct longer {
    size_t text, size;
};

static struct longer proved_longer(const uint8_t *one, size_t n, const uint8_t *two, size_t m) {
    struct longer l = {77777, 77777};
    memcpy(one_end - n, one, n);
    memcpy(two_end - m, two, m);
    ninhalto_longer(one_end - n, n, two_end - m, m, &l.text, &l.size);
    hold(!memcmp(one_end - n, one, n) && !memcmp(two_end - m, two, m), "a text");
    return l;
}

/* ---- the same in plain C */

static int clash(const declaration *a, const declaration *b) {
    if (!memcmp(a->name, b->name, sizeof a->name)) return a->start != b->start || a->length != b->length;
    return a->start < b->start + b->length && b->start < a->start + a->length;
}

static size_t refusal(const declaration *list, size_t n, size_t room) {
    if (n > NINHALTO_DECLARATIONS) return 10;
    for (size_t i = 0; i < n; i++)
        if (!list[i].length || (uint64_t)list[i].start + list[i].length > WORDS) return 10;
    return room < NINHALTO_PAIRS ? 16 : 0;
}

static void plain_clashes(struct clashes *c, const declaration *list, size_t n, size_t room, uint32_t seed) {
    fresh(c->report, room, seed);
    c->number = refusal(list, n, room);
    c->count = 0;
    if (c->number) return;
    for (size_t i = 0; i < n; i++)
        for (size_t j = i + 1; j < n; j++)
            if (clash(list + i, list + j)) c->report[c->count][0] = (uint32_t)i, c->report[c->count++][1] = (uint32_t)j;
}

/* A number from *p on, which is moved behind it; -1 where none is spelt so. */
static long number_at(const uint8_t **p, const uint8_t *end) {
    const uint8_t *from = *p;
    long value = 0;
    for (; *p < end && **p >= '0' && **p <= '9'; ++*p)
        if (value <= WORDS) value = 10 * value + **p - '0';
    return *p == from || (*from == '0' && *p - from > 1) || value > WORDS ? -1 : value;
}

/* The length of the block of a text's first line, whose bytes are told; -1 where it is misspelt. */
static long line(const uint8_t *s, size_t n, size_t *bytes) {
    const uint8_t *end = s + n, *p = s + 9;
    if (n < 9 || memchr(s, '\n', 8) || s[8] != ' ') return -1;
    if (number_at(&p, end) < 0 || p == end || *p++ != ' ') return -1;
    long length = number_at(&p, end);
    if (length < 0 || p == end || *p++ != '\n') return -1;
    *bytes = (size_t)(p - s);
    return length;
}

static struct longer plain_longer(const uint8_t *one, size_t n, const uint8_t *two, size_t m) {
    size_t first = 0, second = 0;
    long a = line(one, n, &first), b = line(two, m, &second);
    if (a < 0 || b < 0) return (struct longer){0, 0};
    return a < b ? (struct longer){2, second} : (struct longer){1, first};
}

/* ---- comparing */

static void compare_clashes(const declaration *list, size_t n, size_t room, uint32_t seed, const struct clashes *due) {
    static struct clashes proved;
    proved_clashes(&proved, list, n, room, seed);
    hold(proved.number == due->number, "the refusal");
    hold(proved.count == due->count, "the count");
    hold(!memcmp(proved.report, due->report, room * sizeof *due->report), "the report");
}

static void compare_longer(const uint8_t *one, size_t n, const uint8_t *two, size_t m, struct longer due) {
    struct longer proved = proved_longer(one, n, two, m);
    hold(proved.text == due.text, "the text");
    hold(proved.size == due.size, "the size");
}

/* ---- the cases of the reference */

static FILE *cases;

static void take(void *to, size_t bytes) {
    if (fread(to, 1, bytes, cases) != bytes) {
        printf("%s %lu: the file ends\n", kind, turn);
        exit(2);
    }
}

/* A number of two or four bytes, the lowest first. */
static uint32_t taken(size_t bytes) {
    uint8_t p[4] = {0};
    take(p, bytes);
    return p[0] | p[1] << 8 | p[2] << 16 | (uint32_t)p[3] << 24;
}

static size_t at_most(uint32_t number, size_t most) {
    hold(number <= most, "the format");
    return number;
}

/* How many cases the file has. */
static unsigned long opened(const char *path, uint32_t of_kind) {
    char mark[4];
    cases = fopen(path, "rb");
    if (!cases) {
        perror(path);
        exit(2);
    }
    take(mark, 4);
    hold(!memcmp(mark, "NHV1", 4) && taken(4) == of_kind, "the format");
    return taken(4);
}

static void closed(void) {
    hold(fgetc(cases) == EOF, "the end of the file");
    fclose(cases);
}

static void case_of_lists(void) {
    static declaration list[MOST_LIST];
    static struct clashes due, plain;
    size_t n = at_most(taken(4), MOST_LIST);
    for (size_t i = 0; i < n; i++) {
        list[i].unit = taken(4);
        take(list[i].name, sizeof list[i].name);
        list[i].start = taken(4);
        list[i].length = taken(4);
    }
    size_t room = at_most(taken(4), MOST_ROOM);
    uint32_t seed = taken(4);
    due.number = taken(4);
    hold(!taken(4), "the format");
    due.count = at_most(taken(4), room);
    fresh(due.report, room, seed);
    for (size_t k = 0; k < due.count; k++) due.report[k][0] = taken(2), due.report[k][1] = taken(2);
    compare_clashes(list, n, room, seed, &due);
    plain_clashes(&plain, list, n, room, seed);
    hold(plain.number == due.number && plain.count == due.count && !memcmp(plain.report, due.report, room * sizeof *due.report), "the plain C");
}

static void case_of_texts(void) {
    static uint8_t one[MOST_TEXT], two[MOST_TEXT];
    size_t n = at_most(taken(4), MOST_TEXT);
    take(one, n);
    size_t m = at_most(taken(4), MOST_TEXT);
    take(two, m);
    struct longer due;
    due.text = taken(4);
    due.size = taken(4);
    compare_longer(one, n, two, m, due);
    struct longer plain = plain_longer(one, n, two, m);
    hold(plain.text == due.text && plain.size == due.size, "the plain C");
}

static void all_cases(void) {
    kind = "case of lists";
    unsigned long lists = opened("crates/vectors_units/data/lists.bin", 8);
    for (turn = 0; turn < lists; turn++) case_of_lists();
    closed();
    kind = "case of texts";
    unsigned long texts = opened("crates/vectors_units/data/texts.bin", 9);
    for (turn = 0; turn < texts; turn++) case_of_texts();
    closed();
    printf("%lu lists and %lu pairs of texts as the reference has them\n", lists, texts);
}

/* ---- what is drawn */

static uint64_t state;

static uint32_t draw(void) {
    state = state * 6364136223846793005u + 1442695040888963407u;
    return (uint32_t)(state >> 33);
}

static uint32_t below(uint32_t n) { return draw() % n; }

/* A block inside D, of up to `long_at_most` words, from one of so many starts on. */
static void draw_block(declaration *a, uint32_t starts, uint32_t long_at_most) {
    a->start = below(starts);
    if (!below(16)) a->start = WORDS - 1 - a->start;
    a->length = 1 + below(long_at_most);
    if (!below(16) || a->start + a->length > WORDS) a->length = WORDS - a->start;
}

static void spoil_block(declaration *a) {
    switch (below(4)) {
    case 0: a->length = 0; break;
    case 1: a->length = WORDS + 1 - a->start; break;
    case 2: a->start = draw() << 1 | 1, a->length = 0u - a->start; break;
    default: a->start = WORDS + below(2);
    }
}

/* Names are few, and any two of them differ in one byte or in two. Every third list has blocks of which few overlap. */
static size_t draw_list(declaration *list) {
    size_t n = below(16) ? below(NINHALTO_DECLARATIONS + 1) : below(MOST_LIST + 1);
    uint32_t names = 1 + below(64), sparse = !below(3), starts = sparse ? WORDS : 1 + below(400), most = sparse ? 4 : 1 + below(40);
    for (size_t i = 0; i < n; i++) {
        uint32_t name = below(names);
        list[i].unit = below(4) ? below(8) : draw();
        memcpy(list[i].name, "DUTYPUMP", 8);
        list[i].name[name % 8] ^= (uint8_t)(name / 8);
        draw_block(list + i, starts, most);
        if (i && below(4)) {
            const declaration *other = list + below((uint32_t)i);
            if (below(2)) memcpy(list[i].name, other->name, 8);
            if (below(2)) list[i].start = other->start, list[i].length = other->length;
        }
    }
    if (n && !below(8)) spoil_block(list + below((uint32_t)n));
    return n;
}

static void drawn_lists(unsigned long count) {
    static declaration list[MOST_LIST];
    static struct clashes due;
    static const size_t rooms[4] = {0, NINHALTO_PAIRS - 1, NINHALTO_PAIRS + 1, MOST_ROOM};
    unsigned long refused[17] = {0}, without = 0, with = 0, most = 0;
    kind = "drawn list";
    for (turn = 0; turn < count; turn++) {
        size_t n = draw_list(list), room = below(8) ? NINHALTO_PAIRS : rooms[below(4)];
        uint32_t seed = draw() << 1;
        plain_clashes(&due, list, n, room, seed);
        compare_clashes(list, n, room, seed, &due);
        refused[due.number]++;
        without += !due.number && !due.count;
        with += due.count > 0;
        if (due.count > most) most = due.count;
    }
    printf("%lu lists alike: refused by 10 %lu, by 16 %lu; without clashes %lu, with clashes %lu, %lu at most\n", count, refused[10], refused[16], without,
           with, most);
}

static size_t put_number(uint8_t *p) {
    static const char *const edges[8] = {"0", "00", "8000", "8001", "08", "", "80000000000", "99999999999999999999"};
    if (!below(8)) return (size_t)sprintf((char *)p, "%s", edges[below(8)]);
    return (size_t)sprintf((char *)p, "%u", below(2) ? below(WORDS + 1) : below(20));
}

/* A text with at most one byte that does not fit, cut off in one of sixteen. */
static size_t draw_text(uint8_t *p) {
    size_t n = 0;
    for (; n < 8; n++) p[n] = (uint8_t)(below(64) ? ' ' + below(95) : draw());
    p[n++] = ' ';
    n += put_number(p + n);
    p[n++] = ' ';
    n += put_number(p + n);
    p[n++] = '\n';
    for (uint32_t more = below(12); more; more--) p[n++] = (uint8_t)draw();
    if (!below(4)) p[below((uint32_t)n)] = below(2) ? (uint8_t)draw() : (uint8_t)" \n0/:9\r\t"[below(8)];
    return below(16) ? n : below((uint32_t)n + 1);
}

static void drawn_texts(unsigned long count) {
    static uint8_t one[MOST_TEXT], two[MOST_TEXT];
    unsigned long met[3] = {0};
    kind = "drawn pair of texts";
    for (turn = 0; turn < count; turn++) {
        size_t n = draw_text(one), m = draw_text(two);
        struct longer due = plain_longer(one, n, two, m);
        compare_longer(one, n, two, m, due);
        met[due.text]++;
    }
    printf("%lu pairs of texts alike: nothing %lu, of the first %lu, of the second %lu\n", count, met[0], met[1], met[2]);
}

int main(int count, char **words) {
    state = count > 1 ? strtoul(words[1], 0, 10) : 1;
    unsigned long turns = count > 2 ? strtoul(words[2], 0, 10) : 200000;
    make_parts();
    all_cases();
    drawn_lists(turns);
    drawn_texts(turns);
    return 0;
}
