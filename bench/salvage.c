/* The salvage of torn files, document 02 (x), in plain C: what the proved one is measured against. */
#include "salvage.h"
#include "table.h"
#include <string.h>

enum { MOST = 2000 };

/* Would 2 or 3 refuse the record? */
static int unfit(const uint8_t *r) {
    const struct row *row = &table[r[0]];
    if (!row->known || r[1] != 0) return 1;
    for (int i = 0; i < 3; i++)
        if (!allowed(row->place[i], r + 2 + 6 * i)) return 1;
    return 0;
}

/* How many of the first n records are kept; whether END stands last among them is told. */
static size_t keep(const uint8_t *r, size_t n, int *ended) {
    *ended = 0;
    for (size_t k = 0; k < n; k++, r += 20) {
        if (unfit(r)) return k;
        if (r[0] == END) {
            *ended = 1;
            return k + 1;
        }
    }
    return n;
}

static void end_record(uint8_t *at) {
    memset(at, 0, 20);
    at[0] = END;
}

static void trailer(uint8_t *at, size_t records) {
    size_t distance = 20 * records + 8;
    at[0] = 1, at[1] = 0;
    at[2] = (uint8_t)records, at[3] = (uint8_t)(records >> 8);
    at[4] = (uint8_t)distance, at[5] = (uint8_t)(distance >> 8), at[6] = at[7] = 0;
}

static void refuse(size_t told[5], size_t number) {
    told[0] = number;
    told[1] = told[2] = told[3] = told[4] = 0;
}

void c_salvage(const uint8_t *torn, size_t size, uint8_t *out, size_t room, size_t told[5]) {
    int ended;
    size_t whole = size / 20;
    size_t kept = keep(torn, whole > MOST ? MOST + 1 : whole, &ended);
    size_t records = kept + !ended;
    if (records > MOST) return refuse(told, 1);
    if (room < 20 * records + 8) return refuse(told, 16);
    memcpy(out, torn, 20 * kept);
    if (!ended) end_record(out + 20 * kept);
    trailer(out + 20 * records, records);
    told[0] = told[1] = 0;
    told[2] = kept;
    told[3] = !ended;
    told[4] = size - 20 * kept;
}
