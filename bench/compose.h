/* Composes program files record by record. */
#include <stdint.h>
#include <stdio.h>
#include <stdlib.h>
#include <string.h>

enum { MOST = 2000 };
enum { CONSTANT = 1, X, Y, M, SM, T, D, LABEL };
enum { NOP = 0, LD = 1, LDI, AND, ANI, OR, ORI, ANB, ORB, MPS, MRD, MPP, OUT, SET, RST, LDEQ, LDGT, LDLT, TON, FOR, NEXT, CJ, LBL, END };
enum { MOV = 32, ADD, SUB, DIV, SQT, INC, DEC, VABS, NEG, DMOV = 48, DADD, DSUB, DMUL, DDIV, DSQT, DINC, DDEC };

static uint8_t file[20 * MOST + 8];
static int count;

/* A record with no operand, and an operand more for the last record. */
static void put(int number) {
    memset(file + 20 * count, 0, 20);
    file[20 * count++] = number;
}

static void with(int place, int kind, int group, uint32_t value) {
    uint8_t *p = file + 20 * (count - 1) + 2 + 6 * place;
    p[0] = kind;
    p[1] = group;
    for (int i = 0; i < 4; i++) p[2 + i] = value >> 8 * i;
}

static void put1(int number, int kind, uint32_t value) {
    put(number);
    with(0, kind, 0, value);
}

static void put2(int number, int kind, uint32_t value, int kind2, uint32_t value2) {
    put1(number, kind, value);
    with(1, kind2, 0, value2);
}

static void put3(int number, int kind, uint32_t value, int kind2, uint32_t value2, int kind3, uint32_t value3) {
    put2(number, kind, value, kind2, value2);
    with(2, kind3, 0, value3);
}

/* Rungs of a contact and a coil, then END: n records in all. */
static void fill(int n) {
    while (count + 2 < n) {
        put1(LD, X, 0);
        put1(OUT, Y, 0);
    }
    while (count + 1 < n) put(NOP);
    put(END);
}

static void write_file(const char *folder, const char *name) {
    char path[4096];
    uint32_t distance = 20 * count + 8;
    uint8_t *t = file + 20 * count;
    t[0] = 1, t[1] = 0, t[2] = count, t[3] = count >> 8;
    for (int i = 0; i < 4; i++) t[4 + i] = distance >> 8 * i;
    snprintf(path, sizeof path, "%s/%s", folder, name);
    FILE *out = fopen(path, "wb");
    if (!out || fwrite(file, 1, distance, out) != distance || fclose(out)) {
        perror(path);
        exit(1);
    }
    count = 0;
}

/* The same under the name and a number: plain-100. */
static void write_numbered(const char *folder, const char *name, int n) {
    char numbered[64];
    snprintf(numbered, sizeof numbered, "%s-%d", name, n);
    write_file(folder, numbered);
}
