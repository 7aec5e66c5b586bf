/* A hole punched into the middle of one extent, by zagxuli.h: the plan is printed, applied, and the file's new items counted.
 * The caller would write the items, the sectors (none here) and the size. */
#include <stdio.h>
#include <string.h>
#include "zagxuli.h"

enum { SECTOR = 4096, FILE_NUMBER = 257, SIZE = 16384, GENERATION = 7, ROOM = 8 };

static void put_number(uint8_t *at, uint64_t n) {
    for (int i = 0; i < 8; i++) at[i] = (uint8_t)(n >> 8 * i);
}

static uint64_t number_at(const uint8_t *at) {
    uint64_t n = 0;
    for (int i = 0; i < 8; i++) n |= (uint64_t)at[i] << 8 * i;
    return n;
}

/* a regular item that shows a whole extent */
static void put_item(uint8_t record[ZAG_RECORD], uint64_t key, uint64_t start, uint64_t length) {
    memset(record, 0, ZAG_RECORD);
    put_number(record, FILE_NUMBER);
    record[8] = 108;
    put_number(record + 9, key);
    put_number(record + 17, 5);
    put_number(record + 25, length);
    record[37] = 1;
    put_number(record + 38, start);
    put_number(record + 46, length);
    put_number(record + 62, length);
}

static void print_edit(const uint8_t edit[ZAG_EDIT]) {
    const uint8_t *r = edit + 1;
    if (edit[0] == 2)
        printf("delete key %llu\n", (unsigned long long)number_at(r + 9));
    else
        printf("put key %llu, kind %d, extent %llu %llu, window %llu %llu\n", (unsigned long long)number_at(r + 9), r[37],
               (unsigned long long)number_at(r + 38), (unsigned long long)number_at(r + 46), (unsigned long long)number_at(r + 54),
               (unsigned long long)number_at(r + 62));
}

static void print_lines(const char *name, const uint64_t *lines, uint64_t count, int width) {
    for (uint64_t i = 0; i < count; i++) {
        printf("%s", name);
        for (int j = 0; j < width; j++) printf(" %llu", (unsigned long long)lines[i * width + j]);
        printf("\n");
    }
}

int main(void) {
    /* room for more behind the one record and the one row */
    uint8_t list[ROOM * ZAG_RECORD];
    uint64_t table[ROOM * ZAG_ROW] = {1048576, 16384, 1, 5, 0};
    const uint8_t shared[1] = {0};
    const uint64_t places[1] = {0}; /* none is lent; a pointer is never null */
    put_item(list, 0, 1048576, 16384);

    uint8_t edits[ROOM * ZAG_EDIT];
    uint64_t shares[ROOM * ZAG_REF], unrefs[ROOM * ZAG_REF], releases[ROOM * ZAG_REF], adds[ROOM * ZAG_ADD], writes[ROOM * ZAG_WRITE];
    uint64_t n[ZAG_NUMBERS];
    uint8_t code = zag_punch(SECTOR, 1073741824, GENERATION, 0, FILE_NUMBER, SIZE, false, 4096, 4096,
                             list, ZAG_RECORD, shared, 1, table, ZAG_ROW, places, 0,
                             edits, sizeof edits, shares, ROOM * ZAG_REF, unrefs, ROOM * ZAG_REF, releases, ROOM * ZAG_REF,
                             adds, ROOM * ZAG_ADD, writes, ROOM * ZAG_WRITE, n, ZAG_NUMBERS);
    if (code != ZAG_PLAN) {
        printf("no plan: %d\n", code);
        return 1;
    }
    printf("plan: size %llu, bytes %llu, prealloc %llu\n", (unsigned long long)n[6], (unsigned long long)n[7], (unsigned long long)n[8]);
    for (uint64_t i = 0; i < n[0]; i++) print_edit(edits + i * ZAG_EDIT);
    print_lines("share", shares, n[1], ZAG_REF);
    print_lines("unref", unrefs, n[2], ZAG_REF);
    print_lines("release", releases, n[3], ZAG_REF);
    print_lines("add", adds, n[4], ZAG_ADD);
    print_lines("write", writes, n[5], ZAG_WRITE);

    uint64_t counts[2];
    code = zag_apply(SECTOR, GENERATION + 1, FILE_NUMBER, 1, 1, list, sizeof list, table, ROOM * ZAG_ROW,
                     edits, n[0] * ZAG_EDIT, shares, n[1] * ZAG_REF, unrefs, n[2] * ZAG_REF, releases, n[3] * ZAG_REF,
                     adds, n[4] * ZAG_ADD, counts, 2);
    if (code != ZAG_PLAN) {
        printf("not applied: %d\n", code);
        return 1;
    }
    printf("applied: items %llu, rows %llu\n", (unsigned long long)counts[0], (unsigned long long)counts[1]);
    print_lines("row", table, counts[1], ZAG_ROW);
    return 0;
}
