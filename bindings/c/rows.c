/* rows INFO ABBREV [all|first|all_by|first_by] [ROOM] [REPEAT]: prints the rows of the units of a
   section, or of its first, in the format of gimli_walk_program rows; all_by and first_by read the
   table of abbreviations of each unit once. With REPEAT nothing is printed but the time. A ROOM of
   0 is one of 1, since with none no call gives a row. What is refused is told in words on stderr. */
#define _POSIX_C_SOURCE 200809L
#include "gimli.h"
#include "read_file.h"
#include "read_table.h"
#include <inttypes.h>
#include <stdio.h>
#include <stdlib.h>
#include <string.h>
#include <time.h>

static gimli_sections_t sections;
static size_t room = 4096;
static gimli_row_t *rows;
static uint64_t all_rows, folded;
static int by_table;

/* Tells what is refused of the unit at an offset; the exit status. */
static int is_refused(uint64_t unit, uint32_t status) {
    fprintf(stderr, "the unit at 0x%" PRIx64 ": %s\n", unit, gimli_text(status));
    return 1;
}

/* The rows of a unit; the exit status of the program that prints them. */
static int unit_rows(const gimli_unit_t *unit, int print) {
    gimli_place_t place = {unit->header_size, 0};
    const gimli_table_t *table = by_table ? read_table(&sections, unit) : NULL;
    for (;;) {
        size_t count = 0;
        uint32_t status = table ? gimli_rows_by(&sections, unit->offset, table, &place, rows, room, &count)
                                : gimli_rows(&sections, unit->offset, &place, rows, room, &count);
        for (size_t i = 0; i < count; i++) {
            const gimli_row_t *r = &rows[i];
            if (print)
                printf("%" PRIx64 " %" PRId64 " %x %d\n", r->offset, r->depth, r->tag, r->has_children);
            else
                folded = folded * 31 + r->offset + (uint64_t)r->depth * 7 + r->tag + r->has_children;
        }
        all_rows += count;
        if (status == GIMLI_MORE) continue;
        if (status == GIMLI_END) {
            if (print) puts("end");
            return 0;
        }
        if (print) {
            if (status >= GIMLI_ROW_REFUSED)
                printf("error %u %" PRIx64 "\n", status - GIMLI_ROW_REFUSED, place.offset);
            else
                printf("error %u\n", status - GIMLI_REFUSED);
        }
        return is_refused(unit->offset, status);
    }
}

static int section_rows(int first, int print) {
    uint64_t offset = 0;
    int worst = 0;
    for (;;) {
        gimli_unit_t unit;
        uint32_t status = gimli_unit(&sections, offset, &unit);
        if (status == GIMLI_END) {
            if (offset == 0 && print) puts("no unit");
            return offset == 0 ? 1 : worst;
        }
        if (status != GIMLI_MORE) {
            if (print) printf("error %u\n", status - GIMLI_REFUSED);
            return is_refused(offset, status);
        }
        worst |= unit_rows(&unit, print);
        if (first) return worst;
        offset = unit.offset + unit.length;
    }
}

int main(int argc, char **argv) {
    if (argc < 3) {
        fprintf(stderr, "usage: rows INFO ABBREV [all|first|all_by|first_by] [ROOM] [REPEAT]\n");
        return 2;
    }
    size_t info_length, abbrev_length;
    uint8_t *info = read_file(argv[1], &info_length), *abbrev = read_file(argv[2], &abbrev_length);
    if (!info || !abbrev) return 3;
    sections = gimli_no_sections();
    sections.units = gimli_bytes(info, info_length);
    sections.abbrev = gimli_bytes(abbrev, abbrev_length);
    int first = argc > 3 && strncmp(argv[3], "first", 5) == 0;
    by_table = argc > 3 && strstr(argv[3], "_by");
    if (argc > 4) room = strtoull(argv[4], NULL, 10);
    if (room == 0) room = 1;
    if (!(rows = calloc(room, sizeof *rows))) return 4;
    if (argc > 5) {
        int repeat = atoi(argv[5]);
        double best = 1e9;
        for (int i = 0; i < repeat; i++) {
            struct timespec a, b;
            all_rows = folded = 0;
            clock_gettime(CLOCK_MONOTONIC, &a);
            section_rows(first, 0);
            clock_gettime(CLOCK_MONOTONIC, &b);
            double t = (double)(b.tv_sec - a.tv_sec) + (double)(b.tv_nsec - a.tv_nsec) * 1e-9;
            if (t < best) best = t;
        }
        printf("%" PRIu64 " rows, room %zu: %.3f ms, %.2f million rows a second (sum %" PRIx64 ")\n", all_rows, room,
               best * 1e3, (double)all_rows / best * 1e-6, folded);
        return 0;
    }
    return section_rows(first, 1);
}
