/* attrs INFO ABBREV [ROOM] [SPACE] [REPEAT] [by]: prints the rows of all units with their attributes:
   a line for each row, as rows.c does, then one for each attribute: its name, form and class, its
   number, and its text where it has one; with `by` the table of abbreviations of each unit is read
   once. With a REPEAT that is not 0 nothing is printed but the time. A ROOM of 0 is one of 1, since
   with none no call gives a row; so is a SPACE of 0. What is refused is told in words on stderr, and
   then the exit status is 1. */
#define _POSIX_C_SOURCE 200809L
#include "gimli.h"
#include "read_file.h"
#include "read_table.h"
#include <inttypes.h>
#include <stdio.h>
#include <stdlib.h>
#include <time.h>

/* Tells with which status the units end, or the rows of one, and whether that is a refusal. */
static int is_refused(uint64_t unit, uint32_t status) {
    if (status == GIMLI_END) return 0;
    fprintf(stderr, "the unit at 0x%" PRIx64 ": %s\n", unit, gimli_text(status));
    return 1;
}

int main(int argc, char **argv) {
    if (argc < 3) return 2;
    size_t info_length, abbrev_length, room = 64, space = 256;
    uint8_t *info = read_file(argv[1], &info_length), *abbrev = read_file(argv[2], &abbrev_length);
    if (!info || !abbrev) return 3;
    gimli_sections_t sections = gimli_no_sections();
    sections.units = gimli_bytes(info, info_length);
    sections.abbrev = gimli_bytes(abbrev, abbrev_length);
    if (argc > 3) room = strtoull(argv[3], NULL, 10);
    if (argc > 4) space = strtoull(argv[4], NULL, 10);
    int repeat = argc > 5 ? atoi(argv[5]) : 0;
    if (room == 0) room = 1;
    if (space == 0) space = 1;
    gimli_entry_t *rows = calloc(room, sizeof *rows);
    gimli_attr_t *attrs = calloc(space, sizeof *attrs);
    if (!rows || !attrs) return 4;
    double best = 1e9;
    uint64_t all_rows = 0, all_attrs = 0, folded = 0;
    int refused = 0;
    for (int turn = 0; turn < (repeat ? repeat : 1); turn++) {
        struct timespec a, b;
        clock_gettime(CLOCK_MONOTONIC, &a);
        all_rows = all_attrs = folded = 0;
        gimli_unit_t unit;
        uint64_t offset = 0;
        uint32_t status;
        for (; (status = gimli_unit(&sections, offset, &unit)) == GIMLI_MORE; offset += unit.length) {
            gimli_place_t place = {unit.header_size, 0};
            const gimli_table_t *table = argc > 6 ? read_table(&sections, &unit) : NULL;
            while (status == GIMLI_MORE) {
                gimli_filled_t filled;
                status = table ? gimli_entries_by(&sections, offset, table, &place, rows, room, attrs, space, &filled)
                               : gimli_entries(&sections, offset, &place, rows, room, attrs, space, &filled);
                if (filled.rows == 0 && filled.wanted > space) {
                    space = filled.wanted;
                    attrs = realloc(attrs, space * sizeof *attrs);
                    if (!attrs) return 4;
                }
                all_rows += filled.rows;
                all_attrs += filled.attributes;
                for (size_t i = 0; i < filled.rows; i++) {
                    const gimli_entry_t *r = &rows[i];
                    folded = folded * 31 + r->offset + r->tag;
                    if (!repeat)
                        printf("%" PRIx64 " %" PRId64 " %x %d\n", r->offset, r->depth, r->tag, r->has_children);
                    for (size_t j = r->first; j < r->first + r->attributes; j++) {
                        const gimli_attr_t *t = &attrs[j];
                        folded = folded * 31 + t->number + t->more;
                        if (repeat) continue;
                        printf("  %x %x %u %" PRIu64 " %" PRIu64, t->name, t->form, t->kind, t->number, t->more);
                        if (t->kind == GIMLI_STRING)
                            printf(" %.*s", (int)t->more, (const char *)info + t->number);
                        else if (t->kind == GIMLI_BLOCK || t->kind == GIMLI_EXPRLOC)
                            for (uint64_t k = 0; k < t->more; k++) printf(" %02x", info[t->number + k]);
                        printf("\n");
                    }
                }
            }
            if (!repeat) printf("status %u\n", status);
            refused |= is_refused(offset, status);
        }
        refused |= is_refused(offset, status);
        clock_gettime(CLOCK_MONOTONIC, &b);
        double t = (double)(b.tv_sec - a.tv_sec) + (double)(b.tv_nsec - a.tv_nsec) * 1e-9;
        if (t < best) best = t;
    }
    if (repeat)
        printf("%" PRIu64 " rows, %" PRIu64 " attributes, room %zu, space %zu: %.3f ms, %.2f million rows a second (sum %"
               PRIx64 ")\n", all_rows, all_attrs, room, space, best * 1e3, (double)all_rows / best * 1e-6, folded);
    return refused;
}
