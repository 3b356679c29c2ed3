/* The table of abbreviations of a unit, in memory that is used again: it is right until the next call. */
#ifndef READ_TABLE_H
#define READ_TABLE_H
#include "gimli.h"
#include <stdlib.h>

static gimli_table_t table_read;
static gimli_declaration_t *declarations_held;
static gimli_specification_t *specifications_held;
static gimli_counted_t room_held;

/* The table; NULL where the unit is read without one, as the codes are not in order, or its
   abbreviations are refused. Ends the program where there is no memory. */
static const gimli_table_t *read_table(const gimli_sections_t *sections, const gimli_unit_t *unit) {
    gimli_counted_t counted;
    for (;;) {
        uint32_t status = gimli_table(sections, unit->abbreviations, declarations_held, room_held.declarations,
                                      specifications_held, room_held.specifications, &counted);
        if (status == GIMLI_END) break;
        if (status != GIMLI_MORE) return NULL;
        if (counted.declarations < room_held.declarations) counted.declarations = room_held.declarations;
        if (counted.specifications < room_held.specifications) counted.specifications = room_held.specifications;
        free(declarations_held);
        free(specifications_held);
        declarations_held = calloc(counted.declarations + 1, sizeof *declarations_held);
        specifications_held = calloc(counted.specifications + 1, sizeof *specifications_held);
        if (!declarations_held || !specifications_held) exit(4);
        room_held = counted;
    }
    table_read.declarations = declarations_held;
    table_read.declared = counted.declarations;
    table_read.specifications = specifications_held;
    table_read.specified = counted.specifications;
    return &table_read;
}
#endif
