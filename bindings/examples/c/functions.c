/* functions FILE [DWO]: prints the address, the size and the name of each function that has an address. */
#include "elf_files.h"

enum { MOST_STEPS = 16, MOST_RANGES = 1 << 20 };

/* Prints the name of an entry, or that of the entry which it completes. */
static void print_name(entry_t entry) {
    const gimli_attr_t *name, *next;
    gimli_string_t text;
    for (int step = 0; !(name = find(&entry, DW_AT_name)) && step < MOST_STEPS; step++) {
        if (!(next = find(&entry, DW_AT_specification))) next = find(&entry, DW_AT_abstract_origin);
        if (!next || next->kind != GIMLI_UNIT_REF) break;
        entry = entry_at(&sections, entry.unit, entry.bases, next->number);
    }
    if (!name) return (void)puts("?");
    need(gimli_attr_string(&sections, entry.unit, name, entry.bases, &text), GIMLI_MORE);
    printf("%.*s\n", (int)text.length, gimli_string_bytes(&sections, &text));
}

static void print_function(const entry_t *it) {
    static gimli_range_t ranges[MOST_RANGES];
    const gimli_attr_t *low = find(it, DW_AT_low_pc), *high = find(it, DW_AT_high_pc), *list = find(it, DW_AT_ranges);
    uint64_t begin = UINT64_MAX, size = 0, end;
    size_t count = 0;
    if (it->row.tag != DW_TAG_subprogram || (!low && !list)) return;
    if (low) need(gimli_attr_address(&sections, it->unit, low, it->bases, &begin), GIMLI_MORE);
    else need(gimli_ranges(&sections, it->unit, list, it->bases, ranges, MOST_RANGES, &count), GIMLI_END);
    if (!low && !count) return;
    bool has_end = low && high && gimli_attr_address(&sections, it->unit, high, it->bases, &end) == GIMLI_MORE;
    if (low && high) size = has_end ? end - begin : high->number;
    if (begin + size < begin) return; /* the address stands for none: the linker has discarded the function */
    for (size_t i = 0; i < count; i++) {
        if (ranges[i].begin < begin) begin = ranges[i].begin;
        size += ranges[i].end - ranges[i].begin;
    }
    printf("0x%" PRIx64 " %" PRIu64 " ", begin, size);
    print_name(*it);
}

int main(int argc, char **argv) {
    open_files(argc, argv);
    each_entry(print_function);
    return 0;
}
