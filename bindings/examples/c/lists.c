/* lists FILE [DWO]: prints the ranges of each entry with DW_AT_ranges, and the locations of each list of them. */
#include "elf_files.h"

enum { MOST = 1 << 20 };

/* Whether an attribute can be a location list, and is one. */
static bool is_location_list(const gimli_attr_t *attr) {
    static const unsigned names[] = {DW_AT_location, DW_AT_string_length, DW_AT_return_addr, DW_AT_data_member_location,
                                     DW_AT_frame_base, DW_AT_segment, DW_AT_static_link, DW_AT_use_location,
                                     DW_AT_vtable_elem_location};
    if (attr->kind != GIMLI_SEC_OFFSET && attr->kind != GIMLI_LOC_LISTS_INDEX) return false;
    for (size_t i = 0; i < sizeof names / sizeof *names; i++)
        if (attr->name == names[i]) return true;
    return false;
}

static void print_lists(const entry_t *it) {
    static gimli_range_t ranges[MOST];
    static gimli_location_t locations[MOST];
    uint64_t at = it->unit->offset + it->row.offset;
    for (size_t i = 0, count; i < it->row.attributes; i++) {
        const gimli_attr_t *attr = &it->attrs[i];
        if (attr->name == DW_AT_ranges) {
            need(gimli_ranges(&sections, it->unit, attr, it->bases, ranges, MOST, &count), GIMLI_END);
            for (size_t j = 0; j < count; j++)
                printf("ranges 0x%" PRIx64 " 0x%" PRIx64 " 0x%" PRIx64 "\n", at, ranges[j].begin, ranges[j].end);
        } else if (is_location_list(attr)) {
            need(gimli_locations(&sections, it->unit, attr, it->bases, locations, MOST, &count), GIMLI_END);
            for (size_t j = 0; j < count; j++)
                printf("location 0x%" PRIx64 " 0x%" PRIx64 " 0x%" PRIx64 " %" PRIu64 "\n", at, locations[j].begin,
                       locations[j].end, locations[j].length);
        }
    }
}

int main(int argc, char **argv) {
    open_files(argc, argv);
    each_entry(print_lists);
    return 0;
}
