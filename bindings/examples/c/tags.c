/* tags FILE [DWO]: prints how many entries have each tag, in the order of the tags' codes. */
#include "elf_files.h"

enum { TAGS = 1 << 16 };

int main(int argc, char **argv) {
    static uint64_t counts[TAGS];
    static gimli_row_t rows[ROOM];
    gimli_unit_t unit = {0};
    gimli_bases_t bases;
    open_files(argc, argv);
    while (next_unit(&unit, &bases)) {
        gimli_place_t place = {unit.header_size, 0};
        uint32_t status = GIMLI_MORE;
        while (status == GIMLI_MORE) {
            size_t count;
            status = gimli_rows(&sections, unit.offset, &place, rows, ROOM, &count);
            for (size_t i = 0; i < count; i++) counts[rows[i].tag]++;
        }
        need(status, GIMLI_END);
    }
    for (unsigned tag = 1; tag < TAGS; tag++) /* (the tag of a null is 0) */
        if (counts[tag]) printf("%" PRIu64 " %s\n", counts[tag], gimli_tag_name((uint16_t)tag));
    return 0;
}
