/* lists: the calls that tables of rows do not reach: ranges, locations, the unit of an address,
   siblings and false references, in both byte orders, with buffers of length 0, and with null
   sections. Prints what differs; the exit status says if any did. */
#include "gimli.h"
#include <stdio.h>
#include <string.h>

static int bad;

static void same(const char *what, uint64_t is, uint64_t wanted) {
    if (is != wanted) {
        printf("%s: %llu beside %llu\n", what, (unsigned long long)is, (unsigned long long)wanted);
        bad = 1;
    }
}

/* Bases of which the address alone is not 0. */
static gimli_bases_t counted_from(uint64_t address) {
    gimli_bases_t bases;
    memset(&bases, 0, sizeof bases);
    bases.address = address;
    return bases;
}

static void empty_sections(void) {
    gimli_sections_t s = gimli_no_sections();
    gimli_unit_t unit;
    gimli_place_t place = {0, 0};
    size_t count = 7;
    uint64_t offset = 7;
    same("no unit", gimli_unit(&s, 0, &unit), GIMLI_END);
    same("after no unit", gimli_unit(&s, 1, &unit), GIMLI_REFUSED + GIMLI_UNEXPECTED_EOF);
    same("no rows", gimli_rows(&s, 0, &place, GIMLI_NONE(gimli_row_t), 0, &count), GIMLI_REFUSED + GIMLI_UNEXPECTED_EOF);
    same("count", count, 0);
    same("no set", gimli_unit_of_address(&s, 5, &offset), GIMLI_END);
    same("offset", offset, 7);
}

/* null in place of each section and of each buffer: of no bytes, and of no room, whatever the
   length beside it */
static void nulls(void) {
    static const uint8_t info[] = {8, 0, 0, 0, 4, 0, 0, 0, 0, 0, 8, 0};
    gimli_sections_t s, none;
    gimli_unit_t unit, kept;
    gimli_place_t place = {0x0b, 0};
    gimli_row_t row;
    gimli_attr_t list;
    gimli_filled_t filled;
    gimli_bases_t bases = counted_from(0);
    uint64_t offset = 7;
    size_t count = 7;
    memset(&none, 0, sizeof none);
    memset(&list, 0, sizeof list);
    s = none;
    s.units = gimli_bytes(info, sizeof info);
    same("no unit of null", gimli_unit(&none, 0, &kept), GIMLI_END);
    same("a unit", gimli_unit(&s, 0, &unit), GIMLI_MORE);
    same("rows of null", gimli_rows(&none, 0, &place, NULL, 0, &count), GIMLI_REFUSED + GIMLI_UNEXPECTED_EOF);
    same("rows without abbreviations", gimli_rows(&s, 0, &place, NULL, 0, &count), GIMLI_REFUSED + GIMLI_UNEXPECTED_EOF);
    same("a sibling", gimli_sibling(&s, 0, &place, 1, &row), GIMLI_REFUSED + GIMLI_UNEXPECTED_EOF);
    same("a false reference", gimli_first_false(&s, 0, &offset), GIMLI_REFUSED + GIMLI_UNEXPECTED_EOF);
    same("an address", gimli_unit_of_address(&none, 5, &offset), GIMLI_END);
    s.abbrev = gimli_bytes("", 1);
    same("no room for rows", gimli_rows(&s, 0, &place, NULL, 4, &count), GIMLI_MORE);
    same("their number", count, 0);
    same("no room for entries", gimli_entries(&s, 0, &place, NULL, 4, NULL, 9, &filled), GIMLI_MORE);
    same("their number", filled.rows + filled.attributes + filled.wanted, 0);
    same("the place", place.offset, 0x0b);
    list.kind = GIMLI_SEC_OFFSET;
    same("ranges", gimli_ranges(&s, &unit, &list, &bases, NULL, 0, &count), GIMLI_END);
    same("locations", gimli_locations(&s, &unit, &list, &bases, NULL, 0, &count), GIMLI_END);
    same("offsets", offset, 7);
}

/* a unit of version 5: an entry with ranges and a location list */
static void lists(void) {
    static const uint8_t info[] = {0x11, 0, 0, 0, 5, 0, 1, 8, 0, 0, 0, 0, 1, 0, 0, 0, 0, 0, 0, 0, 0};
    static const uint8_t abbrev[] = {1, 0x11, 0, 0x55, 0x17, 2, 0x17, 0, 0, 0};
    static const uint8_t rnglists[] = {4, 0x10, 0x20, 4, 0x30, 0x40, 0}, loclists[] = {4, 1, 2, 1, 0x9c, 0};
    gimli_sections_t s = gimli_no_sections();
    gimli_unit_t unit;
    gimli_entry_t row;
    gimli_attr_t attrs[2], other;
    gimli_filled_t filled;
    gimli_bases_t bases = counted_from(0x1000);
    gimli_range_t ranges[4] = {{0, 0}};
    gimli_location_t location;
    size_t count;
    s.units = gimli_bytes(info, sizeof info);
    s.abbrev = gimli_bytes(abbrev, sizeof abbrev);
    s.rnglists = gimli_bytes(rnglists, sizeof rnglists);
    s.loclists = gimli_bytes(loclists, sizeof loclists);
    same("unit", gimli_unit(&s, 0, &unit), GIMLI_MORE);
    gimli_place_t place = {unit.header_size, 0};
    same("too little space", gimli_entries(&s, 0, &place, &row, 1, attrs, 1, &filled), GIMLI_MORE);
    same("wanted", filled.wanted, 2);
    same("no rows", filled.rows, 0);
    same("place", place.offset, unit.header_size);
    same("no more space", gimli_entries(&s, 0, &place, &row, 1, attrs, 1, &filled), GIMLI_MORE);
    same("wanted again", filled.wanted, 2);
    same("entry", gimli_entries(&s, 0, &place, &row, 1, attrs, 2, &filled), GIMLI_END);
    same("attributes", filled.attributes, 2);
    same("ranges", gimli_ranges(&s, &unit, &attrs[0], &bases, ranges, 4, &count), GIMLI_END);
    same("count", count, 2);
    same("begin", ranges[1].begin, 0x1030);
    same("no room", gimli_ranges(&s, &unit, &attrs[0], &bases, GIMLI_NONE(gimli_range_t), 0, &count), GIMLI_MORE);
    same("count", count, 2);
    same("locations", gimli_locations(&s, &unit, &attrs[1], &bases, &location, 1, &count), GIMLI_END);
    same("expression", loclists[location.place], 0x9c);
    other = attrs[0];
    other.kind = GIMLI_DATA1;
    same("no list", gimli_ranges(&s, &unit, &other, &bases, ranges, 4, &count), GIMLI_NO_LIST);
    unit.address_size = 3;
    same("size", gimli_ranges(&s, &unit, &attrs[0], &bases, ranges, 4, &count), GIMLI_REFUSED + GIMLI_UNSUPPORTED_ADDRESS_SIZE);
    s.rnglists.length = 4;
    unit.address_size = 8;
    same("cut", gimli_ranges(&s, &unit, &attrs[0], &bases, ranges, 4, &count), GIMLI_ROW_REFUSED + GIMLI_UNEXPECTED_EOF);
    same("count", count, 1);
}

/* a list with ranges that are left out, and an index without an address, after which one stands */
static void ranges_left_out(void) {
    static const uint8_t rnglists[] = {
        4, 0x10, 0x20,                                            /* from 0x1000 on */
        4, 0x30, 0x30, 4, 0x50, 0x40,                             /* not below their ends */
        7, 0xfe, 0xff, 0xff, 0xff, 0xff, 0xff, 0xff, 0xff, 1,     /* at an address that stands for none */
        5, 0xff, 0xff, 0xff, 0xff, 0xff, 0xff, 0xff, 0xff, 4, 1, 2, /* from such a base on */
        5, 0, 0, 0, 0, 0, 0, 0, 0, 4, 0, 1,                       /* at 0 */
        1, 7, 4, 3, 4, 0};
    gimli_sections_t s = gimli_no_sections();
    gimli_unit_t unit;
    gimli_attr_t list;
    gimli_bases_t bases = counted_from(0x1000);
    gimli_range_t ranges[4] = {{7, 7}};
    size_t count;
    memset(&unit, 0, sizeof unit);
    memset(&list, 0, sizeof list);
    unit.version = 5, unit.address_size = 8, unit.offset_size = 4;
    list.kind = GIMLI_SEC_OFFSET;
    s.rnglists = gimli_bytes(rnglists, sizeof rnglists);
    same("no address", gimli_ranges(&s, &unit, &list, &bases, ranges, 4, &count), GIMLI_ROW_REFUSED + GIMLI_UNEXPECTED_EOF);
    same("those that are kept", count, 2);
    same("the first", ranges[0].begin, 0x1010);
    same("the second", ranges[1].begin, 0);
    same("its end", ranges[1].end, 1);
}

/* a type unit of version 4 in big endian */
static void types(void) {
    static const uint8_t types[] = {0, 0, 0, 0x18, 0, 4, 0, 0, 0, 0, 8, 1, 2, 3, 4, 5, 6, 7, 8, 0, 0, 0, 0x17, 1, 0x12, 0x34, 0, 0};
    static const uint8_t abbrev[] = {1, 0x41, 0, 0x13, 5, 0, 0, 0};
    gimli_sections_t s = gimli_no_sections();
    gimli_unit_t unit;
    gimli_row_t rows[2];
    size_t count;
    s.units = gimli_bytes(types, sizeof types);
    s.abbrev = gimli_bytes(abbrev, sizeof abbrev);
    s.big = s.types = 1;
    same("type unit", gimli_unit(&s, 0, &unit), GIMLI_MORE);
    same("signature", unit.id, 0x0102030405060708);
    gimli_place_t place = {unit.header_size, 0};
    same("its rows", gimli_rows(&s, 0, &place, rows, 1, &count), GIMLI_MORE);
    same("tag", rows[0].tag, 0x41);
}

/* an entry with a reference to its sibling, which leads there or one byte too far */
static void siblings(uint8_t target, uint32_t falsely) {
    uint8_t info[] = {0x10, 0, 0, 0, 4, 0, 0, 0, 0, 0, 4, 1, 0x0f, 2, 0, 2, 2, 0, 0, 0};
    static const uint8_t abbrev[] = {1, 0x2e, 1, 1, 0x11, 0, 0, 2, 0x34, 0, 0, 0, 0};
    gimli_sections_t s = gimli_no_sections();
    gimli_row_t row;
    gimli_place_t place = {0x0b, 5};
    uint64_t offset = 7;
    info[12] = target;
    s.units = gimli_bytes(info, sizeof info);
    s.abbrev = gimli_bytes(abbrev, sizeof abbrev);
    same("plain", gimli_sibling(&s, 0, &place, 0, &row), GIMLI_MORE);
    same("its offset", row.offset, 0x0f);
    same("its depth", (uint64_t)row.depth, 5);
    same("followed", gimli_sibling(&s, 0, &place, 1, &row), GIMLI_MORE);
    same("its offset", row.offset, target);
    same("false", gimli_first_false(&s, 0, &offset), falsely);
    same("where", offset, falsely == GIMLI_MORE ? 0x0b : 7);
}

/* The same entry, where an entry is refused after what closes it, and before that. */
static void broken_off(size_t refused, uint32_t falsely) {
    uint8_t info[] = {0x10, 0, 0, 0, 4, 0, 0, 0, 0, 0, 4, 1, 0x0f, 2, 0, 2, 2, 0, 0, 0};
    static const uint8_t abbrev[] = {1, 0x2e, 1, 1, 0x11, 0, 0, 2, 0x34, 0, 0, 0, 0};
    gimli_sections_t s = gimli_no_sections();
    uint64_t offset = 7;
    info[refused] = 9;
    s.units = gimli_bytes(info, sizeof info);
    s.abbrev = gimli_bytes(abbrev, sizeof abbrev);
    same("false before a refusal", gimli_first_false(&s, 0, &offset), falsely);
    same("where", offset, falsely == GIMLI_MORE ? 0x0b : 7);
}

/* a unit's length is the end of its rows, and no row's offset */
static void at_the_length(void) {
    static const uint8_t info[] = {8, 0, 0, 0, 4, 0, 0, 0, 0, 0, 8, 0};
    gimli_sections_t s = gimli_no_sections();
    gimli_place_t place = {sizeof info, 3};
    gimli_row_t row;
    gimli_entry_t entry;
    gimli_attr_t attr;
    gimli_filled_t filled;
    size_t count = 7;
    s.units = gimli_bytes(info, sizeof info);
    s.abbrev = gimli_bytes("", 1);
    same("rows at the length", gimli_rows(&s, 0, &place, &row, 1, &count), GIMLI_END);
    same("their number", count, 0);
    same("entries there", gimli_entries(&s, 0, &place, &entry, 1, &attr, 1, &filled), GIMLI_END);
    same("their number", filled.rows, 0);
    same("a sibling there", gimli_sibling(&s, 0, &place, 0, &row), GIMLI_REFUSED + GIMLI_OFFSET_OUT_OF_BOUNDS);
}

int main(void) {
    empty_sections();
    nulls();
    lists();
    ranges_left_out();
    types();
    siblings(0x0f, GIMLI_END);
    siblings(0x10, GIMLI_MORE);
    broken_off(0x0f, GIMLI_END);
    broken_off(0x0d, GIMLI_MORE);
    at_the_length();
    if (!bad) puts("same");
    return bad;
}
