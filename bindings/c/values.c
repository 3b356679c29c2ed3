/* values: the calls that tables of rows do not reach: what the values of a unit count from, texts and addresses
   by attributes, the unit that holds an offset, and whether a unit holds an address, over sections made by hand,
   in both byte orders and formats. Prints what differs; the exit status says if any did. */
#include "gimli.h"
#include <stdio.h>
#include <string.h>

static int bad;

static void same(const char *what, uint64_t is, uint64_t wanted) {
    if (is != wanted) {
        printf("%s: %llu beside %llu\n", what, (unsigned long long)is, (unsigned long long)wanted);
        bad = 1;
    }
}

/* A unit with a root alone, and its abbreviations. */
struct made {
    uint8_t info[64], abbrev[32];
    size_t info_length, abbrev_length;
};

/* Puts a number of so many bytes after the bytes of a section. */
static void put(uint8_t *bytes, size_t *length, uint64_t number, size_t size, int big) {
    for (size_t i = 0; i < size; i++) bytes[*length + i] = (uint8_t)(number >> 8 * (big ? size - 1 - i : i));
    *length += size;
}

static void put_zeros(uint8_t *bytes, size_t *length, size_t count) {
    memset(bytes + *length, 0, count);
    *length += count;
}

static void put_leb(uint8_t *bytes, size_t *length, uint64_t number) {
    for (; number >= 128; number >>= 7) bytes[(*length)++] = (uint8_t)(number | 128);
    bytes[(*length)++] = (uint8_t)number;
}

/* How a unit is written. */
struct written {
    int version, is_wide, big;
};

/* An attribute of a root: its name and form, and so many bytes of its value. */
struct attribute {
    unsigned name, form;
    uint64_t number;
    size_t size;
};

static struct made make(struct written as, const struct attribute *attributes, size_t count) {
    struct made made;
    uint8_t entry[48];
    size_t word = as.is_wide ? 8 : 4, entry_length = 0;
    memset(&made, 0, sizeof made);
    put_leb(entry, &entry_length, 1);
    put_leb(made.abbrev, &made.abbrev_length, 1), put_leb(made.abbrev, &made.abbrev_length, 0x11);
    made.abbrev[made.abbrev_length++] = 0;
    for (size_t i = 0; i < count; i++) {
        put_leb(made.abbrev, &made.abbrev_length, attributes[i].name);
        put_leb(made.abbrev, &made.abbrev_length, attributes[i].form);
        put(entry, &entry_length, attributes[i].number, attributes[i].size ? attributes[i].size : word, as.big);
    }
    made.abbrev_length += 3; /* the ends of the attributes and of the table */
    if (as.is_wide) put(made.info, &made.info_length, UINT32_MAX, 4, as.big);
    put(made.info, &made.info_length, (as.version < 5 ? 3 : 4) + word + entry_length, word, as.big);
    put(made.info, &made.info_length, (uint64_t)as.version, 2, as.big);
    if (as.version >= 5) made.info[made.info_length++] = 1, made.info[made.info_length++] = 8;
    put(made.info, &made.info_length, 0, word, as.big);
    if (as.version < 5) made.info[made.info_length++] = 8;
    memcpy(made.info + made.info_length, entry, entry_length);
    made.info_length += entry_length;
    return made;
}

static gimli_sections_t sections_of(const struct made *made, int big) {
    gimli_sections_t s = gimli_no_sections();
    s.units = gimli_bytes(made->info, made->info_length);
    s.abbrev = gimli_bytes(made->abbrev, made->abbrev_length);
    s.big = (uint8_t)big;
    return s;
}

/* The bytes of what calls fill, without those after its last field. */
enum { BASES_SIZE = offsetof(gimli_bases_t, no_gnu_ranges) + 1, UNIT_SIZE = offsetof(gimli_unit_t, offset_size) + 1 };

/* Bases that no call fills like this. */
static gimli_bases_t marked_bases(void) {
    gimli_bases_t bases;
    memset(&bases, 0xa5, sizeof bases);
    return bases;
}

static void is_kept(const char *what, const gimli_bases_t *bases) {
    gimli_bases_t marked = marked_bases();
    same(what, (uint64_t)memcmp(bases, &marked, BASES_SIZE), 0);
}

/* The bases of the one unit of what is made. */
static uint32_t bases_of(const struct made *made, int big, uint8_t dwo, const gimli_bases_t *skeleton, gimli_bases_t *bases) {
    gimli_sections_t s = sections_of(made, big);
    *bases = marked_bases();
    return gimli_unit_bases(&s, 0, dwo, skeleton, bases);
}

/* A root without attributes: in a program from the address 0 on; in a split file the tables begin after their
   headers, and nothing says from which address lists count. */
static void no_attributes(struct written as) {
    struct made made = make(as, NULL, 0);
    gimli_bases_t bases;
    same("no attributes", bases_of(&made, as.big, 0, NULL, &bases), GIMLI_MORE);
    same("the address", bases.address + bases.no_address + bases.dwo, 0);
    same("no bases", bases.no_addresses & bases.no_rnglists & bases.no_loclists & bases.no_str_offsets & bases.no_gnu_ranges, 1);
    same("no attributes of a split unit", bases_of(&made, as.big, 7, NULL, &bases), GIMLI_MORE);
    same("of a split file", bases.dwo, 1);
    same("no address", bases.no_address & bases.no_addresses & bases.no_gnu_ranges, 1);
    uint64_t texts = as.version < 5 ? 0 : as.is_wide ? 16 : 8, lists = as.version < 5 ? 0 : as.is_wide ? 20 : 12;
    same("the table of texts", bases.str_offsets, texts), same("is one", bases.no_str_offsets, 0);
    same("the table of ranges", bases.rnglists, lists), same("is one", bases.no_rnglists, as.version < 5);
    same("the table of locations", bases.loclists, lists), same("is one", bases.no_loclists, as.version < 5);
    gimli_bases_t skeleton = bases;
    skeleton.address = 0x1000, skeleton.addresses = 40, skeleton.gnu_ranges = 3;
    skeleton.no_address = skeleton.no_addresses = skeleton.no_gnu_ranges = 0;
    same("with a skeleton", bases_of(&made, as.big, 1, &skeleton, &bases), GIMLI_MORE);
    same("its address", bases.address, 0x1000), same("its table", bases.addresses, 40), same("its ranges", bases.gnu_ranges, 3);
    same("which are there", bases.no_address | bases.no_addresses | bases.no_gnu_ranges, 0);
    same("the table of texts", bases.str_offsets, texts);
    skeleton.no_gnu_ranges = 1;
    same("without GNU's base", bases_of(&made, as.big, 1, &skeleton, &bases), GIMLI_MORE);
    same("ranges count from 0", bases.gnu_ranges + bases.no_gnu_ranges, 0);
}

/* A base of a table in the header of its section, and after it. */
static void one_base(struct written as, unsigned name, uint64_t header) {
    gimli_bases_t bases;
    for (uint64_t base = 0; base <= header; base++) {
        struct attribute attribute = {name, 0x17, base, 0};
        struct made made = make(as, &attribute, 1);
        same("a base", bases_of(&made, as.big, 0, NULL, &bases), base < header ? GIMLI_BAD_BASE : GIMLI_MORE);
        if (base < header) is_kept("bases where one is bad", &bases);
    }
    same("the base of addresses", bases.addresses, name == 0x73 ? header : 0);
    same("the base of texts", bases.str_offsets, name == 0x72 ? header : 0);
    same("the base of ranges", bases.rnglists, name == 0x74 ? header : 0);
    same("the base of locations", bases.loclists, name == 0x8c ? header : 0);
    struct attribute small = {name, 0x0b, 12, 1};
    struct made made = make(as, &small, 1);
    same("a base that is no offset", bases_of(&made, as.big, 0, NULL, &bases),
         as.version < 5 && (name == 0x74 || name == 0x8c) ? GIMLI_MORE : GIMLI_BAD_BASE);
}

static void bases(struct written as) {
    uint64_t table = as.version < 5 ? 0 : as.is_wide ? 16 : 8, lists = as.version < 5 ? 0 : as.is_wide ? 20 : 12;
    no_attributes(as);
    one_base(as, 0x73, table);
    one_base(as, 0x72, table);
    one_base(as, 0x74, lists);
    one_base(as, 0x8c, lists);
}

/* DW_AT_low_pc as an index, before the base that it counts from. */
static void low_pc_by_index(struct written as) {
    struct attribute attributes[] = {{0x11, 0x29, 1, 1}, {0x73, 0x17, 0, 0}};
    uint8_t addresses[32] = {0};
    size_t length = as.version < 5 ? 0 : as.is_wide ? 16 : 8;
    gimli_bases_t bases = marked_bases();
    if (as.version < 5) attributes[0].form = 0x1f01, attributes[1].name = 0x2133;
    attributes[1].number = length;
    put(addresses, &length, 0x1000, 8, as.big), put(addresses, &length, 0x1234, 8, as.big);
    struct made made = make(as, attributes, 2);
    gimli_sections_t s = sections_of(&made, as.big);
    same("no addresses", gimli_unit_bases(&s, 0, 0, NULL, &bases), GIMLI_REFUSED + GIMLI_UNEXPECTED_EOF);
    is_kept("bases without addresses", &bases);
    s.addresses = gimli_bytes(addresses, length);
    same("an index", gimli_unit_bases(&s, 0, 0, NULL, &bases), GIMLI_MORE);
    same("its address", bases.address, 0x1234);
    s.addresses.length--;
    same("an address that is cut", gimli_unit_bases(&s, 0, 0, NULL, &bases), GIMLI_REFUSED + GIMLI_UNEXPECTED_EOF);
    made = make(as, attributes, 1), s = sections_of(&made, as.big);
    bases = marked_bases();
    same("an index without a base", gimli_unit_bases(&s, 0, 0, NULL, &bases), GIMLI_NO_BASE);
    is_kept("bases without a base", &bases);
    attributes[0].form = 0x0b;
    made = make(as, attributes, 1), s = sections_of(&made, as.big);
    same("an address that is none", gimli_unit_bases(&s, 0, 0, NULL, &bases), GIMLI_BAD_BASE);
}

/* A section with a number at each index: 0x10, 0x11, .. after a header. */
static size_t numbers_after(uint8_t *bytes, size_t header, size_t size, size_t count, int big) {
    size_t length = header;
    memset(bytes, 0xee, header);
    for (size_t i = 0; i < count; i++) put(bytes, &length, 0x10 + i, size, big);
    return length;
}

static gimli_unit_t header_of(struct written as) {
    gimli_unit_t unit;
    memset(&unit, 0, sizeof unit);
    unit.version = (uint16_t)as.version, unit.offset_size = as.is_wide ? 8 : 4, unit.address_size = 8;
    return unit;
}

static gimli_attr_t value(uint32_t kind, uint64_t number, uint64_t more) {
    gimli_attr_t attr;
    memset(&attr, 0, sizeof attr);
    attr.kind = kind, attr.number = number, attr.more = more;
    return attr;
}

enum { CUT = GIMLI_REFUSED + GIMLI_UNEXPECTED_EOF, TOO_FAR = GIMLI_REFUSED + GIMLI_UNSUPPORTED_OFFSET };

static uint32_t address_of(const gimli_sections_t *s, struct written as, uint32_t kind, uint64_t number, uint64_t base,
                           uint64_t *address) {
    gimli_unit_t unit = header_of(as);
    gimli_attr_t attr = value(kind, number, 0);
    gimli_bases_t bases;
    memset(&bases, 0, sizeof bases);
    bases.addresses = base;
    return gimli_attr_address(s, &unit, &attr, &bases, address);
}

static void addresses(struct written as) {
    uint8_t bytes[64];
    uint64_t header = as.is_wide ? 16 : 8, address = 7;
    gimli_sections_t s = gimli_no_sections();
    s.addresses = gimli_bytes(bytes, numbers_after(bytes, header, 8, 3, as.big)), s.big = (uint8_t)as.big;
    same("an address", address_of(&s, as, GIMLI_ADDR, 0x99, 0, &address), GIMLI_MORE), same("is", address, 0x99);
    same("an index", address_of(&s, as, GIMLI_ADDR_INDEX, 2, header, &address), GIMLI_MORE), same("is", address, 0x12);
    same("an index from later on", address_of(&s, as, GIMLI_ADDR_INDEX, 1, header + 8, &address), GIMLI_MORE);
    same("is", address, 0x12);
    same("no multiple", address_of(&s, as, GIMLI_ADDR_INDEX, 0, header + 1, &address), GIMLI_MORE);
    same("is", address, as.big ? 0x1000 : UINT64_C(0x11) << 56);
    address = 7;
    same("base 0", address_of(&s, as, GIMLI_ADDR_INDEX, 0, 0, &address), as.version < 5 ? GIMLI_MORE : GIMLI_NO_BASE);
    same("is", address, as.version < 5 ? UINT64_C(0xeeeeeeeeeeeeeeee) : 7);
    address = 7;
    same("one too many", address_of(&s, as, GIMLI_ADDR_INDEX, 3, header, &address), CUT);
    same("a base at the end", address_of(&s, as, GIMLI_ADDR_INDEX, 0, header + 24, &address), CUT);
    same("a base after it", address_of(&s, as, GIMLI_ADDR_INDEX, 0, header + 25, &address), CUT);
    same("the last base", address_of(&s, as, GIMLI_ADDR_INDEX, 0, UINT64_MAX, &address), CUT);
    same("the last index", address_of(&s, as, GIMLI_ADDR_INDEX, UINT64_MAX, header, &address), TOO_FAR);
    same("no address", address_of(&s, as, GIMLI_ADDR_INDEX_OFFSET, 0, header, &address), GIMLI_NO_ADDRESS);
    same("a number", address_of(&s, as, GIMLI_UDATA, 5, header, &address), GIMLI_NO_ADDRESS);
    s.addresses = gimli_bytes(NULL, 24);
    same("no section", address_of(&s, as, GIMLI_ADDR_INDEX, 0, header, &address), CUT);
    same("the address", address, 7);
}

static uint32_t string_of(const gimli_sections_t *s, struct written as, gimli_attr_t attr, uint64_t base,
                          gimli_string_t *string) {
    gimli_unit_t unit = header_of(as);
    gimli_bases_t bases;
    memset(&bases, 0, sizeof bases);
    bases.str_offsets = base;
    return gimli_attr_string(s, &unit, &attr, &bases, string);
}

/* A text is found, and has these bytes. */
static void is_text(const gimli_sections_t *s, struct written as, gimli_attr_t attr, uint64_t base, uint32_t section,
                    const char *wanted) {
    gimli_string_t string = {7, 7, 7};
    same("a text", string_of(s, as, attr, base, &string), GIMLI_MORE);
    same("its section", string.section, section), same("its length", string.length, strlen(wanted));
    same("its bytes", (uint64_t)memcmp(gimli_string_bytes(s, &string), wanted, strlen(wanted)), 0);
}

/* No text is found, and what was there stays. */
static void is_none(const char *what, const gimli_sections_t *s, struct written as, gimli_attr_t attr, uint64_t base,
                    uint32_t status) {
    gimli_string_t string = {7, 8, 9};
    same(what, string_of(s, as, attr, base, &string), status);
    same(what, string.place * 100 + string.length * 10 + string.section, 789);
}

static void texts_by_index(gimli_sections_t s, struct written as) {
    uint8_t offsets[80];
    uint64_t word = as.is_wide ? 8 : 4, header = 2 * word;
    size_t length = header;
    memset(offsets, 0, sizeof offsets);
    put(offsets, &length, 3, word, as.big), put(offsets, &length, 0, word, as.big), put(offsets, &length, 99, word, as.big);
    s.str_offsets = gimli_bytes(offsets, length);
    is_text(&s, as, value(GIMLI_STR_OFFSETS_INDEX, 0, 0), header, GIMLI_STR, "one");
    is_text(&s, as, value(GIMLI_STR_OFFSETS_INDEX, 1, 0), header, GIMLI_STR, "ab");
    is_text(&s, as, value(GIMLI_STR_OFFSETS_INDEX, 0, 0), header + word, GIMLI_STR, "ab");
    if (as.version < 5) is_text(&s, as, value(GIMLI_STR_OFFSETS_INDEX, 1, 0), 0, GIMLI_STR, "ab");
    else is_none("base 0", &s, as, value(GIMLI_STR_OFFSETS_INDEX, 1, 0), 0, GIMLI_NO_BASE);
    is_none("an offset too far", &s, as, value(GIMLI_STR_OFFSETS_INDEX, 2, 0), header, CUT);
    is_none("one too many", &s, as, value(GIMLI_STR_OFFSETS_INDEX, 3, 0), header, CUT);
    is_none("a base too far", &s, as, value(GIMLI_STR_OFFSETS_INDEX, 0, 0), length + 1, CUT);
    is_none("the last index", &s, as, value(GIMLI_STR_OFFSETS_INDEX, UINT64_MAX, 0), header, TOO_FAR);
    s.str_offsets = gimli_bytes(NULL, 80);
    is_none("no table", &s, as, value(GIMLI_STR_OFFSETS_INDEX, 0, 0), header, CUT);
}

static void texts(struct written as) {
    gimli_sections_t s = gimli_no_sections(), none = gimli_no_sections();
    s.big = none.big = (uint8_t)as.big;
    s.units = gimli_bytes("?unit", 6), s.str = gimli_bytes("ab\0one\0end", 10); /* (the last has no zero) */
    s.line_str = gimli_bytes("x\0line", 7), s.sup_str = gimli_bytes("sup\0", 4);
    is_text(&s, as, value(GIMLI_STRING, 1, 4), 0, GIMLI_UNITS, "unit");
    is_text(&s, as, value(GIMLI_STR_REF, 4, 0), 0, GIMLI_STR, "ne");
    is_text(&s, as, value(GIMLI_STR_REF, 2, 0), 0, GIMLI_STR, "");
    is_text(&s, as, value(GIMLI_LINE_STR_REF, 2, 0), 0, GIMLI_LINE_STR, "line");
    is_text(&s, as, value(GIMLI_STR_REF_SUP, 0, 0), 0, GIMLI_SUP_STR, "sup");
    texts_by_index(s, as);
    is_none("no zero", &s, as, value(GIMLI_STR_REF, 7, 0), 0, CUT);
    is_none("at the end", &s, as, value(GIMLI_STR_REF, 10, 0), 0, CUT);
    is_none("after the end", &s, as, value(GIMLI_STR_REF, 11, 0), 0, CUT);
    is_none("far after it", &s, as, value(GIMLI_LINE_STR_REF, UINT64_MAX, 0), 0, CUT);
    is_none("a number", &s, as, value(GIMLI_UDATA, 0, 0), 0, GIMLI_NO_STRING);
    is_none("a block", &s, as, value(GIMLI_BLOCK, 0, 0), 0, GIMLI_NO_STRING);
    is_none("no kind", &s, as, value(UINT32_MAX, 0, 0), 0, GIMLI_NO_STRING);
    is_none("no section", &none, as, value(GIMLI_STR_REF, 0, 0), 0, CUT);
}

/* In a split unit of version 4 an offset of ranges counts from the skeleton's DW_AT_GNU_ranges_base, and no other. */
static void ranges_from_a_base(struct written as) {
    uint8_t ranges[64];
    size_t length = 16, count;
    gimli_sections_t s = gimli_no_sections();
    gimli_unit_t unit = header_of(as);
    gimli_attr_t list = value(GIMLI_SEC_OFFSET, 0, 0);
    gimli_bases_t bases;
    gimli_range_t range = {7, 7};
    memset(&bases, 0, sizeof bases);
    memset(ranges, 0, sizeof ranges);
    put(ranges, &length, 0x10, 8, as.big), put(ranges, &length, 0x20, 8, as.big);
    s.ranges = gimli_bytes(ranges, sizeof ranges), s.rnglists = s.ranges, s.big = (uint8_t)as.big;
    bases.gnu_ranges = 16, bases.dwo = 1;
    same("from a base", gimli_ranges(&s, &unit, &list, &bases, &range, 1, &count), GIMLI_END);
    same("ranges", count, as.version < 5), same("the first", range.begin, as.version < 5 ? 0x10 : 7);
    bases.no_gnu_ranges = 1;
    same("without a base", gimli_ranges(&s, &unit, &list, &bases, &range, 1, &count), as.version < 5 ? GIMLI_NO_BASE : GIMLI_END);
    same("no range", count, 0);
    bases.dwo = 0;
    same("of a program", gimli_ranges(&s, &unit, &list, &bases, &range, 1, &count), GIMLI_END), same("no range", count, 0);
    bases.no_address = 1;
    same("without an address", gimli_ranges(&s, &unit, &list, &bases, &range, 1, &count), GIMLI_NO_BASE);
    bases.no_address = bases.no_gnu_ranges = 0, bases.dwo = 1, list.number = UINT64_MAX;
    same("a sum that does not fit", gimli_ranges(&s, &unit, &list, &bases, &range, 1, &count),
         as.version < 5 ? TOO_FAR : CUT);
    same("no range", count, 0);
}

/* A list by its index, and the address at an index in it: each from its base, which is none in a header. */
static void lists_by_index(struct written as) {
    uint8_t lists[64], addresses[64];
    size_t word = as.is_wide ? 8 : 4, header = as.is_wide ? 20 : 12, length = header, count;
    gimli_sections_t s = gimli_no_sections();
    gimli_unit_t unit = header_of(as);
    gimli_attr_t list = value(GIMLI_RNG_LISTS_INDEX, 0, 0);
    gimli_bases_t bases;
    gimli_range_t range;
    memset(&bases, 0, sizeof bases);
    memset(lists, 0, sizeof lists);
    put(lists, &length, word, word, as.big); /* the offset of the list, from the base on */
    put(lists, &length, 0x03010500, 4, 1);    /* from the address at the index 1, 5 bytes */
    s.rnglists = gimli_bytes(lists, length), s.big = (uint8_t)as.big;
    s.addresses = gimli_bytes(addresses, numbers_after(addresses, as.is_wide ? 16 : 8, 8, 3, as.big));
    same("no base of lists", gimli_ranges(&s, &unit, &list, &bases, &range, 1, &count), GIMLI_NO_BASE);
    same("no range", count, 0);
    bases.rnglists = header;
    same("no base of addresses", gimli_ranges(&s, &unit, &list, &bases, &range, 1, &count),
         GIMLI_ROW_REFUSED + GIMLI_UNEXPECTED_EOF);
    bases.addresses = as.is_wide ? 16 : 8;
    same("both bases", gimli_ranges(&s, &unit, &list, &bases, &range, 1, &count), GIMLI_END);
    same("a range", count, 1), same("its beginning", range.begin, 0x11), same("its end", range.end, 0x16);
    bases.no_rnglists = 255;
    same("a base that is none", gimli_ranges(&s, &unit, &list, &bases, &range, 1, &count), GIMLI_NO_BASE);
    bases.no_rnglists = 0, list.number = UINT64_MAX;
    same("the last index", gimli_ranges(&s, &unit, &list, &bases, &range, 1, &count), TOO_FAR);
    same("no range", count, 0);
}

/* Two units, and a header that is refused after them. */
static void holding(struct written as) {
    struct made made = make(as, NULL, 0);
    uint8_t info[160];
    size_t length = made.info_length;
    gimli_sections_t s = gimli_no_sections();
    gimli_unit_t unit, kept;
    memset(&unit, 0xa5, sizeof unit);
    kept = unit;
    memcpy(info, made.info, length), memcpy(info + length, made.info, length);
    s.big = (uint8_t)as.big;
    same("no unit", gimli_unit_holding(&s, 0, &unit), GIMLI_END);
    s.units = gimli_bytes(info, 2 * length);
    same("after the last unit", gimli_unit_holding(&s, 2 * length, &unit), GIMLI_END);
    same("far after it", gimli_unit_holding(&s, UINT64_MAX, &unit), GIMLI_END);
    same("what was there", (uint64_t)memcmp(&unit, &kept, UNIT_SIZE), 0);
    for (uint64_t at = 0; at < 2 * length; at++) {
        same("a byte of a unit", gimli_unit_holding(&s, at, &unit), GIMLI_MORE);
        same("its unit", unit.offset, at < length ? 0 : length), same("its length", unit.length, length);
        same("its version", unit.version, (uint64_t)as.version);
    }
    s.types = 1; /* units are those of .debug_info all the same */
    same("a byte of the second unit", gimli_unit_holding(&s, 2 * length - 1, &unit), GIMLI_MORE), same("it", unit.offset, length);
    memset(info + 2 * length, 1, 8);
    s.units = gimli_bytes(info, 2 * length + 8), unit = kept;
    same("before a refused header", gimli_unit_holding(&s, 2 * length - 1, &unit), GIMLI_MORE), same("it", unit.offset, length);
    unit = kept;
    same("in a refused header", gimli_unit_holding(&s, 2 * length, &unit), CUT);
    same("after it", gimli_unit_holding(&s, UINT64_MAX, &unit), CUT);
    same("what was there", (uint64_t)memcmp(&unit, &kept, UNIT_SIZE), 0);
}

/* The wrong byte order, and null sections. */
static void refused(struct written as) {
    struct made made = make(as, NULL, 0);
    gimli_sections_t s = sections_of(&made, !as.big), none;
    gimli_bases_t bases = marked_bases();
    gimli_unit_t unit;
    memset(&none, 0, sizeof none);
    uint32_t status = gimli_unit(&s, 0, &unit);
    same("the wrong byte order", status >= GIMLI_REFUSED, 1);
    same("its bases", gimli_unit_bases(&s, 0, 0, NULL, &bases), status);
    same("the unit that holds its first byte", gimli_unit_holding(&s, 0, &unit), status);
    same("no unit", gimli_unit_bases(&none, 0, 0, NULL, &bases), CUT);
    same("no unit that holds", gimli_unit_holding(&none, 0, &unit), GIMLI_END);
    s = sections_of(&made, as.big);
    s.abbrev = gimli_bytes(NULL, 9);
    same("no abbreviations", gimli_unit_bases(&s, 0, 0, NULL, &bases), CUT);
    s.abbrev = gimli_bytes("", 1);
    same("no declaration", gimli_unit_bases(&s, 0, 0, NULL, &bases), GIMLI_REFUSED + GIMLI_INVALID_ABBREVIATION_CODE);
    made.info[made.info_length - 1] = 0;
    same("a null in place of a root", gimli_unit_bases(&s, 0, 0, NULL, &bases), GIMLI_REFUSED + GIMLI_NO_ENTRY_AT_GIVEN_OFFSET);
    same("after the unit", gimli_unit_bases(&s, made.info_length, 0, NULL, &bases), CUT);
    is_kept("bases of what is refused", &bases);
}

/* Whether the unit at 0, whose bases its own root says, holds an address. */
static uint32_t held(const gimli_sections_t *s, uint64_t address) {
    gimli_bases_t bases = marked_bases(), kept;
    same("the bases of what is asked for", gimli_unit_bases(s, 0, 0, NULL, &bases), GIMLI_MORE);
    kept = bases;
    uint32_t status = gimli_unit_holds(s, 0, &bases, address);
    same("the bases stay", (uint64_t)memcmp(&bases, &kept, BASES_SIZE), 0);
    return status;
}

/* Addresses about two ends: the unit holds those between them alone. */
static void holds_between(const char *what, const gimli_sections_t *s, uint64_t begin, uint64_t end) {
    same(what, held(s, begin - 1), GIMLI_END), same(what, held(s, begin), GIMLI_MORE);
    same(what, held(s, end - 1), GIMLI_MORE), same(what, held(s, end), GIMLI_END);
}

/* What an address is answered of a root with these attributes, from 0x1000 and 0x1010 in .debug_addr on. */
static uint32_t held_by(struct written as, const struct attribute *attributes, size_t count, uint64_t address) {
    struct made made = make(as, attributes, count);
    uint8_t addresses[32] = {0};
    size_t length = as.version < 5 ? 0 : as.is_wide ? 16 : 8;
    gimli_sections_t s = sections_of(&made, as.big);
    put(addresses, &length, 0x1000, 8, as.big), put(addresses, &length, 0x1010, 8, as.big);
    s.addresses = gimli_bytes(addresses, length);
    return held(&s, address);
}

/* A root whose low_pc is 0x1000 and whose high_pc is this, up to which the unit holds addresses. */
static void one_span(struct written as, unsigned form, uint64_t high, size_t size, uint64_t end) {
    struct attribute attributes[] = {{0x11, 0x01, 0x1000, 8}, {0x12, form, high, size}};
    same("before low_pc", held_by(as, attributes, 2, 0xfff), GIMLI_END);
    same("at low_pc", held_by(as, attributes, 2, 0x1000), end > 0x1000 ? GIMLI_MORE : GIMLI_END);
    if (end > 0x1000) same("before high_pc", held_by(as, attributes, 2, end - 1), GIMLI_MORE);
    same("at high_pc", held_by(as, attributes, 2, end), GIMLI_END);
    same("the last address", held_by(as, attributes, 2, UINT64_MAX), GIMLI_END);
    same("one of both", held_by(as, attributes, 1, 0x1000), GIMLI_END);
    same("the other one", held_by(as, attributes + 1, 1, 0), GIMLI_END);
    same("neither", held_by(as, attributes, 0, 0), GIMLI_END);
}

/* high_pc as a number of bytes, as an address, and as what is neither. */
static void spans(struct written as) {
    one_span(as, 0x0b, 0x10, 1, 0x1010), one_span(as, 0x05, 0x1234, 2, 0x2234), one_span(as, 0x06, 0x10, 4, 0x1010);
    one_span(as, 0x07, 0x10, 8, 0x1010), one_span(as, 0x0f, 0x10, 1, 0x1010), one_span(as, 0x0d, 0x10, 1, 0x1010);
    one_span(as, 0x01, 0x1010, 8, 0x1010);
    one_span(as, 0x0b, 0, 1, 0x1000), one_span(as, 0x01, 0x1000, 8, 0x1000), one_span(as, 0x01, 0x10, 8, 0x1000);
    one_span(as, 0x0d, 0x7f, 1, 0x1000), one_span(as, 0x17, 0x10, 0, 0x1000), one_span(as, 0x0c, 1, 1, 0x1000);
    struct attribute last[] = {{0x11, 0x01, UINT64_MAX - 15, 8}, {0x12, 0x07, UINT64_MAX, 8}};
    same("before a length that is too great", held_by(as, last, 2, UINT64_MAX - 16), GIMLI_END);
    same("its first address", held_by(as, last, 2, UINT64_MAX - 15), GIMLI_MORE);
    same("the last address", held_by(as, last, 2, UINT64_MAX), GIMLI_MORE);
    struct attribute two[] = {{0x11, 0x01, 0x1000, 8}, {0x12, 0x0b, 0x10, 1}, {0x12, 0x0b, 0x20, 1}};
    same("the first of a name", held_by(as, two, 3, 0x100f), GIMLI_MORE);
    same("and no other one", held_by(as, two, 3, 0x1010), GIMLI_END);
}

/* Addresses by their indices, and an index of high_pc alone. */
static void spans_by_index(struct written as) {
    unsigned index = as.version < 5 ? 0x1f01 : 0x1b, base = as.version < 5 ? 0x2133 : 0x73;
    uint64_t header = as.version < 5 ? 0 : as.is_wide ? 16 : 8;
    struct attribute both[] = {{0x12, index, 1, 1}, {0x11, index, 0, 1}, {base, 0x17, header, 0}};
    same("before an index", held_by(as, both, 3, 0xfff), GIMLI_END), same("at it", held_by(as, both, 3, 0x1000), GIMLI_MORE);
    same("before the other", held_by(as, both, 3, 0x100f), GIMLI_MORE), same("at it", held_by(as, both, 3, 0x1010), GIMLI_END);
    struct attribute high[] = {{0x11, 0x01, 0x1000, 8}, {0x12, index, 1, 1}, {base, 0x17, header, 0}};
    same("an index of high_pc", held_by(as, high, 3, 0x100f), GIMLI_MORE);
    same("an index without a base", held_by(as, high, 2, 0x1000), GIMLI_NO_BASE);
    same("also where low_pc is missing", held_by(as, high + 1, 1, 0x1000), GIMLI_NO_BASE);
    high[1].number = 2;
    same("an index too far", held_by(as, high, 3, 0x1000), CUT);
}

/* The bases are the caller's: where one is none, what counts from it is refused, first low_pc. */
static void bases_of_the_caller(struct written as) {
    unsigned index = as.version < 5 ? 0x1f01 : 0x1b;
    struct attribute attributes[] = {{0x12, 0x01, 0x1010, 8}, {0x11, index, 9, 1}};
    struct made made = make(as, attributes, 2);
    gimli_sections_t s = sections_of(&made, as.big);
    gimli_bases_t bases;
    memset(&bases, 0, sizeof bases);
    bases.no_addresses = 255;
    same("no base of addresses", gimli_unit_holds(&s, 0, &bases, 0), GIMLI_NO_BASE);
    bases.no_addresses = 0, bases.addresses = UINT64_MAX;
    same("a base too far", gimli_unit_holds(&s, 0, &bases, 0), CUT);
    bases.addresses = 0;
    same("base 0", gimli_unit_holds(&s, 0, &bases, 0), as.version < 5 ? (uint32_t)CUT : (uint32_t)GIMLI_NO_BASE);
    struct attribute list = {0x55, 0x17, 0, 0};
    made = make(as, &list, 1), s = sections_of(&made, as.big);
    bases.no_address = 1;
    same("a list from no address", gimli_unit_holds(&s, 0, &bases, 0), GIMLI_NO_BASE);
    bases.dwo = 1, bases.no_gnu_ranges = 1, bases.no_address = 0;
    uint32_t wanted = as.version < 5 ? GIMLI_NO_BASE : GIMLI_END;
    same("a list from no base", gimli_unit_holds(&s, 0, &bases, 0), wanted);
}

/* A list with the ranges from 0x10 up to 0x20 and from 0x30 up to 0x40, and its end: in so many bytes. */
static size_t make_list(uint8_t *bytes, size_t from, struct written as) {
    size_t length = from;
    for (uint64_t begin = 0x10; begin <= 0x30; begin += 0x20) {
        size_t size = as.version < 5 ? 8 : 1;
        if (as.version >= 5) bytes[length++] = 4;
        put(bytes, &length, begin, size, as.big), put(bytes, &length, begin + 0x10, size, as.big);
    }
    put_zeros(bytes, &length, as.version < 5 ? 16 : 1);
    return length;
}

/* A root with a list has its ranges alone, which count from low_pc; what is refused counts where no range before
   holds the address. */
static void spans_by_list(struct written as) {
    struct attribute attributes[] = {{0x55, 0x17, 0, 0}, {0x11, 0x01, 0x1000, 8}, {0x12, 0x0b, 0x30, 1}};
    uint8_t bytes[64];
    size_t length = make_list(bytes, 0, as), end = as.version < 5 ? 16 : 1;
    for (size_t count = 1; count <= 3; count++) {
        uint64_t low = count == 1 ? 0 : 0x1000;
        struct made made = make(as, attributes, count);
        gimli_sections_t s = sections_of(&made, as.big);
        same("no section", held(&s, low + 0x10), GIMLI_END);
        s.ranges = s.rnglists = gimli_bytes(bytes, length);
        holds_between("the first range", &s, low + 0x10, low + 0x20), holds_between("the second", &s, low + 0x30, low + 0x40);
        s.ranges.length -= end, s.rnglists.length -= end;
        holds_between("at the section's end", &s, low + 0x30, low + 0x40);
        s.ranges.length--, s.rnglists.length--;
        same("before a range that is cut", held(&s, low + 0x1f), GIMLI_MORE);
        same("in it", held(&s, low + 0x30), CUT), same("in none", held(&s, low + 0x50), CUT);
        s.ranges = s.rnglists = gimli_bytes(bytes + length - end, end);
        same("an empty list", held(&s, low + 0x10), GIMLI_END), same("and no span", held(&s, low), GIMLI_END);
    }
    attributes[0].number = length + 1;
    struct made made = make(as, attributes, 3);
    gimli_sections_t s = sections_of(&made, as.big);
    s.ranges = s.rnglists = gimli_bytes(bytes, length);
    same("an offset too far", held(&s, 0x1010), CUT);
    attributes[0].form = 0x0b, attributes[0].size = 1;
    made = make(as, attributes, 3), s = sections_of(&made, as.big);
    holds_between("a value that names no list", &s, 0x1000, 0x1030);
}

/* A list by its index in version 5. */
static void list_by_index(struct written as) {
    uint8_t bytes[64] = {0};
    size_t word = as.is_wide ? 8 : 4, length = as.is_wide ? 20 : 12;
    struct attribute attributes[] = {{0x55, 0x23, 0, 1}, {0x74, 0x17, length, 0}};
    put(bytes, &length, word, word, as.big);
    struct made made = make(as, attributes, 2);
    gimli_sections_t s = sections_of(&made, as.big);
    s.rnglists = gimli_bytes(bytes, make_list(bytes, length, as));
    holds_between("a list by its index", &s, 0x10, 0x20), holds_between("its second range", &s, 0x30, 0x40);
    bytes[length] = 0xff;
    same("an unknown kind", held(&s, 0x10), GIMLI_REFUSED + GIMLI_UNKNOWN_RANGE_LISTS_ENTRY);
    made = make(as, attributes, 1), s = sections_of(&made, as.big);
    same("a list without a base", held(&s, 0x10), GIMLI_NO_BASE);
}

/* Puts a set of a unit: one range, or none where its length is 0. */
static void put_set(uint8_t *bytes, size_t *length, struct written as, uint64_t unit, uint64_t begin, uint64_t size) {
    size_t word = as.is_wide ? 8 : 4, fields = as.is_wide ? 24 : 12, whole = (size ? 32 : 16) + (as.is_wide ? 32 : 16);
    if (as.is_wide) put(bytes, length, UINT32_MAX, 4, as.big);
    put(bytes, length, whole - (as.is_wide ? 12 : 4), word, as.big), put(bytes, length, 2, 2, as.big);
    put(bytes, length, unit, word, as.big), put(bytes, length, 8, 1, as.big), put(bytes, length, 0, 1, as.big);
    put_zeros(bytes, length, (as.is_wide ? 32 : 16) - fields);
    if (size) put(bytes, length, begin, 8, as.big), put(bytes, length, size, 8, as.big);
    put_zeros(bytes, length, 16);
}

/* Sets of the unit at 0 say alone what it holds; where all are others', its root does. */
static void sets(struct written as) {
    struct attribute attributes[] = {{0x11, 0x01, 0x1000, 8}, {0x12, 0x0b, 0x10, 1}};
    struct made made = make(as, attributes, 2);
    uint8_t bytes[512];
    size_t length = 0;
    gimli_sections_t s = sections_of(&made, as.big);
    put_set(bytes, &length, as, made.info_length, 0x2000, 0x10);
    s.aranges = gimli_bytes(bytes, length);
    holds_between("by the root", &s, 0x1000, 0x1010);
    same("in a set of another unit", held(&s, 0x2000), GIMLI_END);
    size_t others = length;
    put_set(bytes, &length, as, 0, 0x2010, 0x10), put_set(bytes, &length, as, 0, UINT64_MAX - 15, 0x100);
    put_set(bytes, &length, as, 0, 0, 0), put_set(bytes, &length, as, 0, 0x3000, 0x10);
    s.aranges = gimli_bytes(bytes, length);
    holds_between("the first set", &s, 0x2010, 0x2020), holds_between("the last set", &s, 0x3000, 0x3010);
    same("no range, as its sum does not fit", held(&s, UINT64_MAX - 15), GIMLI_END);
    same("not by the root", held(&s, 0x1000), GIMLI_END);
    length = others;
    put_set(bytes, &length, as, 0, 0, 0);
    s.aranges = gimli_bytes(bytes, length);
    same("a set without ranges", held(&s, 0x1000), GIMLI_END), same("of 0", held(&s, 0), GIMLI_END);
    s.aranges = gimli_bytes(NULL, length);
    holds_between("no section", &s, 0x1000, 0x1010);
}

/* A header that is refused counts where no set of the unit before it holds the address; what the root is does not
   count where a set is the unit's. */
static void refused_sets(struct written as) {
    struct attribute attributes[] = {{0x11, 0x01, 0x1000, 8}, {0x12, 0x0b, 0x10, 1}};
    struct made made = make(as, attributes, 2);
    uint8_t bytes[512];
    size_t length = 0;
    gimli_sections_t s = sections_of(&made, as.big);
    gimli_bases_t bases;
    memset(&bases, 0, sizeof bases);
    put_set(bytes, &length, as, made.info_length, 0x1000, 0x10);
    s.aranges = gimli_bytes(bytes, length - 1);
    same("a set that is cut", held(&s, 0x1000), CUT);
    put(bytes, &length, 2, 4, as.big), put(bytes, &length, 9, 2, as.big);
    enum { UNKNOWN = GIMLI_REFUSED + GIMLI_UNKNOWN_VERSION };
    s.aranges = gimli_bytes(bytes, length);
    same("after a set of another unit", held(&s, 0x1000), UNKNOWN), same("of any address", held(&s, 0), UNKNOWN);
    length = 0;
    put_set(bytes, &length, as, 0, 0x2000, 0x10);
    put(bytes, &length, 2, 4, as.big), put(bytes, &length, 9, 2, as.big);
    put_set(bytes, &length, as, 0, 0x3000, 0x10);
    s.aranges = gimli_bytes(bytes, length);
    same("before it", held(&s, 0x2000), GIMLI_MORE), same("no other address", held(&s, 0x1000), UNKNOWN);
    same("in a set after it", held(&s, 0x3000), UNKNOWN);
    s.abbrev = gimli_bytes(NULL, 0);
    same("first the abbreviations", gimli_unit_holds(&s, 0, &bases, 0x2000), CUT);
    s.abbrev = gimli_bytes("", 1);
    same("a root that is refused", gimli_unit_holds(&s, 0, &bases, 0x2000), GIMLI_MORE);
    same("and a header before it", gimli_unit_holds(&s, 0, &bases, 0x1000), UNKNOWN);
    s.aranges = s.abbrev = gimli_bytes(NULL, 0);
    made.info[as.is_wide ? 12 : 4] = made.info[as.is_wide ? 13 : 5] = 9;
    same("before all the unit's header", gimli_unit_holds(&s, 0, &bases, 0x2000), UNKNOWN);
}

/* Two units, each with its own set or none; and what is no unit. */
static void units_that_hold(struct written as) {
    struct attribute attributes[] = {{0x11, 0x01, 0x1000, 8}, {0x12, 0x0b, 0x10, 1}};
    struct made made = make(as, attributes, 2);
    uint8_t info[128], bytes[128];
    size_t length = made.info_length, set = 0;
    gimli_sections_t s = sections_of(&made, as.big), none;
    gimli_bases_t bases;
    memset(&bases, 0, sizeof bases), memset(&none, 0, sizeof none);
    memcpy(info, made.info, length), memcpy(info + length, made.info, length);
    put_set(bytes, &set, as, length, 0x2000, 0x10);
    s.units = gimli_bytes(info, 2 * length), s.aranges = gimli_bytes(bytes, set), s.types = 1;
    same("the first by its root", gimli_unit_holds(&s, 0, &bases, 0x1000), GIMLI_MORE);
    same("the first by no set", gimli_unit_holds(&s, 0, &bases, 0x2000), GIMLI_END);
    same("the second not by its root", gimli_unit_holds(&s, length, &bases, 0x1000), GIMLI_END);
    same("the second by its set", gimli_unit_holds(&s, length, &bases, 0x2000), GIMLI_MORE);
    same("at the end", gimli_unit_holds(&s, 2 * length, &bases, 0), CUT);
    same("far after it", gimli_unit_holds(&s, UINT64_MAX, &bases, 0), CUT);
    same("no sections", gimli_unit_holds(&none, 0, &bases, 0), CUT);
    s.aranges = gimli_bytes(NULL, 0), s.abbrev = gimli_bytes("", 1);
    same("no declaration", gimli_unit_holds(&s, 0, &bases, 0), GIMLI_REFUSED + GIMLI_INVALID_ABBREVIATION_CODE);
    info[length - 10] = 0;
    same("a null in place of a root", gimli_unit_holds(&s, 0, &bases, 0), GIMLI_REFUSED + GIMLI_NO_ENTRY_AT_GIVEN_OFFSET);
}

static void holds(struct written as) {
    spans(as);
    spans_by_index(as);
    bases_of_the_caller(as);
    spans_by_list(as);
    if (as.version >= 5) list_by_index(as);
    sets(as);
    refused_sets(as);
    units_that_hold(as);
}

/* Where a value leads, by its kind. */
static void where(void) {
    static const struct {
        uint32_t kind;
        uint16_t name, version;
        uint32_t section;
        uint64_t offset;
    } wanted[] = {
        {GIMLI_STRING, 3, 5, GIMLI_UNITS, 7}, {GIMLI_STR_REF, 3, 5, GIMLI_STR, 7}, {GIMLI_LINE_STR_REF, 3, 5, GIMLI_LINE_STR, 7},
        {GIMLI_STR_REF_SUP, 3, 5, GIMLI_SUP_STR, 7}, {GIMLI_STR_OFFSETS_INDEX, 3, 5, GIMLI_STR_OFFSETS, 30 + 7 * 4},
        {GIMLI_ADDR_INDEX, 0x11, 5, GIMLI_ADDRESSES, 10 + 7 * 8}, {GIMLI_RNG_LISTS_INDEX, 0x55, 5, GIMLI_RNGLISTS, 40 + 7 * 4},
        {GIMLI_LOC_LISTS_INDEX, 2, 5, GIMLI_LOCLISTS, 50 + 7 * 4}, {GIMLI_SEC_OFFSET, 0x55, 5, GIMLI_RNGLISTS, 7},
        {GIMLI_SEC_OFFSET, 0x55, 4, GIMLI_RANGES, 7 + 60}, {GIMLI_SEC_OFFSET, 2, 5, GIMLI_LOCLISTS, 7},
        {GIMLI_SEC_OFFSET, 2, 4, GIMLI_LOC, 7}, {GIMLI_UDATA, 3, 5, GIMLI_UNITS, 1000},
    };
    gimli_bases_t bases = {0, 10, 40, 50, 30, 60, 1, 0, 0, 0, 0, 0, 0};
    gimli_unit_t unit;
    gimli_place_t place = {11, 0};
    memset(&unit, 0, sizeof unit);
    unit.offset = 1000, unit.offset_size = 4, unit.address_size = 8;
    for (size_t i = 0; i < sizeof wanted / sizeof *wanted; i++) {
        gimli_attr_t attribute = {7, 0, 0, 0, 0};
        attribute.kind = wanted[i].kind, attribute.name = wanted[i].name, unit.version = wanted[i].version;
        gimli_where_t found = gimli_where_value(&unit, &attribute, &bases);
        same("the section of a value", found.section, wanted[i].section);
        same("the offset of a value", found.offset, wanted[i].offset);
    }
    same("the offset of a row", gimli_where_row(&unit, &place).offset, 1011);
    same("the name of a section", (uint64_t)strcmp(gimli_section_name(GIMLI_STR_OFFSETS), ".debug_str_offsets"), 0);
    same("no section", (uint64_t)strcmp(gimli_section_name(GIMLI_SUP_STR + 1), "no section"), 0);
}

int main(void) {
    static const struct written ways[] = {{5, 0, 0}, {5, 1, 0}, {5, 0, 1}, {5, 1, 1}, {4, 0, 0}, {4, 1, 0}, {4, 0, 1}, {4, 1, 1}};
    for (size_t i = 0; i < sizeof ways / sizeof *ways; i++) {
        bases(ways[i]);
        low_pc_by_index(ways[i]);
        addresses(ways[i]);
        texts(ways[i]);
        ranges_from_a_base(ways[i]);
        if (ways[i].version >= 5) lists_by_index(ways[i]);
        holding(ways[i]);
        refused(ways[i]);
        holds(ways[i]);
    }
    where();
    if (!bad) puts("same");
    return bad;
}
