/* function_at ELF ADDRESS: prints the unit, the name and the ranges of the function at an address
   of a linked program: the one whose code is there, and not one that is inlined into it. The exit
   status is 1 where there is none, and 2 where something is refused. The sections are read by
   libelf: cc function_at.c $(pkg-config --cflags --libs ../../target/gimli.pc libelf). */
#include "elf_files.h"
#include <errno.h>

enum { MOST_STEPS = 16 };

/* A unit, and what its values count from. */
struct unit {
    gimli_unit_t header;
    gimli_bases_t bases;
};

static struct unit unit;
/* The buffers, which `release` frees: the entries of a unit with their attributes, the attributes of
   a single entry, and ranges. */
static gimli_entry_t rows[ROOM];
static gimli_attr_t *attrs, *single;
static size_t space = 4 * ROOM, single_space = 16;
static gimli_range_t *ranges;
static size_t ranges_room = 16;

/* What is met on the way, and told where no function is found: the first skeleton unit that has the
   address, and the unit of the first list of ranges that is refused, with its status. */
static struct {
    bool is_skeleton;
    uint64_t skeleton;
    gimli_bytes_t split_file;
    uint32_t status;
    uint64_t refused;
} met;

/* Ends the program where the library refuses what it reads. */
static void refused(const char *what, uint64_t offset, uint32_t status) {
    fprintf(stderr, "error %u: %s 0x%" PRIx64 ": %s\n", GIMLI_ERROR(status), what, offset, gimli_text(status));
    exit(2);
}

/* Frees what is held, at the end of the program. */
static void release(void) {
    free(attrs);
    free(single);
    free(ranges);
    close_files();
}

/* A buffer with room for so many bytes, in place of another; ends the program where there is no
   memory. */
static void *grown(void *buffer, size_t bytes) {
    void *more = realloc(buffer, bytes);
    if (!more) exit(3);
    return more;
}

/* Reads the sections of a file, which stays open; false where it is no linked ELF file. */
static bool read_sections(const char *file) {
    GElf_Ehdr header;
    if (!open_elf(&files[0], file) || !gelf_getehdr(files[0].elf, &header)) return false;
    sections = program_sections(&files[0]);
    return header.e_type == ET_EXEC || header.e_type == ET_DYN;
}

/* The text of an attribute; a text of no bytes where it is none. */
static gimli_bytes_t text_of(const gimli_attr_t *attr) {
    gimli_string_t text;
    uint32_t status = gimli_attr_string(&sections, &unit.header, attr, &unit.bases, &text);
    return status == GIMLI_MORE ? gimli_bytes(gimli_string_bytes(&sections, &text), text.length) : gimli_bytes(NULL, 0);
}

/* The address that an attribute says. */
static bool address_of(const gimli_attr_t *attr, uint64_t *address) {
    return gimli_attr_address(&sections, &unit.header, attr, &unit.bases, address) == GIMLI_MORE;
}

/* The end of a range from its beginning on: an address, or the number of its bytes. */
static uint64_t end_of(const gimli_attr_t *high, uint64_t begin) {
    uint64_t end;
    if (address_of(high, &end)) return end;
    if (high->kind == GIMLI_SDATA) return begin + high->number;
    return (high->kind >= GIMLI_DATA1 && high->kind <= GIMLI_DATA8) || high->kind == GIMLI_UDATA ? begin + high->number : begin;
}

/* The ranges of a list: how many there are in `ranges`; none where one is refused. */
static size_t listed(const gimli_attr_t *list) {
    size_t count = 0;
    uint32_t status = GIMLI_MORE;
    while (status == GIMLI_MORE) {
        status = gimli_ranges(&sections, &unit.header, list, &unit.bases, ranges, ranges_room, &count);
        if (status == GIMLI_MORE) ranges = grown(ranges, (ranges_room = count) * sizeof *ranges);
    }
    if (status < GIMLI_REFUSED) return count;
    if (!met.status) met.status = status, met.refused = unit.header.offset;
    return 0;
}

/* The ranges of an entry, without those from 0 on, which the linker leaves of a function that it
   discards: how many there are in `ranges`. */
static size_t ranges_of(entry_t entry) {
    const gimli_attr_t *low = find(&entry, DW_AT_low_pc), *high = find(&entry, DW_AT_high_pc);
    const gimli_attr_t *list = find(&entry, DW_AT_ranges);
    size_t count = 0, kept = 0;
    if (low && high && address_of(low, &ranges[0].begin)) {
        ranges[0].end = end_of(high, ranges[0].begin);
        count = ranges[0].begin < ranges[0].end;
    } else if (list) count = listed(list);
    for (size_t i = 0; i < count; i++)
        if (ranges[i].begin != 0) ranges[kept++] = ranges[i];
    return kept;
}

/* Whether one of so many of `ranges` has an address. */
static bool is_in_ranges(size_t count, uint64_t address) {
    for (size_t i = 0; i < count; i++)
        if (ranges[i].begin <= address && address < ranges[i].end) return true;
    return false;
}

/* The entry at an offset of the unit, with its attributes in `single`. */
static entry_t read_entry(uint64_t offset) {
    entry_t entry = {&unit.header, &unit.bases, {0}, NULL};
    gimli_filled_t filled = {0, 0, 0};
    uint32_t status;
    do {
        gimli_place_t place = {offset, 0};
        if (filled.wanted > single_space) single = grown(single, (single_space = filled.wanted) * sizeof *single);
        status = gimli_entries(&sections, unit.header.offset, &place, &entry.row, 1, single, single_space, &filled);
    } while (filled.wanted > 0);
    if (filled.rows == 0 && status != GIMLI_END) refused("the entry at", unit.header.offset + offset, status);
    entry.attrs = single;
    return entry;
}

/* Makes `unit` the unit at an offset; false at the end. */
static bool begin_unit(uint64_t offset) {
    uint32_t status = gimli_unit(&sections, offset, &unit.header);
    if (status == GIMLI_END) return false;
    if (status != GIMLI_MORE) refused("the unit at", offset, status);
    status = gimli_unit_bases(&sections, offset, 0, NULL, &unit.bases);
    if (status != GIMLI_MORE) refused("the unit at", offset, status);
    return true;
}

/* The entry that an attribute names, and its unit; one without attributes where it names none. */
static entry_t followed(gimli_attr_t attr) {
    entry_t none = {NULL, NULL, {0}, NULL};
    gimli_unit_t holding;
    if (attr.kind == GIMLI_UNIT_REF) return read_entry(attr.number);
    if (attr.kind != GIMLI_INFO_REF || gimli_unit_holding(&sections, attr.number, &holding) != GIMLI_MORE) return none;
    return begin_unit(holding.offset) ? read_entry(attr.number - holding.offset) : none;
}

/* The text of the first attribute of a name, or else of another, of an entry or of the entries that
   it stands for. */
static void print_text(const char *word, entry_t entry, unsigned name, unsigned other) {
    struct unit of = unit;
    for (int step = 0; step < MOST_STEPS; step++) {
        const gimli_attr_t *attr = find(&entry, name), *next = find(&entry, DW_AT_abstract_origin);
        if (attr || (attr = find(&entry, other))) {
            gimli_bytes_t text = text_of(attr);
            printf("%s ", word);
            fwrite(text.bytes, 1, text.length, stdout);
            putchar('\n');
            break;
        }
        if (!next && !(next = find(&entry, DW_AT_specification))) break;
        entry = followed(*next);
    }
    unit = of;
}

/* Whether an entry is the function of an address; then it is printed. */
static bool is_function(entry_t entry, uint64_t address) {
    size_t count = ranges_of(entry);
    if (!is_in_ranges(count, address)) return false;
    printf("unit 0x%" PRIx64 "\n", unit.header.offset);
    print_text("unit name", read_entry(unit.header.header_size), DW_AT_name, DW_AT_name);
    print_text("function", entry, DW_AT_name, DW_AT_name);
    print_text("linkage name", entry, DW_AT_linkage_name, DW_AT_MIPS_linkage_name);
    for (size_t i = 0; i < count; i++) printf("range 0x%" PRIx64 " 0x%" PRIx64 "\n", ranges[i].begin, ranges[i].end);
    return true;
}

/* Keeps in mind that the unit of a root has the address but is a skeleton, whose functions are in
   another file. */
static void meet_root(entry_t root, uint64_t address) {
    const gimli_attr_t *name = find(&root, DW_AT_dwo_name);
    if (!name) name = find(&root, DW_AT_GNU_dwo_name);
    if (met.is_skeleton || (!name && unit.header.kind != DW_UT_skeleton)) return;
    if (!is_in_ranges(ranges_of(root), address)) return;
    met.is_skeleton = true;
    met.skeleton = unit.header.offset;
    met.split_file = name ? text_of(name) : gimli_bytes(NULL, 0);
}

/* Looks for the function of an address in `unit`. */
static bool function_in_unit(uint64_t address) {
    gimli_place_t place = {unit.header.header_size, 0};
    gimli_filled_t filled;
    uint32_t status = GIMLI_MORE;
    while (status == GIMLI_MORE) {
        status = gimli_entries(&sections, unit.header.offset, &place, rows, ROOM, attrs, space, &filled);
        for (size_t i = 0; i < filled.rows; i++) {
            entry_t entry = {&unit.header, &unit.bases, rows[i], attrs + rows[i].first};
            if (rows[i].offset == unit.header.header_size) meet_root(entry, address);
            if (rows[i].tag == DW_TAG_subprogram && is_function(entry, address)) return true;
        }
        if (filled.wanted > space) attrs = grown(attrs, (space = filled.wanted) * sizeof *attrs);
    }
    if (status != GIMLI_END) refused("the entry at", unit.header.offset + place.offset, status);
    return false;
}

/* Tells why no function was found; the exit status. */
static int none(uint64_t address) {
    if (met.is_skeleton) {
        printf("skeleton unit 0x%" PRIx64 ": its functions are in ", met.skeleton);
        fwrite(met.split_file.bytes, 1, met.split_file.length, stdout);
        putchar('\n');
    } else if (met.status) refused("the ranges of the unit at", met.refused, met.status);
    else printf("no function at 0x%" PRIx64 "\n", address);
    return 1;
}

/* A hexadecimal number, with 0x before it or not. */
static bool read_address(const char *text, uint64_t *address) {
    char *end;
    if (text[strspn(text, "0123456789abcdefABCDEFx")]) return false;
    errno = 0;
    *address = strtoull(text, &end, 16);
    return *text && !*end && !errno;
}

int main(int argc, char **argv) {
    uint64_t offset = 0, address;
    if (argc != 3 || !read_address(argv[2], &address))
        return fprintf(stderr, "usage: function_at ELF ADDRESS (functions that are inlined there are passed over)\n"), 2;
    files[0].descriptor = files[1].descriptor = -1;
    if (atexit(release)) return 3;
    if (!read_sections(argv[1])) return fprintf(stderr, "function_at: %s is no linked ELF file\n", argv[1]), 2;
    attrs = grown(NULL, space * sizeof *attrs);
    single = grown(NULL, single_space * sizeof *single);
    ranges = grown(NULL, ranges_room * sizeof *ranges);
    /* without .debug_aranges, and where it has no unit or is refused, all units are looked through */
    if (gimli_unit_of_address(&sections, address, &offset) == GIMLI_MORE) {
        if (begin_unit(offset) && function_in_unit(address)) return 0;
    } else {
        for (offset = 0; begin_unit(offset); offset += unit.header.length)
            if (function_in_unit(address)) return 0;
    }
    return none(address);
}
