/* memory INFO ABBREV: makes the calls that ask for memory over the first unit with each request
   refused in turn, and again after it: the answers must be those of undisturbed calls, and what a
   refused call was to write stays. The other calls must ask for none. The exit status is 5 where
   the unit has too many rows. Linked with --wrap=malloc --wrap=realloc. */
#include "gimli.h"
#include "read_file.h"
#include "read_table.h"
#include <stdio.h>
#include <stdlib.h>
#include <string.h>

enum { ROOM = 64, SPACE = 1024, MOST = 400, MOST_ROWS = 1 << 16, MARK = 0xaa };
enum { TABLE_REFUSED = GIMLI_REFUSED + GIMLI_OUT_OF_MEMORY, ROW_REFUSED = GIMLI_ROW_REFUSED + GIMLI_OUT_OF_MEMORY };

/* How the rows of the unit are read. */
enum way { ROWS, ENTRIES, ENTRIES_BY };
static const char *const names[] = {"rows", "entries", "entries by a table"};

static long left = -1, refusals, requests;
void *__real_malloc(size_t n);
void *__real_realloc(void *p, size_t n);

static int refuse(void) {
    requests++;
    if (left > 0) left--;
    else if (left == 0) {
        left = -1;
        refusals++;
        return 1;
    }
    return 0;
}

void *__wrap_malloc(size_t n) { return refuse() ? NULL : __real_malloc(n); }
void *__wrap_realloc(void *p, size_t n) { return refuse() ? NULL : __real_realloc(p, n); }

static gimli_sections_t sections;
static gimli_unit_t unit;
static const gimli_table_t *table;
static gimli_entry_t rows[ROOM], first[MOST_ROWS], again[MOST_ROWS];
static gimli_row_t plain[ROOM];
static gimli_attr_t attrs[SPACE];

static int fails(const char *what, long at) {
    printf("%s, refused at %ld\n", what, at);
    exit(1);
}

static int is_refused_memory(uint32_t status) { return status == TABLE_REFUSED || status == ROW_REFUSED; }

static void is_kept(const char *what, const void *buffer, size_t filled, size_t size, long at) {
    for (size_t i = filled; i < size; i++) if (((const unsigned char *)buffer)[i] != MARK) fails(what, at);
}

/* One call with a buffer of rows; what is after its rows is as it was. */
static uint32_t some_rows(enum way way, gimli_place_t *place, size_t *count, long at) {
    uint32_t status;
    if (way != ROWS) {
        gimli_filled_t filled;
        memset(rows, MARK, sizeof rows);
        status = way == ENTRIES ? gimli_entries(&sections, unit.offset, place, rows, ROOM, attrs, SPACE, &filled)
                                : gimli_entries_by(&sections, unit.offset, table, place, rows, ROOM, attrs, SPACE, &filled);
        *count = filled.rows;
        is_kept("written after entries", rows, filled.rows * sizeof *rows, sizeof rows, at);
        return status;
    }
    memset(plain, MARK, sizeof plain);
    status = gimli_rows(&sections, unit.offset, place, plain, ROOM, count);
    is_kept("written after rows", plain, *count * sizeof *plain, sizeof plain, at);
    for (size_t i = 0; i < *count; i++) {
        gimli_entry_t row = {plain[i].offset, plain[i].depth, 0, 0, plain[i].tag, plain[i].has_children};
        rows[i] = row;
    }
    return status;
}

/* All rows of the unit where a request is refused, going on after it; their number. */
static size_t all_rows(enum way way, long at, gimli_entry_t *to, uint32_t *status) {
    gimli_place_t place = {unit.header_size, 0};
    size_t all = 0;
    left = at;
    for (;;) {
        gimli_place_t before = place;
        size_t count;
        *status = some_rows(way, &place, &count, at);
        /* rows without attributes ask for none, and a table that was read is not read again */
        if (way != ENTRIES && *status == (way == ROWS ? ROW_REFUSED : TABLE_REFUSED)) fails("another refusal", at);
        if (count == 0 && *status != GIMLI_MORE && memcmp(&before, &place, sizeof place)) fails("the place moved", at);
        if (count > MOST_ROWS - all) {
            printf("the unit has more rows than %d\n", MOST_ROWS);
            exit(5);
        }
        memcpy(to + all, rows, count * sizeof *rows);
        all += count;
        if (!is_refused_memory(*status) && *status != GIMLI_MORE) break;
    }
    left = -1;
    return all;
}

/* The rows are those of undisturbed calls, which by a table are those without. */
static void same_rows(enum way way) {
    uint32_t status, ended;
    size_t total = all_rows(way == ROWS ? ROWS : ENTRIES, -1, first, &status);
    long at = 0;
    for (long had = refusals; at < MOST; at++, had = refusals) {
        size_t all = all_rows(way, at, again, &ended);
        if (all != total || ended != status) fails("another number of rows", at);
        for (size_t i = 0; i < all; i++)
            if (first[i].offset != again[i].offset || first[i].depth != again[i].depth || first[i].tag != again[i].tag
                || first[i].attributes != again[i].attributes || first[i].has_children != again[i].has_children)
                fails("another row", at);
        if (refusals == had) break;
    }
    if (at == 0) fails("no request", at);
    printf("%s: %zu, same after each of %ld refusals\n", names[way], total, at);
}

/* A call that writes one thing. */
typedef uint32_t call_t(gimli_place_t place, void *into);

static uint32_t plain_sibling(gimli_place_t place, void *into) { return gimli_sibling(&sections, unit.offset, &place, 0, into); }
static uint32_t followed_sibling(gimli_place_t place, void *into) { return gimli_sibling(&sections, unit.offset, &place, 1, into); }

/* A call that answers the same where memory is refused for the table and for a row. */
static uint32_t asks_for_no_row(uint32_t status) {
    if (status == ROW_REFUSED) fails("another refusal", -1);
    return status;
}

static uint32_t first_false(gimli_place_t place, void *into) {
    (void)place;
    return asks_for_no_row(gimli_first_false(&sections, unit.offset, into));
}
static uint32_t unit_bases(gimli_place_t place, void *into) {
    (void)place;
    return asks_for_no_row(gimli_unit_bases(&sections, unit.offset, 0, NULL, into));
}

/* The bases of the unit, and an address that its root says. */
static gimli_bases_t known;

static uint32_t unit_holds(gimli_place_t place, void *into) {
    (void)place, (void)into;
    return asks_for_no_row(gimli_unit_holds(&sections, unit.offset, &known, known.address));
}

static void same_answer(const char *what, call_t *call, gimli_place_t place, size_t size) {
    unsigned char wanted[64], got[64];
    memset(wanted, MARK, sizeof wanted);
    uint32_t status = call(place, wanted);
    long at = 0;
    for (long had = refusals; at < MOST; at++, had = refusals) {
        memset(got, MARK, sizeof got);
        left = at;
        uint32_t refused = call(place, got);
        left = -1;
        if (refusals == had) break;
        if (!is_refused_memory(refused)) fails(what, at);
        is_kept(what, got, 0, sizeof got, at);
        if (call(place, got) != status || memcmp(got, wanted, size)) fails(what, at);
    }
    if (at == 0) fails("no request", at);
    printf("%s: status %u, same after each of %ld refusals\n", what, status, at);
}

/* The calls that ask for no memory: the bytes of the abbreviations stand for lists and sets. */
static void ask_for_none(void) {
    gimli_attr_t attr = {0};
    gimli_bases_t bases = {0};
    gimli_range_t range;
    gimli_location_t location;
    gimli_string_t string;
    uint64_t offset;
    size_t count;
    long had = requests;
    sections.ranges = sections.rnglists = sections.loc = sections.loclists = sections.aranges = sections.abbrev;
    sections.addresses = sections.str = sections.line_str = sections.sup_str = sections.str_offsets = sections.abbrev;
    gimli_unit(&sections, 0, &unit);
    gimli_unit_holding(&sections, sections.units.length - 1, &unit);
    for (attr.kind = 0; attr.kind < 64; attr.kind++) {
        gimli_attr_string(&sections, &unit, &attr, &bases, &string);
        gimli_attr_address(&sections, &unit, &attr, &bases, &offset);
    }
    attr.kind = GIMLI_SEC_OFFSET;
    gimli_ranges(&sections, &unit, &attr, &bases, &range, 1, &count);
    gimli_locations(&sections, &unit, &attr, &bases, &location, 1, &count);
    gimli_unit_of_address(&sections, 1, &offset);
    gimli_declaration_t declarations[8];
    gimli_specification_t specifications[64];
    gimli_counted_t counted;
    gimli_row_t row;
    gimli_place_t place = {unit.header_size, 0};
    gimli_table(&sections, unit.abbreviations, declarations, 8, specifications, 64, &counted);
    gimli_table_t none = {declarations, 0, specifications, 0};
    gimli_rows_by(&sections, 0, &none, &place, &row, 1, &count);
    if (requests != had) fails("memory that is not asked for", 0);
}

int main(int argc, char **argv) {
    if (argc < 3) return 2;
    size_t info_length, abbrev_length;
    uint8_t *info = read_file(argv[1], &info_length), *abbrev = read_file(argv[2], &abbrev_length);
    if (!info || !abbrev) return 3;
    sections = gimli_no_sections();
    sections.units = gimli_bytes(info, info_length);
    sections.abbrev = gimli_bytes(abbrev, abbrev_length);
    uint32_t status = gimli_unit(&sections, 0, &unit);
    if (status != GIMLI_MORE) return fprintf(stderr, "the unit at 0x0: %s\n", gimli_text(status)), 3;
    if (!(table = read_table(&sections, &unit))) fails("no table", 0);
    for (int way = ENTRIES_BY; way >= ROWS; way--) same_rows(way);
    gimli_place_t root = {unit.header_size, 0}, child = {first[1].offset, first[1].depth};
    same_answer("a sibling", plain_sibling, child, sizeof(gimli_row_t));
    same_answer("a sibling by references", followed_sibling, child, sizeof(gimli_row_t));
    same_answer("the root's sibling", plain_sibling, root, sizeof(gimli_row_t));
    same_answer("the first false reference", first_false, root, sizeof(uint64_t));
    same_answer("the bases", unit_bases, root, offsetof(gimli_bases_t, no_gnu_ranges) + 1);
    if (gimli_unit_bases(&sections, unit.offset, 0, NULL, &known) == GIMLI_MORE)
        same_answer("whether the unit holds an address", unit_holds, root, 0);
    ask_for_none();
    free(info), free(abbrev);
    return 0;
}
