/* hostile CASES: answers the cases of a file, one a line, as cases.py writes them, by
   every call with buffers of several sizes, 0 among them. Sections and buffers end where no page
   is mapped, so that a read or a write after them stops the program; the bytes before and after
   what a call fills have to stay. Calls with other sizes have to answer the same, and so have those
   by a table of abbreviations.

   A case is a word, 1 where the highest byte comes first, 1 where units are those of
   .debug_types, numbers, and sections as hexadecimal digits or `-`:
     walk UNITS ABBREV                    all units, their rows, siblings and false references
     row UNITS ABBREV UNIT OFFSET DEPTH   one row from a place on
     sibling UNITS ABBREV UNIT OFFSET DEPTH FOLLOWS
     find ARANGES ADDRESS
     list LIST ADDRESSES LOCATIONS OFFSETSIZE VERSION ADDRESSSIZE BASE TABLE LISTBASE DWO KIND NUMBER
     holding UNITS OFFSET
     bases UNITS ABBREV ADDRESSES FILE    what the values of a unit count from: of the first one, FILE being 0,
                                          of the first as one of a split file, FILE being 1, or of the second
                                          as the split unit of the first
     values UNITS ABBREV ADDRESSES FILE STR LINE_STR STR_OFFSETS SUP_STR      and the address and the text of
                                                                              each attribute of its root
     named UNITS ABBREV ADDRESSES FILE RANGES RNGLISTS LOC LOCLISTS           and the lists of each
     holds UNITS ABBREV ADDRESSES FILE RANGES RNGLISTS ARANGES ADDRESS        and whether the unit holds an address
     value ADDRESSES STR LINE_STR STR_OFFSETS SUP_STR OFFSETSIZE VERSION ADDRESSSIZE TABLE TEXTS MISSING KIND
           NUMBER MORE                    the address and the text that a value is, which no entry has */
#define _GNU_SOURCE
#include "gimli.h"
#include <inttypes.h>
#include <stdio.h>
#include <stdlib.h>
#include <string.h>
#include <sys/mman.h>

enum { ARENA = 8 << 20, GUARD = 4096, FRONT = 256, SIBLINGS = 64, MARK = 0xa5 };
enum { MOST_LISTS = 256, MOST_VALUES = 24 };
enum { UNITS, ABBREV, ADDRESSES, LIST, ROWS, ATTRS, ONE, DECLARED, SPECIFIED, GIVEN, FIRST, SECOND, THIRD, FOURTH, ARENAS };

static uint8_t *arenas[ARENAS];
static gimli_sections_t s;
static unsigned long number;
static int bad;

/* The table by which rows and entries are read, or NULL where they are read by that of the unit. */
static const gimli_table_t *table;

static void differs(const char *what, uint64_t is, uint64_t wanted) {
    printf("DIFFERS case %lu %s: %" PRIu64 " beside %" PRIu64 "\n", number, what, is, wanted);
    bad = 1;
}

static void same(const char *what, uint64_t is, uint64_t wanted) {
    if (is != wanted) differs(what, is, wanted);
}

/* The last bytes of an arena; after them nothing is mapped. */
static void *room_in(int arena, size_t size) {
    if (!arenas[arena]) {
        uint8_t *made = mmap(NULL, GUARD + ARENA + GUARD, PROT_READ | PROT_WRITE, MAP_PRIVATE | MAP_ANONYMOUS, -1, 0);
        if (made == MAP_FAILED || mprotect(made, GUARD, PROT_NONE) || mprotect(made + GUARD + ARENA, GUARD, PROT_NONE)) exit(3);
        arenas[arena] = made + GUARD;
    }
    if (size + FRONT > ARENA) {
        fprintf(stderr, "case %lu is too large\n", number);
        exit(3);
    }
    return arenas[arena] + ARENA - size;
}

/* A buffer, marked with what is before it. */
static void *marked(int arena, size_t size) {
    uint8_t *buffer = room_in(arena, size);
    memset(buffer - FRONT, MARK, size + FRONT);
    return buffer;
}

/* What is before a buffer and after its first bytes is as it was. */
static void is_kept(const char *what, const void *buffer, size_t filled, size_t size) {
    const uint8_t *at = buffer;
    for (const uint8_t *it = at - FRONT; it < at; it++) if (*it != MARK) return differs(what, 0, 1);
    for (size_t i = filled; i < size; i++) if (at[i] != MARK) return differs(what, i, filled);
}

/* Everything that the rows of a unit are, by one size of buffers. */
struct read {
    gimli_entry_t *rows;
    gimli_attr_t *attrs;
    size_t count, used, rows_kept, attrs_kept;
    uint32_t status;
    gimli_place_t place;
};

static struct read whole, again;

static void keep(struct read *to, const gimli_entry_t *rows, size_t count, const gimli_attr_t *attrs, size_t used) {
    if (to->count + count > to->rows_kept)
        to->rows = realloc(to->rows, (to->rows_kept = 2 * (to->count + count)) * sizeof *to->rows);
    if (to->used + used > to->attrs_kept)
        to->attrs = realloc(to->attrs, (to->attrs_kept = 2 * (to->used + used)) * sizeof *to->attrs);
    for (size_t i = 0; i < count; i++) {
        to->rows[to->count + i] = rows[i];
        to->rows[to->count + i].first += to->used;
    }
    if (used) memcpy(to->attrs + to->used, attrs, used * sizeof *attrs);
    to->count += count;
    to->used += used;
}

/* One call of gimli_entries, with the tests that need no other answer. */
static gimli_filled_t fill(uint64_t unit, struct read *to, size_t room, size_t space) {
    gimli_entry_t *rows = marked(ROWS, room * sizeof *rows);
    gimli_attr_t *attrs = marked(ATTRS, space * sizeof *attrs);
    gimli_place_t before = to->place;
    gimli_filled_t filled = {99, 99, 99};
    to->status = table ? gimli_entries_by(&s, unit, table, &to->place, room ? rows : NULL, room, space ? attrs : NULL, space, &filled)
                       : gimli_entries(&s, unit, &to->place, room ? rows : NULL, room, space ? attrs : NULL, space, &filled);
    is_kept("entries", rows, filled.rows * sizeof *rows, room * sizeof *rows);
    is_kept("attributes", attrs, filled.attributes * sizeof *attrs, space * sizeof *attrs);
    if (filled.rows > room || filled.attributes > space) differs("filled", filled.rows, room);
    if (filled.rows == 0) same("a place without rows", to->place.offset, before.offset);
    if (filled.wanted) same("status where space is wanted", to->status, GIMLI_MORE);
    keep(to, rows, filled.rows, attrs, filled.attributes);
    return filled;
}

/* All entries of a unit from a place on, with buffers of one size; a row that does not fit gets
   the space that it wants. */
static void read_entries(uint64_t unit, gimli_place_t place, struct read *to, size_t room, size_t space) {
    to->count = to->used = 0;
    to->place = place;
    do {
        gimli_filled_t filled = fill(unit, to, room, space);
        if (to->status == GIMLI_MORE && filled.rows == 0) {
            if (filled.wanted <= space) return differs("no row, and no more space wanted", filled.wanted, space);
            fill(unit, to, 1, filled.wanted);
        }
        if (to->count > s.units.length) return differs("more entries than bytes", to->count, s.units.length);
    } while (to->status == GIMLI_MORE);
}

static void same_attributes(const struct read *a, const gimli_entry_t *x, const struct read *b, const gimli_entry_t *y) {
    same("number of attributes", y->attributes, x->attributes);
    for (size_t i = 0; i < x->attributes && i < y->attributes; i++) {
        const gimli_attr_t *p = &a->attrs[x->first + i], *q = &b->attrs[y->first + i];
        same("name", q->name, p->name), same("form", q->form, p->form), same("kind", q->kind, p->kind);
        same("number", q->number, p->number), same("more", q->more, p->more);
        if ((q->kind == GIMLI_BLOCK || q->kind == GIMLI_EXPRLOC || q->kind == GIMLI_STRING)
            && (q->number > s.units.length || q->more > s.units.length - q->number))
            differs("bytes", q->number, q->more);
    }
}

static void same_entries(const struct read *a, const struct read *b) {
    same("number of entries", b->count, a->count);
    same("status of entries", b->status, a->status);
    same("place after entries", b->place.offset, a->place.offset);
    same("depth after entries", (uint64_t)b->place.depth, (uint64_t)a->place.depth);
    for (size_t i = 0; i < a->count && i < b->count; i++) {
        const gimli_entry_t *x = &a->rows[i], *y = &b->rows[i];
        same("offset", y->offset, x->offset), same("depth", (uint64_t)y->depth, (uint64_t)x->depth);
        same("tag", y->tag, x->tag), same("flag", y->has_children, x->has_children);
        same_attributes(a, x, b, y);
    }
}

/* A row that is refused is read only where there is room for it. */
static uint32_t status_without_room(void) {
    return whole.count || whole.status >= GIMLI_ROW_REFUSED ? (uint32_t)GIMLI_MORE : whole.status;
}

/* The rows of a unit from a place on, with a buffer of one size, are those of `whole`. */
static void same_rows(uint64_t unit, gimli_place_t place, size_t room) {
    size_t all = 0, count, calls = 0;
    uint32_t status;
    do {
        if (calls++ > s.units.length) return differs("more rows than bytes", all, s.units.length);
        gimli_row_t *rows = marked(ROWS, room * sizeof *rows);
        count = 99;
        status = table ? gimli_rows_by(&s, unit, table, &place, room ? rows : NULL, room, &count)
                       : gimli_rows(&s, unit, &place, room ? rows : NULL, room, &count);
        is_kept("rows", rows, count * sizeof *rows, room * sizeof *rows);
        for (size_t i = 0; i < count && all < whole.count; i++, all++) {
            const gimli_entry_t *x = &whole.rows[all];
            same("row's offset", rows[i].offset, x->offset), same("row's depth", (uint64_t)rows[i].depth, (uint64_t)x->depth);
            same("row's tag", rows[i].tag, x->tag), same("row's flag", rows[i].has_children, x->has_children);
        }
    } while (status == GIMLI_MORE && count > 0);
    if (room == 0) return same("status without room", status, status_without_room());
    same("number of rows", all, whole.count);
    same("status of rows", status, whole.status);
    same("place after rows", place.offset, whole.place.offset);
}

/* The table of a unit's abbreviations, with buffers that just hold it; NULL where the unit has none
   of codes that are in order. */
static const gimli_table_t *table_of(uint64_t unit) {
    static gimli_table_t made;
    gimli_unit_t header;
    if (gimli_unit(&s, unit, &header) != GIMLI_MORE) return NULL;
    gimli_counted_t wanted = {99, 99}, counted = {99, 99};
    uint32_t status = gimli_table(&s, header.abbreviations, NULL, 0, NULL, 0, &wanted);
    size_t declared = wanted.declarations, specified = wanted.specifications;
    if (status >= GIMLI_REFUSED) same("status of a refused table", whole.status, status);
    if (status > GIMLI_END) same("no declarations", declared + specified, 0);
    if (status > GIMLI_END) return NULL;
    gimli_declaration_t *declarations = marked(DECLARED, declared * sizeof *declarations);
    gimli_specification_t *specifications = marked(SPECIFIED, specified * sizeof *specifications);
    if (specified) {
        status = gimli_table(&s, header.abbreviations, declarations, declared, specifications, specified - 1, &counted);
        same("status of a table without room", status, GIMLI_MORE);
        same("declarations wanted", counted.declarations, declared), same("attributes wanted", counted.specifications, specified);
        is_kept("no declarations", declarations, 0, declared * sizeof *declarations);
        is_kept("no attributes", specifications, 0, (specified - 1) * sizeof *specifications);
    }
    status = gimli_table(&s, header.abbreviations, declarations, declared, specifications, specified, &counted);
    same("status of a table", status, GIMLI_END);
    same("declarations", counted.declarations, declared), same("attributes", counted.specifications, specified);
    is_kept("before declarations", declarations, 0, 0), is_kept("before attributes", specifications, 0, 0);
    made.declarations = declarations, made.declared = declared;
    made.specifications = specifications, made.specified = specified;
    return &made;
}

/* Reads a unit's entries from a place on again, with other buffers than `whole`. */
static void read_again(uint64_t unit, gimli_place_t place) {
    static const size_t sizes[][2] = {{1, 0}, {1, 1}, {3, 5}, {64, 256}};
    for (size_t i = 0; i < sizeof sizes / sizeof *sizes; i++) {
        if (whole.count > 1024 && sizes[i][0] < 64) continue;
        read_entries(unit, place, &again, sizes[i][0], sizes[i][1]);
        same_entries(&whole, &again);
        same_rows(unit, place, sizes[i][0]);
    }
    same_rows(unit, place, 0);
    again.count = again.used = 0;
    again.place = place;
    fill(unit, &again, 0, 0);
    same("status of no entries", again.status, status_without_room());
}

/* Reads a unit's entries from a place on into `whole`, and again in other ways. */
static void read_unit(uint64_t unit, gimli_place_t place) {
    read_entries(unit, place, &whole, 1024, 4096);
    read_again(unit, place);
    table = table_of(unit);
    if (table) read_again(unit, place);
    table = NULL;
}

static void print_entry(const struct read *from, const gimli_entry_t *r) {
    printf("row %" PRIu64 " %" PRId64 " %u %d\n", r->offset, r->depth, r->tag, r->has_children);
    for (size_t i = r->first; i < r->first + r->attributes; i++) {
        const gimli_attr_t *t = &from->attrs[i];
        printf("attr %u %u %u %" PRIu64 " %" PRIu64 "\n", t->name, t->form, t->kind, t->number, t->more);
    }
}

static void print_sibling(uint64_t unit, gimli_place_t place, unsigned follows) {
    gimli_row_t *row = marked(ONE, sizeof *row);
    uint32_t status = gimli_sibling(&s, unit, &place, (uint8_t)follows, row);
    if (status == GIMLI_MORE)
        printf("sibling %" PRIu64 " %u %u %" PRIu64 " %" PRId64 " %u %d\n", place.offset, follows, status, row->offset, row->depth,
               row->tag, row->has_children);
    else {
        is_kept("no sibling", row, 0, sizeof *row);
        printf("sibling %" PRIu64 " %u %u\n", place.offset, follows, status);
    }
}

/* The list that an attribute names, with buffers of several sizes; LOCATIONS or not. Its lines end their first word
   with `end`; there are none where that is NULL. */
static void print_list(int locations, const gimli_unit_t *unit, const gimli_attr_t *attr, const gimli_bases_t *bases,
                       const char *end) {
    static const size_t rooms[] = {512, 0, 1, 3};
    size_t size = locations ? sizeof(gimli_location_t) : sizeof(gimli_range_t), all = 0;
    uint32_t wanted = 0;
    uint64_t *first = NULL;
    for (size_t turn = 0; turn < 4; turn++) {
        size_t room = rooms[turn], count = 99;
        void *into = marked(ROWS, room * size), *given = room ? into : NULL;
        uint32_t status = locations ? gimli_locations(&s, unit, attr, bases, given, room, &count)
                                    : gimli_ranges(&s, unit, attr, bases, given, room, &count);
        size_t filled = count < room ? count : room;
        is_kept("list", into, filled * size, room * size);
        if (turn == 0) {
            all = count, wanted = status;
            first = malloc(filled * size + 1);
            memcpy(first, into, filled * size);
            continue;
        }
        same("length of list", count, all);
        same("status of list", status, all > room ? GIMLI_MORE : wanted);
        if (memcmp(first, into, filled * size)) differs("list", turn, 0);
    }
    for (size_t i = 0; end && i < all && i < rooms[0]; i++) {
        const uint64_t *item = first + (locations ? 4 * i : 2 * i);
        printf("item%s %" PRIu64 " %" PRIu64, end, item[0], item[1]);
        if (locations) printf(" %" PRIu64 " %" PRIu64, item[2], item[3]);
        putchar('\n');
    }
    if (end) printf("list%s %zu %u\n", end, all, wanted);
    free(first);
}

/* What values may count from: nothing but 0, the ends of the headers of version 5, and what no section
   is as long as. The last are none, whatever their numbers. cases.py has the same. */
static const gimli_bases_t odd_bases[] = {
    {0, 0, 0, 0, 0, 0, 0, 0, 0, 0, 0, 0, 0},
    {16, 8, 12, 12, 8, 1, 0, 0, 0, 0, 0, 0, 0},
    {UINT64_MAX, UINT64_MAX, UINT64_MAX, UINT64_MAX, UINT64_MAX, UINT64_MAX, 1, 0, 0, 0, 0, 0, 0},
    {8, 8, 12, 12, 8, 8, 255, 255, 1, 2, 3, 4, 5},
};
enum { ODD_BASES = sizeof odd_bases / sizeof *odd_bases };

/* Asks for the bases of a unit, which stay as they were where there are none. */
static uint32_t find_bases(uint64_t unit, uint8_t dwo, const gimli_bases_t *skeleton, gimli_bases_t *bases) {
    gimli_bases_t *into = marked(ONE, sizeof *into), *given = marked(GIVEN, sizeof *given);
    if (skeleton) *given = *skeleton;
    uint32_t status = gimli_unit_bases(&s, unit, dwo, skeleton ? given : NULL, into);
    is_kept("bases", into, status == GIMLI_MORE ? sizeof *into : 0, sizeof *into);
    if (status == GIMLI_MORE) *bases = *into;
    return status;
}

static void print_bases(uint32_t status, const gimli_bases_t *b) {
    printf("bases %u", status);
    if (status == GIMLI_MORE)
        printf(" %" PRIu64 " %" PRIu64 " %" PRIu64 " %" PRIu64 " %" PRIu64 " %" PRIu64 " %d %d %d %d %d %d %d", b->address,
               b->addresses, b->rnglists, b->loclists, b->str_offsets, b->gnu_ranges, b->dwo, b->no_address, b->no_addresses,
               b->no_rnglists, b->no_loclists, b->no_str_offsets, b->no_gnu_ranges);
    putchar('\n');
}

/* The bytes of a text are those of its section, up to the first zero. */
static void is_text(const gimli_string_t *string) {
    const gimli_bytes_t *in = string->section == GIMLI_STR ? &s.str : string->section == GIMLI_LINE_STR ? &s.line_str
        : string->section == GIMLI_SUP_STR ? &s.sup_str : &s.units;
    if (string->place > in->length || string->length >= in->length - string->place)
        return differs("the end of a text", string->place, string->length);
    same("the bytes of a text", strlen(gimli_string_bytes(&s, string)), string->length);
}

/* The address and the text that a value is; a text that no entry has may lie anywhere in `units`. */
static void print_value(const gimli_unit_t *unit, const gimli_attr_t *attr, const gimli_bases_t *bases, int is_made) {
    uint64_t *address = marked(ONE, sizeof *address);
    uint32_t status = gimli_attr_address(&s, unit, attr, bases, address);
    is_kept("an address", address, status == GIMLI_MORE ? sizeof *address : 0, sizeof *address);
    printf("value %u %u %" PRIu64, attr->name, status, status == GIMLI_MORE ? *address : 0);
    gimli_string_t *string = marked(ONE, sizeof *string);
    status = gimli_attr_string(&s, unit, attr, bases, string);
    is_kept("a text", string, status == GIMLI_MORE ? sizeof *string : 0, sizeof *string);
    if (status != GIMLI_MORE) memset(string, 0, sizeof *string);
    else if (!is_made || string->section != GIMLI_UNITS) is_text(string);
    printf(" %u %u %" PRIu64 " %" PRIu64 "\n", status, string->section, string->place, string->length);
}

/* The unit, read as one of another version and format, whose addresses have no size that there is. */
static gimli_unit_t other_unit(const gimli_unit_t *unit) {
    gimli_unit_t other = *unit;
    other.version = unit->version < 5 ? UINT16_MAX : 4;
    other.offset_size = unit->offset_size == 8 ? 255 : 8;
    other.address_size = 3;
    return other;
}

/* Asks for the bases of a unit, with each skeleton, and for what the attributes of `whole` are by them: the
   sections of addresses, texts and lists are that of the abbreviations here, or that of units. */
static void ask_values(const gimli_unit_t *unit) {
    gimli_bases_t bases = odd_bases[0];
    for (uint8_t dwo = 0; dwo < 2; dwo++) {
        for (size_t i = 0; i <= ODD_BASES; i++) {
            gimli_bases_t found;
            print_bases(find_bases(unit->offset, dwo, i ? &odd_bases[i - 1] : NULL, &found), &found);
        }
    }
    find_bases(unit->offset, 0, NULL, &bases);
    gimli_unit_t other = other_unit(unit);
    for (size_t i = 0; i < whole.used && i < MOST_LISTS; i++) {
        const gimli_attr_t *attr = &whole.attrs[i];
        for (size_t turn = 0; turn <= 2 * ODD_BASES; turn++) {
            const gimli_bases_t *by = turn ? &odd_bases[(turn - 1) / 2] : &bases;
            const gimli_unit_t *as = turn % 2 ? &other : unit;
            if (i < MOST_VALUES) print_value(as, attr, by, 0);
            if (turn && turn != 1 + i % (2 * ODD_BASES)) continue;
            print_list(0, as, attr, by, NULL);
            print_list(1, as, attr, by, NULL);
        }
    }
}

/* Asks for the unit that holds an offset; its offset is printed, or all of it is that of another. */
static uint32_t find_holding(uint64_t offset, const gimli_unit_t *wanted) {
    gimli_unit_t *unit = marked(ONE, sizeof *unit);
    uint32_t status = gimli_unit_holding(&s, offset, unit);
    is_kept("a unit that holds an offset", unit, status == GIMLI_MORE ? sizeof *unit : 0, sizeof *unit);
    if (!wanted) printf("holding %u %" PRIu64 "\n", status, status == GIMLI_MORE ? unit->offset : 0);
    else if (status != GIMLI_MORE || memcmp(unit, wanted, offsetof(gimli_unit_t, offset_size) + 1))
        differs("the unit that holds an offset", offset, wanted->offset);
    return status;
}

/* Each unit holds its first byte, a byte of its header and its last byte, and none holds what comes after
   the last unit. Units are read as those of .debug_info. */
static void ask_holding(void) {
    gimli_sections_t of = s;
    gimli_unit_t unit;
    uint64_t offset = 0;
    uint32_t status;
    of.types = 0;
    for (; (status = gimli_unit(&of, offset, &unit)) == GIMLI_MORE; offset += unit.length) {
        find_holding(offset, &unit), find_holding(offset + 4, &unit);
        find_holding(offset + unit.length - 1, &unit);
    }
    same("status after the last unit", find_holding(offset, NULL), status);
    same("status far after the last unit", find_holding(UINT64_MAX, NULL), status);
}

/* Whether a unit holds an address; the bases stay. */
static uint32_t find_holds(uint64_t unit, const gimli_bases_t *bases, uint64_t address) {
    gimli_bases_t *given = marked(GIVEN, sizeof *given);
    *given = *bases;
    uint32_t status = gimli_unit_holds(&s, unit, given, address);
    if (memcmp(given, bases, offsetof(gimli_bases_t, no_gnu_ranges) + 1)) differs("the bases that are asked by", status, 0);
    int is_refusal = status > GIMLI_REFUSED && status < GIMLI_REFUSED + GIMLI_OUT_OF_MEMORY;
    if (status > GIMLI_END && status != GIMLI_NO_BASE && !is_refusal) differs("status of holding an address", status, GIMLI_END);
    return status;
}

/* The first attribute of a name of the root that `again` has. */
static const gimli_attr_t *root_attr(unsigned name) {
    for (size_t i = 0; i < again.used; i++) if (again.attrs[i].name == name) return &again.attrs[i];
    return NULL;
}

/* Reads the root of a unit into `again`: MORE, or with which refusal there is none. */
static uint32_t read_root(const gimli_unit_t *unit) {
    again.count = again.used = 0;
    again.place = (gimli_place_t){unit->header_size, 0};
    gimli_filled_t filled = fill(unit->offset, &again, 1, MOST_VALUES);
    if (filled.wanted) filled = fill(unit->offset, &again, 1, filled.wanted);
    if (filled.rows) return again.rows[0].tag ? GIMLI_MORE : GIMLI_REFUSED + GIMLI_NO_ENTRY_AT_GIVEN_OFFSET;
    if (again.status == GIMLI_END) return GIMLI_REFUSED + GIMLI_OFFSET_OUT_OF_BOUNDS;
    return GIMLI_REFUSED + GIMLI_ERROR(again.status);
}

/* Whether a list holds an address, by its ranges; NO_LIST where the value names none, and TOO_DEEP where it is too
   long to say. */
static uint32_t held_by_list(const gimli_unit_t *unit, const gimli_bases_t *bases, const gimli_attr_t *list, uint64_t address) {
    static gimli_range_t ranges[1 << 12];
    size_t room = sizeof ranges / sizeof *ranges, count;
    uint32_t status = gimli_ranges(&s, unit, list, bases, ranges, room, &count);
    for (size_t i = 0; i < count && i < room; i++)
        if (ranges[i].begin <= address && address < ranges[i].end) return GIMLI_MORE;
    return status == GIMLI_MORE ? GIMLI_TOO_DEEP : status < GIMLI_ROW_REFUSED ? status : GIMLI_REFUSED + GIMLI_ERROR(status);
}

/* The number of bytes that a value is; 0 where it is none. */
static uint64_t bytes_of(const gimli_attr_t *attr) {
    int is_number = (attr->kind >= GIMLI_DATA1 && attr->kind <= GIMLI_DATA8) || attr->kind == GIMLI_UDATA
        || (attr->kind == GIMLI_SDATA && attr->number < UINT64_C(1) << 63);
    return is_number ? attr->number : 0;
}

/* Whether the span of a root holds an address. */
static uint32_t held_by_span(const gimli_unit_t *unit, const gimli_bases_t *bases, uint64_t address) {
    const gimli_attr_t *low = root_attr(0x11), *high = root_attr(0x12);
    uint64_t begin = 0, end = 0;
    uint32_t has_begin = low ? gimli_attr_address(&s, unit, low, bases, &begin) : (uint32_t)GIMLI_NO_ADDRESS;
    if (has_begin != GIMLI_MORE && has_begin != GIMLI_NO_ADDRESS) return has_begin;
    uint32_t has_end = high ? gimli_attr_address(&s, unit, high, bases, &end) : (uint32_t)GIMLI_NO_ADDRESS;
    if (has_end != GIMLI_MORE && has_end != GIMLI_NO_ADDRESS) return has_end;
    if (has_begin || !high || address < begin) return GIMLI_END;
    return (has_end == GIMLI_MORE ? address < end : address - begin < bytes_of(high)) ? GIMLI_MORE : GIMLI_END;
}

/* A unit without sets holds an address as the calls for its root, for lists and for addresses have it. */
static void ask_by_root(const gimli_unit_t *unit, uint32_t root, const gimli_bases_t *bases, uint64_t address) {
    uint32_t wanted = root;
    if (root == GIMLI_MORE) {
        const gimli_attr_t *list = root_attr(0x55);
        wanted = list ? held_by_list(unit, bases, list, address) : (uint32_t)GIMLI_NO_LIST;
        if (wanted == GIMLI_NO_LIST) wanted = held_by_span(unit, bases, address);
    }
    if (wanted != GIMLI_TOO_DEEP) same("whether the root holds an address", find_holds(unit->offset, bases, address), wanted);
}

/* A set of .debug_aranges of a unit, from 16 up to 32: then the root says nothing. */
static void make_set(uint64_t unit) {
    uint8_t *bytes = marked(FIRST, 48);
    memset(bytes, 0, 48);
    bytes[s.big ? 3 : 0] = 44, bytes[s.big ? 5 : 4] = 2, bytes[10] = 8;
    for (int i = 0; i < 4; i++) bytes[6 + i] = (uint8_t)(unit >> 8 * (s.big ? 3 - i : i));
    bytes[s.big ? 23 : 16] = bytes[s.big ? 31 : 24] = 16;
    s.aranges = gimli_bytes(bytes, 48);
}

/* Whether the unit at an offset of .debug_info holds some addresses, by its bases and by others: without sets, by a
   set of its own, and by bytes that are no sets. */
static void ask_holds(uint64_t offset) {
    static const uint64_t addresses[] = {0, 15, 16, 31, 32, 0x1000, UINT64_MAX};
    gimli_sections_t kept = s;
    gimli_unit_t unit;
    gimli_bases_t own = odd_bases[0];
    find_bases(offset, 0, NULL, &own);
    s.types = 0;
    uint32_t status = gimli_unit(&s, offset, &unit), root = status == GIMLI_MORE ? read_root(&unit) : status;
    if (status == GIMLI_END) root = GIMLI_REFUSED + GIMLI_UNEXPECTED_EOF;
    int is_opened = status == GIMLI_MORE && (again.count || again.status < GIMLI_REFUSED || again.status > GIMLI_ROW_REFUSED);
    for (size_t i = 0; i < sizeof addresses / sizeof *addresses; i++) {
        for (size_t j = 0; j <= ODD_BASES; j++) {
            const gimli_bases_t *bases = j ? &odd_bases[j - 1] : &own;
            find_holds(offset, bases, addresses[i]);
            s.aranges = gimli_bytes(NULL, 0);
            ask_by_root(&unit, root, bases, addresses[i]);
            uint32_t in_root = find_holds(offset, bases, addresses[i]);
            make_set(offset);
            /* (no set is one of a split unit) */
            uint32_t in_set = bases->dwo ? in_root : addresses[i] / 16 == 1 ? GIMLI_MORE : GIMLI_END;
            same("whether a set holds an address", find_holds(offset, bases, addresses[i]), is_opened ? in_set : root);
            s.aranges = kept.aranges;
        }
    }
    s = kept;
}

/* Places that no row has: each answer will do, if the calls agree. */
static void ask_odd_places(const gimli_unit_t *unit) {
    const gimli_place_t places[] = {{0, 0}, {unit->header_size + 1, -1}, {unit->length - 1, 1}, {unit->length, 0}, {UINT64_MAX, 0},
                                    {unit->header_size, INT64_MAX}, {unit->header_size, INT64_MIN}};
    for (size_t i = 0; i < sizeof places / sizeof *places; i++) {
        read_unit(unit->offset, places[i]);
        gimli_row_t *row = marked(ONE, sizeof *row);
        for (uint8_t follows = 0; follows < 2; follows++) gimli_sibling(&s, unit->offset, &places[i], follows, row);
    }
}

static void print_unit(const gimli_unit_t *u) {
    gimli_place_t root = {u->header_size, 0};
    printf("unit %" PRIu64 " %" PRIu64 " %" PRIu64 " %" PRIu64 " %" PRIu64 " %" PRIu64 " %u %d %d %d\n", u->offset, u->length,
           u->header_size, u->abbreviations, u->id, u->type_offset, u->version, u->kind, u->address_size, u->offset_size);
    read_unit(u->offset, root);
    for (size_t i = 0; i < whole.count; i++) {
        print_entry(&whole, &whole.rows[i]);
        if (i + 1 < whole.count) printf("next %" PRIu64 "\n", whole.rows[i + 1].offset);
    }
    printf("rows %u %" PRIu64 " %" PRId64 "\n", whole.status, whole.place.offset, whole.place.depth);
    for (size_t i = 0; i < whole.count && i < SIBLINGS; i++) {
        gimli_place_t place = {whole.rows[i].offset, whole.rows[i].depth};
        print_sibling(u->offset, place, 0);
        print_sibling(u->offset, place, 1);
    }
    uint64_t *offset = marked(ONE, sizeof *offset);
    uint32_t status = gimli_first_false(&s, u->offset, offset);
    if (status != GIMLI_MORE) is_kept("no false reference", offset, 0, sizeof *offset);
    printf("false %u %" PRIu64 "\n", status, status == GIMLI_MORE ? *offset : 0);
    ask_values(u);
    ask_holds(u->offset);
    ask_odd_places(u);
}

/* A unit and its bases at an offset where there need be none. */
static void ask_at_the_end(uint64_t offset) {
    gimli_bases_t bases;
    uint32_t status = gimli_unit(&s, offset, marked(ONE, sizeof(gimli_unit_t)));
    if (status == GIMLI_END) status = GIMLI_REFUSED + GIMLI_UNEXPECTED_EOF;
    if (status != GIMLI_MORE) same("bases where there is no unit", find_bases(offset, 0, NULL, &bases), status);
}

static void walk(void) {
    uint64_t offset = 0;
    uint32_t status;
    for (;;) {
        gimli_unit_t *at = marked(ONE, sizeof *at), unit;
        status = gimli_unit(&s, offset, at);
        if (status != GIMLI_MORE) {
            is_kept("no unit", at, 0, sizeof *at);
            break;
        }
        unit = *at;
        print_unit(&unit);
        offset = unit.offset + unit.length;
    }
    printf("units %u %" PRIu64 "\n", status, offset);
    ask_holding();
    for (uint64_t i = 0; i < 3; i++) ask_at_the_end(s.units.length + i - 1);
    ask_at_the_end(UINT64_MAX);
}

static char *at;

static char *word(void) { return strtok_r(NULL, " \n", &at); }

static uint64_t read_number(void) {
    char *digits = word();
    return !digits ? 0 : *digits == '-' ? (uint64_t)strtoll(digits, NULL, 10) : strtoull(digits, NULL, 10);
}

static unsigned digit(char c) { return (unsigned)(c <= '9' ? c - '0' : c - 'a' + 10); }

static gimli_bytes_t read_section(int arena) {
    char *digits = word();
    if (!digits || *digits == '-') return gimli_bytes(NULL, 0);
    size_t length = strlen(digits) / 2;
    uint8_t *bytes = marked(arena, length);
    for (size_t i = 0; i < length; i++) bytes[i] = (uint8_t)(digit(digits[2 * i]) << 4 | digit(digits[2 * i + 1]));
    return gimli_bytes(bytes, length);
}

static void read_units(void) {
    s.units = read_section(UNITS);
    s.abbrev = read_section(ABBREV);
    s.addresses = s.aranges = s.ranges = s.rnglists = s.loc = s.loclists = s.str = s.str_offsets = s.abbrev;
    s.line_str = s.sup_str = s.units;
}

static void one_list(void) {
    s.ranges = s.rnglists = s.loc = s.loclists = read_section(LIST);
    s.addresses = read_section(ADDRESSES);
    int locations = (int)read_number();
    gimli_unit_t unit = {0};
    gimli_bases_t bases = {0};
    gimli_attr_t attr = {0};
    unit.offset_size = (uint8_t)read_number(), unit.version = (uint16_t)read_number(), unit.address_size = (uint8_t)read_number();
    bases.address = read_number(), bases.addresses = read_number();
    bases.rnglists = bases.loclists = read_number();
    bases.dwo = (uint8_t)read_number(), attr.kind = (uint8_t)read_number(), attr.number = read_number();
    attr.name = locations ? 0x02 : 0x55;
    print_list(locations, &unit, &attr, &bases, "");
    /* and as one of a unit without a table of addresses */
    bases.no_addresses = 1;
    print_list(locations, &unit, &attr, &bases, "_without");
}

static void one_row(int sibling) {
    read_units();
    uint64_t unit = read_number();
    gimli_place_t place = {0, 0};
    place.offset = read_number(), place.depth = (int64_t)read_number();
    if (sibling) return print_sibling(unit, place, (unsigned)read_number());
    read_unit(unit, place);
    for (size_t i = 0; i < whole.count; i++) print_entry(&whole, &whole.rows[i]);
    printf("rows %u %" PRIu64 " %" PRId64 "\n", whole.status, whole.place.offset, whole.place.depth);
}

/* The unit that a case of bases or values names, and its bases; the status with which there are none. */
static uint32_t open_unit(gimli_unit_t *unit, gimli_bases_t *bases) {
    gimli_bases_t skeleton;
    s.units = read_section(UNITS), s.abbrev = read_section(ABBREV), s.addresses = read_section(ADDRESSES);
    unsigned file = (unsigned)read_number();
    uint32_t status = gimli_unit(&s, 0, unit);
    if (status != GIMLI_MORE || file < 2) return status == GIMLI_MORE ? find_bases(0, file == 1, NULL, bases) : status;
    status = find_bases(0, 0, NULL, &skeleton);
    if (status != GIMLI_MORE) differs("the skeleton", status, GIMLI_MORE);
    status = gimli_unit(&s, unit->length, unit);
    return status == GIMLI_MORE ? find_bases(unit->offset, 1, &skeleton, bases) : status;
}

/* The attributes of the root of a unit, with their addresses and texts, or with their lists. */
static void print_root(const gimli_unit_t *unit, const gimli_bases_t *bases, int lists) {
    read_entries(unit->offset, (gimli_place_t){unit->header_size, 0}, &whole, 1, MOST_VALUES);
    for (size_t i = 0; whole.count && i < whole.rows[0].attributes; i++) {
        const gimli_attr_t *attr = &whole.attrs[i];
        if (!lists) print_value(unit, attr, bases, 0);
        else for (int locations = 0; locations < 2; locations++) {
            printf("named %u %u %d\n", attr->name, attr->kind, locations);
            print_list(locations, unit, attr, bases, "");
        }
    }
}

static void one_unit(const char *call) {
    gimli_unit_t unit;
    gimli_bases_t bases = odd_bases[0];
    uint32_t status = open_unit(&unit, &bases);
    print_bases(status, &bases);
    gimli_bytes_t parts[4];
    for (int i = 0; i < 4; i++) parts[i] = read_section(FIRST + i);
    int lists = !strcmp(call, "named");
    if (lists) s.ranges = parts[0], s.rnglists = parts[1], s.loc = parts[2], s.loclists = parts[3];
    else s.str = parts[0], s.line_str = parts[1], s.str_offsets = parts[2], s.sup_str = parts[3];
    if (status == GIMLI_MORE && strcmp(call, "bases")) print_root(&unit, &bases, lists);
}

static void one_holds(void) {
    gimli_unit_t unit;
    gimli_bases_t bases;
    uint32_t status = open_unit(&unit, &bases);
    s.ranges = read_section(FIRST), s.rnglists = read_section(SECOND), s.aranges = read_section(THIRD);
    uint64_t address = read_number();
    printf("holds %u\n", status == GIMLI_MORE ? find_holds(unit.offset, &bases, address) : status);
}

static void one_value(void) {
    s.addresses = read_section(ADDRESSES);
    s.str = read_section(FIRST), s.line_str = read_section(SECOND), s.str_offsets = read_section(THIRD);
    s.sup_str = read_section(FOURTH);
    gimli_unit_t unit = {0};
    gimli_bases_t bases = odd_bases[0];
    gimli_attr_t attr = {0};
    unit.offset_size = (uint8_t)read_number(), unit.version = (uint16_t)read_number(), unit.address_size = (uint8_t)read_number();
    bases.addresses = read_number(), bases.str_offsets = read_number();
    bases.no_addresses = bases.no_str_offsets = (uint8_t)read_number();
    attr.kind = (uint32_t)read_number(), attr.number = read_number(), attr.more = read_number();
    print_value(&unit, &attr, &bases, 1);
}

/* A unit at an offset whose root has no attributes; none where the offset is too great. */
static void make_unit(uint64_t offset) {
    uint8_t *abbrev = marked(ABBREV, 6);
    memcpy(abbrev, "\1\21\0\0\0", 6);
    s.abbrev = gimli_bytes(abbrev, 6);
    if (offset > ARENA / 2) return;
    uint8_t *units = marked(UNITS, offset + 12), *unit = units + offset;
    memset(unit, 0, 12);
    unit[s.big ? 3 : 0] = 8, unit[s.big ? 5 : 4] = 4, unit[10] = 8, unit[11] = 1;
    s.units = gimli_bytes(units, offset + 12);
}

/* The first set that holds an address says of its unit that it does; where none does, no unit without a span does. */
static void find(void) {
    s.aranges = read_section(LIST);
    uint64_t address = read_number(), *found = marked(ONE, sizeof *found);
    uint32_t status = gimli_unit_of_address(&s, address, found);
    if (status != GIMLI_MORE) is_kept("no unit of an address", found, 0, sizeof *found);
    uint64_t offset = status == GIMLI_MORE ? *found : 0;
    printf("find %u %" PRIu64 "\n", status, offset);
    make_unit(offset);
    if (s.units.length) same("whether its unit holds the address", find_holds(offset, &odd_bases[0], address), status);
}

int main(int argc, char **argv) {
    FILE *cases = argc > 1 ? fopen(argv[1], "r") : NULL;
    char *line = NULL;
    size_t size = 0;
    if (!cases) return 2;
    setvbuf(stdout, NULL, _IOFBF, 1 << 20);
    for (; getline(&line, &size, cases) > 0; number++) {
        char *call = strtok_r(line, " \n", &at);
        s = gimli_no_sections();
        s.big = (uint8_t)read_number(), s.types = (uint8_t)read_number();
        printf("case %lu\n", number);
        if (!strcmp(call, "walk")) read_units(), walk();
        else if (!strcmp(call, "row")) one_row(0);
        else if (!strcmp(call, "sibling")) one_row(1);
        else if (!strcmp(call, "find")) find();
        else if (!strcmp(call, "list")) one_list();
        else if (!strcmp(call, "holding")) s.units = read_section(UNITS), find_holding(read_number(), NULL), ask_holding();
        else if (!strcmp(call, "value")) one_value();
        else if (!strcmp(call, "holds")) one_holds();
        else one_unit(call);
    }
    free(line), free(whole.rows), free(whole.attrs), free(again.rows), free(again.attrs);
    fclose(cases);
    return bad;
}
