/* The proved DWARF reader for C and C++.

   Every call fills what its caller hands over and keeps nothing: there is nothing to free, and
   any thread may call at any time. What a call gives is proved over definitions of DWARF, for all
   bytes of the sections (crates/gimli_c). This header is written by hand beside it: the sizes at
   its end and the tests are all that compares the two. gimli_constants.h has the codes of tags,
   attributes and forms by their names, and names them.

   A loop over units or rows goes on while the status is GIMLI_MORE. It ends with GIMLI_END, or with
   a refusal, which gimli_text has in words: so the status is looked at after the loop.

   What a caller owes:
   - Pointers are valid for the lengths beside them, and lengths are at most 2^63 - 1. A section, a
     buffer and an array of a table may be null, which is one of no bytes and of no room: the end of
     this header sees to that. Who calls the library without it hands over an address that is not
     null, also where the length is 0. No other pointer is null, and each is aligned as its type is.
   - What is written to overlaps nothing that the same call reads or writes, and no byte that a
     call reads changes before it answers.
   - The program has 64 bits, its processor has what x86-64-v2 asks for, and its malloc, realloc
     and free are of one allocator, which aligns a block to each power of two up to 16 that
     divides its size.
   - No call is made from a signal handler, or in the forked child of a process with threads.
   Buffers need not be set before a call; sections are, each field.

   Memory is asked for by gimli_rows, gimli_entries, gimli_entries_by, gimli_sibling,
   gimli_first_false, gimli_unit_bases and gimli_unit_holds, and given back before they answer. Each
   call of these but gimli_entries_by reads the whole table of the unit's abbreviations; who reads
   few rows at a time reads the table once, by gimli_table, and then calls gimli_rows_by (which asks
   for no memory) or gimli_entries_by.
   A declaration takes 256 bytes in memory, and up to some 600 with what is kept free beside it,
   where in the section it may have 5 to 7: of a hostile .debug_abbrev a table takes 40 to 100
   times the size, and more for a moment while a list of them is moved. Memory that is refused is
   GIMLI_REFUSED + GIMLI_OUT_OF_MEMORY (280) for the table, and GIMLI_ROW_REFUSED +
   GIMLI_OUT_OF_MEMORY (536) for the attributes of a row, in gimli_entries, gimli_entries_by and
   gimli_sibling: 280 comes only where the table's first declaration is read as far as its
   attributes, and 536 only where the declaration of a row has attributes.
   gimli_first_false takes 24 bytes for each open entry besides, where a reference can be followed,
   which its 280 may mean. */
#ifndef GIMLI_H
#define GIMLI_H

#include <stddef.h>
#include <stdint.h>

#ifdef __cplusplus
extern "C" {
#endif

/* Statuses. Each call says which of them it answers, and what it has written then. */
enum {
    GIMLI_MORE = 0,          /* something was found, and there may be more; with no room for rows or for a table see there */
    GIMLI_END = 1,           /* nothing is left */
    GIMLI_TOO_DEEP = 2,      /* the depth of the place is so great that depths after it may be out of range */
    GIMLI_NO_LIST = 3,       /* the attribute's value names no list */
    GIMLI_UNORDERED = 4,     /* the codes of a table of abbreviations are not 1, 2, .. in this order */
    GIMLI_NO_BASE = 5,       /* the value counts from a base that the unit does not have */
    GIMLI_BAD_BASE = 6,      /* the attribute of a base is there, but its value is none that a base can have */
    GIMLI_NO_STRING = 7,     /* the attribute's value is no text */
    GIMLI_NO_ADDRESS = 8,    /* the attribute's value is no address */
    GIMLI_REFUSED = 256,     /* and a number of gimli_error: what the call begins with was refused, or a table */
    GIMLI_ROW_REFUSED = 512  /* and a number of gimli_error: what stands after all that was written was refused */
};

/* The number of a refusal, of a status from GIMLI_REFUSED on. */
#define GIMLI_ERROR(status) ((status) & 255)

/* The numbers of refusals. */
enum gimli_error {
    GIMLI_UNEXPECTED_EOF = 1, GIMLI_BAD_UNSIGNED_LEB128, GIMLI_BAD_SIGNED_LEB128, GIMLI_UNKNOWN_RESERVED_LENGTH,
    GIMLI_UNKNOWN_VERSION, GIMLI_UNKNOWN_UNIT_TYPE, GIMLI_UNSUPPORTED_ADDRESS_SIZE, GIMLI_UNSUPPORTED_SEGMENT_SIZE,
    GIMLI_UNSUPPORTED_OFFSET, GIMLI_UNSUPPORTED_OFFSET_SIZE, GIMLI_OFFSET_OUT_OF_BOUNDS,
    GIMLI_NO_ENTRY_AT_GIVEN_OFFSET, GIMLI_INVALID_ABBREVIATION_CODE, GIMLI_UNKNOWN_FORM, GIMLI_INVALID_IMPLICIT_CONST,
    GIMLI_UNKNOWN_RANGE_LISTS_ENTRY, GIMLI_UNKNOWN_LOC_LISTS_ENTRY, GIMLI_ADDRESS_OVERFLOW, GIMLI_ABBREVIATION_TAG_ZERO,
    GIMLI_INVALID_ABBREVIATION_CHILDREN, GIMLI_ATTRIBUTE_NAME_ZERO, GIMLI_ATTRIBUTE_FORM_ZERO,
    GIMLI_DUPLICATE_ABBREVIATION_CODE,
    GIMLI_OUT_OF_MEMORY /* the call may be made again, from where it stands */
};

/* A status in words, as a text that lasts as long as the program. */
static inline const char *gimli_text(uint32_t status) {
    static const char *const refusals[] = {
        "The input ends before what should stand there.",
        "An unsigned LEB128 number needs too many bits.",
        "A signed LEB128 number needs too many bits.",
        "A length field has a reserved value.",
        "The version is unknown.",
        "The type of a unit is unknown.",
        "No address has this number of bytes.",
        "Segment selectors are not supported.",
        "A number does not fit an offset.",
        "No offset has this number of bytes.",
        "An offset is out of bounds.",
        "No entry stands at the offset.",
        "The code of an abbreviation is not declared.",
        "The form of an attribute is unknown.",
        "The number of an implicit constant is not declared.",
        "The kind of an entry of a range list is unknown.",
        "The kind of an entry of a location list is unknown.",
        "A sum of addresses does not fit.",
        "A declared tag is zero.",
        "A declared flag of children is neither 0 nor 1.",
        "A declared name is zero, but not the form.",
        "A declared form is zero, but not the name.",
        "A code is declared twice.",
        "Memory was refused; the call may be made again."
    };
    uint32_t number = GIMLI_ERROR(status);
    switch (status) {
    case GIMLI_MORE: return "Something was found, and there may be more.";
    case GIMLI_END: return "Nothing is left.";
    case GIMLI_TOO_DEEP: return "The depth of the place is too great.";
    case GIMLI_NO_LIST: return "The value names no list.";
    case GIMLI_UNORDERED: return "The codes of the abbreviations are not 1, 2, .. in this order.";
    case GIMLI_NO_BASE: return "The value counts from a base that the unit does not have.";
    case GIMLI_BAD_BASE: return "The attribute of a base has a value that no base can have.";
    case GIMLI_NO_STRING: return "The value is no text.";
    case GIMLI_NO_ADDRESS: return "The value is no address.";
    }
    if (status >= GIMLI_REFUSED && status <= GIMLI_ROW_REFUSED + 255 && number >= 1 && number <= GIMLI_OUT_OF_MEMORY)
        return refusals[number - 1];
    return "The status is unknown.";
}

/* Where what was refused lies, to be named beside gimli_text. gimli_where_row and gimli_where_value give it as a
   section and an offset, where one is wanted:
   gimli_unit, gimli_unit_bases    `units`, at the offset of the unit; of a table `abbrev`, at the unit's `abbreviations`
   gimli_table                     `abbrev`, at the offset
   gimli_rows and the like         ROW_REFUSED: `units`, at the unit's offset + place->offset, where the place is left;
                                   REFUSED: as of gimli_unit, or the place's own offset
   gimli_sibling                   ROW_REFUSED: `units`, in the unit, at the place or after it
   gimli_unit_of_address           `aranges`, after the sets that were read
   gimli_unit_holding              `units`, before the offset
   gimli_unit_holds                `aranges`, after the sets that were read; or as of gimli_unit_bases and gimli_ranges
   gimli_attr_string               the section of the text, at the attribute's `number`; of an index `str_offsets`
   gimli_attr_address              `addresses`, at the index
   gimli_ranges, gimli_locations   the section of lists of the unit's version, at the attribute's `number` (of an index in
                                   its table), or `addresses`, where the list names an address by its index */

/* Bytes of a section. */
typedef struct {
    const uint8_t *bytes; /* null: none */
    size_t length;
} gimli_bytes_t;

/* The sections. All fields are set in every call: begin with gimli_no_sections(). A call reads the
   bytes of those alone that it names, so the others may be empty. */
typedef struct {
    gimli_bytes_t units;       /* .debug_info, or .debug_types, as `types` says */
    gimli_bytes_t abbrev;      /* .debug_abbrev */
    gimli_bytes_t addresses;   /* .debug_addr, that of the program also for the units of a split file */
    gimli_bytes_t aranges;     /* .debug_aranges */
    gimli_bytes_t ranges;      /* .debug_ranges, as .debug_addr */
    gimli_bytes_t rnglists;    /* .debug_rnglists */
    gimli_bytes_t loc;         /* .debug_loc */
    gimli_bytes_t loclists;    /* .debug_loclists */
    gimli_bytes_t str;         /* .debug_str */
    gimli_bytes_t line_str;    /* .debug_line_str */
    gimli_bytes_t str_offsets; /* .debug_str_offsets */
    gimli_bytes_t sup_str;     /* .debug_str of the supplementary file, as dwz makes one */
    uint8_t big;               /* 0: little endian; else big endian */
    uint8_t types;             /* 0: `units` are .debug_info; else .debug_types */
} gimli_sections_t;

/* The numbers of the sections: that of gimli_string_t is one of these. */
enum gimli_section {
    GIMLI_UNITS, GIMLI_ABBREV, GIMLI_ADDRESSES, GIMLI_ARANGES, GIMLI_RANGES, GIMLI_RNGLISTS, GIMLI_LOC, GIMLI_LOCLISTS,
    GIMLI_STR, GIMLI_LINE_STR, GIMLI_STR_OFFSETS, GIMLI_SUP_STR
};

/* The header of a unit. */
typedef struct {
    uint64_t offset;        /* where the unit begins in its section */
    uint64_t length;        /* the number of its bytes: the next unit begins at offset + length */
    uint64_t header_size;   /* the offset of the first entry in the unit */
    uint64_t abbreviations; /* where its abbreviations are in .debug_abbrev */
    uint64_t id;            /* the signature of a type unit, the id of a skeleton or split unit, or 0: before
                               version 5 such an id is the DW_AT_GNU_dwo_id of the root */
    uint64_t type_offset;   /* where a type unit's type stands in the unit, or 0 */
    uint16_t version;
    uint8_t kind;           /* DW_UT_compile (1) to DW_UT_split_type (6), or a vendor's from 128 on */
    uint8_t address_size;
    uint8_t offset_size;    /* 4 or 8 */
} gimli_unit_t;

/* A place in a unit, between two rows. The first is {header_size, 0}. */
typedef struct {
    uint64_t offset; /* in the unit */
    int64_t depth;   /* of the row that is read there */
} gimli_place_t;

/* An entry, or the null that closes a list of children. */
typedef struct {
    uint64_t offset; /* in the unit */
    int64_t depth;
    uint16_t tag;    /* DW_TAG_.., or 0 for a null */
    uint8_t has_children;
} gimli_row_t;

/* The same with its attributes. */
typedef struct {
    uint64_t offset;
    int64_t depth;
    size_t first;      /* the index of its first attribute among those that the call wrote */
    size_t attributes; /* their number */
    uint16_t tag;
    uint8_t has_children;
} gimli_entry_t;

/* An attribute, with its value as it is read. */
typedef struct {
    uint64_t number; /* a number, an offset, an index or a flag: one with a sign (GIMLI_SDATA) as an int64_t, of 16 bytes
                        the low 8; or where the bytes of a block, an expression or a text lie in `units` */
    uint64_t more;   /* the number of those bytes, without a text's zero; or the high 8 of 16 bytes (GIMLI_DATA16); or
                        what is added to the address at an index (GIMLI_ADDR_INDEX_OFFSET); else 0 */
    uint16_t name;   /* DW_AT_.. */
    uint16_t form;   /* DW_FORM_.. of the declaration */
    uint32_t kind;   /* GIMLI_ADDR .. */
} gimli_attr_t;

/* The kinds of values, and what `number` is. */
enum {
    GIMLI_ADDR = 1,               /* an address */
    GIMLI_BLOCK,                  /* where the bytes lie in `units` */
    GIMLI_DATA1,                  /* 1 byte, zero-extended: the attribute's name says if it has a sign */
    GIMLI_DATA2,                  /* 2 bytes, zero-extended */
    GIMLI_DATA4,                  /* 4 bytes, zero-extended; in versions 2 and 3 an offset by name is GIMLI_SEC_OFFSET */
    GIMLI_DATA8,                  /* 8 bytes */
    GIMLI_DATA16,                 /* the low 8 of 16 bytes */
    GIMLI_SDATA,                  /* a number with a sign */
    GIMLI_UDATA,                  /* a number without one */
    GIMLI_EXPRLOC,                /* where the expression lies in `units` */
    GIMLI_FLAG,                   /* 0 or 1 */
    GIMLI_SEC_OFFSET,             /* an offset of the section that the attribute's name says */
    GIMLI_ADDR_INDEX = 14,        /* an index of addresses in .debug_addr, from DW_AT_addr_base on */
    GIMLI_UNIT_REF,               /* an offset of the unit */
    GIMLI_INFO_REF,               /* an offset of .debug_info */
    GIMLI_INFO_REF_SUP,           /* an offset of .debug_info of the supplementary file */
    GIMLI_LOC_LISTS_INDEX = 21,   /* an index of offsets in .debug_loclists, from DW_AT_loclists_base on */
    GIMLI_RNG_LISTS_INDEX = 26,   /* an index of offsets in .debug_rnglists, from DW_AT_rnglists_base on */
    GIMLI_TYPES_REF,              /* the signature of a type unit: its `id` */
    GIMLI_STR_REF,                /* an offset of .debug_str */
    GIMLI_STR_REF_SUP,            /* an offset of .debug_str of the supplementary file */
    GIMLI_STR_OFFSETS_INDEX = 31, /* an index of offsets in .debug_str_offsets, from DW_AT_str_offsets_base on */
    GIMLI_LINE_STR_REF,           /* an offset of .debug_line_str */
    GIMLI_STRING,                 /* where the text lies in `units` */
    GIMLI_ADDR_INDEX_OFFSET = 48  /* an index as GIMLI_ADDR_INDEX, and `more` is added to the address there */
};

/* How much gimli_entries or gimli_entries_by wrote. */
typedef struct {
    size_t rows;
    size_t attributes;
    size_t wanted; /* where the next row was left since its attributes have no space: their number; else 0 */
} gimli_filled_t;

/* A declaration of a table of abbreviations. */
typedef struct {
    uint64_t code;     /* as gimli_table writes it; the calls by a table ignore it: that at index i has the code i + 1 */
    size_t first;      /* the index of its first attribute among the specifications of the table */
    size_t attributes; /* their number */
    uint16_t tag;
    uint8_t has_children; /* 0, or any other where it has some */
} gimli_declaration_t;

/* So many values that are passed together, as their forms tell their sizes: the bytes of those of a
   fixed size, and how many have the size of an address, of an offset, and of DW_FORM_ref_addr. */
typedef struct {
    uint16_t values;
    uint8_t bytes;
    uint8_t addresses;
    uint8_t offsets;
    uint8_t ref_addrs;
    uint8_t has_ref8; /* 1 where DW_FORM_ref8 or DW_FORM_ref_sup8 is among them, else 0 */
} gimli_step_t;

/* A declared attribute. */
typedef struct {
    int64_t constant; /* the number of DW_FORM_implicit_const; of any other form it is ignored, and may be any */
    uint16_t name;
    uint16_t form;
    gimli_step_t step; /* of its value and of those after it, as gimli_table writes it; all zeros, who writes it himself */
} gimli_specification_t;

/* A table of abbreviations: the declarations of the codes 1, 2, .. in this order, and their
   attributes. Any is allowed: of `first` and `attributes` that reach past `specified` those count
   that are there; an entry whose code has no declaration is a row that is refused
   (GIMLI_ROW_REFUSED + GIMLI_INVALID_ABBREVIATION_CODE); and one whose declaration has the tag 0 is a
   null: the bytes of its attributes are passed, and it has none. */
typedef struct {
    const gimli_declaration_t *declarations;
    size_t declared;
    const gimli_specification_t *specifications;
    size_t specified;
} gimli_table_t;

/* How much a table has. */
typedef struct {
    size_t declarations;
    size_t specifications;
} gimli_counted_t;

/* What the values of a unit count from, as gimli_unit_bases fills it. Where a `no_..` is not 0, the
   number of that name is none, as of what no attribute gives. From version 5 on neither is one that lies
   in the first header of its section: below 8 in .debug_addr and .debug_str_offsets and below 12 in
   .debug_rnglists and .debug_loclists (16 and 20 where offset_size is 8). So a unit of version 5 whose
   only base of addresses is GNU's (DW_AT_GNU_addr_base), below 8, is taken to have none. What counts
   from one that is none is refused. With all zeros an index of version 5 is refused, and what counts in a unit
   of version 4 or less counts from 0. */
typedef struct {
    uint64_t address;     /* DW_AT_low_pc, the address itself: from it lists count up to an entry that gives another */
    uint64_t addresses;   /* DW_AT_addr_base */
    uint64_t rnglists;    /* DW_AT_rnglists_base */
    uint64_t loclists;    /* DW_AT_loclists_base */
    uint64_t str_offsets; /* DW_AT_str_offsets_base */
    uint64_t gnu_ranges;  /* of a split unit of version 4: its skeleton's DW_AT_GNU_ranges_base, from which DW_AT_ranges counts */
    uint8_t dwo;          /* not 0: the unit is of a split file */
    uint8_t no_address, no_addresses, no_rnglists, no_loclists, no_str_offsets, no_gnu_ranges;
} gimli_bases_t;

/* Where the bytes of a text lie. */
typedef struct {
    uint64_t place;
    uint64_t length;  /* without the zero that ends them */
    uint32_t section; /* GIMLI_UNITS, GIMLI_STR, GIMLI_LINE_STR or GIMLI_SUP_STR */
} gimli_string_t;

/* A range of addresses. */
typedef struct {
    uint64_t begin;
    uint64_t end; /* one past the last */
} gimli_range_t;

/* A range of addresses, and where the expression that holds there lies in .debug_loclists
   (.debug_loc up to version 4). */
typedef struct {
    uint64_t begin;
    uint64_t end;
    uint64_t place;
    uint64_t length;
} gimli_location_t;

/* A buffer of length 0. */
#define GIMLI_NONE(type) ((type *)(uintptr_t)16)

/* Bytes of a section; none where the pointer is null. */
static inline gimli_bytes_t gimli_bytes(const void *bytes, size_t length) {
    gimli_bytes_t section;
    section.bytes = bytes ? (const uint8_t *)bytes : GIMLI_NONE(const uint8_t);
    section.length = bytes ? length : 0;
    return section;
}

/* Sections that are all empty, in little endian. */
static inline gimli_sections_t gimli_no_sections(void) {
    gimli_sections_t sections;
    sections.units = sections.abbrev = sections.addresses = sections.aranges = gimli_bytes(NULL, 0);
    sections.ranges = sections.rnglists = sections.loc = sections.loclists = gimli_bytes(NULL, 0);
    sections.str = sections.line_str = sections.str_offsets = sections.sup_str = gimli_bytes(NULL, 0);
    sections.big = sections.types = 0;
    return sections;
}

/* The header of the unit at an offset of `units`.
   MORE: `unit` is it. Else `unit` is as it was. END: the offset is the section's length, as 0 is of no
   bytes. REFUSED: it was refused. The units of .debug_types are read by sections of their own, whose
   `types` is not 0. */
uint32_t gimli_unit(const gimli_sections_t *sections, uint64_t offset, gimli_unit_t *unit);

/* The unit of `units` that holds an offset, its header included, as that of DW_FORM_ref_addr
   (GIMLI_INFO_REF). `units` is read, as .debug_info whatever `types` says.
   MORE: `unit` is it. Else `unit` is as it was. END: the offset lies after the last unit. REFUSED: of
   the header of a unit, and no unit before it holds the offset. */
uint32_t gimli_unit_holding(const gimli_sections_t *sections, uint64_t offset, gimli_unit_t *unit);

/* What the values of the unit at an offset of `units` count from, as its root says, in whatever order
   its attributes stand. It is called as gimli_unit_bases(sections, unit, dwo, skeleton, bases); who calls
   the library without this header says by `skeletons`, 1 or 0, whether there is a skeleton. `dwo` is not
   0 where the unit is of a split file; `skeleton` are then the bases of its skeleton unit in the program,
   or null where it is not at hand: from it are `address`, `addresses` and `gnu_ranges`. `units` and
   `abbrev` are read, and `addresses` where DW_AT_low_pc is an index.
   MORE: `bases` are they. Else `bases` are as they were. NO_BASE: DW_AT_low_pc is an index, and there
   is no table of addresses. BAD_BASE: the attribute of a base is there, but its value is no offset or no
   address, or lies in the first header of its section. REFUSED: of the unit, of its abbreviations, of its
   root, of the index or, where reading the abbreviations or the root takes memory, of memory. At the
   section's length, where gimli_unit answers END, it is REFUSED (GIMLI_UNEXPECTED_EOF). */
uint32_t gimli_unit_bases(const gimli_sections_t *sections, uint64_t unit, uint8_t dwo, const gimli_bases_t *skeleton,
                          size_t skeletons, gimli_bases_t *bases);

/* Rows of the unit at an offset of `units`, from a place on: `count` of them from the front of
   all that are left. The place is left after them, and `rows` is as it was after them. `units`
   and `abbrev` are read.
   MORE: the buffer is full, and there is more. END: none is left, as at the offset that is the
   unit's length. ROW_REFUSED: what stands at the place was refused.
   TOO_DEEP, or REFUSED of the unit, of its abbreviations or of the place's offset: no row, and
   the place is as it was. Memory is asked for the abbreviations alone.
   With no room (0, or a null buffer) MORE comes with no row, and the place stays: a loop that goes
   on while there is MORE never ends, unless there is room for a row. */
uint32_t gimli_rows(const gimli_sections_t *sections, uint64_t unit, gimli_place_t *place, gimli_row_t *rows, size_t room,
                    size_t *count);

/* The same with the attributes of each row, one row's after those of the row before. Rows are
   written as long as there is room for them and space for all their attributes. MORE with
   filled->wanted not 0: the next row wants so much space. Where that is more than `space`, the
   next call writes no row and answers the same: a loop that hands over no more never ends, nor
   does one with no room, as of gimli_rows. Memory is asked for the attributes of a row too, and for
   no row without them: where it was refused, the rows that were written are right, and the next
   call goes on. */
uint32_t gimli_entries(const gimli_sections_t *sections, uint64_t unit, gimli_place_t *place, gimli_entry_t *rows, size_t room,
                       gimli_attr_t *attrs, size_t space, gimli_filled_t *filled);

/* The table of abbreviations at an offset of `abbrev`. `abbrev` is read, and no memory is asked for.
   END: `counted` declarations and specifications are written, and after them the buffers are as
   they were: the table of every unit whose `abbreviations` is this offset. Else both are as they
   were. MORE: there is no room for all of the table; `counted` is how much it wants, so a first
   call may come with no room. UNORDERED, or REFUSED of the offset or of a declaration: `counted` is
   0 and 0. UNORDERED is where the codes of the declarations, up to the first that is refused, are not
   1, 2, .. in this order, as where one stands twice: then gimli_rows and gimli_entries, which read
   the table themselves, tell what it is. */
uint32_t gimli_table(const gimli_sections_t *sections, uint64_t offset, gimli_declaration_t *declarations, size_t room,
                     gimli_specification_t *specifications, size_t space, gimli_counted_t *counted);

/* The same as gimli_rows and as gimli_entries by a table, in place of that of the unit. `units` is
   read, and the table. Where gimli_table answered END for the unit's `abbreviations`, and `declared`
   and `specified` are what it counted, the answers are the same unless memory is refused. Of a table
   that the caller made they are what it declares; gimli_rows_by goes by the steps of its attributes
   too, and where one is wrong, which no zeros are, it may tell other rows or refuse them; also then
   `count` is at most `room`, and with MORE and some room the place is a later one. REFUSED is
   of the unit or of the place's offset alone; gimli_rows_by asks for no memory, and gimli_entries_by
   for that of a row's attributes. */
uint32_t gimli_rows_by(const gimli_sections_t *sections, uint64_t unit, const gimli_table_t *table, gimli_place_t *place,
                       gimli_row_t *rows, size_t room, size_t *count);
uint32_t gimli_entries_by(const gimli_sections_t *sections, uint64_t unit, const gimli_table_t *table, gimli_place_t *place,
                          gimli_entry_t *rows, size_t room, gimli_attr_t *attrs, size_t space, gimli_filled_t *filled);

/* The next sibling of the row at a place: the next entry of its depth, before the null that
   closes their list. `units` and `abbrev` are read. With `follows` 0 all rows between are read;
   else the references of entries (DW_AT_sibling) are followed, and the answer is the same where
   gimli_first_false finds none in the unit; where it finds one, `row` need not be a row of the
   unit: all that is said then is that it stands after the place. So a loop that takes the offset
   of `row` as the next place ends, whatever the bytes.
   MORE: `row` is it, and its depth is the place's. Else `row` is as it was. END: there is none, or
   a null stands at the place. ROW_REFUSED: what stands at the place or after was refused.
   REFUSED: of the unit, of its abbreviations or of the offset, as that of the unit's length is. */
uint32_t gimli_sibling(const gimli_sections_t *sections, uint64_t unit, const gimli_place_t *place, uint8_t follows,
                       gimli_row_t *row);

/* The first row of a unit whose sibling reference can be followed and does not lead just past the
   null that closes its children. `units` and `abbrev` are read.
   MORE: it stands at `offset` of the unit. Else `offset` is as it was. END: there is none, or none
   before a row that is refused, where the rows of the unit break off. An entry whose null does not
   come before that is a false one, if its reference can be followed.
   REFUSED: of the unit or of its abbreviations. */
uint32_t gimli_first_false(const gimli_sections_t *sections, uint64_t unit, uint64_t *offset);

/* Where the unit of an address begins in .debug_info: that of the first set of `aranges` with a
   range that holds the address.
   MORE: at `offset`. Else `offset` is as it was. END: no set has one. REFUSED: of the header of a
   set, and no set before it has one. */
uint32_t gimli_unit_of_address(const gimli_sections_t *sections, uint64_t address, uint64_t *offset);

/* Whether the unit at an offset of `units`, whose bases these are, holds an address. Where sets of
   `aranges` are the unit's, their ranges say so: that section need not have each unit. Any other unit
   holds the addresses of its root: those of the list of DW_AT_ranges, or else those from DW_AT_low_pc up to
   DW_AT_high_pc. No set is one of a split unit, whose root has no address: who wants its addresses asks its
   skeleton. `units` are read as .debug_info whatever `types` says; and `abbrev`, `addresses`, `aranges`,
   `ranges` and `rnglists`.
   MORE: it does. END: it does not. NO_BASE: an address of the root, or its list, counts from a base that the
   unit does not have. REFUSED: of the unit or of its abbreviations; of the header of a set, where no set of the
   unit before it holds the address; or, of a unit without sets, of its root, of the list, or of a range, where
   none before it holds the address; or of memory. Where gimli_unit_bases was refused, what bases whose `no_..`
   are all set answer but for NO_BASE depends on no base. Each call reads the unit's table and all sets. */
uint32_t gimli_unit_holds(const gimli_sections_t *sections, uint64_t unit, const gimli_bases_t *bases, uint64_t address);

/* The text that an attribute's value is (GIMLI_STRING, GIMLI_STR_REF, GIMLI_LINE_STR_REF,
   GIMLI_STR_REF_SUP, GIMLI_STR_OFFSETS_INDEX), as gimli_entries writes it for a row of `unit`. Of an index
   `str_offsets` is read, from `bases` on; and the section of the text.
   MORE: `string` says where it lies. Else `string` is as it was. NO_STRING: the value is no text.
   NO_BASE: it is an index, and the unit has no table of them. REFUSED: of the index, of the offset or
   of the text, which no zero ends. */
uint32_t gimli_attr_string(const gimli_sections_t *sections, const gimli_unit_t *unit, const gimli_attr_t *attribute,
                           const gimli_bases_t *bases, gimli_string_t *string);

/* The address that an attribute's value is (GIMLI_ADDR, GIMLI_ADDR_INDEX). Of an index `addresses` is
   read, from `bases` on.
   MORE: at `address`. Else `address` is as it was. NO_ADDRESS: the value is no address, as of
   GIMLI_ADDR_INDEX_OFFSET. NO_BASE: it is an index, and the unit has no table of addresses. REFUSED:
   of the index, or of the size of addresses. */
uint32_t gimli_attr_address(const gimli_sections_t *sections, const gimli_unit_t *unit, const gimli_attr_t *attribute,
                            const gimli_bases_t *bases, uint64_t *address);

/* Whether an attribute's value names a location list: by its kind, and of an offset by the attribute's
   name (DWARF 5, 7.5.5). Of the same names a value may be an expression, or an address of the entry. */
static inline int gimli_is_location_list(const gimli_attr_t *attribute) {
    if (attribute->kind != GIMLI_SEC_OFFSET) return attribute->kind == GIMLI_LOC_LISTS_INDEX;
    switch (attribute->name) {
    case 0x02: case 0x19: case 0x2a: case 0x38: /* location, string_length, return_addr, data_member_location */
    case 0x40: case 0x46: case 0x48: case 0x4a: /* frame_base, segment, static_link, use_location */
    case 0x4d:                                  /* vtable_elem_location */
        return 1;
    }
    return 0;
}

/* The ranges of the list that an attribute's value names (GIMLI_SEC_OFFSET,
   GIMLI_RNG_LISTS_INDEX), as gimli_entries writes it for DW_AT_ranges of a row of `unit`: `count`
   are all before the first that is refused, and may be more than `room`; as many of them are written
   as there is room for. The name of the attribute is not looked at.
   `ranges` or `rnglists` is read, and `addresses`. Left out are ranges that do not begin below their
   end, and those whose beginning or base is one of the two highest addresses of the unit's size,
   which stand for none: a list whose ranges are all empty answers as an empty list does. What
   stands after a refused one can't be had.
   MORE: there are more than there is room for. END: all were written. ROW_REFUSED: all were
   written, and what stands after them was refused, as an address at an index is where the unit has
   no table of addresses. NO_LIST, NO_BASE where an index or the list counts from a base that is none,
   or REFUSED of the size of addresses, of the index or of the offset: none. */
uint32_t gimli_ranges(const gimli_sections_t *sections, const gimli_unit_t *unit, const gimli_attr_t *attribute,
                      const gimli_bases_t *bases, gimli_range_t *into, size_t room, size_t *count);

/* The same of locations (GIMLI_SEC_OFFSET, GIMLI_LOC_LISTS_INDEX), of an attribute of which
   gimli_is_location_list says so. `loc` or `loclists` is read, and `addresses`. The default location of a
   list has the range from 0 to 2^64 - 1. */
uint32_t gimli_locations(const gimli_sections_t *sections, const gimli_unit_t *unit, const gimli_attr_t *attribute,
                         const gimli_bases_t *bases, gimli_location_t *into, size_t room, size_t *count);

/* Where something lies: the number of a section, and an offset in it. */
typedef struct {
    uint32_t section; /* GIMLI_UNITS .. */
    uint64_t offset;
} gimli_where_t;

/* The name of a section, by its number. */
static inline const char *gimli_section_name(uint32_t section) {
    static const char *const names[] = {".debug_info", ".debug_abbrev", ".debug_addr", ".debug_aranges", ".debug_ranges",
                                        ".debug_rnglists", ".debug_loc", ".debug_loclists", ".debug_str", ".debug_line_str",
                                        ".debug_str_offsets", ".debug_str of the supplementary file"};
    return section <= GIMLI_SUP_STR ? names[section] : "no section";
}

/* Where the row at a place of a unit lies, as that which is refused. */
static inline gimli_where_t gimli_where_row(const gimli_unit_t *unit, const gimli_place_t *place) {
    gimli_where_t where = {GIMLI_UNITS, 0};
    where.offset = unit->offset + place->offset;
    return where;
}

/* Where the calls over the value of an attribute begin to read, as of one that is refused: where the text or
   the list begins that an offset names, or what stands at an index in a table of the unit. Of any other value
   the unit. (Of an index that leads past 2^64 the offset is what is left of it.) */
static inline gimli_where_t gimli_where_value(const gimli_unit_t *unit, const gimli_attr_t *attribute,
                                              const gimli_bases_t *bases) {
    gimli_where_t where = {GIMLI_UNITS, 0};
    uint64_t number = attribute->number, size = unit->offset_size;
    int is_new = unit->version >= 5, is_range = attribute->name == 0x55; /* DW_AT_ranges */
    where.offset = unit->offset;
    switch (attribute->kind) {
    case GIMLI_STRING: case GIMLI_BLOCK: case GIMLI_EXPRLOC: where.offset = number; break;
    case GIMLI_STR_REF: where.section = GIMLI_STR, where.offset = number; break;
    case GIMLI_STR_REF_SUP: where.section = GIMLI_SUP_STR, where.offset = number; break;
    case GIMLI_LINE_STR_REF: where.section = GIMLI_LINE_STR, where.offset = number; break;
    case GIMLI_STR_OFFSETS_INDEX:
        where.section = GIMLI_STR_OFFSETS, where.offset = bases->str_offsets + number * size;
        break;
    case GIMLI_ADDR_INDEX: case GIMLI_ADDR_INDEX_OFFSET:
        where.section = GIMLI_ADDRESSES, where.offset = bases->addresses + number * unit->address_size;
        break;
    case GIMLI_RNG_LISTS_INDEX:
        where.section = GIMLI_RNGLISTS, where.offset = bases->rnglists + number * size;
        break;
    case GIMLI_LOC_LISTS_INDEX:
        where.section = GIMLI_LOCLISTS, where.offset = bases->loclists + number * size;
        break;
    case GIMLI_SEC_OFFSET:
        where.section = is_range ? (is_new ? GIMLI_RNGLISTS : GIMLI_RANGES) : is_new ? GIMLI_LOCLISTS : GIMLI_LOC;
        where.offset = number + (is_range && bases->dwo && !is_new ? bases->gnu_ranges : 0);
        break;
    }
    return where;
}

/* The bytes of a text that gimli_attr_string found in these sections; no zero need end them. */
static inline const char *gimli_string_bytes(const gimli_sections_t *sections, const gimli_string_t *string) {
    const gimli_bytes_t *section = string->section == GIMLI_STR        ? &sections->str
                                   : string->section == GIMLI_LINE_STR ? &sections->line_str
                                   : string->section == GIMLI_SUP_STR  ? &sections->sup_str
                                                                       : &sections->units;
    return (const char *)section->bytes + string->place;
}

/* What makes null stand for no bytes and for no room: each call is made by the function below
   that has its name. */
static inline gimli_bytes_t gimli_held(gimli_bytes_t section) { return gimli_bytes(section.bytes, section.length); }

static inline gimli_sections_t gimli_given(const gimli_sections_t *sections) {
    gimli_sections_t given = *sections;
    given.units = gimli_held(given.units), given.abbrev = gimli_held(given.abbrev);
    given.addresses = gimli_held(given.addresses), given.aranges = gimli_held(given.aranges);
    given.ranges = gimli_held(given.ranges), given.rnglists = gimli_held(given.rnglists);
    given.loc = gimli_held(given.loc), given.loclists = gimli_held(given.loclists);
    given.str = gimli_held(given.str), given.line_str = gimli_held(given.line_str);
    given.str_offsets = gimli_held(given.str_offsets), given.sup_str = gimli_held(given.sup_str);
    return given;
}

static inline uint32_t gimli_unit_given(const gimli_sections_t *sections, uint64_t offset, gimli_unit_t *unit) {
    gimli_sections_t given = gimli_given(sections);
    return gimli_unit(&given, offset, unit);
}

static inline uint32_t gimli_unit_holding_given(const gimli_sections_t *sections, uint64_t offset, gimli_unit_t *unit) {
    gimli_sections_t given = gimli_given(sections);
    return gimli_unit_holding(&given, offset, unit);
}

/* (a skeleton is one, or none where it is null) */
static inline uint32_t gimli_unit_bases_given(const gimli_sections_t *sections, uint64_t unit, uint8_t dwo,
                                              const gimli_bases_t *skeleton, gimli_bases_t *bases) {
    gimli_sections_t given = gimli_given(sections);
    return gimli_unit_bases(&given, unit, dwo, skeleton ? skeleton : GIMLI_NONE(const gimli_bases_t), skeleton != NULL, bases);
}

static inline uint32_t gimli_unit_holds_given(const gimli_sections_t *sections, uint64_t unit, const gimli_bases_t *bases,
                                              uint64_t address) {
    gimli_sections_t given = gimli_given(sections);
    return gimli_unit_holds(&given, unit, bases, address);
}

static inline uint32_t gimli_attr_string_given(const gimli_sections_t *sections, const gimli_unit_t *unit,
                                               const gimli_attr_t *attribute, const gimli_bases_t *bases,
                                               gimli_string_t *string) {
    gimli_sections_t given = gimli_given(sections);
    return gimli_attr_string(&given, unit, attribute, bases, string);
}

static inline uint32_t gimli_attr_address_given(const gimli_sections_t *sections, const gimli_unit_t *unit,
                                                const gimli_attr_t *attribute, const gimli_bases_t *bases, uint64_t *address) {
    gimli_sections_t given = gimli_given(sections);
    return gimli_attr_address(&given, unit, attribute, bases, address);
}

static inline uint32_t gimli_rows_given(const gimli_sections_t *sections, uint64_t unit, gimli_place_t *place, gimli_row_t *rows,
                                        size_t room, size_t *count) {
    gimli_sections_t given = gimli_given(sections);
    return gimli_rows(&given, unit, place, rows ? rows : GIMLI_NONE(gimli_row_t), rows ? room : 0, count);
}

static inline uint32_t gimli_entries_given(const gimli_sections_t *sections, uint64_t unit, gimli_place_t *place,
                                           gimli_entry_t *rows, size_t room, gimli_attr_t *attrs, size_t space,
                                           gimli_filled_t *filled) {
    gimli_sections_t given = gimli_given(sections);
    return gimli_entries(&given, unit, place, rows ? rows : GIMLI_NONE(gimli_entry_t), rows ? room : 0,
                         attrs ? attrs : GIMLI_NONE(gimli_attr_t), attrs ? space : 0, filled);
}

static inline gimli_table_t gimli_held_table(const gimli_table_t *table) {
    gimli_table_t held = *table;
    if (!held.declarations) held.declarations = GIMLI_NONE(const gimli_declaration_t), held.declared = 0;
    if (!held.specifications) held.specifications = GIMLI_NONE(const gimli_specification_t), held.specified = 0;
    return held;
}

static inline uint32_t gimli_table_given(const gimli_sections_t *sections, uint64_t offset, gimli_declaration_t *declarations,
                                         size_t room, gimli_specification_t *specifications, size_t space,
                                         gimli_counted_t *counted) {
    gimli_sections_t given = gimli_given(sections);
    return gimli_table(&given, offset, declarations ? declarations : GIMLI_NONE(gimli_declaration_t), declarations ? room : 0,
                       specifications ? specifications : GIMLI_NONE(gimli_specification_t), specifications ? space : 0, counted);
}

static inline uint32_t gimli_rows_by_given(const gimli_sections_t *sections, uint64_t unit, const gimli_table_t *table,
                                           gimli_place_t *place, gimli_row_t *rows, size_t room, size_t *count) {
    gimli_sections_t given = gimli_given(sections);
    gimli_table_t held = gimli_held_table(table);
    return gimli_rows_by(&given, unit, &held, place, rows ? rows : GIMLI_NONE(gimli_row_t), rows ? room : 0, count);
}

static inline uint32_t gimli_entries_by_given(const gimli_sections_t *sections, uint64_t unit, const gimli_table_t *table,
                                              gimli_place_t *place, gimli_entry_t *rows, size_t room, gimli_attr_t *attrs,
                                              size_t space, gimli_filled_t *filled) {
    gimli_sections_t given = gimli_given(sections);
    gimli_table_t held = gimli_held_table(table);
    return gimli_entries_by(&given, unit, &held, place, rows ? rows : GIMLI_NONE(gimli_entry_t), rows ? room : 0,
                            attrs ? attrs : GIMLI_NONE(gimli_attr_t), attrs ? space : 0, filled);
}

static inline uint32_t gimli_sibling_given(const gimli_sections_t *sections, uint64_t unit, const gimli_place_t *place,
                                           uint8_t follows, gimli_row_t *row) {
    gimli_sections_t given = gimli_given(sections);
    return gimli_sibling(&given, unit, place, follows, row);
}

static inline uint32_t gimli_first_false_given(const gimli_sections_t *sections, uint64_t unit, uint64_t *offset) {
    gimli_sections_t given = gimli_given(sections);
    return gimli_first_false(&given, unit, offset);
}

static inline uint32_t gimli_unit_of_address_given(const gimli_sections_t *sections, uint64_t address, uint64_t *offset) {
    gimli_sections_t given = gimli_given(sections);
    return gimli_unit_of_address(&given, address, offset);
}

static inline uint32_t gimli_ranges_given(const gimli_sections_t *sections, const gimli_unit_t *unit,
                                          const gimli_attr_t *attribute, const gimli_bases_t *bases, gimli_range_t *into,
                                          size_t room, size_t *count) {
    gimli_sections_t given = gimli_given(sections);
    return gimli_ranges(&given, unit, attribute, bases, into ? into : GIMLI_NONE(gimli_range_t), into ? room : 0, count);
}

static inline uint32_t gimli_locations_given(const gimli_sections_t *sections, const gimli_unit_t *unit,
                                             const gimli_attr_t *attribute, const gimli_bases_t *bases, gimli_location_t *into,
                                             size_t room, size_t *count) {
    gimli_sections_t given = gimli_given(sections);
    return gimli_locations(&given, unit, attribute, bases, into ? into : GIMLI_NONE(gimli_location_t), into ? room : 0, count);
}

#define gimli_unit gimli_unit_given
#define gimli_unit_holding gimli_unit_holding_given
#define gimli_unit_bases gimli_unit_bases_given
#define gimli_unit_holds gimli_unit_holds_given
#define gimli_attr_string gimli_attr_string_given
#define gimli_attr_address gimli_attr_address_given
#define gimli_rows gimli_rows_given
#define gimli_entries gimli_entries_given
#define gimli_table gimli_table_given
#define gimli_rows_by gimli_rows_by_given
#define gimli_entries_by gimli_entries_by_given
#define gimli_sibling gimli_sibling_given
#define gimli_first_false gimli_first_false_given
#define gimli_unit_of_address gimli_unit_of_address_given
#define gimli_ranges gimli_ranges_given
#define gimli_locations gimli_locations_given

/* The sizes that the library takes these types to have. */
typedef char gimli_sizes_t[sizeof(size_t) == 8 && sizeof(gimli_bytes_t) == 16 && sizeof(gimli_sections_t) == 200
                           && sizeof(gimli_unit_t) == 56 && sizeof(gimli_place_t) == 16 && sizeof(gimli_row_t) == 24
                           && sizeof(gimli_entry_t) == 40 && sizeof(gimli_attr_t) == 24 && sizeof(gimli_filled_t) == 24
                           && sizeof(gimli_declaration_t) == 32 && sizeof(gimli_specification_t) == 24
                           && sizeof(gimli_table_t) == 32 && sizeof(gimli_counted_t) == 16
                           && sizeof(gimli_bases_t) == 56 && sizeof(gimli_string_t) == 24
                           && sizeof(gimli_range_t) == 16 && sizeof(gimli_location_t) == 32 ? 1 : -1];

#ifdef __cplusplus
}
#endif
#endif
