/* ELF files by libelf, for the programs beside it: the sections of a program, or of a split file (.dwo) whose skeleton
   units are in a program, and the entries of their units. */
#ifndef ELF_FILES_H
#define ELF_FILES_H
#include "gimli.h"
#include "gimli_constants.h"
#include <fcntl.h>
#include <gelf.h>
#include <inttypes.h>
#include <stdbool.h>
#include <stdio.h>
#include <stdlib.h>
#include <string.h>
#include <unistd.h>

/* An open file; its sections are bytes of it, or of what is joined of several. */
typedef struct {
    int descriptor;
    Elf *elf;
    uint8_t *joined;
} elf_file_t;

/* Opens a file; false where it is no ELF file. It is closed in both cases. */
static inline bool open_elf(elf_file_t *file, const char *name) {
    file->descriptor = open(name, O_RDONLY);
    if (file->descriptor < 0 || elf_version(EV_CURRENT) == EV_NONE) return false;
    file->elf = elf_begin(file->descriptor, ELF_C_READ, NULL);
    if (!file->elf || elf_kind(file->elf) != ELF_K_ELF) return false;
    GElf_Ehdr header;
    return gelf_getehdr(file->elf, &header) && (!header.e_shoff || elf_getscn(file->elf, 1));
}

static inline void close_elf(elf_file_t *file) {
    free(file->joined);
    elf_end(file->elf);
    if (file->descriptor >= 0) close(file->descriptor);
}

/* The next section of a name after another one, decompressed; `at` is null where there is no such section. */
static inline gimli_bytes_t next_section(elf_file_t *file, const char *wanted, Elf_Scn **at) {
    size_t names;
    GElf_Shdr header;
    if (elf_getshdrstrndx(file->elf, &names)) return *at = NULL, gimli_bytes(NULL, 0);
    while ((*at = elf_nextscn(file->elf, *at))) {
        const char *name = gelf_getshdr(*at, &header) ? elf_strptr(file->elf, names, header.sh_name) : NULL;
        if (!name || strcmp(name, wanted)) continue;
        if (header.sh_type == SHT_NOBITS) break;
        if ((header.sh_flags & SHF_COMPRESSED) && elf_compress(*at, 0, 0) < 0) break;
        Elf_Data *data = elf_rawdata(*at, NULL);
        return data ? gimli_bytes(data->d_buf, data->d_size) : gimli_bytes(NULL, 0);
    }
    return gimli_bytes(NULL, 0);
}

/* The section of a name; none where there is no such section. */
static inline gimli_bytes_t section(elf_file_t *file, const char *wanted) {
    Elf_Scn *at = NULL;
    return next_section(file, wanted, &at);
}

/* The sections of units of a name, one after the other, as a linker joins them: where no linker did, each type unit
   has a section of its own. */
static inline gimli_bytes_t unit_sections(elf_file_t *file, const char *wanted) {
    Elf_Scn *at = NULL;
    gimli_bytes_t units = next_section(file, wanted, &at), more;
    while (at && (more = next_section(file, wanted, &at), at)) {
        uint8_t *joined = realloc(file->joined, units.length + more.length + 1);
        if (!joined) exit(3);
        if (!file->joined) memcpy(joined, units.bytes, units.length);
        memcpy(joined + units.length, more.bytes, more.length);
        file->joined = joined;
        units = gimli_bytes(joined, units.length + more.length);
    }
    return units;
}

/* The sections of a program. */
static inline gimli_sections_t program_sections(elf_file_t *file) {
    GElf_Ehdr header;
    gimli_sections_t s = gimli_no_sections();
    s.units = unit_sections(file, ".debug_info"), s.abbrev = section(file, ".debug_abbrev");
    s.addresses = section(file, ".debug_addr"), s.aranges = section(file, ".debug_aranges");
    s.ranges = section(file, ".debug_ranges"), s.rnglists = section(file, ".debug_rnglists");
    s.loc = section(file, ".debug_loc"), s.loclists = section(file, ".debug_loclists");
    s.str = section(file, ".debug_str"), s.line_str = section(file, ".debug_line_str");
    s.str_offsets = section(file, ".debug_str_offsets");
    s.big = gelf_getehdr(file->elf, &header) && header.e_ident[EI_DATA] == ELFDATA2MSB;
    return s;
}

/* The sections of a split file: addresses, and the ranges of version 4, are in the program. */
static inline gimli_sections_t split_sections(elf_file_t *file, const gimli_sections_t *program) {
    gimli_sections_t s = *program;
    s.units = unit_sections(file, ".debug_info.dwo"), s.abbrev = section(file, ".debug_abbrev.dwo");
    s.rnglists = section(file, ".debug_rnglists.dwo"), s.loc = section(file, ".debug_loc.dwo");
    s.loclists = section(file, ".debug_loclists.dwo"), s.str = section(file, ".debug_str.dwo");
    s.str_offsets = section(file, ".debug_str_offsets.dwo");
    return s;
}

/* The files of a program with the arguments FILE [DWO], and their sections: `sections` are those of DWO where it is
   given, and else of FILE. */
static elf_file_t files[2];
static gimli_sections_t program, sections;
static bool is_split;

static inline void close_files(void) {
    close_elf(&files[0]);
    close_elf(&files[1]);
}

/* Ends the program with what a status says, unless it is the wanted one. */
static inline void need(uint32_t status, uint32_t wanted) {
    if (status == wanted) return;
    fprintf(stderr, "%s\n", gimli_text(status));
    exit(1);
}

static inline void open_files(int argc, char **argv) {
    files[0].descriptor = files[1].descriptor = -1;
    is_split = argc == 3;
    if (argc < 2 || argc > 3 || atexit(close_files)) exit((fprintf(stderr, "usage: %s FILE [DWO]\n", argv[0]), 2));
    for (int i = 1; i < argc; i++)
        if (!open_elf(&files[i - 1], argv[i])) exit((fprintf(stderr, "%s is no ELF file\n", argv[i]), 2));
    program = program_sections(&files[0]);
    sections = is_split ? split_sections(&files[1], &program) : program;
}

/* An entry of a unit, with its attributes, and what their values count from. */
typedef struct {
    const gimli_unit_t *unit;
    const gimli_bases_t *bases;
    gimli_entry_t row;
    const gimli_attr_t *attrs; /* as many as `row` says */
} entry_t;

/* The first attribute of a name. */
static inline const gimli_attr_t *find(const entry_t *entry, unsigned name) {
    for (size_t i = 0; i < entry->row.attributes; i++)
        if (entry->attrs[i].name == name) return &entry->attrs[i];
    return NULL;
}

/* Room for entries and for their attributes: one that has more attributes than this ends the program. */
enum { ROOM = 4096, SPACE = 1 << 16 };

/* The entry at an offset of a unit, right until the next call. */
static inline entry_t entry_at(const gimli_sections_t *of, const gimli_unit_t *unit, const gimli_bases_t *bases,
                               uint64_t offset) {
    static gimli_attr_t attrs[SPACE];
    gimli_place_t place = {offset, 0};
    gimli_filled_t filled;
    entry_t entry = {unit, bases, {0}, attrs};
    uint32_t status = gimli_entries(of, unit->offset, &place, &entry.row, 1, attrs, SPACE, &filled);
    if (!filled.rows) need(status, GIMLI_END);
    return entry;
}

/* The id that a unit shares with its skeleton: in the header, or before version 5 an attribute of the root. */
static inline bool dwo_id(const gimli_sections_t *of, const gimli_unit_t *unit, uint64_t *id) {
    *id = unit->id;
    if (unit->version >= 5) return unit->kind == DW_UT_skeleton || unit->kind == DW_UT_split_compile;
    entry_t root = entry_at(of, unit, NULL, unit->header_size);
    const gimli_attr_t *attr = find(&root, DW_AT_GNU_dwo_id);
    if (attr) *id = attr->number;
    return attr;
}

/* The bases of the unit of the program that has an id; false where none has it. */
static inline bool skeleton_bases(uint64_t id, gimli_bases_t *bases) {
    gimli_unit_t unit;
    uint64_t at = 0, other;
    uint32_t status;
    for (; (status = gimli_unit(&program, at, &unit)) == GIMLI_MORE; at += unit.length) {
        if (!dwo_id(&program, &unit, &other) || other != id) continue;
        need(gimli_unit_bases(&program, at, 0, NULL, bases), GIMLI_MORE);
        return true;
    }
    need(status, GIMLI_END);
    return false;
}

/* The next unit of `sections`, from the first on where `unit` is all zeros, and its bases; false at the end. */
static inline bool next_unit(gimli_unit_t *unit, gimli_bases_t *bases) {
    gimli_bases_t skeleton;
    uint64_t id;
    uint32_t status = gimli_unit(&sections, unit->offset + unit->length, unit);
    if (status == GIMLI_END) return false;
    need(status, GIMLI_MORE);
    bool has_skeleton = is_split && dwo_id(&sections, unit, &id) && skeleton_bases(id, &skeleton);
    need(gimli_unit_bases(&sections, unit->offset, is_split, has_skeleton ? &skeleton : NULL, bases), GIMLI_MORE);
    return true;
}

/* Calls a function for each entry of `sections`. */
static inline void each_entry(void visit(const entry_t *)) {
    static gimli_entry_t rows[ROOM];
    static gimli_attr_t attrs[SPACE];
    gimli_unit_t unit = {0};
    gimli_bases_t bases;
    while (next_unit(&unit, &bases)) {
        gimli_place_t place = {unit.header_size, 0};
        gimli_filled_t filled;
        uint32_t status;
        do {
            status = gimli_entries(&sections, unit.offset, &place, rows, ROOM, attrs, SPACE, &filled);
            for (size_t i = 0; i < filled.rows; i++) {
                entry_t entry = {&unit, &bases, rows[i], attrs + rows[i].first};
                visit(&entry);
            }
        } while (status == GIMLI_MORE && filled.rows);
        need(status, GIMLI_END);
    }
}
#endif
