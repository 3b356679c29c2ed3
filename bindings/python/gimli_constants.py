"""The codes of DWARF by their names, and functions that name a code.

    TAG["DW_TAG_subprogram"], DW_TAG_subprogram    are 0x2e
    tag_name(0x2e)                                 is "DW_TAG_subprogram"
    tag_name(0x1234)                               is "Unknown DwTag: 0x1234"

Written by tools/constants.py from the table of crates/gimli_base (src/constants.rt and what is below it): change that.
"""


def _codes(prefix):
    """The codes above whose names begin with these letters, by their names."""
    return {name: code for name, code in globals().items() if name.startswith(prefix)}


def _names(codes):
    """The names of codes, of each the first."""
    return {code: name for name, code in reversed(codes.items())}


def _name(kind, names, code):
    return names.get(code) or f"Unknown {kind}: {code:#x}"


# The code of a tag, of 16 bits (DWARF 5, 7.5.3, table 7.3).
DW_TAG_null = 0x00
DW_TAG_array_type = 0x01
DW_TAG_class_type = 0x02
DW_TAG_entry_point = 0x03
DW_TAG_enumeration_type = 0x04
DW_TAG_formal_parameter = 0x05
DW_TAG_imported_declaration = 0x08
DW_TAG_label = 0x0a
DW_TAG_lexical_block = 0x0b
DW_TAG_member = 0x0d
DW_TAG_pointer_type = 0x0f
DW_TAG_reference_type = 0x10
DW_TAG_compile_unit = 0x11
DW_TAG_string_type = 0x12
DW_TAG_structure_type = 0x13
DW_TAG_subroutine_type = 0x15
DW_TAG_typedef = 0x16
DW_TAG_union_type = 0x17
DW_TAG_unspecified_parameters = 0x18
DW_TAG_variant = 0x19
DW_TAG_common_block = 0x1a
DW_TAG_common_inclusion = 0x1b
DW_TAG_inheritance = 0x1c
DW_TAG_inlined_subroutine = 0x1d
DW_TAG_module = 0x1e
DW_TAG_ptr_to_member_type = 0x1f
DW_TAG_set_type = 0x20
DW_TAG_subrange_type = 0x21
DW_TAG_with_stmt = 0x22
DW_TAG_access_declaration = 0x23
DW_TAG_base_type = 0x24
DW_TAG_catch_block = 0x25
DW_TAG_const_type = 0x26
DW_TAG_constant = 0x27
DW_TAG_enumerator = 0x28
DW_TAG_file_type = 0x29
DW_TAG_friend = 0x2a
DW_TAG_namelist = 0x2b
DW_TAG_namelist_item = 0x2c
DW_TAG_packed_type = 0x2d
DW_TAG_subprogram = 0x2e
DW_TAG_template_type_parameter = 0x2f
DW_TAG_template_value_parameter = 0x30
DW_TAG_thrown_type = 0x31
DW_TAG_try_block = 0x32
DW_TAG_variant_part = 0x33
DW_TAG_variable = 0x34
DW_TAG_volatile_type = 0x35
DW_TAG_dwarf_procedure = 0x36
DW_TAG_restrict_type = 0x37
DW_TAG_interface_type = 0x38
DW_TAG_namespace = 0x39
DW_TAG_imported_module = 0x3a
DW_TAG_unspecified_type = 0x3b
DW_TAG_partial_unit = 0x3c
DW_TAG_imported_unit = 0x3d
DW_TAG_condition = 0x3f
DW_TAG_shared_type = 0x40
DW_TAG_type_unit = 0x41
DW_TAG_rvalue_reference_type = 0x42
DW_TAG_template_alias = 0x43
DW_TAG_coarray_type = 0x44
DW_TAG_generic_subrange = 0x45
DW_TAG_dynamic_type = 0x46
DW_TAG_atomic_type = 0x47
DW_TAG_call_site = 0x48
DW_TAG_call_site_parameter = 0x49
DW_TAG_skeleton_unit = 0x4a
DW_TAG_immutable_type = 0x4b
DW_TAG_lo_user = 0x4080
DW_TAG_hi_user = 0xffff
DW_TAG_MIPS_loop = 0x4081
DW_TAG_format_label = 0x4101
DW_TAG_function_template = 0x4102
DW_TAG_class_template = 0x4103
DW_TAG_GNU_BINCL = 0x4104
DW_TAG_GNU_EINCL = 0x4105
DW_TAG_GNU_template_template_param = 0x4106
DW_TAG_GNU_template_parameter_pack = 0x4107
DW_TAG_GNU_formal_parameter_pack = 0x4108
DW_TAG_GNU_call_site = 0x4109
DW_TAG_GNU_call_site_parameter = 0x410a
DW_TAG_APPLE_property = 0x4200
DW_TAG_LLVM_annotation = 0x6000
DW_TAG_upc_shared_type = 0x8765
DW_TAG_upc_strict_type = 0x8766
DW_TAG_upc_relaxed_type = 0x8767
DW_TAG_PGI_kanji_type = 0xa000
DW_TAG_PGI_interface_block = 0xa020
DW_TAG_BORLAND_property = 0xb000
DW_TAG_BORLAND_Delphi_string = 0xb001
DW_TAG_BORLAND_Delphi_dynamic_array = 0xb002
DW_TAG_BORLAND_Delphi_set = 0xb003
DW_TAG_BORLAND_Delphi_variant = 0xb004
TAG = _codes("DW_TAG_")
_TAG_NAMES = _names(TAG)


def tag_name(code):
    """The name of a code of DwTag, or where it has none "Unknown DwTag: 0x12"."""
    return _name("DwTag", _TAG_NAMES, code)


# The code of an attribute's name, of 16 bits (DWARF 5, 7.5.4, table 7.5).
DW_AT_null = 0x00
DW_AT_sibling = 0x01
DW_AT_location = 0x02
DW_AT_name = 0x03
DW_AT_ordering = 0x09
DW_AT_byte_size = 0x0b
DW_AT_bit_offset = 0x0c
DW_AT_bit_size = 0x0d
DW_AT_stmt_list = 0x10
DW_AT_low_pc = 0x11
DW_AT_high_pc = 0x12
DW_AT_language = 0x13
DW_AT_discr = 0x15
DW_AT_discr_value = 0x16
DW_AT_visibility = 0x17
DW_AT_import = 0x18
DW_AT_string_length = 0x19
DW_AT_common_reference = 0x1a
DW_AT_comp_dir = 0x1b
DW_AT_const_value = 0x1c
DW_AT_containing_type = 0x1d
DW_AT_default_value = 0x1e
DW_AT_inline = 0x20
DW_AT_is_optional = 0x21
DW_AT_lower_bound = 0x22
DW_AT_producer = 0x25
DW_AT_prototyped = 0x27
DW_AT_return_addr = 0x2a
DW_AT_start_scope = 0x2c
DW_AT_bit_stride = 0x2e
DW_AT_upper_bound = 0x2f
DW_AT_abstract_origin = 0x31
DW_AT_accessibility = 0x32
DW_AT_address_class = 0x33
DW_AT_artificial = 0x34
DW_AT_base_types = 0x35
DW_AT_calling_convention = 0x36
DW_AT_count = 0x37
DW_AT_data_member_location = 0x38
DW_AT_decl_column = 0x39
DW_AT_decl_file = 0x3a
DW_AT_decl_line = 0x3b
DW_AT_declaration = 0x3c
DW_AT_discr_list = 0x3d
DW_AT_encoding = 0x3e
DW_AT_external = 0x3f
DW_AT_frame_base = 0x40
DW_AT_friend = 0x41
DW_AT_identifier_case = 0x42
DW_AT_macro_info = 0x43
DW_AT_namelist_item = 0x44
DW_AT_priority = 0x45
DW_AT_segment = 0x46
DW_AT_specification = 0x47
DW_AT_static_link = 0x48
DW_AT_type = 0x49
DW_AT_use_location = 0x4a
DW_AT_variable_parameter = 0x4b
DW_AT_virtuality = 0x4c
DW_AT_vtable_elem_location = 0x4d
DW_AT_allocated = 0x4e
DW_AT_associated = 0x4f
DW_AT_data_location = 0x50
DW_AT_byte_stride = 0x51
DW_AT_entry_pc = 0x52
DW_AT_use_UTF8 = 0x53
DW_AT_extension = 0x54
DW_AT_ranges = 0x55
DW_AT_trampoline = 0x56
DW_AT_call_column = 0x57
DW_AT_call_file = 0x58
DW_AT_call_line = 0x59
DW_AT_description = 0x5a
DW_AT_binary_scale = 0x5b
DW_AT_decimal_scale = 0x5c
DW_AT_small = 0x5d
DW_AT_decimal_sign = 0x5e
DW_AT_digit_count = 0x5f
DW_AT_picture_string = 0x60
DW_AT_mutable = 0x61
DW_AT_threads_scaled = 0x62
DW_AT_explicit = 0x63
DW_AT_object_pointer = 0x64
DW_AT_endianity = 0x65
DW_AT_elemental = 0x66
DW_AT_pure = 0x67
DW_AT_recursive = 0x68
DW_AT_signature = 0x69
DW_AT_main_subprogram = 0x6a
DW_AT_data_bit_offset = 0x6b
DW_AT_const_expr = 0x6c
DW_AT_enum_class = 0x6d
DW_AT_linkage_name = 0x6e
DW_AT_string_length_bit_size = 0x6f
DW_AT_string_length_byte_size = 0x70
DW_AT_rank = 0x71
DW_AT_str_offsets_base = 0x72
DW_AT_addr_base = 0x73
DW_AT_rnglists_base = 0x74
DW_AT_dwo_name = 0x76
DW_AT_reference = 0x77
DW_AT_rvalue_reference = 0x78
DW_AT_macros = 0x79
DW_AT_call_all_calls = 0x7a
DW_AT_call_all_source_calls = 0x7b
DW_AT_call_all_tail_calls = 0x7c
DW_AT_call_return_pc = 0x7d
DW_AT_call_value = 0x7e
DW_AT_call_origin = 0x7f
DW_AT_call_parameter = 0x80
DW_AT_call_pc = 0x81
DW_AT_call_tail_call = 0x82
DW_AT_call_target = 0x83
DW_AT_call_target_clobbered = 0x84
DW_AT_call_data_location = 0x85
DW_AT_call_data_value = 0x86
DW_AT_noreturn = 0x87
DW_AT_alignment = 0x88
DW_AT_export_symbols = 0x89
DW_AT_deleted = 0x8a
DW_AT_defaulted = 0x8b
DW_AT_loclists_base = 0x8c
DW_AT_lo_user = 0x2000
DW_AT_hi_user = 0x3fff
DW_AT_MIPS_fde = 0x2001
DW_AT_MIPS_loop_begin = 0x2002
DW_AT_MIPS_tail_loop_begin = 0x2003
DW_AT_MIPS_epilog_begin = 0x2004
DW_AT_MIPS_loop_unroll_factor = 0x2005
DW_AT_MIPS_software_pipeline_depth = 0x2006
DW_AT_MIPS_linkage_name = 0x2007
DW_AT_MIPS_stride = 0x2008
DW_AT_MIPS_abstract_name = 0x2009
DW_AT_MIPS_clone_origin = 0x200a
DW_AT_MIPS_has_inlines = 0x200b
DW_AT_MIPS_stride_byte = 0x200c
DW_AT_MIPS_stride_elem = 0x200d
DW_AT_MIPS_ptr_dopetype = 0x200e
DW_AT_MIPS_allocatable_dopetype = 0x200f
DW_AT_MIPS_assumed_shape_dopetype = 0x2010
DW_AT_MIPS_assumed_size = 0x2011
DW_AT_sf_names = 0x2101
DW_AT_src_info = 0x2102
DW_AT_mac_info = 0x2103
DW_AT_src_coords = 0x2104
DW_AT_body_begin = 0x2105
DW_AT_body_end = 0x2106
DW_AT_GNU_vector = 0x2107
DW_AT_GNU_guarded_by = 0x2108
DW_AT_GNU_pt_guarded_by = 0x2109
DW_AT_GNU_guarded = 0x210a
DW_AT_GNU_pt_guarded = 0x210b
DW_AT_GNU_locks_excluded = 0x210c
DW_AT_GNU_exclusive_locks_required = 0x210d
DW_AT_GNU_shared_locks_required = 0x210e
DW_AT_GNU_odr_signature = 0x210f
DW_AT_GNU_template_name = 0x2110
DW_AT_GNU_call_site_value = 0x2111
DW_AT_GNU_call_site_data_value = 0x2112
DW_AT_GNU_call_site_target = 0x2113
DW_AT_GNU_call_site_target_clobbered = 0x2114
DW_AT_GNU_tail_call = 0x2115
DW_AT_GNU_all_tail_call_sites = 0x2116
DW_AT_GNU_all_call_sites = 0x2117
DW_AT_GNU_all_source_call_sites = 0x2118
DW_AT_GNU_macros = 0x2119
DW_AT_GNU_deleted = 0x211a
DW_AT_GNU_dwo_name = 0x2130
DW_AT_GNU_dwo_id = 0x2131
DW_AT_GNU_ranges_base = 0x2132
DW_AT_GNU_addr_base = 0x2133
DW_AT_GNU_pubnames = 0x2134
DW_AT_GNU_pubtypes = 0x2135
DW_AT_GNU_discriminator = 0x2136
DW_AT_GNU_locviews = 0x2137
DW_AT_GNU_entry_view = 0x2138
DW_AT_VMS_rtnbeg_pd_address = 0x2201
DW_AT_use_GNAT_descriptive_type = 0x2301
DW_AT_GNAT_descriptive_type = 0x2302
DW_AT_GNU_numerator = 0x2303
DW_AT_GNU_denominator = 0x2304
DW_AT_GNU_bias = 0x2305
DW_AT_upc_threads_scaled = 0x3210
DW_AT_PGI_lbase = 0x3a00
DW_AT_PGI_soffset = 0x3a01
DW_AT_PGI_lstride = 0x3a02
DW_AT_LLVM_include_path = 0x3e00
DW_AT_LLVM_config_macros = 0x3e01
DW_AT_LLVM_sysroot = 0x3e02
DW_AT_LLVM_tag_offset = 0x3e03
DW_AT_APPLE_optimized = 0x3fe1
DW_AT_APPLE_flags = 0x3fe2
DW_AT_APPLE_isa = 0x3fe3
DW_AT_APPLE_block = 0x3fe4
DW_AT_APPLE_major_runtime_vers = 0x3fe5
DW_AT_APPLE_runtime_class = 0x3fe6
DW_AT_APPLE_omit_frame_ptr = 0x3fe7
DW_AT_APPLE_property_name = 0x3fe8
DW_AT_APPLE_property_getter = 0x3fe9
DW_AT_APPLE_property_setter = 0x3fea
DW_AT_APPLE_property_attribute = 0x3feb
DW_AT_APPLE_objc_complete_type = 0x3fec
DW_AT_APPLE_property = 0x3fed
DW_AT_APPLE_objc_direct = 0x3fee
DW_AT_APPLE_sdk = 0x3fef
AT = _codes("DW_AT_")
_AT_NAMES = _names(AT)


def at_name(code):
    """The name of a code of DwAt, or where it has none "Unknown DwAt: 0x12"."""
    return _name("DwAt", _AT_NAMES, code)


# The code of an attribute's form, of 16 bits (DWARF 5, 7.5.6, table 7.6).
DW_FORM_null = 0x00
DW_FORM_addr = 0x01
DW_FORM_block2 = 0x03
DW_FORM_block4 = 0x04
DW_FORM_data2 = 0x05
DW_FORM_data4 = 0x06
DW_FORM_data8 = 0x07
DW_FORM_string = 0x08
DW_FORM_block = 0x09
DW_FORM_block1 = 0x0a
DW_FORM_data1 = 0x0b
DW_FORM_flag = 0x0c
DW_FORM_sdata = 0x0d
DW_FORM_strp = 0x0e
DW_FORM_udata = 0x0f
DW_FORM_ref_addr = 0x10
DW_FORM_ref1 = 0x11
DW_FORM_ref2 = 0x12
DW_FORM_ref4 = 0x13
DW_FORM_ref8 = 0x14
DW_FORM_ref_udata = 0x15
DW_FORM_indirect = 0x16
DW_FORM_sec_offset = 0x17
DW_FORM_exprloc = 0x18
DW_FORM_flag_present = 0x19
DW_FORM_strx = 0x1a
DW_FORM_addrx = 0x1b
DW_FORM_ref_sup4 = 0x1c
DW_FORM_strp_sup = 0x1d
DW_FORM_data16 = 0x1e
DW_FORM_line_strp = 0x1f
DW_FORM_ref_sig8 = 0x20
DW_FORM_implicit_const = 0x21
DW_FORM_loclistx = 0x22
DW_FORM_rnglistx = 0x23
DW_FORM_ref_sup8 = 0x24
DW_FORM_strx1 = 0x25
DW_FORM_strx2 = 0x26
DW_FORM_strx3 = 0x27
DW_FORM_strx4 = 0x28
DW_FORM_addrx1 = 0x29
DW_FORM_addrx2 = 0x2a
DW_FORM_addrx3 = 0x2b
DW_FORM_addrx4 = 0x2c
DW_FORM_GNU_addr_index = 0x1f01
DW_FORM_GNU_str_index = 0x1f02
DW_FORM_GNU_ref_alt = 0x1f20
DW_FORM_GNU_strp_alt = 0x1f21
DW_FORM_own_addrx_offset = 0x3f01
FORM = _codes("DW_FORM_")
_FORM_NAMES = _names(FORM)


def form_name(code):
    """The name of a code of DwForm, or where it has none "Unknown DwForm: 0x12"."""
    return _name("DwForm", _FORM_NAMES, code)


# The code of a language, of 16 bits (DWARF 5, 7.12, table 7.17).
DW_LANG_C89 = 0x0001
DW_LANG_C = 0x0002
DW_LANG_Ada83 = 0x0003
DW_LANG_C_plus_plus = 0x0004
DW_LANG_Cobol74 = 0x0005
DW_LANG_Cobol85 = 0x0006
DW_LANG_Fortran77 = 0x0007
DW_LANG_Fortran90 = 0x0008
DW_LANG_Pascal83 = 0x0009
DW_LANG_Modula2 = 0x000a
DW_LANG_Java = 0x000b
DW_LANG_C99 = 0x000c
DW_LANG_Ada95 = 0x000d
DW_LANG_Fortran95 = 0x000e
DW_LANG_PLI = 0x000f
DW_LANG_ObjC = 0x0010
DW_LANG_ObjC_plus_plus = 0x0011
DW_LANG_UPC = 0x0012
DW_LANG_D = 0x0013
DW_LANG_Python = 0x0014
DW_LANG_OpenCL = 0x0015
DW_LANG_Go = 0x0016
DW_LANG_Modula3 = 0x0017
DW_LANG_Haskell = 0x0018
DW_LANG_C_plus_plus_03 = 0x0019
DW_LANG_C_plus_plus_11 = 0x001a
DW_LANG_OCaml = 0x001b
DW_LANG_Rust = 0x001c
DW_LANG_C11 = 0x001d
DW_LANG_Swift = 0x001e
DW_LANG_Julia = 0x001f
DW_LANG_Dylan = 0x0020
DW_LANG_C_plus_plus_14 = 0x0021
DW_LANG_Fortran03 = 0x0022
DW_LANG_Fortran08 = 0x0023
DW_LANG_RenderScript = 0x0024
DW_LANG_BLISS = 0x0025
DW_LANG_Kotlin = 0x0026
DW_LANG_Zig = 0x0027
DW_LANG_Crystal = 0x0028
DW_LANG_C_plus_plus_17 = 0x002a
DW_LANG_C_plus_plus_20 = 0x002b
DW_LANG_C17 = 0x002c
DW_LANG_Fortran18 = 0x002d
DW_LANG_Ada2005 = 0x002e
DW_LANG_Ada2012 = 0x002f
DW_LANG_HIP = 0x0030
DW_LANG_Assembly = 0x0031
DW_LANG_lo_user = 0x8000
DW_LANG_hi_user = 0xffff
DW_LANG_Mips_Assembler = 0x8001
DW_LANG_GOOGLE_RenderScript = 0x8e57
DW_LANG_SUN_Assembler = 0x9001
DW_LANG_ALTIUM_Assembler = 0x9101
DW_LANG_BORLAND_Delphi = 0xb000
LANG = _codes("DW_LANG_")
_LANG_NAMES = _names(LANG)


def lang_name(code):
    """The name of a code of DwLang, or where it has none "Unknown DwLang: 0x12"."""
    return _name("DwLang", _LANG_NAMES, code)


# The code of a unit's type (DWARF 5, 7.5.1, table 7.2).
DW_UT_compile = 0x01
DW_UT_type = 0x02
DW_UT_partial = 0x03
DW_UT_skeleton = 0x04
DW_UT_split_compile = 0x05
DW_UT_split_type = 0x06
DW_UT_lo_user = 0x80
DW_UT_hi_user = 0xff
UT = _codes("DW_UT_")
_UT_NAMES = _names(UT)


def ut_name(code):
    """The name of a code of DwUt, or where it has none "Unknown DwUt: 0x12"."""
    return _name("DwUt", _UT_NAMES, code)


# The code of an entry of a range list (DWARF 5, 7.25, table 7.30).
DW_RLE_end_of_list = 0x00
DW_RLE_base_addressx = 0x01
DW_RLE_startx_endx = 0x02
DW_RLE_startx_length = 0x03
DW_RLE_offset_pair = 0x04
DW_RLE_base_address = 0x05
DW_RLE_start_end = 0x06
DW_RLE_start_length = 0x07
RLE = _codes("DW_RLE_")
_RLE_NAMES = _names(RLE)


def rle_name(code):
    """The name of a code of DwRle, or where it has none "Unknown DwRle: 0x12"."""
    return _name("DwRle", _RLE_NAMES, code)


# The code of an entry of a location list (DWARF 5, 7.7.3, table 7.10).
DW_LLE_end_of_list = 0x00
DW_LLE_base_addressx = 0x01
DW_LLE_startx_endx = 0x02
DW_LLE_startx_length = 0x03
DW_LLE_offset_pair = 0x04
DW_LLE_default_location = 0x05
DW_LLE_base_address = 0x06
DW_LLE_start_end = 0x07
DW_LLE_start_length = 0x08
DW_LLE_GNU_view_pair = 0x09
LLE = _codes("DW_LLE_")
_LLE_NAMES = _names(LLE)


def lle_name(code):
    """The name of a code of DwLle, or where it has none "Unknown DwLle: 0x12"."""
    return _name("DwLle", _LLE_NAMES, code)


# The code of the encoding of a base type (DWARF 5, 7.8, table 7.11).
DW_ATE_address = 0x01
DW_ATE_boolean = 0x02
DW_ATE_complex_float = 0x03
DW_ATE_float = 0x04
DW_ATE_signed = 0x05
DW_ATE_signed_char = 0x06
DW_ATE_unsigned = 0x07
DW_ATE_unsigned_char = 0x08
DW_ATE_imaginary_float = 0x09
DW_ATE_packed_decimal = 0x0a
DW_ATE_numeric_string = 0x0b
DW_ATE_edited = 0x0c
DW_ATE_signed_fixed = 0x0d
DW_ATE_unsigned_fixed = 0x0e
DW_ATE_decimal_float = 0x0f
DW_ATE_UTF = 0x10
DW_ATE_UCS = 0x11
DW_ATE_ASCII = 0x12
DW_ATE_lo_user = 0x80
DW_ATE_hi_user = 0xff
ATE = _codes("DW_ATE_")
_ATE_NAMES = _names(ATE)


def ate_name(code):
    """The name of a code of DwAte, or where it has none "Unknown DwAte: 0x12"."""
    return _name("DwAte", _ATE_NAMES, code)


# The code of how a decimal number has its sign (DWARF 5, 7.8, table 7.12).
DW_DS_unsigned = 0x01
DW_DS_leading_overpunch = 0x02
DW_DS_trailing_overpunch = 0x03
DW_DS_leading_separate = 0x04
DW_DS_trailing_separate = 0x05
DS = _codes("DW_DS_")
_DS_NAMES = _names(DS)


def ds_name(code):
    """The name of a code of DwDs, or where it has none "Unknown DwDs: 0x12"."""
    return _name("DwDs", _DS_NAMES, code)


# The code of a byte order (DWARF 5, 7.8, table 7.13).
DW_END_default = 0x00
DW_END_big = 0x01
DW_END_little = 0x02
DW_END_lo_user = 0x40
DW_END_hi_user = 0xff
END = _codes("DW_END_")
_END_NAMES = _names(END)


def end_name(code):
    """The name of a code of DwEnd, or where it has none "Unknown DwEnd: 0x12"."""
    return _name("DwEnd", _END_NAMES, code)


# The code of who may use a member (DWARF 5, 7.9, table 7.14).
DW_ACCESS_public = 0x01
DW_ACCESS_protected = 0x02
DW_ACCESS_private = 0x03
ACCESS = _codes("DW_ACCESS_")
_ACCESS_NAMES = _names(ACCESS)


def access_name(code):
    """The name of a code of DwAccess, or where it has none "Unknown DwAccess: 0x12"."""
    return _name("DwAccess", _ACCESS_NAMES, code)


# The code of where a declaration is seen (DWARF 5, 7.10, table 7.15).
DW_VIS_local = 0x01
DW_VIS_exported = 0x02
DW_VIS_qualified = 0x03
VIS = _codes("DW_VIS_")
_VIS_NAMES = _names(VIS)


def vis_name(code):
    """The name of a code of DwVis, or where it has none "Unknown DwVis: 0x12"."""
    return _name("DwVis", _VIS_NAMES, code)


# The code of whether a member is virtual (DWARF 5, 7.11, table 7.16).
DW_VIRTUALITY_none = 0x00
DW_VIRTUALITY_virtual = 0x01
DW_VIRTUALITY_pure_virtual = 0x02
VIRTUALITY = _codes("DW_VIRTUALITY_")
_VIRTUALITY_NAMES = _names(VIRTUALITY)


def virtuality_name(code):
    """The name of a code of DwVirtuality, or where it has none "Unknown DwVirtuality: 0x12"."""
    return _name("DwVirtuality", _VIRTUALITY_NAMES, code)


# The code of a class of addresses (DWARF 5, 7.13).
DW_ADDR_none = 0x00
ADDR = _codes("DW_ADDR_")
_ADDR_NAMES = _names(ADDR)


def addr_name(code):
    """The name of a code of DwAddr, or where it has none "Unknown DwAddr: 0x12"."""
    return _name("DwAddr", _ADDR_NAMES, code)


# The code of how the case of letters in identifiers counts (DWARF 5, 7.14, table 7.18).
DW_ID_case_sensitive = 0x00
DW_ID_up_case = 0x01
DW_ID_down_case = 0x02
DW_ID_case_insensitive = 0x03
ID = _codes("DW_ID_")
_ID_NAMES = _names(ID)


def id_name(code):
    """The name of a code of DwId, or where it has none "Unknown DwId: 0x12"."""
    return _name("DwId", _ID_NAMES, code)


# The code of a calling convention (DWARF 5, 7.15, table 7.19).
DW_CC_normal = 0x01
DW_CC_program = 0x02
DW_CC_nocall = 0x03
DW_CC_pass_by_reference = 0x04
DW_CC_pass_by_value = 0x05
DW_CC_lo_user = 0x40
DW_CC_hi_user = 0xff
DW_CC_GNU_renesas_sh = 0x40
DW_CC_GNU_borland_fastcall_i386 = 0x41
DW_CC_BORLAND_safecall = 0xb0
DW_CC_BORLAND_stdcall = 0xb1
DW_CC_BORLAND_pascal = 0xb2
DW_CC_BORLAND_msfastcall = 0xb3
DW_CC_BORLAND_msreturn = 0xb4
DW_CC_BORLAND_thiscall = 0xb5
DW_CC_BORLAND_fastcall = 0xb6
DW_CC_LLVM_vectorcall = 0xc0
DW_CC_LLVM_Win64 = 0xc1
DW_CC_LLVM_X86_64SysV = 0xc2
DW_CC_LLVM_AAPCS = 0xc3
DW_CC_LLVM_AAPCS_VFP = 0xc4
DW_CC_LLVM_IntelOclBicc = 0xc5
DW_CC_LLVM_SpirFunction = 0xc6
DW_CC_LLVM_OpenCLKernel = 0xc7
DW_CC_LLVM_Swift = 0xc8
DW_CC_LLVM_PreserveMost = 0xc9
DW_CC_LLVM_PreserveAll = 0xca
DW_CC_LLVM_X86RegCall = 0xcb
CC = _codes("DW_CC_")
_CC_NAMES = _names(CC)


def cc_name(code):
    """The name of a code of DwCc, or where it has none "Unknown DwCc: 0x12"."""
    return _name("DwCc", _CC_NAMES, code)


# The code of whether a function is inlined (DWARF 5, 7.16, table 7.20).
DW_INL_not_inlined = 0x00
DW_INL_inlined = 0x01
DW_INL_declared_not_inlined = 0x02
DW_INL_declared_inlined = 0x03
INL = _codes("DW_INL_")
_INL_NAMES = _names(INL)


def inl_name(code):
    """The name of a code of DwInl, or where it has none "Unknown DwInl: 0x12"."""
    return _name("DwInl", _INL_NAMES, code)


# The code of the order of the elements of an array (DWARF 5, 7.17, table 7.21).
DW_ORD_row_major = 0x00
DW_ORD_col_major = 0x01
ORD = _codes("DW_ORD_")
_ORD_NAMES = _names(ORD)


def ord_name(code):
    """The name of a code of DwOrd, or where it has none "Unknown DwOrd: 0x12"."""
    return _name("DwOrd", _ORD_NAMES, code)
