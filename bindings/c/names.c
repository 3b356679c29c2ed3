/* names: prints the name of each code of a tag, an attribute, a form and a language, and those of the
   first codes of the other kinds. */
#include "gimli_constants.h"
#include <stdio.h>

static void print(const char *kind, const char *name_of(uint16_t)) {
    for (uint32_t code = 0; code <= UINT16_MAX; code++) printf("%s 0x%x %s\n", kind, code, name_of((uint16_t)code));
}

static void print_small(const char *kind, const char *name_of(uint8_t)) {
    for (uint32_t code = 0; code <= UINT8_MAX; code++) printf("%s 0x%x %s\n", kind, code, name_of((uint8_t)code));
}

int main(void) {
    print("tag", gimli_tag_name);
    print("at", gimli_at_name);
    print("form", gimli_form_name);
    print("lang", gimli_lang_name);
    print_small("ut", gimli_ut_name);
    print_small("rle", gimli_rle_name);
    print_small("lle", gimli_lle_name);
    print_small("ate", gimli_ate_name);
    print_small("ds", gimli_ds_name);
    print_small("end", gimli_end_name);
    print_small("access", gimli_access_name);
    print_small("vis", gimli_vis_name);
    print_small("virtuality", gimli_virtuality_name);
    print_small("id", gimli_id_name);
    print_small("cc", gimli_cc_name);
    print_small("inl", gimli_inl_name);
    print_small("ord", gimli_ord_name);
    printf("addr 0x0 %s\n", gimli_addr_name(0));
    printf("addr 0x1 %s\n", gimli_addr_name(1));
#ifndef GIMLI_NO_CODES
    return DW_TAG_subprogram != 0x2e || DW_AT_name != 0x03 || DW_LANG_hi_user != 0xffff;
#endif
}
