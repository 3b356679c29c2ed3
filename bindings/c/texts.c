/* texts: prints what gimli_text says of each status, beside the names and numbers of
   rust/src/error.rs. The exit status says if one says something that it should not. */
#include "gimli.h"
#include <stdio.h>
#include <string.h>

static int is_unknown(uint32_t status) { return strcmp(gimli_text(status), "The status is unknown.") == 0; }

/* Whether statuses that are not answered have no text of their own, and all others have one. */
static int is_right(void) {
    for (uint32_t status = 0; status < 1024; status++) {
        int known = status <= GIMLI_NO_ADDRESS
            || (status >= GIMLI_REFUSED && status < 768 && GIMLI_ERROR(status) >= 1 && GIMLI_ERROR(status) <= GIMLI_OUT_OF_MEMORY);
        if (is_unknown(status) == known) return 0;
    }
    return is_unknown(UINT32_MAX);
}

int main(void) {
    printf("TooDeep %s\nNoList %s\n", gimli_text(GIMLI_TOO_DEEP), gimli_text(GIMLI_NO_LIST));
    printf("NoBase %s\nBadBase %s\n", gimli_text(GIMLI_NO_BASE), gimli_text(GIMLI_BAD_BASE));
    printf("NoString %s\nNoAddress %s\n", gimli_text(GIMLI_NO_STRING), gimli_text(GIMLI_NO_ADDRESS));
    printf("UnknownStatus %s\n", gimli_text(255));
    for (uint32_t number = 1; number <= 24; number++) {
        if (strcmp(gimli_text(GIMLI_REFUSED + number), gimli_text(GIMLI_ROW_REFUSED + number))) return 1;
        printf("%u %s\n", number, gimli_text(GIMLI_REFUSED + number));
    }
    return !is_right();
}
