/* The bytes of a file, for the programs beside it; none where it can't be read, or has no size, as a
   pipe. */
#ifndef READ_FILE_H
#define READ_FILE_H
#include <stdint.h>
#include <stdio.h>
#include <stdlib.h>

static uint8_t *read_file(const char *name, size_t *length) {
    FILE *file = fopen(name, "rb");
    if (!file) return NULL;
    long size = fseek(file, 0, SEEK_END) ? -1 : ftell(file);
    uint8_t *bytes = size < 0 ? NULL : malloc((size_t)size + 1);
    *length = (size_t)size;
    rewind(file);
    if (bytes && fread(bytes, 1, *length, file) != *length) {
        free(bytes);
        bytes = NULL;
    }
    fclose(file);
    return bytes;
}

#endif
