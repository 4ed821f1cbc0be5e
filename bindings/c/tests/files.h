/// A file's bytes, in a block of just their size, so that a read behind them is seen.
#ifndef FILES_H
#define FILES_H

#include <stdint.h>
#include <stdio.h>
#include <stdlib.h>

static uint8_t *read_file(const char *name, size_t *size) {
    FILE *file = fopen(name, "rb");
    if (!file || fseek(file, 0, SEEK_END)) {
        perror(name);
        exit(3);
    }
    *size = (size_t)ftell(file);
    rewind(file);
    uint8_t *text = malloc(*size ? *size : 1);
    if (!text || fread(text, 1, *size, file) != *size) {
        perror(name);
        exit(3);
    }
    fclose(file);
    return text;
}

#endif
