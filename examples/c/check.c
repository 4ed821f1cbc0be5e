/// check FILE: the verdict on a file of any size, and the title of each work in it.
#include <cwr.h>
#include <stdio.h>
#include <stdlib.h>

/// All that a file has, and how much that is; NULL where it can't be read, or memory is refused.
static uint8_t *read_all(FILE *file, size_t *size) {
    size_t room = 1 << 16;
    uint8_t *text = malloc(room);
    for (*size = 0; text; room *= 2) {
        *size += fread(text + *size, 1, room - *size, file);
        uint8_t *more = *size < room ? NULL : realloc(text, 2 * room);
        if (*size < room && !ferror(file)) return text;
        if (!more) free(text);
        text = more;
    }
    return NULL;
}

int main(int argc, char **argv) {
    FILE *file = argc == 2 ? fopen(argv[1], "rb") : NULL;
    if (!file) return 2;
    size_t size;
    uint8_t *text = read_all(file, &size);
    if (!text) return 3;
    cwr_verdict verdict;
    size_t count = cwr_index(text, size, CWR_NO_LIMITS, &(cwr_line){0}, 0, &verdict);
    cwr_line *lines = calloc(count + 1, sizeof *lines);
    if (!lines) return 3;
    cwr_index(text, size, CWR_NO_LIMITS, lines, count, &verdict);
    for (cwr_line *it = lines; it < lines + count; it++)
        if (text[it->offset] == 'N' && text[it->offset + 1] == 'W' && text[it->offset + 2] == 'R')
            printf("work %u: %.*s\n", it->transaction, it->length < 79 ? (int)it->length - 19 : 60, text + it->offset + 19);
    printf("%s: %zu records\n", verdict.ending == CWR_GOOD ? "good" : "not good", count);
    return verdict.ending != CWR_GOOD;
}
