/// fuzz SEED COUNT FILE..: changed texts. All calls must tell the same end, and what is written of a text must be good, and the same
/// when it is written again.
#include "cwr.h"
#include "files.h"
#include <string.h>

static uint64_t state;

static size_t draw(size_t below) {
    state = state * 6364136223846793005u + 1442695040888963407u;
    return below ? (size_t)(state >> 33) % below : 0;
}

/// Changes a text, which has so many bytes; the answer is how many it has then.
static size_t change(uint8_t *text, size_t size) {
    for (size_t left = draw(3) + 1; left && size; left--) {
        size_t at = draw(size), cut = draw(40);
        if (cut > size - at) cut = size - at;
        switch (draw(4)) {
        case 0:
            memmove(text + at, text + at + cut, size - at - cut);
            size -= cut;
            break;
        case 1:
            if (!draw(4)) size = at;
            break;
        default: text[at] = (uint8_t)" 019AZ\r\n\0\377"[draw(10)]; break;
        }
    }
    return size;
}

int main(int count, char **words) {
    static uint8_t first[1 << 20], second[1 << 20];
    static cwr_line lines[1 << 14];
    static cwr_finding findings[1 << 10];
    if (count < 4) return 2;
    unsigned long endings[3] = {0}, written = 0;
    state = strtoull(words[1], NULL, 10);
    for (long left = strtol(words[2], NULL, 10), i = 0; i < left; i++) {
        size_t size, room = sizeof first;
        uint8_t *whole = read_file(words[3 + draw((size_t)count - 3)], &size);
        size = change(whole, size);
        uint8_t *text = malloc(size ? size : 1);
        memcpy(text, whole, size);
        free(whole);
        cwr_verdict one, two, three;
        cwr_check(text, size, CWR_NO_LIMITS, &one);
        size_t records = cwr_index(text, size, CWR_NO_LIMITS, lines, 1 << 14, &two);
        cwr_findings(text, size, CWR_NO_LIMITS, findings, 1 << 10, &three);
        int same = one.ending ? !memcmp(&one, &two, sizeof one) : !two.ending && records == one.records && lines[records - 1].group == one.groups && lines[records - 1].transaction == one.transactions;
        if (!same || memcmp(&one, &three, sizeof one)) {
            printf("the ends differ at %ld\n", i);
            return 1;
        }
        endings[one.ending]++;
        cwr_written told;
        size_t length = cwr_write(text, size, CWR_NO_LIMITS, first, room, &told);
        if (!told.ending) {
            written++;
            cwr_check(first, length, CWR_NO_LIMITS, &two);
            size_t again = cwr_write(first, length, CWR_NO_LIMITS, second, room, &told);
            if (two.ending || told.ending || again != length || memcmp(first, second, length)) {
                printf("written wrong at %ld\n", i);
                return 1;
            }
        } else if (!one.ending) {
            printf("good and not written at %ld\n", i);
            return 1;
        }
        cwr_write_json(text, size, CWR_NO_LIMITS, first, room, &told);
        if (!told.ending && size) {
            printf("taken as JSON at %ld\n", i);
            return 1;
        }
        free(text);
    }
    printf("good %lu refused %lu truncated %lu, written %lu\n", endings[0], endings[1], endings[2], written);
    return 0;
}
