/// reports FOLDER FILE..: writes into the folder, for each file, each report on it (`NAME.0` to `NAME.6`) and its canonical text, or how
/// writing ended (`NAME.written`), and the text again from its lines of JSON (`NAME.imported`).
#include "cwr.h"
#include "files.h"
#include <string.h>

static void put(const char *folder, const char *name, const char *what, const uint8_t *text, size_t size) {
    char path[1024];
    const char *base = strrchr(name, '/');
    snprintf(path, sizeof path, "%s/%s.%s", folder, base ? base + 1 : name, what);
    FILE *file = fopen(path, "wb");
    if (!file || fwrite(text, 1, size, file) != size || fclose(file)) exit(3);
}

static uint8_t *grown(uint8_t *room, size_t size) {
    room = realloc(room, size ? size : 1);
    if (!room) exit(3);
    return room;
}

int main(int count, char **words) {
    for (int i = 2; i < count; i++) {
        size_t size, length = 0;
        uint8_t *text = read_file(words[i], &size), *room = grown(NULL, 16), *json = NULL;
        cwr_verdict verdict;
        for (uint32_t what = 0; what < 7; what++) {
            const uint8_t *name = (const uint8_t *)words[i];
            size_t space = 16;
            while ((length = cwr_report(what, text, size, CWR_NO_LIMITS, name, strlen(words[i]), room, space, &verdict)) > space) room = grown(room, space = length);
            put(words[1], words[i], (char[]){(char)('0' + what), 0}, room, length);
            if (what == CWR_REPORT_JSON) {
                json = grown(NULL, length + 1);
                memcpy(json, room, length);
                json[length] = 0;
            }
            room = grown(room, 16);
        }
        char told_text[99];
        cwr_written told;
        size_t space = 16;
        while ((length = cwr_write(text, size, CWR_NO_LIMITS, room, space, &told)) > space) room = grown(room, space = length);
        int told_length = snprintf(told_text, sizeof told_text, "ending %u line %llu detail %u\n", told.ending, (unsigned long long)told.line, told.detail);
        put(words[1], words[i], "written", told.ending ? (uint8_t *)told_text : room, told.ending ? (size_t)told_length : length);
        while ((length = cwr_write_json(json, strlen((char *)json), CWR_NO_LIMITS, room, space, &told)) > space) room = grown(room, space = length);
        put(words[1], words[i], "imported", room, length);
        free(text);
        free(json);
        free(room);
    }
    return 0;
}
