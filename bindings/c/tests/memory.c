/// memory FILE..: each call that takes memory, over each file, with each of its allocations refused in turn, alone and with all later ones: it
/// answers out of memory, or all that it answers with ample memory, and keeps no memory. Link with `-Wl,--wrap=malloc,--wrap=realloc,--wrap=free`.
///
/// Out of memory nothing is told, nothing is counted, and nothing is written; but cwr_findings may have put the first findings.
#include "cwr.h"
#include "files.h"
#include <string.h>

enum { CHECK, FINDINGS, SELECT, SUMMARY, REPORT, WRITE = REPORT + 7, WRITE_JSON, CALLS };

static const char *names[CALLS] = {"cwr_check", "cwr_findings", "cwr_select", "cwr_summary", "cwr_report 0", "cwr_report 1", "cwr_report 2", "cwr_report 3", "cwr_report 4", "cwr_report 5", "cwr_report 6", "cwr_write", "cwr_write_json"};

/// What a call answers: how many bytes or findings there are, how it ended, and the room with a few bytes behind it.
typedef struct {
    size_t count, space;
    cwr_verdict verdict;
    cwr_written written;
    uint8_t *room;
} answer;

#define BEHIND 64

/// The first transaction of each of two groups.
static const cwr_place places[] = {{2, 0}, {1, 0}};

static unsigned long asked, refused, kept, tried;
static int after, wrong;

void *__real_malloc(size_t size);
void *__real_realloc(void *old, size_t size);
void __real_free(void *old);

static int is_refused(void) {
    asked++;
    return refused && (asked == refused || (after && asked > refused));
}

void *__wrap_malloc(size_t size) {
    if (is_refused()) return NULL;
    kept++;
    return __real_malloc(size);
}

void *__wrap_realloc(void *old, size_t size) {
    if (is_refused()) return NULL;
    kept += !old;
    return __real_realloc(old, size);
}

void __wrap_free(void *old) {
    kept -= old != NULL;
    __real_free(old);
}

static void *room_of(size_t size) {
    void *room = malloc(size);
    if (!room) exit(3);
    return room;
}

/// Calls over a text, with that allocation refused.
static void call(int what, const uint8_t *text, size_t size, unsigned long number, answer *it) {
    memset(it->room, 0xAA, it->space + BEHIND);
    memset(&it->verdict, 0xAA, sizeof it->verdict);
    memset(&it->written, 0xAA, sizeof it->written);
    it->count = 0;
    asked = 0;
    refused = number;
    if (what == CHECK)
        cwr_check(text, size, CWR_NO_LIMITS, &it->verdict);
    else if (what == FINDINGS)
        it->count = cwr_findings(text, size, CWR_NO_LIMITS, (cwr_finding *)it->room, it->space / sizeof(cwr_finding), &it->verdict);
    else if (what == SELECT)
        it->count = cwr_select(text, size, CWR_NO_LIMITS, places, 2, it->room, it->space, &it->verdict);
    else if (what == SUMMARY)
        it->count = cwr_summary(text, size, CWR_NO_LIMITS, (uint64_t *)it->room, it->space / sizeof(uint64_t), &it->verdict);
    else if (what < WRITE)
        it->count = cwr_report((uint32_t)(what - REPORT), text, size, CWR_NO_LIMITS, (const uint8_t *)"it", 2, it->room, it->space, &it->verdict);
    else if (what == WRITE)
        it->count = cwr_write(text, size, CWR_NO_LIMITS, it->room, it->space, &it->written);
    else
        it->count = cwr_write_json(text, size, CWR_NO_LIMITS, it->room, it->space, &it->written);
    refused = 0;
}

/// Whether the room has the first bytes of that of the other answer, and nothing behind them.
static int has_first(const answer *it, size_t bytes, const answer *ample) {
    if (bytes > it->space || memcmp(it->room, ample->room, bytes)) return 0;
    for (size_t i = bytes; i < it->space + BEHIND; i++)
        if (it->room[i] != 0xAA) return 0;
    return 1;
}

static int is_as_with_ample(const answer *it, const answer *ample) {
    return it->count == ample->count && !memcmp(&it->verdict, &ample->verdict, sizeof it->verdict) && !memcmp(&it->written, &ample->written, sizeof it->written) &&
           !memcmp(it->room, ample->room, it->space + BEHIND);
}

static int is_out_of_memory(int what, const answer *it, const answer *ample) {
    cwr_verdict none = {.ending = CWR_NO_MEMORY};
    if (it->count) return 0;
    if (what >= WRITE) return it->written.ending == CWR_WRITE_NO_MEMORY && !it->written.detail && has_first(it, 0, ample);
    if (memcmp(&it->verdict, &none, sizeof none)) return 0;
    if (what != FINDINGS) return has_first(it, 0, ample);
    size_t put = 0;
    while (put < it->space && !memcmp(it->room + put, ample->room + put, sizeof(cwr_finding))) put += sizeof(cwr_finding);
    return has_first(it, put, ample);
}

/// Calls over a text with ample memory, and then with each allocation refused.
static void check(int what, const char *name, const uint8_t *text, size_t size) {
    answer ample = {.room = room_of(BEHIND)};
    call(what, text, size, 0, &ample);
    ample.space = ample.count * (what == FINDINGS ? sizeof(cwr_finding) : what == SUMMARY ? sizeof(uint64_t) : 1);
    free(ample.room);
    ample.room = room_of(ample.space + BEHIND);
    call(what, text, size, 0, &ample);
    answer told = {.space = ample.space, .room = room_of(ample.space + BEHIND)};
    unsigned long all = asked, before = kept;
    for (unsigned long i = 0; i < 2 * all; i++) {
        unsigned long number = i / 2 + 1;
        after = i % 2;
        call(what, text, size, number, &told);
        tried++;
        if (is_as_with_ample(&told, &ample) || is_out_of_memory(what, &told, &ample)) {
            if (kept == before) continue;
            printf("%s: %s keeps memory where allocation %lu of %lu is refused\n", name, names[what], number, all);
        } else {
            uint32_t ending = what < WRITE ? told.verdict.ending : told.written.ending;
            printf("%s: %s with allocation %lu of %lu refused: ending %u, count %zu of %zu\n", name, names[what], number, all, ending, told.count, ample.count);
        }
        wrong = 1;
        kept = before;
    }
    free(ample.room);
    free(told.room);
}

/// The same of the data of a text, whole, and with its last line begun wrongly.
static void check_json(const char *name, const uint8_t *text, size_t size) {
    answer data = {.room = room_of(BEHIND)};
    call(REPORT + CWR_REPORT_JSON, text, size, 0, &data);
    free(data.room);
    data.space = data.count;
    data.room = room_of(data.space + BEHIND);
    call(REPORT + CWR_REPORT_JSON, text, size, 0, &data);
    check(WRITE_JSON, name, data.room, data.count);
    size_t last = data.count;
    while (last > 1 && data.room[last - 2] != '\n') last--;
    if (last) data.room[last - 1] = 'x';
    check(WRITE_JSON, name, data.room, data.count);
    free(data.room);
}

int main(int count, char **files) {
    for (int i = 1; i < count; i++) {
        size_t size;
        uint8_t *text = read_file(files[i], &size);
        for (int what = CHECK; what < WRITE_JSON; what++) check(what, files[i], text, size);
        check_json(files[i], text, size);
        free(text);
    }
    printf("memory: %lu calls with an allocation refused\n", tried);
    return wrong;
}
