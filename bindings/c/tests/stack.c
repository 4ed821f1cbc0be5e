/// stack FILE..: each call over each file, in a thread with just the stack that cwr.h names. One that needs more stops the process.
#include "cwr.h"
#include "files.h"
#include <pthread.h>
#include <stdlib.h>

static uint8_t *text, room[1 << 22];
static size_t size;
static cwr_line lines[1 << 14];
static cwr_finding findings[1 << 10];
static uint64_t numbers[CWR_COLUMNS];

static void *small(void *none) {
    cwr_verdict verdict;
    cwr_field_place place;
    cwr_check(text, size, CWR_NO_LIMITS, &verdict);
    cwr_index(text, size, CWR_NO_LIMITS, lines, 1 << 14, &verdict);
    cwr_findings(text, size, CWR_NO_LIMITS, findings, 1 << 10, &verdict);
    cwr_summary(text, size, CWR_NO_LIMITS, numbers, CWR_COLUMNS, &verdict);
    for (uint32_t i = 0; cwr_kind(i, room, 3); i++) {
        cwr_blank(room, 3, room + 3, 1024);
        for (uint8_t j = 1; cwr_field(room, 3, j, &place, room + 3, 64); j++)
            for (uint32_t k = 0; cwr_code(room, 3, j, k, room + 3, 64); k++) {}
    }
    return none;
}

static void *writing(void *none) {
    cwr_written told;
    cwr_verdict verdict;
    cwr_place first = {1, 0};
    cwr_select(text, size, CWR_NO_LIMITS, &first, 1, room, sizeof room, &verdict);
    cwr_write(text, size, CWR_NO_LIMITS, room, sizeof room, &told);
    cwr_write_json(text, size, CWR_NO_LIMITS, room, sizeof room, &told);
    return none;
}

static void *reports(void *none) {
    cwr_verdict verdict;
    for (uint32_t what = CWR_REPORT_CHECK; what <= CWR_REPORT_EXPLAINED_LINT; what++) cwr_report(what, text, size, CWR_NO_LIMITS, room, 0, room, sizeof room, &verdict);
    return none;
}

static void run(void *(*calls)(void *), size_t stack) {
    pthread_attr_t how;
    pthread_t thread;
    // 16 KiB are the thread's own
    if (pthread_attr_init(&how) || pthread_attr_setstacksize(&how, stack + (16 << 10)) || pthread_create(&thread, &how, calls, NULL) || pthread_join(thread, NULL)) exit(3);
}

int main(int count, char **names) {
    for (int i = 1; i < count; i++) {
        text = read_file(names[i], &size);
        run(small, CWR_STACK);
        run(writing, CWR_STACK_OF_WRITING);
        run(reports, CWR_STACK_OF_REPORTS);
        free(text);
    }
    return 0;
}
