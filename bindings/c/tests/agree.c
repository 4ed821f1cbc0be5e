/// agree FILE..: for each file its name and the line of the verdict, as `cwr check` prints it. All calls that tell a verdict must
/// tell the same one, each entry of the index must lie in the text, and a room that is too small must be written up to its end.
#include "cwr.h"
#include "files.h"
#include <string.h>

static const char *faults[] = {"", "blank", "control", "not digits", "not a date", "not a time", "over share", "not a code", "not constant"};
static const char *limits[] = {"", "records", "groups", "transaction"};

static void print(const char *name, const cwr_verdict *it) {
    printf("%s ", name);
    switch (it->ending) {
    case CWR_GOOD: printf("GOOD groups %u transactions %u records %u\n", it->groups, it->transactions, it->records); return;
    case CWR_TRUNCATED: printf("TRUNCATED records %u\n", it->records); return;
    case CWR_REFUSED: break;
    default: printf("ending %u\n", it->ending); return;
    }
    printf("REFUSED record %u field %u level %c ", it->records, it->field, it->level);
    switch (it->reason) {
    case CWR_UNKNOWN_KIND: printf("unknown kind\n"); break;
    case CWR_MISPLACED: printf("misplaced\n"); break;
    case CWR_CELL: printf("cell %s\n", faults[it->detail]); break;
    case CWR_NUMBER: printf("number expected %llu\n", (unsigned long long)it->expected); break;
    case CWR_LIMIT: printf("limit %s\n", limits[it->detail]); break;
    default: printf("excess\n"); break;
    }
}

static int stop(const char *name, const char *why) {
    printf("%s: %s\n", name, why);
    return 1;
}

static int check_index(const char *name, const uint8_t *text, size_t size, const cwr_verdict *verdict) {
    cwr_verdict told;
    cwr_line none;
    size_t count = cwr_index(text, size, CWR_NO_LIMITS, &none, 0, &told);
    size_t bytes = (count + 1) * sizeof(cwr_line);
    cwr_line *lines = malloc(bytes);
    memset(lines, 0xAA, bytes);
    if (cwr_index(text, size, CWR_NO_LIMITS, lines, count, &told) != count) return stop(name, "the index has another length");
    for (size_t i = 0; i < sizeof(cwr_line); i++)
        if (((uint8_t *)&lines[count])[i] != 0xAA) return stop(name, "an entry behind the room");
    size_t from = 0;
    for (size_t i = 0; i < count; i++) {
        if (lines[i].offset != from || lines[i].length < 3 || lines[i].offset + lines[i].length > size) return stop(name, "an entry lies elsewhere");
        from = lines[i].offset + lines[i].length;
        while (from < size && text[from] == '\r') from++;
        if (from < size && text[from] == '\n') from++;
    }
    if (verdict->ending == CWR_GOOD) {
        cwr_line *last = &lines[count - 1];
        if (told.ending || count != verdict->records || last->group != verdict->groups || last->transaction != verdict->transactions || told.used != from)
            return stop(name, "the index tells another end");
    } else if (memcmp(verdict, &told, sizeof told) || count + (verdict->ending == CWR_REFUSED) != verdict->records) {
        return stop(name, "the index tells another end");
    }
    free(lines);
    return 0;
}

static int check_findings(const char *name, const uint8_t *text, size_t size, const cwr_verdict *verdict) {
    cwr_verdict told;
    cwr_finding none;
    size_t count = cwr_findings(text, size, CWR_NO_LIMITS, &none, 0, &told);
    cwr_finding *all = calloc(count + 1, sizeof *all), *some = calloc(count + 1, sizeof *some);
    if (memcmp(verdict, &told, sizeof told)) return stop(name, "the findings tell another end");
    if (cwr_findings(text, size, CWR_NO_LIMITS, all, count, &told) != count) return stop(name, "other findings");
    for (size_t room = 0; room <= count; room++) {
        memset(some, 0, count * sizeof *some);
        if (cwr_findings(text, size, CWR_NO_LIMITS, some, room, &told) != count || memcmp(all, some, room * sizeof *all)) return stop(name, "other findings in less room");
        if (some[room].rule) return stop(name, "a finding behind the room");
    }
    for (size_t i = 0; i < count; i++)
        if (!all[i].record || !all[i].field || !all[i].rule || all[i].rule > 11 || !strchr("TRF", (int)all[i].level)) return stop(name, "a finding that can't be");
    free(all);
    free(some);
    return 0;
}

static int check_reports(const char *name, const uint8_t *text, size_t size, const cwr_verdict *verdict) {
    for (uint32_t what = CWR_REPORT_CHECK; what <= CWR_REPORT_EXPLAINED_LINT; what++) {
        cwr_verdict told;
        uint8_t few[16], none = 0;
        size_t count = cwr_report(what, text, size, CWR_NO_LIMITS, &none, 0, &none, 0, &told);
        if (memcmp(verdict, &told, sizeof told)) return stop(name, "a report tells another end");
        uint8_t *all = malloc(count + 1);
        all[count] = 0xAA;
        if (cwr_report(what, text, size, CWR_NO_LIMITS, &none, 0, all, count, &told) != count || all[count] != 0xAA) return stop(name, "another report");
        memset(few, 0xAA, sizeof few);
        size_t room = count < 15 ? count : 15;
        if (cwr_report(what, text, size, CWR_NO_LIMITS, &none, 0, few, room, &told) != count || memcmp(few, all, room) || few[room] != 0xAA) return stop(name, "another report in less room");
        free(all);
    }
    cwr_verdict told;
    uint8_t none = 0;
    if (cwr_report(7, text, size, CWR_NO_LIMITS, &none, 0, &none, 0, &told) || told.ending != CWR_BAD_LIMITS) return stop(name, "a report that isn't known");
    return 0;
}

static int check_limits(void) {
    cwr_verdict told;
    cwr_written written;
    cwr_line line;
    uint8_t none = 0;
    uint32_t wrong[][3] = {{4, 1, 1}, {5, 0, 1}, {5, 1, 0}, {100000000, 1, 1}, {5, 100000, 1}, {5, 1, 1000000}};
    for (size_t i = 0; i < sizeof wrong / sizeof *wrong; i++) {
        uint32_t *it = wrong[i];
        cwr_check(&none, 0, it[0], it[1], it[2], &told);
        int well = told.ending == CWR_BAD_LIMITS;
        well &= !cwr_index(&none, 0, it[0], it[1], it[2], &line, 1, &told) && told.ending == CWR_BAD_LIMITS;
        well &= !cwr_write(&none, 0, it[0], it[1], it[2], &none, 0, &written) && written.ending == CWR_WRITE_BAD_LIMITS;
        well &= !cwr_write_json(&none, 0, it[0], it[1], it[2], &none, 0, &written) && written.ending == CWR_WRITE_BAD_LIMITS;
        if (!well) return stop("limits", "out of range and taken");
    }
    return 0;
}

int main(int count, char **names) {
    if (cwr_interface() != CWR_INTERFACE || check_limits()) return 1;
    for (int i = 1; i < count; i++) {
        size_t size;
        uint8_t *text = read_file(names[i], &size);
        cwr_verdict verdict;
        memset(&verdict, 0xAA, sizeof verdict);
        cwr_check(text, size, CWR_NO_LIMITS, &verdict);
        if (check_index(names[i], text, size, &verdict) || check_findings(names[i], text, size, &verdict) || check_reports(names[i], text, size, &verdict)) return 1;
        print(names[i], &verdict);
        free(text);
    }
    return 0;
}
