/// speed FILE check|index TURNS: the least processor seconds of so many runs of cwr_check or cwr_index over the file, which is mapped.
#include "cwr.h"
#include <fcntl.h>
#include <stdio.h>
#include <stdlib.h>
#include <sys/mman.h>
#include <sys/stat.h>
#include <time.h>

static double now(void) {
    struct timespec it;
    clock_gettime(CLOCK_PROCESS_CPUTIME_ID, &it);
    return (double)it.tv_sec + (double)it.tv_nsec / 1e9;
}

int main(int count, char **words) {
    struct stat about;
    int file = count == 4 ? open(words[1], O_RDONLY) : -1;
    if (file < 0 || fstat(file, &about)) return 2;
    size_t size = (size_t)about.st_size, room = 0;
    const uint8_t *text = mmap(NULL, size, PROT_READ, MAP_PRIVATE | MAP_POPULATE, file, 0);
    if (text == MAP_FAILED) return 3;
    for (size_t i = 0; i < size; i++) room += text[i] == '\n';
    cwr_line *lines = calloc(room + 1, sizeof *lines);
    if (!lines) return 3;
    double least = 1e9;
    cwr_verdict verdict;
    for (long left = strtol(words[3], NULL, 10); left; left--) {
        double start = now();
        if (words[2][0] == 'c') cwr_check(text, size, CWR_NO_LIMITS, &verdict);
        else cwr_index(text, size, CWR_NO_LIMITS, lines, room + 1, &verdict);
        double took = now() - start;
        if (took < least) least = took;
    }
    printf("%f\n", least);
    return verdict.ending;
}
