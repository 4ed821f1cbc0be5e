/// Runs PROGRAM with the words and the input that it is given, hands on what that prints, and its status, with another letter or digit in
/// the place of the last one: on standard output, or where nothing stands there, on standard error.
#include <ctype.h>
#include <poll.h>
#include <stdlib.h>
#include <sys/wait.h>
#include <unistd.h>

struct text {
    char *bytes;
    size_t length;
};

/// Reads more of a text; the answer is whether there was any.
static int more(int from, struct text *text) {
    text->bytes = realloc(text->bytes, text->length + 65536);
    if (!text->bytes) exit(2);
    ssize_t count = read(from, text->bytes + text->length, 65536);
    text->length += count > 0 ? (size_t)count : 0;
    return count > 0;
}

/// Puts the next letter or digit in the place of the last one.
static void change(struct text *text) {
    for (size_t at = text->length; at-- > 0;) {
        unsigned char byte = (unsigned char)text->bytes[at];
        if (isascii(byte) && isalnum(byte)) {
            text->bytes[at] = byte == '9' ? '0' : byte == 'z' ? 'a' : byte == 'Z' ? 'A' : (char)(byte + 1);
            return;
        }
    }
}

static void put(int to, const struct text *text) {
    for (size_t at = 0; at < text->length;) {
        ssize_t count = write(to, text->bytes + at, text->length - at);
        if (count <= 0) return;
        at += (size_t)count;
    }
}

int main(int count, char **words) {
    int out[2], error[2], status = 0;
    if (count < 1 || pipe(out) || pipe(error)) return 2;
    pid_t child = fork();
    if (child == 0) {
        dup2(out[1], 1);
        dup2(error[1], 2);
        close(out[0]), close(out[1]), close(error[0]), close(error[1]);
        execv(PROGRAM, words);
        _exit(127);
    }
    close(out[1]), close(error[1]);
    struct pollfd open[] = {{out[0], POLLIN, 0}, {error[0], POLLIN, 0}};
    struct text texts[2] = {{NULL, 0}, {NULL, 0}};
    while (open[0].fd >= 0 || open[1].fd >= 0) {
        poll(open, 2, -1);
        for (int i = 0; i < 2; i++)
            if (open[i].fd >= 0 && open[i].revents && !more(open[i].fd, &texts[i])) open[i].fd = -1;
    }
    waitpid(child, &status, 0);
    change(&texts[texts[0].length ? 0 : 1]);
    put(2, &texts[1]);
    put(1, &texts[0]);
    return WIFEXITED(status) ? WEXITSTATUS(status) : 1;
}
