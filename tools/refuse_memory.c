/// Memory that refuses one allocation of a program: preloaded, it stands before the C library's.
///
///     REFUSED=N MARK=FD LD_PRELOAD=.. PROGRAM ..
///
/// The Nth call of the program's own code for memory is answered with none, and a byte is then written to that descriptor. With AFTER
/// set each later call is, too. Calls of the C library and of the loader are neither counted nor refused: they come from elsewhere.
#include <link.h>
#include <stdint.h>
#include <stdlib.h>
#include <sys/auxv.h>
#include <unistd.h>

void *__libc_malloc(size_t size);
void *__libc_calloc(size_t count, size_t size);
void *__libc_realloc(void *old, size_t size);
void *__libc_memalign(size_t alignment, size_t size);

static uintptr_t first, last;
static unsigned long refused, asked;
static int mark, after;

static unsigned long number_of(const char *name) {
    const char *text = getenv(name);
    return text ? strtoul(text, NULL, 10) : 0;
}

/// Where the program's own code lies, and which call is refused.
__attribute__((constructor)) static void begin(void) {
    const ElfW(Phdr) *part = (const void *)getauxval(AT_PHDR);
    uintptr_t base = 0;
    for (unsigned long i = 0; i < getauxval(AT_PHNUM); i++) {
        if (part[i].p_type == PT_PHDR) base = (uintptr_t)part - part[i].p_vaddr;
        if (part[i].p_type == PT_LOAD && part[i].p_flags & PF_X) {
            first = base + part[i].p_vaddr;
            last = first + part[i].p_memsz;
        }
    }
    refused = number_of("REFUSED");
    mark = (int)number_of("MARK");
    after = getenv("AFTER") != NULL;
}

/// Whether a call from there is refused.
static int is_refused(const void *from) {
    if ((uintptr_t)from < first || (uintptr_t)from >= last) return 0;
    asked++;
    if (!refused || asked < refused || (asked > refused && !after)) return 0;
    if (asked == refused && write(mark, "", 1) != 1) abort();
    return 1;
}

#define FROM __builtin_return_address(0)

void *malloc(size_t size) {
    return is_refused(FROM) ? NULL : __libc_malloc(size);
}

void *calloc(size_t count, size_t size) {
    return is_refused(FROM) ? NULL : __libc_calloc(count, size);
}

void *realloc(void *old, size_t size) {
    return is_refused(FROM) ? NULL : __libc_realloc(old, size);
}

void *aligned_alloc(size_t alignment, size_t size) {
    return is_refused(FROM) ? NULL : __libc_memalign(alignment, size);
}

int posix_memalign(void **made, size_t alignment, size_t size) {
    if (is_refused(FROM)) return 12;
    *made = __libc_memalign(alignment, size);
    return *made ? 0 : 12;
}
