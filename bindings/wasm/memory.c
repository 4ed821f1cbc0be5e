/* The C library's functions over bytes that compiled code calls. */

typedef __SIZE_TYPE__ Size;

void *memcpy(void *to, const void *from, Size size) { return __builtin_memcpy(to, from, size); }

void *memmove(void *to, const void *from, Size size) { return __builtin_memmove(to, from, size); }

void *memset(void *to, int byte, Size size) { return __builtin_memset(to, byte, size); }

int memcmp(const void *left, const void *right, Size size) {
    const unsigned char *a = left, *b = right;
    for (Size i = 0; i < size; i++)
        if (a[i] != b[i]) return a[i] - b[i];
    return 0;
}

int bcmp(const void *left, const void *right, Size size) { return memcmp(left, right, size); }
