/* The heap of the library in a browser: what a Global of Rattle calls, and memory for the page's texts. Free blocks are kept in lists by
   powers of two, over the module's own memory. */

typedef unsigned long long Size;
typedef __UINTPTR_TYPE__ Address;

/* Before each block stands which power of two it is of. */
typedef struct Block {
    union {
        struct Block *next;
        Size padding;
    };
    Size power;
} Block;

enum { PAGE = 65536, SMALLEST = 5, POWERS = 41 };

extern unsigned char __heap_base;

static Address end_of_blocks;
static Block *free_blocks[POWERS];
static unsigned char nothing[16]; /* what an answer points to that has no block */

/* A block behind all others, or 0 where the memory can't grow. */
static Block *new_block(Size size) {
    if (end_of_blocks == 0) end_of_blocks = ((Address)&__heap_base + 15) & ~(Address)15;
    Address start = end_of_blocks, end = start + size;
    Address have = (Address)__builtin_wasm_memory_size(0) * PAGE;
    if (end < start) return 0;
    if (end > have && __builtin_wasm_memory_grow(0, (end - have + PAGE - 1) / PAGE) == (Address)-1) return 0;
    end_of_blocks = end;
    return (Block *)start;
}

static void *take(Size size) {
    Size power = SMALLEST;
    while (power < POWERS && ((Size)1 << power) < size + sizeof(Block)) power++;
    if (power == POWERS) return 0;
    Block *block = free_blocks[power];
    if (block) free_blocks[power] = block->next;
    else if (!(block = new_block((Size)1 << power))) return 0;
    block->power = power;
    return block + 1;
}

static void give_back(void *bytes) {
    Block *block = (Block *)bytes - 1;
    block->next = free_blocks[block->power];
    free_blocks[block->power] = block;
}

/* Whether there was memory, and where it is. */
typedef struct Answer {
    Size ok, at;
} Answer;

Answer rattle_alloc(Size size, Size alignment) {
    (void)alignment;
    void *bytes = take(size);
    return (Answer){bytes != 0, (Address)(bytes ? bytes : nothing)};
}

Answer rattle_realloc(void *old, Size kept, Size size, Size alignment) {
    (void)alignment;
    Block *block = (Block *)old - 1;
    if (size + sizeof(Block) <= ((Size)1 << block->power)) return (Answer){1, (Address)old};
    void *bytes = take(size);
    if (!bytes) return (Answer){0, (Address)nothing};
    __builtin_memcpy(bytes, old, kept < size ? kept : size);
    give_back(old);
    return (Answer){1, (Address)bytes};
}

void rattle_dealloc(void *bytes) { give_back(bytes); }

__attribute__((export_name("cwr_alloc"))) void *cwr_alloc(Size size) { return take(size); }

__attribute__((export_name("cwr_free"))) void cwr_free(void *bytes) { give_back(bytes); }
