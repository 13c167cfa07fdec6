/*
 * The heap of a library for aarch64. The toolchain has these three functions for x86-64 alone; what they do is what its
 * contracts of them say (libc::heap). An alignment is at most 16, which is that of malloc.
 */
typedef __SIZE_TYPE__ size_t;

extern void *malloc(size_t size);
extern void *realloc(void *block, size_t size);
extern void free(void *block);

/* Whether there is memory, and where; where there is none, the pointer is to a byte that nobody owns. */
struct tried {
    _Bool ok;
    void *block;
};

static char nothing;

static struct tried answer(void *block)
{
    return block ? (struct tried){1, block} : (struct tried){0, &nothing};
}

/* A block of no bytes takes some all the same. */
struct tried rattle_alloc(size_t size, size_t at_least)
{
    return answer(malloc(size ? size : at_least));
}

/* Of the block's bytes those that are kept are the first ones of both sizes, as realloc keeps them. */
struct tried rattle_realloc(void *block, size_t kept, size_t size, size_t at_least)
{
    (void)kept;
    return answer(realloc(block, size ? size : at_least));
}

void rattle_dealloc(void *block)
{
    free(block);
}
