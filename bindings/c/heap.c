/* The three functions over malloc, realloc and free that the verified core calls. The toolchain has
 * them for x86-64 alone; a library for another processor has these. A block of no bytes has `align`
 * of them, so that it has an address of its own. */
#include <stdbool.h>
#include <stddef.h>
#include <stdlib.h>

/* whether the block was found, and the block */
typedef struct tried {
    bool is_done;
    void *block;
} tried;

tried rattle_alloc(size_t bytes, size_t align);
tried rattle_realloc(void *block, size_t kept, size_t bytes, size_t align);
void rattle_dealloc(void *block);

static char nothing;

tried rattle_alloc(size_t bytes, size_t align) {
    void *block = malloc(bytes ? bytes : align);
    return (tried){block != NULL, block ? block : &nothing};
}

tried rattle_realloc(void *block, size_t kept, size_t bytes, size_t align) {
    (void)kept;
    void *moved = realloc(block, bytes ? bytes : align);
    return (tried){moved != NULL, moved ? moved : &nothing};
}

void rattle_dealloc(void *block) { free(block); }
