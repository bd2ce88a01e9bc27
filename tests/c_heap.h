/* The library's heap over malloc, of which one allocation can fail, and which counts what is held. For tests in C. */
#include <malloc.h>
#include <stdbool.h>
#include <stdint.h>
#include <stdlib.h>

typedef struct {
    bool ok;
    void *block;
} tried;

/* How many allocations were asked for, which of them fails, and how many bytes are held, and were at most. */
static uint64_t asked, failing, bytes_held, most_bytes_held;

static tried answer(void *block) {
    static char nothing[16];
    tried it = {block != NULL, block ? block : nothing};
    if (block) bytes_held += malloc_usable_size(block);
    if (bytes_held > most_bytes_held) most_bytes_held = bytes_held;
    return it;
}

static bool fails(void) {
    return ++asked == failing;
}

tried rattle_alloc(size_t size, size_t alignment) {
    return answer(fails() ? NULL : malloc(size ? size : alignment));
}

tried rattle_realloc(void *block, size_t kept, size_t size, size_t alignment) {
    (void)kept;
    if (fails()) return answer(NULL);
    uint64_t before = malloc_usable_size(block);
    void *moved = realloc(block, size ? size : alignment);
    if (moved) bytes_held -= before;
    return answer(moved);
}

void rattle_dealloc(void *block) {
    bytes_held -= malloc_usable_size(block);
    free(block);
}
