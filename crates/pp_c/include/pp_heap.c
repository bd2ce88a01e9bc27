/* The heap that the library asks for, over malloc. libpp.a and libpp.so.1 have it, and ./install compiles it; a program that
 * links libpp_c.a compiles it itself, as C or C++. It is weak: another heap in the program takes its place. It is hidden: no
 * shared library exports it. */
#include <stdbool.h>
#include <stdint.h>
#include <stdlib.h>

#ifdef __cplusplus
extern "C" {
#endif

#define DEFAULT __attribute__((weak, visibility("hidden")))

typedef struct {
    bool ok;
    void *block;
} tried;

/* What is no block isn't null either. */
static tried answer(void *block) {
    static char nothing[16];
    tried it = {block != NULL, block ? block : nothing};
    return it;
}

/* An alignment is at most 16, and malloc keeps it. */
DEFAULT tried rattle_alloc(size_t size, size_t alignment) {
    return answer(malloc(size ? size : alignment));
}

DEFAULT tried rattle_realloc(void *block, size_t kept, size_t size, size_t alignment) {
    (void)kept;
    return answer(realloc(block, size ? size : alignment));
}

DEFAULT void rattle_dealloc(void *block) {
    free(block);
}

#ifdef __cplusplus
}
#endif
