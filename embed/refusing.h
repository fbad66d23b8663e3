/* malloc, realloc and free that count the blocks which are held, and refuse one growth of memory: for the programs that try each in turn.
 * They are linked with -Wl,--wrap=malloc,--wrap=realloc,--wrap=free, which gives these in place of those of the C library. */
#include <stdlib.h>

void *__real_malloc(size_t size);
void *__real_realloc(void *at, size_t size);
void __real_free(void *at);
void *__wrap_malloc(size_t size);
void *__wrap_realloc(void *at, size_t size);
void __wrap_free(void *at);

static long held;          /* blocks */
static long growths;       /* so far */
static long refused = -1;  /* the growth that is refused */

static int is_refused(void) {
    return growths++ == refused;
}

void *__wrap_malloc(size_t size) {
    void *at = is_refused() ? NULL : __real_malloc(size);
    if (at != NULL) held++;
    return at;
}

void *__wrap_realloc(void *at, size_t size) {
    if (is_refused()) return NULL;
    if (at == NULL) held++;
    return __real_realloc(at, size);
}

void __wrap_free(void *at) {
    if (at != NULL) held--;
    __real_free(at);
}
