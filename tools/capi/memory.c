/* Stands between the library and the C library's malloc, realloc and free, for tools/capi/differ: it counts the pieces of memory that a thread holds,
 * and refuses any further one when it is told to. It is linked with --wrap. */
#include <limits.h>
#include <stdlib.h>

void *__real_malloc(size_t size);
void *__real_realloc(void *piece, size_t size);
void __real_free(void *piece);

void *__wrap_malloc(size_t size);
void *__wrap_realloc(void *piece, size_t size);
void __wrap_free(void *piece);
void memory_allow(long pieces);
long memory_held(void);

static _Thread_local long allowed = LONG_MAX;
static _Thread_local long held = 0;

/* From now on so many pieces are handed out, and none is counted as held. */
void memory_allow(long pieces)
{
    allowed = pieces;
    held = 0;
}

long memory_held(void)
{
    return held;
}

static void *handed_out(void *piece)
{
    if (piece != NULL) {
        allowed--;
        held++;
    }
    return piece;
}

void *__wrap_malloc(size_t size)
{
    return allowed > 0 ? handed_out(__real_malloc(size)) : NULL;
}

void *__wrap_realloc(void *piece, size_t size)
{
    if (piece == NULL) {
        return __wrap_malloc(size);
    }
    return allowed > 0 ? __real_realloc(piece, size) : NULL;
}

void __wrap_free(void *piece)
{
    if (piece != NULL) {
        held--;
    }
    __real_free(piece);
}
