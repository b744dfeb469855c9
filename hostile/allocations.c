/* malloc, realloc and free as the linker's --wrap has them: one allocation may be refused, and what is kept is counted. One of no bytes gives
 * null, which the C standard allows. They have a file of their own, since the C library's header promises that they change nothing of the file that
 * calls them. */
#include "allocations.h"
#include <stdlib.h>

void *__real_malloc(size_t size);
void *__real_realloc(void *block, size_t size);
void __real_free(void *block);
void *__wrap_malloc(size_t size);
void *__wrap_realloc(void *block, size_t size);
void __wrap_free(void *block);

long asked, refused, kept;
__thread int counts;

void *__wrap_malloc(size_t size)
{
    if (!counts)
        return __real_malloc(size);
    if (++asked == refused || size == 0)
        return NULL;
    void *block = __real_malloc(size);
    kept += block != NULL;
    return block;
}

void *__wrap_realloc(void *block, size_t size)
{
    if (!counts)
        return __real_realloc(block, size);
    if (++asked == refused)
        return NULL;
    int is_new = block == NULL;
    void *moved = __real_realloc(block, size);
    kept += is_new && moved != NULL;
    return moved;
}

void __wrap_free(void *block)
{
    if (counts)
        kept -= block != NULL;
    __real_free(block);
}
