/* The heap of another library that was built with the same kit: the three functions that its proved part calls, implemented
   with malloc. A request of size zero still gets a block. A refused request gets an address that is not null, because the proved
   part has no null pointers. */
#include <stdbool.h>
#include <stddef.h>
#include <stdlib.h>

/* Whether a block was allocated, and its address. */
typedef struct allocation {
    bool ok;
    void *p;
} allocation;

allocation rattle_alloc(size_t size, size_t align);
allocation rattle_realloc(void *old, size_t kept, size_t size, size_t align);
void rattle_dealloc(void *block);

static char no_block;

static allocation allocation_of(void *block)
{
    allocation result = {block != NULL, block != NULL ? block : &no_block};
    return result;
}

/* The alignment divides 16, and malloc returns blocks that are aligned to 16. */
allocation rattle_alloc(size_t size, size_t align)
{
    return allocation_of(malloc(size != 0 ? size : align));
}

allocation rattle_realloc(void *old, size_t kept, size_t size, size_t align)
{
    (void)kept;
    return allocation_of(realloc(old, size != 0 ? size : align));
}

void rattle_dealloc(void *block)
{
    free(block);
}
