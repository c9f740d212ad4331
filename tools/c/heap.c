/* The functions that the library takes memory by, over malloc, for systems that have one. */
#include "edd.h"

#include <stdlib.h>

static unsigned char nothing;

static rattle_block answer(void *block)
{
    rattle_block it = { block != NULL, block ? block : &nothing };
    return it;
}

rattle_block rattle_alloc(size_t size, size_t alignment)
{
    (void)alignment; /* it divides 16, to which malloc aligns here */
    return answer(malloc(size ? size : 1));
}

rattle_block rattle_realloc(void *block, size_t kept, size_t size, size_t alignment)
{
    (void)kept;
    (void)alignment;
    return answer(realloc(block, size ? size : 1));
}

void rattle_dealloc(void *block) { free(block); }
