/* The memory of libneedlemauve.a, by the C library. A flight program puts a pool of its own in the place of these three. */
#include "memory.h"

#include <stdlib.h>

struct needlemauve_block rattle_alloc(size_t size, size_t alignment)
{
  return needlemauve_block_at(malloc(size > 0 ? size : alignment));
}

struct needlemauve_block rattle_realloc(void *at, size_t kept, size_t size, size_t alignment)
{
  (void)kept;
  return needlemauve_block_at(realloc(at, size > 0 ? size : alignment));
}

void rattle_dealloc(void *at)
{
  free(at);
}
