/* Memory by the C library, counted, for tests; it stands in the place of memory.c. One request can be refused. */
#ifndef NEEDLEMAUVE_COUNTED_H
#define NEEDLEMAUVE_COUNTED_H

#include "memory.h"

#include <stdlib.h>

/* How many requests there were, which one is refused (0: none), and how many blocks are out. */
static unsigned long requests, refused, blocks;

struct needlemauve_block rattle_alloc(size_t size, size_t alignment)
{
  requests += 1;
  if (requests == refused) return needlemauve_block_at(NULL);
  blocks += 1;
  return needlemauve_block_at(malloc(size > 0 ? size : alignment));
}

struct needlemauve_block rattle_realloc(void *at, size_t kept, size_t size, size_t alignment)
{
  (void)kept;
  requests += 1;
  if (requests == refused) return needlemauve_block_at(NULL);
  return needlemauve_block_at(realloc(at, size > 0 ? size : alignment));
}

void rattle_dealloc(void *at)
{
  blocks -= 1;
  free(at);
}

#endif
