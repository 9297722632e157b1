/* The three functions by which libneedlemauve.a takes memory. memory.c implements them by the C library; a program may put its own
 * in their place.
 *
 * A block begins at a multiple of its alignment, which is a power of two up to 16; a block of no bytes is a block, too. If
 * there is no memory, `there` is false and `at` is any pointer but NULL. */
#ifndef NEEDLEMAUVE_MEMORY_H
#define NEEDLEMAUVE_MEMORY_H

#include <stdbool.h>
#include <stddef.h>

struct needlemauve_block {
  bool there;
  void *at;
};

/* Returns a new block of `size` bytes. */
struct needlemauve_block rattle_alloc(size_t size, size_t alignment);

/* Gives a block another size: its first `kept` bytes stay. It may move; if there is no memory it stays as it was. */
struct needlemauve_block rattle_realloc(void *at, size_t kept, size_t size, size_t alignment);

/* Gives a block back. */
void rattle_dealloc(void *at);

/* The block at a pointer; `there` is false if that is NULL. */
static inline struct needlemauve_block needlemauve_block_at(void *at)
{
  static long double nothing;
  struct needlemauve_block block;
  block.there = at != NULL;
  block.at = at != NULL ? at : (void *)&nothing;
  return block;
}

#endif
