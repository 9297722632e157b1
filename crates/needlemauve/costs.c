/* What each call needs: the stack that it touches, on a stack that was filled before, and the memory that it has at once and asks
 * for in all. Prints a line a call. Needs ucontext.h, since a host stays in its thread, and stands in the place of memory.c. */
#define _GNU_SOURCE
#include "memory.h"
#include "needlemauve.h"

#include <stdio.h>
#include <stdlib.h>
#include <string.h>
#include <ucontext.h>

enum { STACK = 1 << 20, FILLED = 0xA5 };

static size_t held, kept, most, asked;

static struct needlemauve_block block_of(size_t *at, size_t size)
{
  if (at == NULL) return needlemauve_block_at(NULL);
  at[0] = size;
  held += size;
  asked += 1;
  if (held > most) most = held;
  return needlemauve_block_at(at + 2);
}

struct needlemauve_block rattle_alloc(size_t size, size_t alignment)
{
  (void)alignment;
  return block_of(malloc(size + 2 * sizeof(size_t)), size);
}

struct needlemauve_block rattle_realloc(void *at, size_t kept, size_t size, size_t alignment)
{
  size_t *old = (size_t *)at - 2;
  (void)kept;
  (void)alignment;
  held -= old[0];
  return block_of(realloc(old, size + 2 * sizeof(size_t)), size);
}

void rattle_dealloc(void *at)
{
  held -= ((size_t *)at)[-2];
  free((size_t *)at - 2);
}

static uint8_t wdt[NEEDLEMAUVE_WDT], adt[NEEDLEMAUVE_ADT], output[65536], *text;
static size_t length;
static const char schedule[] = "slots 1\n";
/* The Limit Checker is started with the tables of text 0. */
static uint8_t stream[147];

static void *nothing(void *result)
{
  return result;
}

static void *validate(void *result)
{
  struct needlemauve_verdict told;
  *(uint32_t *)result = needlemauve_validate(NEEDLEMAUVE_ACTIONPOINTS, adt, sizeof adt, &told);
  return result;
}

static void *compile(void *result)
{
  struct needlemauve_compiled told;
  *(uint32_t *)result = needlemauve_compile(text, length, wdt, adt, &told);
  return result;
}

static void *run(void *result)
{
  struct needlemauve_outcome told;
  *(uint32_t *)result = needlemauve_run(text, length, &length, 1, (const uint8_t *)schedule, sizeof schedule - 1, stream,
                                        sizeof stream, output, sizeof output, &told);
  return result;
}

static struct needlemauve_host host = NEEDLEMAUVE_NOTHING_YET;

static void *make(void *result)
{
  struct needlemauve_made told;
  *(uint32_t *)result = needlemauve_host_new(text, length, &length, 1, (const uint8_t *)schedule, sizeof schedule - 1,
                                             sizeof output, &host, &told);
  return result;
}

/* All records, one a call. */
static void *feed(void *result)
{
  struct needlemauve_handled told;
  size_t at = 0;
  do {
    *(uint32_t *)result = needlemauve_host_feed(&host, stream + at, sizeof stream - at, output, sizeof output, &told);
    at += (size_t)told.taken;
  } while (told.code == 0);
  if (told.code == NEEDLEMAUVE_MORE) *(uint32_t *)result = 0;
  return result;
}

static void *close_it(void *result)
{
  needlemauve_host_close(&host);
  *(uint32_t *)result = 0;
  return result;
}

static ucontext_t caller, callee;
static void *(*entered)(void *);
static uint32_t *answered;

static void enter(void)
{
  entered(answered);
}

/* Calls on a stack of its own, and returns how much of it was touched. */
static size_t stack_of(void *(*call)(void *), uint32_t *answer)
{
  static uint8_t *stack;
  size_t untouched = 0;
  if (stack == NULL && posix_memalign((void **)&stack, 4096, STACK) != 0) exit(99);
  memset(stack, FILLED, STACK);
  kept = held;
  most = held;
  asked = 0;
  entered = call;
  answered = answer;
  if (getcontext(&callee) != 0) exit(99);
  callee.uc_stack.ss_sp = stack;
  callee.uc_stack.ss_size = STACK;
  callee.uc_link = &caller;
  makecontext(&callee, enter, 0);
  if (swapcontext(&caller, &callee) != 0) exit(99);
  while (untouched < STACK && stack[untouched] == FILLED) untouched++;
  return STACK - untouched;
}

static void half(size_t at, const char *name, uint8_t table)
{
  const uint8_t header[11] = {4, 0, 0, 0, 100, 0, 0, 0, 0, 0, 43};
  memcpy(stream + at, header, sizeof header);
  memcpy(stream + at + sizeof header, name, strlen(name));
  stream[at + sizeof header + 40] = table;
}

int main(int words, char **word)
{
  static const uint8_t start[39] = {1, 0, 0, 0, 100, 0, 0, 0, 0, 0, 28, 0x18, 0x06, 0xC0, 0, 0, 21, 1, 0, 'L', 'C'};
  static const struct {
    const char *name;
    void *(*call)(void *);
  } calls[] = {{"compile", compile}, {"validate", validate}, {"run", run}, {"host_new", make}, {"host_feed", feed}, {"host_close", close_it}};
  size_t empty, touched, n;
  uint32_t answer = 0;
  FILE *file = words > 1 ? fopen(word[1], "rb") : NULL;
  if (file == NULL || (text = malloc(65536)) == NULL) return 1;
  length = fread(text, 1, 65536, file);
  half(0, "/cf/lc_def_wdt.tbl", 1);
  half(54, "/cf/lc_def_adt.tbl", 2);
  memcpy(stream + 108, start, sizeof start);
  empty = stack_of(nothing, &answer);
  for (n = 0; n < sizeof calls / sizeof calls[0]; n++) {
    touched = stack_of(calls[n].call, &answer);
    printf("%s: answer %u, stack %zu bytes, memory %zu bytes at once, asked for %zu times\n", calls[n].name, (unsigned)answer,
           touched - empty, most - kept, asked);
    if (answer != 0 || (host.at == NULL && held != 0)) return 2;
  }
  return fclose(file);
}
