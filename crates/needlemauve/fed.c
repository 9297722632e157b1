/* Feeds a stream of records to hosts, in pieces of several lengths, and counts the requests for memory of the calls that feed, and
 * the blocks that they give back: there are none, whichever applications leave. Then all that a host took is given back as it is
 * closed. Prints what came of it.
 *
 *     fed SCHEDULE STREAM RULES..
 *
 * cc -std=c99 -Iinclude crates/needlemauve/fed.c libneedlemauve.a */
#include "counted.h"
#include "needlemauve.h"

#include <stdio.h>
#include <string.h>

enum { MOST = 65536, TEXTS = 16 };

struct file {
  uint8_t bytes[MOST];
  size_t length;
};

static struct file schedule, stream, texts;
static size_t lengths[TEXTS], count;
static uint8_t output[MOST];

/* Appends a file to what was read. */
static int is_read(const char *name, struct file *to)
{
  FILE *file = fopen(name, "rb");
  size_t length;
  if (file == NULL) return 0;
  length = fread(to->bytes + to->length, 1, MOST - to->length, file);
  to->length += length;
  return fclose(file) == 0 && length > 0;
}

/* A host is fed the whole stream in pieces of this length, and closed: how many records it handled, or -1 where a call asked for
 * memory or gave some back, or where something is left. */
static long fed_in_pieces(size_t piece, size_t *written)
{
  struct needlemauve_host host = NEEDLEMAUVE_NOTHING_YET;
  struct needlemauve_made made;
  struct needlemauve_handled told;
  unsigned long before, out;
  size_t at = 0;
  long records = 0;
  if (needlemauve_host_new(texts.bytes, texts.length, lengths, count, schedule.bytes, schedule.length, MOST, &host, &made) != 0)
    return -1;
  before = requests;
  out = blocks;
  *written = 0;
  do {
    size_t left = stream.length - at;
    needlemauve_host_feed(&host, stream.bytes + at, left < piece ? left : piece, output, MOST, &told);
    records += told.code == 0;
    at += (size_t)told.taken;
    *written += (size_t)told.written;
  } while (told.code == 0 || (told.code == NEEDLEMAUVE_MORE && at < stream.length));
  if (requests != before || blocks != out || told.code != NEEDLEMAUVE_MORE) return -1;
  needlemauve_host_close(&host);
  return blocks == 0 ? records : -1;
}

int main(int words, char **word)
{
  static const size_t pieces[] = {1, 9, 1000, MOST};
  size_t n, written = 0, other = 0;
  long records = 0;
  if (words < 4 || words > TEXTS + 3 || !is_read(word[1], &schedule) || !is_read(word[2], &stream)) return 1;
  for (n = 3; n < (size_t)words; n++) {
    size_t before = texts.length;
    if (!is_read(word[n], &texts)) return 1;
    lengths[count++] = texts.length - before;
  }
  for (n = 0; n < sizeof pieces / sizeof pieces[0]; n++) {
    long handled = fed_in_pieces(pieces[n], &other);
    if (handled <= 0 || (n > 0 && (handled != records || other != written))) {
      printf("in pieces of %lu: %ld records, %lu bytes, %lu blocks are out\n", (unsigned long)pieces[n], handled,
             (unsigned long)other, blocks);
      return 1;
    }
    records = handled;
    written = other;
  }
  printf("%ld records, %lu bytes written; feeding asks for no memory\n", records, (unsigned long)written);
  return 0;
}
