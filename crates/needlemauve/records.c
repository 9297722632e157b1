/* Writes the header of each kind of record by the header's helpers, and compares it with the bytes that the formats say. Answers 0
 * where all are as they should be, else the number of the line at fault. It is C and C++, and calls no archive.
 *
 * cc -std=c11 -Iinclude crates/needlemauve/records.c */
#include "needlemauve.h"

#include <string.h>

/* What the helpers write to: a header, and a byte behind it that stays. */
static uint8_t header[NEEDLEMAUVE_RECORD + 1];

static const uint8_t packet[NEEDLEMAUVE_RECORD] = {1, 0x01, 0x02, 0x03, 0x04, 0xFE, 0xDC, 0x00, 0x01, 0x00, 0x00};
static const uint8_t tick[NEEDLEMAUVE_RECORD] = {2, 0xFF, 0xFF, 0xFF, 0xFF, 0xFF, 0xFF, 0x00, 0x00, 0x00, 0x00};
static const uint8_t file[NEEDLEMAUVE_RECORD] = {3, 0x00, 0x00, 0x00, 0x64, 0x80, 0x00, 0x00, 0x00, 0x4C, 0x64};
static const uint8_t most[NEEDLEMAUVE_RECORD] = {3, 0x00, 0x00, 0x00, 0x64, 0x80, 0x00, 0x00, 0x01, 0x00, 0x00};
static const uint8_t half[NEEDLEMAUVE_RECORD] = {4, 0x00, 0x00, 0x00, 0x00, 0x00, 0x01, 0x00, 0x00, 0x00, 0x2B};

/* Whether a helper returned this code, and the header is this one. */
static int is(uint32_t code, uint32_t wanted, const uint8_t *bytes)
{
  return code == wanted && memcmp(header, bytes, NEEDLEMAUVE_RECORD) == 0 && header[NEEDLEMAUVE_RECORD] == 0xA5;
}

static int is_refused(void)
{
  if (!is(needlemauve_packet_record(header, 0, 0, 65537), NEEDLEMAUVE_TOO_LONG, half)) return __LINE__;
  if (!is(needlemauve_packet_record(header, 0, 0, (size_t)-1), NEEDLEMAUVE_TOO_LONG, half)) return __LINE__;
  if (!is(needlemauve_file_record(header, 0, 0, 65497), NEEDLEMAUVE_TOO_LONG, half)) return __LINE__;
  if (!is(needlemauve_file_record(header, 0, 0, (size_t)-1), NEEDLEMAUVE_TOO_LONG, half)) return __LINE__;
  if (needlemauve_packet_record(NULL, 0, 0, 12) != NEEDLEMAUVE_NULL) return __LINE__;
  if (needlemauve_tick_record(NULL, 0, 0) != NEEDLEMAUVE_NULL) return __LINE__;
  if (needlemauve_file_record(NULL, 0, 0, 12) != NEEDLEMAUVE_NULL) return __LINE__;
  if (needlemauve_half_record(NULL, 0, 0) != NEEDLEMAUVE_NULL) return __LINE__;
  return 0;
}

int main(void)
{
  header[NEEDLEMAUVE_RECORD] = 0xA5;
  if (!is(needlemauve_packet_record(header, 0x01020304, 0xFEDC, 65536), 0, packet)) return __LINE__;
  if (!is(needlemauve_tick_record(header, 0xFFFFFFFF, 0xFFFF), 0, tick)) return __LINE__;
  if (!is(needlemauve_file_record(header, 100, 0x8000, NEEDLEMAUVE_ADT), 0, file)) return __LINE__;
  if (!is(needlemauve_file_record(header, 100, 0x8000, 65496), 0, most)) return __LINE__;
  if (!is(needlemauve_half_record(header, 0, 1), 0, half)) return __LINE__;
  return is_refused();
}
