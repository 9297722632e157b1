/* Compiles the low-volts rule, judges its two files, runs it over two samples with too low a voltage, and feeds the same records
 * to a host, one after the other: the Limit Checker asks for command sequence 7 at the second sample. Prints what came of each
 * call, and answers 0 where all is as it should be.
 *
 * cc -std=c99 -Iinclude crates/needlemauve/example.c crates/needlemauve/memory.c libneedlemauve.a libneedlemauve_board.a */
#include "needlemauve.h"

#include <stdio.h>
#include <string.h>

static const char rules[] =
    "packet P = mid 0x0883 length 16; "
    "field V = P u16be at 12 stale 2; "
    "rule LOW active fails 2 sequence 7 event error 1001 \"low volts\" when V < 2400;";
static const char refused[] = "packet P = mid 0x0883 length 16; field V = Q u16be at 12 stale 2;";
static const char schedule[] = "slots 1\n";

/* A telemetry packet with 2,399 in the field, the sample that the Limit Checker is to take, and its start by command. */
static const uint8_t low[16] = {0x08, 0x83, 0xC0, 0, 0, 9, 0, 0, 0, 0, 0, 0, 0x09, 0x5F, 0, 0};
static const uint8_t sample[16] = {0x18, 0xA6, 0xC0, 0, 0, 9, 0, 0x88, 0xFF, 0xFF, 0xFF, 0xFF, 0, 0, 0, 0};
static const uint8_t start[28] = {0x18, 0x06, 0xC0, 0, 0, 21, 1, 0, 'L', 'C'};

/* The sequence request: what the run is for. */
static const uint8_t request[12] = {0x18, 0xA9, 0xC0, 0x00, 0x00, 0x05, 0x04, 0x88, 0x00, 0x07, 0x00, 0x00};

static uint8_t wdt[NEEDLEMAUVE_WDT], adt[NEEDLEMAUVE_ADT];
static uint8_t stream[1024], output[2048];
static size_t stream_length;

/* The body of a record, whose header was written. */
static void follow(const uint8_t *body, size_t length)
{
  memcpy(stream + stream_length + NEEDLEMAUVE_RECORD, body, length);
  stream_length += NEEDLEMAUVE_RECORD + length;
}

/* A packet comes in second 100. */
static void packet(const uint8_t *bytes, size_t length)
{
  needlemauve_packet_record(stream + stream_length, 100, 0, length);
  follow(bytes, length);
}

/* The compiled file of text 0 is stored under a name, for one of the two tables. */
static void half(const char *name, uint8_t table)
{
  uint8_t body[NEEDLEMAUVE_HALF] = {0};
  memcpy(body, name, strlen(name));
  body[NEEDLEMAUVE_NAME] = table;
  needlemauve_half_record(stream + stream_length, 100, 0);
  follow(body, sizeof body);
}

static int compiles(void)
{
  struct needlemauve_compiled told;
  uint32_t code = needlemauve_compile((const uint8_t *)refused, strlen(refused), wdt, adt, &told);
  printf("refused: %u at %u: %s\n", (unsigned)code, (unsigned)told.refusal.at, told.sentence.bytes);
  if (code != 22 || told.refusal.of != NEEDLEMAUVE_BYTES || told.refusal.at != 43) return 0;
  code = needlemauve_compile((const uint8_t *)rules, strlen(rules), wdt, adt, &told);
  printf("compiled: %u watchpoints, %u rules\n", (unsigned)told.watchpoints, (unsigned)told.rules);
  return code == 0 && told.watchpoints == 1 && told.rules == 1 && told.sentence.length == 0;
}

static int judges(void)
{
  struct needlemauve_verdict told;
  if (needlemauve_validate(NEEDLEMAUVE_WATCHPOINTS, wdt, sizeof wdt, &told) != 0) return 0;
  if (needlemauve_validate(NEEDLEMAUVE_ACTIONPOINTS, adt, sizeof adt, &told) != 0) return 0;
  adt[203] = 1;
  needlemauve_validate(NEEDLEMAUVE_ACTIONPOINTS, adt, sizeof adt, &told);
  adt[203] = 0;
  printf("one word spoiled: fault %u in entry %u\n", (unsigned)told.code, (unsigned)told.entry);
  return told.code == 77 && told.entry == 0;
}

/* Where the one request stands in the packets that were sent, or 0. */
static size_t request_in(size_t written)
{
  size_t at = 0, found = 0;
  while (at + sizeof request <= written) {
    if (memcmp(output + at, request, 2) == 0) {
      if (found != 0 || memcmp(output + at, request, sizeof request) != 0) return 0;
      found = at;
    }
    at += (size_t)output[at + 4] * 256 + output[at + 5] + 7;
  }
  return found;
}

static int runs(void)
{
  const size_t lengths[1] = {sizeof rules - 1};
  struct needlemauve_outcome told;
  size_t at, n;
  int i;

  half("/cf/lc_def_wdt.tbl", NEEDLEMAUVE_WATCHPOINTS);
  half("/cf/lc_def_adt.tbl", NEEDLEMAUVE_ACTIONPOINTS);
  packet(start, sizeof start);
  for (i = 0; i < 2; i++) {
    packet(low, sizeof low);
    packet(sample, sizeof sample);
  }
  needlemauve_run((const uint8_t *)rules, sizeof rules - 1, lengths, 1, (const uint8_t *)schedule, sizeof schedule - 1, stream,
                  stream_length, output, sizeof output, &told);
  printf("run: %u, %u records, %u bytes\n", (unsigned)told.ending.code, (unsigned)told.ending.at, (unsigned)told.written);
  at = request_in((size_t)told.written);
  for (n = 0; at != 0 && n < sizeof request; n++) printf("%02x", output[at + n]);
  printf("\n");
  return told.ending.code == 0 && told.ending.at == 7 && told.written == 852 && at != 0;
}

/* The same records, fed in pieces of nine bytes to a host that goes on as long as its program does: what comes of them is what
 * came of the run. */
static int is_fed(size_t written)
{
  static uint8_t given[sizeof output];
  const size_t lengths[1] = {sizeof rules - 1};
  struct needlemauve_host host = NEEDLEMAUVE_NOTHING_YET;
  struct needlemauve_made made;
  struct needlemauve_handled told;
  size_t at = 0, sent = 0, records = 0, piece;

  if (needlemauve_host_new((const uint8_t *)rules, sizeof rules - 1, lengths, 1, (const uint8_t *)schedule, sizeof schedule - 1,
                           sizeof given / 2, &host, &made) != 0)
    return 0;
  do {
    piece = stream_length - at < 9 ? stream_length - at : 9;
    if (sizeof given - sent < sizeof given / 2) break;
    if (needlemauve_host_feed(&host, stream + at, piece, given + sent, sizeof given - sent, &told) == 0) records++;
    at += (size_t)told.taken;
    sent += (size_t)told.written;
  } while (told.code == 0 || (told.code == NEEDLEMAUVE_MORE && at < stream_length));
  needlemauve_host_close(&host);
  printf("fed: %u records, %u bytes\n", (unsigned)records, (unsigned)sent);
  return records == 7 && sent == written && memcmp(given, output, written) == 0 && host.at == NULL;
}

int main(void)
{
  if (!compiles()) return 1;
  if (!judges()) return 2;
  if (!runs()) return 3;
  if (!is_fed(852)) return 4;
  return 0;
}
