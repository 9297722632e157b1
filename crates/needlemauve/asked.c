/* Asks a fed host for its figures and for a rule after each kind of record, and compares what it tells with what the records say:
 * before the Limit Checker runs, at each sample, after it stops, after a second one starts and is reloaded. Feeding and asking
 * take no memory and give none back. Prints what came of it; the status is the line of what is wrong, up to 255.
 *
 * cc -std=c99 -Iinclude crates/needlemauve/asked.c libneedlemauve.a libneedlemauve_board.a */
#include "counted.h"
#include "needlemauve.h"

#include <stdio.h>
#include <string.h>

/* Two texts, one after the other; the tables are those of the second one, which has two rules. */
#define FIELD "packet P = mid 0x0883 length 16; field V = P u16be at 12 stale 2; "
#define FIRST FIELD "rule HIGH active fails 1 sequence 9 event error 1009 \"high\" when V > 1;"
#define SECOND                                                                                  \
  FIELD "rule LOW active fails 2 sequence 7 event error 1001 \"low volts\" when V < 2400; "     \
        "rule ODD disabled fails 1 sequence 8 event error 1002 \"odd\" when V == 1;"
static const char texts[] = FIRST SECOND;
static const size_t lengths[2] = {sizeof FIRST - 1, sizeof SECOND - 1};
static const char schedule[] = "slots 1\n";

static const uint8_t low[16] = {0x08, 0x83, 0xC0, 0, 0, 9, 0, 0, 0, 0, 0, 0, 0x09, 0x5F, 0, 0};
static const uint8_t high[16] = {0x08, 0x83, 0xC0, 0, 0, 9, 0, 0, 0, 0, 0, 0, 0x09, 0x60, 0, 0};
static const uint8_t sample[16] = {0x18, 0xA6, 0xC0, 0, 0, 9, 0, 0x88, 0xFF, 0xFF, 0xFF, 0xFF, 0, 0, 0, 0};

static struct needlemauve_host host = NEEDLEMAUVE_NOTHING_YET;
static uint64_t records, written;
static uint8_t output[4096];

/* Feeds one record, whose header and body these are. */
static int feed(const uint8_t *header, const uint8_t *body, size_t length)
{
  uint8_t record[NEEDLEMAUVE_RECORD + 64];
  struct needlemauve_handled told;
  memcpy(record, header, NEEDLEMAUVE_RECORD);
  memcpy(record + NEEDLEMAUVE_RECORD, body, length);
  if (needlemauve_host_feed(&host, record, NEEDLEMAUVE_RECORD + length, output, sizeof output, &told) != 0) return 0;
  records += 1;
  written += told.written;
  return told.taken == NEEDLEMAUVE_RECORD + length;
}

static int packet(const uint8_t *bytes, size_t length)
{
  uint8_t header[NEEDLEMAUVE_RECORD];
  needlemauve_packet_record(header, 100, 0, length);
  return feed(header, bytes, length);
}

static int half(const char *name, uint8_t table)
{
  uint8_t header[NEEDLEMAUVE_RECORD], body[NEEDLEMAUVE_HALF] = {0};
  memcpy(body, name, strlen(name));
  body[NEEDLEMAUVE_NAME] = table;
  body[NEEDLEMAUVE_NAME + 2] = 1;
  needlemauve_half_record(header, 100, 0);
  return feed(header, body, sizeof body);
}

/* Starts (1), stops (2) or reloads (4) the Limit Checker. */
static int command(uint8_t code)
{
  uint8_t bytes[28] = {0x18, 0x06, 0xC0, 0, 0, 21, 0, 0, 'L', 'C'};
  bytes[6] = code;
  return packet(bytes, sizeof bytes);
}

static int volts(const uint8_t *bytes)
{
  return packet(bytes, 16) && packet(sample, sizeof sample);
}

/* The figures are those of the records so far, with this text, mode and number of rules. */
static int figures(uint64_t text, uint32_t mode, uint32_t rules)
{
  struct needlemauve_figures told;
  memset(&told, 0x55, sizeof told);
  return needlemauve_host_figures(&host, &told) == 0 && told.records == records && told.written == written && told.text == text &&
         told.mode == mode && told.rules == rules;
}

/* The rule stands so. */
static int stands(uint16_t rule, unsigned state, unsigned result, unsigned fails, unsigned quiet)
{
  struct needlemauve_rule told;
  memset(&told, 0x55, sizeof told);
  return needlemauve_host_rule(&host, rule, &told) == 0 && told.state == state && told.result == result && told.fails == fails &&
         told.quiet == quiet;
}

/* The question for a rule is refused with this code, and nothing is written. */
static int refuses(uint16_t rule, uint32_t code)
{
  struct needlemauve_rule told, before;
  memset(&told, 0x55, sizeof told);
  before = told;
  return needlemauve_host_rule(&host, rule, &told) == code && memcmp(&told, &before, sizeof told) == 0;
}

#define MUST(what)                                                       \
  do {                                                                   \
    if (!(what)) {                                                       \
      fprintf(stderr, "asked.c, line %d: not so: %s\n", __LINE__, #what); \
      return __LINE__ < 255 ? __LINE__ : 255;                            \
    }                                                                    \
  } while (0)

/* A host that holds nothing, and misuse, are refused by the header. */
static int misused(void)
{
  struct needlemauve_figures told;
  MUST(refuses(0, NEEDLEMAUVE_NO_HOST));
  MUST(needlemauve_host_figures(&host, &told) == NEEDLEMAUVE_NO_HOST);
  MUST(needlemauve_host_figures(NULL, &told) == NEEDLEMAUVE_NULL);
  MUST(needlemauve_host_figures(&host, NULL) == NEEDLEMAUVE_NULL);
  MUST(needlemauve_host_rule(NULL, 0, NULL) == NEEDLEMAUVE_NULL);
  return 0;
}

/* The first Limit Checker: the rule fails twice, requests its sequence, is passive from then on, and passes at last. */
static int checks(void)
{
  MUST(figures(NEEDLEMAUVE_NO_TEXT, 0, 0));
  MUST(refuses(0, NEEDLEMAUVE_NO_CHECKER));
  MUST(half("/cf/lc_def_wdt.tbl", NEEDLEMAUVE_WATCHPOINTS) && half("/cf/lc_def_adt.tbl", NEEDLEMAUVE_ACTIONPOINTS));
  MUST(figures(NEEDLEMAUVE_NO_TEXT, 0, 0) && written > 0);
  MUST(command(1) && figures(1, 1, 2));
  MUST(stands(0, 1, 0, 0, 0) && stands(1, 3, 0, 0, 0) && refuses(2, NEEDLEMAUVE_NO_RULE) && refuses(65535, NEEDLEMAUVE_NO_RULE));
  MUST(volts(low) && stands(0, 1, 2, 1, 0) && stands(1, 3, 0, 0, 0));
  MUST(volts(low) && stands(0, 2, 2, 2, 0));
  MUST(volts(low) && stands(0, 2, 2, 3, 1));
  MUST(packet(sample, sizeof sample) && stands(0, 2, 2, 4, 2));
  MUST(volts(high) && stands(0, 2, 1, 0, 2) && figures(1, 1, 2));
  return 0;
}

/* It stops; the next spare starts, and is reloaded. */
static int stops(void)
{
  MUST(command(2) && figures(NEEDLEMAUVE_NO_TEXT, 0, 0) && refuses(0, NEEDLEMAUVE_NO_CHECKER));
  MUST(command(1) && figures(1, 1, 2) && stands(0, 1, 0, 0, 0));
  MUST(volts(low) && stands(0, 1, 2, 1, 0));
  MUST(command(4) && figures(1, 1, 2) && stands(0, 1, 0, 0, 0));
  return 0;
}

int main(void)
{
  struct needlemauve_made made;
  unsigned long taken, out;
  int line;
  MUST(needlemauve_version() == NEEDLEMAUVE_VERSION_NUMBER);
  if ((line = misused()) != 0) return line;
  MUST(needlemauve_host_new((const uint8_t *)texts, sizeof texts - 1, lengths, 2, (const uint8_t *)schedule, sizeof schedule - 1,
                            sizeof output, &host, &made) == 0);
  taken = requests;
  out = blocks;
  if ((line = checks()) != 0 || (line = stops()) != 0) return line;
  MUST(requests == taken && blocks == out);
  needlemauve_host_close(&host);
  MUST(blocks == 0);
  if ((line = misused()) != 0) return line;
  printf("a fed host tells its rules and figures after %u records; feeding gives no memory back\n", (unsigned)records);
  return 0;
}
