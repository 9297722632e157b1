/* Hands the library spoiled files, texts, schedules, lengths and streams, so many as the first word says, and NULL and lengths
 * that no object has. Each answer has to be one that there is, and what may not be written has to be as it was. Everything
 * lies in a block of its own size, so that valgrind sees a byte too many. Ends with the number of the first check that fails,
 * or 0. */
#include "needlemauve.h"

#include <stdio.h>
#include <stdlib.h>
#include <string.h>

#define FILLED 0xA5
#define CHECK(number, holds) \
  do {                       \
    if (!(holds)) {          \
      printf("check %d, input %lu\n", number, input); \
      exit(number);          \
    }                        \
  } while (0)

static const char rules[] =
    "packet P = mid 0x0883 length 16; field V = P u16be at 12 stale 2; "
    "rule LOW active fails 2 sequence 7 event error 1001 \"low volts\" when V < 2400 or V > 3000 and not V == 5;";
static const char schedule[] = "slots 2\n0 sample 0 0 age\n1 housekeeping\n";
static const uint8_t start[28] = {0x18, 0x06, 0xC0, 0, 0, 21, 1, 0, 'L', 'C'};
static const uint8_t low[16] = {0x08, 0x83, 0xC0, 0, 0, 9, 0, 0, 0, 0, 0, 0, 0x09, 0x5F, 0, 0};
static const uint8_t sample[16] = {0x18, 0xA6, 0xC0, 0, 0, 9, 0, 0x88, 0xFF, 0xFF, 0xFF, 0xFF, 0, 0, 0, 0};

static unsigned long input, answered[256];
static uint8_t *wdt, *adt;
static uint8_t stream[1024];
static size_t stream_length;
static uint64_t seed = 88172645463325252u;

static uint32_t number_below(uint32_t most)
{
  seed ^= seed << 13;
  seed ^= seed >> 7;
  seed ^= seed << 17;
  return (uint32_t)(seed >> 24) % most;
}

/* A block of its own with these bytes, some of them spoiled, or cut. */
static uint8_t *spoiled(const void *bytes, size_t *length, uint32_t in)
{
  uint32_t times = in > 0 ? number_below(in) : 0;
  size_t kept = number_below(8) == 0 ? number_below((uint32_t)*length + 1) : *length;
  uint8_t *made = malloc(kept > 0 ? kept : 1);
  if (made == NULL) exit(99);
  memcpy(made, bytes, kept);
  for (*length = kept; times > 0 && kept > 0; times--)
    made[number_below((uint32_t)kept)] ^= (uint8_t)(1u << number_below(8));
  return made;
}

static uint8_t *filled(size_t length)
{
  uint8_t *made = malloc(length > 0 ? length : 1);
  if (made == NULL) exit(99);
  memset(made, FILLED, length);
  return made;
}

static int is_filled(const uint8_t *bytes, size_t length)
{
  while (length > 0)
    if (bytes[--length] != FILLED) return 0;
  return 1;
}

static int is_sentence(const struct needlemauve_sentence *sentence)
{
  return sentence->length < sizeof sentence->bytes && strlen(sentence->bytes) == sentence->length;
}

static int is_refusal_of_text(uint32_t code)
{
  return (code >= 1 && code <= 5) || code == 11 || code == 12 || (code >= 21 && code <= 29) || code == 31 || code == 41 ||
         code == 42;
}

static void spoil_file(void)
{
  uint32_t kind = 1 + number_below(2), code;
  size_t length = kind == 1 ? NEEDLEMAUVE_WDT : NEEDLEMAUVE_ADT;
  struct needlemauve_verdict told = {7, 7};
  uint8_t *file = spoiled(kind == 1 ? wdt : adt, &length, 4);
  code = needlemauve_validate(number_below(50) == 0 ? 0 : kind, file, length, &told);
  CHECK(11, code == told.code);
  CHECK(12, code == 0 || (code >= 51 && code <= 56) || (code >= 61 && code <= 81) || code == NEEDLEMAUVE_NO_TABLE);
  CHECK(13, told.entry < 176 || told.entry == 65535u);
  CHECK(14, code >= 61 || told.entry == 65535u);
  answered[code] += 1;
  free(file);
}

static void spoil_text(void)
{
  size_t length = sizeof rules - 1;
  uint8_t *text = spoiled(rules, &length, 3), *first = filled(NEEDLEMAUVE_WDT), *second = filled(NEEDLEMAUVE_ADT);
  struct needlemauve_compiled told;
  struct needlemauve_verdict verdict;
  uint32_t code = needlemauve_compile(text, length, first, second, &told);
  CHECK(21, code == told.refusal.code && is_sentence(&told.sentence));
  if (code == 0) {
    CHECK(22, needlemauve_validate(NEEDLEMAUVE_WATCHPOINTS, first, NEEDLEMAUVE_WDT, &verdict) == 0);
    CHECK(23, needlemauve_validate(NEEDLEMAUVE_ACTIONPOINTS, second, NEEDLEMAUVE_ADT, &verdict) == 0);
    CHECK(24, told.sentence.length == 0);
  } else {
    CHECK(25, is_refusal_of_text(code) && told.sentence.length > 0);
    CHECK(26, is_filled(first, NEEDLEMAUVE_WDT) && is_filled(second, NEEDLEMAUVE_ADT));
    CHECK(27, told.refusal.of != NEEDLEMAUVE_BYTES || told.refusal.at <= length);
    CHECK(28, told.watchpoints == 0 && told.rules == 0);
  }
  answered[code] += 1;
  free(text);
  free(first);
  free(second);
}

static void spoil_run(void)
{
  size_t size = sizeof rules - 1, plan_length = sizeof schedule - 1, records_length = stream_length;
  size_t room = number_below(3) == 0 ? number_below(1024) : 2048, *lengths = malloc(2 * sizeof *lengths);
  uint8_t *texts = spoiled(rules, &size, number_below(4)), *plan = spoiled(schedule, &plan_length, number_below(3));
  uint8_t *records = spoiled(stream, &records_length, 6), *output = filled(room + 8);
  struct needlemauve_outcome told;
  uint32_t code;
  if (lengths == NULL) exit(99);
  lengths[0] = number_below(6) == 0 ? number_below((uint32_t)size + 1) : size;
  lengths[1] = number_below(6) == 0 ? number_below(9) : size - lengths[0];
  code = needlemauve_run(texts, size, lengths, 2, plan, plan_length, records, records_length, output, room, &told);
  CHECK(31, code == told.ending.code && is_sentence(&told.sentence));
  CHECK(32, told.written <= room && is_filled(output + told.written, room + 8 - (size_t)told.written));
  CHECK(33, (told.ending.of == NEEDLEMAUVE_NOT_RUN) == ((code >= 131 && code <= 133) || code == NEEDLEMAUVE_LENGTHS));
  CHECK(34, (lengths[0] + lengths[1] == size) == (code != NEEDLEMAUVE_LENGTHS));
  CHECK(35, is_refusal_of_text(code) || code == 0 || (code >= 131 && code <= 133) || code == 141 || code == 142 ||
                code == 144 || code == NEEDLEMAUVE_LENGTHS);
  CHECK(36, told.written == 0 || code == 0 || code >= 141);
  CHECK(37, (code == 0) == (told.sentence.length == 0));
  answered[code] += 1;
  free(texts);
  free(lengths);
  free(plan);
  free(records);
  free(output);
}

/* A host that met what is no record takes and handles nothing any more, whatever comes. */
static void feed_after_no_record(struct needlemauve_host *host, size_t room)
{
  uint8_t *output = filled(room + 8);
  struct needlemauve_figures before, after;
  struct needlemauve_handled told;
  int n;
  needlemauve_host_figures(host, &before);
  for (n = 0; n < 3; n++) {
    CHECK(69, needlemauve_host_feed(host, stream, n > 0 ? stream_length : 0, output, room, &told) == 141 && told.code == 141);
    CHECK(70, told.taken == 0 && told.written == 0 && is_filled(output, room + 8));
  }
  needlemauve_host_figures(host, &after);
  CHECK(77, after.records == before.records && after.written == before.written);
  free(output);
}

/* A host is made of spoiled texts, and where it is made it is fed with spoiled records in pieces of any length, into an output
 * that is now and then too small. */
static void spoil_host(void)
{
  size_t size = sizeof rules - 1, plan_length = sizeof schedule - 1, records_length = stream_length, at = 0, n;
  size_t room = number_below(3) == 0 ? number_below(512) : 2048;
  uint8_t *texts = spoiled(rules, &size, number_below(3)), *plan = spoiled(schedule, &plan_length, number_below(2));
  uint8_t *records = spoiled(stream, &records_length, 4), *output;
  struct needlemauve_host host = NEEDLEMAUVE_NOTHING_YET;
  struct needlemauve_made made;
  struct needlemauve_handled told;
  uint32_t code = needlemauve_host_new(texts, size, &size, 1, plan, plan_length, room, &host, &made);
  CHECK(61, code == made.refusal.code && is_sentence(&made.sentence) && (code == 0) == (host.at != NULL));
  CHECK(62, code == 0 || is_refusal_of_text(code) || (code >= 131 && code <= 133));
  CHECK(78, code != 0 || (made.refusal.of == NEEDLEMAUVE_NOTHING && made.refusal.at == 0 && made.refusal.text == 0));
  CHECK(63, code != 0 || needlemauve_host_new(texts, size, &size, 1, plan, plan_length, room, &host, &made) ==
                             NEEDLEMAUVE_HAS_HOST);
  CHECK(60, code != 0 || (strcmp(made.sentence.bytes, "the handle holds a host already") == 0 && is_sentence(&made.sentence)));
  answered[code] += 1;
  for (n = 0; code == 0 && n < 200; n++) {
    size_t piece = number_below((uint32_t)(records_length - at) + 1);
    size_t given = number_below(20) == 0 ? number_below((uint32_t)room + 1) : room;
    output = filled(given + 8);
    needlemauve_host_feed(&host, records + at, piece, output, given, &told);
    CHECK(64, (told.code == NEEDLEMAUVE_SMALL) == (given < room));
    CHECK(65, told.taken <= piece && told.written <= given && is_filled(output + told.written, given + 8 - (size_t)told.written));
    CHECK(66, told.code == 0 || told.code == 141 || told.code == 144 || told.code == NEEDLEMAUVE_SMALL ||
                  told.code == NEEDLEMAUVE_MORE);
    CHECK(67, told.code == 0 || told.code == 144 || told.written == 0);
    answered[told.code] += 1;
    at += (size_t)told.taken;
    free(output);
    if (told.code == 141) feed_after_no_record(&host, room);
    if (told.code == 141 || (told.code == NEEDLEMAUVE_MORE && at == records_length)) break;
  }
  needlemauve_host_close(&host);
  CHECK(68, host.at == NULL && needlemauve_host_feed(&host, records, 0, NULL, 0, &told) == NEEDLEMAUVE_NO_HOST);
  free(texts);
  free(plan);
  free(records);
}

static void record(uint8_t kind, const uint8_t *body, uint8_t length)
{
  const uint8_t header[11] = {kind, 0, 0, 0, 100, 0, 0, 0, 0, 0, length};
  memcpy(stream + stream_length, header, sizeof header);
  memcpy(stream + stream_length + sizeof header, body, length);
  stream_length += sizeof header + length;
}

static void begin(void)
{
  uint8_t half[43] = "/cf/lc_def_wdt.tbl";
  struct needlemauve_compiled told;
  wdt = filled(NEEDLEMAUVE_WDT);
  adt = filled(NEEDLEMAUVE_ADT);
  CHECK(1, needlemauve_compile((const uint8_t *)rules, sizeof rules - 1, wdt, adt, &told) == 0);
  half[40] = 1;
  record(4, half, sizeof half);
  memcpy(half, "/cf/lc_def_adt.tbl", 18);
  half[40] = 2;
  record(4, half, sizeof half);
  record(1, start, sizeof start);
  record(1, low, sizeof low);
  record(1, sample, sizeof sample);
  record(2, start, 0);
}

/* The same of a host that was made: it stays as it was, and handles what comes next. */
static void misuse_of_a_host(const uint8_t *text, size_t size, const uint8_t *plan)
{
  struct needlemauve_host host = NEEDLEMAUVE_NOTHING_YET;
  struct needlemauve_made made;
  struct needlemauve_handled told;
  struct needlemauve_figures figures;
  uint8_t *output = filled(2048);
  CHECK(101, needlemauve_host_new(text, size, &size, 1, plan, sizeof schedule - 1, 2048, &host, &made) == 0);
  CHECK(102, needlemauve_host_feed(&host, NULL, 1, output, 2048, &told) == NEEDLEMAUVE_NULL && told.code == NEEDLEMAUVE_NULL);
  CHECK(103, needlemauve_host_feed(&host, stream, 1, NULL, 2048, &told) == NEEDLEMAUVE_NULL);
  CHECK(104, needlemauve_host_feed(&host, stream, SIZE_MAX, output, 2048, &told) == NEEDLEMAUVE_TOO_LONG);
  CHECK(105, needlemauve_host_feed(&host, stream, 1, output, SIZE_MAX, &told) == NEEDLEMAUVE_TOO_LONG);
  CHECK(106, told.taken == 0 && told.written == 0 && is_filled(output, 2048));
  CHECK(107, needlemauve_host_rule(&host, 0, NULL) == NEEDLEMAUVE_NULL && needlemauve_host_figures(&host, NULL) == NEEDLEMAUVE_NULL);
  CHECK(108, needlemauve_host_feed(&host, NULL, 0, output, 2048, &told) == NEEDLEMAUVE_MORE && told.written == 0);
  CHECK(109, needlemauve_host_feed(&host, stream, stream_length, output, 2048, &told) == 0 && told.written > 0);
  CHECK(110, needlemauve_host_figures(&host, &figures) == 0 && figures.records == 1 && figures.written == told.written);
  needlemauve_host_close(&host);
  CHECK(111, host.at == NULL && needlemauve_host_figures(&host, &figures) == NEEDLEMAUVE_NO_HOST);
  free(output);
}

/* A record of an unknown kind comes between good ones, in one piece with them: the record before it is handled, and none after it. */
static void no_record(const uint8_t *text, size_t size, const uint8_t *plan)
{
  static const uint8_t none[NEEDLEMAUVE_RECORD] = {9};
  const size_t first = NEEDLEMAUVE_RECORD + NEEDLEMAUVE_HALF, length = stream_length + sizeof none;
  struct needlemauve_host host = NEEDLEMAUVE_NOTHING_YET;
  struct needlemauve_made made;
  struct needlemauve_handled told;
  struct needlemauve_figures figures;
  uint8_t *output = filled(2048), *records = filled(length);
  memcpy(records, stream, first);
  memcpy(records + first, none, sizeof none);
  memcpy(records + first + sizeof none, stream + first, stream_length - first);
  CHECK(112, needlemauve_host_new(text, size, &size, 1, plan, sizeof schedule - 1, 2048, &host, &made) == 0);
  CHECK(113, needlemauve_host_feed(&host, records, length, output, 2048, &told) == 0 && told.taken == length);
  CHECK(114, needlemauve_host_feed(&host, NULL, 0, output, 2048, &told) == 141 && told.written == 0);
  feed_after_no_record(&host, 2048);
  CHECK(115, needlemauve_host_figures(&host, &figures) == 0 && figures.records == 1);
  needlemauve_host_close(&host);
  free(records);
  free(output);
}

/* NULL for something, and lengths that no object has, are refused by name, and nothing is written. */
static void misuse(void)
{
  struct needlemauve_verdict verdict;
  struct needlemauve_compiled compiled;
  struct needlemauve_outcome told;
  const size_t one = sizeof rules - 1;
  const uint8_t *text = (const uint8_t *)rules, *plan = (const uint8_t *)schedule;
  uint8_t *first = filled(NEEDLEMAUVE_WDT), *second = filled(NEEDLEMAUVE_ADT), room[8];
  memset(room, FILLED, sizeof room);
  CHECK(41, needlemauve_validate(1, NULL, 4380, &verdict) == NEEDLEMAUVE_NULL && verdict.code == NEEDLEMAUVE_NULL);
  CHECK(42, needlemauve_validate(1, wdt, SIZE_MAX, &verdict) == NEEDLEMAUVE_TOO_LONG);
  CHECK(43, needlemauve_validate(1, wdt, 4380, NULL) == NEEDLEMAUVE_NULL);
  CHECK(44, needlemauve_validate(1, NULL, 0, &verdict) == 51);
  CHECK(45, needlemauve_compile(NULL, 5, first, second, &compiled) == NEEDLEMAUVE_NULL);
  CHECK(46, needlemauve_compile(text, one, NULL, second, &compiled) == NEEDLEMAUVE_NULL);
  CHECK(47, needlemauve_compile(text, one, first, NULL, &compiled) == NEEDLEMAUVE_NULL);
  CHECK(48, needlemauve_compile(text, SIZE_MAX / 2 + 1, first, second, &compiled) == NEEDLEMAUVE_TOO_LONG);
  CHECK(49, is_filled(first, NEEDLEMAUVE_WDT) && is_filled(second, NEEDLEMAUVE_ADT));
  CHECK(50, strcmp(compiled.sentence.bytes, "a length is above PTRDIFF_MAX") == 0 && is_sentence(&compiled.sentence));
  CHECK(51, needlemauve_run(NULL, one, &one, 1, plan, 8, stream, stream_length, room, 8, &told) == NEEDLEMAUVE_NULL);
  CHECK(52, needlemauve_run(text, one, NULL, 1, plan, 8, stream, stream_length, room, 8, &told) == NEEDLEMAUVE_NULL);
  CHECK(53, needlemauve_run(text, one, &one, 1, NULL, 8, stream, stream_length, room, 8, &told) == NEEDLEMAUVE_NULL);
  CHECK(54, needlemauve_run(text, one, &one, 1, plan, 8, NULL, stream_length, room, 8, &told) == NEEDLEMAUVE_NULL);
  CHECK(55, needlemauve_run(text, one, &one, 1, plan, 8, stream, stream_length, NULL, 8, &told) == NEEDLEMAUVE_NULL);
  CHECK(56, told.ending.of == NEEDLEMAUVE_NOT_RUN && told.written == 0);
  CHECK(59, strcmp(told.sentence.bytes, "NULL in the place of something") == 0 && is_sentence(&told.sentence));
  CHECK(57, needlemauve_run(text, one, &one, SIZE_MAX / 8, plan, 8, stream, 9, room, 8, &told) == NEEDLEMAUVE_TOO_LONG);
  CHECK(58, needlemauve_run(text, one, &one, 1, plan, 8, NULL, 0, NULL, 0, &told) == 0 && is_filled(room, sizeof room));
  CHECK(81, needlemauve_compile(text, one, first, second, NULL) == NEEDLEMAUVE_NULL);
  CHECK(82, needlemauve_run(text, one, &one, 1, plan, 8, stream, stream_length, room, 8, NULL) == NEEDLEMAUVE_NULL);
  CHECK(83, needlemauve_run(text, SIZE_MAX, &one, 1, plan, 8, stream, 9, room, 8, &told) == NEEDLEMAUVE_TOO_LONG);
  CHECK(84, needlemauve_run(text, one, &one, 1, plan, SIZE_MAX, stream, 9, room, 8, &told) == NEEDLEMAUVE_TOO_LONG);
  CHECK(85, needlemauve_run(text, one, &one, 1, plan, 8, stream, SIZE_MAX, room, 8, &told) == NEEDLEMAUVE_TOO_LONG);
  CHECK(86, needlemauve_run(text, one, &one, 1, plan, 8, stream, 9, room, SIZE_MAX, &told) == NEEDLEMAUVE_TOO_LONG);
  CHECK(87, told.ending.of == NEEDLEMAUVE_NOT_RUN && told.written == 0 && is_filled(room, sizeof room));
  CHECK(88, needlemauve_compile(NULL, 0, first, second, &compiled) == 0 && compiled.rules == 0);
  {
    struct needlemauve_host host = NEEDLEMAUVE_NOTHING_YET;
    struct needlemauve_made made;
    struct needlemauve_handled handled;
    CHECK(71, needlemauve_host_new(NULL, one, &one, 1, plan, 8, 8, &host, &made) == NEEDLEMAUVE_NULL);
    CHECK(72, needlemauve_host_new(text, one, &one, 1, plan, 8, SIZE_MAX, &host, &made) == NEEDLEMAUVE_TOO_LONG);
    CHECK(73, needlemauve_host_new(text, one, &one, 1, plan, 8, 8, NULL, &made) == NEEDLEMAUVE_NULL);
    CHECK(74, needlemauve_host_new(text, one, &one, 1, plan, 8, 8, &host, NULL) == NEEDLEMAUVE_NULL && host.at == NULL);
    CHECK(75, needlemauve_host_feed(NULL, stream, 1, room, 8, &handled) == NEEDLEMAUVE_NULL);
    CHECK(76, needlemauve_host_feed(&host, stream, 1, room, 8, NULL) == NEEDLEMAUVE_NULL);
    CHECK(89, needlemauve_host_new(text, one, NULL, 1, plan, 8, 8, &host, &made) == NEEDLEMAUVE_NULL);
    CHECK(90, needlemauve_host_new(text, one, &one, 1, NULL, 8, 8, &host, &made) == NEEDLEMAUVE_NULL);
    CHECK(91, needlemauve_host_new(text, SIZE_MAX, &one, 1, plan, 8, 8, &host, &made) == NEEDLEMAUVE_TOO_LONG);
    CHECK(92, needlemauve_host_new(text, one, &one, SIZE_MAX / 8, plan, 8, 8, &host, &made) == NEEDLEMAUVE_TOO_LONG);
    CHECK(93, needlemauve_host_new(text, one, &one, 1, plan, SIZE_MAX, 8, &host, &made) == NEEDLEMAUVE_TOO_LONG);
    CHECK(94, host.at == NULL && made.refusal.code == NEEDLEMAUVE_TOO_LONG && is_sentence(&made.sentence));
    needlemauve_host_close(NULL);
    misuse_of_a_host(text, one, plan);
    no_record(text, one, plan);
  }
  free(first);
  free(second);
}

int main(int words, char **word)
{
  unsigned long inputs = words > 1 ? strtoul(word[1], NULL, 10) : 1000, code, kinds = 0, answers = 0;
  begin();
  misuse();
  for (input = 1; input <= inputs; input++) {
    if (input % 20 == 10)
      spoil_host();
    else if (input % 10 == 0)
      spoil_run();
    else if (input % 5 == 1)
      spoil_text();
    else
      spoil_file();
  }
  for (code = 0; code < 256; code++) {
    kinds += answered[code] > 0;
    answers += answered[code];
  }
  printf("%lu spoiled inputs, %lu answers of %lu kinds, %lu of them 0\n", inputs, answers, kinds, answered[0]);
  free(wdt);
  free(adt);
  return 0;
}
