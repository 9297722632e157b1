/* Needlemauve for C: table files are judged, rule texts are compiled, a host runs from memory to memory, and one is fed record by
 * record.
 *
 * Archives. `libneedlemauve_board.a` has needlemauve_validate alone: it asks for no memory, calls nothing outside itself, and
 * goes on board as it is. `libneedlemauve.a` has the other calls. They take memory by the three functions of memory.c
 * (crates/needlemauve in the sources, share/needlemauve of an installation), which is malloc, realloc and free as it stands: compile
 * it with your program, or put a pool of your own into it. They also call memcpy, memmove and memset.
 *
 * Processors. The archives for x86-64 run on every processor of that kind: they use SSE2 and nothing that came after it. Those for
 * aarch64 are built for every ARMv8-A; no test of ours runs them. There is none for a processor of 32 bits.
 *
 * Who owns what. All memory that a call is given stays the caller's. A call reads and writes it while it runs and keeps no pointer
 * to it afterwards; it gives back what it took by memory.c before it returns. There is one exception: a host that was made holds
 * memory of its own, all of which needlemauve_host_new takes and needlemauve_host_close gives back; feeding takes none and gives
 * none back, whichever applications stop. There is no other state between calls: calls may run in several threads at the same time,
 * each with arguments of its own (where memory.c's functions may), and a host stays in the thread that made it. No call may be made
 * from a signal handler, or from the forked child of a process with threads.
 *
 * What a call needs. Bytes may lie anywhere; lengths and the structures below lie as their types are aligned. What a call
 * writes to (`told`, `wdt`, `adt`, `output`, `host`) overlaps nothing else that the call is given. Bytes of length 0 may be NULL.
 *
 * What a call tests. The functions of this header test what they can see: for NULL in the place of something that has a length,
 * or is written to, they return NEEDLEMAUVE_NULL; for a length above PTRDIFF_MAX (of `lengths`, its bytes) NEEDLEMAUVE_TOO_LONG;
 * for a handle that already holds a host, or holds none, NEEDLEMAUVE_HAS_HOST or NEEDLEMAUVE_NO_HOST. Then only `told` is
 * written, unless it is NULL; needlemauve_host_rule and needlemauve_host_figures write nothing, and needlemauve_host_close, which
 * returns nothing, does nothing. No call can test that as many bytes are there as the length says, nor that NEEDLEMAUVE_WDT and
 * NEEDLEMAUVE_ADT bytes are at `wdt` and `adt`: the caller must ensure it.
 *
 * What a call promises is its contract, proved, in crates/needlemauve/src and crates/needlemauve_board/src; docs/LIBRARY.md
 * says it in plain words. No contract says what a call takes and gives back of memory, which is tested, nor that applications
 * retire at a close (docs/PROMISES.md). */
#ifndef NEEDLEMAUVE_H
#define NEEDLEMAUVE_H

#include <stddef.h>
#include <stdint.h>

#ifdef __cplusplus
extern "C" {
#endif

/* The version, one for header, archives, programs and formats: its parts, one number that grows with it, and its text. */
#define NEEDLEMAUVE_VERSION_MAJOR 0
#define NEEDLEMAUVE_VERSION_MINOR 10
#define NEEDLEMAUVE_VERSION_PATCH 0
#define NEEDLEMAUVE_VERSION_NUMBER \
  (NEEDLEMAUVE_VERSION_MAJOR * 1000000L + NEEDLEMAUVE_VERSION_MINOR * 1000L + NEEDLEMAUVE_VERSION_PATCH)
#define NEEDLEMAUVE_VERSION "0.10.0"

/* The lengths in bytes of the files that needlemauve_compile writes, of watchpoints and of actionpoints. */
#define NEEDLEMAUVE_WDT 4380u
#define NEEDLEMAUVE_ADT 19516u

/* Which table a file is for. */
#define NEEDLEMAUVE_WATCHPOINTS 1u
#define NEEDLEMAUVE_ACTIONPOINTS 2u

/* The codes that calls return. 0: done. Below 245: the refusals of docs/RULES.md and docs/FORMATS.md, and the ends of a run of
 * docs/TOOLS.md, by their numbers. */
#define NEEDLEMAUVE_DONE 0u
#define NEEDLEMAUVE_NO_CHECKER 245u /* no Limit Checker runs */
#define NEEDLEMAUVE_NO_RULE 246u   /* the tables in force have no rule of that number */
#define NEEDLEMAUVE_HAS_HOST 247u  /* the handle holds a host already */
#define NEEDLEMAUVE_NO_HOST 248u   /* the handle holds no host */
#define NEEDLEMAUVE_SMALL 249u     /* the output is smaller than the host's room */
#define NEEDLEMAUVE_MORE 250u      /* no whole record is held: feed more */
#define NEEDLEMAUVE_NO_TABLE 251u  /* no table has that number */
#define NEEDLEMAUVE_LENGTHS 252u   /* the lengths of texts do not add up to their bytes */
#define NEEDLEMAUVE_TOO_LONG 253u  /* a length is above PTRDIFF_MAX, or too large for a record */
#define NEEDLEMAUVE_NULL 254u      /* NULL in the place of something */
#define NEEDLEMAUVE_NO_MEMORY 255u /* no memory */

/* What `at` of a refusal counts. */
#define NEEDLEMAUVE_NOTHING 0u
#define NEEDLEMAUVE_BYTES 1u   /* the bytes of the text before the fault */
#define NEEDLEMAUVE_RULES 2u   /* the rules of the text before the one at fault */
#define NEEDLEMAUVE_RECORDS 3u /* the record at fault, from 1; how many were handled if the code is 0; 0 if it is 144 or 145 */
#define NEEDLEMAUVE_NOT_RUN 4u /* nothing was run; the schedule's line at fault, from 1, or 0 */

/* The verdict on a table file. code 0: sound; 51 to 56: its headers; 61 to 81: its image; NEEDLEMAUVE_NO_TABLE, or a code of this
 * header's tests. entry: the entry of the image that is at fault, from 0, or 65,535. */
struct needlemauve_verdict {
  uint32_t code;
  uint32_t entry;
};

/* Why something is refused. code 0: nothing is. of: what `at` counts. text: the number of the refused text, from 0. */
struct needlemauve_refusal {
  uint32_t code;
  uint32_t of;
  uint64_t at;
  uint64_t text;
};

/* The same for people: a text of `length` bytes, followed by a zero byte; empty if nothing is refused. */
struct needlemauve_sentence {
  uint32_t length;
  char bytes[252];
};

/* The result of a compilation: the number of used entries in each table (of 176), or the refusal. */
struct needlemauve_compiled {
  struct needlemauve_refusal refusal;
  uint32_t watchpoints;
  uint32_t rules;
  struct needlemauve_sentence sentence;
};

/* The result of a run: how it ended, and how many bytes of the output were written. */
struct needlemauve_outcome {
  struct needlemauve_refusal ending;
  uint64_t written;
  struct needlemauve_sentence sentence;
};

/* A host, or nothing. It begins as NEEDLEMAUVE_NOTHING_YET, and only the calls below change it; it is not copied, since a copy
 * would be of the same host. */
struct needlemauve_host {
  void *at;
};
#define NEEDLEMAUVE_NOTHING_YET {NULL}

/* What came of making a host: the refusal, as for a run, or code 0. */
struct needlemauve_made {
  struct needlemauve_refusal refusal;
  struct needlemauve_sentence sentence;
};

/* What came of a call that feeds a host: its code, how many of the bytes were taken, and how many bytes of the output were written. */
struct needlemauve_handled {
  uint32_t code;
  uint64_t taken;
  uint64_t written;
};

/* How a rule stands. state: active (1), passive (2), disabled (3), off for good (4). result: the last one, pass (1), fail (2),
 * stale (3), error (4), or none yet (0). fails: failures in a row. quiet: samples while the rule was passive with enough failures in
 * a row to request its sequence. Both count up to 65,535. */
struct needlemauve_rule {
  uint8_t state, result;
  uint16_t fails, quiet;
};

/* The figures of a host: how many records were handled, that of a 144 among them, and bytes written; the number of the rule text
 * in force, from 0, which is the first whose two compiled images are active, byte for byte, or NEEDLEMAUVE_NO_TEXT; the mode of its
 * Limit Checker, active (1), passive (2), disabled (3), or 0 if none runs; and how many rules are in force. */
#define NEEDLEMAUVE_NO_TEXT UINT64_MAX
struct needlemauve_figures {
  uint64_t records, written, text;
  uint32_t mode, rules;
};

/* The version of the archive, as NEEDLEMAUVE_VERSION_NUMBER is that of this header. */
uint32_t needlemauve_version(void);

/* Judges a table file: it accepts those that the host accepts on board, but for the table's name in it, which decides there which
 * table it is for. (An image of a wrong size is 63 here, and 114 on board.) Returns told->code. */
uint32_t needlemauve_validate(uint32_t kind, const uint8_t *file, size_t length, struct needlemauve_verdict *told);

/* Compiles a rule text into the files of its two tables, and returns told->refusal.code. If that isn't 0, both files are as they
 * were. */
uint32_t needlemauve_compile(const uint8_t *text, size_t length, uint8_t wdt[NEEDLEMAUVE_WDT], uint8_t adt[NEEDLEMAUVE_ADT],
                             struct needlemauve_compiled *told);

/* Runs rule texts over a stream of records, with four Limit Checkers, two schedulers and two counters in stock, and returns
 * told->ending.code. The texts lie one after the other: the first has lengths[0] bytes, and all together `size`. The first
 * told->written bytes of the output are the packets that were sent (with 144 the last one may be cut), and the bytes after them
 * are as they were. 0: the stream's end; 1 to 42: a text doesn't compile; 131 to 133: the schedule is invalid; 141: no record;
 * 142: the stream ends inside one; 144: the output has no room for more; 145: the stream has not ended after 2^32 reads;
 * NEEDLEMAUVE_LENGTHS, NEEDLEMAUVE_NO_MEMORY, or a code of this header's tests. */
uint32_t needlemauve_run(const uint8_t *texts, size_t size, const size_t *lengths, size_t count, const uint8_t *schedule,
                         size_t schedule_length, const uint8_t *stream, size_t stream_length, uint8_t *output, size_t room,
                         struct needlemauve_outcome *told);

/* Makes a host of rule texts (given as to needlemauve_run), with the same stock, and returns told->refusal.code: 0, or why it
 * isn't made. `room` is how many bytes one record may lead to: an event has 168, a sequence request 12, so that 65,536 hold
 * a sample of 176 rules that each request a sequence and send two events, and 524,288 a tick with eight such samples. After a
 * record that leads to more, the host handles none any more (144). All memory is taken here. */
uint32_t needlemauve_host_new(const uint8_t *texts, size_t size, const size_t *lengths, size_t count, const uint8_t *schedule,
                              size_t schedule_length, size_t room, struct needlemauve_host *host,
                              struct needlemauve_made *told);

/* Takes bytes of the stream, as they come, and handles one record at most; now and then it also moves what is held. Returns
 * told->code. The first told->taken bytes were taken, to be held after those that are held (73,739 at most); what the record leads
 * to are the first told->written bytes of the output, which has `size` bytes, no fewer than the host's room. 0: a record was
 * handled, and another may be held: call again, with the bytes that weren't taken, or with none. NEEDLEMAUVE_MORE: no whole record
 * is held. 141: what comes next is no record; the host takes and handles nothing any more. 144: the record leads to more than the
 * room takes, so that the last packet may be cut; the host handles no record any more. NEEDLEMAUVE_SMALL: the output is smaller
 * than the room, and nothing was done; or a code of this header's tests. */
uint32_t needlemauve_host_feed(struct needlemauve_host *host, const uint8_t *bytes, size_t length, uint8_t *output, size_t size,
                               struct needlemauve_handled *told);

/* How the rule with this number, from 0, stands at the Limit Checker that runs (of several the one on the lowest seat). Returns 0;
 * or NEEDLEMAUVE_NO_CHECKER, NEEDLEMAUVE_NO_RULE, or a code of this header's tests, and writes nothing. */
uint32_t needlemauve_host_rule(const struct needlemauve_host *host, uint16_t rule, struct needlemauve_rule *told);

/* The figures of a host, after the records so far. Returns 0; or NEEDLEMAUVE_NO_HOST or NEEDLEMAUVE_NULL, and writes nothing. */
uint32_t needlemauve_host_figures(const struct needlemauve_host *host, struct needlemauve_figures *told);

/* Closes a host: all applications retire (no contract or test of C says so), and all its memory is given back. The handle holds
 * nothing afterwards. */
void needlemauve_host_close(struct needlemauve_host *host);

/* ---- records of a stream, whose layout is in docs/FORMATS.md */

/* The bytes of a record's header, of the name in a file's and a half's record, and of a half's body; the most bytes that a record
 * may hold of a packet, and of a file without its name. A host refuses packets over 2,048 bytes and files over 32,768. */
#define NEEDLEMAUVE_RECORD 11u
#define NEEDLEMAUVE_NAME 40u
#define NEEDLEMAUVE_HALF 43u
#define NEEDLEMAUVE_MOST_PACKET 65536u
#define NEEDLEMAUVE_MOST_FILE (65536u - NEEDLEMAUVE_NAME)

static inline uint32_t needlemauve_record(uint8_t *header, uint8_t kind, uint32_t seconds, uint16_t subseconds, uint32_t length)
{
  unsigned n;
  if (header == NULL) return NEEDLEMAUVE_NULL;
  header[0] = kind;
  for (n = 0; n < 4; n++) {
    header[1 + n] = (uint8_t)(seconds >> (24 - 8 * n));
    header[7 + n] = (uint8_t)(length >> (24 - 8 * n));
  }
  header[5] = (uint8_t)(subseconds >> 8);
  header[6] = (uint8_t)subseconds;
  return NEEDLEMAUVE_DONE;
}

/* Each of these writes the header of a record at a moment, in seconds and 1/65,536 of a second, and returns 0. Where `header` is
 * NULL (254), or the length too large for a record (253), nothing is written. */

/* A packet of `length` bytes, which follow the header. */
static inline uint32_t needlemauve_packet_record(uint8_t header[NEEDLEMAUVE_RECORD], uint32_t seconds, uint16_t subseconds,
                                                 size_t length)
{
  if (length > NEEDLEMAUVE_MOST_PACKET) return NEEDLEMAUVE_TOO_LONG;
  return needlemauve_record(header, 1, seconds, subseconds, (uint32_t)length);
}

/* A tick, which is the header alone. */
static inline uint32_t needlemauve_tick_record(uint8_t header[NEEDLEMAUVE_RECORD], uint32_t seconds, uint16_t subseconds)
{
  return needlemauve_record(header, 2, seconds, subseconds, 0);
}

/* A file of `length` bytes: its name follows the header, filled with zeros to NEEDLEMAUVE_NAME bytes, and then its bytes. */
static inline uint32_t needlemauve_file_record(uint8_t header[NEEDLEMAUVE_RECORD], uint32_t seconds, uint16_t subseconds,
                                               size_t length)
{
  if (length > NEEDLEMAUVE_MOST_FILE) return NEEDLEMAUVE_TOO_LONG;
  return needlemauve_record(header, 3, seconds, subseconds, (uint32_t)length + NEEDLEMAUVE_NAME);
}

/* Half of a rule text, to be stored as a file: NEEDLEMAUVE_HALF bytes follow, the name, NEEDLEMAUVE_WATCHPOINTS or
 * NEEDLEMAUVE_ACTIONPOINTS in one byte, and the text's number in two, high byte first. */
static inline uint32_t needlemauve_half_record(uint8_t header[NEEDLEMAUVE_RECORD], uint32_t seconds, uint16_t subseconds)
{
  return needlemauve_record(header, 4, seconds, subseconds, NEEDLEMAUVE_HALF);
}

/* ---- what the archives can't see: NULL, lengths that no object has, and a handle that holds a host, or none */

static inline uint32_t needlemauve_misused(const void *at, size_t length)
{
  if (length > PTRDIFF_MAX) return NEEDLEMAUVE_TOO_LONG;
  if (at == NULL && length > 0) return NEEDLEMAUVE_NULL;
  return NEEDLEMAUVE_DONE;
}

/* The archives are given an address for bytes of length 0, too. */
static inline void *needlemauve_address(const void *at)
{
  static size_t none;
  return at == NULL ? (void *)&none : (void *)at;
}

static inline void needlemauve_tell(uint32_t code, uint32_t of, struct needlemauve_refusal *told,
                                    struct needlemauve_sentence *sentence)
{
  const char *words = code == NEEDLEMAUVE_NULL       ? "NULL in the place of something"
                      : code == NEEDLEMAUVE_HAS_HOST ? "the handle holds a host already"
                                                     : "a length is above PTRDIFF_MAX";
  uint32_t n;
  told->code = code;
  told->of = of;
  told->at = 0;
  told->text = 0;
  for (n = 0; n < sizeof sentence->bytes; n++) sentence->bytes[n] = 0;
  for (n = 0; words[n] != 0; n++) sentence->bytes[n] = words[n];
  sentence->length = n;
}

static inline uint32_t needlemauve_validate_tested(uint32_t kind, const uint8_t *file, size_t length,
                                                   struct needlemauve_verdict *told)
{
  uint32_t code = needlemauve_misused(file, length);
  if (told == NULL) return NEEDLEMAUVE_NULL;
  file = (const uint8_t *)needlemauve_address(file);
  if (code == NEEDLEMAUVE_DONE) return needlemauve_validate(kind, file, length, told);
  told->code = code;
  told->entry = 65535u;
  return code;
}

static inline uint32_t needlemauve_compile_tested(const uint8_t *text, size_t length, uint8_t *wdt, uint8_t *adt,
                                                  struct needlemauve_compiled *told)
{
  uint32_t code = needlemauve_misused(text, length);
  if (told == NULL) return NEEDLEMAUVE_NULL;
  if (code == NEEDLEMAUVE_DONE && (wdt == NULL || adt == NULL)) code = NEEDLEMAUVE_NULL;
  text = (const uint8_t *)needlemauve_address(text);
  if (code == NEEDLEMAUVE_DONE) return needlemauve_compile(text, length, wdt, adt, told);
  needlemauve_tell(code, NEEDLEMAUVE_NOTHING, &told->refusal, &told->sentence);
  told->watchpoints = 0;
  told->rules = 0;
  return code;
}

static inline uint32_t needlemauve_run_tested(const uint8_t *texts, size_t size, const size_t *lengths, size_t count,
                                              const uint8_t *schedule, size_t schedule_length, const uint8_t *stream,
                                              size_t stream_length, uint8_t *output, size_t room,
                                              struct needlemauve_outcome *told)
{
  uint32_t code = needlemauve_misused(texts, size);
  if (told == NULL) return NEEDLEMAUVE_NULL;
  if (code == NEEDLEMAUVE_DONE && count > PTRDIFF_MAX / sizeof *lengths) code = NEEDLEMAUVE_TOO_LONG;
  if (code == NEEDLEMAUVE_DONE) code = needlemauve_misused(lengths, count);
  if (code == NEEDLEMAUVE_DONE) code = needlemauve_misused(schedule, schedule_length);
  if (code == NEEDLEMAUVE_DONE) code = needlemauve_misused(stream, stream_length);
  if (code == NEEDLEMAUVE_DONE) code = needlemauve_misused(output, room);
  texts = (const uint8_t *)needlemauve_address(texts);
  lengths = (const size_t *)needlemauve_address(lengths);
  schedule = (const uint8_t *)needlemauve_address(schedule);
  stream = (const uint8_t *)needlemauve_address(stream);
  output = (uint8_t *)needlemauve_address(output);
  if (code == NEEDLEMAUVE_DONE)
    return needlemauve_run(texts, size, lengths, count, schedule, schedule_length, stream, stream_length, output, room, told);
  needlemauve_tell(code, NEEDLEMAUVE_NOT_RUN, &told->ending, &told->sentence);
  told->written = 0;
  return code;
}

static inline uint32_t needlemauve_host_new_tested(const uint8_t *texts, size_t size, const size_t *lengths, size_t count,
                                                   const uint8_t *schedule, size_t schedule_length, size_t room,
                                                   struct needlemauve_host *host, struct needlemauve_made *told)
{
  uint32_t code = needlemauve_misused(texts, size);
  if (told == NULL) return NEEDLEMAUVE_NULL;
  if (code == NEEDLEMAUVE_DONE && count > PTRDIFF_MAX / sizeof *lengths) code = NEEDLEMAUVE_TOO_LONG;
  if (code == NEEDLEMAUVE_DONE) code = needlemauve_misused(lengths, count);
  if (code == NEEDLEMAUVE_DONE) code = needlemauve_misused(schedule, schedule_length);
  if (code == NEEDLEMAUVE_DONE && room > PTRDIFF_MAX) code = NEEDLEMAUVE_TOO_LONG;
  if (code == NEEDLEMAUVE_DONE && host == NULL) code = NEEDLEMAUVE_NULL;
  if (code == NEEDLEMAUVE_DONE && host->at != NULL) code = NEEDLEMAUVE_HAS_HOST;
  texts = (const uint8_t *)needlemauve_address(texts);
  lengths = (const size_t *)needlemauve_address(lengths);
  schedule = (const uint8_t *)needlemauve_address(schedule);
  if (code == NEEDLEMAUVE_DONE)
    return needlemauve_host_new(texts, size, lengths, count, schedule, schedule_length, room, host, told);
  needlemauve_tell(code, NEEDLEMAUVE_NOT_RUN, &told->refusal, &told->sentence);
  return code;
}

static inline uint32_t needlemauve_host_feed_tested(struct needlemauve_host *host, const uint8_t *bytes, size_t length,
                                                    uint8_t *output, size_t size, struct needlemauve_handled *told)
{
  uint32_t code = needlemauve_misused(bytes, length);
  if (told == NULL) return NEEDLEMAUVE_NULL;
  if (code == NEEDLEMAUVE_DONE) code = needlemauve_misused(output, size);
  if (code == NEEDLEMAUVE_DONE && host == NULL) code = NEEDLEMAUVE_NULL;
  if (code == NEEDLEMAUVE_DONE && host->at == NULL) code = NEEDLEMAUVE_NO_HOST;
  bytes = (const uint8_t *)needlemauve_address(bytes);
  output = (uint8_t *)needlemauve_address(output);
  if (code == NEEDLEMAUVE_DONE) return needlemauve_host_feed(host, bytes, length, output, size, told);
  told->code = code;
  told->taken = 0;
  told->written = 0;
  return code;
}

static inline uint32_t needlemauve_unfit_to_ask(const struct needlemauve_host *host, const void *told)
{
  if (host == NULL || told == NULL) return NEEDLEMAUVE_NULL;
  return host->at == NULL ? NEEDLEMAUVE_NO_HOST : NEEDLEMAUVE_DONE;
}

static inline uint32_t needlemauve_host_rule_tested(const struct needlemauve_host *host, uint16_t rule,
                                                    struct needlemauve_rule *told)
{
  uint32_t code = needlemauve_unfit_to_ask(host, told);
  return code == NEEDLEMAUVE_DONE ? needlemauve_host_rule(host, rule, told) : code;
}

static inline uint32_t needlemauve_host_figures_tested(const struct needlemauve_host *host, struct needlemauve_figures *told)
{
  uint32_t code = needlemauve_unfit_to_ask(host, told);
  return code == NEEDLEMAUVE_DONE ? needlemauve_host_figures(host, told) : code;
}

static inline void needlemauve_host_close_tested(struct needlemauve_host *host)
{
  if (host != NULL && host->at != NULL) needlemauve_host_close(host);
}

/* C calls the tested functions by the names above; other languages find the archives' own under these names, and give them no NULL,
 * not even for bytes of length 0. */
#define needlemauve_validate needlemauve_validate_tested
#define needlemauve_compile needlemauve_compile_tested
#define needlemauve_run needlemauve_run_tested
#define needlemauve_host_new needlemauve_host_new_tested
#define needlemauve_host_feed needlemauve_host_feed_tested
#define needlemauve_host_rule needlemauve_host_rule_tested
#define needlemauve_host_figures needlemauve_host_figures_tested
#define needlemauve_host_close needlemauve_host_close_tested

#ifdef __cplusplus
}
#endif

#endif
