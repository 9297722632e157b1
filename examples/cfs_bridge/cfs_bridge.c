/* A Limit Checker host beside a running cFS: telemetry comes in by UDP, sequence requests go out by UDP as commands.
 *
 *     cfs_bridge [--clock] [--record FILE] SCHEDULE TELEMETRY COMMANDS RULES..
 *
 * TELEMETRY is where it listens, COMMANDS where requests go: both an IPv4 address and a port, as 127.0.0.1:1235. At the moment
 * of the first packet it feeds both halves of text 0 and the starts of LC and SCH. It feeds each datagram that is a telemetry
 * packet with a secondary header, at the moment of that header. Standard output has all packets that the host writes, as
 * `flight_run run` does; standard error has a line for each event, and at the end the counts. SIGTERM or SIGINT ends it. See
 * docs/CFS.md.
 *
 * Ticks. The time is the second up to which ticks were fed. A packet up to 10 s ahead of it brings a tick for each second that
 * passed (`flight_tools import --start 0 --tick 1` makes the same stream); one up to 60 s behind it is late and brings none. Any
 * other packet leaps. Its clock may be wrong, and ticks would have rules judge one old value many times. So it is held, with all
 * that comes after it, until a packet shows whose clock runs:
 *   - It goes on from the time: what is held is fed, without ticks for the leap.
 *   - It leaps too, and is 2 to 60 s later than a leap that is held, or later still and of the same message id: that leap is
 *     confirmed. The time becomes that leap's, after ticks for the last 60 of the seconds that passed, or none if it stepped
 *     back. Then what is held is fed, each packet by its own time. A clock that stands still confirms nothing.
 * If there is no room to hold more, the oldest leap counts as confirmed, so that ticks never end for good. What is held at the end
 * is fed. With --clock a tick comes each second of the system's, and no packet leaps or is held.
 *
 * Files. --record keeps what was fed, and overwrites nothing: if FILE exists the recording is FILE.1, and so on. If the recording
 * or standard output cannot be written, it ends after a whole record or packet, with a line; checking goes on, and the status at
 * the end is 3.
 *
 *     cc -std=c99 -Iinclude examples/cfs_bridge/cfs_bridge.c crates/needlemauve/memory.c bin/libneedlemauve.a -o cfs_bridge */
#define _POSIX_C_SOURCE 200809L
#include "needlemauve.h"

#include <arpa/inet.h>
#include <errno.h>
#include <fcntl.h>
#include <signal.h>
#include <stdbool.h>
#include <stdio.h>
#include <stdlib.h>
#include <string.h>
#include <sys/socket.h>
#include <sys/time.h>
#include <time.h>
#include <unistd.h>

/* Exit statuses, as those of flight_run: a text or the schedule is refused; the words are no call; a file or a socket cannot be
 * used; the host handles no more records; no memory. */
enum status { FINE = 0, REFUSED = 1, USAGE = 2, DEVICE = 3, STOPPED = 4, MEMORY = 5 };

/* What a datagram is. All but telemetry is dropped. */
enum kind { TELEMETRY, NO_PACKET, COMMAND, NO_TIME, SEGMENT, LONG, OWN, KINDS };

enum {
  EVENT = 0x0808, HOUSEKEEPING = 0x08A7, REQUEST = 0x18A9, /* message ids; housekeeping is the Limit Checker's */
  PRIMARY = 6,           /* bytes of a primary header */
  HEADERS = 12,          /* bytes of both headers of telemetry */
  MOST_TELEMETRY = 2048, /* bytes of a packet that the host takes */
  MOST_BYTES = 65536,    /* bytes of a datagram, of a rule text, of a schedule */
  MOST_TEXTS = 16,
  START = 28,            /* bytes of the command that starts an application */
  MOST_EARLY = 10,       /* seconds that a packet may be ahead of the time; one that is further ahead leaps */
  MOST_LATE = 60,        /* seconds that it may be behind it */
  LEAST_RUN = 2,         /* seconds that a packet has to be later than a leap to confirm it; with 1, a wrong clock beside a right
                            one would confirm its own leaps, since its seconds end at another moment */
  MOST_RUN = 60,         /* seconds after which only a packet of the same message id confirms a leap */
  MOST_TICKS = 60,       /* ticks that are fed at once */
  MOST_RECORD = NEEDLEMAUVE_RECORD + MOST_TELEMETRY,
  MOST_HELD = 1048576,   /* bytes of records that are held */
  MOST_NAMES = 10000,    /* names that a recording may have */
  MOST_NAME = 4096,      /* bytes of each */
  ROOM = 524288,         /* bytes that a record may lead to; eight samples of 176 rules in one tick lead to fewer */
  SECOND = 1000,         /* in milliseconds */
  WAIT = 100             /* milliseconds without a datagram, after which signals and the clock are looked at */
};

/* What the words say. */
struct plan {
  bool by_clock;
  const char *record, *schedule, *telemetry, *commands;
  char **rules;
  size_t texts;
};

/* A file that takes whole records or packets, until it fails. */
struct sink {
  int file; /* or -1 */
  char name[MOST_NAME];
};

struct bridge {
  struct needlemauve_host host;
  int telemetry, commands; /* sockets, or -1 */
  struct sockaddr_in receiver;
  struct sink packets, record;
  bool by_clock, has_begun, has_lost; /* has_lost: something could not be written */
  uint32_t second;      /* the time; with --clock, that of the newest packet */
  int64_t next_tick;    /* by the system's clock, in milliseconds */
  uint32_t clock_ticks; /* that the clock gave since the newest packet */
  unsigned long ticks, requests[2], datagrams[KINDS]; /* requests that were not sent, and those that were */
  unsigned long leaps, confirmed;
  uint8_t held[MOST_HELD]; /* records of packets, from a leap on, in the order in which they came */
  size_t held_bytes;
  uint8_t output[ROOM], schedule[MOST_BYTES], texts[MOST_TEXTS * MOST_BYTES];
  uint8_t bytes[NEEDLEMAUVE_RECORD + MOST_BYTES]; /* a record: room for its header, then a datagram */
};

static volatile sig_atomic_t is_ended;

static void end(int number)
{
  (void)number;
  is_ended = 1;
}

static enum status failed(enum status status, const char *what, const char *why)
{
  fprintf(stderr, "cfs_bridge: %s: %s\n", what, why);
  return status;
}

static uint16_t two_bytes(const uint8_t *at)
{
  return (uint16_t)(at[0] << 8 | at[1]);
}

static uint32_t four_bytes(const uint8_t *at)
{
  return (uint32_t)two_bytes(at) << 16 | two_bytes(at + 2);
}

static size_t size_of(const uint8_t *packet)
{
  return (size_t)two_bytes(packet + 4) + 7;
}

static int64_t milliseconds(void)
{
  struct timespec now;
  clock_gettime(CLOCK_MONOTONIC, &now);
  return (int64_t)now.tv_sec * SECOND + now.tv_nsec / 1000000;
}

/* ---- files */

/* Writes all bytes. If that fails, the part that was written is cut off again, where the file is one that can be cut. */
static bool is_written(int file, const uint8_t *bytes, size_t length)
{
  size_t done = 0;
  off_t whole;
  int why;
  while (done < length) {
    ssize_t count = write(file, bytes + done, length - done);
    if (count > 0) done += (size_t)count;
    else if (count == 0 || errno != EINTR || is_ended) break;
  }
  if (done == length) return true;
  why = errno;
  whole = done > 0 ? lseek(file, -(off_t)done, SEEK_CUR) : -1;
  if (whole >= 0 && ftruncate(file, whole) != 0) failed(DEVICE, "a cut end stays", strerror(errno));
  errno = why;
  return false;
}

/* A full disk, or a reader that has gone, ends a file and not the checking: nobody may be there to start it again. */
static void append(struct bridge *bridge, struct sink *sink, const uint8_t *bytes, size_t length)
{
  if (sink->file < 0 || is_written(sink->file, bytes, length)) return;
  fprintf(stderr, "cfs_bridge: %s: %s; it ends here, and checking goes on\n", sink->name, strerror(errno));
  close(sink->file);
  sink->file = -1;
  bridge->has_lost = true;
}

/* ---- what the host writes */

/* An event, as a line of `flight_tools packets`. */
static void say_event(const uint8_t *packet)
{
  static const char *const words[] = {"event", "debug", "information", "error", "critical"};
  uint16_t type = two_bytes(packet + 34);
  fprintf(stderr, "%lu.%05lu %.20s %u %s: %.122s\n", (unsigned long)four_bytes(packet + 6),
          two_bytes(packet + 10) * 100000UL / 65536, (const char *)packet + 12, (unsigned)two_bytes(packet + 32),
          words[type <= 4 ? type : 0], (const char *)packet + 44);
}

static void send_request(struct bridge *bridge, const uint8_t *packet, size_t size)
{
  const struct sockaddr_in *to = &bridge->receiver;
  ssize_t sent;
  bool is_sent;
  do sent = sendto(bridge->commands, packet, size, 0, (const struct sockaddr *)to, sizeof *to);
  while (sent < 0 && errno == EINTR);
  is_sent = sent == (ssize_t)size;
  bridge->requests[is_sent]++;
  if (!is_sent) failed(DEVICE, "a request is not sent", strerror(errno));
}

/* Requests go to their receiver, events to standard error, and all packets to standard output. */
static void pass_on(struct bridge *bridge, size_t written)
{
  size_t at, size;
  for (at = 0; at < written; at += size) {
    const uint8_t *packet = bridge->output + at;
    size = size_of(packet);
    if (two_bytes(packet) == REQUEST) send_request(bridge, packet, size);
    if (two_bytes(packet) == EVENT) say_event(packet);
  }
  append(bridge, &bridge->packets, bridge->output, written);
}

/* ---- what is fed to the host */

/* A whole record. */
static enum status feed(struct bridge *bridge, const uint8_t *record, size_t length)
{
  struct needlemauve_handled told;
  append(bridge, &bridge->record, record, length);
  if (needlemauve_host_feed(&bridge->host, record, length, bridge->output, ROOM, &told) != NEEDLEMAUVE_DONE) {
    fprintf(stderr, "cfs_bridge: the host stops: %u\n", (unsigned)told.code);
    return STOPPED;
  }
  pass_on(bridge, (size_t)told.written);
  return FINE;
}

static enum status feed_tick(struct bridge *bridge, uint32_t second)
{
  uint8_t record[NEEDLEMAUVE_RECORD];
  needlemauve_tick_record(record, second, 0);
  bridge->ticks++;
  return feed(bridge, record, sizeof record);
}

/* A half of text 0, as one of the files that LC takes when it starts. */
static enum status feed_half(struct bridge *bridge, uint16_t subseconds, const char *name, uint8_t table)
{
  uint8_t record[NEEDLEMAUVE_RECORD + NEEDLEMAUVE_HALF] = {0};
  needlemauve_half_record(record, bridge->second, subseconds);
  memcpy(record + NEEDLEMAUVE_RECORD, name, strlen(name));
  record[NEEDLEMAUVE_RECORD + NEEDLEMAUVE_NAME] = table;
  return feed(bridge, record, sizeof record);
}

/* The command that starts an application. The exclusive or of all its bytes is 0xFF. */
static enum status feed_start(struct bridge *bridge, uint16_t subseconds, const char *name)
{
  static const uint8_t headers[] = {0x18, 0x06, 0xC0, 0x00, 0x00, START - 7, 1, 0};
  uint8_t record[NEEDLEMAUVE_RECORD + START] = {0}, *command = record + NEEDLEMAUVE_RECORD, sum = 0xFF;
  size_t n;
  needlemauve_packet_record(record, bridge->second, subseconds, START);
  memcpy(command, headers, sizeof headers);
  memcpy(command + sizeof headers, name, strlen(name));
  for (n = 0; n < START; n++) sum ^= command[n];
  command[7] = sum;
  return feed(bridge, record, sizeof record);
}

/* What comes before the first packet, at its moment. */
static enum status begin(struct bridge *bridge, uint32_t second, uint16_t subseconds)
{
  enum status status;
  bridge->second = second;
  bridge->next_tick = milliseconds() + SECOND;
  bridge->has_begun = true;
  status = feed_half(bridge, subseconds, "/cf/lc_def_wdt.tbl", NEEDLEMAUVE_WATCHPOINTS);
  if (status == FINE) status = feed_half(bridge, subseconds, "/cf/lc_def_adt.tbl", NEEDLEMAUVE_ACTIONPOINTS);
  if (status == FINE) status = feed_start(bridge, subseconds, "LC");
  if (status == FINE) status = feed_start(bridge, subseconds, "SCH");
  return status;
}

/* ---- the time of telemetry: see above */

static uint32_t second_of(const uint8_t *record)
{
  return four_bytes(record + 1);
}

static uint16_t message_id_of(const uint8_t *record)
{
  return two_bytes(record + NEEDLEMAUVE_RECORD);
}

static size_t length_of(const uint8_t *record)
{
  return NEEDLEMAUVE_RECORD + size_of(record + NEEDLEMAUVE_RECORD);
}

/* Seconds that a packet is ahead of the time. */
static int64_t ahead_of(const struct bridge *bridge, const uint8_t *record)
{
  return (int64_t)second_of(record) - bridge->second;
}

static bool is_leap(const struct bridge *bridge, const uint8_t *record)
{
  return ahead_of(bridge, record) > MOST_EARLY || ahead_of(bridge, record) < -MOST_LATE;
}

/* Whether a count gets a line: a clock that stays wrong must not fill a journal. */
static bool is_power_of_two(unsigned long count)
{
  return (count & (count - 1)) == 0;
}

/* Sets the time, after a tick for each second up to it, the last 60 of more. */
static enum status go_to(struct bridge *bridge, uint32_t second)
{
  enum status status = FINE;
  int64_t passed = (int64_t)second - bridge->second;
  if (passed > MOST_TICKS) passed = MOST_TICKS;
  while (passed > 0 && status == FINE) status = feed_tick(bridge, second - (uint32_t)--passed);
  bridge->second = second;
  return status;
}

/* Feeds a packet, after the ticks that it brings: none if it is late, or leaps. */
static enum status feed_packet(struct bridge *bridge, const uint8_t *record)
{
  enum status status = FINE;
  if (ahead_of(bridge, record) > 0 && !is_leap(bridge, record)) status = go_to(bridge, second_of(record));
  return status == FINE ? feed(bridge, record, length_of(record)) : status;
}

/* Feeds all that is held. */
static enum status release(struct bridge *bridge)
{
  enum status status = FINE;
  size_t at;
  for (at = 0; at < bridge->held_bytes && status == FINE; at += length_of(bridge->held + at))
    status = feed_packet(bridge, bridge->held + at);
  bridge->held_bytes = 0;
  return status;
}

/* Goes to the time of a leap that is confirmed. Its own packet is fed after the ticks: they judge what was there before. */
static enum status follow(struct bridge *bridge, uint32_t second)
{
  enum status status;
  if (is_power_of_two(++bridge->confirmed))
    fprintf(stderr, "cfs_bridge: leap confirmed (%lu): the time was %lu, and is %lu\n", bridge->confirmed,
            (unsigned long)bridge->second, (unsigned long)second);
  status = go_to(bridge, second);
  return status == FINE ? release(bridge) : status;
}

/* The leap that is held and that a packet confirms, or the oldest if there is no room to hold more; or NULL. */
static const uint8_t *leap_confirmed_by(const struct bridge *bridge, const uint8_t *record)
{
  size_t at;
  for (at = 0; at < bridge->held_bytes && is_leap(bridge, record); at += length_of(bridge->held + at)) {
    const uint8_t *leap = bridge->held + at;
    int64_t later = (int64_t)second_of(record) - second_of(leap);
    if (later < LEAST_RUN || !is_leap(bridge, leap)) continue;
    if (later <= MOST_RUN || message_id_of(leap) == message_id_of(record)) return leap;
  }
  return MOST_HELD - bridge->held_bytes < MOST_RECORD ? bridge->held : NULL;
}

static void hold(struct bridge *bridge, const uint8_t *record)
{
  memcpy(bridge->held + bridge->held_bytes, record, length_of(record));
  bridge->held_bytes += length_of(record);
}

static void hold_leap(struct bridge *bridge, const uint8_t *record)
{
  if (is_power_of_two(++bridge->leaps))
    fprintf(stderr, "cfs_bridge: leap (%lu): a packet of 0x%04X is at %lu, and the time is %lu\n", bridge->leaps,
            (unsigned)message_id_of(record), (unsigned long)second_of(record), (unsigned long)bridge->second);
  hold(bridge, record);
}

/* Feeds a packet, or holds it. While packets are held the time stands still, and the first of them is a leap. */
static enum status accept_packet(struct bridge *bridge, const uint8_t *record)
{
  enum status status = FINE;
  bool goes_on = !is_leap(bridge, record) && ahead_of(bridge, record) > 0;
  const uint8_t *leap = goes_on ? NULL : leap_confirmed_by(bridge, record);
  if (leap != NULL) status = follow(bridge, second_of(leap));
  if (status != FINE) return status;
  if (is_leap(bridge, record)) hold_leap(bridge, record);
  else if (bridge->held_bytes > 0 && !goes_on) hold(bridge, record);
  else {
    status = release(bridge);
    if (status == FINE) status = feed_packet(bridge, record);
  }
  return status;
}

/* With --clock the time of ticks goes on from the newest packet's. */
static enum status accept_by_clock(struct bridge *bridge, const uint8_t *record)
{
  if (ahead_of(bridge, record) > 0 || is_leap(bridge, record)) {
    bridge->second = second_of(record);
    bridge->clock_ticks = 0;
  }
  return feed(bridge, record, length_of(record));
}

/* With --clock, a tick for each second of the system's that is over: telemetry's time goes on with them until the next packet. */
static enum status tick_by_clock(struct bridge *bridge)
{
  enum status status = FINE;
  int64_t now = milliseconds();
  if (!bridge->by_clock || !bridge->has_begun) return FINE;
  if (now - bridge->next_tick >= MOST_TICKS * SECOND) bridge->next_tick = now;
  while (bridge->next_tick <= now && status == FINE) {
    status = feed_tick(bridge, bridge->second + bridge->clock_ticks++);
    bridge->next_tick += SECOND;
  }
  return status;
}

/* ---- datagrams */

static enum kind kind_of(const uint8_t *packet, size_t length)
{
  if (length <= PRIMARY || size_of(packet) != length || packet[0] >> 5 != 0) return NO_PACKET;
  if ((packet[0] & 0x10) != 0) return COMMAND;
  if ((packet[0] & 0x08) == 0 || length < HEADERS) return NO_TIME;
  if (packet[2] >> 6 != 3) return SEGMENT;
  if (length > MOST_TELEMETRY) return LONG;
  return two_bytes(packet) == EVENT || two_bytes(packet) == HOUSEKEEPING ? OWN : TELEMETRY;
}

/* Feeds the datagram that was received, if it is telemetry. */
static enum status take(struct bridge *bridge, size_t length)
{
  const uint8_t *packet = bridge->bytes + NEEDLEMAUVE_RECORD, *moment = packet + PRIMARY;
  enum kind kind = kind_of(packet, length);
  enum status status = FINE;
  bridge->datagrams[kind]++;
  if (kind != TELEMETRY) return FINE;
  if (!bridge->has_begun) status = begin(bridge, four_bytes(moment), two_bytes(moment + 4));
  if (status != FINE) return status;
  needlemauve_packet_record(bridge->bytes, four_bytes(moment), two_bytes(moment + 4), length);
  return bridge->by_clock ? accept_by_clock(bridge, bridge->bytes) : accept_packet(bridge, bridge->bytes);
}

static void say_counts(const struct bridge *bridge)
{
  static const char *const words[KINDS] = {"telemetry", "no packet", "command", "without a secondary header",
                                           "segment", "over 2,048 bytes", "event or housekeeping"};
  int kind;
  fprintf(stderr, "cfs_bridge: fed: %lu packets, %lu ticks; leaps: %lu, confirmed: %lu; requests: %lu sent, %lu not sent; dropped",
          bridge->datagrams[TELEMETRY], bridge->ticks, bridge->leaps, bridge->confirmed, bridge->requests[1], bridge->requests[0]);
  for (kind = NO_PACKET; kind < KINDS; kind++)
    fprintf(stderr, "%c %s: %lu", kind == NO_PACKET ? ':' : ',', words[kind], bridge->datagrams[kind]);
  fprintf(stderr, "\n");
}

/* Goes on until a signal ends it, which is looked at between datagrams. */
static enum status serve(struct bridge *bridge)
{
  struct sigaction ends = {.sa_handler = end}, ignored = {.sa_handler = SIG_IGN};
  enum status status = FINE;
  sigaction(SIGTERM, &ends, NULL);
  sigaction(SIGINT, &ends, NULL);
  sigaction(SIGPIPE, &ignored, NULL); /* a write that fails says so by itself */
  sigaction(SIGXFSZ, &ignored, NULL);
  while (!is_ended && status == FINE) {
    ssize_t length = recv(bridge->telemetry, bridge->bytes + NEEDLEMAUVE_RECORD, MOST_BYTES, 0);
    if (length >= 0) status = take(bridge, (size_t)length);
    else if (errno != EAGAIN && errno != EINTR) status = failed(DEVICE, "telemetry", strerror(errno));
    if (status == FINE) status = tick_by_clock(bridge);
  }
  if (status == FINE) status = release(bridge);
  say_counts(bridge);
  return status;
}

/* ---- words, files, addresses, the host */

/* Reads the words of a call, and answers whether they are one. */
static bool is_call(struct plan *plan, int count, char **words)
{
  int at = 1;
  for (; at < count && strncmp(words[at], "--", 2) == 0; at++) {
    if (strcmp(words[at], "--clock") == 0) plan->by_clock = true;
    else if (strcmp(words[at], "--record") == 0 && at + 1 < count) plan->record = words[++at];
    else return false;
  }
  if (count - at < 4 || count - at > 3 + MOST_TEXTS) return false;
  plan->schedule = words[at];
  plan->telemetry = words[at + 1];
  plan->commands = words[at + 2];
  plan->rules = words + at + 3;
  plan->texts = (size_t)(count - at - 3);
  return true;
}

/* Reads a file, of MOST_BYTES at most. */
static enum status read_file(const char *name, uint8_t *to, size_t *length)
{
  FILE *file = fopen(name, "rb");
  enum status status = FINE;
  if (file == NULL) return failed(DEVICE, name, strerror(errno));
  *length = fread(to, 1, MOST_BYTES, file);
  if (fgetc(file) != EOF) status = failed(DEVICE, name, "it has over 65,536 bytes");
  else if (ferror(file)) status = failed(DEVICE, name, strerror(errno));
  fclose(file);
  return status;
}

/* Reads the schedule, and the texts one after the other, and makes a host of them. */
static enum status make_host(struct bridge *bridge, const struct plan *plan)
{
  struct needlemauve_made made;
  const struct needlemauve_refusal *why = &made.refusal;
  size_t lengths[MOST_TEXTS] = {0}, schedule_length = 0, size = 0, n;
  enum status status = read_file(plan->schedule, bridge->schedule, &schedule_length);
  for (n = 0; n < plan->texts && status == FINE; n++) {
    status = read_file(plan->rules[n], bridge->texts + size, &lengths[n]);
    size += lengths[n];
  }
  if (status != FINE) return status;
  needlemauve_host_new(bridge->texts, size, lengths, plan->texts, bridge->schedule, schedule_length, ROOM, &bridge->host, &made);
  if (why->code == NEEDLEMAUVE_DONE) return FINE;
  if (why->code == NEEDLEMAUVE_NO_MEMORY) return failed(MEMORY, "the host", "no memory");
  fprintf(stderr, "cfs_bridge: %s: refused %u at %lu: %s\n",
          why->of == NEEDLEMAUVE_NOT_RUN ? plan->schedule : plan->rules[why->text], (unsigned)why->code, (unsigned long)why->at,
          made.sentence.bytes);
  return REFUSED;
}

/* The address that a word says, and whether it says one. */
static bool is_address(const char *word, struct sockaddr_in *to)
{
  char host[INET_ADDRSTRLEN] = "", after;
  unsigned port;
  if (sscanf(word, "%15[0-9.]:%5u%c", host, &port, &after) != 2 || port > 65535) return false;
  to->sin_family = AF_INET;
  to->sin_port = htons((uint16_t)port);
  return inet_pton(AF_INET, host, &to->sin_addr) == 1;
}

/* Makes a file for the recording, under the first name that is free. If that fails checking goes on without it: a service that
 * starts again at night must check, on a full disk too. */
static void open_recording(struct bridge *bridge, const char *name)
{
  struct sink *record = &bridge->record;
  int number, length;
  for (number = 0; number < MOST_NAMES; number++) {
    length = snprintf(record->name, MOST_NAME, number == 0 ? "%s" : "%s.%d", name, number);
    if (length < MOST_NAME) record->file = open(record->name, O_WRONLY | O_CREAT | O_EXCL, 0666);
    else errno = ENAMETOOLONG;
    if (record->file >= 0 || errno != EEXIST) break;
  }
  bridge->has_lost = record->file < 0;
  if (bridge->has_lost) fprintf(stderr, "cfs_bridge: %s: %s; nothing is recorded, and checking goes on\n", name, strerror(errno));
  else if (number > 0) fprintf(stderr, "cfs_bridge: %s exists; the recording is %s\n", name, record->name);
}

/* Opens both sockets and the recording. */
static enum status open_devices(struct bridge *bridge, const struct plan *plan)
{
  static const struct timeval most = {0, WAIT * 1000L};
  struct sockaddr_in own = {0};
  if (!is_address(plan->telemetry, &own)) return failed(DEVICE, plan->telemetry, "no address and port");
  if (!is_address(plan->commands, &bridge->receiver)) return failed(DEVICE, plan->commands, "no address and port");
  bridge->telemetry = socket(AF_INET, SOCK_DGRAM, 0);
  bridge->commands = socket(AF_INET, SOCK_DGRAM, 0);
  if (bridge->telemetry < 0 || bridge->commands < 0) return failed(DEVICE, "sockets", strerror(errno));
  if (setsockopt(bridge->telemetry, SOL_SOCKET, SO_RCVTIMEO, &most, sizeof most) != 0 ||
      bind(bridge->telemetry, (const struct sockaddr *)&own, sizeof own) != 0)
    return failed(DEVICE, plan->telemetry, strerror(errno));
  if (plan->record != NULL) open_recording(bridge, plan->record);
  return FINE;
}

/* Gives back all that the bridge holds. */
static enum status close_all(struct bridge *bridge, enum status status)
{
  needlemauve_host_close(&bridge->host);
  if (bridge->telemetry >= 0) close(bridge->telemetry);
  if (bridge->commands >= 0) close(bridge->commands);
  if (bridge->record.file >= 0 && close(bridge->record.file) != 0) {
    failed(DEVICE, bridge->record.name, strerror(errno));
    bridge->has_lost = true;
  }
  if (bridge->has_lost && status == FINE) status = DEVICE;
  free(bridge);
  return status;
}

int main(int count, char **words)
{
  struct plan plan = {false, NULL, NULL, NULL, NULL, NULL, 0};
  struct bridge *bridge;
  enum status status;
  if (!is_call(&plan, count, words))
    return failed(USAGE, "usage", "cfs_bridge [--clock] [--record FILE] SCHEDULE TELEMETRY COMMANDS RULES..");
  bridge = calloc(1, sizeof *bridge);
  if (bridge == NULL) return failed(MEMORY, "the bridge", "no memory");
  bridge->telemetry = bridge->commands = bridge->record.file = -1;
  bridge->packets = (struct sink){STDOUT_FILENO, "standard output"};
  bridge->by_clock = plan.by_clock;
  status = make_host(bridge, &plan);
  if (status == FINE) status = open_devices(bridge, &plan);
  if (status == FINE) status = serve(bridge);
  return close_all(bridge, status);
}
