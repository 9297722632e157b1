/* Refuses each request for memory of a call once, and looks at what the call then returns and leaves: of compiling a text, of
 * making a host from texts and a schedule (the compiler, the schedule, each application, each service and the records among
 * it), and of a whole run. Then each call succeeds with all its requests granted. A host that was made asks for none.
 *
 * cc -std=c99 -Iinclude crates/needlemauve/refused.c libneedlemauve.a libneedlemauve_board.a */
#include "counted.h"
#include "needlemauve.h"

#include <stdio.h>
#include <string.h>

static const char rules[] =
    "packet P = mid 0x0883 length 16; "
    "field V = P u16be at 12 stale 2; "
    "rule LOW active fails 2 sequence 7 event error 1001 \"low volts\" when V < 2400;";
static const char schedule[] = "slots 2\n0 sample 0 175 age\n1 housekeeping\n";

/* A tick at second 100. */
static const uint8_t tick[11] = {2, 0, 0, 0, 100, 0, 0, 0, 0, 0, 0};

static uint8_t wdt[NEEDLEMAUVE_WDT], adt[NEEDLEMAUVE_ADT], output[65536];

/* A call: what it returns. It leaves nothing behind where it is refused. */
static uint32_t compiles(void)
{
  struct needlemauve_compiled told;
  memset(wdt, 0x55, sizeof wdt);
  return needlemauve_compile((const uint8_t *)rules, strlen(rules), wdt, adt, &told);
}

static uint32_t begins(void)
{
  const size_t length = sizeof rules - 1;
  struct needlemauve_host host = {0};
  struct needlemauve_made told;
  struct needlemauve_handled handled;
  uint32_t code = needlemauve_host_new((const uint8_t *)rules, length, &length, 1, (const uint8_t *)schedule,
                                       sizeof schedule - 1, sizeof output, &host, &told);
  if (code == 0) {
    unsigned long before = requests;
    uint32_t fed = needlemauve_host_feed(&host, tick, sizeof tick, output, sizeof output, &handled);
    if (fed != 0 || requests != before) code = 1;
    needlemauve_host_close(&host);
  }
  return code;
}

static uint32_t runs(void)
{
  const size_t length = sizeof rules - 1;
  struct needlemauve_outcome told;
  return needlemauve_run((const uint8_t *)rules, length, &length, 1, (const uint8_t *)schedule, sizeof schedule - 1, tick,
                         sizeof tick, output, sizeof output, &told);
}

/* Each request of a call refused once, up to the first that it doesn't make: how many it makes, or 0 where something is wrong. */
static unsigned long refuse_each(const char *name, uint32_t (*call)(void))
{
  for (refused = 1; refused < 100000; refused += 1) {
    requests = 0;
    uint32_t code = call();
    bool is_granted = requests < refused;
    if (blocks != 0 || code != (is_granted ? 0u : 255u) || (call == compiles && !is_granted && wdt[0] != 0x55)) {
      printf("%s: request %lu of %lu refused: returned %u, %lu blocks are out\n", name, refused, requests, (unsigned)code, blocks);
      return 0;
    }
    if (is_granted) return requests;
  }
  return 0;
}

int main(void)
{
  unsigned long compiling = refuse_each("compile", compiles);
  unsigned long beginning = refuse_each("host_new", begins);
  unsigned long running = refuse_each("run", runs);
  if (compiling == 0 || beginning == 0 || running == 0) return 1;
  printf("each request for memory refused once: compile %lu, host_new %lu, run %lu; feeding makes none\n", compiling, beginning,
         running);
  return 0;
}
