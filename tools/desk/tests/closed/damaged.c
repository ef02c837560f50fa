/* damaged: the loop of an example, `subject.c`, which is the README's or with CHECK defined examples/live/check.c, on messages
 * that are refused and on damaged states. Without a verdict it must defer, and no message may ask more names than any can. SHORT
 * says that its memory is too short, and that the sound state too comes to no verdict.
 *
 *   damaged FILE    writes into FILE how many states came to a verdict and how many to none, or what went wrong */
#define _DEFAULT_SOURCE 1

#include <sys/types.h>

#include <netinet/in.h>

#include <arpa/nameser.h>
#include <netdb.h>
#include <resolv.h>
#include <stdio.h>
#include <stdlib.h>
#include <string.h>

#include "waslidhaj.h"

#ifndef SHORT
#define SHORT 0
#endif

static FILE *report;
static size_t verdicts, without, asked;

#ifdef CHECK
/* A reply of a resolver: one record at example.com, and else NXDOMAIN. */
static int made_up_query(res_state resolver, const char *name, int class_, int type, unsigned char *to, int room) {
  static const unsigned char found[] = "\0\0\x81\x80\0\0\0\1\0\0\0\0"
                                       "\0\0\x10\0\1\0\0\0\0\0\x13\x12v=DMARC1; p=reject";
  int length = (int)sizeof found - 1;
  if (class_ != ns_c_in || type != ns_t_txt || room < length)
    abort();
  memcpy(to, found, (size_t)length);
  if (strcmp(name, "_dmarc.example.com") == 0)
    return length;
  to[7] = 0;
  resolver->res_h_errno = HOST_NOT_FOUND;
  return -1;
}

#undef res_nquery
#define res_nquery made_up_query
#endif

/* Every name that is written out is counted. */
static waslidhaj_written count_name(waslidhaj_state state, size_t walk, size_t place, uint8_t *out, size_t length) {
  asked++;
  return waslidhaj_name(state, walk, place, out, length);
}

#define waslidhaj_name count_name
#define main subject_main
#include "subject.c"
#undef main
#undef waslidhaj_name

static waslidhaj_given go_on(waslidhaj_called called) {
#ifdef CHECK
  static struct __res_state resolver;
  return evaluate(called, &resolver).given;
#else
  return evaluate(called);
#endif
}

static void wrong(const char *what, size_t index) {
  fprintf(report, "%s: %zu\n", what, index);
  exit(1);
}

/* Goes on with a state, as a program does that took it from a file. */
static void try_state(const waslidhaj_state *state, size_t index) {
  static waslidhaj_called called;
  waslidhaj_given given;
  memset(&called, 0, sizeof called);
  called.state = *state;
  asked = 0;
  given = go_on(called);
  if (asked > WASLIDHAJ_NAMES + 1)
    wrong("more names are asked than a message has", index);
  if (given.kind == WASLIDHAJ_VERDICT)
    verdicts++;
  else
    without++;
  if (given.kind != WASLIDHAJ_VERDICT && given.verdict.disposition != WASLIDHAJ_DISPOSITION_DEFER)
    wrong("a state without a verdict is not deferred", index);
}

static waslidhaj_called opened(const char *author) {
  static waslidhaj_called called;
  memset(&called, 0, sizeof called);
  return waslidhaj_open(called.state, (const uint8_t *)author, strlen(author), WASLIDHAJ_EXISTS, 1);
}

static waslidhaj_called added(waslidhaj_called called, uint8_t kind, const char *domain) {
  return waslidhaj_add(called.state, kind, WASLIDHAJ_PASSING, (const uint8_t *)domain, strlen(domain));
}

/* A message that was refused ends where it was, and is deferred. */
static void try_refused(waslidhaj_called called, unsigned number) {
  waslidhaj_given given;
  asked = 0;
  given = go_on(called);
  if (called.given.kind != WASLIDHAJ_REFUSED || given.kind != WASLIDHAJ_REFUSED || given.refusal.number != number)
    wrong("another refusal than", number);
  if (given.verdict.disposition != WASLIDHAJ_DISPOSITION_DEFER || asked != 0)
    wrong("a refused message is not deferred", number);
}

static void refused_messages(void) {
  waslidhaj_called called = opened("news.example.com");
  int index;
  try_refused(opened("news..example.com"), 1);
  try_refused(added(called, WASLIDHAJ_DKIM, "a..b"), 2);
  try_refused(added(added(called, WASLIDHAJ_SPF, "example.com"), WASLIDHAJ_SPF, "example.com"), 4);
  for (index = 0; index < WASLIDHAJ_IDENTIFIERS; index++)
    called = added(called, WASLIDHAJ_DKIM, "mail.example.com");
  try_refused(added(called, WASLIDHAJ_DKIM, "mail.example.com"), 4);
}

/* One bit changed, in every position of a state that asks its first name; then octets at random. */
static void damaged_states(void) {
  static waslidhaj_state state;
  uint8_t *octets = (uint8_t *)&state;
  waslidhaj_called called = waslidhaj_next(added(opened("news.example.com"), WASLIDHAJ_DKIM, "mail.example.com").state);
  uint64_t seed = 1;
  size_t index, at;
  state = called.state;
  try_state(&state, 0);
  if (called.given.kind != WASLIDHAJ_ASK || asked != (SHORT ? 1 : 4) || verdicts != (SHORT ? 0 : 1))
    wrong("the sound state comes to something else", asked);
  for (index = 0; index < 8 * sizeof state; index++) {
    state = called.state;
    octets[index / 8] = (uint8_t)(octets[index / 8] ^ 1u << index % 8);
    try_state(&state, index);
  }
  for (index = 0; index < 4000; index++) {
    for (at = 0; at < sizeof state; at++) {
      seed = seed * 6364136223846793005u + 1442695040888963407u;
      octets[at] = (uint8_t)(seed >> 56);
    }
    state.started = state.handed = 1;
    try_state(&state, index);
  }
}

int main(int argc, char **argv) {
  report = argc == 2 ? fopen(argv[1], "w") : NULL;
  if (report == NULL)
    return 2;
  refused_messages();
  damaged_states();
  fprintf(report, "%zu %zu\n", verdicts, without);
  return 0;
}
