/* careless: an address check by a program that looks at nothing but the agreement: on starts that are refused, on short memory,
 * on an answer that cannot be read and on damaged checks. Without an outcome it must read not known, and no check may ask names
 * without end.
 *
 *   careless FILE    writes into FILE how many damaged checks came to an outcome and how many to none, or what went wrong */
#include <stdio.h>
#include <stdlib.h>
#include <string.h>

#include "waslidhaj.h"

#define POLICY "blue.example.com"
#define ENTRY "mailto:reports@red.example.net"

static const char CONFIRMING[] = "blue.example.com._report._dmarc.red.example.net";
static const char RECORD[] = "TX\0\11\10v=DMARC1";
static const char UNREADABLE[] = "TX\0\11\7v=DMARC1";

static FILE *report;
static size_t outcomes, without;

static void wrong(const char *what, size_t index) {
  fprintf(report, "%s: %zu\n", what, index);
  exit(1);
}

/* What such a program reads of a call. */
static unsigned read_agreement(waslidhaj_check_given given, size_t index) {
  if (given.kind > WASLIDHAJ_REFUSED || given.agreement > WASLIDHAJ_ADDRESS_REPLACED)
    wrong("a number that is not listed", index);
  if (given.kind != WASLIDHAJ_OUTCOME && (given.agreement != WASLIDHAJ_ADDRESS_NOT_KNOWN || given.length != 0))
    wrong("without an outcome something is known", index);
  return given.agreement;
}

/* Goes on with a check whatever is given, for more turns than any check has names. One record confirms. */
static unsigned go_on(waslidhaj_check *check, const char *bytes, size_t name_room, size_t scratch_length, size_t index) {
  static uint8_t name[WASLIDHAJ_CHECK_NAME_OCTETS], scratch[WASLIDHAJ_SCRATCH_OCTETS];
  size_t turn, accepted = 0;
  for (turn = 0; turn < WASLIDHAJ_NAMES + 2; turn++) {
    waslidhaj_check_given given = waslidhaj_check_next(check);
    size_t length = waslidhaj_check_name(check, given.walk, given.place, name, name_room).length;
    int confirms = length == sizeof CONFIRMING - 1 && memcmp(name, CONFIRMING, length) == 0;
    read_agreement(given, index);
    given = waslidhaj_check_answer(check, name, length, confirms ? WASLIDHAJ_RECORDS : WASLIDHAJ_NO_RECORDS,
                                   (const uint8_t *)bytes, sizeof RECORD - 1, scratch, scratch_length);
    read_agreement(given, index);
    accepted += given.kind == WASLIDHAJ_ACCEPTED;
  }
  if (accepted == turn)
    wrong("names are asked without end", index);
  return read_agreement(waslidhaj_check_result(check), index);
}

static waslidhaj_check started(const char *policy, const char *entry, unsigned number) {
  waslidhaj_check check;
  waslidhaj_check_given given;
  memset(&check, 0, sizeof check);
  given = waslidhaj_check_start(&check, (const uint8_t *)policy, strlen(policy), (const uint8_t *)entry, strlen(entry));
  read_agreement(given, number);
  if (given.refusal.number != number)
    wrong("another refusal than", number);
  return check;
}

/* What is refused, and what is short or unreadable, is not known; all else being well, it is confirmed. */
static void refused(void) {
  static const struct {
    const char *policy, *entry, *bytes;
    size_t name_room, scratch_length;
    unsigned number, agreement;
  } rows[] = {
      {POLICY, ENTRY, RECORD, WASLIDHAJ_CHECK_NAME_OCTETS, 4096, 0, WASLIDHAJ_ADDRESS_CONFIRMED},
      {POLICY, ENTRY, UNREADABLE, WASLIDHAJ_CHECK_NAME_OCTETS, 4096, 0, WASLIDHAJ_ADDRESS_NOT_KNOWN},
      {POLICY, ENTRY, RECORD, WASLIDHAJ_CHECK_NAME_OCTETS, 4095, 0, WASLIDHAJ_ADDRESS_NOT_KNOWN},
      {POLICY, ENTRY, RECORD, sizeof CONFIRMING - 2, 4096, 0, WASLIDHAJ_ADDRESS_NOT_KNOWN},
      {"blue..example.com", ENTRY, RECORD, WASLIDHAJ_CHECK_NAME_OCTETS, 4096, 11, WASLIDHAJ_ADDRESS_NOT_KNOWN},
      {POLICY, "mailto:red.example.net", RECORD, WASLIDHAJ_CHECK_NAME_OCTETS, 4096, 23, WASLIDHAJ_ADDRESS_NOT_KNOWN},
  };
  size_t index;
  for (index = 0; index < sizeof rows / sizeof *rows; index++) {
    waslidhaj_check check = started(rows[index].policy, rows[index].entry, rows[index].number);
    if (go_on(&check, rows[index].bytes, rows[index].name_room, rows[index].scratch_length, index) != rows[index].agreement)
      wrong("another agreement is read", index);
  }
}

/* Goes on with a damaged check: it comes to an outcome, or is refused one. */
static void try_check(waslidhaj_check check, size_t index) {
  waslidhaj_check_given given;
  go_on(&check, RECORD, WASLIDHAJ_CHECK_NAME_OCTETS, 4096, index);
  given = waslidhaj_check_next(&check);
  if (given.kind == WASLIDHAJ_OUTCOME)
    outcomes++;
  else
    without++;
}

/* One bit changed, in every position of a check that asks its first name; then octets at random. */
static void damaged(void) {
  waslidhaj_check sound = started(POLICY, ENTRY, 0), check;
  uint8_t *octets = (uint8_t *)&check;
  uint64_t seed = 1;
  size_t index, at;
  waslidhaj_check_next(&sound);
  for (index = 0; index < 8 * sizeof check; index++) {
    check = sound;
    octets[index / 8] = (uint8_t)(octets[index / 8] ^ 1u << index % 8);
    try_check(check, index);
  }
  for (index = 0; index < 4000; index++) {
    for (at = 0; at < sizeof check; at++) {
      seed = seed * 6364136223846793005u + 1442695040888963407u;
      octets[at] = (uint8_t)(seed >> 56);
    }
    try_check(check, index);
  }
}

int main(int argc, char **argv) {
  report = argc == 2 ? fopen(argv[1], "w") : NULL;
  if (report == NULL)
    return 2;
  refused();
  damaged();
  fprintf(report, "%zu %zu\n", outcomes, without);
  return 0;
}
