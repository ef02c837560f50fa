/* day: a day of three messages as a program in C has it: the list is cleared, each message is entered with its author domain and
 * its identifiers, and the report and the subject of its mail are printed. It ends with 1 where something is refused. */
#include <stdio.h>
#include <stdlib.h>
#include <string.h>

#include "waslidhaj.h"

static const uint8_t DOMAIN[] = "example.com", RECEIVER[] = "gate.example", SIGNER[] = "mail.example.com",
                     RETURN[] = "bounce.example.net", SELECTOR[] = "s1", ID[] = "r7";

static waslidhaj_row rows[WASLIDHAJ_ROWS];
static waslidhaj_list list;
static uint8_t authors[1024], sets[4096], set[WASLIDHAJ_SET_OCTETS];
static size_t authors_length, sets_length, set_length;

static void require(int right, const char *what) {
  if (!right) {
    printf("%s\n", what);
    exit(1);
  }
}

static waslidhaj_text text_of(const void *octets, size_t length) {
  waslidhaj_text text;
  text.octets = (const uint8_t *)octets;
  text.length = length;
  return text;
}

static waslidhaj_lists packed(void) {
  waslidhaj_lists lists;
  lists.authors = text_of(authors, authors_length);
  lists.sets = text_of(sets, sets_length);
  return lists;
}

/* A message that passes by its signature, from 192.0.2.1, 192.0.2.2 and so on. */
static void enter(const char *author, size_t author_length, uint8_t last) {
  static const uint8_t mapped[16] = {0, 0, 0, 0, 0, 0, 0, 0, 0, 0, 255, 255, 192, 0, 2, 0};
  waslidhaj_entry entry;
  waslidhaj_list_changed changed;
  memset(&entry, 0, sizeof entry);
  memcpy(entry.source, mapped, sizeof mapped);
  entry.source[15] = last;
  entry.finding.result = WASLIDHAJ_RESULT_PASS;
  entry.finding.dkim = 1;
  set_length = 0;
  require(waslidhaj_pack_author(authors, &authors_length, sizeof authors, (const uint8_t *)author, author_length,
                                &entry.author) &&
              waslidhaj_pack_identifier(set, &set_length, sizeof set, WASLIDHAJ_DKIM, WASLIDHAJ_PASSING, SELECTOR,
                                        sizeof SELECTOR - 1, SIGNER, sizeof SIGNER - 1) &&
              waslidhaj_pack_identifier(set, &set_length, sizeof set, WASLIDHAJ_SPF, WASLIDHAJ_NOT_PASSING, NULL, 0, RETURN,
                                        sizeof RETURN - 1) &&
              waslidhaj_pack_set(sets, &sets_length, sizeof sets, set, set_length, &entry.set),
          "the lists have no room");
  changed = waslidhaj_enter(list, entry, DOMAIN, sizeof DOMAIN - 1, packed(), rows, WASLIDHAJ_ROWS);
  require(changed.refusal.number == 0, "the message is refused");
  list = changed.list;
}

static void print_report(void) {
  static uint8_t out[WASLIDHAJ_REPORT_OCTETS];
  static const char record[] = "v=DMARC1; p=reject";
  waslidhaj_record_read read = waslidhaj_read_record((const uint8_t *)record, sizeof record - 1);
  waslidhaj_reporter reporter;
  waslidhaj_written written;
  reporter.organization = text_of("Gate & Sons", 11);
  reporter.email = text_of("dmarc@gate.example", 18);
  reporter.contact = text_of(NULL, 0);
  reporter.id = text_of(ID, sizeof ID - 1);
  reporter.begin = 1700000000;
  reporter.end = 1700086399;
  written = waslidhaj_report(list, rows, WASLIDHAJ_ROWS, read.settings, packed(), reporter, out, sizeof out);
  require(written.refusal.number == 0, "the report is refused");
  printf("%.*s\n", (int)written.length, (const char *)out);
  written = waslidhaj_subject(RECEIVER, sizeof RECEIVER - 1, DOMAIN, sizeof DOMAIN - 1, ID, sizeof ID - 1, out, sizeof out);
  require(written.refusal.number == 0, "the subject is refused");
  printf("%.*s\n", (int)written.length, (const char *)out);
}

int main(void) {
  waslidhaj_list_changed changed = waslidhaj_clear(waslidhaj_new_list(), DOMAIN, sizeof DOMAIN - 1, rows, WASLIDHAJ_ROWS);
  require(changed.refusal.number == 0, "the list is not cleared");
  list = changed.list;
  enter("example.com", 11, 1);
  enter("news.example.com", 16, 2);
  enter("example.com", 11, 1);
  print_report();
  return 0;
}
