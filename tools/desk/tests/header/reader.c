/* reader: a report read in parts as a program in C reads it, once for each size of a part. The rows are printed for the first size,
 * and must be the same for the others. It ends with 1 where something is refused. */
#include <stdio.h>
#include <stdlib.h>
#include <string.h>

#include "waslidhaj.h"

static const char REPORT[] =
    "<?xml version=\"1.0\" encoding=\"UTF-8\"?><feedback xmlns=\"urn:ietf:params:xml:ns:dmarc-2.0\">"
    "<report_metadata><org_name>Gate &amp; Sons</org_name><email>dmarc@gate.example</email><report_id>r7</report_id>"
    "<date_range><begin>1700000000</begin><end>1700086399</end></date_range></report_metadata>"
    "<policy_published><domain>example.com</domain><p>reject</p><adkim>r</adkim><aspf>r</aspf><testing>n</testing>"
    "</policy_published>"
    "<record><row><source_ip>192.0.2.1</source_ip><count>3</count><policy_evaluated><disposition>pass</disposition>"
    "<dkim>pass</dkim><spf>fail</spf></policy_evaluated></row><identifiers><header_from>news.example.com</header_from>"
    "</identifiers><auth_results><dkim><domain>mail.example.com</domain><selector>s1</selector><result>pass</result></dkim>"
    "<spf><domain>bounce.example.net</domain><result>temperror</result></spf></auth_results></record>"
    "<record><row><source_ip>2001:db8:0:0:0:0:0:1f</source_ip><count>4294967295</count><policy_evaluated>"
    "<disposition>reject</disposition><dkim>fail</dkim><spf>fail</spf></policy_evaluated></row><identifiers>"
    "<header_from>example.com</header_from></identifiers><auth_results></auth_results></record></feedback>";

static waslidhaj_reader reader;
static char first[1024], told[1024];

static void require(int right, const char *what) {
  if (!right) {
    printf("%s\n", what);
    exit(1);
  }
}

static void tell(const char *words, waslidhaj_text text) {
  size_t length = strlen(told);
  snprintf(told + length, sizeof told - length, "%s%.*s", words, (int)text.length, (const char *)text.octets);
}

static void tell_number(const char *words, unsigned long number) {
  size_t length = strlen(told);
  snprintf(told + length, sizeof told - length, "%s%lu", words, number);
}

/* The row that was handed out, on lines. */
static void tell_row(waslidhaj_read_given given) {
  waslidhaj_received row = waslidhaj_received_row(&reader, given);
  size_t index;
  for (index = 0; index < sizeof row.source; index++)
    tell_number(index == 0 ? "" : ".", row.source[index]);
  tell_number(" count ", row.count);
  tell_number(" disposition ", row.disposition);
  tell_number(" dkim ", row.dkim);
  tell_number(" spf ", row.spf);
  tell(" author ", row.author);
  for (index = 0; index < row.identifiers; index++) {
    waslidhaj_received_identifier own = waslidhaj_received_at(&reader, index);
    tell_number("\n  kind ", own.kind);
    tell_number(" outcome ", own.outcome);
    tell(" domain ", own.domain);
    tell(" selector ", own.selector);
  }
  require(waslidhaj_received_at(&reader, row.identifiers).domain.length == 0, "an identifier past the last one");
  strcat(told, "\n");
}

/* Reads a part to its end. */
static void read_part(const uint8_t *part, size_t length) {
  waslidhaj_read_given given;
  do {
    given = waslidhaj_read(&reader, part, length);
    require(given.event != WASLIDHAJ_READ_REFUSED, "the report is refused");
    part += given.used;
    length -= given.used;
    if (given.event == WASLIDHAJ_READ_ROW)
      tell_row(given);
    else
      require(waslidhaj_received_row(&reader, given).count == 0, "a row that was not handed out");
  } while (given.event == WASLIDHAJ_READ_ROW);
  require(length == 0, "a part is not used up");
}

static void read_report(size_t part_length) {
  const uint8_t *report = (const uint8_t *)REPORT;
  size_t at, left;
  told[0] = 0;
  waslidhaj_read_start(&reader);
  for (at = 0; at < sizeof REPORT - 1; at += part_length) {
    left = sizeof REPORT - 1 - at;
    read_part(report + at, left < part_length ? left : part_length);
  }
  require(waslidhaj_read_end(&reader).event == WASLIDHAJ_READ_MORE, "the end is refused");
}

/* Without its last octet the report ends early, and stays refused. */
static void read_early(void) {
  waslidhaj_read_given given;
  waslidhaj_read_start(&reader);
  read_part((const uint8_t *)REPORT, sizeof REPORT - 2);
  given = waslidhaj_read_end(&reader);
  require(given.event == WASLIDHAJ_READ_REFUSED && given.refusal.number == 22 && given.refusal.place == sizeof REPORT - 2,
          "an early end");
  given = waslidhaj_read(&reader, (const uint8_t *)">", 1);
  require(given.event == WASLIDHAJ_READ_REFUSED && given.used == 1 && given.refusal.number == 22, "a part after it");
  require(given.count == 0 && given.refusal.place == sizeof REPORT - 2, "its place");
}

int main(void) {
  size_t part_length;
  read_report(sizeof REPORT);
  memcpy(first, told, sizeof told);
  for (part_length = 1; part_length < sizeof REPORT; part_length++) {
    read_report(part_length);
    require(strcmp(first, told) == 0, "other rows in other parts");
  }
  read_early();
  printf("%s", first);
  return 0;
}
